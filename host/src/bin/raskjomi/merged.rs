//! The vertices that another one represents, of a game of any size.

use crate::any_size::AnySize;
use crate::arguments::Arguments;
use crate::commands::{class_of_each, Written};
use crate::reduced::Reduced;
use crate::text;
use crate::values::{self, Called, BY_MOVES, BY_ORDER};
use raskjomi::formats::json::{self, Value};
use raskjomi::members;

/// A vertex with its class, and the lowest member of the class, which is another one.
struct Row {
    vertex: usize,
    class: u32,
    lowest: usize,
}

/// `merged`.
pub fn merged(arguments: &Arguments) -> Written {
    let json = arguments.has("--json");
    match AnySize::load(arguments.file(0), arguments.has("--large"))? {
        AnySize::Small(game) => {
            let classes = class_of_each(&game.game);
            let members = members(&classes);
            let rows = (0..).zip(&classes).map(|(vertex, &class)| {
                let lowest = members[class as usize][0];
                Row { vertex, class: class.into(), lowest }
            });
            written(BY_ORDER, rows, game.vertices(), json)
        }
        AnySize::Large(game) => {
            let Reduced { of, reduction } = Reduced::make(game)?;
            let members = reduction.members();
            let rows = (0..).zip(reduction.classes()).map(|(vertex, &class)| {
                let lowest = members.of(class)[0] as usize;
                Row { vertex, class, lowest }
            });
            written(BY_MOVES, rows, &of, json)
        }
    }
}

/// A line for each row whose vertex isn't the lowest member itself, or a value.
fn written(by: &str, rows: impl Iterator<Item = Row>, called: &dyn Called, json: bool) -> Written {
    let rows = rows.filter(|row| row.vertex != row.lowest);
    if json {
        let rows = rows.map(|row| value(&row, called)).collect();
        let fields = [("by", Value::from(by)), ("merged", Value::List(rows))];
        return Ok(values::line(json::object(fields)));
    }
    let lines: String = rows
        .map(|Row { vertex, class, lowest }| {
            text::merged(&called.label_of(vertex), class, &called.label_of(lowest))
        })
        .collect();
    Ok(if lines.is_empty() { text::NONE_MERGED.into() } else { lines.into() })
}

fn value(row: &Row, called: &dyn Called) -> Value {
    let fields = [
        ("class", Value::from(row.class as usize)),
        ("represented_by", json::object(called.fields_of(row.lowest))),
    ];
    json::object(called.fields_of(row.vertex).into_iter().chain(fields))
}
