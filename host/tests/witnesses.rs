//! The comment of a must-fail edit has a witness: an input that tells the edited program, or promise, from the one that stands. A witness
//! that begins with a call is run:
//!
//! ```text
//! # Witness `CALL` on INPUT, INPUT: FACT, FACT; here ..
//! ```
//!
//! On these inputs the library gives these facts; what follows the semicolon is of the edit, and isn't run. Any other witness is prose.
//!
//! An input is a game (`P1` to `P7`, `P10`, `game B`, `game C`, `game D`, or `game` with its words), `K more words` behind it, a buffer with its
//! words or with its length (`marks 85 1`, `output of 14`), `no` buffer, `no memory`, `pair V W marked` in a relation that is judged, `edge V to W`,
//! `Even` or `Odd`, or a number by its name (`vertex 5`, `degree 2`). Buffers that aren't named are long enough, and filled with 7.
//!
//! A fact is `accepted`, a refusal (`10 at 2`), a field of the answer (`passes 2`), words with which a buffer begins (`class words 0 1 0`),
//! `pair V W marked` or `unmarked` in the marks, or `edge V to W` or `no edge V to W` in the game that is written.

#[path = "../oracle/tests/games/mod.rs"]
mod games;

mod common;

use common::{root, say};
use games::{B, C, D, ODD_C};
use raskjomi::exports::{self, RaskjomiAnswer};
use raskjomi::{is_marked, mark_bytes, MOST_PLAN_WORDS, MOST_TABLE_WORDS, MOST_VERTICES};
use std::collections::BTreeMap;
use std::fs;
use std::path::PathBuf;

/// Fewer witnesses that begin with a call are a failure.
const LEAST: usize = 310;

/// What a call is given, and after it what it has left.
struct Case {
    /// The lent words by their names, and bytes as words.
    words: BTreeMap<&'static str, Vec<u16>>,
    numbers: BTreeMap<String, u32>,
}

impl Case {
    fn new() -> Case {
        let marks = mark_bytes(MOST_VERTICES);
        let lengths = [
            ("game", 0),
            ("plan", 0),
            ("trace", 0),
            ("solution", 0),
            ("certificate", 0),
            ("reduced", 0),
            ("marks", marks),
            ("spare", marks),
            ("class words", MOST_VERTICES),
            ("reduction", MOST_TABLE_WORDS),
            ("output", MOST_PLAN_WORDS),
            ("table", MOST_TABLE_WORDS),
        ];
        let words = lengths.map(|(name, length)| (name, vec![7; length]));
        Case { words: BTreeMap::from(words), numbers: BTreeMap::new() }
    }

    /// The buffer whose name begins the text, and the rest of the text.
    fn named<'a>(&self, text: &'a str) -> Option<(&'static str, &'a str)> {
        let rest = |name: &str| text.strip_prefix(name)?.strip_prefix(' ');
        self.words.keys().find_map(|&name| Some((name, rest(name)?)))
    }

    fn set(&mut self, name: &str, words: Vec<u16>) {
        *self.words.get_mut(name).expect("a buffer's name") = words;
    }

    fn input(&mut self, text: &str) -> Result<(), String> {
        match text.split(' ').collect::<Vec<&str>>()[..] {
            ["Even"] => self.number("player", "0")?,
            ["Odd"] => self.number("player", "1")?,
            ["edge", source, "to", target] => {
                self.number("source", source)?;
                self.number("target", target)?;
            }
            ["pair", v, w, "marked"] => self.mark(parsed(v)?, parsed(w)?),
            [count, "more", "word" | "words"] => {
                let game = self.words.get_mut("game").expect("a game");
                game.extend(vec![7; parsed(count)?]);
            }
            ["no", "memory"] => {
                for name in ["marks", "spare", "class words", "reduction", "output", "table"] {
                    self.set(name, vec![]);
                }
            }
            _ if text.starts_with("no ") => match self.named(&format!("{} ", &text[3..])) {
                Some((name, "")) => self.set(name, vec![]),
                _ => return Err(format!("no buffer in `{text}`")),
            },
            _ => return self.content(text),
        }
        Ok(())
    }

    /// A game by its name, a buffer with its words or its length, or a number with its name.
    fn content(&mut self, text: &str) -> Result<(), String> {
        if let Some(game) = worked_game(text) {
            self.set("game", game);
        } else if let Some((name, words)) = self.named(text) {
            let words = match words.strip_prefix("of ") {
                Some(length) => vec![7; parsed(length)?],
                None => list(words)?,
            };
            self.set(name, words);
        } else {
            let (name, value) = text.split_once(' ').ok_or(format!("`{text}`"))?;
            self.number(name, value)?;
        }
        Ok(())
    }

    fn number(&mut self, name: &str, value: &str) -> Result<(), String> {
        self.numbers.insert(name.to_string(), parsed(value)?);
        Ok(())
    }

    /// Marks a pair in a relation that has no mark but those given so.
    fn mark(&mut self, v: usize, w: usize) {
        let n = self.words["game"][0] as usize;
        if self.words["marks"].len() != mark_bytes(n) {
            self.set("marks", vec![0; mark_bytes(n)]);
        }
        self.words.get_mut("marks").expect("marks")[(v * n + w) / 8] |= 1 << ((v * n + w) % 8);
    }

    fn bytes(&self, name: &str) -> Vec<u8> {
        self.words[name].iter().map(|&word| word as u8).collect()
    }

    /// Makes the call, and keeps what it leaves in the buffers.
    fn run(&mut self, call: &str) -> Result<RaskjomiAnswer, String> {
        let edits = ["add_edge", "remove_edge", "replay"];
        if edits.contains(&call) {
            self.set("table", self.words["game"].clone());
        }
        let mut lent = Lent {
            marks: self.bytes("marks"),
            spare: self.bytes("spare"),
            classes: self.words["class words"].clone(),
            reduction: self.words["reduction"].clone(),
            output: self.words["output"].clone(),
            table: self.words["table"].clone(),
        };
        let answer = match self.plain(call, &mut lent) {
            Some(answer) => answer,
            None => self.numbered(call, &mut lent)?,
        };
        let words = |bytes: Vec<u8>| bytes.into_iter().map(u16::from).collect();
        self.set("marks", words(lent.marks));
        self.set("spare", words(lent.spare));
        self.set("class words", lent.classes);
        self.set("reduction", lent.reduction);
        self.set("output", lent.output);
        self.set("table", lent.table);
        Ok(answer)
    }

    /// Words as those of large games.
    fn wide(&self, name: &str) -> Vec<u32> {
        self.words[name].iter().map(|&word| word.into()).collect()
    }

    /// The calls without a number.
    fn plain(&self, call: &str, lent: &mut Lent) -> Option<RaskjomiAnswer> {
        let (game, trace) = (&self.words["game"][..], &self.words["trace"][..]);
        let Lent { marks, spare, classes, output, table, .. } = lent;
        Some(match call {
            "read" => exports::read(game),
            "order" => exports::order(game, marks, spare),
            "accept_relation" => exports::accept_relation(game, marks),
            "classes" => exports::classes(game, marks, spare, classes),
            "quotient" => exports::quotient(game, marks, spare, classes, output),
            "reduce" => exports::reduce(game, marks, spare, classes, output),
            "convert" => exports::convert(game, output),
            "replay" => exports::replay(table, trace, marks, spare, classes),
            "governed_order" => exports::governed_order(game, marks, spare),
            "accept_governed" => exports::accept_governed(game, marks),
            "governed_classes" => exports::governed_classes(game, marks, spare, classes),
            "large_read" => exports::large_read(&self.wide("game")),
            "large_solution" => {
                let [game, solution, certificate] =
                    ["game", "solution", "certificate"].map(|name| self.wide(name));
                exports::large_solution(&game, &solution, &certificate)
            }
            "large_reduction" => {
                let [game, reduced, classes, certificate] =
                    ["game", "reduced", "class words", "certificate"].map(|name| self.wide(name));
                exports::large_reduction(&game, &reduced, &classes, &certificate)
            }
            _ => return None,
        })
    }

    /// The calls with numbers.
    fn numbered(&self, call: &str, lent: &mut Lent) -> Result<RaskjomiAnswer, String> {
        let number = |name: &str| self.numbers.get(name).copied().ok_or(format!("no {name}"));
        let (game, plan) = (&self.words["game"][..], &self.words["plan"][..]);
        let Lent { marks, spare, classes, reduction, output, .. } = lent;
        let (player, vertex) = (number("player"), number("vertex"));
        Ok(match call {
            "seed" => {
                let (seed, vertices) = (number("seed")?, number("vertices")?);
                exports::seed(seed, vertices, number("degree")?, number("priorities")?, output)
            }
            "accept_plan" => exports::accept_plan(game, player?, plan),
            "carry" => exports::carry(game, player?, plan, vertex?, marks, spare, output),
            "carry_class" => exports::carry_class(
                game, player?, plan, vertex?, marks, spare, classes, reduction, output,
            ),
            "verdict" => {
                exports::verdict(game, vertex?, player?, plan, marks, spare, classes, reduction)
            }
            _ => return self.edited(call, number("source")?, number("target")?, lent),
        })
    }

    /// The calls with an edge.
    fn edited(
        &self,
        call: &str,
        source: u32,
        target: u32,
        lent: &mut Lent,
    ) -> Result<RaskjomiAnswer, String> {
        let game = &self.words["game"][..];
        let Lent { marks, spare, classes, table, .. } = lent;
        Ok(match call {
            "add_edge" => exports::add_edge(table, source, target, marks, spare, classes),
            "remove_edge" => exports::remove_edge(table, source, target, marks, spare, classes),
            "preview_add" => {
                exports::preview_add(game, source, target, table, marks, spare, classes)
            }
            "preview_remove" => {
                exports::preview_remove(game, source, target, table, marks, spare, classes)
            }
            _ => return Err(format!("no call `{call}`")),
        })
    }

    /// Whether a fact holds after the call.
    fn holds(&self, call: &str, answer: &RaskjomiAnswer, fact: &str) -> Result<bool, String> {
        let edge = |v: &str, w: &str| self.has_edge(call, parsed(v)?, parsed(w)?);
        let pair = |v: &str, w: &str| {
            let n = self.words["game"][0] as usize;
            Ok::<bool, String>(is_marked(&self.bytes("marks"), n, parsed(v)?, parsed(w)?))
        };
        match fact.split(' ').collect::<Vec<&str>>()[..] {
            ["accepted"] => Ok(answer.number == 0),
            [number, "at", place] => {
                Ok(answer.number == parsed(number)? && answer.place == parsed(place)?)
            }
            ["pair", v, w, "marked"] => pair(v, w),
            ["pair", v, w, "unmarked"] => Ok(!pair(v, w)?),
            ["edge", v, "to", w] => edge(v, w),
            ["no", "edge", v, "to", w] => Ok(!edge(v, w)?),
            _ => match (field(answer, fact), self.named(fact)) {
                (Some((value, expected)), _) => Ok(value == parsed(expected)?),
                (_, Some((name, words))) => Ok(self.words[name].starts_with(&list(words)?)),
                _ => Err(format!("no fact `{fact}`")),
            },
        }
    }

    /// Whether the game that the call has written has an edge.
    fn has_edge(&self, call: &str, v: u16, w: u16) -> Result<bool, String> {
        let name = match call {
            "quotient" | "reduce" | "convert" | "seed" => "output",
            "carry_class" | "verdict" => "reduction",
            "add_edge" | "remove_edge" | "replay" | "preview_add" | "preview_remove" => "table",
            _ => return Err(format!("`{call}` writes no game")),
        };
        let table = &self.words[name];
        let (n, m) = (table[0] as usize, table[1] as usize);
        let (sources, targets) = table[2 + 2 * n..].split_at(m);
        Ok(sources.iter().zip(targets).any(|edge| edge == (&v, &w)))
    }
}

/// The memory that is lent to a call.
struct Lent {
    marks: Vec<u8>,
    spare: Vec<u8>,
    classes: Vec<u16>,
    reduction: Vec<u16>,
    output: Vec<u16>,
    table: Vec<u16>,
}

/// The field of the answer that the fact names, and the value that the fact gives.
fn field<'a>(answer: &RaskjomiAnswer, fact: &'a str) -> Option<(u32, &'a str)> {
    let (name, expected) = fact.split_once(' ')?;
    let value = match name {
        "passes" => answer.passes,
        "classes" => answer.classes,
        "vertices" => answer.vertices,
        "edges" => answer.edges,
        "different" => answer.different,
        "positions" => answer.positions,
        "links" => answer.links,
        "entries" => answer.entries,
        "shown" => answer.shown,
        _ => return None,
    };
    Some((value, expected))
}

/// A game of document 01.
fn worked_game(name: &str) -> Option<Vec<u16>> {
    Some(match name {
        "P1" => vec![1, 1, 1, 1, 0, 0],
        "P2" => vec![],
        "P3" => vec![0, 0],
        "P4" => vec![1, 0, 0, 0],
        "P5" => vec![1, 1, 0, 2, 0, 0],
        "P6" => vec![1, 1, 0, 0, 0, 1],
        "P7" => vec![1, 2, 0, 0, 0, 0, 0, 0],
        "game B" => B.to_vec(),
        "game C" => C.to_vec(),
        "P10" => ODD_C.to_vec(),
        "game D" => D.to_vec(),
        _ => return None,
    })
}

fn parsed<T: std::str::FromStr>(text: &str) -> Result<T, String> {
    text.parse().map_err(|_| format!("no number `{text}`"))
}

/// Words with blanks between them, and with slashes between parts.
fn list(text: &str) -> Result<Vec<u16>, String> {
    text.split(' ').filter(|&word| word != "/").map(parsed).collect()
}

/// Runs a witness, the text after "Witness ": `None` if it is prose.
fn check(witness: &str) -> Option<Result<(), String>> {
    let call = witness.strip_prefix('`')?.split_once("` on ");
    Some(call.ok_or("no call".to_string()).and_then(|(call, rest)| check_call(call, rest)))
}

fn check_call(call: &str, rest: &str) -> Result<(), String> {
    let (inputs, rest) = rest.split_once(": ").ok_or("no facts")?;
    let facts = rest.split(['.', ';']).next().expect("a part");
    if call == "kind" {
        let number = inputs.strip_prefix("number ").ok_or("no number")?;
        let kind = facts.strip_prefix("kind ").ok_or("no kind")?;
        let holds = exports::kind(parsed(number)?) == parsed::<u32>(kind)?;
        return holds.then_some(()).ok_or(format!("`{facts}` isn't so"));
    }
    let mut case = Case::new();
    inputs.split(", ").try_for_each(|text| case.input(text))?;
    let answer = case.run(call)?;
    for fact in facts.split(", ") {
        if !case.holds(call, &answer, fact)? {
            return Err(format!("`{fact}` isn't so: {answer:?}"));
        }
    }
    Ok(())
}

/// The must-fail edits.
fn edits() -> Vec<PathBuf> {
    let entries = |folder: PathBuf| match fs::read_dir(&folder) {
        Ok(entries) => entries.map(|entry| entry.expect("an entry").path()).collect(),
        Err(_) => vec![],
    };
    let crates = entries(root().join("crates"));
    let mut paths: Vec<PathBuf> =
        crates.iter().flat_map(|folder| entries(folder.join("must-fail"))).collect();
    paths.sort();
    paths
}

/// The witnesses of an edit's comment: each goes on to the next one, or to the comment's end.
fn witnesses(text: &str) -> Vec<String> {
    let comment = text.lines().map_while(|line| line.strip_prefix("# "));
    let comment = comment.collect::<Vec<&str>>().join(" ");
    comment.split("Witness ").skip(1).map(|witness| witness.trim_end().to_string()).collect()
}

#[test]
fn witnesses_that_begin_with_a_call_hold() {
    let (mut ran, mut wrong) = (0, vec![]);
    for path in edits() {
        let text = fs::read_to_string(&path).expect("an edit");
        for witness in witnesses(&text) {
            let Some(checked) = check(&witness) else { continue };
            ran += 1;
            if let Err(error) = checked {
                wrong.push(format!("{}: {error}", path.display()));
            }
        }
    }
    say(format!("witnesses: {ran} ran"));
    assert!(wrong.is_empty(), "{}", wrong.join("\n"));
    assert!(ran >= LEAST, "{ran} witnesses ran, and {LEAST} are asked for");
}

#[test]
fn a_witness_that_is_false_or_garbled_is_noticed() {
    let holds = |witness: &str| check(witness).map(|checked| checked.is_ok());
    assert_eq!(holds("`order` on game C: passes 2, pair 1 2 marked; here 1."), Some(true));
    assert_eq!(holds("`reduce` on game C: no edge 0 to 1, edge 0 to 2; here not."), Some(true));
    assert_eq!(holds("`kind` on number 21: kind 4; here 1."), Some(true));
    let large = "`large_solution` on game 1 1 / 0 / 0 / 0 / 0, solution 0 0, certificate 0 0 0";
    assert_eq!(holds(&format!("{large}: accepted; here not.")), Some(true));
    assert_eq!(holds(&format!("{large}: 89 at 0; here not.")), Some(false));
    let large = "`large_reduction` on game 1 1 / 0 / 0 / 0 / 0, reduced 1 1 / 0 / 0 / 0 / 0, \
                 class words 0, certificate 0 0 0 0";
    assert_eq!(holds(&format!("{large}: accepted; here not.")), Some(true));
    assert_eq!(holds(&format!("{large}: 106 at 0; here not.")), Some(false));
    for witness in [
        "`order` on game C: passes 1; here 2.",
        "`order` on game C: pair 2 1 marked.",
        "`reduce` on game B: class words 0 1 1.",
        "`reduce` on game C: no edge 0 to 2.",
        "`kind` on number 21: kind 1.",
        "`order` on game E: passes 2.",
        "`order` on game C: some passes.",
        "`order` on game C",
        "`order`: passes 2.",
        "`ordering` on game C: passes 2.",
        "`carry` on game C, Even: accepted.",
    ] {
        assert_eq!(holds(witness), Some(false), "{witness}");
    }
    assert_eq!(holds("game C: passes 2."), None);
}
