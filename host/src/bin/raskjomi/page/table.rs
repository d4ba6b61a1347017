//! Tables of vertices, which a script can search and sort.

use super::facts::Facts;
use super::html::{element, line, link, plain, text, Attribute, Html};

/// A row about some vertices, and what is folded beneath it.
pub struct Row<'a> {
    /// The row is found by the ids and names of these.
    pub about: &'a [usize],
    pub anchor: Option<String>,
    pub cells: Vec<Cell>,
    pub beneath: Option<Html>,
}

/// A cell, and the number that it is sorted by.
pub struct Cell {
    content: Html,
    key: Option<usize>,
}

impl Cell {
    /// A vertex, with a link to its row.
    pub fn vertex(facts: &Facts, vertex: usize) -> Cell {
        Cell { content: named(facts, vertex), key: Some(vertex) }
    }

    pub fn number(number: usize) -> Cell {
        Cell { content: text(number), key: Some(number) }
    }

    pub fn words(content: Html) -> Cell {
        Cell { content, key: None }
    }
}

/// A vertex's label with a link to its row; text of any direction stays within it.
pub fn named(facts: &Facts, vertex: usize) -> Html {
    link(&facts.anchor(vertex), label(&facts.vertices[vertex].label))
}

/// A label, within which text of any direction stays.
pub fn label(label: &str) -> Html {
    line("bdi", label)
}

/// Vertices as a list, each with a link.
pub fn listed(facts: &Facts, vertices: &[usize]) -> Html {
    let mut list = Html::default();
    for (i, &vertex) in vertices.iter().enumerate() {
        match i {
            0 => (),
            _ if i + 1 == vertices.len() => list.push(text(" and ")),
            _ => list.push(text(", ")),
        }
        list.push(named(facts, vertex));
    }
    list
}

/// A table with a heading for each column.
pub fn table(caption: &str, columns: &[&str], rows: Html) -> Html {
    let heading = |title: &&str| element("th", &[("scope", "col")], text(title));
    let head = plain("thead", plain("tr", columns.iter().map(heading).collect::<Html>()));
    let table = element("table", &[("class", "sortable")], [line("caption", caption), head, rows]);
    scrolled(caption, table)
}

/// The first rows that take at most so many bytes, and the number of those that are left out.
pub fn first_rows(rows: impl Iterator<Item = Html>, most: usize) -> (Html, usize) {
    let (mut first, mut left_out) = (Html::default(), 0);
    for row in rows {
        match left_out > 0 || first.len() + row.len() > most {
            true => left_out += 1,
            false => first.push(row),
        }
    }
    (first, left_out)
}

/// Something wide, which a narrow window shows a part of.
pub fn scrolled(title: &str, content: Html) -> Html {
    let attributes =
        [("class", "wide"), ("tabindex", "0"), ("role", "region"), ("aria-label", title)];
    element("div", &attributes, content)
}

impl Row<'_> {
    /// The row as a part of a table's body, so that it and what is beneath it move together.
    pub fn html(self, facts: &Facts) -> Html {
        let ids: Vec<String> =
            self.about.iter().map(|&vertex| facts.vertices[vertex].id.to_string()).collect();
        let names: Vec<&str> = self
            .about
            .iter()
            .filter_map(|&vertex| facts.vertices[vertex].name.as_deref())
            .collect();
        let (ids, names) = (ids.join(" "), names.join("\n"));
        let mut attributes: Vec<Attribute> = vec![("data-ids", &ids)];
        if !names.is_empty() {
            attributes.push(("data-names", &names));
        }
        if let Some(anchor) = &self.anchor {
            attributes.push(("id", anchor));
        }
        let columns = self.cells.len().to_string();
        let cells = self.cells.into_iter().enumerate().map(|(i, cell)| cell.html(i == 0));
        let mut rows = plain("tr", cells.collect::<Html>());
        if let Some(beneath) = self.beneath {
            rows.push(plain("tr", element("td", &[("colspan", &columns)], beneath)));
        }
        element("tbody", &attributes, rows)
    }
}

impl Cell {
    fn html(self, is_heading: bool) -> Html {
        let key = self.key.map(|key| key.to_string());
        let mut attributes: Vec<Attribute> = Vec::new();
        if is_heading {
            attributes.push(("scope", "row"));
        }
        if let Some(key) = &key {
            attributes.push(("data-key", key));
        }
        element(if is_heading { "th" } else { "td" }, &attributes, self.content)
    }
}

/// Something that is folded until it is opened.
pub fn folded(summary: &str, content: Html) -> Html {
    plain("details", [line("summary", summary), content])
}
