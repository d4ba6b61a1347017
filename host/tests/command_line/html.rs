//! A strict reader of HTML: what it takes is closed, quoted and escaped everywhere.

/// Elements without content.
const EMPTY: [&str; 2] = ["input", "meta"];

/// Elements whose content is no markup.
const RAW: [&str; 2] = ["style", "script"];

/// The characters that are escaped.
const ESCAPED: [(&str, char); 5] =
    [("&amp;", '&'), ("&lt;", '<'), ("&gt;", '>'), ("&quot;", '"'), ("&#39;", '\'')];

#[derive(Debug)]
pub struct Element {
    pub name: String,
    pub attributes: Vec<(String, String)>,
    pub children: Vec<Child>,
}

#[derive(Debug)]
pub enum Child {
    Element(Element),
    Text(String),
}

/// The root element of a page.
pub fn parse(page: &str) -> Element {
    let rest = page.strip_prefix("<!DOCTYPE html>\n").expect("a document type");
    let mut reader = Reader { rest };
    let root = reader.element();
    assert_eq!(reader.rest, "\n", "nothing follows the root");
    root
}

struct Reader<'a> {
    rest: &'a str,
}

impl<'a> Reader<'a> {
    /// Takes what stands before a mark, and the mark.
    fn until(&mut self, mark: &str) -> &'a str {
        let (before, rest) = self.rest.split_once(mark).expect("it goes on");
        self.rest = rest;
        before
    }

    fn take(&mut self, mark: &str) {
        let start: String = self.rest.chars().take(80).collect();
        self.rest = self.rest.strip_prefix(mark).unwrap_or_else(|| panic!("no {mark}: {start}"));
    }

    fn element(&mut self) -> Element {
        self.take("<");
        let end = self.rest.find([' ', '>']).expect("a tag ends");
        let name = self.rest[..end].to_string();
        assert!(name.chars().all(|c| c.is_ascii_alphanumeric()), "no name of an element: {name}");
        self.rest = &self.rest[end..];
        let attributes = self.attributes();
        let mut children = Vec::new();
        if RAW.contains(&&*name) {
            children.push(Child::Text(self.until(&format!("</{name}>")).into()));
        } else if !EMPTY.contains(&&*name) {
            while !self.rest.starts_with("</") {
                children.push(self.child());
            }
            self.take(&format!("</{name}>"));
        }
        Element { name, attributes, children }
    }

    fn attributes(&mut self) -> Vec<(String, String)> {
        let mut attributes: Vec<(String, String)> = Vec::new();
        while self.rest.starts_with(' ') {
            self.take(" ");
            let key = self.until("=\"");
            assert!(
                key.chars().all(|c| c.is_ascii_alphanumeric() || c == '-'),
                "no name of an attribute: {key}"
            );
            assert!(attributes.iter().all(|(other, _)| other != key), "{key} twice");
            attributes.push((key.into(), plain(self.until("\""))));
        }
        self.take(">");
        attributes
    }

    fn child(&mut self) -> Child {
        if self.rest.starts_with('<') {
            return Child::Element(self.element());
        }
        let end = self.rest.find('<').expect("an element ends");
        let text = plain(&self.rest[..end]);
        self.rest = &self.rest[end..];
        Child::Text(text)
    }
}

/// Text with nothing escaped; it has no character that has to be.
fn plain(escaped: &str) -> String {
    assert!(!escaped.contains(['<', '>', '"', '\'']), "not escaped: {escaped}");
    let mut parts = escaped.split('&');
    let mut text = parts.next().unwrap_or_default().to_string();
    for part in parts {
        let whole = format!("&{part}");
        let escape = ESCAPED.iter().find(|(name, _)| whole.starts_with(name));
        let (name, c) = escape.unwrap_or_else(|| panic!("no escape: {whole}"));
        text.push(*c);
        text += &whole[name.len()..];
    }
    text
}

impl Element {
    pub fn attribute(&self, key: &str) -> Option<&str> {
        self.attributes.iter().find(|(other, _)| other == key).map(|(_, value)| &**value)
    }

    /// Itself and all elements within.
    pub fn all(&self) -> Vec<&Element> {
        let mut found = vec![self];
        for child in &self.children {
            if let Child::Element(element) = child {
                found.extend(element.all());
            }
        }
        found
    }

    /// The elements of a name within.
    pub fn named(&self, name: &str) -> Vec<&Element> {
        self.all().into_iter().filter(|element| element.name == name).collect()
    }

    /// The element with an id.
    pub fn id(&self, id: &str) -> Option<&Element> {
        self.all().into_iter().find(|element| element.attribute("id") == Some(id))
    }

    /// The elements of a class within.
    pub fn class(&self, class: &str) -> Vec<&Element> {
        let has = |element: &&Element| {
            element
                .attribute("class")
                .is_some_and(|classes| classes.split(' ').any(|one| one == class))
        };
        self.all().into_iter().filter(has).collect()
    }

    /// All text within.
    pub fn text(&self) -> String {
        let text = |child: &Child| match child {
            Child::Text(text) => text.clone(),
            Child::Element(element) => element.text(),
        };
        self.children.iter().map(text).collect()
    }
}
