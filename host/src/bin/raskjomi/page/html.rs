//! HTML as a type of its own: what is text when it comes in is text on the page.

use super::sha256;
use std::fmt::{self, Display, Write};

/// Markup. Text becomes markup by `text` alone, and an attribute's value by `Attribute`.
#[derive(Clone, Debug, Default, PartialEq, Eq)]
pub struct Html(String);

/// A name with its value.
pub type Attribute<'a> = (&'static str, &'a str);

/// Elements that have no content and no end tag.
const EMPTY: [&str; 2] = ["input", "meta"];

impl Html {
    pub fn len(&self) -> usize {
        self.0.len()
    }

    pub fn push(&mut self, more: Html) {
        self.0 += &more.0;
    }

    /// The page that the markup makes.
    pub fn page(self) -> String {
        format!("<!DOCTYPE html>\n{}\n", self.0)
    }
}

impl FromIterator<Html> for Html {
    fn from_iter<I: IntoIterator<Item = Html>>(parts: I) -> Html {
        let mut all = Html::default();
        parts.into_iter().for_each(|part| all.push(part));
        all
    }
}

impl<const N: usize> From<[Html; N]> for Html {
    fn from(parts: [Html; N]) -> Html {
        parts.into_iter().collect()
    }
}

/// Text as markup that shows it.
pub fn text(text: impl Display) -> Html {
    let mut markup = String::new();
    write!(Escaped(&mut markup), "{text}").expect("a string takes all");
    Html(markup)
}

/// An element.
pub fn element(name: &str, attributes: &[Attribute], content: impl Into<Html>) -> Html {
    let mut markup = format!("<{name}");
    for (key, value) in attributes {
        write!(markup, " {key}=\"").expect("a string takes all");
        write!(Escaped(&mut markup), "{value}").expect("a string takes all");
        markup.push('"');
    }
    markup.push('>');
    if !EMPTY.contains(&name) {
        write!(markup, "{}</{name}>", content.into().0).expect("a string takes all");
    }
    Html(markup)
}

/// An element without attributes.
pub fn plain(name: &str, content: impl Into<Html>) -> Html {
    element(name, &[], content)
}

/// An element of text alone.
pub fn line(name: &str, content: impl Display) -> Html {
    plain(name, text(content))
}

/// A link within the page.
pub fn link(anchor: &str, content: impl Into<Html>) -> Html {
    element("a", &[("href", &format!("#{anchor}"))], content)
}

/// A `style` or `script` element of a file of the program, which no text of an input is part of.
pub fn included(name: &str, content: &'static str) -> Html {
    Html(format!("<{name}>{content}</{name}>"))
}

/// What a policy for the page's content names such an element by.
pub fn policy_hash(content: &str) -> String {
    let digits = sha256::sum(content.as_bytes());
    let byte = |i: usize| u8::from_str_radix(&digits[i..i + 2], 16).unwrap_or_default();
    let bytes: Vec<u8> = (0..digits.len()).step_by(2).map(byte).collect();
    format!("'sha256-{}'", base64(&bytes))
}

/// Base64, as RFC 4648 has it.
fn base64(bytes: &[u8]) -> String {
    const DIGITS: &[u8; 64] = b"ABCDEFGHIJKLMNOPQRSTUVWXYZabcdefghijklmnopqrstuvwxyz0123456789+/";
    let mut text = String::new();
    for group in bytes.chunks(3) {
        let byte = |i: usize| u32::from(group.get(i).copied().unwrap_or(0));
        let bits = byte(0) << 16 | byte(1) << 8 | byte(2);
        for i in 0..4 {
            let digit = DIGITS[(bits >> (18 - 6 * i) & 63) as usize];
            text.push(if i <= group.len() { digit.into() } else { '=' });
        }
    }
    text
}

/// Writes text with the characters of markup escaped.
struct Escaped<'a>(&'a mut String);

impl Write for Escaped<'_> {
    fn write_str(&mut self, text: &str) -> fmt::Result {
        for c in text.chars() {
            match c {
                '&' => *self.0 += "&amp;",
                '<' => *self.0 += "&lt;",
                '>' => *self.0 += "&gt;",
                '"' => *self.0 += "&quot;",
                '\'' => *self.0 += "&#39;",
                '\n' => self.0.push(c),
                _ if is_unseen(c) => write!(self.0, "[U+{:04X}]", u32::from(c))?,
                _ => self.0.push(c),
            }
        }
        Ok(())
    }
}

/// Whether a character is one that isn't seen, but may change how others are: a control character, a mark or an override
/// of the direction of text, a space or a joiner without width, a separator of lines, a noncharacter.
fn is_unseen(c: char) -> bool {
    matches!(c,
        '\u{ad}' | '\u{61c}' | '\u{180e}' | '\u{200b}'..='\u{200f}' | '\u{2028}'..='\u{202e}' | '\u{2060}'..='\u{206f}'
        | '\u{feff}' | '\u{fff9}'..='\u{fffb}' | '\u{e0000}'..='\u{e007f}')
        || c.is_control()
        || u32::from(c) & 0xfffe == 0xfffe
        || matches!(c, '\u{fdd0}'..='\u{fdef}')
}

#[cfg(test)]
mod tests {
    use super::*;

    #[test]
    fn text_is_never_markup() {
        let name = "<script>alert('1')</script> & \"\u{202e}x\u{7}\u{0}";
        let shown =
            "&lt;script&gt;alert(&#39;1&#39;)&lt;/script&gt; &amp; &quot;[U+202E]x[U+0007][U+0000]";
        assert_eq!(text(name).0, shown);
        let title = element("p", &[("title", name)], text("\u{200f}a\u{2066}b\u{feff}"));
        assert_eq!(title.0, format!("<p title=\"{shown}\">[U+200F]a[U+2066]b[U+FEFF]</p>"));
        assert_eq!(text("שלום é 漢").0, "שלום é 漢", "letters of any script are themselves");
    }

    #[test]
    fn elements_without_content_have_no_end() {
        assert_eq!(
            element("meta", &[("charset", "utf-8")], Html::default()).0,
            "<meta charset=\"utf-8\">"
        );
        assert_eq!(line("b", 1).0, "<b>1</b>");
    }

    /// The examples of FIPS 180-4: less than a block, two blocks, and a million letters.
    #[test]
    fn sha256_of_the_standard() {
        let two = b"abcdbcdecdefdefgefghfghighijhijkijkljklmklmnlmnomnopnopq";
        let sums = [
            (&b"abc"[..], "ba7816bf8f01cfea414140de5dae2223b00361a396177a9cb410ff61f20015ad"),
            (two, "248d6a61d20638b8e5c026930c3e6039a33ce45964ff2167f6ecedd419db06c1"),
            (
                &[b'a'; 1_000_000],
                "cdc76e5c9914fb9281a1c7e284d73e67f1809a48a497200e046d39ccc7112cd0",
            ),
        ];
        for (bytes, sum) in sums {
            assert_eq!(sha256::sum(bytes), sum, "{} bytes", bytes.len());
        }
        assert_eq!(policy_hash("abc"), "'sha256-ungWv48Bz+pBQUDeXa4iI7ADYaOWF3qctBD/YfIAFa0='");
    }

    /// The examples of RFC 4648.
    #[test]
    fn base64_of_the_standard() {
        let texts = ["", "f", "fo", "foo", "foob", "fooba", "foobar"];
        let encoded = ["", "Zg==", "Zm8=", "Zm9v", "Zm9vYg==", "Zm9vYmE=", "Zm9vYmFy"];
        assert_eq!(texts.map(|text| base64(text.as_bytes())), encoded);
    }
}
