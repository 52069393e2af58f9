//! Whether a text is well-formed XML, as far as a picture needs it: elements, attributes, text and the five
//! named entities; no comments, declarations or sections.

use std::collections::BTreeSet;

/// An element that was opened: its name and its attributes, as they are written; and the text directly in it.
#[derive(Debug, Clone, Default)]
pub struct Element {
    pub name: String,
    pub attributes: Vec<(String, String)>,
    pub text: String,
    /// The place of the element around it, in the list of all.
    pub parent: Option<usize>,
}

impl Element {
    pub fn get(&self, name: &str) -> Option<&str> {
        self.attributes.iter().find(|(found, _)| found == name).map(|(_, value)| value.as_str())
    }
}

/// Every element in the order of their starts, or what is wrong and at which byte.
pub fn elements(text: &str) -> Result<Vec<Element>, String> {
    let mut reader = Reader { text, at: 0, elements: Vec::new(), open: Vec::new() };
    reader.characters(text)?;
    while reader.at < text.len() {
        match reader.rest().as_bytes()[0] {
            b'<' => reader.tag()?,
            _ => reader.content()?,
        }
    }
    match (reader.open.is_empty(), reader.elements.is_empty()) {
        (false, _) => reader.wrong("an element is open at the end"),
        (_, true) => reader.wrong("there is no element"),
        _ => Ok(reader.elements),
    }
}

struct Reader<'t> {
    text: &'t str,
    at: usize,
    elements: Vec<Element>,
    open: Vec<usize>,
}

impl<'t> Reader<'t> {
    fn rest(&self) -> &'t str {
        &self.text[self.at..]
    }

    fn wrong<T>(&self, text: &str) -> Result<T, String> {
        let near: String = self.rest().chars().take(40).collect();
        Err(format!("byte {}: {text}: {near}", self.at))
    }

    fn characters(&self, text: &str) -> Result<(), String> {
        let allowed = |c: char| c == '\n' || !c.is_control() && c != '\u{FFFE}' && c != '\u{FFFF}';
        if text.chars().all(allowed) {
            Ok(())
        } else {
            self.wrong("a character that XML has not, or that a picture needs not")
        }
    }

    fn entities(&self, text: &str) -> Result<(), String> {
        for part in text.split('&').skip(1) {
            let known = ["amp;", "lt;", "gt;", "quot;", "apos;"];
            if !known.iter().any(|entity| part.starts_with(entity)) {
                return self.wrong("an ampersand without a known entity");
            }
        }
        Ok(())
    }

    fn content(&mut self) -> Result<(), String> {
        let length = self.rest().find('<').unwrap_or(self.rest().len());
        let content = &self.rest()[..length];
        self.entities(content)?;
        match self.open.last() {
            Some(place) => self.elements[*place].text += content,
            None if content.trim().is_empty() => {}
            None => return self.wrong("text outside the root"),
        }
        if content.contains("]]>") {
            return self.wrong("the end of a section");
        }
        self.at += length;
        Ok(())
    }

    fn name(&mut self) -> Result<String, String> {
        let is_name = |c: char| c.is_ascii_alphanumeric() || matches!(c, '-' | '_' | ':');
        let length = self.rest().find(|c| !is_name(c)).unwrap_or(self.rest().len());
        let name = &self.rest()[..length];
        if !name.starts_with(|c: char| c.is_ascii_alphabetic()) {
            return self.wrong("a name is due");
        }
        self.at += length;
        Ok(name.to_string())
    }

    fn tag(&mut self) -> Result<(), String> {
        self.at += 1;
        if self.rest().starts_with('/') {
            self.at += 1;
            let name = self.name()?;
            if self.open.pop().map(|place| self.elements[place].name != name) != Some(false) {
                return self.wrong("an end without its start");
            }
            return self.due(">");
        }
        if self.open.is_empty() && !self.elements.is_empty() {
            return self.wrong("a second root");
        }
        let name = self.name()?;
        let mut attributes = Vec::new();
        let mut names = BTreeSet::new();
        while self.rest().starts_with(' ') {
            self.at += 1;
            let attribute = self.name()?;
            self.due("=\"")?;
            let Some(length) = self.rest().find('"') else { return self.wrong("a quote is open") };
            let value = &self.rest()[..length];
            self.entities(value)?;
            if value.contains('<') || !names.insert(attribute.clone()) {
                return self.wrong("an attribute twice, or `<` in it");
            }
            attributes.push((attribute, value.to_string()));
            self.at += length + 1;
        }
        let parent = self.open.last().copied();
        self.elements.push(Element { name, attributes, text: String::new(), parent });
        if self.rest().starts_with('/') {
            self.at += 1;
        } else {
            self.open.push(self.elements.len() - 1);
        }
        self.due(">")
    }

    fn due(&mut self, text: &str) -> Result<(), String> {
        if !self.rest().starts_with(text) {
            return self.wrong(&format!("`{text}` is due"));
        }
        self.at += text.len();
        Ok(())
    }
}

#[test]
fn what_is_well_formed() {
    let found = elements("<a b=\"1\">x &amp; y<c/></a>\n").unwrap();
    assert_eq!((found.len(), found[0].get("b"), &*found[0].text), (2, Some("1"), "x &amp; y"));
    let wrong = [
        "",
        "x",
        "<a>",
        "<a></b>",
        "</a>",
        "<a/><a/>",
        "<a/>x",
        "<a b=1/>",
        "<a b=\"1/>",
        "<a b=\"1\" b=\"2\"/>",
        "<a b=\"<\"/>",
        "<a>&nbsp;</a>",
        "<a>&</a>",
        "<a>\u{1}</a>",
        "<a>\u{FFFF}</a>",
        "<1/>",
        "<a><b></a></b>",
        "<a b=\"1\"c=\"2\"/>",
        "<a>]]></a>",
    ];
    for text in wrong {
        assert!(elements(text).is_err(), "{text}");
    }
}
