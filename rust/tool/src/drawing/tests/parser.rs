//! A strict reader of the XML that the pictures are made of.

pub struct Node {
    pub name: String,
    attributes: Vec<(String, String)>,
    pub children: Vec<Node>,
    /// What stands directly in it.
    pub text: String,
}

impl Node {
    pub fn attribute(&self, name: &str) -> Option<&str> {
        self.attributes.iter().find(|(other, _)| other == name).map(|(_, value)| value.as_str())
    }

    /// An attribute that is a number with at most three decimals and no needless zero.
    pub fn number(&self, name: &str) -> f64 {
        let text = self.attribute(name).unwrap_or_else(|| panic!("{} without {name}", self.name));
        let (whole, decimals) = text.split_once('.').unwrap_or((text, "1"));
        assert!(decimals.len() <= 3 && !decimals.ends_with('0') && !whole.is_empty(), "{text}");
        text.parse().unwrap()
    }

    pub fn children<'a>(&'a self, name: &'a str) -> impl Iterator<Item = &'a Node> {
        self.children.iter().filter(move |child| child.name == name)
    }

    /// The one with that id, which may be this one.
    pub fn find(&self, id: &str) -> Option<&Node> {
        if self.attribute("id") == Some(id) {
            return Some(self);
        }
        self.children.iter().find_map(|child| child.find(id))
    }

    pub fn title(&self) -> &str {
        let mut titles = self.children("title");
        let title = titles.next().unwrap_or_else(|| panic!("{} without title", self.name));
        assert!(titles.next().is_none());
        &title.text
    }
}

/// The one element that a file is. Panics where it is not well-formed.
pub fn parse(file: &str) -> Node {
    let mut rest = file;
    let root = element(&mut rest);
    assert_eq!(rest, "\n");
    root
}

fn take<'a>(rest: &mut &'a str, until: &[char]) -> &'a str {
    let end = rest.find(until).unwrap_or_else(|| panic!("cut off: {rest}"));
    let (taken, behind) = rest.split_at(end);
    *rest = behind;
    taken
}

fn skip(rest: &mut &str, start: &str) {
    *rest = rest.strip_prefix(start).unwrap_or_else(|| panic!("no {start}: {:.60}", rest));
}

fn name<'a>(rest: &mut &'a str) -> &'a str {
    let name = take(rest, &[' ', '=', '>', '/']);
    assert!(name.chars().all(|c| c.is_ascii_alphanumeric() || c == '-') && !name.is_empty());
    name
}

fn element(rest: &mut &str) -> Node {
    skip(rest, "<");
    let name = name(rest).to_string();
    let mut node = Node { name, attributes: vec![], children: vec![], text: String::new() };
    while rest.starts_with(' ') {
        add_attribute(&mut node, rest);
    }
    if rest.starts_with('/') {
        skip(rest, "/>");
        return node;
    }
    skip(rest, ">");
    node.text += &unescaped(take(rest, &['<']));
    while !rest.starts_with("</") {
        node.children.push(element(rest));
        node.text += &unescaped(take(rest, &['<']));
    }
    skip(rest, &format!("</{}>", node.name));
    node
}

fn add_attribute(node: &mut Node, rest: &mut &str) {
    skip(rest, " ");
    let name = name(rest).to_string();
    skip(rest, "=\"");
    let value = unescaped(take(rest, &['"', '<']));
    skip(rest, "\"");
    assert!(node.attribute(&name).is_none(), "{name} twice");
    node.attributes.push((name, value));
}

fn unescaped(text: &str) -> String {
    let mut parts = text.split('&');
    let mut out = parts.next().unwrap_or("").to_string();
    for part in parts {
        let (entity, behind) = part.split_once(';').unwrap_or_else(|| panic!("bare &: {text}"));
        out += match entity {
            "amp" => "&",
            "lt" => "<",
            "gt" => ">",
            "quot" => "\"",
            "#39" => "'",
            _ => panic!("&{entity};"),
        };
        out += behind;
    }
    let forbidden =
        |c: char| (c.is_control() && c != '\n') || ('\u{fffe}'..='\u{ffff}').contains(&c);
    assert!(!out.contains(forbidden), "{out:?}");
    out
}
