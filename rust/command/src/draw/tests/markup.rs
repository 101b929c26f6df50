//! A picture's markup read again: its words with the room that they take, its lines, and whether it is
//! well-formed XML. Elements stand one a line, with the attributes that `elements` writes.

/// Wider than any character of the fonts named, in parts of their size.
const WIDEST: f64 = 0.625;

#[derive(Debug)]
pub struct Text {
    pub words: String,
    left: f64,
    right: f64,
    top: f64,
    bottom: f64,
}

#[derive(Debug)]
pub struct Line {
    from: (f64, f64),
    to: (f64, f64),
}

fn attribute<'a>(element: &'a str, name: &str) -> Option<&'a str> {
    let (_, after) = element.split_once(&format!(" {name}=\""))?;
    after.split('"').next()
}

fn number(element: &str, name: &str) -> Option<f64> {
    attribute(element, name)?.parse().ok()
}

pub fn texts(picture: &str) -> Vec<Text> {
    let elements = picture.lines().filter(|line| line.starts_with("<text"));
    elements.map(text).collect()
}

fn text(element: &str) -> Text {
    let (_, after) = element.split_once('>').unwrap();
    let words = after.strip_suffix("</text>").unwrap().to_string();
    let size = number(element, "font-size").unwrap_or(12.0);
    let width = words.chars().count() as f64 * size * WIDEST;
    let (x, y) = (number(element, "x").unwrap(), number(element, "y").unwrap());
    let left = match attribute(element, "text-anchor") {
        Some("end") => x - width,
        _ => x,
    };
    Text {
        words,
        left,
        right: left + width,
        top: y - 0.8 * size,
        bottom: y + 0.25 * size,
    }
}

impl Text {
    pub fn overlaps(&self, other: &Text) -> bool {
        let across = self.left < other.right && other.left < self.right;
        across && self.top < other.bottom && other.top < self.bottom
    }

    pub fn within(&self, picture: &str) -> bool {
        let width = number(picture, "width").unwrap();
        let height = number(picture, "height").unwrap();
        self.left >= 0.0 && self.right <= width && self.top >= 0.0 && self.bottom <= height
    }
}

/// All straight lines: arrows without their heads, and rules.
pub fn lines(picture: &str) -> Vec<Line> {
    let elements = picture.lines().filter(|line| line.starts_with("<line"));
    let end = |element: &str, x, y| (number(element, x).unwrap(), number(element, y).unwrap());
    elements
        .map(|element| Line {
            from: end(element, "x1", "y1"),
            to: end(element, "x2", "y2"),
        })
        .collect()
}

impl Line {
    /// Lines are level or upright.
    pub fn crosses(&self, text: &Text) -> bool {
        let between = |one: f64, other: f64, low: f64, high: f64| {
            one.min(other) < high && low < one.max(other)
        };
        let level = self.from.1 == self.to.1;
        let (from, to) = (self.from, self.to);
        if level {
            text.top < from.1
                && from.1 < text.bottom
                && between(from.0, to.0, text.left, text.right)
        } else {
            text.left < from.0
                && from.0 < text.right
                && between(from.1, to.1, text.top, text.bottom)
        }
    }
}

// ---- XML

/// Whether tags nest, one element holds all, attributes are quoted and characters escaped.
pub fn check_xml(markup: &str) -> Result<(), String> {
    let mut open: Vec<&str> = Vec::new();
    let mut rest = markup.trim_end();
    let mut ended = false;
    while let Some(start) = rest.find('<') {
        check_characters(&rest[..start])?;
        if ended || (open.is_empty() && start > 0) {
            return Err(format!("outside: {rest}"));
        }
        let end = rest.find('>').ok_or("a tag without end")?;
        let tag = &rest[start + 1..end];
        if let Some(name) = tag.strip_prefix('/') {
            if open.pop() != Some(name) {
                return Err(format!("{name} is not open"));
            }
        } else {
            let (inner, closed) = match tag.strip_suffix('/') {
                Some(inner) => (inner, true),
                None => (tag, false),
            };
            let name = inner.split(' ').next().unwrap_or("");
            check_attributes(&inner[name.len()..])?;
            if !closed {
                open.push(name);
            }
        }
        ended = open.is_empty();
        rest = &rest[end + 1..];
    }
    if ended && rest.is_empty() {
        Ok(())
    } else {
        Err(format!("open: {open:?}, left: {rest}"))
    }
}

fn check_characters(text: &str) -> Result<(), String> {
    let mut after = text.split('&');
    after.next();
    let known = |part: &str| {
        ["amp;", "lt;", "gt;"]
            .iter()
            .any(|name| part.starts_with(name))
    };
    if text.contains('>') || !after.all(known) {
        return Err(format!("characters: {text}"));
    }
    Ok(())
}

/// Each with a blank before it, its value in double quotes.
fn check_attributes(mut attributes: &str) -> Result<(), String> {
    while !attributes.is_empty() {
        let parts = attributes
            .strip_prefix(' ')
            .and_then(|rest| rest.split_once("=\""));
        let (name, after) = parts.ok_or(format!("attributes: {attributes}"))?;
        let (value, rest) = after.split_once('"').ok_or("a value without end")?;
        let is_name = |c: char| c.is_ascii_alphanumeric() || "-:".contains(c);
        if !name.chars().all(is_name) || value.contains('<') {
            return Err(format!("attribute {name}: {value}"));
        }
        attributes = rest;
    }
    Ok(())
}
