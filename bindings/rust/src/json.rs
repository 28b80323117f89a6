//! Values as JSON.

#![forbid(unsafe_code)]

use std::fmt::{self, Write};
use std::str::{Chars, FromStr};

/// How deep arrays and objects of a text may nest, as the library has it.
const MAX_DEPTH: usize = 127;

/// A value of a type of a package, as JSON has it (docs/FORMATS.md).
///
/// ```
/// use witcall::Json;
///
/// let order = Json::object([("id", Json::from(7)), ("name", Json::from("tea")), ("note", Json::from("none"))]);
/// assert_eq!(order.to_string(), r#"{"id":7,"name":"tea","note":"none"}"#);
/// assert_eq!(order.to_string().parse(), Ok(order));
/// ```
#[derive(Clone, Debug, PartialEq, Eq)]
pub enum Json {
    /// a `bool`
    Bool(bool),
    /// a number of any of the integer types
    Number(i128),
    /// a `string`, a `char`, or the name of a case or a label
    Text(String),
    /// a list, a tuple, or flags: the labels that are set
    Array(Vec<Json>),
    /// a record, or a case with its payload
    Object(Vec<(String, Json)>),
}

impl Json {
    /// A record: its labels with their values.
    pub fn object<Key: Into<String>>(members: impl IntoIterator<Item = (Key, Json)>) -> Json {
        Json::Object(members.into_iter().map(|(key, value)| (key.into(), value)).collect())
    }

    /// The value under a label of a record, or the payload of a case.
    pub fn get(&self, key: &str) -> Option<&Json> {
        match self {
            Json::Object(members) => members.iter().rev().find(|(name, _)| name == key).map(|(_, value)| value),
            _ => None,
        }
    }

    /// The number, if it is one.
    pub fn as_number(&self) -> Option<i128> {
        match self {
            Json::Number(number) => Some(*number),
            _ => None,
        }
    }

    /// The text, if it is one.
    pub fn as_text(&self) -> Option<&str> {
        match self {
            Json::Text(text) => Some(text),
            _ => None,
        }
    }

    /// The elements, if it is an array.
    pub fn as_array(&self) -> Option<&[Json]> {
        match self {
            Json::Array(elements) => Some(elements),
            _ => None,
        }
    }
}

impl From<bool> for Json {
    fn from(value: bool) -> Json {
        Json::Bool(value)
    }
}

impl From<i64> for Json {
    fn from(value: i64) -> Json {
        Json::Number(value.into())
    }
}

impl From<u64> for Json {
    fn from(value: u64) -> Json {
        Json::Number(value.into())
    }
}

impl From<i32> for Json {
    fn from(value: i32) -> Json {
        Json::Number(value.into())
    }
}

impl From<u32> for Json {
    fn from(value: u32) -> Json {
        Json::Number(value.into())
    }
}

impl From<char> for Json {
    fn from(value: char) -> Json {
        Json::Text(value.into())
    }
}

impl From<&str> for Json {
    fn from(value: &str) -> Json {
        Json::Text(value.into())
    }
}

impl From<String> for Json {
    fn from(value: String) -> Json {
        Json::Text(value)
    }
}

impl<Element: Into<Json>> From<Vec<Element>> for Json {
    fn from(values: Vec<Element>) -> Json {
        Json::Array(values.into_iter().map(Into::into).collect())
    }
}

fn write_text(out: &mut fmt::Formatter<'_>, text: &str) -> fmt::Result {
    out.write_char('"')?;
    for letter in text.chars() {
        match letter {
            '"' | '\\' => write!(out, "\\{letter}")?,
            '\u{8}' => out.write_str("\\b")?,
            '\t' => out.write_str("\\t")?,
            '\n' => out.write_str("\\n")?,
            '\u{c}' => out.write_str("\\f")?,
            '\r' => out.write_str("\\r")?,
            '\0'..='\x1f' => write!(out, "\\u{:04x}", u32::from(letter))?,
            _ => out.write_char(letter)?,
        }
    }
    out.write_char('"')
}

fn write_between<Item>(
    out: &mut fmt::Formatter<'_>,
    [open, close]: [char; 2],
    items: &[Item],
    mut write: impl FnMut(&mut fmt::Formatter<'_>, &Item) -> fmt::Result,
) -> fmt::Result {
    out.write_char(open)?;
    for (place, item) in items.iter().enumerate() {
        if place > 0 {
            out.write_char(',')?;
        }
        write(out, item)?;
    }
    out.write_char(close)
}

fn write_array<Item: fmt::Display>(out: &mut fmt::Formatter<'_>, elements: &[Item]) -> fmt::Result {
    write_between(out, ['[', ']'], elements, |out, element| element.fmt(out))
}

fn write_object<Item: fmt::Display>(out: &mut fmt::Formatter<'_>, members: &[(String, Item)]) -> fmt::Result {
    write_between(out, ['{', '}'], members, |out, (key, value)| {
        write_text(out, key)?;
        write!(out, ":{value}")
    })
}

/// The compact text of the value.
impl fmt::Display for Json {
    fn fmt(&self, out: &mut fmt::Formatter<'_>) -> fmt::Result {
        match self {
            Json::Bool(value) => write!(out, "{value}"),
            Json::Number(number) => write!(out, "{number}"),
            Json::Text(text) => write_text(out, text),
            Json::Array(elements) => write_array(out, elements),
            Json::Object(members) => write_object(out, members),
        }
    }
}

/// A text that is no JSON of a value.
#[derive(Clone, Copy, Debug, PartialEq, Eq)]
pub struct NoJson;

impl fmt::Display for NoJson {
    fn fmt(&self, out: &mut fmt::Formatter<'_>) -> fmt::Result {
        out.write_str("the text is no JSON of a value")
    }
}

impl std::error::Error for NoJson {}

/// What a text of JSON says: a value of a package, or what no type has.
#[derive(Debug)]
pub(crate) enum Tree {
    /// a bool, a number or a text
    Leaf(Json),
    /// a number with a fraction, one of too many digits, or `null`, as the text has it
    Other(String),
    /// an array
    Array(Vec<Tree>),
    /// an object; of members with one key the last counts
    Object(Vec<(String, Tree)>),
}

impl Tree {
    /// What a text says.
    pub(crate) fn read(text: &str) -> Result<Tree, NoJson> {
        let mut reader = Reader { rest: text.chars() };
        let tree = reader.value(MAX_DEPTH + 1)?;
        reader.skip_blanks();
        reader.rest.as_str().is_empty().then_some(tree).ok_or(NoJson)
    }

    /// The member under a key.
    pub(crate) fn get(&self, key: &str) -> Option<&Tree> {
        match self {
            Tree::Object(members) => members.iter().rev().find(|(name, _)| name == key).map(|(_, it)| it),
            _ => None,
        }
    }

    /// The elements, if it is an array.
    pub(crate) fn as_array(&self) -> Option<&[Tree]> {
        match self {
            Tree::Array(elements) => Some(elements),
            _ => None,
        }
    }

    /// The number, if it is a whole one.
    pub(crate) fn as_number(&self) -> Option<i128> {
        match self {
            Tree::Leaf(leaf) => leaf.as_number(),
            _ => None,
        }
    }

    /// The text, if it is one.
    pub(crate) fn as_text(&self) -> Option<&str> {
        match self {
            Tree::Leaf(leaf) => leaf.as_text(),
            _ => None,
        }
    }

    /// The value of a package, if it is one.
    fn json(self) -> Result<Json, NoJson> {
        match self {
            Tree::Leaf(leaf) => Ok(leaf),
            Tree::Other(_) => Err(NoJson),
            Tree::Array(elements) => elements.into_iter().map(Tree::json).collect::<Result<_, _>>().map(Json::Array),
            Tree::Object(members) => {
                let member = |(key, it): (String, Tree)| it.json().map(|it| (key, it));
                members.into_iter().map(member).collect::<Result<_, _>>().map(Json::Object)
            }
        }
    }
}

impl From<&Json> for Tree {
    fn from(value: &Json) -> Tree {
        match value {
            Json::Array(elements) => Tree::Array(elements.iter().map(Tree::from).collect()),
            Json::Object(members) => Tree::Object(members.iter().map(|(key, it)| (key.clone(), it.into())).collect()),
            leaf => Tree::Leaf(leaf.clone()),
        }
    }
}

/// The compact text of the value.
impl fmt::Display for Tree {
    fn fmt(&self, out: &mut fmt::Formatter<'_>) -> fmt::Result {
        match self {
            Tree::Leaf(leaf) => leaf.fmt(out),
            Tree::Other(text) => out.write_str(text),
            Tree::Array(elements) => write_array(out, elements),
            Tree::Object(members) => write_object(out, members),
        }
    }
}

/// Reads a text from left to right.
struct Reader<'text> {
    rest: Chars<'text>,
}

impl Reader<'_> {
    fn skip_blanks(&mut self) {
        let text = self.rest.as_str();
        self.rest = text.trim_start_matches([' ', '\t', '\n', '\r']).chars();
    }

    /// Takes a mark, with blanks before it, if it is next.
    fn takes(&mut self, mark: &str) -> bool {
        self.skip_blanks();
        let rest = self.rest.as_str().strip_prefix(mark);
        if let Some(rest) = rest {
            self.rest = rest.chars();
        }
        rest.is_some()
    }

    fn expect(&mut self, mark: &str) -> Result<(), NoJson> {
        self.takes(mark).then_some(()).ok_or(NoJson)
    }

    /// The four hexadecimal digits of an escape.
    fn unit(&mut self) -> Result<u16, NoJson> {
        let digits = self.rest.as_str().get(..4).filter(|it| it.bytes().all(|digit| digit.is_ascii_hexdigit()));
        let digits = digits.ok_or(NoJson)?;
        let unit = u16::from_str_radix(digits, 16).map_err(|_| NoJson)?;
        self.rest = self.rest.as_str()[4..].chars();
        Ok(unit)
    }

    fn escaped(&mut self) -> Result<char, NoJson> {
        match self.rest.next().ok_or(NoJson)? {
            'b' => Ok('\u{8}'),
            'f' => Ok('\u{c}'),
            'n' => Ok('\n'),
            'r' => Ok('\r'),
            't' => Ok('\t'),
            'u' => {
                let first = self.unit()?;
                let is_high = (0xd800..0xdc00).contains(&first);
                let units = if is_high && self.rest.as_str().starts_with("\\u") {
                    self.rest.nth(1);
                    vec![first, self.unit()?]
                } else {
                    vec![first]
                };
                char::decode_utf16(units).next().and_then(Result::ok).ok_or(NoJson)
            }
            mark @ ('"' | '\\' | '/') => Ok(mark),
            _ => Err(NoJson),
        }
    }

    /// The text behind its first quote.
    fn text(&mut self) -> Result<String, NoJson> {
        let mut text = String::new();
        loop {
            match self.rest.next().ok_or(NoJson)? {
                '"' => return Ok(text),
                '\\' => text.push(self.escaped()?),
                '\0'..='\x1f' => return Err(NoJson),
                letter => text.push(letter),
            }
        }
    }

    /// A number, or `null`. Only a whole number is a value: `-0` is none, and neither is one with a zero before other
    /// digits.
    fn other(&mut self) -> Result<Tree, NoJson> {
        let text = self.rest.as_str();
        let end = text.find(|it: char| !it.is_ascii_alphanumeric() && !"+-.".contains(it)).unwrap_or(text.len());
        self.rest = text[end..].chars();
        let token = &text[..end];
        let digits = token.strip_prefix('-').unwrap_or(token);
        let is_written_so = token == "0" || !digits.starts_with(['0', '+']);
        match token.parse() {
            Ok(number) if is_written_so => Ok(Tree::Leaf(Json::Number(number))),
            _ if token == "null" || digits.starts_with(|it: char| it.is_ascii_digit()) => Ok(Tree::Other(token.into())),
            _ => Err(NoJson),
        }
    }

    fn array(&mut self, depth: usize) -> Result<Tree, NoJson> {
        let mut elements = Vec::new();
        while !self.takes("]") {
            if !elements.is_empty() {
                self.expect(",")?;
            }
            elements.push(self.value(depth)?);
        }
        Ok(Tree::Array(elements))
    }

    fn object(&mut self, depth: usize) -> Result<Tree, NoJson> {
        let mut members = Vec::new();
        while !self.takes("}") {
            if !members.is_empty() {
                self.expect(",")?;
            }
            self.expect("\"")?;
            let key = self.text()?;
            self.expect(":")?;
            members.push((key, self.value(depth)?));
        }
        Ok(Tree::Object(members))
    }

    fn value(&mut self, depth: usize) -> Result<Tree, NoJson> {
        let depth = depth.checked_sub(1).ok_or(NoJson)?;
        if self.takes("[") {
            self.array(depth)
        } else if self.takes("{") {
            self.object(depth)
        } else if self.takes("\"") {
            self.text().map(|text| Tree::Leaf(Json::Text(text)))
        } else if self.takes("true") {
            Ok(Tree::Leaf(Json::Bool(true)))
        } else if self.takes("false") {
            Ok(Tree::Leaf(Json::Bool(false)))
        } else {
            self.other()
        }
    }
}

/// Reads a text that the library writes: numbers are whole.
impl FromStr for Json {
    type Err = NoJson;

    fn from_str(text: &str) -> Result<Json, NoJson> {
        Tree::read(text)?.json()
    }
}
