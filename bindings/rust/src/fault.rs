//! What is wrong with texts of WIT.

#![forbid(unsafe_code)]

use crate::error::{told_text, Error};
use crate::json::Json;
use crate::package::joined;
use crate::sys;
use std::fmt;
use std::ops::Range;

/// A place in a text. Both count from 1, and a column is a character.
#[derive(Clone, Copy, Debug, PartialEq, Eq, PartialOrd, Ord, Hash)]
#[allow(missing_docs)]
pub struct Place {
    pub line: usize,
    pub column: usize,
}

/// A fault of a text.
#[derive(Clone, Debug, PartialEq, Eq)]
pub struct Fault {
    /// The index of the text.
    pub text: usize,
    /// The number of the error in docs/ERRORS.md, if it has one.
    pub number: Option<u32>,
    /// The error's number and words, as `error 41 unknown size`.
    pub message: String,
    /// What to do about it, if anything is known.
    pub hint: Option<String>,
    /// From where to where it is, if it has a place.
    pub place: Option<Range<Place>>,
}

impl fmt::Display for Fault {
    fn fmt(&self, out: &mut fmt::Formatter<'_>) -> fmt::Result {
        if let Some(Range { start: Place { line, column }, .. }) = self.place {
            write!(out, "{line}:{column}: ")?;
        }
        out.write_str(&self.message)?;
        self.hint.as_ref().map_or(Ok(()), |hint| write!(out, " ({hint})"))
    }
}

fn number(object: &Json, name: &str) -> Option<usize> {
    object.get(name)?.as_number()?.try_into().ok()
}

fn text(object: &Json, name: &str) -> Option<String> {
    object.get(name)?.as_text().map(str::to_owned)
}

fn place(object: &Json, line: &str, column: &str) -> Option<Place> {
    Some(Place { line: number(object, line)?, column: number(object, column)? })
}

fn fault(object: &Json) -> Option<Fault> {
    Some(Fault {
        // Behind the index of a binary stands the name of its package.
        text: text(object, "file")?.split(':').next()?.parse().ok()?,
        number: object.get("error").and_then(Json::as_number).and_then(|number| number.try_into().ok()),
        message: text(object, "message")?,
        hint: text(object, "hint"),
        place: place(object, "line", "column")
            .zip(place(object, "endLine", "endColumn"))
            .map(|(start, end)| start..end),
    })
}

/// Tells what is wrong with the packages of texts, which may stand in any order. Texts of one package are its files.
///
/// ```
/// let faults = witcall::explain(&["package a:b; interface c { f: func(x: size); }"])?;
/// assert!(faults[0].to_string().starts_with("1:39: error 41 unknown size"));
/// assert_eq!(witcall::explain(&["package a:b; interface c { f: func(x: u8); }"])?, []);
/// # Ok::<(), witcall::Error>(())
/// ```
pub fn explain<Input: AsRef<[u8]>>(texts: &[Input]) -> Result<Vec<Fault>, Error> {
    if texts.is_empty() {
        return Ok(Vec::new());
    }
    let (bytes, lengths) = joined(texts);
    let told = told_text(|room| sys::explain(&bytes, &lengths, room))?;
    // What the library writes is an array of such objects.
    let faults: Json = told.parse().unwrap_or(Json::Array(Vec::new()));
    Ok(faults.as_array().unwrap_or_default().iter().filter_map(fault).collect())
}
