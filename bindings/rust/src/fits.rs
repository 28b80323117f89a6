//! Where a value is not of its type, in the words of `witcall_json_fault`.

#![forbid(unsafe_code)]

use crate::error::Error;
use crate::json::{Json, Tree};
use crate::names::quoted;
use crate::package::Package;
use crate::table::{Definition, Kind, Member, Type};
use std::collections::{BTreeMap, HashMap};
use std::rc::Rc;

/// Labels and letters that a fault shows.
const MOST_LABELS: usize = 8;
const MOST_SHOWN: usize = 60;

/// What the path of a result begins with.
const RESULT: &str = "result";

/// A value inside another one: the step to it, its type, and itself.
type Part<'value> = (String, Type, &'value Tree);

/// The least and the greatest number of a type, if it is one of numbers.
fn range(kind: Kind) -> Option<(i128, i128)> {
    let (least, most) = match kind {
        Kind::S8 => (i8::MIN.into(), i8::MAX.into()),
        Kind::U8 => (0, u8::MAX.into()),
        Kind::S16 => (i16::MIN.into(), i16::MAX.into()),
        Kind::U16 => (0, u16::MAX.into()),
        Kind::S32 => (i32::MIN.into(), i32::MAX.into()),
        Kind::U32 => (0, u32::MAX.into()),
        Kind::S64 => (i64::MIN.into(), i64::MAX.into()),
        Kind::U64 => (0, u64::MAX.into()),
        _ => return None,
    };
    Some((least, most))
}

fn is_scalar(kind: Kind, value: &Tree) -> bool {
    let Tree::Leaf(value) = value else { return false };
    match (kind, value) {
        (Kind::Bool, Json::Bool(_)) | (Kind::String, Json::Text(_)) => true,
        (Kind::Char, Json::Text(text)) => text.chars().count() == 1,
        (_, Json::Number(number)) => range(kind).is_some_and(|(least, most)| (least..=most).contains(number)),
        _ => false,
    }
}

/// The word of WIT for a type that has no members.
fn word(kind: Kind) -> String {
    format!("{kind:?}").to_lowercase()
}

fn scalar_words(kind: Kind) -> String {
    let words = match (kind, range(kind)) {
        (Kind::S64, _) => "a whole number of 64 bits".to_owned(),
        (Kind::U64, _) => "a whole number of 64 bits, from 0 on".to_owned(),
        (_, Some((least, most))) => format!("a whole number from {least} to {most}"),
        (Kind::Bool, _) => "`true` or `false`".to_owned(),
        (Kind::Char, _) => "a text of one character".to_owned(),
        _ => "a text".to_owned(),
    };
    format!("a `{}` is {words}", word(kind))
}

fn beginning(kind: Kind) -> &'static str {
    match kind {
        Kind::Record => "a record is an object with just the keys ",
        Kind::Variant => "a variant is one of ",
        Kind::Enum => "an enum is one of ",
        Kind::Flags => "flags are an array of those that are set, in the order of ",
        Kind::Option => "an option is one of ",
        Kind::Result => "a result is one of ",
        Kind::Tuple => "a tuple is an array of one value for each of its types",
        _ => "a list is an array",
    }
}

/// The labels of members, of which those of cases with a payload are keys.
fn labels(kind: Kind, members: &[Member]) -> String {
    let has_payloads = matches!(kind, Kind::Variant | Kind::Option | Kind::Result);
    let label = |it: &Member| match it.ty {
        Some(_) if has_payloads => format!("`{{\"{}\":..}}`", it.name),
        _ => format!("`\"{}\"`", it.name),
    };
    let mut shown: Vec<String> = members.iter().take(MOST_LABELS).map(label).collect();
    if members.len() > MOST_LABELS {
        shown.push("..".to_owned());
    }
    shown.join(", ")
}

/// What a value of a type is.
fn wanted(kind: Kind, definition: Option<&Definition>) -> String {
    match definition {
        None => scalar_words(kind),
        Some(_) if matches!(kind, Kind::List | Kind::Tuple) => beginning(kind).to_owned(),
        Some(it) => format!("{}{}", beginning(kind), labels(kind, &it.members)),
    }
}

/// The members of an object by their keys, of which the last of the same ones counts.
fn keyed(value: &Tree) -> Option<BTreeMap<&str, &Tree>> {
    match value {
        Tree::Object(members) => Some(members.iter().map(|(key, it)| (key.as_str(), it)).collect()),
        _ => None,
    }
}

/// The text of a value, with its keys in the order in which the library shows them.
fn sorted(value: &Tree) -> String {
    if let Tree::Array(elements) = value {
        return format!("[{}]", elements.iter().map(sorted).collect::<Vec<_>>().join(","));
    }
    let Some(members) = keyed(value) else { return value.to_string() };
    let member = |(key, it): (&str, &Tree)| format!("{}:{}", Json::from(key), sorted(it));
    format!("{{{}}}", members.into_iter().map(member).collect::<Vec<_>>().join(","))
}

fn item((place, value): (usize, &Tree), ty: Type) -> Part<'_> {
    (format!("[{place}]"), ty, value)
}

fn items<'value>(definition: &Definition, value: &'value Tree) -> Option<Vec<Part<'value>>> {
    let ty = definition.target?;
    Some(value.as_array()?.iter().enumerate().map(|it| item(it, ty)).collect())
}

fn elements<'value>(definition: &Definition, value: &'value Tree) -> Option<Vec<Part<'value>>> {
    let values = value.as_array().filter(|it| it.len() == definition.members.len())?;
    let types = definition.members.iter().filter_map(|it| it.ty);
    Some(values.iter().enumerate().zip(types).map(|(it, ty)| item(it, ty)).collect())
}

fn member<'value>(member: &Member, value: &'value Tree) -> Option<Part<'value>> {
    Some((format!(".{}", member.name), member.ty?, value))
}

fn fields<'value>(definition: &Definition, value: &'value Tree) -> Option<Vec<Part<'value>>> {
    let values = keyed(value).filter(|it| it.len() == definition.members.len())?;
    definition.members.iter().map(|it| member(it, values.get(it.name.as_str())?)).collect()
}

/// The payload of a case, if it has one.
fn payload<'value>(definition: &Definition, value: &'value Tree) -> Option<Vec<Part<'value>>> {
    let case = |label: &str| definition.members.iter().find(|it| it.name == label);
    if let Some(label) = value.as_text() {
        return case(label).filter(|it| it.ty.is_none()).map(|_| Vec::new());
    }
    let values = keyed(value).filter(|it| it.len() == 1)?;
    let (label, inner) = values.into_iter().next()?;
    Some(vec![member(case(label)?, inner)?])
}

/// No part, if labels are set in their order, each once.
fn flags<'value>(definition: &Definition, value: &'value Tree) -> Option<Vec<Part<'value>>> {
    let place = |label: &Tree| definition.members.iter().position(|it| Some(it.name.as_str()) == label.as_text());
    let places: Option<Vec<usize>> = value.as_array()?.iter().map(place).collect();
    places?.windows(2).all(|pair| pair[0] < pair[1]).then(Vec::new)
}

/// The parts of a value that has the form of its type.
fn parts<'value>(definition: &Definition, value: &'value Tree) -> Option<Vec<Part<'value>>> {
    match definition.ty.kind {
        Kind::List => items(definition, value),
        Kind::Tuple => elements(definition, value),
        Kind::Record => fields(definition, value),
        Kind::Flags => flags(definition, value),
        _ => payload(definition, value),
    }
}

/// The steps to a value that is not of its type, the last one first, and what has to stand there.
struct Wrong {
    steps: Vec<String>,
    fault: String,
}

/// Compares values with types, whose definitions are asked for once.
struct Walk<'package> {
    package: &'package Package,
    known: HashMap<u32, Rc<Definition>>,
}

impl Walk<'_> {
    fn definition(&mut self, ty: Type) -> Result<Option<Rc<Definition>>, Error> {
        let Some(row) = ty.row else { return Ok(None) };
        if let Some(known) = self.known.get(&row) {
            return Ok(Some(known.clone()));
        }
        let found = self.package.definition(ty)?.map(Rc::new);
        if let Some(it) = &found {
            self.known.insert(row, it.clone());
        }
        Ok(found)
    }

    /// The kind that a name stands for in the end, and what it is made of.
    fn unnamed(&mut self, ty: Type) -> Result<(Kind, Option<Rc<Definition>>), Error> {
        let mut named = ty;
        loop {
            let definition = self.definition(named)?;
            match definition.as_ref().and_then(|it| it.target) {
                Some(target) if matches!(named.kind, Kind::Alias | Kind::Use) => named = target,
                _ => return Ok((named.kind, definition)),
            }
        }
    }

    /// The first part of a value that is not of its type.
    fn wrong(&mut self, ty: Type, value: &Tree) -> Result<Option<Wrong>, Error> {
        let (kind, definition) = self.unnamed(ty)?;
        let inner = match &definition {
            Some(it) => parts(it, value),
            None => is_scalar(kind, value).then(Vec::new),
        };
        let Some(inner) = inner else {
            let wanted = wanted(kind, definition.as_deref());
            let fault = format!("{wanted}, and not {}", quoted(&sorted(value), MOST_SHOWN));
            return Ok(Some(Wrong { steps: Vec::new(), fault }));
        };
        for (step, ty, part) in inner {
            if let Some(mut wrong) = self.wrong(ty, part)? {
                wrong.steps.push(step);
                return Ok(Some(wrong));
            }
        }
        Ok(None)
    }
}

fn walk(package: &Package) -> Walk<'_> {
    Walk { package, known: HashMap::new() }
}

/// The error for a value, whose path begins with a word.
fn told(first: &str, Wrong { steps, fault }: Wrong) -> Error {
    let path = steps.iter().rev().fold(first.to_owned(), |path, step| path + step);
    Error::NotThisType { path, fault }
}

/// The error for a result that is not of a type, which names the first part that is wrong.
pub(crate) fn result(package: &Package, ty: Type, value: &Tree) -> Result<Option<Error>, Error> {
    Ok(walk(package).wrong(ty, value)?.map(|wrong| told(RESULT, wrong)))
}

/// The same for arguments, of which there is one for each parameter.
pub(crate) fn arguments(package: &Package, parameters: &[Member], values: &[Json]) -> Result<Option<Error>, Error> {
    let mut walk = walk(package);
    for (place, (parameter, value)) in parameters.iter().zip(values).enumerate() {
        let Some(ty) = parameter.ty else { continue };
        if let Some(wrong) = walk.wrong(ty, &value.into())? {
            return Ok(Some(told(&format!("[{place}]"), wrong)));
        }
    }
    Ok(None)
}

/// The error for a function that has a result of a type, and gave nothing.
pub(crate) fn nothing(package: &Package, ty: Type) -> Result<Error, Error> {
    let (kind, definition) = walk(package).unnamed(ty)?;
    let fault = format!("{}, and not nothing", wanted(kind, definition.as_deref()));
    Ok(told(RESULT, Wrong { steps: Vec::new(), fault }))
}

/// The error for the text of a result of a function that has none.
pub(crate) fn no_result(text: &str) -> Error {
    let fault = format!("a function without a result gives nothing, and not {}", quoted(text, MOST_SHOWN));
    told(RESULT, Wrong { steps: Vec::new(), fault })
}
