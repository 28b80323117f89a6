//! What a package has: its functions and types, with their layouts.

#![forbid(unsafe_code)]

use crate::error::{checked, Error};
use crate::json::Tree;
use crate::package::Package;
use crate::sys::{self, MemberInfo, Name, RowInfo, Side, TypeInfo};

/// The kind of a type. Those from `List` on have rows in the table of a package.
#[derive(Clone, Copy, Debug, PartialEq, Eq, Hash)]
#[allow(missing_docs)] // the words of WIT
pub enum Kind {
    Bool,
    S8,
    U8,
    S16,
    U16,
    S32,
    U32,
    S64,
    U64,
    Char,
    String,
    List,
    Option,
    Result,
    Tuple,
    Record,
    Variant,
    Enum,
    Flags,
    /// `type a = b;`
    Alias,
    /// a name that another interface declares
    Use,
}

/// The kinds by their numbers, of which `Bool` has the number 1.
const KINDS: [Kind; 21] = [
    Kind::Bool,
    Kind::S8,
    Kind::U8,
    Kind::S16,
    Kind::U16,
    Kind::S32,
    Kind::U32,
    Kind::S64,
    Kind::U64,
    Kind::Char,
    Kind::String,
    Kind::List,
    Kind::Option,
    Kind::Result,
    Kind::Tuple,
    Kind::Record,
    Kind::Variant,
    Kind::Enum,
    Kind::Flags,
    Kind::Alias,
    Kind::Use,
];
const FIRST_ROW: u32 = 12;
const FUNCTION: u32 = 22;
const INTERFACE: u32 = 1;
const WORLD: u32 = 2;

/// A type, with its size and its alignment in a memory, in bytes.
#[derive(Clone, Copy, Debug, PartialEq, Eq)]
pub struct Type {
    /// What it is.
    pub kind: Kind,
    /// The number of its row, for [`Package::definition`]; primitives and `string` have none.
    pub row: Option<u32>,
    /// Its bytes.
    pub size: u32,
    /// The multiple that its addresses are of.
    pub alignment: u32,
}

/// Where something is declared, by its full name, as `a:b/c@1.0.0`.
#[derive(Clone, Debug, PartialEq, Eq)]
pub enum Owner {
    /// an interface
    Interface(String),
    /// a world
    World(String),
}

/// A field, an element of a tuple, a case, a label or a parameter.
#[derive(Clone, Debug, PartialEq, Eq)]
pub struct Member {
    /// Its name; an element of a tuple has an empty one.
    pub name: String,
    /// Its type; a case without payload and a label have none.
    pub ty: Option<Type>,
    /// Its offset in bytes; that of a case is the offset of the payload.
    pub offset: u32,
}

/// What a type is made of.
#[derive(Clone, Debug, PartialEq, Eq)]
pub struct Definition {
    /// The type itself.
    pub ty: Type,
    /// Its name; a type inside another one has none.
    pub name: Option<String>,
    /// Where it is declared.
    pub owner: Option<Owner>,
    /// The element of a list, or the type that an alias or a used name stands for.
    pub target: Option<Type>,
    /// Fields, elements, cases or labels. The number of a case is its index, and label k is bit k.
    pub members: Vec<Member>,
}

/// The kind of a core value.
#[derive(Clone, Copy, Debug, PartialEq, Eq, Hash)]
#[allow(missing_docs)] // the words of WebAssembly
pub enum CoreType {
    I32,
    I64,
}

/// The core values of a core function.
#[derive(Clone, Debug, PartialEq, Eq)]
pub struct Signature {
    /// What it takes.
    pub parameters: Vec<CoreType>,
    /// What it answers.
    pub results: Vec<CoreType>,
}

/// A function of a package.
#[derive(Clone, Debug, PartialEq, Eq)]
pub struct Function {
    /// Its number in the library for C.
    pub number: u32,
    /// Its name.
    pub name: String,
    /// The interface or the world that has it.
    pub owner: Owner,
    /// Its parameters, with their offsets in the record of all of them.
    pub parameters: Vec<Member>,
    /// The size of this record.
    pub size: u32,
    /// The alignment of this record.
    pub alignment: u32,
    /// Its result.
    pub result: Option<Type>,
    /// The core function of the callee.
    pub lifted: Signature,
    /// The core function that the caller imports.
    pub lowered: Signature,
}

/// A type of the table; none is `0`, and a function is no type.
fn type_of(info: TypeInfo) -> Option<Type> {
    let kind = *KINDS.get((info.kind as usize).checked_sub(1)?)?;
    let row = (info.kind >= FIRST_ROW).then_some(info.row);
    Some(Type { kind, row, size: info.size, alignment: info.align })
}

/// The row of a number; none after the last one.
fn row(package: &Package, number: u32) -> Result<Option<RowInfo>, Error> {
    let mut row = RowInfo::default();
    let status = package.ask(|handle| handle.row(number, &mut row));
    if status.number == sys::NOT_THERE {
        return Ok(None);
    }
    checked(status).map(|_| Some(row))
}

/// The numbers of the rows that are functions, or of those that are none.
fn numbers(package: &Package, are_functions: bool) -> Result<Vec<u32>, Error> {
    let mut found = Vec::new();
    let mut number = 0;
    while let Some(row) = row(package, number)? {
        if (row.ty.kind == FUNCTION) == are_functions {
            found.push(number);
        }
        number += 1;
    }
    Ok(found)
}

fn existing(package: &Package, number: u32) -> Result<RowInfo, Error> {
    let missing = sys::Status { code: sys::REFUSED, number: sys::NOT_THERE, ..Default::default() };
    row(package, number)?.ok_or_else(|| Error::of(missing))
}

fn name(package: &Package, of: Name) -> Result<String, Error> {
    package.text(|handle, room| handle.name(of, room))
}

fn owner(package: &Package, row: &RowInfo) -> Result<Option<Owner>, Error> {
    let full_name = || name(package, Name::Owner(row.owner_kind, row.owner));
    match row.owner_kind {
        INTERFACE => Ok(Some(Owner::Interface(full_name()?))),
        WORLD => Ok(Some(Owner::World(full_name()?))),
        _ => Ok(None),
    }
}

fn member(package: &Package, row: u32, index: u32) -> Result<Member, Error> {
    let mut info = MemberInfo::default();
    checked(package.ask(|handle| handle.member(row, index, &mut info)))?;
    Ok(Member { name: name(package, Name::Member(row, index))?, ty: type_of(info.ty), offset: info.offset })
}

fn members(package: &Package, number: u32, row: &RowInfo) -> Result<Vec<Member>, Error> {
    (0..row.members).map(|index| member(package, number, index)).collect()
}

fn kinds(package: &Package, side: Side, function: u32) -> Result<Vec<CoreType>, Error> {
    let mut kinds = [0; sys::MAX_VALUES];
    let count = checked(package.ask(|handle| handle.kinds(side, function, &mut kinds)))?;
    Ok(kinds[..count].iter().map(|kind| if *kind == 0 { CoreType::I32 } else { CoreType::I64 }).collect())
}

fn signature(package: &Package, [parameters, results]: [Side; 2], function: u32) -> Result<Signature, Error> {
    Ok(Signature { parameters: kinds(package, parameters, function)?, results: kinds(package, results, function)? })
}

/// The function of a number.
pub(crate) fn function(package: &Package, number: u32) -> Result<Function, Error> {
    let row = existing(package, number)?;
    Ok(Function {
        number,
        name: name(package, Name::Row(number))?,
        owner: owner(package, &row)?.unwrap_or(Owner::World(String::new())),
        parameters: members(package, number, &row)?,
        size: row.ty.size,
        alignment: row.ty.align,
        result: type_of(row.target),
        lifted: signature(package, [Side::LiftedParameters, Side::LiftedResults], number)?,
        lowered: signature(package, [Side::LoweredParameters, Side::LoweredResults], number)?,
    })
}

/// What the type of a row is made of.
pub(crate) fn definition(package: &Package, number: u32) -> Result<Definition, Error> {
    let row = existing(package, number)?;
    let missing = sys::Status { code: sys::REFUSED, number: sys::NOT_THERE, ..Default::default() };
    let owner = owner(package, &row)?;
    Ok(Definition {
        ty: type_of(row.ty).ok_or_else(|| Error::of(missing))?,
        name: owner.is_some().then(|| name(package, Name::Row(number))).transpose()?,
        owner,
        target: type_of(row.target),
        members: members(package, number, &row)?,
    })
}

/// The full names of the worlds.
pub(crate) fn worlds(package: &Package) -> Result<Vec<String>, Error> {
    let mut found = Vec::new();
    for number in 0.. {
        match name(package, Name::Owner(WORLD, number)) {
            Err(Error::Refused { number: sys::NOT_THERE, .. }) => break,
            other => found.push(other?),
        }
    }
    Ok(found)
}

/// The number under a key.
fn number_in(tree: &Tree, key: &str) -> Option<u32> {
    tree.get(key)?.as_number()?.try_into().ok()
}

/// The numbers of the functions that an item of a world has in a package's document.
fn functions_of(document: &Tree, item: &Tree) -> Option<Vec<u32>> {
    if let Some(number) = number_in(item, "function") {
        return Some(vec![number]);
    }
    let interface = document.get("interfaces")?.as_array()?.get(number_in(item, "interface")? as usize)?;
    let numbers = interface.get("functions")?.as_array()?.iter();
    numbers.map(|it| it.as_number()?.try_into().ok()).collect()
}

/// The numbers of the functions that a world has on a side, `imports` or `exports`, as a package's document says.
fn numbers_of_world(document: &Tree, world: &str, side: &str) -> Option<Vec<u32>> {
    let worlds = document.get("worlds")?.as_array()?;
    let found = worlds.iter().find(|it| it.get("name").and_then(Tree::as_text) == Some(world))?;
    let items = found.get(side)?.as_array()?.iter();
    Some(items.map(|item| functions_of(document, item)).collect::<Option<Vec<_>>>()?.concat())
}

/// The functions that a world has on a side.
pub(crate) fn world_functions(package: &Package, world: &str, side: &str) -> Result<Vec<Function>, Error> {
    let text = package.describe()?;
    let Ok(document) = Tree::read(&text) else { return Err(Error::Unread(text)) };
    let missing = sys::Status { code: sys::REFUSED, number: sys::NOT_THERE, ..Default::default() };
    let numbers = numbers_of_world(&document, world, side).ok_or_else(|| Error::of(missing))?;
    numbers.into_iter().map(|number| function(package, number)).collect()
}

pub(crate) fn functions(package: &Package) -> Result<Vec<Function>, Error> {
    numbers(package, true)?.into_iter().map(|number| function(package, number)).collect()
}

pub(crate) fn types(package: &Package) -> Result<Vec<Definition>, Error> {
    numbers(package, false)?.into_iter().map(|number| definition(package, number)).collect()
}
