//! The nearest name to one that a package does not have.

#![forbid(unsafe_code)]

/// Pairs of letters that are compared at most, which takes a moment.
const MOST_PAIRS: usize = 10_000_000;
/// Letters of a name that are shown at most.
const MOST_SHOWN: usize = 100;

/// A function's owner, and its own name.
pub(crate) type Named = (String, String);

/// The edits to each beginning of a name, after one letter more of the other one.
fn next_row(row: &[usize], letter: char, name: &[char]) -> Vec<usize> {
    let mut made = vec![row[0] + 1];
    for (place, it) in name.iter().enumerate() {
        let replaced = row[place] + usize::from(letter != *it);
        made.push(replaced.min(row[place + 1] + 1).min(made[place] + 1));
    }
    made
}

/// How many letters are put in, left out or replaced to make one name of another.
fn edits(one: &[char], other: &str) -> usize {
    let first = (0..=one.len()).collect();
    other.chars().fold(first, |row: Vec<usize>, letter| next_row(&row, letter, one))[one.len()]
}

/// The first of the names that needs the fewest edits, of as many as are compared at most.
fn nearest<'names>(name: &str, names: impl Iterator<Item = &'names str>) -> &'names str {
    let letters: Vec<char> = name.chars().collect();
    let mut left = MOST_PAIRS;
    let affordable = names.map_while(|it| {
        left = left.checked_sub((letters.len() + 1) * (it.len() + 1))?;
        Some(it)
    });
    affordable.min_by_key(|it| edits(&letters, it)).unwrap_or_default()
}

/// A letter, or its escape if it isn't shown as itself. Quotes are.
fn printable(letter: char) -> String {
    match letter {
        '"' | '\'' | '\\' => letter.to_string(),
        _ => letter.escape_debug().to_string(),
    }
}

/// The beginning of a text, in letters that any terminal can print.
pub(crate) fn quoted(text: &str, most: usize) -> String {
    let mut shown: String = text.chars().take(most).map(printable).collect();
    if text.chars().nth(most).is_some() {
        shown.push_str("..");
    }
    format!("`{shown}`")
}

/// The nearest interface or world: one that differs in the version alone, if there is one.
fn nearest_owner<'names>(owner: &str, owners: &[&'names str]) -> &'names str {
    let base = |it: &str| it.split('@').next().map(str::to_owned);
    let other_version = owners.iter().find(|it| base(it) == base(owner));
    other_version.copied().unwrap_or_else(|| nearest(owner, owners.iter().copied()))
}

/// The names of the functions of an interface or a world.
fn of_owner<'names>(there: &'names [Named], owner: &'names str) -> impl Iterator<Item = &'names str> {
    there.iter().filter(move |it| it.0 == owner).map(|it| it.1.as_str())
}

/// Which function was looked for, and which of those that are there is the nearest. `kind` is what an owner is.
pub(crate) fn hint(owner: &str, name: &str, there: &[Named], kind: &str) -> String {
    let [shown_owner, shown_name] = [owner, name].map(|it| quoted(it, MOST_SHOWN));
    let owners: Vec<&str> = there.iter().filter(|it| it.1 == name).map(|it| it.0.as_str()).collect();
    let has_owner = there.iter().any(|it| it.0 == owner);
    if there.is_empty() {
        return format!("no {shown_name} in {shown_owner}: no {kind} here has functions");
    }
    if has_owner && owners.is_empty() {
        return format!("no {shown_name} in {shown_owner}; the nearest is `{}`", nearest(name, of_owner(there, owner)));
    }
    let all: Vec<&str> = there.iter().map(|it| it.0.as_str()).collect();
    let near = nearest_owner(owner, if owners.is_empty() { &all } else { &owners });
    if has_owner {
        return format!("no {shown_name} in {shown_owner}; it is in `{near}`");
    }
    let own = nearest(name, of_owner(there, near));
    if owner.is_empty() {
        return format!("{shown_name} has no {kind}; the nearest is `{near}#{own}`");
    }
    format!("no {kind} {shown_owner} has functions here; the nearest is `{own}` in `{near}`")
}
