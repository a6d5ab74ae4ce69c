//! The tables of examples that the definitions of products and questions above the store are proved
//! to hold.

/// The rows of a table, whose numbers stand after the word edge; true is 1, and false 0.
pub fn edges<const N: usize>(definitions: &str) -> Vec<[u32; N]> {
    let read = |row| edge(row).unwrap_or_else(|| panic!("no row of {N} numbers: {row}"));
    rows(definitions).map(read).collect()
}

/// The rows of a table with a list of numbers after the numbers of each.
pub fn edges_with_list<const N: usize>(definitions: &str) -> Vec<([u32; N], Vec<u32>)> {
    let edge_with_list = |row: &str| {
        let (at, _) = row.match_indices(' ').nth(N - 1)?;
        Some((edge(&row[..at])?, list(definitions, &row[at + 1..])?))
    };
    let read = |row| {
        edge_with_list(row).unwrap_or_else(|| panic!("no row of {N} numbers and a list: {row}"))
    };
    rows(definitions).map(read).collect()
}

fn rows(definitions: &str) -> impl Iterator<Item = &str> {
    definitions.lines().filter_map(|line| {
        let row = line.trim().trim_start_matches("∷ ").strip_prefix("edge ")?;
        row.starts_with(|c: char| c.is_ascii_digit()).then_some(row)
    })
}

fn edge<const N: usize>(row: &str) -> Option<[u32; N]> {
    let number = |word: &str| match word {
        "true" => Some(1),
        "false" => Some(0),
        digits => digits.parse().ok(),
    };
    let numbers: Option<Vec<u32>> = row.split(' ').map(number).collect();
    numbers?.try_into().ok()
}

/// A list of one part, or in parentheses of several, joined by ++.
fn list(definitions: &str, text: &str) -> Option<Vec<u32>> {
    let inner = text.strip_prefix('(').and_then(|text| text.strip_suffix(')'));
    let parts = inner.unwrap_or(text).split(" ++ ").map(|text| part(definitions, text));
    Some(parts.collect::<Option<Vec<_>>>()?.concat())
}

/// A list's name, so many times a list's name, or numbers.
fn part(definitions: &str, text: &str) -> Option<Vec<u32>> {
    let named = |name| {
        let value = |line: &str| numbers(line.strip_prefix(name)?.strip_prefix(" = ")?);
        definitions.lines().find_map(value)
    };
    match text.split(' ').collect::<Vec<_>>()[..] {
        ["times", count, name] => Some(named(name)?.repeat(count.parse().ok()?)),
        [name] if name != "[]" => named(name),
        _ => numbers(text),
    }
}

/// Numbers, each with ∷ after it, up to the empty list.
fn numbers(text: &str) -> Option<Vec<u32>> {
    let numbers = text.strip_suffix("[]")?.split_terminator(" ∷ ");
    numbers.map(|number| number.parse().ok()).collect()
}
