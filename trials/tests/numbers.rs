//! The reference's answers, limits and rights are those of the verified code, by name and number.

use std::collections::BTreeMap;

const REFERENCE: &str = include_str!("../../reference/src/numbers.rs");
const REFUSALS: &str = include_str!("../../crates/values/src/refusal.rt");
const LIMITS: &str = include_str!("../../crates/values/src/limit.rt");
const DRIVE: &str = include_str!("../../crates/product_drive/src/limit.rt");
const ROYALTIES: &str = include_str!("../../crates/product_royalties/src/limit.rt");
const RIGHTS: &str = include_str!("../../crates/values/src/rights.rt");

/// A line `pub const NAME: type = value;`: the name and the value.
fn constant(line: &str) -> Option<(&str, &str)> {
    let (name, rest) = line.trim().strip_prefix("pub const ")?.split_once(':')?;
    Some((name, rest.split_once('=')?.1.trim().strip_suffix(';')?))
}

/// All that are a number, perhaps in a tuple struct, or an earlier name.
fn constants(text: &str) -> BTreeMap<&str, u64> {
    let mut found = BTreeMap::new();
    for (name, value) in text.lines().filter_map(constant) {
        let digits: String = value.chars().filter(char::is_ascii_digit).collect();
        let known = digits.parse().ok().or(found.get(value).copied());
        found.extend(known.map(|value| (name, value)));
    }
    found
}

/// A variant's name as a constant's: `BoxFull` is `BOX_FULL`.
fn screaming(name: &str) -> String {
    let words = name.char_indices().map(|(i, c)| match c {
        'A'..='Z' if i > 0 => format!("_{c}"),
        _ => c.to_ascii_uppercase().to_string(),
    });
    words.collect()
}

/// The refusals by the lines `Refusal::Name => number,`.
fn refusals(text: &str) -> BTreeMap<String, u64> {
    let line = |line: &str| {
        let (name, number) = line.trim().strip_prefix("Refusal::")?.split_once(" => ")?;
        Some((screaming(name), number.strip_suffix(',')?.parse().ok()?))
    };
    text.lines().filter_map(line).collect()
}

#[test]
fn numbers_are_the_same() {
    let (outer, rights) = REFERENCE.split_once("pub mod right").expect("the rights");
    // the number of what is done, then the refusals
    let mut verified = constants(REFUSALS);
    let named = refusals(REFUSALS);
    verified.extend(named.iter().map(|(name, number)| (name.as_str(), *number)));
    assert_eq!(verified.len(), 22);
    verified.extend(constants(LIMITS));
    for (product, count) in [(DRIVE, 3), (ROYALTIES, 7)] {
        let limits = constants(product);
        assert_eq!(limits.len(), count);
        verified.extend(limits);
    }
    // of a line's bytes, which the reference has by their type
    assert_eq!(verified.remove("MAX_BYTE"), Some(u64::from(u8::MAX)));
    let mut ours = constants(outer);
    // of scripts, which `values` knows nothing of
    assert_eq!(ours.remove("MAX_LINE"), Some(2_048));
    assert_eq!(ours, verified);
    assert_eq!(constants(rights), constants(RIGHTS));
    assert_eq!(constants(rights).len(), 14);
}
