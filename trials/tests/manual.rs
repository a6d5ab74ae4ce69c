//! The tables of docs/MANUAL.md say what the reference has: calls, fees, rights, refusals, limits, and
//! what it writes for the scripts.

use reference::call::{CALLS, SET_DAY};
use reference::numbers::*;
use reference::script::run_script;
use std::collections::BTreeMap;
use trials::coverage::refusals;

const MANUAL: &str = include_str!("../../docs/MANUAL.md");
const NUMBERS: &str = include_str!("../../reference/src/numbers.rs");

/// The cells of the table rows of a section, which starts with this line.
fn rows(section: &str) -> Vec<Vec<&'static str>> {
    let from = MANUAL.lines().skip_while(move |line| *line != section).skip(1);
    let lines = from.take_while(|line| !line.starts_with('#'));
    let tables = lines.filter_map(|line| line.strip_prefix('|')?.strip_suffix('|'));
    tables.map(|row| row.split('|').map(str::trim).collect()).collect()
}

/// The constants of the reference's file of numbers, by name: a number, or an earlier name.
fn constants(text: &'static str) -> BTreeMap<&'static str, u32> {
    let mut found = BTreeMap::new();
    for line in text.lines() {
        let constant = line.trim().strip_prefix("pub const ").and_then(|c| c.split_once(':'));
        let Some((name, rest)) = constant else { continue };
        let value = rest.split_once('=').and_then(|(_, value)| value.trim().strip_suffix(';'));
        let known = value.and_then(|value| number(value).or(found.get(value).copied()));
        found.extend(known.map(|value| (name, value)));
    }
    found
}

fn number(digits: &str) -> Option<u32> {
    digits.replace([',', '_'], "").parse().ok()
}

/// An answer's name in the code: `NOT_FOUND` is `NotFound` there, and `DONE` a constant.
fn in_code(name: &str) -> String {
    if name == "DONE" {
        return name.to_string();
    }
    name.split('_').map(|word| word[..1].to_string() + &word[1..].to_lowercase()).collect()
}

#[test]
fn calls() {
    let rights = constants(NUMBERS.split_once("pub mod right").expect("the rights").1);
    let calls = rows("## The calls");
    let calls: Vec<_> = calls.iter().filter(|row| number(row[0]).is_some()).collect();
    let (host, calls) = calls.split_last().expect("calls");
    assert_eq!(calls.len(), CALLS.len());
    for (row, kind) in calls.iter().zip(CALLS) {
        let [at, name, fee, right, _, then, _] = row[..] else { panic!("{row:?}") };
        assert_eq!((number(at), name), (Some(kind.number), kind.name));
        assert_eq!(number(fee), Some(kind.fee), "{name}");
        assert_eq!(if right.is_empty() { 0 } else { rights[right] }, kind.right, "{name}");
        let shared = [OUT_OF_RANGE, NOT_RUNNING, CANNOT_PAY, NOT_FOUND, EXPIRED, RIGHT_MISSING];
        let shared = if right.is_empty() { &shared[..3] } else { &shared };
        let met = refusals(kind.number);
        let own: Vec<u32> = met.into_iter().filter(|refusal| !shared.contains(refusal)).collect();
        let then: Vec<u32> = then.split(", ").filter_map(number).collect();
        assert_eq!(then, own, "{name}");
    }
    // the host's call has no fee and no right, and 2 of its own
    let [at, name, "", "", _, then, _] = host[..] else { panic!("{host:?}") };
    assert_eq!((number(at), name), (Some(SET_DAY), trials::coverage::name(SET_DAY)));
    let then: Vec<u32> = then.split(", ").filter_map(number).collect();
    assert_eq!(then, refusals(SET_DAY));
}

#[test]
fn rights_answers_and_limits() {
    let (outer, rights) = NUMBERS.split_once("pub mod right").expect("the rights");
    let mut rights = constants(rights);
    rights.remove("NONE");
    let table = rows("### Rights");
    let named: BTreeMap<_, _> =
        table[0].iter().zip(&table[2]).map(|(name, n)| (*name, number(n).expect(name))).collect();
    assert_eq!(named, rights);
    let mut said = BTreeMap::new();
    for row in rows("### Answers") {
        said.extend(number(row[0]).map(|n| (row[1].to_string(), n)));
    }
    assert_eq!(said.len(), 22);
    for row in rows("### Limits").iter().skip(2) {
        let numbers = row[1].split(", ").map(|n| number(n).expect("a number"));
        said.extend(row[0].split(", ").map(str::to_string).zip(numbers));
    }
    let (answers, limits) = outer.split_once("pub enum Refusal").expect("the refusals");
    let mut ours: BTreeMap<_, _> =
        constants(answers).into_iter().map(|(name, n)| (in_code(name), n)).collect();
    ours.extend(constants(limits).into_iter().map(|(name, n)| (name.to_string(), n)));
    ours.remove("MAX_LINE");
    assert_eq!(said, ours);
}

/// Each table of script lines has beside them what the reference writes; the first is the example.
#[test]
fn scripts() {
    let rows = rows("## The script");
    let column = |table: &[Vec<&str>], at: usize| {
        let cells =
            table.iter().filter_map(move |row| row[at].strip_prefix('`')?.strip_suffix('`'));
        cells.map(|cell| format!("{cell}\n")).collect::<String>()
    };
    let tables: Vec<_> = rows.split(|row| row[0] == "line").skip(1).collect();
    for table in &tables {
        let mut output = Vec::new();
        run_script(&mut column(table, 0).as_bytes(), &mut output).expect("a run in memory");
        assert_eq!(String::from_utf8(output).expect("output in digits"), column(table, 1));
    }
    assert_eq!(tables.len(), 3);
    assert_eq!(column(tables[0], 0), include_str!("../../docs/example.script"));
}
