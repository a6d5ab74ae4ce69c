//! Stores in slices: laid out and read back, checked by the oracle and by the plain checker, and
//! damaged in every kind.

use reference::claims;
use reference::kernel::Store;
use std::collections::BTreeSet;
use trials::damage::{damage, Kind};
use trials::encode::encode;
use trials::layout::*;
use trials::oracle::well_formed;
use trials::plain::{check, check_in_pairs};
use trials::random::Random;
use trials::raw::{decode, RawStore};
use trials::samples::{shaped, stores_of_runs, Shape};

/// The answer of all checkers, which must be one.
fn answer(raw: &RawStore, what: &dyn std::fmt::Debug) -> bool {
    let answer = well_formed(raw);
    let RawStore { bytes, links, words } = raw;
    assert_eq!(check(bytes, links, words), answer, "plain: {what:?}");
    assert_eq!(check_in_pairs(bytes, links, words), answer, "in pairs: {what:?}");
    answer
}

/// The rows "| FIELD | first cell | cells |" of docs/LAYOUT.md.
#[test]
fn layout_is_the_document() {
    let number = |cell: &str| cell.replace(',', "").parse::<usize>().ok();
    let row = |line: &str| {
        let cells: Vec<&str> = line.split('|').map(str::trim).collect();
        Some((cells.get(1)?.to_string(), number(cells.get(2)?)?, number(cells.get(3)?)?))
    };
    let document: Vec<_> = include_str!("../../docs/LAYOUT.md").lines().filter_map(row).collect();
    fn rows<T>(fields: &[Field<T>]) -> Vec<(String, usize, usize)> {
        fields.iter().map(|f| (f.name.to_string(), f.first, f.cells())).collect()
    }
    let tables = [rows(&BYTE_FIELDS), rows(&LINK_FIELDS), rows(&WORD_FIELDS)];
    assert_eq!(document, tables.concat());
    for (table, length) in tables.iter().zip([BYTES, LINKS, WORDS]) {
        let end = table.iter().fold(0, |end, (name, first, cells)| {
            assert_eq!(end, *first, "{name}");
            first + cells
        });
        assert_eq!(end, length);
    }
}

#[test]
fn stores_are_read_back() {
    let mut random = Random::new(1);
    let mut count = 0;
    for seed in 0..6 {
        stores_of_runs(seed, 5, &mut |store: &Store| {
            let raw = encode(store, &mut random);
            assert!(answer(&raw, store));
            assert_eq!(decode(&raw).as_ref(), Some(store));
            count += 1;
        });
    }
    assert!(count > 5_000, "{count}");
}

#[test]
fn full_stores_are_well_formed() {
    let mut random = Random::new(2);
    for shape in [Shape::Wide, Shape::Deep, Shape::Random] {
        for (objects, size) in [(1, 8_192), (64, 512), (4, 8_192)] {
            let store = shaped(objects, size, 512 / objects, shape, &mut random);
            let raw = encode(&store, &mut random);
            assert!(answer(&raw, &shape));
            assert_eq!(decode(&raw), Some(store));
        }
    }
}

/// A store of before there were days becomes one as docs/LAYOUT.md says: it is day 0, and nothing has
/// a last day but the last of all.
#[test]
fn stores_of_before_days() {
    let mut random = Random::new(6);
    stores_of_runs(2, 50, &mut |store: &Store| {
        let mut store = store.clone();
        store.day = 0;
        store.capabilities.values_mut().for_each(|capability| capability.last_day = 65_535);
        let mut raw = encode(&store, &mut random);
        raw.links.truncate(3_920);
        assert!(!answer(&raw, &store));
        raw.links.extend([65_535; 513]);
        raw.links.push(0);
        assert!(answer(&raw, &store));
        assert_eq!(decode(&raw), Some(store));
    });
}

/// Every kind of damage alone: all but the cells of living records have a known answer.
#[test]
fn damages_are_found() {
    let mut random = Random::new(3);
    let mut met: BTreeSet<Kind> = BTreeSet::new();
    stores_of_runs(7, 60, &mut |store: &Store| {
        let sound = encode(store, &mut random);
        for kind in Kind::all() {
            let mut raw = sound.clone();
            if !kind.apply(&mut raw, &mut random) {
                assert_eq!(raw, sound, "{kind}");
                continue;
            }
            let answer = answer(&raw, &kind);
            assert_eq!(kind.well_formed_after().unwrap_or(answer), answer, "{kind}");
            met.insert(kind);
        }
    });
    for kind in Kind::all() {
        assert!(met.contains(&kind), "not met: {kind}");
    }
}

/// Damages in several places: the checkers agree, and what is well formed has a meaning that is.
#[test]
fn many_damages() {
    let mut random = Random::new(4);
    let kinds = Kind::all();
    let mut answers = [0, 0];
    for seed in 8..11 {
        stores_of_runs(seed, 20, &mut |store: &Store| {
            let mut raw = encode(store, &mut random);
            for _ in 0..4 {
                let count = random.between(1, 2);
                let done = damage(&mut raw, &kinds, count, &mut random);
                let answer = answer(&raw, &done);
                let meaning = decode(&raw);
                if answer {
                    let meaning = meaning.expect("a meaning");
                    assert_eq!(claims::well_formed(&meaning), Ok(()), "{done:?}");
                    assert_eq!(decode(&encode(&meaning, &mut random)), Some(meaning));
                }
                answers[usize::from(answer)] += 1;
            }
        });
    }
    assert!(answers.iter().all(|count| *count > 100), "{answers:?}");
}

/// Slices of any lengths and contents are answered, those of other lengths by no.
#[test]
fn any_slices() {
    let mut random = Random::new(5);
    let lengths = |length: usize| [0, 1, length / 2, length - 1, length, length + 1, 2 * length];
    for (bytes, links, words) in lengths(BYTES).into_iter().flat_map(|bytes| {
        lengths(LINKS).into_iter().flat_map(move |links| {
            lengths(WORDS).into_iter().map(move |words| (bytes, links, words))
        })
    }) {
        let limit = random.pick(&[1, 4, 66, 514, 1 << 31]).unwrap_or(1);
        let raw = RawStore {
            bytes: random.bytes(bytes),
            links: (0..links).map(|_| random.below(limit) as u16).collect(),
            words: (0..words).map(|_| random.below(limit)).collect(),
        };
        assert!(!answer(&raw, &(bytes, links, words)));
        decode(&raw);
    }
}
