//! The verified program `hall` beside the reference, byte for byte: 01's example and edges, a corpus
//! of random scripts of all profiles, malformed ones too, and lines of every length.

use harness::program::output;
use reference::kernel::Store;
use reference::numbers::MAX_DAY;
use reference::script::{answer_line, read_numbers, run_script, start};
use trials::edges::{cases, check, script as script_of};
use trials::generate::script;
use trials::profiles::PROFILES;
use trials::random::Random;

const SCRIPTS: u64 = 300;
const LINES: usize = 300_000;

fn expected(input: &[u8]) -> Vec<u8> {
    let mut output = Vec::new();
    run_script(&mut &*input, &mut output).expect("a run in memory");
    output
}

fn compare(what: &str, input: &[u8]) {
    let written = output("hall", input.to_vec());
    let wanted = expected(input);
    if written != wanted {
        let differs =
            written.split(|b| *b == 10).zip(wanted.split(|b| *b == 10)).find(|(a, b)| a != b);
        let text = |line: &[u8]| String::from_utf8_lossy(line).into_owned();
        panic!("{what}: {:?}", differs.map(|(a, b)| (text(a), text(b))));
    }
}

#[test]
fn example_of_01() {
    let input = include_bytes!("../../docs/example.script");
    compare("01's example", input);
    let text = "1 0 2 7 11 13\n2 0 2 7 21 22\n3 7\n4 0\n5 6\n6 0\n7 5\nT 865 0 0 135\n";
    assert_eq!(output("hall", input.to_vec()), text.as_bytes());
}

#[test]
fn edges() {
    for case in cases() {
        let written = output("hall", script_of(case).into_bytes());
        check(case, &String::from_utf8(written).expect("output in digits"));
    }
}

/// Seeded scripts of all profiles; of some the last line lacks its end.
#[test]
fn corpus() {
    let mut lines = 0;
    let mut scripts = 0;
    for seed in 1.. {
        if scripts >= SCRIPTS && lines >= LINES {
            break;
        }
        for profile in PROFILES {
            let mut input = script(profile, seed, 1_000);
            if seed % 3 == 0 && input.last() == Some(&10) {
                input.pop();
            }
            compare(profile.name, &input);
            lines += input.iter().filter(|byte| **byte == 10).count();
            scripts += 1;
        }
    }
    println!("{scripts} scripts, {lines} lines");
}

/// Bad and absent first lines, empty lines, bytes of all kinds.
#[test]
fn bad_lines() {
    let first: [&[u8]; 12] = [
        b"",
        b"\n",
        b"\n\n",
        b"1000 5",
        b"1000 5 9 1\n1 0 1",
        b" 1000 5 9\n",
        b"1000 5 9 \n",
        b"01000 5 9\n",
        b"4294967296 5 9\n",
        b"4294967295 4294967295 4294967295",
        b"1000 5 9\n",
        b"1000 5 9\n\n\n15 0 1\n\n",
    ];
    for input in first {
        compare("first line", input);
    }
    let mut random = Random::new(21);
    let alphabet = b"0123456789 \n\n\t\r-+.a\0\xff";
    for _ in 0..400 {
        let length = random.below(400);
        let mut input = b"100000 5 9\n".to_vec();
        input.extend((0..length).map(|_| random.pick(alphabet).unwrap_or(b'0')));
        compare("random bytes", &input);
    }
}

/// Lines of call 17 and of derive_cap with each number of numbers that they may have and others, in
/// and out of range, before and after what was lent is over.
#[test]
fn lines_of_days() {
    let day = ["17 0", "17 7", "17 6", "17 7", "17 65535", "17 65536", "17 4294967295"];
    let bad = ["17", "17 ", "17 07", "17 7 0", "17 0 1", "17 0 1 7", "17 4294967296", "017 7"];
    let head = "5 0 1 2 7 11 13 3 0 64";
    let rests = ["", " 41", " 41 1", " 9 42 1", " 9 7 43 1", " 9 65535 44 1", " 9 65536 45 1"];
    let derives = rests.map(|rest| format!("{head}{rest}"));
    let longer = [format!("{head} 9 7 8 46 1"), format!("{head} 9 7 8 9 46 1")];
    let presents = ["21 1", "41 1", "42 1", "43 1", "44 1", "11 13"];
    let reads = presents.map(|password| format!("2 0 1 2 7 {password} 0 1"));
    let mut input = "100000 5 9\n1 0 1 2 128 0 8191 7 11 13\n".to_owned();
    input += "5 0 1 2 7 11 13 8191 0 128 4294967295 6 21 1\n";
    for line in derives.iter().chain(&longer).chain(&reads) {
        input += &format!("{line}\n");
    }
    for line in day.iter().chain(&bad) {
        input += &format!("{line}\n");
        for read in &reads {
            input += &format!("{read}\n");
        }
    }
    input += "6 0 1 2 7 21 1\n6 0 1 2 7 11 13\n17 65535";
    compare("days", input.as_bytes());
    for line in day.iter().chain(&bad) {
        compare(line, format!("1000 5 9\n{line}\n4 0 1 0 1 5 9\n").as_bytes());
        compare(line, format!("1000 5 9\n17 7\n{line}").as_bytes());
    }
}

/// Lines of 2,047 to 2,050 bytes and far longer ones, good but for their length, ended or not.
#[test]
fn long_lines() {
    for length in [2_047, 2_048, 2_049, 2_050, 4_096, 65_535, 65_536, 65_537, 3_000_000] {
        for end in [&b"\n"[..], b"\n15 0 1\n", b""] {
            let mut input = b"1000 5 9\n3 0 1 0 1 5 9 0 0".to_vec();
            let from = 9;
            while input.len() - from + 2 <= length {
                input.extend(b" 7");
            }
            if input.len() - from < length {
                input.push(b'7');
            }
            assert_eq!(input.len() - from, length);
            input.extend(end);
            compare("a long line", &input);
            let mut spaces = b"1000 5 9\n".to_vec();
            spaces.extend(vec![b' '; length]);
            spaces.extend(end);
            compare("a line of spaces", &spaces);
        }
    }
}

/// A long first line, and many short lines across the program's buffers.
#[test]
fn buffers() {
    let mut first = vec![b'1'; 5_000];
    first.extend(b"\n15 0 1\n");
    compare("a long first line", &first);
    let mut random = Random::new(22);
    for _ in 0..20 {
        let mut input = b"4000000000 5 9\n1 0 1 2 512 0 8191 7 11 13\n".to_vec();
        for _ in 0..20_000 {
            match random.below(3) {
                0 => input.extend(b"2 0 1 2 7 11 13 0 256\n"),
                1 => input.extend(b"4 0 1 2 7 11 13\n"),
                _ => input.push(10),
            }
        }
        compare("many lines", &input);
    }
}

/// The sheet of the manual's script, and of 01's, where all that was lent has ended.
#[test]
fn sheets() {
    let lending = include_bytes!("../../docs/lending.script");
    let sheet = String::from_utf8(output("sheet", lending.to_vec())).expect("text");
    assert!(sheet.starts_with("line 6: delete_cap ended\n    2 7 11 13\n    2 7 21 22\n"));
    assert!(
        sheet.ends_with("            45 46: no rights, window 80 to 90, moneyword 0, from 43\n")
    );
    let example = include_bytes!("../../docs/example.script");
    let text = "line 6: delete_cap ended\n    2 7 11 13\n    2 7 21 22\n\
        object 0 1: process, size 0, cash 865\n\
        \x20   5 9: all rights, window 0 to 0, moneyword 0, master\n";
    assert_eq!(output("sheet", example.to_vec()), text.as_bytes());
    assert_eq!(output("sheet", b"bad".to_vec()), b"0 2\n");
}

const RIGHTS: [&str; 13] = [
    "READ",
    "WRITE",
    "CAP_INFO",
    "DERIVE_CAP",
    "DELETE_CAP",
    "RENAME_OBJ",
    "WITHDRAW",
    "DEPOSIT",
    "SUSPEND",
    "RESUME",
    "APPLY_LOCK",
    "SEND",
    "REVIVE",
];

fn rights_by_name(rights: u32) -> String {
    let held = RIGHTS.iter().enumerate().filter(|(at, _)| rights >> at & 1 == 1);
    match rights {
        0 => "no rights".into(),
        8_191 => "all rights".into(),
        _ => held.map(|(_, name)| *name).collect::<Vec<_>>().join(" "),
    }
}

/// What a sheet says of each object and capability of a store, in no order.
fn facts(store: &Store) -> Vec<String> {
    let objects = store.objects.iter().map(|(name, object)| {
        let cash = format!(", cash {}", object.cash);
        let (kind, cash) = if object.process { ("process", cash) } else { ("data", String::new()) };
        format!("object {} {}: {kind}, size {}{cash}", name.volume, name.serial, object.size())
    });
    let capabilities = store.capabilities.iter().map(|((_, p1), c)| {
        let from = c.parent.map_or("master".into(), |parent| format!("from {parent}"));
        let window = format!("window {} to {}", c.start, c.end);
        let season = match c.last_day {
            MAX_DAY => String::new(),
            last if last < store.day => format!(", last day {last}, expired"),
            last => format!(", last day {last}"),
        };
        format!(
            "{p1} {}: {}, {window}, moneyword {}{season}, {from}",
            c.p2,
            rights_by_name(c.rights),
            c.moneyword
        )
    });
    let mut facts: Vec<String> = objects.chain(capabilities).collect();
    facts.sort();
    facts
}

/// The store that the reference has at the end of a script.
fn last_store(script: &[u8]) -> Store {
    let mut lines = script.split(|byte| *byte == 10).map(read_numbers);
    let mut store = lines.next().flatten().and_then(start).expect("a good line one");
    for numbers in lines {
        answer_line(&mut store, numbers.as_deref());
    }
    store
}

/// The drawn objects and capabilities are those of the reference's store.
#[test]
fn sheets_of_random_scripts() {
    for seed in 1..=4 {
        for profile in PROFILES {
            let input = script(profile, seed, 1_500);
            let sheet = String::from_utf8(output("sheet", input.clone())).expect("text");
            let drawn = sheet.lines().skip_while(|line| !line.starts_with("object "));
            let mut drawn: Vec<String> = drawn.map(|line| line.trim_start().to_owned()).collect();
            drawn.sort();
            assert_eq!(drawn, facts(&last_store(&input)), "{} {seed}", profile.name);
        }
    }
}
