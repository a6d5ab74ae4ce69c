//! Scripts to the byte: 01's example, malformed input, random bytes, lines without a limit, and the table
//! of examples.

use reference::call::{Action, Operation};
use reference::kernel::Store;
use reference::numbers::{DONE, MAX_WORD};
use reference::script::{answer_line, call_numbers, read_call, read_numbers, run_script};
use std::collections::BTreeSet;
use std::io::{BufRead, BufReader};
use trials::examples::{definitions, EXAMPLES};
use trials::generate::{script, Generator};
use trials::profiles::PROFILES;
use trials::random::Random;

fn run_from(mut input: impl BufRead) -> String {
    let mut output = Vec::new();
    run_script(&mut input, &mut output).expect("a run in memory");
    String::from_utf8(output).expect("output in digits")
}

fn run(input: &[u8]) -> String {
    run_from(input)
}

#[test]
fn example_of_01() {
    let input = "1000 5 9
1 0 1 2 128 0 8191 7 11 13
5 0 1 2 7 11 13 3 64 500 21 22
2 0 1 2 7 21 22 63 65
9 0 1 2 7 11 13 100
4 0 1 2 7 21 22
6 0 1 2 7 11 13
2 0 1 2 7 21 22 64 65
";
    let output = "1 0 2 7 11 13
2 0 2 7 21 22
3 7
4 0
5 6
6 0
7 5
T 865 0 0 135
";
    assert_eq!(run(input.as_bytes()), output);
    assert_eq!(run(input.trim_end().as_bytes()), output);
}

#[test]
fn bad_line_one() {
    let table: [&[u8]; 24] = [
        b"",
        b"\n",
        b"\n1000 5 9\n",
        b" ",
        b"1000",
        b"1000 5",
        b"1000 5\n9\n",
        b"1000 5 9 1",
        b"1000 5 9 ",
        b" 1000 5 9",
        b"1000  5 9",
        b"1000\t5\t9",
        b"1000 5 9\r\n15 0 1\n",
        b"01000 5 9",
        b"1000 05 9",
        b"1000 5 00",
        b"4294967296 5 9",
        b"1000 5 4294967296",
        b"1000 5 99999999999999999999999",
        b"1000 5 -9",
        b"1000 5 +9",
        b"1000 5 9\0",
        b"1000 5 a",
        b"T",
    ];
    for input in table {
        assert_eq!(run(input), "0 2\n", "{:?}", String::from_utf8_lossy(input));
    }
    for length in [2_048, 2_049, 100_000] {
        let input = [&vec![b'1'; length][..], b"\n1000 5 9\n15 0 1\n"].concat();
        assert_eq!(run(&input), "0 2\n");
    }
}

#[test]
fn good_line_one() {
    let table: [(&[u8], &str); 7] = [
        (b"0 0 0", "T 0 0 0 0\n"),
        (b"1000 5 9", "T 1000 0 0 0\n"),
        (b"1000 5 9\n", "T 1000 0 0 0\n"),
        (b"1000 5 9\n\n", "1 2\nT 1000 0 0 0\n"),
        (b"1000 5 9\n\n\n", "1 2\n2 2\nT 1000 0 0 0\n"),
        (b"1000 5 9\n\n15 0 1", "1 2\n2 0\nT 1000 0 0 0\n"),
        (
            b"4294967295 4294967295 4294967295\n4 0 1 0 1 4294967295 4294967295",
            "1 0 0 0\nT 4294967294 0 0 1\n",
        ),
    ];
    for (input, output) in table {
        assert_eq!(run(input), output, "{:?}", String::from_utf8_lossy(input));
    }
}

const BAD_LINES: &[&str] = &[
    "",
    " ",
    "  ",
    " 15 0 1",
    "15 0 1 ",
    "15  0 1",
    "15 0  1",
    "15 0 01",
    "015 0 1",
    "00 0 1",
    "15 00 1",
    "15 0 1\r",
    "\r",
    "15\t0 1",
    "15,0,1",
    "15 0 1\0",
    "\0",
    "\x0015 0 1",
    "a",
    "15 0 a",
    "15 0 1a",
    "-15 0 1",
    "+15 0 1",
    "15 0 1.0",
    "0x0f 0 1",
    "1e1 0 1",
    "15 0 １",
    "4294967296 0 1",
    "15 4294967296 1",
    "15 0 4294967297",
    "15 0 18446744073709551617",
    "15",
    "15 0",
    "15 0 1 0",
    "14 0",
    "14 0 1 0",
    "17",
    "17 ",
    "17 05",
    "17 0 1",
    "17 0 0 0",
    "17 65536",
    "17 4294967295",
    "17 4294967296",
    "0",
    "T",
    "15 0 1 T",
    "# 15 0 1",
    "13 0 1 0 1 5 9 0 256",
    "13 0 1 0 1 5 9 0 4294967295",
    "3 0 1 0 1 5 9 0 1 256",
];

/// Bad lines: each is answered 2, changes nothing, and the next line is read from its start.
#[test]
fn bad_lines() {
    let long = |length: usize| "15 0 1 ".repeat(length / 7 + 1)[..length].to_owned();
    let texts = BAD_LINES.iter().map(|line| line.as_bytes().to_vec());
    let mut table: Vec<Vec<u8>> = texts.collect();
    table.push(vec![0xff, 0xfe]);
    table.extend([2_047, 2_048, 2_049, 2_050, 4_097, 70_000].map(|n| long(n).into_bytes()));
    table.extend([2_048, 2_049, 70_000].map(|n| vec![b'9'; n]));
    table.extend([2_048, 2_049, 70_000].map(|n| vec![b' '; n]));
    table.push(["15 0 1", &" ".repeat(2_043)].concat().into_bytes());
    for line in table {
        let shown = String::from_utf8_lossy(&line[..line.len().min(80)]).into_owned();
        let input = [b"1000 5 9\n", &line[..], b"\n4 0 1 0 1 5 9\n"].concat();
        assert_eq!(run(&input), "1 2\n2 0 0 0\nT 999 0 0 1\n", "{shown:?}");
        if !line.is_empty() {
            let input = [b"1000 5 9\n4 0 1 0 1 5 9\n", &line[..]].concat();
            assert_eq!(run(&input), "1 0 0 0\n2 2\nT 999 0 0 1\n", "{shown:?}, last");
        }
    }
}

/// Too few and too many numbers for each call. More numbers after send's are its message, and
/// derive_cap's line may lack one or two, its last day and its limit.
#[test]
fn counts_of_numbers() {
    let table = [
        "1 0 1 2 128 0 8191 7 11 13",
        "2 0 1 0 1 5 9 0 0",
        "3 0 1 0 1 5 9 0 0",
        "4 0 1 0 1 5 9",
        "5 0 1 0 1 5 9 0 0 0 0 0 1 1",
        "6 0 1 0 1 5 9",
        "7 0 1 0 1 5 9 1 1",
        "8 0 1 0 1 5 9 0",
        "9 0 1 0 1 5 9 0",
        "10 0 1 0 1 5 9",
        "11 0 1 0 1 5 9",
        "12 0 1 0 1 5 9 1 1",
        "13 0 1 0 1 5 9 0",
        "14 0 1",
        "15 0 1",
        "16 0 1 0 1 5 9 1",
        "17 0",
    ];
    for (at, line) in table.iter().enumerate() {
        let answer = |line: &str| run(format!("1000 5 9\n{line}\n").as_bytes());
        assert!(!answer(line).starts_with("1 2\n"), "{line}");
        let numbers: Vec<&str> = line.split(' ').collect();
        for count in 1..numbers.len() {
            let short = numbers[..count].join(" ");
            let may_lack = at + 1 == 5 && count + 2 >= numbers.len();
            assert_eq!(answer(&short).starts_with("1 2\n"), !may_lack, "{short}");
        }
        let longer = answer(&format!("{line} 0"));
        assert_eq!(longer.starts_with("1 2\n"), at + 1 != 13, "{line} 0");
    }
}

/// The longest line that can be good: a write of 256 bytes.
#[test]
fn longest_good_line() {
    let data = " 255".repeat(256);
    let input = format!(
        "1000 4294967295 4294967295\n1 0 1 3 8192 0 8191 65535 4294967295 4294967295\n\
         3 0 1 3 65535 4294967295 4294967295 7936 8192{data}\n\
         2 0 1 3 65535 4294967295 4294967295 7936 8192\n"
    );
    let output = format!("1 0 3 65535 4294967295 4294967295\n2 0\n3 0{data}\nT 977 0 0 23\n");
    assert_eq!(run(input.as_bytes()), output);
}

/// Random bytes: no panic, one answer for each line, and the same answers however the input is
/// cut into pieces.
#[test]
fn random_bytes() {
    let mut random = Random::new(7);
    for round in 0..3_000 {
        let alphabet: &[u8] = match round % 3 {
            0 => b"0123456789 \n",
            1 => b"01 2 5 9 \n\n\r\0a",
            _ => &[0, 1, 9, 10, 13, 32, 48, 49, 57, 255],
        };
        let length = random.between(0, 400);
        let mut input = if random.chance(800) { b"1000 5 9\n".to_vec() } else { Vec::new() };
        input.extend((0..length).filter_map(|_| random.pick(alphabet)));
        let output = run(&input);
        let capacity = random.between(1, 9) as usize;
        assert_eq!(run_from(BufReader::with_capacity(capacity, &input[..])), output);
        let ends = input.iter().filter(|byte| **byte == b'\n').count();
        let lines = ends + usize::from(input.last().is_some_and(|byte| *byte != b'\n'));
        assert!(output == "0 2\n" || output.lines().count() == lines);
        assert!(output.ends_with('\n'));
    }
}

/// Generated scripts: one answer for each line and an unchanged money total.
#[test]
fn generated_scripts() {
    for profile in PROFILES {
        for seed in 0..4 {
            let text = script(profile, seed, 500);
            let output = run(&text);
            let supply: u64 =
                std::str::from_utf8(&text[..text.iter().position(|b| *b == b' ').unwrap()])
                    .unwrap()
                    .parse()
                    .unwrap();
            assert_eq!(output.lines().count(), 501, "{} {seed}", profile.name);
            let totals = output.lines().last().unwrap().strip_prefix("T ").unwrap();
            let total: u64 = totals.split(' ').map(|n| n.parse::<u64>().unwrap()).sum();
            assert_eq!(total, supply, "{} {seed}", profile.name);
            assert_eq!(run_from(BufReader::with_capacity(3, &text[..])), output);
        }
    }
}

/// The place of the limit in a line of derive_cap, and the numbers of a line that has none.
const LIMIT: usize = 10;
const WITHOUT_LIMIT: usize = 12;

/// A line of derive_cap that has no limit, with this one in its place.
fn with_limit(line: &[u32], limit: u32) -> Vec<u32> {
    [&line[..LIMIT], &[limit], &line[LIMIT..]].concat()
}

/// 02, CR 11: "A derive_cap line without a limit now gives moneyword 0", and "Nothing else about the
/// tree changes": with the largest limit the answer is the same, and so is the store but for the
/// child's moneyword, which is then the parent's. With the limit 0 the line is the same call.
#[test]
fn lines_without_a_limit() {
    let (mut lent, mut none) = (0, 0);
    for profile in PROFILES {
        let mut generator = Generator::new(profile, 5);
        let [supply, p1, p2] = generator.first();
        let mut store = Store::fresh(supply, p1, p2);
        for _ in 0..1_000 {
            let call = generator.next_call(&store);
            if let Operation::On(key, Action::DeriveCap { p1, .. }) = call.operation {
                let mut line = call_numbers(&call);
                line.drain(LIMIT..LIMIT + 2);
                assert_eq!(line.len(), WITHOUT_LIMIT);
                assert_eq!(read_call(&line), read_call(&with_limit(&line, 0)));
                let (mut bare, mut whole) = (store.clone(), store.clone());
                let answer = answer_line(&mut bare, Some(&line));
                let largest = with_limit(&line, MAX_WORD);
                assert_eq!(answer_line(&mut whole, Some(&largest)), answer);
                if answer[0] == DONE {
                    let parent = store.find(call.caller, key).expect("a parent");
                    let parents = store.moneyword(parent);
                    let child = bare.capabilities.get_mut(&(key.name, p1)).expect("a child");
                    assert_eq!(std::mem::replace(&mut child.moneyword, parents), 0);
                    *(if parents > 0 { &mut lent } else { &mut none }) += 1;
                }
                assert_eq!(bare, whole);
            }
            store.run(&call);
        }
    }
    assert!(lent > 100 && none > 100, "{lent} and {none}");
}

/// The script with this limit in each line of derive_cap that has none.
fn with_limits(text: &[u8], limit: u32) -> Vec<u8> {
    let lines = text.split(|byte| *byte == b'\n').map(|line| match read_numbers(line) {
        Some(numbers) if numbers[0] == 5 && numbers.len() == WITHOUT_LIMIT => {
            let whole = with_limit(&numbers, limit);
            whole.iter().map(u32::to_string).collect::<Vec<_>>().join(" ").into_bytes()
        }
        _ => line.to_vec(),
    });
    lines.collect::<Vec<_>>().join(&b'\n')
}

/// Generated scripts write the same with the limit 0 in the lines that have none; with the largest,
/// some write something else, so that what such lines lend is seen in them.
#[test]
fn scripts_without_limits() {
    let mut differ = 0;
    for profile in PROFILES {
        for seed in 0..8 {
            let text = script(profile, seed, 1_000);
            let output = run(&text);
            assert_eq!(run(&with_limits(&text, 0)), output, "{} {seed}", profile.name);
            differ += u32::from(run(&with_limits(&text, MAX_WORD)) != output);
        }
    }
    assert!(differ > 10, "{differ}");
}

/// A call's line is read back as the call, but for the caller where it has none.
#[test]
fn lines_of_calls() {
    for profile in PROFILES {
        let mut generator = Generator::new(profile, 3);
        let [supply, p1, p2] = generator.first();
        let mut store = Store::fresh(supply, p1, p2);
        for _ in 0..500 {
            let call = generator.next_call(&store);
            let mut read = read_call(&call_numbers(&call)).expect("a call's line");
            (read.buffer, read.scratch) = (call.buffer, call.scratch);
            if !call.operation.has_caller() {
                read.caller = call.caller;
            }
            assert_eq!(read, call);
            store.run(&call);
        }
    }
}

/// The examples together: every call done, every refusal from 2 to 16, 19 and 20, small stores.
#[test]
fn examples() {
    let (mut done, mut refused) = (BTreeSet::new(), BTreeSet::new());
    let mut names = BTreeSet::new();
    for example in &EXAMPLES {
        let run = example.run().expect(example.name);
        assert!(example.name.bytes().all(|byte| byte.is_ascii_lowercase()));
        assert!(names.insert(example.name));
        assert!((5..=25).contains(&run.lines.len()), "{}", example.name);
        for (line, answer) in run.lines.iter().zip(&run.answers) {
            if answer[0] == 0 {
                done.insert(line[0]);
            }
            refused.insert(answer[0]);
            let small = |size: u32| size <= 128 || example.name == "blocks";
            if let Some(Operation::MakeObj { size, .. }) = read_call(line).map(|c| c.operation) {
                assert!(answer[0] != 0 || small(size), "{}", example.name);
            }
        }
        let text_output = run_from(example.text.as_bytes());
        assert_eq!(text_output.lines().count(), run.lines.len() + 1);
    }
    assert_eq!(done, (1..=17).collect());
    assert_eq!(refused, (0..=20).filter(|code| ![1, 17, 18].contains(code)).collect());
}

/// The committed file of definitions is what `script-table` prints, but for white space.
#[test]
fn committed_definitions() {
    let path = concat!(env!("CARGO_MANIFEST_DIR"), "/../crates/rules/specs/Scripts.antt");
    let committed = std::fs::read_to_string(path).expect(path);
    let plain = |text: &str| text.split_whitespace().collect::<String>();
    let printed = definitions().expect("examples made of numbers");
    assert!(plain(&committed) == plain(&printed), "not what `script-table` prints");
}
