//! Short named scripts that together touch every call and every refusal from 2 to 16, 19 and 20,
//! and their printing, with the reference's answers, as definitions of the proof language.

use reference::kernel::Store;
use reference::script;

/// A named script: what it touches, and its text.
pub struct Example {
    pub name: &'static str,
    pub touches: &'static str,
    pub text: &'static str,
}

/// A script's numbers and what the reference answers.
pub struct Answered {
    pub start: [u32; 3],
    pub lines: Vec<Vec<u32>>,
    pub answers: Vec<Vec<u32>>,
    pub totals: [u64; 4],
}

impl Example {
    /// Runs the script. None if its text is not made of lines of numbers.
    pub fn run(&self) -> Option<Answered> {
        let numbers = |line: &str| script::read_numbers(line.as_bytes());
        let mut lines = self.text.lines().map(numbers);
        let start: [u32; 3] = lines.next()??.try_into().ok()?;
        let lines: Vec<Vec<u32>> = lines.collect::<Option<_>>()?;
        let mut store = Store::fresh(start[0], start[1], start[2]);
        let answer = |line: &Vec<u32>| script::answer_line(&mut store, Some(line));
        let answers = lines.iter().map(answer).collect();
        let totals = script::total_numbers(store.totals());
        Some(Answered { start, lines, answers, totals })
    }

    fn definition(&self) -> Option<String> {
        let run = self.run()?;
        let [supply, p1, p2] = run.start;
        Some(format!(
            "-- {}\nunfoldable pub {name} : Example\n{name} = record {{\n  supply = {supply};\n  \
             p1 = {p1};\n  p2 = {p2};\n  lines =\n{};\n  answers =\n{};\n  totals = {};\n}}\n",
            self.touches,
            list_of_lists(&run.lines),
            list_of_lists(&run.answers),
            list(&run.totals),
            name = self.name,
        ))
    }
}

fn list<N: ToString>(items: &[N]) -> String {
    let items = items.iter().map(|item| item.to_string() + " ∷ ");
    items.collect::<String>() + "[]"
}

fn list_of_lists(lists: &[Vec<u32>]) -> String {
    let mut rows: Vec<String> = lists.iter().map(|row| format!("({})", list(row))).collect();
    rows.push("[]".to_string());
    format!("      {}", rows.join("\n      ∷ "))
}

/// The file of definitions: all examples but 01's script, which the rules have already, their list, and
/// what a computing theorem unfolds. None if an example's text is not made of lines of numbers.
pub fn definitions() -> Option<String> {
    let others = &EXAMPLES[1..];
    let each: Option<Vec<String>> = others.iter().map(Example::definition).collect();
    let names: Vec<&str> = others.iter().map(|example| example.name).collect();
    Some(format!(
        "-- Scripts answered by the reference; made by `script-table`, not edited by hand.\n\
         use Rattle.std.specs.Prelude.{{List, [], ◌∷◌}}\n\
         use Rattle.rules.specs.Script.{{Example}}\n\n\
         {}\n\
         unfoldable pub scripts : List Example\nscripts = {}\n\n\
         -- what a theorem that computes with these tables unfolds\n\
         unfoldable pub computes : Unit {{0}}\nunfolding {} scripts\ncomputes = tt\n",
        each?.join("\n"),
        list(&names),
        names.join(" "),
    ))
}

/// The examples.
pub const EXAMPLES: [Example; 26] = [
    Example {
        name: "example",
        touches: "the script of 01",
        text: "1000 5 9
1 0 1 2 128 0 8191 7 11 13
5 0 1 2 7 11 13 3 64 500 21 22
2 0 1 2 7 21 22 63 65
9 0 1 2 7 11 13 100
4 0 1 2 7 21 22
6 0 1 2 7 11 13
2 0 1 2 7 21 22 64 65",
    },
    Example {
        name: "siblings",
        touches:
            "a middle sibling deleted, its siblings and their children spared; then the master",
        text: "1000 5 9
1 0 1 2 64 0 8191 7 11 13
5 0 1 2 7 11 13 8191 0 64 21 22
5 0 1 2 7 11 13 8191 0 32 31 32
5 0 1 2 7 11 13 8191 16 64 41 42
5 0 1 2 7 21 22 8191 0 8 51 52
5 0 1 2 7 31 32 8191 0 16 61 62
5 0 1 2 7 41 42 8191 20 64 71 72
5 0 1 2 7 61 62 8191 0 4 81 82
6 0 1 2 7 31 32
4 0 1 2 7 31 32
4 0 1 2 7 61 62
4 0 1 2 7 81 82
4 0 1 2 7 21 22
4 0 1 2 7 41 42
4 0 1 2 7 51 52
4 0 1 2 7 71 72
5 0 1 2 7 11 13 8191 0 64 31 99
6 0 1 2 7 41 42
4 0 1 2 7 71 72
4 0 1 2 7 51 52
6 0 1 2 7 11 13
4 0 1 2 7 21 22
4 0 1 2 7 31 99",
    },
    Example {
        name: "windows",
        touches: "reads and writes at a window's ends; ranges that derive an empty window",
        text: "1000 5 9
1 0 1 2 128 0 8191 7 11 13
3 0 1 2 7 11 13 62 66 1 2 3 255
5 0 1 2 7 11 13 8191 64 128 21 22
5 0 1 2 7 21 22 8191 200 300 31 32
4 0 1 2 7 31 32
2 0 1 2 7 31 32 128 128
2 0 1 2 7 31 32 128 129
2 0 1 2 7 21 22 63 65
2 0 1 2 7 21 22 64 66
5 0 1 2 7 21 22 8191 0 100 41 42
4 0 1 2 7 41 42
3 0 1 2 7 41 42 99 101 8 9
3 0 1 2 7 41 42 98 100 8 9
2 0 1 2 7 11 13 97 102
5 0 1 2 7 41 42 8191 0 10 51 52
2 0 1 2 7 51 52 64 64
2 0 1 2 7 51 52 0 0
3 0 1 2 7 11 13 5 4
3 0 1 2 7 11 13 4 6 1
2 0 1 2 7 11 13 126 128",
    },
    Example {
        name: "purses",
        touches: "withdraw and deposit through three levels",
        text: "1000000 5 9
1 0 1 3 16 0 8191 9 1 2
9 0 1 3 9 1 2 1000
5 0 1 3 9 1 2 8191 0 16 4294967295 3 4
5 0 1 3 9 3 4 8191 0 16 4294967295 5 6
8 0 1 3 9 5 6 300
4 0 1 3 9 1 2
4 0 1 3 9 3 4
4 0 1 3 9 5 6
8 0 1 3 9 3 4 650
8 0 1 3 9 5 6 60
9 0 1 3 9 5 6 20
4 0 1 3 9 5 6
8 0 1 3 9 5 6 70
8 0 1 3 9 1 2 1
9 0 1 3 9 1 2 999999
5 0 1 3 9 1 2 8191 0 16 7 8
9 0 1 3 9 7 8 40
6 0 1 3 9 7 8
4 0 1 3 9 1 2
4 0 1 3 9 3 4",
    },
    Example {
        name: "limits",
        touches:
            "children under a limit, below, at and above the parent's moneyword; lines without one",
        text: "1000 5 9
1 0 1 3 16 0 8191 9 1 2
9 0 1 3 9 1 2 100
5 0 1 3 9 1 2 8191 0 16 40 3 4
5 0 1 3 9 1 2 8191 0 16 101 5 6
5 0 1 3 9 1 2 8191 0 16 7 8
5 0 1 3 9 3 4 8191 0 16 4294967295 9 10
5 0 1 3 9 3 4 8191 0 16 0 11 12
4 0 1 3 9 1 2
4 0 1 3 9 3 4
4 0 1 3 9 5 6
4 0 1 3 9 7 8
4 0 1 3 9 9 10
4 0 1 3 9 11 12
8 0 1 3 9 11 12 1
8 0 1 3 9 3 4 30
8 0 1 3 9 9 10 11
8 0 1 3 9 9 10 10
8 0 1 3 9 5 6 60
4 0 1 3 9 1 2
4 0 1 3 9 3 4
4 0 1 3 9 9 10
9 0 1 3 9 11 12 5
4 0 1 3 9 3 4
5 0 1 3 9 1 2 8191 0 16 1
5 0 1 3 9 1 2 8191 0 16 1 7 13 14 0",
    },
    Example {
        name: "unnamed",
        touches: "lines without a limit, from parents with money: what they give has none",
        text: "1000 5 9
1 0 1 3 16 0 8191 9 1 2
9 0 1 3 9 1 2 100
5 0 1 3 9 1 2 8191 0 16 3 4
5 0 1 3 9 1 2 8191 0 16 4294967295 5 6
5 0 1 3 9 3 4 8191 0 16 4294967295 7 8
5 0 1 3 9 5 6 8191 4 12 9 10
4 0 1 3 9 3 4
4 0 1 3 9 5 6
4 0 1 3 9 7 8
4 0 1 3 9 9 10
8 0 1 3 9 3 4 1
8 0 1 3 9 5 6 1
9 0 1 3 9 3 4 5
8 0 1 3 9 3 4 5
9 0 1 3 9 7 8 5
4 0 1 3 9 3 4
5 0 1 3 9 7 8 8191 0 16 11 12
4 0 1 3 9 11 12
6 0 1 3 9 3 4
4 0 1 3 9 11 12
4 0 1 3 9 1 2",
    },
    Example {
        name: "overflow",
        touches: "a deposit that a moneyword below the master cannot hold; the largest that it can",
        text: "4294967295 5 9
1 0 1 3 0 0 8191 9 1 2
9 0 1 3 9 1 2 4000000000
5 0 1 3 9 1 2 8191 0 16 4294967295 3 4
8 0 1 3 9 1 2 4000000000
9 0 1 3 9 3 4 300000000
9 0 1 3 9 3 4 294967296
9 0 1 3 9 3 4 294967295
4 0 1 3 9 3 4
9 0 1 3 9 3 4 1
9 0 1 3 9 3 4 4294967295
9 0 1 3 9 1 2 1
8 0 1 3 9 3 4 294967297
8 0 1 3 9 3 4 294967296
4 0 1 3 9 3 4",
    },
    Example {
        name: "locks",
        touches: "a locked caller presents passwords with and without the top bit",
        text: "1000 5 9
1 0 1 1 64 0 8191 2 2147483649 7
4 0 1 1 2 2147483649 7
12 0 1 0 1 5 9 6 10
4 0 1 1 2 2147483649 7
4 0 1 1 2 2147483655 13
5 0 1 1 2 2147483655 13 8191 0 64 2147483660 20
4 0 1 1 2 2147483660 20
4 0 1 1 2 2147483658 30
4 0 1 1 2 2147483658 20
4 0 1 0 1 5 9
4 0 1 0 1 3 3
12 0 1 0 1 5 9 2147483647 1
12 0 1 0 1 5 9 2147483648 0
4 0 1 1 2 2147483658 30
12 0 1 0 1 5 9 2147483641 11
4 0 1 1 2 2147483660 20",
    },
    Example {
        name: "reuse",
        touches: "a locked process deleted and its name used again, its lockword back to 0",
        text: "1000 5 9
1 0 1 1 0 1 8191 2 11 12
12 0 1 1 2 11 12 6 10
1 0 1 1 64 0 8191 3 2147483649 7
11 0 1 1 2 11 12
4 1 2 1 3 2147483649 7
16 0 1 1 2 11 12 100
4 1 2 1 3 2147483649 7
4 1 2 1 3 2147483655 13
1 0 1 1 0 1 8191 2 11 12
6 0 1 1 2 11 12
4 1 2 1 3 2147483655 13
1 0 1 1 0 1 8191 2 11 12
11 0 1 1 2 11 12
4 1 2 1 3 2147483649 7
16 0 1 1 2 11 12 50
4 1 2 1 3 2147483655 13
4 1 2 1 3 2147483649 7",
    },
    Example {
        name: "itself",
        touches: "a process pays, sends to, renames, resumes, revives and suspends itself",
        text: "1000 5 9
9 0 1 0 1 5 9 100
8 0 1 0 1 5 9 40
13 0 1 0 1 5 9 30 1 2 3
14 0 1
14 0 1
7 0 1 0 1 5 9 15 19
4 0 1 0 1 5 9
4 0 1 0 1 15 19
16 0 1 0 1 15 19 5
11 0 1 0 1 15 19
13 0 1 0 1 15 19 7
10 0 1 0 1 15 19
15 0 1",
    },
    Example {
        name: "ending",
        touches: "a process deletes itself: its purse, cash and box go to the house",
        text: "1000 5 9
1 0 1 1 64 1 8191 2 11 12
11 0 1 1 2 11 12
9 0 1 1 2 11 12 70
13 0 1 1 2 11 12 30
14 1 2
16 0 1 1 2 11 12 200
5 1 2 1 2 11 12 8191 0 64 4294967295 21 22
6 1 2 1 2 11 12
15 1 2
4 0 1 1 2 21 22
9 0 1 0 1 5 9 3
13 0 1 0 1 5 9 4
6 0 1 0 1 5 9
15 0 1",
    },
    Example {
        name: "mail",
        touches: "a full box, an empty one, waits with mail and without, and the mark's end",
        text: "1000 5 9
1 0 1 1 0 1 8191 2 11 12
13 0 1 1 2 11 12 0
13 0 1 1 2 11 12 10 7
13 0 1 1 2 11 12 20 1 2 3 4 5 6 7 8 9 10 11 12 13 14 15 255
13 0 1 1 2 11 12 30 8 9
13 0 1 1 2 11 12 40
13 0 1 1 2 11 12 5000
14 0 1
11 0 1 1 2 11 12
14 1 2
16 0 1 1 2 11 12 100
14 1 2
14 1 2
14 1 2
15 1 2
14 1 2
15 1 2
14 1 2
13 0 1 1 2 11 12 50 3
15 1 2
14 1 2
14 1 2
13 0 1 1 2 11 12 60
6 0 1 1 2 11 12",
    },
    Example {
        name: "poverty",
        touches: "cash equal to the fee, then one less than the fee: the caller is terminated",
        text: "42 5 9
1 0 1 2 64 0 8191 7 11 13
1 0 1 2 64 1 8191 8 11 13
3 0 1 2 7 11 13 0 1 9
2 0 1 2 7 11 13 0 1
15 0 1",
    },
    Example {
        name: "revival",
        touches: "a terminated caller revived, and what refuses it",
        text: "200 5 9
1 0 1 1 0 1 8191 2 11 12
16 0 1 1 2 11 12 10
11 0 1 1 2 11 12
15 1 2
13 0 1 1 2 11 12 0
2 1 2 1 2 11 12 0 0
15 1 2
16 0 1 1 2 11 12 0
16 0 1 1 2 11 12 500
16 0 1 1 2 11 12 10
2 1 2 1 2 11 12 0 0
14 1 2
15 1 2",
    },
    Example {
        name: "renaming",
        touches: "a rename by a capability that is no master, by a taken p1, and a done one",
        text: "1000 5 9
1 0 1 2 64 0 8191 7 11 13
9 0 1 2 7 11 13 50
5 0 1 2 7 11 13 8191 8 16 4294967295 21 22
7 0 1 2 7 21 22 31 32
7 0 1 2 7 21 22 11 32
7 0 1 2 7 11 13 21 32
7 0 1 2 7 11 13 11 32
7 0 1 2 7 11 13 31 32
4 0 1 2 7 11 13
4 0 1 2 7 21 22
4 0 1 2 7 31 32
5 0 1 2 7 31 32 8191 0 64 4294967295 11 99
5 0 1 2 7 31 32 8191 0 64 11 1
4 0 1 2 7 11 99",
    },
    Example {
        name: "rights",
        touches: "every call that presents a capability, its right missing",
        text: "1000 5 9
5 0 1 0 1 5 9 0 0 0 7 8
2 0 1 0 1 7 8 0 0
3 0 1 0 1 7 8 0 0
4 0 1 0 1 7 8
5 0 1 0 1 7 8 0 0 0 7 8
6 0 1 0 1 7 8
7 0 1 0 1 7 8 1 1
8 0 1 0 1 7 8 1
9 0 1 0 1 7 8 5000
10 0 1 0 1 7 8
11 0 1 0 1 7 8
12 0 1 0 1 7 8 1 1
13 0 1 0 1 7 8 5000
16 0 1 0 1 7 8 0
1 0 1 2 0 0 0 3 1 2
4 0 1 2 3 1 2",
    },
    Example {
        name: "blocks",
        touches: "512 blocks in use; 8 on an object that is no process; a data object as caller",
        text: "1000 5 9
1 0 1 0 8192 0 8191 2 1 2
1 0 1 1 8192 0 8191 2 1 2
1 0 1 2 8192 0 8191 2 1 2
1 0 1 3 8129 0 8191 2 1 2
1 0 1 3 1 0 8191 3 1 2
1 0 1 3 1 0 8191 2 1 2
1 0 1 3 0 0 8191 3 1 2
10 0 1 3 3 1 2
11 0 1 3 3 1 2
12 0 1 3 3 1 2 1 1
13 0 1 3 3 1 2 5000
16 0 1 3 3 1 2 0
15 3 3
6 0 1 3 2 1 2
1 0 1 3 8192 0 8191 4 1 2",
    },
    Example {
        name: "arguments",
        touches:
            "unknown calls, arguments out of range, and lines with too few or too many numbers",
        text: "1000 5 9
0 0 1
18 0 1
15 4 1
15 0 65536
15 0
15 0 1 0
1 0 1 4 0 0 0 2 1 1
1 0 1 0 8193 0 0 2 1 1
1 0 1 0 0 2 0 2 1 1
1 0 1 0 0 0 8192 2 1 1
1 0 1 0 0 0 0 65536 1 1
4 0 1 4 1 5 9
4 0 1 0 65536 5 9
5 0 1 0 1 5 9 8192 0 0 1 1
5 0 1 0 1 5 9 0 1 0 1 1
2 0 1 0 1 5 9 0 257
2 0 1 0 1 5 9 0 256
3 0 1 0 1 5 9 0 1
3 0 1 0 1 5 9 0 1 256
13 0 1 0 1 5 9 0 0 0 0 0 0 0 0 0 0 0 0 0 0 0 0 0 0
15 0 2",
    },
    Example {
        name: "calendar",
        touches: "the day set, set again, set back and out of range; lines of 17 that are too long",
        text: "1000 5 9
17 0
17 5
17 5
17 4
17 0
17 65536
17 4294967295
17
17 6 0
17 0 1
17 65535
17 65534
17 65535
17 65536
4 0 1 0 1 5 9",
    },
    Example {
        name: "licences",
        touches: "last days before, at and after the parent's; used on the last day and the next",
        text: "1000 5 9
1 0 1 3 16 0 8191 9 1 2
5 0 1 3 9 1 2 8191 0 16 4294967295 10 3 4
5 0 1 3 9 3 4 8191 0 16 4294967295 11 5 6
5 0 1 3 9 3 4 8191 0 16 4294967295 10 7 8
5 0 1 3 9 3 4 8191 0 16 4294967295 9 11 12
17 9
4 0 1 3 9 11 12
17 10
4 0 1 3 9 11 12
4 0 1 3 9 3 4
4 0 1 3 9 5 6
4 0 1 3 9 7 8
17 11
4 0 1 3 9 3 4
4 0 1 3 9 5 6
4 0 1 3 9 7 8
4 0 1 3 9 1 2",
    },
    Example {
        name: "leftout",
        touches: "lines with limit and last day, with the limit alone and with neither; 65,536",
        text: "1000 5 9
1 0 1 3 16 0 8191 9 1 2
9 0 1 3 9 1 2 100
5 0 1 3 9 1 2 8191 0 16 40 7 3 4
5 0 1 3 9 3 4 8191 0 16 5 6
5 0 1 3 9 3 4 8191 0 16 30 7 8
5 0 1 3 9 3 4 8191 0 16 65535 65535 9 10
5 0 1 3 9 1 2 8191 0 16 11 12
5 0 1 3 9 1 2 8191 0 16 40 65536 13 14
5 0 1 3 9 1 2 8191 0 16 40 4294967295 13 14
5 0 1 3 9 1 2 8191 0 16 40 7 8 13 14
5 0 1 3 9 1 2 8191 0 16 13
17 7
4 0 1 3 9 7 8
17 8
4 0 1 3 9 3 4
4 0 1 3 9 5 6
4 0 1 3 9 7 8
4 0 1 3 9 9 10
4 0 1 3 9 11 12",
    },
    Example {
        name: "outdated",
        touches: "every call that presents a capability, expired; what comes before 19 and after",
        text: "1000 5 9
1 0 1 1 16 1 8191 2 1 2
5 0 1 1 2 1 2 8191 0 16 4294967295 0 3 4
5 0 1 1 2 1 2 0 0 16 4294967295 0 5 6
17 1
2 0 1 1 2 3 4 0 0
3 0 1 1 2 3 4 0 0
4 0 1 1 2 3 4
5 0 1 1 2 3 4 0 0 0 7 8
6 0 1 1 2 3 4
7 0 1 1 2 3 4 7 8
8 0 1 1 2 3 4 1
9 0 1 1 2 3 4 5000
10 0 1 1 2 3 4
11 0 1 1 2 3 4
12 0 1 1 2 3 4 1 1
13 0 1 1 2 3 4 5000
16 0 1 1 2 3 4 0
4 0 1 1 2 5 6
4 0 1 1 2 3 5
2 0 1 1 2 3 4 0 257
2 1 2 1 2 3 4 0 0",
    },
    Example {
        name: "heirs",
        touches: "an expired one has its p1 and ends with an ancestor, and so do those below it",
        text: "1000 5 9
1 0 1 2 64 0 8191 7 11 13
5 0 1 2 7 11 13 8191 0 64 4294967295 20 21 22
5 0 1 2 7 21 22 8191 0 64 4294967295 5 31 32
5 0 1 2 7 31 32 8191 0 64 41 42
17 6
4 0 1 2 7 31 32
6 0 1 2 7 31 32
5 0 1 2 7 21 22 8191 0 64 31 99
7 0 1 2 7 11 13 41 99
6 0 1 2 7 21 22
4 0 1 2 7 31 32
4 0 1 2 7 41 42
5 0 1 2 7 11 13 8191 0 64 31 99
4 0 1 2 7 31 99
17 65535
4 0 1 2 7 31 99
7 0 1 2 7 11 13 41 99
4 0 1 2 7 41 99
6 0 1 2 7 41 99",
    },
    Example {
        name: "overdue",
        touches: "purses of expired ones: refused for the fee, and their parents' go on",
        text: "1000 5 9
1 0 1 3 16 0 8191 9 1 2
9 0 1 3 9 1 2 100
5 0 1 3 9 1 2 8191 0 16 50 30 3 4
5 0 1 3 9 3 4 8191 0 16 20 10 5 6
8 0 1 3 9 5 6 5
17 11
8 0 1 3 9 5 6 5
9 0 1 3 9 5 6 5
8 0 1 3 9 3 4 5
4 0 1 3 9 1 2
4 0 1 3 9 3 4
17 31
8 0 1 3 9 3 4 5
8 0 1 3 9 1 2 90",
    },
    Example {
        name: "belated",
        touches: "derived for a day that is over, and for this day alone; then a master deleted",
        text: "1000 5 9
17 100
1 0 1 2 64 0 8191 7 11 13
5 0 1 2 7 11 13 8191 0 64 4294967295 99 21 22
4 0 1 2 7 21 22
5 0 1 2 7 11 13 8191 0 64 4294967295 100 31 32
4 0 1 2 7 31 32
5 0 1 2 7 31 32 8191 0 64 4294967295 99 41 42
4 0 1 2 7 41 42
5 0 1 2 7 21 22 8191 0 64 51 52
6 0 1 2 7 11 13
4 0 1 2 7 21 22",
    },
    Example {
        name: "hosting",
        touches: "the day needs no caller that runs and no cash",
        text: "0 5 9
17 3
15 0 1
17 4
15 0 1
17 3
17 65535
4 0 1 0 1 5 9",
    },
];
