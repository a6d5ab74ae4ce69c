//! 01's script and its output: lines of numbers in, one line of numbers for each answer out.

use crate::call::{Action, Answer, Call, Key, Name, Operation, SET_DAY};
use crate::kernel::{Store, Totals};
use crate::numbers::*;
use std::io::{self, BufRead, Write};

/// Runs a script from `input` and writes its output to `output`.
pub fn run_script(input: &mut impl BufRead, output: &mut impl Write) -> io::Result<()> {
    let mut line = Vec::new();
    let first = read_line(input, &mut line)?;
    let Some(mut store) = first.and_then(|()| read_numbers(&line)).and_then(start) else {
        write_line(output, "0", &[OUT_OF_RANGE])?;
        return output.flush();
    };
    let mut number: u64 = 0;
    while read_line(input, &mut line)?.is_some() {
        number += 1;
        let answer = answer_line(&mut store, read_numbers(&line).as_deref());
        write_line(output, &number.to_string(), &answer)?;
    }
    write_line(output, "T", &total_numbers(store.totals()))?;
    output.flush()
}

/// Reads one line without its end into `line`: none after the last one. Of a line that is too
/// long only one byte more than allowed is kept, so that it is bad however long it is.
fn read_line(input: &mut impl BufRead, line: &mut Vec<u8>) -> io::Result<Option<()>> {
    line.clear();
    let mut begun = false;
    loop {
        let available = input.fill_buf()?;
        if available.is_empty() {
            return Ok(begun.then_some(()));
        }
        begun = true;
        let end = available.iter().position(|byte| *byte == b'\n');
        let piece = &available[..end.unwrap_or(available.len())];
        let kept = piece.len().min(MAX_LINE + 1 - line.len());
        line.extend_from_slice(&piece[..kept]);
        let used = piece.len() + usize::from(end.is_some());
        input.consume(used);
        if end.is_some() {
            return Ok(Some(()));
        }
    }
}

/// A line's numbers: decimal, at most 4,294,967,295, no leading zeros, single spaces between.
pub fn read_numbers(line: &[u8]) -> Option<Vec<u32>> {
    if line.len() > MAX_LINE {
        return None;
    }
    line.split(|byte| *byte == b' ').map(read_number).collect()
}

fn read_number(digits: &[u8]) -> Option<u32> {
    let leading_zero = digits.len() > 1 && digits[0] == b'0';
    if digits.is_empty() || leading_zero || !digits.iter().all(u8::is_ascii_digit) {
        return None;
    }
    std::str::from_utf8(digits).ok()?.parse().ok()
}

/// The fresh store of line one: supply, p1, p2.
pub fn start(numbers: Vec<u32>) -> Option<Store> {
    match numbers[..] {
        [supply, p1, p2] => Some(Store::fresh(supply, p1, p2)),
        _ => None,
    }
}

/// Runs a line after line one and gives the numbers of its output after the line's number. A
/// bad line is answered 2 and changes nothing.
pub fn answer_line(store: &mut Store, numbers: Option<&[u32]>) -> Vec<u32> {
    match numbers.and_then(read_call) {
        Some(call) => {
            let answer = store.run(&call);
            answer_numbers(&call.operation, &answer)
        }
        None => vec![OUT_OF_RANGE],
    }
}

/// 0 or the refusal, then the results of a done call.
fn answer_numbers(operation: &Operation, answer: &Answer) -> Vec<u32> {
    let mut numbers = vec![answer.code];
    let bytes = answer.bytes.iter().map(|byte| u32::from(*byte));
    if answer.code != DONE {
        return numbers;
    }
    match operation {
        Operation::MakeObj { .. }
        | Operation::On(_, Action::DeriveCap { .. } | Action::RenameObj { .. }) => {
            numbers.extend(answer.capability.numbers());
        }
        Operation::On(_, Action::Read { .. }) => numbers.extend(bytes),
        Operation::On(_, Action::CapInfo) => {
            numbers.extend([answer.length, answer.moneyword]);
        }
        Operation::Receive => {
            numbers.push(answer.sum);
            numbers.extend(bytes);
        }
        _ => {}
    }
    numbers
}

/// The numbers of the `T` line.
pub fn total_numbers(totals: Totals) -> [u64; 4] {
    [totals.cash, totals.moneywords, totals.boxes, totals.house]
}

fn write_line<N: ToString>(output: &mut impl Write, head: &str, numbers: &[N]) -> io::Result<()> {
    let mut line = head.to_string();
    for number in numbers {
        line.push(' ');
        line.push_str(&number.to_string());
    }
    line.push('\n');
    output.write_all(line.as_bytes())
}

/// The numbers of a line that are still to be read.
struct Rest<'a>(&'a [u32]);

impl Rest<'_> {
    fn numbers<const COUNT: usize>(&mut self) -> Option<[u32; COUNT]> {
        let (first, rest) = self.0.split_first_chunk()?;
        self.0 = rest;
        Some(*first)
    }

    fn number(&mut self) -> Option<u32> {
        self.numbers().map(|[number]| number)
    }

    fn name(&mut self) -> Option<Name> {
        let [volume, serial] = self.numbers()?;
        Some(Name { volume, serial })
    }

    fn key(&mut self) -> Option<Key> {
        let name = self.name()?;
        let [p1, p2] = self.numbers()?;
        Some(Key { name, p1, p2 })
    }

    /// All that is left, as bytes.
    fn bytes(&mut self) -> Option<Vec<u8>> {
        let rest = std::mem::take(&mut self.0);
        rest.iter().map(|n| u8::try_from(*n).ok()).collect()
    }
}

/// The call of a line: call number, caller, the capability where one is presented, arguments; of
/// the host's call, which has no caller, "`17` and the day". None when the numbers are too few or
/// too many for the call, or a byte is above 255.
pub fn read_call(numbers: &[u32]) -> Option<Call> {
    let mut rest = Rest(numbers);
    let number = rest.number()?;
    let caller = if number == SET_DAY { Name::default() } else { rest.name()? };
    let operation = match number {
        SET_DAY => Operation::SetDay { day: rest.number()? },
        1 => read_make_obj(&mut rest)?,
        14 => Operation::Receive,
        15 => Operation::Wait,
        2..=13 | 16 => Operation::On(rest.key()?, read_action(number, &mut rest)?),
        unknown => Operation::Unknown(unknown),
    };
    rest.0.is_empty().then_some(Call {
        caller,
        operation,
        buffer: MIN_BUFFER,
        scratch: MIN_SCRATCH,
    })
}

/// make_obj's arguments: volume, size, flag, rights, serial, p1, p2.
fn read_make_obj(rest: &mut Rest) -> Option<Operation> {
    let [volume, size, flag, rights, serial, p1, p2] = rest.numbers()?;
    let name = Name { volume, serial };
    let drawn = Key { name, p1, p2 };
    Some(Operation::MakeObj { size, flag, rights, drawn })
}

fn read_action(number: u32, rest: &mut Rest) -> Option<Action> {
    Some(match number {
        2 => {
            let [start, end] = rest.numbers()?;
            Action::Read { start, end }
        }
        3 => {
            let [start, end] = rest.numbers()?;
            let data = rest.bytes()?;
            Action::Write { start, end, data }
        }
        4 => Action::CapInfo,
        5 => {
            let [mask, start, end] = rest.numbers()?;
            let limit = if rest.0.len() == 2 { DEFAULT_LIMIT } else { rest.number()? };
            let last_day = if rest.0.len() == 2 { DEFAULT_LAST_DAY } else { rest.number()? };
            let [p1, p2] = rest.numbers()?;
            Action::DeriveCap { mask, start, end, limit, last_day, p1, p2 }
        }
        6 => Action::DeleteCap,
        7 => {
            let [p1, p2] = rest.numbers()?;
            Action::RenameObj { p1, p2 }
        }
        8 => Action::Withdraw { sum: rest.number()? },
        9 => Action::Deposit { sum: rest.number()? },
        10 => Action::Suspend,
        11 => Action::Resume,
        12 => Action::ApplyLock { words: rest.numbers()? },
        13 => Action::Send { sum: rest.number()?, message: rest.bytes()? },
        16 => Action::Revive { sum: rest.number()? },
        _ => return None,
    })
}

/// The numbers of a call's line, whole: `read_call` reads the call back from them.
pub fn call_numbers(call: &Call) -> Vec<u32> {
    let mut numbers = vec![call.operation.number()];
    if call.operation.has_caller() {
        numbers.extend([call.caller.volume, call.caller.serial]);
    }
    match &call.operation {
        Operation::MakeObj { size, flag, rights, drawn } => {
            numbers.extend([drawn.name.volume, *size, *flag, *rights]);
            numbers.extend([drawn.name.serial, drawn.p1, drawn.p2]);
        }
        Operation::On(key, action) => {
            numbers.extend(key.numbers());
            numbers.extend(action_numbers(action));
        }
        Operation::SetDay { day } => numbers.push(*day),
        Operation::Receive | Operation::Wait | Operation::Unknown(_) => {}
    }
    numbers
}

fn action_numbers(action: &Action) -> Vec<u32> {
    let with_bytes = |head: &[u32], bytes: &[u8]| {
        let bytes = bytes.iter().map(|byte| u32::from(*byte));
        head.iter().copied().chain(bytes).collect()
    };
    match action {
        Action::Read { start, end } => vec![*start, *end],
        Action::Write { start, end, data } => with_bytes(&[*start, *end], data),
        Action::DeriveCap { mask, start, end, limit, last_day, p1, p2 } => {
            vec![*mask, *start, *end, *limit, *last_day, *p1, *p2]
        }
        Action::RenameObj { p1, p2 } => vec![*p1, *p2],
        Action::Withdraw { sum } | Action::Deposit { sum } | Action::Revive { sum } => vec![*sum],
        Action::ApplyLock { words } => words.to_vec(),
        Action::Send { sum, message } => with_bytes(&[*sum], message),
        Action::CapInfo | Action::DeleteCap | Action::Suspend | Action::Resume => vec![],
    }
}
