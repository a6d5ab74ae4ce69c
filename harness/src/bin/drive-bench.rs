//! Times a pick of the loom drive, checked and unchecked, beside a plain read of the same row, and
//! the question for a window, in one run on a small and on a full store. Prints medians and ratios.

use harness::bench::{call, keys, median, processes, time};
use harness::kernel::{self, FormedStore};
use harness::request::{
    pick_request, window_request, Request, PICK_REPLY, PICK_REQUEST, WINDOW_REPLY, WINDOW_REQUEST,
};
use reference::call::{Action, Name, Operation};
use reference::drive::{Pick, Place, Repeat};
use reference::kernel::Store;
use reference::numbers::{DONE, MAX_ROW, MIN_BUFFER, MIN_SCRATCH};
use trials::encode::encode;
use trials::random::Random;
use trials::samples::Shape;

const ROUNDS: usize = 101;
/// Each process has a whole repeat of its own, in a window of all its bytes.
const REPEAT: Repeat = Repeat { picks: 8, counts: 100_003, row: MAX_ROW };
const SIZE: u32 = REPEAT.picks * REPEAT.row;

/// The picks of whole repeats, all done, on a store; and the reads and the questions beside them.
struct Case {
    name: &'static str,
    formed: FormedStore,
    picks: Vec<[u32; PICK_REQUEST]>,
    reads: Vec<Request>,
    windows: Vec<[u32; WINDOW_REQUEST]>,
    /// The times of each list in nanoseconds: picks, reads, both unchecked, and questions.
    times: [Vec<u64>; 5],
}

/// A process's picks, by its last capability.
fn repeat(store: &Store, name: Name) -> Vec<Pick> {
    let keys = keys(store, name);
    let pick = |next| Pick {
        caller: name,
        key: keys[keys.len() - 1],
        repeat: REPEAT,
        place: Place::before(next, &REPEAT),
        buffer: MIN_BUFFER,
    };
    (1..=REPEAT.picks).map(pick).collect()
}

/// The read of the same row.
fn read(pick: &Pick) -> Request {
    let end = pick.place.next * REPEAT.row;
    let action = Action::Read { start: end - REPEAT.row, end };
    Request::new(&call(pick.caller, Operation::On(pick.key, action)), 0)
}

fn case(name: &'static str, objects: u32) -> Case {
    let store = processes(objects, 8, SIZE as usize, Shape::Random);
    let picks: Vec<Pick> = store.objects.keys().flat_map(|name| repeat(&store, *name)).collect();
    let raw = encode(&store, &mut Random::new(3));
    Case {
        name,
        formed: FormedStore::new(raw).unwrap_or_else(|| panic!("not well formed: {name}")),
        picks: picks.iter().map(pick_request).collect(),
        reads: picks.iter().map(read).collect(),
        windows: picks.iter().map(|pick| window_request(pick.caller, pick.key)).collect(),
        times: Default::default(),
    }
}

/// The time of a list of which each item is done.
fn time_each<T>(list: &[T], mut code: impl FnMut(&T) -> u32) -> u64 {
    time(|| list.iter().for_each(|item| assert_eq!(code(item), DONE)))
}

impl Case {
    fn round(&mut self, buffer: &mut [u8], scratch: &mut [u16]) {
        let Case { formed, picks, reads, windows, times, .. } = self;
        let mut reply = [0; PICK_REPLY];
        let mut raw = formed.raw().clone();
        times[0].push(time_each(picks, |pick| kernel::pick(&mut raw, buffer, pick, &mut reply)));
        let mut raw = formed.raw().clone();
        times[1].push(time_each(reads, |read| kernel::call(&mut raw, read, buffer, scratch)[0]));
        let mut store = formed.clone();
        times[2].push(time_each(picks, |pick| store.pick(buffer, pick, &mut reply)));
        let mut store = formed.clone();
        times[3].push(time_each(reads, |read| store.step(read, buffer, scratch)[0]));
        let mut window = [0; WINDOW_REPLY];
        times[4].push(time_each(windows, |asked| kernel::window(&raw, asked, &mut window)));
    }

    /// The medians of one pick, read or question, in nanoseconds.
    fn medians(&self) -> [f64; 5] {
        self.times.each_ref().map(|times| median(times) / self.picks.len() as f64)
    }
}

fn main() {
    let mut cases = [case("4 objects of 8", 4), case("64 objects of 8", 64)];
    let (mut buffer, mut scratch) = (vec![0; MIN_BUFFER], vec![0; MIN_SCRATCH]);
    for _ in 0..ROUNDS {
        for case in &mut cases {
            case.round(&mut buffer, &mut scratch);
        }
    }
    println!("medians of {ROUNDS} rounds, nanoseconds for each, and ratios");
    println!("{:28}{:>12}{:>12}{:>12}{:>12}", "store", "pick", "read", "pick/read", "window");
    for case in &cases {
        let [pick, read, unchecked, step, window] = case.medians();
        let row = |how: &str, pick: f64, read: f64| {
            print!("{:28}{pick:>12.0}{read:>12.0}", format!("{}, {how}", case.name));
            print!("{:>12.2}", pick / read);
        };
        row("checked", pick, read);
        println!("{window:>12.0}");
        row("unchecked", unchecked, step);
        println!();
    }
}
