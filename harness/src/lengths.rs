//! Requests, replies and slices of other lengths than they must have.

use trials::layout::{BYTES, LINKS, WORDS};
use trials::random::Random;
use trials::raw::RawStore;

/// The numbers with other lengths: as far as they go, or with more behind them.
fn resized(numbers: &[u32]) -> Vec<Vec<u32>> {
    let length = numbers.len();
    let lengths = [0, 1, length - 1, length + 1, 2 * length];
    let resized = |to: usize| numbers.iter().copied().chain(0..).take(to).collect();
    lengths.into_iter().map(resized).collect()
}

/// Requests and replies of which at least one has another length; a reply has anything in it.
pub fn other_lengths(request: &[u32], reply: usize, random: &mut Random) -> Vec<[Vec<u32>; 2]> {
    let reply: Vec<u32> = (0..reply).map(|_| random.bits() as u32).collect();
    let (requests, replies) = (resized(request), resized(&reply));
    let mut found: Vec<_> = requests.iter().map(|other| [other.clone(), reply.clone()]).collect();
    found.extend(replies.iter().map(|other| [request.to_vec(), other.clone()]));
    found.extend(requests.into_iter().zip(replies).map(|(request, reply)| [request, reply]));
    found
}

/// A change of the slices' lengths.
pub type Resize = fn(&mut RawStore);

/// Each slice shorter and longer by one, and none at all.
pub const RESIZES: [Resize; 7] = [
    |raw| raw.bytes.truncate(BYTES - 1),
    |raw| raw.bytes.push(0),
    |raw| raw.links.truncate(LINKS - 1),
    |raw| raw.links.push(0),
    |raw| raw.words.truncate(WORDS - 1),
    |raw| raw.words.push(0),
    |raw| *raw = RawStore::default(),
];
