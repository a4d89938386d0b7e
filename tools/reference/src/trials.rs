//! Trial routines (02 l), by trying: every list of up to five calls is made on a trial frame, and kept if none of them is refused.

use crate::lists::Frame;
use std::sync::OnceLock;

/// A routine: the words of its calls, all on head 0.
pub type Routine = Vec<&'static str>;

const LONGEST: u32 = 5;

/// The calls in their order, each with what it does; it answers the refusal's number, or 0.
const CALLS: [(&str, fn(&mut Frame) -> u8); 5] = [
    ("load", |frame| frame.load(0, 0)),
    ("mark", |frame| frame.mark(0).err().unwrap_or(0)),
    ("back", |frame| frame.back(0, 0)),
    ("drop", |frame| frame.drop(0, 0)),
    ("rest", |frame| frame.rest(0)),
];

/// The library of a trial frame: a DC blocker with pole 0.5.
const SHEET: [u8; 15] = [1, 0, 1, 0, 0, 0, 0x3F, 0, 0, 0, 0, 0, 0, 0, 0];

// The list-th list of `length` calls, as places in CALLS: its digits in base 5, the highest first.
fn spelled(list: usize, length: u32) -> Vec<usize> {
    let digit = |place| list / CALLS.len().pow(place) % CALLS.len();
    (0..length).rev().map(digit).collect()
}

fn is_refused(calls: &[usize]) -> bool {
    let mut frame = Frame::fresh(true);
    assert_eq!(frame.open(&SHEET), 0, "the trial frame's sheet is one");
    calls.iter().any(|call| (CALLS[*call].1)(&mut frame) != 0)
}

fn of_length(length: u32) -> impl Iterator<Item = Routine> {
    let lists = 0..CALLS.len().pow(length);
    lists
        .map(move |list| spelled(list, length))
        .filter(|calls| !is_refused(calls))
        .map(|calls| calls.iter().map(|call| CALLS[*call].0).collect())
}

/// All routines, each at its place.
pub fn routines() -> &'static [Routine] {
    static ALL: OnceLock<Vec<Routine>> = OnceLock::new();
    ALL.get_or_init(|| (0..=LONGEST).flat_map(of_length).collect())
}

/// The routine at a place; nothing past the end.
pub fn routine(place: u64) -> Option<&'static Routine> {
    routines().get(usize::try_from(place).ok()?)
}
