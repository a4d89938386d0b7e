//! How far `OnePole::tan` is from the exact value of its polynomial, and from the true tangent: the Rust of tools/precision, which says what
//! it is for.
//!
//! Standard input has runs of binary32 words, a line `FIRST LAST` for each, in hexadecimal. A run gets a line for each setting:
//!
//! - `tangent errors` writes `SETTING FIRST ANSWER LEAST AT GREATEST AT BEYOND..`: the word that the code answers at FIRST; the least and the
//!   greatest error, in units, and the f of each; and the first f whose error is beyond 1 unit either way, beyond 2, and so on. A unit is
//!   2^-24 of the exact value.
//! - `tangent apart` writes `SETTING FIRST APART`: the largest difference from the true tangent, as a part of it. Exact has such a line too.

use motif_filters::ffi;
use std::fmt::Write as _;
use std::io::{BufRead, Write as _};
use std::sync::atomic::{AtomicUsize, Ordering};

const UNITS: f64 = 16_777_216.0;

// Errors are sorted by whole units up to here; a bound beyond it needs it raised, since tools/precision looks up the first f there.
const MOST: usize = 64;

const fn word(bits: u32) -> f32 {
    f32::from_bits(bits)
}

// What crates/one_pole/specs/Tangent.antt has, in its order of operations: each product is rounded to binary32.
const PI: f32 = word(0x4049_0fdb);
const PI_2: f32 = PI * PI;
const PI_3: f32 = PI_2 * PI;
const PI_5: f32 = PI_3 * PI_2;
const PI_7: f32 = PI_5 * PI_2;
const PI_9: f32 = PI_7 * PI_2;
const PI_11: f32 = PI_9 * PI_2;

const DIRTY: [f32; 2] = [PI, word(0x3ebf_4880) * PI_3];
const FAST: [f32; 3] = [PI, word(0x3ea6_e979) * PI_3, word(0x3e3a_acda) * PI_5];
const ACCURATE: [f32; 6] = [
    PI,
    word(0x3eaa_aa6a) * PI_3,
    word(0x3e08_9804) * PI_5,
    word(0x3d5a_9ec2) * PI_7,
    word(0x3b3e_16bc) * PI_9,
    word(0x3c1b_ec64) * PI_11,
];
const SERIES: [f32; 7] = [
    1.0,
    word(0x3eaa_aa6a),
    word(0x3e08_9804),
    word(0x3d5a_9ec2),
    word(0x3cc9_3cba),
    word(0x3b3e_16bc),
    word(0x3c1b_ec64),
];

/// x (c₀ + c₁ x² + c₂ x⁴ + ..), as good as exactly.
///
/// x is exact in an f64, as a binary32 or the product of two. Every term is positive, so that a rounding is at most 2^-53 of what it rounds
/// and nothing cancels. The term that is rounded most often has 6 roundings of x², 12 of a product or a sum, and the last: 19 of 2^-53 are
/// less than 4e-8 units. tools/precision holds this against exact fractions.
fn wide<const N: usize>(row: [f32; N], x: f64) -> f64 {
    let y = x * x;
    x * row.iter().rev().fold(0.0, |sum, &c| f64::from(c) + y * sum)
}

/// As C numbers them: the Rust package's enum has no Series, 02 a's approximation 4, and so the code is called as C calls it.
#[derive(Clone, Copy, Debug)]
enum Setting {
    Exact,
    Accurate,
    Fast,
    Dirty,
    Series,
}
use Setting::*;

type Wide = fn(f64) -> f64;

const POLYNOMIALS: [(Setting, Wide); 4] = [
    (Dirty, |f| wide(DIRTY, f)),
    (Fast, |f| wide(FAST, f)),
    (Accurate, |f| wide(ACCURATE, f)),
    (Series, |f| wide(SERIES, f64::from(PI) * f)),
];

/// What the code answers. A NaN is beyond no bound, so it has to be found here.
fn answer(f: f32, setting: Setting) -> f32 {
    let mut value = f32::NAN;
    let refused = unsafe { ffi::one_pole_tan(f, setting as u32, &mut value) };
    if refused != 0 || !value.is_finite() {
        let word = f.to_bits();
        eprintln!("tangent: {setting:?} at {word:08x}: refusal {refused}, value {value}");
        std::process::exit(1);
    }
    value
}

/// Above 1/4 by what is left to 1/2, which is exact, since the tangent magnifies what is wrong in its argument there.
fn true_tangent(f: f64) -> f64 {
    let pi = std::f64::consts::PI;
    if f <= 0.25 {
        (pi * f).tan()
    } else {
        1.0 / (pi * (0.5 - f)).tan()
    }
}

struct Run {
    first: u32,
    last: u32,
}

impl Run {
    fn read(line: &str) -> Run {
        let (first, last) = line.split_once(' ').expect("FIRST LAST");
        let [first, last] = [first, last].map(|w| u32::from_str_radix(w, 16).expect("a word"));
        Run { first, last }
    }

    fn words(&self) -> impl Iterator<Item = (u32, f32)> {
        (self.first..=self.last).map(|w| (w, word(w)))
    }

    fn errors(&self) -> String {
        let mut lines = String::new();
        for (setting, polynomial) in POLYNOMIALS {
            let mut least = (f64::INFINITY, 0);
            let mut greatest = (f64::NEG_INFINITY, 0);
            let mut beyond = vec![];
            for (w, f) in self.words() {
                let exact = polynomial(f64::from(f));
                let error = (f64::from(answer(f, setting)) - exact) / exact * UNITS;
                if error < least.0 {
                    least = (error, w);
                }
                if error > greatest.0 {
                    greatest = (error, w);
                }
                while beyond.len() < MOST && error.abs() > (beyond.len() + 1) as f64 {
                    beyond.push(w);
                }
            }
            let at_first = answer(word(self.first), setting).to_bits();
            write!(lines, "{setting:?} {:08x} {at_first:08x}", self.first).unwrap();
            for (error, w) in [least, greatest] {
                write!(lines, " {error} {w:08x}").unwrap();
            }
            for w in beyond {
                write!(lines, " {w:08x}").unwrap();
            }
            lines.push('\n');
        }
        lines
    }

    fn apart(&self) -> String {
        let mut lines = String::new();
        for setting in [Dirty, Fast, Accurate, Series, Exact] {
            let mut largest: f64 = 0.0;
            for (_, f) in self.words() {
                let apart = f64::from(answer(f, setting)) / true_tangent(f64::from(f)) - 1.0;
                if apart.abs() > largest.abs() {
                    largest = apart;
                }
            }
            writeln!(lines, "{setting:?} {:08x} {largest}", self.first).unwrap();
        }
        lines
    }
}

/// Does the work for every run, on all processors, and keeps the runs' order.
fn on_all_processors(runs: &[Run], work: fn(&Run) -> String) -> Vec<String> {
    let next = AtomicUsize::new(0);
    let take_runs = || {
        let mut done = vec![];
        loop {
            let k = next.fetch_add(1, Ordering::Relaxed);
            let Some(run) = runs.get(k) else { return done };
            done.push((k, work(run)));
        }
    };
    let threads = std::thread::available_parallelism().map_or(1, usize::from);
    let mut done: Vec<(usize, String)> = std::thread::scope(|s| {
        let workers: Vec<_> = (0..threads).map(|_| s.spawn(take_runs)).collect();
        workers
            .into_iter()
            .flat_map(|w| w.join().expect("a worker"))
            .collect()
    });
    done.sort();
    done.into_iter().map(|(_, lines)| lines).collect()
}

fn main() {
    let work = match std::env::args().nth(1).as_deref() {
        Some("errors") => Run::errors,
        Some("apart") => Run::apart,
        _ => {
            eprintln!("usage: tangent errors | apart");
            std::process::exit(2);
        }
    };
    let lines = std::io::stdin().lock().lines();
    let runs: Vec<Run> = lines
        .map(|line| Run::read(&line.expect("a line")))
        .collect();
    let said = on_all_processors(&runs, work).concat();
    std::io::stdout()
        .write_all(said.as_bytes())
        .expect("standard output");
}
