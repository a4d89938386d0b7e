//! Times the proved arrangements of samples, into planes and back, beside loops in Rust and a copy of as many bytes. The sides take
//! turns, 21 each; before each the output is cleared, outside of the time, and after it the answer is compared byte for byte. A small
//! input is arranged many times in a turn. The input begins at a multiple of 4,096, and the output 2,048 behind one: a load waits for a
//! store before it whose address ends in the same 12 bits.

mod loops;

use loops::{Arrange, Loop, INDEXED, NOT_TAKEN_TO_PLANES, NOT_TAKEN_TO_SAMPLES, SLICES};
use std::hint::black_box;
use std::time::Instant;
use traces::proved::planes::{planes_to_samples, samples_to_planes};
use traces::Numbers;

const TURNS: usize = 21;

/// How many bytes, how many calls make a turn, and the unit of the times in seconds, with its name.
#[derive(Clone, Copy)]
struct Size {
    bytes: usize,
    calls: usize,
    unit: f64,
    unit_name: &'static str,
}

#[rustfmt::skip]
const SIZES: [Size; 5] = [
    Size { bytes: 128, calls: 10_000, unit: 1e-9, unit_name: "ns" },
    Size { bytes: 1 << 10, calls: 2_000, unit: 1e-9, unit_name: "ns" },
    Size { bytes: 1_000_000, calls: 5, unit: 1e-6, unit_name: "µs" },
    Size { bytes: 1 << 20, calls: 5, unit: 1e-6, unit_name: "µs" },
    Size { bytes: 1 << 28, calls: 1, unit: 1e-3, unit_name: "ms" },
];

const DIRECTIONS: [&str; 2] = ["to planes", "to samples"];

const PROVED: [Arrange; 2] = [
    |samples, output| assert_eq!(samples_to_planes(samples, output), Ok(samples.len())),
    |planes, output| assert_eq!(planes_to_samples(planes, output), Ok(planes.len())),
];

fn copy(input: &[u8], output: &mut [u8]) {
    output.copy_from_slice(input);
}

/// Bytes that begin at an address of our choice.
struct Buffer {
    room: Vec<u8>,
    begin: usize,
    bytes: usize,
}

impl Buffer {
    const PAGE: usize = 4096;

    /// `behind` a multiple of 4,096.
    fn new(bytes: usize, behind: usize) -> Self {
        let room = vec![0; bytes + 2 * Self::PAGE];
        let begin = room.as_ptr().align_offset(Self::PAGE) + behind;
        Self { room, begin, bytes }
    }

    fn bytes(&mut self) -> &mut [u8] {
        &mut self.room[self.begin..self.begin + self.bytes]
    }
}

/// A call of each side, and what it must write.
struct Sides<'a> {
    sides: Vec<(Arrange, &'a [u8])>,
}

impl<'a> Sides<'a> {
    /// Answers where the side's time will stand.
    fn add(&mut self, arrange: Arrange, answer: &'a [u8]) -> usize {
        self.sides.push((arrange, answer));
        self.sides.len() - 1
    }

    /// The middle time of a call of each side, in seconds.
    fn times(&self, calls: usize, input: &[u8]) -> Vec<f64> {
        let mut output = Buffer::new(input.len(), Buffer::PAGE / 2);
        let output = output.bytes();
        let mut times = vec![vec![]; self.sides.len()];
        for turn in 0..TURNS {
            for k in 0..self.sides.len() {
                let at = (turn + k) % self.sides.len();
                let (arrange, answer) = self.sides[at];
                output.fill(0);
                let start = Instant::now();
                for _ in 0..calls {
                    black_box(arrange)(black_box(input), black_box(&mut *output));
                }
                times[at].push(start.elapsed().as_secs_f64() / calls as f64);
                assert!(*output == *answer, "side {at} answers otherwise");
            }
        }
        let middle = |mut of: Vec<f64>| {
            of.sort_by(f64::total_cmp);
            of[TURNS / 2]
        };
        times.into_iter().map(middle).collect()
    }
}

/// 1234567 as 1,234,567.
fn grouped(n: usize) -> String {
    let digits = n.to_string();
    let groups: Vec<&str> = digits
        .as_bytes()
        .rchunks(3)
        .rev()
        .map(|group| std::str::from_utf8(group).unwrap())
        .collect();
    groups.join(",")
}

/// A cell for each time.
fn cells(times: &[f64], size: Size) -> String {
    let cell = |time: &f64| format!(" {:.1} {} |", time / size.unit, size.unit_name);
    times.iter().map(cell).collect()
}

/// The rows of a size in the first table, and its cells in the second.
fn measure(size: Size) -> (Vec<String>, Vec<String>) {
    let mut n = Numbers(size.bytes as u64);
    let mut input = Buffer::new(size.bytes, 0);
    input.bytes().fill_with(|| n.next() as u8);
    let input = &*input.bytes();
    let answers = INDEXED.map(|of| {
        let mut answer = vec![0; size.bytes];
        (of.plain)(input, &mut answer);
        answer
    });

    let mut sides = Sides { sides: vec![] };
    let copied = sides.add(copy, input);
    let first: [[usize; 5]; 2] = [0, 1].map(|d| {
        let of = |arrange| (arrange, &answers[d][..]);
        [
            of(INDEXED[d].plain),
            of(INDEXED[d].for_v2),
            of(SLICES[d].plain),
            of(SLICES[d].for_v2),
            of(PROVED[d]),
        ]
        .map(|(arrange, answer)| sides.add(arrange, answer))
    });
    let mut others = |d: usize, list: &[(&str, Loop)]| -> Vec<usize> {
        list.iter()
            .map(|(_, of)| sides.add(of.for_v2, &answers[d]))
            .collect()
    };
    let to_planes = others(0, &NOT_TAKEN_TO_PLANES);
    let to_samples = others(1, &NOT_TAKEN_TO_SAMPLES);
    let times = sides.times(size.calls, input);

    let row = |d: usize| {
        let [indexed, indexed_v2, slices, slices_v2, proved] = first[d].map(|at| times[at]);
        let copy = times[copied];
        let plain = indexed.min(indexed_v2);
        format!(
            "| {} | {} |{} {:.1} | {:.2} | {:.2} | {:.2} |",
            grouped(size.bytes),
            DIRECTIONS[d],
            cells(
                &[indexed, indexed_v2, slices, slices_v2, copy, proved],
                size
            ),
            size.bytes as f64 / proved / 1e9,
            proved / plain,
            proved / plain.min(slices).min(slices_v2),
            proved / copy
        )
    };
    let taken = |d: usize| std::iter::once(first[d][3]);
    let shapes = taken(0).chain(to_planes).chain(taken(1)).chain(to_samples);
    let shapes = shapes.map(|at| cells(&[times[at]], size)).collect();
    (vec![row(0), row(1)], shapes)
}

fn main() {
    println!("Samples in planes and back: the middle of {TURNS} turns. The plain loop goes by indices, the slices by a slice for each plane; each stands as cargo compiles it and as for x86-64-v2, for which Rattle's compiler writes. The first ratio is over the lesser of the plain loop's two times, the second over the least of the four.");
    println!();
    println!("| bytes | arranged | plain | plain, x86-64-v2 | slices | slices, x86-64-v2 | copy | proved | proved GB/s | of plain | of the fastest | of the copy |");
    println!("|---|---|---|---|---|---|---|---|---|---|---|---|");
    let mut columns = vec![];
    for size in SIZES {
        let (rows, shapes) = measure(size);
        println!("{}", rows.join("\n"));
        columns.push(shapes);
    }

    println!();
    println!("Shapes of the loop, all in Rust, for x86-64-v2 and over slices:");
    println!();
    let heads: String = SIZES
        .map(|size| format!(" {} |", grouped(size.bytes)))
        .concat();
    println!("| shape |{heads}");
    println!("|---|{}", "---|".repeat(SIZES.len()));
    let names = ["to planes, a word: as proved"]
        .into_iter()
        .chain(NOT_TAKEN_TO_PLANES.map(|(name, _)| name))
        .chain(["to samples, four bytes: as proved"])
        .chain(NOT_TAKEN_TO_SAMPLES.map(|(name, _)| name));
    for (k, name) in names.enumerate() {
        let row: String = columns.iter().map(|shapes| shapes[k].as_str()).collect();
        println!("| {name} |{row}");
    }
    println!();
    println!("The answers of every turn are those of the plain loop.");
}
