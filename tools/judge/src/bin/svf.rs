//! Times plain `Svf::process_buffer`, low-pass, over 48,000 samples: the source's Rust, and the proved one from Rust, C and Rattle, and
//! through a head of the frame. The sides take turns, 21 each after one that does not count; the answers of every turn are compared bit for bit, and
//! a difference ends the program. `tools/bench --svf` builds what it needs and names the two programs, the one in C and the one in Rattle.

use judge::{bits, leaf, oracle, proved, Numbers};
use std::hint::black_box;
use std::io::{Read, Write};
use std::process::{Child, Command, Stdio};
use std::time::Instant;

const SAMPLES: usize = 48_000;
const TURNS: usize = 21;

// As `outline` sets its filter.
const FREQUENCY: f32 = 0.15;
const RESONANCE: f32 = 0.7;

// The number of the mode for C and the frame.
const LOW_PASS: u32 = 0;

/// What a side answers: the seconds that it took, and the retained fields, eight of them with zeros behind.
type Answer = (f64, [f32; 8]);

/// One side, which leaves its outputs in a buffer of its own.
struct Side {
    outputs: Vec<f32>,
    turn: Box<dyn FnMut(bool, &mut [f32]) -> Answer>,
    times: Vec<f64>,
}

fn eight(fields: [f32; 5]) -> [f32; 8] {
    std::array::from_fn(|i| *fields.get(i).unwrap_or(&0.0))
}

/// A side in this process, of the crate `$of`.
macro_rules! here {
    ($of:ident, $input:expr, $mode:expr) => {{
        let input: Vec<f32> = $input.to_vec();
        let mut set = $of::Svf::new();
        let _ = set.set_f_q(FREQUENCY, RESONANCE, $of::FrequencyApproximation::Exact);
        let fields = set.fields();
        side(move |clear, outputs| {
            if clear {
                outputs.fill(0.0);
            }
            let mut filter = $of::Svf::from_fields(fields);
            let filter = black_box(&mut filter);
            let start = Instant::now();
            filter.process_buffer(&input, outputs, $mode);
            let time = start.elapsed().as_secs_f64();
            (time, eight(black_box(filter).fields()))
        })
    }};
}

fn side(turn: impl FnMut(bool, &mut [f32]) -> Answer + 'static) -> Side {
    Side {
        outputs: vec![0.0; SAMPLES],
        turn: Box::new(turn),
        times: vec![],
    }
}

/// A program that was sent the input and waits for its turns; crates/cost_of_frame says in which bytes.
struct Program(Child);

impl Program {
    fn start(path: &str, run: u32, input: &[f32]) -> Self {
        let mut child = Command::new(path)
            .stdin(Stdio::piped())
            .stdout(Stdio::piped())
            .spawn()
            .unwrap_or_else(|e| panic!("{path}: {e}"));
        let mut sent = [run, LOW_PASS].map(u32::to_le_bytes).concat();
        // A sheet of one entry: an Svf whose frequency goes by Exact.
        sent.extend([1, 0, 3]);
        sent.extend([FREQUENCY, RESONANCE, 0.0].map(f32::to_le_bytes).concat());
        sent.extend(input.iter().flat_map(|x| x.to_le_bytes()));
        child.stdin.as_mut().unwrap().write_all(&sent).expect(path);
        Program(child)
    }

    fn turn(&mut self, clear: bool, outputs: &mut [f32]) -> Answer {
        let stdin = self.0.stdin.as_mut().unwrap();
        stdin.write_all(&[clear as u8]).expect("a turn");
        let mut answer = vec![0; 4 * (1 + 8 + SAMPLES)];
        let stdout = self.0.stdout.as_mut().unwrap();
        stdout.read_exact(&mut answer).expect("an answer");
        let word = |i: usize| u32::from_le_bytes(answer[4 * i..4 * i + 4].try_into().unwrap());
        for (i, x) in outputs.iter_mut().enumerate() {
            *x = f32::from_bits(word(9 + i));
        }
        let fields = std::array::from_fn(|i| f32::from_bits(word(1 + i)));
        (word(0) as f64 * 1e-9, fields)
    }
}

impl Drop for Program {
    fn drop(&mut self) {
        drop(self.0.stdin.take());
        let _ = self.0.wait();
    }
}

fn program(path: &str, run: u32, input: &[f32]) -> Side {
    let mut program = Program::start(path, run, input);
    side(move |clear, outputs| program.turn(clear, outputs))
}

fn same(x: &[f32], y: &[f32]) -> bool {
    x.iter().zip(y).all(|(p, q)| bits(*p) == bits(*q))
}

/// Every side's turn, the first of which is the source's. Which side begins goes round.
fn turn(sides: &mut [Side], round: usize, clear: bool, counts: bool) {
    let n = sides.len();
    let mut fields = vec![[0.0; 8]; n];
    for k in 0..n {
        let at = (round + k) % n;
        let side = &mut sides[at];
        let (time, f) = (side.turn)(clear, &mut side.outputs);
        fields[at] = f;
        if counts {
            side.times.push(time);
        }
    }
    for at in 1..n {
        assert!(
            same(&sides[0].outputs, &sides[at].outputs) && same(&fields[0], &fields[at]),
            "side {at} answers otherwise than the source"
        );
    }
}

fn middle(times: &mut [f64]) -> f64 {
    times.sort_by(f64::total_cmp);
    times[TURNS / 2]
}

/// Round and round: every x of the leaf, then every y.
fn outline() -> Vec<f32> {
    let [x, y] = leaf();
    let rounds = SAMPLES / 2 / x.len();
    [x.repeat(rounds), y.repeat(rounds)].concat()
}

fn random() -> Vec<f32> {
    let mut n = Numbers(1);
    (0..SAMPLES).map(|_| n.sample()).collect()
}

/// Any numbers that are less than the least normal one, of both signs.
fn subnormal() -> Vec<f32> {
    let mut n = Numbers(2);
    let word = |n: &mut Numbers| f32::from_bits(n.next() as u32 & 0x807F_FFFF);
    (0..SAMPLES).map(|_| word(&mut n)).collect()
}

fn row(name: &str, input: &[f32], clear: bool, in_c: &str, in_rattle: &str) -> f64 {
    let mut sides = [
        here!(oracle, input, black_box(oracle::FilterMode::LowPass)),
        here!(oracle, input, oracle::FilterMode::LowPass),
        here!(proved, input, proved::FilterMode::LowPass),
        program(in_c, SAMPLES as u32, input),
        program(in_rattle, 0, input),
        program(in_rattle, 256, input),
        program(in_rattle, 4096, input),
    ];
    turn(&mut sides, 0, clear, false);
    for round in 0..TURNS {
        turn(&mut sides, round, clear, true);
    }
    let middles = sides.each_mut().map(|side| middle(&mut side.times));
    let source = middles[0].min(middles[1]);
    let prepared = if clear { "cleared" } else { "written before" };
    print!("| {name} | {prepared} |");
    let mut worst: f64 = 0.0;
    for (at, side) in sides.iter().enumerate() {
        let [least, middle, greatest] =
            [side.times[0], middles[at], side.times[TURNS - 1]].map(|t| t * 1e6);
        print!(" {middle:.1} ({least:.1} to {greatest:.1})");
        if at > 1 {
            let ratio = middles[at] / source;
            worst = worst.max(ratio);
            print!(" **{ratio:.2}**");
        }
        print!(" |");
    }
    println!();
    worst
}

fn main() {
    let mut arguments = std::env::args().skip(1);
    let in_c = arguments.next().expect("the program in C");
    let in_rattle = arguments.next().expect("the program in Rattle");
    println!("Svf::process_buffer, low-pass, 48,000 samples, frequency {FREQUENCY} and resonance {RESONANCE} by Exact. Microseconds: the middle of {TURNS} turns (the least to the greatest). In bold: over the lesser of the source's two.");
    println!();
    println!("| input | outputs | source | source, mode fixed | from Rust | from C | from Rattle | frame, runs of 256 | frame, runs of 4,096 |");
    println!("|---|---|---|---|---|---|---|---|---|");
    let mut worst: f64 = 0.0;
    for (name, input) in [
        ("outline", outline()),
        ("random", random()),
        ("subnormal", subnormal()),
    ] {
        for clear in [true, false] {
            worst = worst.max(row(name, &input, clear, &in_c, &in_rattle));
        }
    }
    println!();
    println!("Outputs and retained fields of every turn equal bit for bit; the greatest ratio is {worst:.2}.");
}
