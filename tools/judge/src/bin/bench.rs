//! Times every buffer form of the source's Rust and of the proved filters, in one process on the same prepared buffers: 48,000 samples, the
//! middle of 21 runs, the two sides in turn. Before each timed run the filter is set to the same words and the output is cleared (for
//! DcBlocker, which works in place: filled with the input), so that all of it is in the cache. Then the outputs and the retained fields of
//! both sides are compared, bit for bit.

use judge::{bits, oracle, proved, Numbers};
use std::hint::black_box;
use std::time::Instant;

const SAMPLES: usize = 48_000;
const RUNS: usize = 21;

type Theirs = oracle::FilterMode;
type Ours = proved::FilterMode;

const MODES: [(&str, Theirs, Ours); 4] = [
    ("LowPass", Theirs::LowPass, Ours::LowPass),
    ("BandPass", Theirs::BandPass, Ours::BandPass),
    (
        "BandPassNormalized",
        Theirs::BandPassNormalized,
        Ours::BandPassNormalized,
    ),
    ("HighPass", Theirs::HighPass, Ours::HighPass),
];

fn middle(mut times: [f64; RUNS]) -> f64 {
    times.sort_by(f64::total_cmp);
    times[RUNS / 2]
}

// The nanoseconds of one operation in a row of operations that each wait for the one before.
fn latency(step: impl Fn(f32) -> f32) -> f64 {
    let mut times = [0.0; RUNS];
    for time in &mut times {
        let start = Instant::now();
        let mut x = black_box(1.0);
        for _ in 0..SAMPLES {
            x = step(x);
        }
        black_box(x);
        *time = start.elapsed().as_secs_f64() * 1e9 / SAMPLES as f64;
    }
    middle(times)
}

/// One side of a row: from the outputs to the words that it retains.
type Side<'a> = &'a mut dyn FnMut(&mut [f32], &mut [f32]) -> Vec<f32>;

struct Bench {
    input: Vec<f32>,
    in_place: bool,
    rows: usize,
    above: usize,
}

impl Bench {
    fn row(&mut self, name: &str, theirs: Side, ours: Side) {
        let mut buffers = [(); 4].map(|_| vec![0.0f32; SAMPLES]);
        let mut times = [[0.0; RUNS]; 2];
        let mut words = [vec![], vec![]];
        for run in 0..RUNS {
            for k in 0..2 {
                let side = (run + k) % 2;
                let [a, b, c, d] = &mut buffers;
                let (one, two) = if side == 0 { (a, b) } else { (c, d) };
                if self.in_place {
                    one.copy_from_slice(&self.input);
                } else {
                    one.fill(0.0);
                }
                two.fill(0.0);
                let start = Instant::now();
                words[side] = if side == 0 {
                    theirs(one, two)
                } else {
                    ours(one, two)
                };
                times[side][run] = start.elapsed().as_secs_f64();
            }
        }
        let [a, b, c, d] = &buffers;
        let same = |x: &[f32], y: &[f32]| x.iter().zip(y).all(|(p, q)| bits(*p) == bits(*q));
        assert!(
            same(a, c) && same(b, d) && same(&words[0], &words[1]),
            "{name}: the outputs differ"
        );
        assert!(
            a.iter().all(|x| x.is_finite()),
            "{name}: the filter does not stay finite"
        );
        let [theirs, ours] = times.map(middle);
        let ratio = ours / theirs;
        self.rows += 1;
        self.above += (ratio > 1.10) as usize;
        println!(
            "| {name} | {:.1} | {:.1} | {:.2} | {:.2} | {ratio:.2} |",
            theirs * 1e6,
            ours * 1e6,
            theirs * 1e9 / SAMPLES as f64,
            ours * 1e9 / SAMPLES as f64
        );
    }
}

fn main() {
    let mut n = Numbers(1);
    let input: Vec<f32> = (0..SAMPLES).map(|_| n.sample()).collect();
    let mut bench = Bench {
        input: input.clone(),
        in_place: true,
        rows: 0,
        above: 0,
    };
    println!("48,000 samples, the middle of 21 runs, the two sides in turn; filter set and output cleared before each run, outside of its time.");
    println!("The mode is chosen at run time, but where the row says fixed.");
    println!();
    println!("| form | source µs | proved µs | source ns/sample | proved ns/sample | ratio |");
    println!("|---|---|---|---|---|---|");

    let w = [0.995, 0.0, 0.0];
    bench.row(
        "DcBlocker::process",
        &mut |x, _| {
            let mut s = oracle::DcBlocker::from_fields(w);
            let s = black_box(&mut s);
            s.process(x);
            black_box(s).fields().to_vec()
        },
        &mut |x, _| {
            let mut s = proved::DcBlocker::from_fields(w);
            let s = black_box(&mut s);
            s.process(x);
            black_box(s).fields().to_vec()
        },
    );
    bench.in_place = false;

    // A row for each mode, chosen at run time, and one for LowPass, fixed. `$call` is the method with its other arguments.
    macro_rules! by_mode {
        ($type:ident, $w:expr, $name:expr, |$s:ident, $x:ident, $y:ident, $m:ident| $call:expr) => {{
            let w = $w;
            for (mode, p, q) in MODES {
                bench.row(
                    &format!("{} {mode}", $name),
                    &mut |$x, $y| {
                        let _ = &$y;
                        let mut $s = oracle::$type::from_fields(w);
                        let $s = black_box(&mut $s);
                        let $m = black_box(p);
                        let _ = $call;
                        black_box($s).fields().to_vec()
                    },
                    &mut |$x, $y| {
                        let _ = &$y;
                        let mut $s = proved::$type::from_fields(w);
                        let $s = black_box(&mut $s);
                        let $m = black_box(q);
                        let _ = $call;
                        black_box($s).fields().to_vec()
                    },
                );
            }
            bench.row(
                &format!("{} LowPass, fixed", $name),
                &mut |$x, $y| {
                    let _ = &$y;
                    let mut $s = oracle::$type::from_fields(w);
                    let $s = black_box(&mut $s);
                    let $m = Theirs::LowPass;
                    let _ = $call;
                    black_box($s).fields().to_vec()
                },
                &mut |$x, $y| {
                    let _ = &$y;
                    let mut $s = proved::$type::from_fields(w);
                    let $s = black_box(&mut $s);
                    let $m = Ours::LowPass;
                    let _ = $call;
                    black_box($s).fields().to_vec()
                },
            );
        }};
    }

    let w = {
        let mut s = oracle::Svf::new();
        s.set_f_q(0.1, 1.5, oracle::FrequencyApproximation::Exact);
        s.fields()
    };
    by_mode!(Svf, w, "Svf::process_buffer", |s, x, y, m| s
        .process_buffer(&input, x, m));
    by_mode!(Svf, w, "Svf::process_add_buffer", |s, x, y, m| s
        .process_add_buffer(&input, x, 0.5, m));
    by_mode!(Svf, w, "Svf::process_stride_buffer by 2", |s, x, y, m| s
        .process_stride_buffer(&input, x, black_box(2), m));
    for mode in [0.25, 0.75] {
        bench.row(
            &format!("Svf::process_multimode_buffer {mode}"),
            &mut |x, _| {
                let mut s = oracle::Svf::from_fields(w);
                let s = black_box(&mut s);
                s.process_multimode_buffer(&input, x, black_box(mode));
                black_box(s).fields().to_vec()
            },
            &mut |x, _| {
                let mut s = proved::Svf::from_fields(w);
                let s = black_box(&mut s);
                s.process_multimode_buffer(&input, x, black_box(mode));
                black_box(s).fields().to_vec()
            },
        );
    }
    by_mode!(Svf, w, "Svf::process_add_dual_buffer", |s, x, y, m| s
        .process_add_dual_buffer(&input, x, y, 0.5, 0.25, m));

    let w = {
        let mut s = oracle::NaiveSvf::new();
        s.set_f_q(0.1, 1.5, oracle::FrequencyApproximation::Exact);
        s.fields()
    };
    by_mode!(NaiveSvf, w, "NaiveSvf::process_buffer", |s, x, y, m| s
        .process_buffer(&input, x, m));
    bench.row(
        "NaiveSvf::split",
        &mut |x, y| {
            let mut s = oracle::NaiveSvf::from_fields(w);
            let s = black_box(&mut s);
            s.split(&input, x, y);
            black_box(s).fields().to_vec()
        },
        &mut |x, y| {
            let mut s = proved::NaiveSvf::from_fields(w);
            let s = black_box(&mut s);
            s.split(&input, x, y);
            black_box(s).fields().to_vec()
        },
    );
    by_mode!(
        NaiveSvf,
        w,
        "NaiveSvf::process_decimate by 4",
        |s, x, y, m| s.process_decimate(&input, x, black_box(4), m)
    );
    by_mode!(
        ModifiedSvf,
        [0.3, 0.4, 0.0, 0.0, 0.0],
        "ModifiedSvf::process",
        |s, x, y, m| s.process(&input, x, m)
    );
    by_mode!(
        CrossoverSvf,
        [0.3, 0.4, 0.0, 0.0, 0.0, 0.0, 0.0, 0.0],
        "CrossoverSvf::process",
        |s, x, y, m| s.process(&input, x, m)
    );
    println!();
    let (a, b) = (black_box(1e-9f32), black_box(1.0000001f32));
    println!(
        "One dependent addition takes {:.3} ns, one dependent multiplication {:.3} ns.",
        latency(|x| x + a),
        latency(|x| x * b)
    );
    println!(
        "{} rows, outputs and retained fields equal bit for bit; {} above 1.10.",
        bench.rows, bench.above
    );
}
