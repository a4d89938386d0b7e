//! Traces for tools/packing, and the proved arrangements of samples as commands. `packing traces FOLDER` writes each trace to a file of
//! FOLDER, binary32 words, low byte first, and prints the files' names, each with what the trace is. `packing planes` and `packing samples`
//! arrange standard input and write it to standard output.

use std::io::{Read, Write};
use traces::proved::planes::{planes_to_samples, samples_to_planes};
use traces::proved::{FilterMode, FrequencyApproximation, Refusal, Svf};
use traces::{leaf, Numbers};

/// The samples of one coordinate of a long trace.
const SAMPLES: usize = 48_000;

/// The samples of an edge of the coarser walk.
const COARSE: usize = 50;

type Line = Vec<f32>;

/// Each point of the leaf with the one that follows it, round to the first.
fn edges([x, y]: &[Line; 2]) -> Vec<[[f64; 2]; 2]> {
    let point = |i: usize| [x[i % x.len()] as f64, y[i % y.len()] as f64];
    (0..x.len()).map(|i| [point(i), point(i + 1)]).collect()
}

fn on([from, to]: [[f64; 2]; 2], part: f64) -> [f32; 2] {
    [0, 1].map(|axis| (from[axis] + part * (to[axis] - from[axis])) as f32)
}

fn lines(points: Vec<[f32; 2]>) -> [Line; 2] {
    [0, 1].map(|axis| points.iter().map(|p| p[axis]).collect())
}

/// The leaf's edges, walked round once at an even step.
fn walked() -> [Line; 2] {
    let edges = edges(&leaf());
    let length = |[[x, y], [to_x, to_y]]: [[f64; 2]; 2]| (to_x - x).hypot(to_y - y);
    let lengths: Vec<f64> = edges.iter().map(|edge| length(*edge)).collect();
    let round: f64 = lengths.iter().sum();
    let (mut edge, mut begins) = (0, 0.0);
    let points = (0..SAMPLES).map(|k| {
        let at = round * k as f64 / SAMPLES as f64;
        while edge + 1 < lengths.len() && at >= begins + lengths[edge] {
            begins += lengths[edge];
            edge += 1;
        }
        on(edges[edge], (at - begins) / lengths[edge])
    });
    lines(points.collect())
}

/// The same with as many samples on each edge.
fn walked_coarsely() -> [Line; 2] {
    let points = edges(&leaf())
        .into_iter()
        .flat_map(|edge| (0..COARSE).map(move |k| on(edge, k as f64 / COARSE as f64)));
    lines(points.collect())
}

/// As `outline` smooths a line: twice round, and what comes in the second round counts.
fn filtered(line: &Line) -> Line {
    let mut filter = Svf::new();
    // Exact takes every frequency from -0.497 on.
    let _ = filter.set_f_q(0.15, 0.7, FrequencyApproximation::Exact);
    let mut out = vec![0.0; line.len()];
    for _ in 0..2 {
        filter.process_buffer(line, &mut out, FilterMode::LowPass);
    }
    out
}

/// Each sample moved by up to a hundredth of a stitch unit, as a hand and a sensor do.
fn shaken(line: &Line, n: &mut Numbers) -> Line {
    line.iter().map(|v| v + 0.01 * n.sample()).collect()
}

/// To the nearest 1024th of a stitch unit, as a tablet counts.
fn counted(line: &Line) -> Line {
    line.iter().map(|v| (v * 1024.0).round() / 1024.0).collect()
}

/// Each sample up to a thousandth from the one before.
fn walk(n: &mut Numbers) -> Line {
    let mut at = 0.0;
    (0..SAMPLES)
        .map(|_| {
            at += 0.001 * n.sample();
            at
        })
        .collect()
}

fn noise(n: &mut Numbers) -> Line {
    (0..SAMPLES).map(|_| n.sample()).collect()
}

/// Every x and then every y, in files by name.
fn traces() -> [(&'static str, &'static str, [Line; 2]); 10] {
    let mut n = Numbers(1);
    let walked = walked();
    let walked_filtered = walked.each_ref().map(filtered);
    let hand = walked.each_ref().map(|line| shaken(line, &mut n));
    let hand_filtered = hand.each_ref().map(filtered);
    let hand_counted = hand.each_ref().map(counted);
    let walks = [walk(&mut n), walk(&mut n)];
    let noises = [noise(&mut n), noise(&mut n)];
    let coarse = walked_coarsely();
    let coarse_hand = coarse.each_ref().map(|line| shaken(line, &mut n));
    #[rustfmt::skip]
    let traces = [
        ("points", "leaf, its 16 points", leaf()),
        ("coarse", "leaf, 50 samples an edge", coarse),
        ("coarse_hand", "leaf, 50 samples an edge, with jitter", coarse_hand),
        ("leaf", "leaf", walked),
        ("leaf_filtered", "leaf, filtered", walked_filtered),
        ("hand", "leaf with jitter", hand),
        ("hand_filtered", "leaf with jitter, filtered", hand_filtered),
        ("tablet", "leaf with jitter, in 1024ths", hand_counted),
        ("walk", "random walk", walks),
        ("noise", "noise", noises),
    ];
    traces
}

fn arrange(by: fn(&[u8], &mut [u8]) -> Result<usize, Refusal>) {
    let mut input = vec![];
    std::io::stdin()
        .read_to_end(&mut input)
        .expect("standard input");
    let mut output = vec![0; input.len()];
    if let Err(refusal) = by(&input, &mut output) {
        eprintln!("packing: refused with {}, {refusal}", refusal.number());
        std::process::exit(1);
    }
    std::io::stdout()
        .write_all(&output)
        .expect("standard output");
}

fn main() {
    let arguments: Vec<String> = std::env::args().skip(1).collect();
    match arguments.iter().map(String::as_str).collect::<Vec<_>>()[..] {
        ["traces", folder] => {
            for (file, what, [x, y]) in traces() {
                let samples: Vec<u8> = x.iter().chain(&y).flat_map(|v| v.to_le_bytes()).collect();
                std::fs::write(format!("{folder}/{file}.samples"), samples).expect(file);
                println!("{file} {what}");
            }
        }
        ["planes"] => arrange(samples_to_planes),
        ["samples"] => arrange(planes_to_samples),
        _ => {
            eprintln!("usage: packing traces FOLDER | packing planes | packing samples");
            std::process::exit(2);
        }
    }
}
