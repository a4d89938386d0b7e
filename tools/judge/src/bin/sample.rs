//! Writes a fixed sample of the source's answers, for every method, mode and approximation, to standard output.
//! crates/filter_replay/src/main.rt says what a record holds, and crates/filter_replay/src/calls.rt which number a method has.

use judge::{bits, frequency_refusal, oracle, Numbers};
use oracle::{CrossoverSvf, DcBlocker, ModifiedSvf, NaiveSvf, OnePole, Svf};
use oracle::{FilterMode, FrequencyApproximation, EXACT_LOWEST};
use std::io::Write;

const SEED: u64 = 1;
const CASES: usize = 6;

const MODES: [FilterMode; 4] = [
    FilterMode::LowPass,
    FilterMode::BandPass,
    FilterMode::BandPassNormalized,
    FilterMode::HighPass,
];

const APPROXIMATIONS: [FrequencyApproximation; 4] = [
    FrequencyApproximation::Exact,
    FrequencyApproximation::Accurate,
    FrequencyApproximation::Fast,
    FrequencyApproximation::Dirty,
];

/// A call: its filter in the first words of `state`, its buffers in the first places of theirs.
#[derive(Clone)]
struct Call {
    method: u32,
    a: usize,
    b: usize,
    step: usize,
    numbers: [f32; 3],
    lengths: [usize; 3],
    refusal: u32,
    state: [f32; 8],
    input: [f32; 8],
    out_1: [f32; 8],
    out_2: [f32; 8],
}

impl Call {
    fn of<const N: usize>(&self) -> [f32; N] {
        std::array::from_fn(|k| self.state[k])
    }

    fn keep<const N: usize>(&mut self, words: [f32; N]) {
        self.state[..N].copy_from_slice(&words);
    }

    // The source's answer where a frequency comes with an approximation, or the series' where that is 4.
    fn answer_frequency(&mut self) {
        let [f, resonance, _] = self.numbers;
        let source = APPROXIMATIONS.get(self.a).copied();
        let refusal = source.map_or(0, |p| frequency_refusal(f, p));
        if refusal != 0 {
            self.refusal = u32::from(refusal);
            return;
        }
        match self.method {
            23 => self.out_1[0] = OnePole::tan_in(f, source),
            24 => {
                let mut s = OnePole::from_fields(self.of());
                s.set_f_in(f, source);
                self.keep(s.fields());
            }
            37 => {
                let mut s = Svf::from_fields(self.of());
                s.set_f_q_in(f, resonance, source);
                self.keep(s.fields());
            }
            _ => {
                let mut s = NaiveSvf::from_fields(self.of());
                s.set_f_q_in(f, resonance, source);
                self.keep(s.fields());
            }
        }
    }

    // The source's answer.
    fn answer(&mut self) {
        let [p, q, r] = self.numbers;
        if takes_f(self.method) {
            return self.answer_frequency();
        }
        let (mode, mode_2) = (MODES[self.a], MODES[self.b]);
        if matches!(self.method, 132 | 152) && self.step == 0 {
            self.refusal = 10;
            return;
        }
        let (mut out_1, mut out_2) = (self.out_1, self.out_2);
        let [i, j, k] = self.lengths;
        let input = self.input;
        let (x, y, z) = (&input[..i], &mut out_1[..j], &mut out_2[..k]);
        macro_rules! on {
            ($type:ident, |$s:ident| $call:expr) => {{
                #[allow(unused_mut)]
                let mut $s = $type::from_fields(self.of());
                $call;
                self.keep($s.fields());
            }};
        }
        match self.method {
            10 => self.keep(DcBlocker::new().fields()),
            11 => on!(DcBlocker, |s| s.init(p)),
            20 => self.keep(OnePole::new().fields()),
            21 => on!(OnePole, |s| s.init()),
            22 => on!(OnePole, |s| s.reset()),
            25 => on!(OnePole, |s| out_1[0] = s.process(p, mode)),
            30 => self.keep(Svf::new().fields()),
            31 => on!(Svf, |s| s.init()),
            32 => on!(Svf, |s| s.reset()),
            33 => on!(Svf, |s| s
                .set(&Svf::from_fields(std::array::from_fn(|k| input[k])))),
            34 => on!(Svf, |s| s.set_g_r_h(p, q, r)),
            35 => on!(Svf, |s| s.set_g_r(p, q)),
            36 => on!(Svf, |s| s.set_g_q(p, q)),
            38 => on!(Svf, |s| out_1[0] = s.g()),
            39 => on!(Svf, |s| out_1[0] = s.r()),
            40 => on!(Svf, |s| out_1[0] = s.h()),
            41 => on!(Svf, |s| out_1[0] = s.process(p, mode)),
            42 => on!(Svf, |s| s.process_dual(
                p,
                &mut out_1[0],
                &mut out_2[0],
                mode,
                mode_2
            )),
            50 => self.keep(NaiveSvf::new().fields()),
            51 => on!(NaiveSvf, |s| s.init()),
            52 => on!(NaiveSvf, |s| s.reset()),
            54 => on!(NaiveSvf, |s| out_1[0] = s.lp()),
            55 => on!(NaiveSvf, |s| out_1[0] = s.bp()),
            56 => on!(NaiveSvf, |s| out_1[0] = s.process(p, mode)),
            60 => self.keep(ModifiedSvf::new().fields()),
            61 => on!(ModifiedSvf, |s| s.init()),
            62 => on!(ModifiedSvf, |s| s.reset()),
            63 => on!(ModifiedSvf, |s| s.set_f_fq(p, q)),
            70 => self.keep(CrossoverSvf::new().fields()),
            71 => on!(CrossoverSvf, |s| s.init()),
            72 => on!(CrossoverSvf, |s| s.reset()),
            73 => on!(CrossoverSvf, |s| s.set_f_fq(p, q)),
            110 => on!(DcBlocker, |s| s.process(y)),
            130 => on!(Svf, |s| s.process_buffer(x, y, mode)),
            131 => on!(Svf, |s| s.process_add_buffer(x, y, p, mode)),
            132 => on!(Svf, |s| s.process_stride_buffer(x, y, self.step, mode)),
            133 => on!(Svf, |s| s.process_multimode_buffer(x, y, p)),
            134 => on!(Svf, |s| s.process_add_dual_buffer(x, y, z, p, q, mode)),
            150 => on!(NaiveSvf, |s| s.process_buffer(x, y, mode)),
            151 => on!(NaiveSvf, |s| s.split(x, y, z)),
            152 => on!(NaiveSvf, |s| s.process_decimate(x, y, self.step, mode)),
            160 => on!(ModifiedSvf, |s| s.process(x, y, mode)),
            170 => on!(CrossoverSvf, |s| s.process(x, y, mode)),
            _ => unreachable!(),
        }
        (self.out_1, self.out_2) = (out_1, out_2);
    }

    fn record(&self) -> Vec<u8> {
        let mut after = self.clone();
        after.answer();
        let mut words = vec![self.method, self.a as u32, self.b as u32];
        words.extend([self.step as u32, (self.step as u64 >> 32) as u32]);
        words.extend(self.numbers.map(bits));
        words.extend(self.lengths.map(|n| n as u32));
        words.push(after.refusal);
        for buffer in [self.state, self.input, self.out_1, self.out_2] {
            words.extend(buffer.map(bits));
        }
        for buffer in [after.state, after.out_1, after.out_2] {
            words.extend(buffer.map(bits));
        }
        assert_eq!(words.len(), 68);
        words.iter().flat_map(|w| w.to_le_bytes()).collect()
    }
}

// OnePole::tan and set_f, and both set_f_q.
fn takes_f(method: u32) -> bool {
    matches!(method, 23 | 24 | 37 | 53)
}

// The first number of these: one case is below 0, one the lowest that Exact takes, and one the number next below.
fn frequency(case: usize, f: f32) -> f32 {
    match case {
        2 => -f,
        4 => EXACT_LOWEST,
        5 => EXACT_LOWEST.next_down(),
        _ => f,
    }
}

// How many modes or approximations a method takes: none, one of five approximations, one mode of four, or two.
fn choices(method: u32) -> (usize, usize) {
    match method {
        23 | 24 | 37 | 53 => (5, 1),
        42 => (4, 4),
        25 | 41 | 56 | 130..=132 | 134 | 150 | 152 | 160 | 170 => (4, 1),
        _ => (1, 1),
    }
}

fn main() {
    let mut n = Numbers(SEED);
    let mut out = std::io::stdout().lock();
    let head = format!(
        "Answers of filter.rs with the series of documents 01, 02 a and 02 c, made by: tools/sample (seed {SEED}, {CASES} cases each). \
         Blocks of 272 bytes; crates/filter_replay/src/main.rt says what they hold."
    );
    out.write_all(format!("{head:<271}\n").as_bytes()).unwrap();
    let methods = [
        10, 11, 20, 21, 22, 23, 24, 25, 30, 31, 32, 33, 34, 35, 36, 37, 38, 39, 40, 41, 42, 50, 51,
        52, 53, 54, 55, 56, 60, 61, 62, 63, 70, 71, 72, 73, 110, 130, 131, 132, 133, 134, 150, 151,
        152, 160, 170,
    ];
    for method in methods {
        let (a, b) = choices(method);
        for (a, b) in (0..a).flat_map(|a| (0..b).map(move |b| (a, b))) {
            for case in 0..CASES {
                // The first cases are tame; of the others one has a step of 0.
                let tame = case < 3;
                let mut numbers = [(); 3].map(|_| if tame { n.frequency() } else { n.any() });
                if takes_f(method) {
                    numbers[0] = frequency(case, numbers[0]);
                }
                let lengths = [(); 3].map(|_| if case == 0 { 8 } else { n.below(9) as usize });
                let call = Call {
                    method,
                    a,
                    b,
                    step: if case == 5 { 0 } else { n.step(8) },
                    numbers,
                    lengths,
                    refusal: 0,
                    state: n.words(tame),
                    input: [(); 8].map(|_| n.value(tame)),
                    out_1: [(); 8].map(|_| n.value(tame)),
                    out_2: [(); 8].map(|_| n.value(tame)),
                };
                out.write_all(&call.record()).unwrap();
            }
        }
    }
}
