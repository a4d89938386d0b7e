//! Compares the proved filters with the source's, bit for bit with all NaNs as one: outputs, places that must stay, every retained field,
//! and the refusals. `compare [--seed N] [--rounds N]`, or `compare --full`: OnePole::tan and the frequency of NaiveSvf at all 2^32 words.

use judge::proved::{self, ffi, Refusal};
use judge::{bits, frequency_refusal, oracle, setting, Numbers};
use std::collections::BTreeMap;
use std::time::Instant;

const MODES: [(oracle::FilterMode, proved::FilterMode); 4] = [
    (oracle::FilterMode::LowPass, proved::FilterMode::LowPass),
    (oracle::FilterMode::BandPass, proved::FilterMode::BandPass),
    (
        oracle::FilterMode::BandPassNormalized,
        proved::FilterMode::BandPassNormalized,
    ),
    (oracle::FilterMode::HighPass, proved::FilterMode::HighPass),
];

type Approximations = (
    oracle::FrequencyApproximation,
    proved::FrequencyApproximation,
);

const APPROXIMATIONS: [Approximations; 4] = [
    (
        oracle::FrequencyApproximation::Exact,
        proved::FrequencyApproximation::Exact,
    ),
    (
        oracle::FrequencyApproximation::Accurate,
        proved::FrequencyApproximation::Accurate,
    ),
    (
        oracle::FrequencyApproximation::Fast,
        proved::FrequencyApproximation::Fast,
    ),
    (
        oracle::FrequencyApproximation::Dirty,
        proved::FrequencyApproximation::Dirty,
    ),
];

// The number of an unknown mode or approximation.
const UNKNOWN: u8 = 100;

// Approximation 4 of document 02 a. Neither the source nor the Rust package has it: it is called as C calls it, and compared with the series.
const SERIES: u32 = 4;

const LAST_MODE: u32 = 3;
const LAST_APPROXIMATION: u32 = SERIES;

/// How many values were compared, by method, and what is being compared now.
struct Tally {
    counts: BTreeMap<&'static str, u64>,
    method: &'static str,
    what: String,
}

impl Tally {
    fn at(&mut self, method: &'static str, what: String) {
        self.method = method;
        self.what = what;
    }

    fn count(&mut self, n: usize) {
        *self.counts.entry(self.method).or_insert(0) += n as u64;
    }

    fn fail(&self, part: &str, source: String, ours: String) -> ! {
        println!(
            "{} differs in {part}: {source} is expected, the proved filter has {ours}",
            self.method
        );
        println!("at {}", self.what);
        std::process::exit(1)
    }

    fn words(&mut self, part: &str, source: &[f32], ours: &[f32]) {
        if source.len() != ours.len() {
            self.fail(
                part,
                format!("{} words", source.len()),
                format!("{}", ours.len()),
            );
        }
        for (k, (a, b)) in source.iter().zip(ours).enumerate() {
            if bits(*a) != bits(*b) {
                self.fail(
                    &format!("{part} {k}"),
                    format!("{:08x}", a.to_bits()),
                    format!("{:08x}", b.to_bits()),
                );
            }
        }
        self.count(source.len());
    }

    // What must stay as it was: to the bit, NaNs too.
    fn stays(&mut self, part: &str, was: &[f32], is: &[f32]) {
        for (k, (a, b)) in was.iter().zip(is).enumerate() {
            if a.to_bits() != b.to_bits() {
                self.fail(
                    &format!("{part} {k}, which must stay"),
                    format!("{:08x}", a.to_bits()),
                    format!("{:08x}", b.to_bits()),
                );
            }
        }
        self.count(was.len());
    }

    fn refusal(&mut self, expected: u8, is: u8) {
        if expected != is {
            self.fail("the refusal", format!("{expected}"), format!("{is}"));
        }
        self.count(1);
    }
}

fn number<A>(answer: &Result<A, Refusal>) -> u8 {
    match answer {
        Ok(_) => 0,
        Err(refusal) => refusal.number(),
    }
}

// A number past the last that names a mode or an approximation: a byte, one whose low byte would name one, what C makes of a negative int,
// or any.
fn unknown(n: &mut Numbers, last: u32) -> u32 {
    match n.below(4) {
        0 => last + 1 + n.below(u64::from(255 - last)) as u32,
        1 => (1 + n.below(0xFF_FFFF) as u32) << 8 | n.below(u64::from(last) + 1) as u32,
        2 => u32::MAX - n.below(256) as u32,
        _ => (n.next() as u32).max(last + 1),
    }
}

// Both sides from the same words.
macro_rules! pair {
    ($type:ident, $w:expr) => {
        (
            oracle::$type::from_fields($w),
            proved::$type::from_fields($w),
        )
    };
}

// A setter or another call of no output, on both sides.
macro_rules! same {
    ($t:ident, $type:ident, $w:ident, $name:literal, $call:ident ($($arg:expr),*)) => {{
        let (mut a, mut b) = pair!($type, $w);
        $t.at(concat!(stringify!($type), "::", $name), format!("{:?} {:?}", $w, ($($arg,)*)));
        a.$call($($arg),*);
        b.$call($($arg),*);
        $t.words("the field", &a.fields(), &b.fields());
    }};
}

fn news(t: &mut Tally) {
    macro_rules! new {
        ($type:ident) => {
            t.at(concat!(stringify!($type), "::new"), String::new());
            t.words(
                "the field",
                &oracle::$type::new().fields(),
                &proved::$type::new().fields(),
            );
            t.words(
                "the field",
                &oracle::$type::default().fields(),
                &proved::$type::default().fields(),
            );
            let (a, b) = (
                format!("{:?}", oracle::$type::new()),
                format!("{:?}", proved::$type::new()),
            );
            if a != b {
                t.fail("its Debug text", a, b);
            }
        };
    }
    new!(DcBlocker);
    new!(OnePole);
    new!(Svf);
    new!(NaiveSvf);
    new!(ModifiedSvf);
    new!(CrossoverSvf);
}

fn dc_blocker(n: &mut Numbers, t: &mut Tally, tame: bool) {
    let w = n.words::<3>(tame);
    same!(t, DcBlocker, w, "init", init(w[0]));
    let (mut a, mut b) = pair!(DcBlocker, w);
    let length = n.length();
    let mut x = n.buffer(length, tame);
    let mut y = x.clone();
    t.at("DcBlocker::process", format!("{w:?} {x:?}"));
    a.process(&mut x);
    b.process(&mut y);
    t.words("the place", &x, &y);
    t.words("the field", &a.fields(), &b.fields());
}

// A setter that takes a frequency, on both sides: it sets both filters alike, or is refused and leaves ours as it was.
macro_rules! setter {
    ($t:ident, $type:ident, $w:ident, $name:literal, $call:ident ($f:expr, $($arg:expr),*), $p:expr, $q:expr) => {{
        let (mut a, mut b) = pair!($type, $w);
        let refusal = frequency_refusal($f, $p);
        $t.at(concat!(stringify!($type), "::", $name), format!("{:?} {:?} {:?}", $w, ($f, $($arg,)*), $p));
        $t.refusal(refusal, number(&b.$call($f, $($arg,)* $q)));
        if refusal == 0 {
            a.$call($f, $($arg,)* $p);
            $t.words("the field", &a.fields(), &b.fields());
        } else {
            $t.stays("the field", &$w, &b.fields());
        }
    }};
}

fn one_pole_at(t: &mut Tally, w: [f32; 3], f: f32, (p, q): Approximations) {
    t.at("OnePole::tan", format!("{f:?} {p:?}"));
    let got = proved::OnePole::tan(f, q);
    t.refusal(frequency_refusal(f, p), number(&got));
    if let Ok(value) = got {
        t.words("the value", &[oracle::OnePole::tan(f, p)], &[value]);
    }
    setter!(t, OnePole, w, "set_f", set_f(f,), p, q);
}

fn svf_at(t: &mut Tally, w: [f32; 5], f: f32, resonance: f32, (p, q): Approximations) {
    setter!(t, Svf, w, "set_f_q", set_f_q(f, resonance), p, q);
}

fn naive_at(t: &mut Tally, w: [f32; 4], f: f32, resonance: f32, (p, q): Approximations) {
    setter!(t, NaiveSvf, w, "set_f_q", set_f_q(f, resonance), p, q);
}

fn one_pole_by_series(t: &mut Tally, w: [f32; 3], f: f32) {
    let (mut a, mut state, mut value) = (oracle::OnePole::from_fields(w), w, 0.0);
    t.at("OnePole by the series", format!("{w:?} {f:?}"));
    t.refusal(0, unsafe { ffi::one_pole_tan(f, SERIES, &mut value) });
    t.words("the value", &[oracle::OnePole::tan_in(f, None)], &[value]);
    t.refusal(0, unsafe { ffi::one_pole_set_f(&mut state, f, SERIES) });
    a.set_f_in(f, None);
    t.words("the field", &a.fields(), &state);
}

fn svf_by_series(t: &mut Tally, w: [f32; 5], f: f32, resonance: f32) {
    let (mut a, mut state) = (oracle::Svf::from_fields(w), w);
    t.at("Svf by the series", format!("{w:?} {f:?} {resonance:?}"));
    t.refusal(0, unsafe {
        ffi::svf_set_f_q(&mut state, f, resonance, SERIES)
    });
    a.set_f_q_in(f, resonance, None);
    t.words("the field", &a.fields(), &state);
}

fn naive_by_series(t: &mut Tally, w: [f32; 4], f: f32, resonance: f32) {
    let (mut a, mut state) = (oracle::NaiveSvf::from_fields(w), w);
    t.at(
        "NaiveSvf by the series",
        format!("{w:?} {f:?} {resonance:?}"),
    );
    t.refusal(0, unsafe {
        ffi::naive_svf_set_f_q(&mut state, f, resonance, SERIES)
    });
    a.set_f_q_in(f, resonance, None);
    t.words("the field", &a.fields(), &state);
}

// Every frequency of `oracle::MIRRORED`, and each negated, in every call that takes one.
fn mirrored(n: &mut Numbers, t: &mut Tally) {
    let below = oracle::MIRRORED.map(f32::from_bits);
    for f in below.into_iter().chain(below.map(|f| -f)) {
        one_pole_by_series(t, n.words(true), f);
        svf_by_series(t, n.words(true), f, n.any());
        naive_by_series(t, n.words(true), f, n.any());
        for by in APPROXIMATIONS {
            one_pole_at(t, n.words(true), f, by);
            svf_at(t, n.words(true), f, n.any(), by);
            naive_at(t, n.words(true), f, n.any(), by);
        }
    }
}

fn one_pole(n: &mut Numbers, t: &mut Tally, tame: bool) {
    let w = n.words::<3>(tame);
    same!(t, OnePole, w, "init", init());
    same!(t, OnePole, w, "reset", reset());
    for by in APPROXIMATIONS {
        one_pole_at(t, w, setting(n), by);
    }
    one_pole_by_series(t, w, setting(n));
    for (p, q) in MODES {
        let (mut a, mut b) = pair!(OnePole, w);
        t.at("OnePole::process", format!("{w:?} {p:?}"));
        for _ in 0..8 {
            let x = n.value(tame);
            t.words("the output", &[a.process(x, p)], &[b.process(x, q)]);
            t.words("the field", &a.fields(), &b.fields());
        }
    }
    let (mode, by) = (unknown(n, LAST_MODE), unknown(n, LAST_APPROXIMATION));
    let (mut state, mut out) = (w, n.any());
    let was = out;
    t.at("OnePole, unknown numbers", format!("{w:?} {mode} {by}"));
    unsafe {
        t.refusal(
            UNKNOWN,
            ffi::one_pole_process(&mut state, 1.0, mode, &mut out),
        );
        t.refusal(UNKNOWN, ffi::one_pole_set_f(&mut state, 0.1, by));
        t.refusal(UNKNOWN, ffi::one_pole_tan(0.1, by, &mut out));
        t.refusal(11, ffi::one_pole_tan(-1.0, 0, &mut out));
    }
    t.stays("the field", &w, &state);
    t.stays("the output", &[was], &[out]);
}

fn svf(n: &mut Numbers, t: &mut Tally, tame: bool) {
    let w = n.words::<5>(tame);
    let v = n.words::<5>(tame);
    same!(t, Svf, w, "init", init());
    same!(t, Svf, w, "reset", reset());
    same!(t, Svf, w, "set_g_r_h", set_g_r_h(v[0], v[1], v[2]));
    same!(t, Svf, w, "set_g_r", set_g_r(v[0], v[1]));
    same!(t, Svf, w, "set_g_q", set_g_q(v[0], v[1]));
    let (mut a, mut b) = pair!(Svf, w);
    let (c, d) = pair!(Svf, v);
    t.at("Svf::set", format!("{w:?} {v:?}"));
    a.set(&c);
    b.set(&d);
    t.words("the field", &a.fields(), &b.fields());
    t.at("Svf::g, r, h", format!("{v:?}"));
    t.words("g, r, h", &[c.g(), c.r(), c.h()], &[d.g(), d.r(), d.h()]);
    for by in APPROXIMATIONS {
        svf_at(t, w, setting(n), n.any(), by);
    }
    svf_by_series(t, w, setting(n), n.any());
    // Settings that a user would have, half of the time.
    let w = if tame && n.below(2) == 0 {
        let mut s = oracle::Svf::from_fields(w);
        s.set_f_q(
            n.frequency(),
            1.0 + n.frequency(),
            oracle::FrequencyApproximation::Exact,
        );
        s.fields()
    } else {
        w
    };
    for (k, (p, q)) in MODES.into_iter().enumerate() {
        let (mut a, mut b) = pair!(Svf, w);
        t.at("Svf::process", format!("{w:?} {p:?}"));
        for _ in 0..8 {
            let x = n.value(tame);
            t.words("the output", &[a.process(x, p)], &[b.process(x, q)]);
            t.words("the field", &a.fields(), &b.fields());
        }
        for (p2, q2) in MODES {
            t.at("Svf::process_dual", format!("{w:?} {p:?} {p2:?}"));
            let x = n.value(tame);
            let (mut o, mut u) = ([0.0; 2], [1.0; 2]);
            let [o1, o2] = &mut o;
            a.process_dual(x, o1, o2, p, p2);
            let [u1, u2] = &mut u;
            b.process_dual(x, u1, u2, q, q2);
            t.words("the output", &o, &u);
            t.words("the field", &a.fields(), &b.fields());
        }
        let input = {
            let l = n.length();
            n.buffer(l, tame)
        };
        let out = {
            let l = n.length();
            n.buffer(l, false)
        };
        let out_2 = {
            let l = n.length();
            n.buffer(l, false)
        };
        let shortest = input.len().min(out.len());
        macro_rules! form {
            ($name:literal, $x:ident, $y:ident, $ours:expr, $theirs:expr, $($arg:expr),*) => {{
                let (mut a, mut b) = pair!(Svf, w);
                let (mut $x, mut $y) = (out.clone(), out.clone());
                t.at(concat!("Svf::", $name), format!("{w:?} {p:?} {:?} {} in, {} out", ($($arg,)*), input.len(), out.len()));
                $theirs(&mut a, &mut $x);
                $ours(&mut b, &mut $y);
                t.words("the place", &$x, &$y);
                t.words("the field", &a.fields(), &b.fields());
            }};
        }
        form!(
            "process_buffer",
            x,
            y,
            |b: &mut proved::Svf, y: &mut [f32]| b.process_buffer(&input, y, q),
            |a: &mut oracle::Svf, x: &mut [f32]| a.process_buffer(&input, x, p),
        );
        let gain = n.value(tame);
        form!(
            "process_add_buffer",
            x,
            y,
            |b: &mut proved::Svf, y: &mut [f32]| b.process_add_buffer(&input, y, gain, q),
            |a: &mut oracle::Svf, x: &mut [f32]| a.process_add_buffer(&input, x, gain, p),
            gain
        );
        let stride = n.step(shortest);
        form!(
            "process_stride_buffer",
            x,
            y,
            |b: &mut proved::Svf, y: &mut [f32]| b
                .process_stride_buffer(&input, y, stride, q)
                .unwrap(),
            |a: &mut oracle::Svf, x: &mut [f32]| a.process_stride_buffer(&input, x, stride, p),
            stride
        );
        let multimode = if n.below(2) == 0 {
            n.any()
        } else {
            n.frequency() * 2.0
        };
        form!(
            "process_multimode_buffer",
            x,
            y,
            |b: &mut proved::Svf, y: &mut [f32]| b.process_multimode_buffer(&input, y, multimode),
            |a: &mut oracle::Svf, x: &mut [f32]| a.process_multimode_buffer(&input, x, multimode),
            multimode
        );

        let (mut a, mut b) = pair!(Svf, w);
        let (mut x, mut y, mut x2, mut y2) =
            (out.clone(), out.clone(), out_2.clone(), out_2.clone());
        let (g1, g2) = (n.value(tame), n.value(tame));
        t.at(
            "Svf::process_add_dual_buffer",
            format!(
                "{w:?} {p:?} {g1:?} {g2:?} {} in, {} and {} out",
                input.len(),
                out.len(),
                out_2.len()
            ),
        );
        a.process_add_dual_buffer(&input, &mut x, &mut x2, g1, g2, p);
        b.process_add_dual_buffer(&input, &mut y, &mut y2, g1, g2, q);
        t.words("the first place", &x, &y);
        t.words("the second place", &x2, &y2);
        t.words("the field", &a.fields(), &b.fields());

        let mut b = proved::Svf::from_fields(w);
        let mut y = out.clone();
        t.at("Svf, refused", format!("{w:?} {p:?}"));
        t.refusal(10, number(&b.process_stride_buffer(&input, &mut y, 0, q)));
        t.stays("the field", &w, &b.fields());
        t.stays("the place", &out, &y);
        let (mut state, mut z) = (w, out_2.clone());
        let (bad, by) = (unknown(n, LAST_MODE), unknown(n, LAST_APPROXIMATION));
        let (l, o) = (input.len(), out.len());
        let (i, yp, zp) = (input.as_ptr(), y.as_mut_ptr(), z.as_mut_ptr());
        let (mut o1, mut o2) = (3.0f32, 4.0f32);
        unsafe {
            t.refusal(UNKNOWN, ffi::svf_process(&mut state, 1.0, bad, &mut o1));
            t.refusal(
                UNKNOWN,
                ffi::svf_process_dual(&mut state, 1.0, &mut o1, &mut o2, bad, k as u32),
            );
            t.refusal(
                UNKNOWN,
                ffi::svf_process_dual(&mut state, 1.0, &mut o1, &mut o2, k as u32, bad),
            );
            t.refusal(
                UNKNOWN,
                ffi::svf_process_buffer(&mut state, i, l, yp, o, bad),
            );
            t.refusal(
                UNKNOWN,
                ffi::svf_process_add_buffer(&mut state, i, l, yp, o, 1.0, bad),
            );
            t.refusal(
                UNKNOWN,
                ffi::svf_process_stride_buffer(&mut state, i, l, yp, o, 0, bad),
            );
            t.refusal(
                UNKNOWN,
                ffi::svf_process_add_dual_buffer(
                    &mut state,
                    i,
                    l,
                    yp,
                    o,
                    zp,
                    z.len(),
                    1.0,
                    1.0,
                    bad,
                ),
            );
            t.refusal(UNKNOWN, ffi::svf_set_f_q(&mut state, -1.0, 1.0, by));
            t.refusal(11, ffi::svf_set_f_q(&mut state, -1.0, 1.0, 0));
        }
        t.stays("the field", &w, &state);
        t.stays("the output", &[3.0, 4.0], &[o1, o2]);
        t.stays("the place", &out, &y);
        t.stays("the second place", &out_2, &z);
    }
}

fn naive(n: &mut Numbers, t: &mut Tally, tame: bool) {
    let w = n.words::<4>(tame);
    same!(t, NaiveSvf, w, "init", init());
    same!(t, NaiveSvf, w, "reset", reset());
    let (a, b) = pair!(NaiveSvf, w);
    t.at("NaiveSvf::lp, bp", format!("{w:?}"));
    t.words("lp, bp", &[a.lp(), a.bp()], &[b.lp(), b.bp()]);
    for by in APPROXIMATIONS {
        naive_at(t, w, setting(n), n.any(), by);
    }
    naive_by_series(t, w, setting(n), n.any());
    for (k, (p, q)) in MODES.into_iter().enumerate() {
        let (mut a, mut b) = pair!(NaiveSvf, w);
        t.at("NaiveSvf::process", format!("{w:?} {p:?}"));
        for _ in 0..8 {
            let x = n.value(tame);
            t.words("the output", &[a.process(x, p)], &[b.process(x, q)]);
            t.words("the field", &a.fields(), &b.fields());
        }
        let input = {
            let l = n.length();
            n.buffer(l, tame)
        };
        let out = {
            let l = n.length();
            n.buffer(l, false)
        };
        let high = {
            let l = n.length();
            n.buffer(l, false)
        };

        let (mut a, mut b) = pair!(NaiveSvf, w);
        let (mut x, mut y) = (out.clone(), out.clone());
        t.at(
            "NaiveSvf::process_buffer",
            format!("{w:?} {p:?} {} in, {} out", input.len(), out.len()),
        );
        a.process_buffer(&input, &mut x, p);
        b.process_buffer(&input, &mut y, q);
        t.words("the place", &x, &y);
        t.words("the field", &a.fields(), &b.fields());

        let (mut a, mut b) = pair!(NaiveSvf, w);
        let (mut x, mut y, mut x2, mut y2) = (out.clone(), out.clone(), high.clone(), high.clone());
        t.at(
            "NaiveSvf::split",
            format!(
                "{w:?} {} in, {} low, {} high",
                input.len(),
                out.len(),
                high.len()
            ),
        );
        a.split(&input, &mut x, &mut x2);
        b.split(&input, &mut y, &mut y2);
        t.words("the low place", &x, &y);
        t.words("the high place", &x2, &y2);
        t.words("the field", &a.fields(), &b.fields());

        let (mut a, mut b) = pair!(NaiveSvf, w);
        let (mut x, mut y) = (out.clone(), out.clone());
        let decimate = n.step(input.len().min(out.len()));
        t.at(
            "NaiveSvf::process_decimate",
            format!(
                "{w:?} {p:?} {decimate} {} in, {} out",
                input.len(),
                out.len()
            ),
        );
        a.process_decimate(&input, &mut x, decimate, p);
        t.refusal(0, number(&b.process_decimate(&input, &mut y, decimate, q)));
        t.words("the place", &x, &y);
        t.words("the field", &a.fields(), &b.fields());

        let mut b = proved::NaiveSvf::from_fields(w);
        let mut y = out.clone();
        t.at("NaiveSvf, refused", format!("{w:?} {p:?}"));
        t.refusal(10, number(&b.process_decimate(&input, &mut y, 0, q)));
        t.stays("the field", &w, &b.fields());
        let (mut state, mut o1) = (w, 3.0f32);
        let (bad, by) = (unknown(n, LAST_MODE), unknown(n, LAST_APPROXIMATION));
        let (l, o, i, yp) = (input.len(), out.len(), input.as_ptr(), y.as_mut_ptr());
        unsafe {
            t.refusal(
                UNKNOWN,
                ffi::naive_svf_process(&mut state, 1.0, bad, &mut o1),
            );
            t.refusal(
                UNKNOWN,
                ffi::naive_svf_process_buffer(&mut state, i, l, yp, o, bad),
            );
            t.refusal(
                UNKNOWN,
                ffi::naive_svf_process_decimate(&mut state, i, l, yp, o, k, bad),
            );
            t.refusal(UNKNOWN, ffi::naive_svf_set_f_q(&mut state, -1.0, 1.0, by));
            t.refusal(11, ffi::naive_svf_set_f_q(&mut state, -1.0, 1.0, 0));
        }
        t.stays("the field", &w, &state);
        t.stays("the output", &[3.0], &[o1]);
        t.stays("the place", &out, &y);
    }
}

macro_rules! chamberlin {
    ($fn:ident, $type:ident, $words:literal, $process:path) => {
        fn $fn(n: &mut Numbers, t: &mut Tally, tame: bool) {
            let w = n.words::<$words>(tame);
            same!(t, $type, w, "init", init());
            same!(t, $type, w, "reset", reset());
            let (f, fq) = (n.any(), n.any());
            same!(t, $type, w, "set_f_fq", set_f_fq(f, fq));
            for (p, q) in MODES {
                let input = {
                    let l = n.length();
                    n.buffer(l, tame)
                };
                let out = {
                    let l = n.length();
                    n.buffer(l, false)
                };
                let (mut a, mut b) = pair!($type, w);
                let (mut x, mut y) = (out.clone(), out.clone());
                t.at(
                    concat!(stringify!($type), "::process"),
                    format!("{w:?} {p:?} {} in, {} out", input.len(), out.len()),
                );
                a.process(&input, &mut x, p);
                b.process(&input, &mut y, q);
                t.words("the place", &x, &y);
                t.words("the field", &a.fields(), &b.fields());

                let (mut state, mut y, bad) = (w, out.clone(), unknown(n, LAST_MODE));
                t.at(
                    concat!(stringify!($type), ", refused"),
                    format!("{w:?} {bad}"),
                );
                t.refusal(UNKNOWN, unsafe {
                    $process(
                        &mut state,
                        input.as_ptr(),
                        input.len(),
                        y.as_mut_ptr(),
                        y.len(),
                        bad,
                    )
                });
                t.stays("the field", &w, &state);
                t.stays("the place", &out, &y);
            }
        }
    };
}

chamberlin!(modified, ModifiedSvf, 5, ffi::modified_svf_process);
chamberlin!(crossover, CrossoverSvf, 8, ffi::crossover_svf_process);

// Code that is written for filter.rs, on the source's types and on ours.
mod on_source {
    use judge::oracle::*;
    include!("../../../../bindings/rust/tests/user/filters_in_use.rs");
}

mod on_ours {
    use judge::proved::filter::*;
    include!("../../../../bindings/rust/tests/user/filters_in_use.rs");
}

fn user(n: &mut Numbers, t: &mut Tally, tame: bool) {
    let length = n.below(33) as usize;
    let input = n.buffer(length, tame);
    let (f, resonance) = if tame {
        (n.frequency(), 1.0 + n.frequency())
    } else {
        (setting(n), n.any())
    };
    // Their code would panic at what is refused.
    let f = if f < oracle::EXACT_LOWEST { -f } else { f };
    let step = n.step(length);
    for (p, q) in APPROXIMATIONS {
        t.at(
            "a user's code",
            format!("{input:?} {f:?} {resonance:?} {step} {p:?}"),
        );
        t.words(
            "the answer",
            &on_source::answers(&input, f, resonance, step, p),
            &on_ours::answers(&input, f, resonance, step, q),
        );
    }
}

// The source's signatures and text, on both sides.
fn signatures(t: &mut Tally) {
    on_source::signatures();
    on_ours::signatures();
    t.at("a user's code", String::new());
    let (a, b) = (on_source::shown(), on_ours::shown());
    if a != b {
        t.fail("its Debug text", a, b);
    }
    t.count(1);
}

fn random(seed: u64, rounds: u64) {
    let start = Instant::now();
    let mut n = Numbers(seed);
    let mut t = Tally {
        counts: BTreeMap::new(),
        method: "",
        what: String::new(),
    };
    news(&mut t);
    signatures(&mut t);
    mirrored(&mut n, &mut t);
    for round in 0..rounds {
        let tame = round % 2 == 0;
        dc_blocker(&mut n, &mut t, tame);
        one_pole(&mut n, &mut t, tame);
        svf(&mut n, &mut t, tame);
        naive(&mut n, &mut t, tame);
        modified(&mut n, &mut t, tame);
        crossover(&mut n, &mut t, tame);
        user(&mut n, &mut t, tame);
    }
    for (method, count) in &t.counts {
        println!("{method:32} {count:>10}");
    }
    let total: u64 = t.counts.values().sum();
    println!(
        "compare: {total} values equal, {} rows, seed {seed}, {:.1} s",
        t.counts.len(),
        start.elapsed().as_secs_f64()
    );
}

// All words in one approximation: the source's answer, or the refusal.
fn every_word(
    name: &str,
    refusal: impl Fn(f32) -> u8 + Sync,
    ours: impl Fn(f32) -> Result<f32, Refusal> + Sync,
    theirs: impl Fn(f32) -> f32 + Sync,
) -> u64 {
    let start = Instant::now();
    let half = |from: u64, to: u64| {
        let mut refused = 0u64;
        for word in from..to {
            let f = f32::from_bits(word as u32);
            let got = ours(f);
            let right = if refusal(f) != 0 {
                refused += 1;
                got == Err(Refusal::Frequency)
            } else {
                matches!(got, Ok(x) if bits(x) == bits(theirs(f)))
            };
            if !right {
                println!("{name} at {word:08x}: {got:?}, expected {:?}", theirs(f));
                std::process::exit(1);
            }
        }
        refused
    };
    // Each half has words of both signs, so that the threads end together.
    let quarter = 1u64 << 30;
    let refused = std::thread::scope(|s| {
        let other = s.spawn(|| half(quarter, 2 * quarter) + half(3 * quarter, 4 * quarter));
        half(0, quarter) + half(2 * quarter, 3 * quarter) + other.join().unwrap()
    });
    println!(
        "{name}: 4294967296 words, of them {refused} refused, {:.0} s",
        start.elapsed().as_secs_f64()
    );
    1 << 32
}

fn full() {
    let start = Instant::now();
    let mut total = 0;
    for (p, q) in APPROXIMATIONS {
        total += every_word(
            &format!("OnePole::tan {p:?}"),
            |f| frequency_refusal(f, p),
            |f| proved::OnePole::tan(f, q),
            |f| oracle::OnePole::tan(f, p),
        );
        total += every_word(
            &format!("NaiveSvf::set_f_q {p:?}"),
            |f| frequency_refusal(f, p),
            |f| {
                let mut s = proved::NaiveSvf::from_fields([0.0; 4]);
                s.set_f_q(f, 1.0, q)?;
                Ok(s.fields()[0])
            },
            |f| {
                let mut s = oracle::NaiveSvf::from_fields([0.0; 4]);
                s.set_f_q(f, 1.0, p);
                s.fields()[0]
            },
        );
    }
    total += every_word(
        "one_pole_tan by the series",
        |_| 0,
        |f| {
            let mut value = 0.0;
            match unsafe { ffi::one_pole_tan(f, SERIES, &mut value) } {
                0 => Ok(value),
                _ => Err(Refusal::Frequency),
            }
        },
        |f| oracle::OnePole::tan_in(f, None),
    );
    total += every_word(
        "naive_svf_set_f_q by the series",
        |_| 0,
        |f| {
            let mut state = [0.0; 4];
            match unsafe { ffi::naive_svf_set_f_q(&mut state, f, 1.0, SERIES) } {
                0 => Ok(state[0]),
                _ => Err(Refusal::Frequency),
            }
        },
        |f| {
            let mut s = oracle::NaiveSvf::from_fields([0.0; 4]);
            s.set_f_q_in(f, 1.0, None);
            s.fields()[0]
        },
    );
    println!(
        "compare: {total} values equal, {:.0} s",
        start.elapsed().as_secs_f64()
    );
}

fn main() {
    let args: Vec<String> = std::env::args().skip(1).collect();
    let (mut seed, mut rounds) = (1, 60_000);
    let mut rest = args.iter();
    while let Some(arg) = rest.next() {
        let mut value = || rest.next().and_then(|v| v.parse().ok()).expect("a number");
        match arg.as_str() {
            "--full" => return full(),
            "--seed" => seed = value(),
            "--rounds" => rounds = value(),
            _ => panic!("compare [--seed N] [--rounds N] | compare --full"),
        }
    }
    random(seed, rounds);
}
