//! The filters of the oracle, and what an item of a kept list does to one.

use oracle::{
    CrossoverSvf, DcBlocker, FilterMode, FrequencyApproximation, ModifiedSvf, NaiveSvf, OnePole,
    Svf,
};

#[derive(Clone)]
pub enum Filter {
    Dc(DcBlocker),
    OnePole(OnePole),
    Svf(Svf),
    Naive(NaiveSvf),
    Modified(ModifiedSvf),
    Crossover(CrossoverSvf),
}

#[derive(Clone, Copy, PartialEq)]
pub enum Mode {
    Low,
    Band,
    Normalized,
    High,
}

impl Mode {
    fn source(self) -> FilterMode {
        match self {
            Mode::Low => FilterMode::LowPass,
            Mode::Band => FilterMode::BandPass,
            Mode::Normalized => FilterMode::BandPassNormalized,
            Mode::High => FilterMode::HighPass,
        }
    }
}

#[derive(Clone, Copy)]
pub enum Form {
    Plain(Mode),
    Gain(Mode, f32),
    Stride(Mode, u64),
    Multimode(f32),
    Decimate(Mode, u64),
    Gains(Mode, f32, f32),
    Pair(Mode, Mode),
    Split,
}

impl Form {
    pub fn name(&self) -> &'static str {
        match self {
            Form::Plain(_) => "plain",
            Form::Gain(..) => "gain",
            Form::Stride(..) => "stride",
            Form::Multimode(_) => "multimode",
            Form::Decimate(..) => "decimate",
            Form::Gains(..) => "gains",
            Form::Pair(..) => "pair",
            Form::Split => "split",
        }
    }
}

/// The types in document 01's order, and how many retained numbers each has.
pub const TYPES: [(&str, usize); 6] = [
    ("dc", 3),
    ("onepole", 3),
    ("svf", 5),
    ("naive", 4),
    ("modified", 5),
    ("crossover", 8),
];

/// The type that an entry's kind puts into a head.
pub fn type_of(kind: u8) -> &'static str {
    match kind {
        1 => "dc",
        2 => "onepole",
        3 | 4 => "svf",
        5 => "naive",
        6 => "modified",
        7 => "crossover",
        _ => unreachable!("kind {kind}"),
    }
}

/// The one pattern in which a NaN is written.
pub const NAN: u32 = 0x7FC0_0000;

/// A number's word, every NaN as the one NaN.
pub fn word_of(x: f32) -> u32 {
    if x.is_nan() {
        NAN
    } else {
        x.to_bits()
    }
}

/// Whether a type has a form in a run of one output, or of two.
pub fn has_form(of: &str, outputs: usize, form: &Form) -> bool {
    match (outputs, form) {
        (1, Form::Plain(_)) => true,
        (1, Form::Gain(..) | Form::Stride(..) | Form::Multimode(_)) => of == "svf",
        (1, Form::Decimate(..)) => of == "naive",
        (2, Form::Gains(..) | Form::Pair(..)) => of == "svf",
        (2, Form::Split) => of == "naive",
        _ => false,
    }
}

/// The entry's filter: new, then set.
pub fn loaded(kind: u8, approximation: u8, words: [u32; 3]) -> Filter {
    let [a, b, c] = words.map(f32::from_bits);
    // None is 02 a's approximation 4, which the source does not have.
    let approximation = match approximation {
        0 => Some(FrequencyApproximation::Exact),
        1 => Some(FrequencyApproximation::Accurate),
        2 => Some(FrequencyApproximation::Fast),
        3 => Some(FrequencyApproximation::Dirty),
        4 => None,
        _ => unreachable!("approximation {approximation}"),
    };
    match kind {
        1 => {
            let mut f = DcBlocker::new();
            f.init(a);
            Filter::Dc(f)
        }
        2 => {
            let mut f = OnePole::new();
            f.set_f_in(a, approximation);
            Filter::OnePole(f)
        }
        3 => {
            let mut f = Svf::new();
            f.set_f_q_in(a, b, approximation);
            Filter::Svf(f)
        }
        4 => {
            let mut f = Svf::new();
            f.set_g_r_h(a, b, c);
            Filter::Svf(f)
        }
        5 => {
            let mut f = NaiveSvf::new();
            f.set_f_q_in(a, b, approximation);
            Filter::Naive(f)
        }
        6 => {
            let mut f = ModifiedSvf::new();
            f.set_f_fq(a, b);
            Filter::Modified(f)
        }
        7 => {
            let mut f = CrossoverSvf::new();
            f.set_f_fq(a, b);
            Filter::Crossover(f)
        }
        _ => unreachable!("kind {kind}"),
    }
}

impl Filter {
    /// Runs a form over samples into one output or two, each as long as the samples.
    pub fn run(&mut self, form: &Form, samples: &[f32], outputs: &mut [&mut [f32]]) {
        match (self, form, outputs) {
            (Filter::Dc(f), Form::Plain(_), [out]) => {
                out.copy_from_slice(samples);
                f.process(out);
            }
            (Filter::OnePole(f), Form::Plain(mode), [out]) => {
                for (x, y) in samples.iter().zip(out.iter_mut()) {
                    *y = f.process(*x, mode.source());
                }
            }
            (Filter::Modified(f), Form::Plain(mode), [out]) => {
                f.process(samples, out, mode.source());
            }
            (Filter::Crossover(f), Form::Plain(mode), [out]) => {
                f.process(samples, out, mode.source());
            }
            (Filter::Svf(f), Form::Plain(mode), [out]) => {
                f.process_buffer(samples, out, mode.source());
            }
            (Filter::Svf(f), Form::Gain(mode, gain), [out]) => {
                f.process_add_buffer(samples, out, *gain, mode.source());
            }
            (Filter::Svf(f), Form::Stride(mode, stride), [out]) => {
                f.process_stride_buffer(samples, out, *stride as usize, mode.source());
            }
            (Filter::Svf(f), Form::Multimode(mode), [out]) => {
                f.process_multimode_buffer(samples, out, *mode);
            }
            (Filter::Naive(f), Form::Plain(mode), [out]) => {
                f.process_buffer(samples, out, mode.source());
            }
            (Filter::Naive(f), Form::Decimate(mode, decimate), [out]) => {
                f.process_decimate(samples, out, *decimate as usize, mode.source());
            }
            (Filter::Svf(f), Form::Gains(mode, gain_1, gain_2), [first, second]) => {
                f.process_add_dual_buffer(samples, first, second, *gain_1, *gain_2, mode.source());
            }
            (Filter::Svf(f), Form::Pair(mode_1, mode_2), [first, second]) => {
                for ((x, y), z) in samples.iter().zip(first.iter_mut()).zip(second.iter_mut()) {
                    f.process_dual(*x, y, z, mode_1.source(), mode_2.source());
                }
            }
            (Filter::Naive(f), Form::Split, [first, second]) => {
                f.split(samples, first, second);
            }
            _ => unreachable!("a form that the filter lacks"),
        }
    }

    /// The type's `reset`. The DC blocker has none: its x and y become 0. The modified filter's leaves x, which becomes 0 after it.
    pub fn rest(&mut self) {
        match self {
            Filter::Dc(f) => {
                let [pole, _, _] = f.fields();
                *f = DcBlocker::from_fields([pole, 0.0, 0.0]);
            }
            Filter::OnePole(f) => f.reset(),
            Filter::Svf(f) => f.reset(),
            Filter::Naive(f) => f.reset(),
            Filter::Modified(f) => {
                f.reset();
                let [frequency, damping, _, low, band] = f.fields();
                *f = ModifiedSvf::from_fields([frequency, damping, 0.0, low, band]);
            }
            Filter::Crossover(f) => f.reset(),
        }
    }

    /// The type's name and the words of the retained numbers, in the source's order.
    pub fn words(&self) -> (&'static str, Vec<u32>) {
        fn all(fields: &[f32]) -> Vec<u32> {
            fields.iter().map(|x| word_of(*x)).collect()
        }
        match self {
            Filter::Dc(f) => ("dc", all(&f.fields())),
            Filter::OnePole(f) => ("onepole", all(&f.fields())),
            Filter::Svf(f) => ("svf", all(&f.fields())),
            Filter::Naive(f) => ("naive", all(&f.fields())),
            Filter::Modified(f) => ("modified", all(&f.fields())),
            Filter::Crossover(f) => ("crossover", all(&f.fields())),
        }
    }

    /// The filter of the type with this name and these words, as many as it has.
    pub fn of_words(name: &str, words: &[u32]) -> Filter {
        fn all<const N: usize>(words: &[u32]) -> [f32; N] {
            let words: [u32; N] = words.try_into().expect("as many as the type has");
            words.map(f32::from_bits)
        }
        match name {
            "dc" => Filter::Dc(DcBlocker::from_fields(all(words))),
            "onepole" => Filter::OnePole(OnePole::from_fields(all(words))),
            "svf" => Filter::Svf(Svf::from_fields(all(words))),
            "naive" => Filter::Naive(NaiveSvf::from_fields(all(words))),
            "modified" => Filter::Modified(ModifiedSvf::from_fields(all(words))),
            "crossover" => Filter::Crossover(CrossoverSvf::from_fields(all(words))),
            _ => unreachable!("type {name}"),
        }
    }
}
