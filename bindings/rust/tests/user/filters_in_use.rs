// Code that is written for filter.rs. It has no `use` line: whoever includes it has the types in scope, the source's or this package's.

/// A call by the source's signature, as a value.
pub type Tan = fn(f32, FrequencyApproximation) -> f32;
pub type SetF = fn(&mut OnePole, f32, FrequencyApproximation);
pub type SetFQ<T> = fn(&mut T, f32, f32, FrequencyApproximation);
pub type Stepped<T> = fn(&mut T, &[f32], &mut [f32], usize, FilterMode);
pub type Sample<T> = fn(&mut T, f32, FilterMode) -> f32;
pub type Buffer<T> = fn(&mut T, &[f32], &mut [f32], FilterMode);
pub type Split<T> = fn(&mut T, &[f32], &mut [f32], &mut [f32]);
pub type Three<T> = fn(&mut T, f32, f32, f32);
pub type Two<T> = fn(&mut T, f32, f32);
pub type Set<T> = fn(&mut T);
pub type Get<T> = fn(&T) -> f32;

/// Every method of the six filters at the source's type: that this compiles is the test.
#[allow(clippy::type_complexity)]
pub fn signatures() {
    let _: (fn() -> DcBlocker, fn(&mut DcBlocker, f32)) = (DcBlocker::new, DcBlocker::init);
    let _: fn(&mut DcBlocker, &mut [f32]) = DcBlocker::process;

    let _: (fn() -> OnePole, Sample<OnePole>) = (OnePole::new, OnePole::process);
    let _: [Set<OnePole>; 2] = [OnePole::init, OnePole::reset];
    let _: (Tan, SetF) = (OnePole::tan, OnePole::set_f);

    let _: (fn() -> Svf, fn(&mut Svf, &Svf)) = (Svf::new, Svf::set);
    let _: [Set<Svf>; 2] = [Svf::init, Svf::reset];
    let _: (Three<Svf>, SetFQ<Svf>) = (Svf::set_g_r_h, Svf::set_f_q);
    let _: [Two<Svf>; 2] = [Svf::set_g_r, Svf::set_g_q];
    let _: (Sample<Svf>, Buffer<Svf>) = (Svf::process, Svf::process_buffer);
    let _: fn(&mut Svf, f32, &mut f32, &mut f32, FilterMode, FilterMode) = Svf::process_dual;
    let _: fn(&mut Svf, &[f32], &mut [f32], f32, FilterMode) = Svf::process_add_buffer;
    let _: Stepped<Svf> = Svf::process_stride_buffer;
    let _: fn(&mut Svf, &[f32], &mut [f32], f32) = Svf::process_multimode_buffer;
    let _: fn(&mut Svf, &[f32], &mut [f32], &mut [f32], f32, f32, FilterMode) =
        Svf::process_add_dual_buffer;
    let _: [Get<Svf>; 3] = [Svf::g, Svf::r, Svf::h];

    let _: (fn() -> NaiveSvf, Sample<NaiveSvf>) = (NaiveSvf::new, NaiveSvf::process);
    let _: [Set<NaiveSvf>; 2] = [NaiveSvf::init, NaiveSvf::reset];
    let _: (SetFQ<NaiveSvf>, Buffer<NaiveSvf>) = (NaiveSvf::set_f_q, NaiveSvf::process_buffer);
    let _: (Split<NaiveSvf>, Stepped<NaiveSvf>) = (NaiveSvf::split, NaiveSvf::process_decimate);
    let _: [Get<NaiveSvf>; 2] = [NaiveSvf::lp, NaiveSvf::bp];

    let _: (fn() -> ModifiedSvf, Two<ModifiedSvf>) = (ModifiedSvf::new, ModifiedSvf::set_f_fq);
    let _: [Set<ModifiedSvf>; 2] = [ModifiedSvf::init, ModifiedSvf::reset];
    let _: Buffer<ModifiedSvf> = ModifiedSvf::process;

    let _: (fn() -> CrossoverSvf, Two<CrossoverSvf>) = (CrossoverSvf::new, CrossoverSvf::set_f_fq);
    let _: [Set<CrossoverSvf>; 2] = [CrossoverSvf::init, CrossoverSvf::reset];
    let _: Buffer<CrossoverSvf> = CrossoverSvf::process;
}

/// The six calls that this package can refuse, held in a struct.
pub struct Calls {
    pub tan: Tan,
    pub set_f: SetF,
    pub set_f_q: SetFQ<Svf>,
    pub naive_set_f_q: SetFQ<NaiveSvf>,
    pub stride: Stepped<Svf>,
    pub decimate: Stepped<NaiveSvf>,
}

pub const CALLS: Calls = Calls {
    tan: OnePole::tan,
    set_f: OnePole::set_f,
    set_f_q: Svf::set_f_q,
    naive_set_f_q: NaiveSvf::set_f_q,
    stride: Svf::process_stride_buffer,
    decimate: NaiveSvf::process_decimate,
};

/// What filters of one sample have in common.
pub trait Voice: Default + Clone + std::fmt::Debug {
    fn start(&mut self);
    fn tune(&mut self, f: f32, resonance: f32, approximation: FrequencyApproximation);
    fn tick(&mut self, x: f32, mode: FilterMode) -> f32;

    fn started() -> Self {
        let mut voice = Self::default();
        voice.start();
        voice
    }
}

impl Voice for OnePole {
    fn start(&mut self) {
        self.init()
    }

    fn tune(&mut self, f: f32, _: f32, approximation: FrequencyApproximation) {
        self.set_f(f, approximation)
    }

    fn tick(&mut self, x: f32, mode: FilterMode) -> f32 {
        self.process(x, mode)
    }
}

macro_rules! voices {
    ($($type:ident),+) => {
        $(impl Voice for $type {
            fn start(&mut self) {
                self.init()
            }

            fn tune(&mut self, f: f32, resonance: f32, approximation: FrequencyApproximation) {
                self.set_f_q(f, resonance, approximation)
            }

            fn tick(&mut self, x: f32, mode: FilterMode) -> f32 {
                self.process(x, mode)
            }
        })+
    };
}

voices!(Svf, NaiveSvf);

/// Over any filter of one sample.
pub fn sing<V: Voice>(voice: &mut V, input: &[f32], mode: FilterMode) -> Vec<f32> {
    input.iter().map(|x| voice.tick(*x, mode)).collect()
}

/// Over any call of one sample: a method by its path, or a closure.
pub fn each<T>(filter: &mut T, input: &[f32], call: impl Fn(&mut T, f32) -> f32) -> Vec<f32> {
    input.iter().map(|x| call(filter, *x)).collect()
}

/// Filters in a struct that derives what they derive.
#[derive(Debug, Default, Clone)]
pub struct Channel {
    pub dc: DcBlocker,
    pub smooth: OnePole,
    pub tone: Svf,
    pub naive: NaiveSvf,
    pub modified: ModifiedSvf,
    pub crossover: [CrossoverSvf; 2],
}

impl Channel {
    pub fn start(&mut self, f: f32, resonance: f32) {
        self.dc.init(0.995);
        self.smooth.init();
        self.tone.init();
        self.naive.init();
        self.modified.init();
        self.modified.set_f_fq(f, resonance);
        for pass in &mut self.crossover {
            pass.init();
            pass.set_f_fq(f, resonance);
        }
    }

    pub fn clear(&mut self) {
        self.smooth.reset();
        self.tone.reset();
        self.naive.reset();
        self.modified.reset();
        self.crossover.iter_mut().for_each(CrossoverSvf::reset);
    }

    // The last call is the answer of an arm, and the match that of the function: they have none.
    pub fn tune(&mut self, f: f32, resonance: f32, approximation: FrequencyApproximation) {
        self.smooth.set_f(f, approximation);
        match approximation {
            FrequencyApproximation::Exact => self.tone.set_f_q(f, resonance, approximation),
            FrequencyApproximation::Accurate => self.tone.set_g_q(self.smooth_g(f), resonance),
            FrequencyApproximation::Fast => self.naive.set_f_q(f, resonance, approximation),
            FrequencyApproximation::Dirty => self.tone.set_g_r(self.tone.h(), self.tone.r()),
        }
    }

    // An answer used in a sum.
    fn smooth_g(&self, f: f32) -> f32 {
        OnePole::tan(f, FrequencyApproximation::Fast) + self.tone.g() * 0.5
    }
}

pub const MODES: [FilterMode; 4] = [
    FilterMode::LowPass,
    FilterMode::BandPass,
    FilterMode::BandPassNormalized,
    FilterMode::HighPass,
];

/// What every method answers and writes, over some input; f is not below -0.497 and the step is not 0.
pub fn answers(
    input: &[f32],
    f: f32,
    resonance: f32,
    step: usize,
    approximation: FrequencyApproximation,
) -> Vec<f32> {
    let mut all = Vec::new();
    let mut channel = Channel::default();
    channel.start(f, resonance);
    channel.tune(f, resonance, approximation);
    let Channel {
        mut dc,
        mut smooth,
        mut tone,
        mut naive,
        mut modified,
        crossover: [mut low, mut high],
    } = channel.clone();

    let mut out = input.to_vec();
    dc.process(&mut out);
    all.extend(&out);
    for mode in MODES {
        all.extend(sing(&mut smooth, input, mode));
        all.extend(sing(&mut tone, input, mode));
        all.extend(sing(&mut naive, input, mode));
        all.extend(each(&mut tone.clone(), input, |s, x| s.process(x, mode)));

        let (mut one, mut two) = (input.to_vec(), vec![0.5; input.len() / 2]);
        tone.process_buffer(input, &mut two, mode);
        tone.process_add_buffer(input, &mut one, resonance, mode);
        all.extend(one.iter().chain(&two));
        tone.process_add_dual_buffer(input, &mut one, &mut two, f, resonance, mode);
        all.extend(one.iter().chain(&two));
        tone.process_multimode_buffer(input, &mut one, f);
        (CALLS.stride)(&mut tone, input, &mut two, step, mode);
        all.extend(one.iter().chain(&two));
        let (mut first, mut second) = (0.0, 0.0);
        tone.process_dual(f, &mut first, &mut second, mode, FilterMode::HighPass);
        all.extend([first, second]);

        naive.process_buffer(input, &mut two, mode);
        (CALLS.decimate)(&mut naive, input, &mut one, step, mode);
        all.extend(one.iter().chain(&two));
        naive.split(input, &mut one, &mut two);
        all.extend(one.iter().chain(&two));
        modified.process(input, &mut one, mode);
        low.process(input, &mut two, mode);
        high.process(input, &mut out, FilterMode::HighPass);
        all.extend(one.iter().chain(&two).chain(&out));
        all.extend([naive.lp(), naive.bp()]);
    }

    let tan = (CALLS.tan)(f, approximation);
    (CALLS.set_f)(&mut smooth, f, approximation);
    (CALLS.set_f_q)(&mut tone, f, resonance, approximation);
    (CALLS.naive_set_f_q)(&mut naive, f, resonance, approximation);
    all.extend([tan, tone.g(), tone.r(), tone.h()]);
    tone.set_g_r_h(f, resonance, tan);
    channel.tone.set(&tone);
    channel.clear();
    all.extend([channel.tone.g(), channel.tone.r(), channel.tone.h()]);
    let mut voice = Svf::started();
    voice.tune(f, resonance, approximation);
    all.extend(each(&mut voice, input, |s, x| Svf::tick(s, x, FilterMode::BandPass)));
    all
}

/// The text of the filters, before and after they ran.
pub fn shown() -> String {
    let mut channel = Channel::default();
    let before = format!("{channel:?}");
    channel.start(0.1, 2.0);
    channel.tune(0.1, 2.0, FrequencyApproximation::Fast);
    channel.smooth.process(1.0, FilterMode::LowPass);
    channel.tone.process(1.0, FilterMode::LowPass);
    format!("{before}\n{channel:#?}")
}
