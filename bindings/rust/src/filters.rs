use crate::ffi;
use crate::Refusal;

/// Which output of a filter is answered.
///
/// ```
/// use motif_filters::{FilterMode, Svf};
///
/// let mut filter = Svf::new();
/// filter.set_g_r_h(1.0, 1.0, 0.25);
/// assert_eq!(filter.process(1.0, FilterMode::LowPass), 0.25);
/// ```
#[derive(Debug, Clone, Copy, PartialEq, Eq)]
pub enum FilterMode {
    /// What lies below the frequency.
    LowPass,
    /// What lies around it.
    BandPass,
    /// The band, times the filter's damping.
    BandPassNormalized,
    /// What lies above it.
    HighPass,
}

/// How a frequency, as a part of the sampling rate, becomes a coefficient. These are the source's four, so that a `match` on them that is
/// written for `filter.rs` has every case. There is a fifth in sheets of edition 2 and in C (`MOTIF_SERIES`), and none here. How true the
/// tangent is in each: docs/PRECISION.md.
///
/// ```
/// use motif_filters::{FrequencyApproximation, OnePole};
///
/// let exact = OnePole::tan(0.1, FrequencyApproximation::Exact).unwrap();
/// let fast = OnePole::tan(0.1, FrequencyApproximation::Fast).unwrap();
/// assert!((exact - fast).abs() < 0.01);
/// ```
#[derive(Debug, Clone, Copy, PartialEq, Eq)]
pub enum FrequencyApproximation {
    /// The series of Abramowitz and Stegun, and below 0 the negative of the value at -f. The frequency is clipped at 0.497, and below -0.497
    /// it is refused. A filter that is set below 0 grows from sample to sample, unless its resonance is below 0 too.
    Exact,
    /// The source's polynomial of degree 11, without one coefficient of its series, as the source has it.
    Accurate,
    /// Fitted to 16 Hz to 16 kHz at a sampling rate of 48 kHz.
    Fast,
    /// For frequencies below 8 kHz.
    Dirty,
}

// A filter as the array of its fields, in their order, which is how the exported functions take it: `repr(C)` lays it out so.
macro_rules! fields {
    ($type:ident, $n:literal, $($field:ident),+) => {
        impl $type {
            #[inline]
            fn state(&mut self) -> *mut [f32; $n] {
                (self as *mut Self).cast()
            }

            #[doc(hidden)]
            pub fn from_fields(w: [f32; $n]) -> Self {
                let [$($field),+] = w;
                Self { $($field),+ }
            }

            #[doc(hidden)]
            pub fn fields(&self) -> [f32; $n] {
                [$(self.$field),+]
            }
        }
    };
}

/// Blocks what is constant in a signal, in place.
#[repr(C)]
#[derive(Debug, Default, Clone)]
pub struct DcBlocker {
    pole: f32,
    x: f32,
    y: f32,
}

fields!(DcBlocker, 3, pole, x, y);

impl DcBlocker {
    /// All fields 0.
    #[inline]
    pub fn new() -> Self {
        let mut filter = Self::default();
        unsafe { ffi::dc_blocker_new(filter.state()) };
        filter
    }

    /// Sets the pole and clears the retained samples.
    #[inline]
    pub fn init(&mut self, pole: f32) {
        unsafe { ffi::dc_blocker_init(self.state(), pole) }
    }

    /// ```
    /// let mut filter = motif_filters::DcBlocker::new();
    /// filter.init(0.5);
    /// let mut samples = [1.0, 1.0, 0.0];
    /// filter.process(&mut samples);
    /// assert_eq!(samples, [1.0, 0.5, -0.75]);
    /// ```
    #[inline]
    pub fn process(&mut self, in_out: &mut [f32]) {
        unsafe { ffi::dc_blocker_process(self.state(), in_out.as_mut_ptr(), in_out.len()) }
    }
}

/// Zero-delay-feedback one-pole filter.
#[repr(C)]
#[derive(Debug, Default, Clone)]
pub struct OnePole {
    g: f32,
    gi: f32,
    state: f32,
}

fields!(OnePole, 3, g, gi, state);

impl OnePole {
    /// All fields 0.
    #[inline]
    pub fn new() -> Self {
        let mut filter = Self::default();
        unsafe { ffi::one_pole_new(filter.state()) };
        filter
    }

    /// Frequency 0.01 by `Dirty`, and the state cleared.
    #[inline]
    pub fn init(&mut self) {
        unsafe { ffi::one_pole_init(self.state()) }
    }

    /// Clears the state.
    #[inline]
    pub fn reset(&mut self) {
        unsafe { ffi::one_pole_reset(self.state()) }
    }

    /// tan (π f). `Exact` refuses an f below -0.497.
    ///
    /// ```
    /// use motif_filters::{FrequencyApproximation, OnePole};
    ///
    /// let t = OnePole::tan(0.25, FrequencyApproximation::Exact)?;
    /// assert!((t - 1.0).abs() < 1e-6);
    /// assert_eq!(OnePole::tan(-0.25, FrequencyApproximation::Exact)?, -t);
    /// assert!(OnePole::tan(-0.5, FrequencyApproximation::Exact).is_err());
    /// assert!(OnePole::tan(-0.5, FrequencyApproximation::Dirty)? < 0.0);
    /// # Ok::<(), motif_filters::Refusal>(())
    /// ```
    #[inline]
    pub fn tan(f: f32, approximation: FrequencyApproximation) -> Result<f32, Refusal> {
        let mut value = 0.0;
        Refusal::of(unsafe { ffi::one_pole_tan(f, approximation as u32, &mut value) })?;
        Ok(value)
    }

    /// Sets the frequency; the state stays. `Exact` refuses an f below -0.497.
    #[inline]
    pub fn set_f(&mut self, f: f32, approximation: FrequencyApproximation) -> Result<(), Refusal> {
        Refusal::of(unsafe { ffi::one_pole_set_f(self.state(), f, approximation as u32) })
    }

    /// One sample. Both band-pass modes answer 0.0 while the state moves on.
    ///
    /// ```
    /// use motif_filters::{FilterMode, FrequencyApproximation, OnePole};
    ///
    /// let mut filter = OnePole::new();
    /// filter.set_f(0.25, FrequencyApproximation::Exact)?;
    /// let low = filter.process(1.0, FilterMode::LowPass);
    /// assert!((low - 0.5).abs() < 1e-6);
    /// # Ok::<(), motif_filters::Refusal>(())
    /// ```
    #[inline]
    pub fn process(&mut self, in_: f32, mode: FilterMode) -> f32 {
        let mut out = 0.0;
        unsafe { ffi::one_pole_process(self.state(), in_, mode as u32, &mut out) };
        out
    }
}

/// Zero-delay-feedback state-variable filter.
#[repr(C)]
#[derive(Debug, Default, Clone)]
pub struct Svf {
    g: f32,
    r: f32,
    h: f32,
    state_1: f32,
    state_2: f32,
}

fields!(Svf, 5, g, r, h, state_1, state_2);

impl Svf {
    /// All fields 0.
    #[inline]
    pub fn new() -> Self {
        let mut filter = Self::default();
        unsafe { ffi::svf_new(filter.state()) };
        filter
    }

    /// Frequency 0.01 and resonance 100.0 by `Dirty`, and the state cleared.
    #[inline]
    pub fn init(&mut self) {
        unsafe { ffi::svf_init(self.state()) }
    }

    /// Clears the state.
    #[inline]
    pub fn reset(&mut self) {
        unsafe { ffi::svf_reset(self.state()) }
    }

    /// The settings of another filter; the state stays.
    #[inline]
    pub fn set(&mut self, f: &Self) {
        unsafe { ffi::svf_set(self.state(), (f as *const Self).cast()) }
    }

    /// Sets all three coefficients.
    #[inline]
    pub fn set_g_r_h(&mut self, g: f32, r: f32, h: f32) {
        unsafe { ffi::svf_set_g_r_h(self.state(), g, r, h) }
    }

    /// Sets the frequency and resonance coefficients, and h from them.
    #[inline]
    pub fn set_g_r(&mut self, g: f32, r: f32) {
        unsafe { ffi::svf_set_g_r(self.state(), g, r) }
    }

    /// Sets the frequency coefficient and the resonance, and the rest from them.
    #[inline]
    pub fn set_g_q(&mut self, g: f32, resonance: f32) {
        unsafe { ffi::svf_set_g_q(self.state(), g, resonance) }
    }

    /// Sets the frequency, as a part of the sampling rate, and the resonance. `Exact` refuses an f below -0.497.
    ///
    /// ```
    /// use motif_filters::{FrequencyApproximation, Refusal, Svf};
    ///
    /// let mut filter = Svf::new();
    /// assert!(filter.set_f_q(0.1, 2.0, FrequencyApproximation::Exact).is_ok());
    /// assert_eq!(filter.r(), 0.5);
    /// assert_eq!(filter.set_f_q(-0.5, 1.0, FrequencyApproximation::Exact), Err(Refusal::Frequency));
    /// assert_eq!(filter.r(), 0.5);
    /// ```
    #[inline]
    pub fn set_f_q(
        &mut self,
        f: f32,
        resonance: f32,
        approximation: FrequencyApproximation,
    ) -> Result<(), Refusal> {
        Refusal::of(unsafe { ffi::svf_set_f_q(self.state(), f, resonance, approximation as u32) })
    }

    /// One sample.
    #[inline]
    pub fn process(&mut self, in_: f32, mode: FilterMode) -> f32 {
        let mut out = 0.0;
        unsafe { ffi::svf_process(self.state(), in_, mode as u32, &mut out) };
        out
    }

    /// One sample, answered in two modes.
    ///
    /// ```
    /// use motif_filters::{FilterMode, Svf};
    ///
    /// let mut filter = Svf::new();
    /// filter.set_g_r_h(1.0, 1.0, 0.25);
    /// let (mut low, mut high) = (0.0, 0.0);
    /// filter.process_dual(1.0, &mut low, &mut high, FilterMode::LowPass, FilterMode::HighPass);
    /// assert_eq!((low, high), (0.25, 0.25));
    /// ```
    #[inline]
    pub fn process_dual(
        &mut self,
        in_: f32,
        out_1: &mut f32,
        out_2: &mut f32,
        mode_1: FilterMode,
        mode_2: FilterMode,
    ) {
        unsafe {
            ffi::svf_process_dual(
                self.state(),
                in_,
                out_1,
                out_2,
                mode_1 as u32,
                mode_2 as u32,
            )
        };
    }

    /// A buffer of samples.
    ///
    /// ```
    /// use motif_filters::{FilterMode, Svf};
    ///
    /// let mut filter = Svf::new();
    /// filter.set_g_r_h(1.0, 1.0, 0.25);
    /// let mut output = [9.0; 3];
    /// filter.process_buffer(&[1.0, 0.0], &mut output, FilterMode::LowPass);
    /// assert_eq!(output, [0.25, 0.625, 9.0]);
    /// ```
    #[inline]
    pub fn process_buffer(&mut self, in_: &[f32], out: &mut [f32], mode: FilterMode) {
        unsafe {
            ffi::svf_process_buffer(
                self.state(),
                in_.as_ptr(),
                in_.len(),
                out.as_mut_ptr(),
                out.len(),
                mode as u32,
            )
        };
    }

    /// A buffer of samples, each times a gain. The output is overwritten, and nothing is added, as the source does.
    ///
    /// ```
    /// use motif_filters::{FilterMode, Svf};
    ///
    /// let mut filter = Svf::new();
    /// filter.set_g_r_h(1.0, 1.0, 0.25);
    /// let mut output = [9.0; 2];
    /// filter.process_add_buffer(&[1.0, 0.0], &mut output, 2.0, FilterMode::LowPass);
    /// assert_eq!(output, [0.5, 1.25]);
    /// ```
    #[inline]
    pub fn process_add_buffer(
        &mut self,
        in_: &[f32],
        out: &mut [f32],
        gain: f32,
        mode: FilterMode,
    ) {
        unsafe {
            ffi::svf_process_add_buffer(
                self.state(),
                in_.as_ptr(),
                in_.len(),
                out.as_mut_ptr(),
                out.len(),
                gain,
                mode as u32,
            )
        };
    }

    /// Filters and writes the places 0, stride, 2 stride .. only; the samples between do not reach the filter. A stride of 0 is refused.
    ///
    /// ```
    /// use motif_filters::{FilterMode, Refusal, Svf};
    ///
    /// let mut filter = Svf::new();
    /// filter.set_g_r_h(1.0, 1.0, 0.25);
    /// let mut output = [7.0; 3];
    /// filter.process_stride_buffer(&[1.0, 9.0, 0.0], &mut output, 2, FilterMode::LowPass)?;
    /// assert_eq!(output, [0.25, 7.0, 0.625]);
    /// let refused = filter.process_stride_buffer(&[1.0], &mut output, 0, FilterMode::LowPass);
    /// assert_eq!(refused, Err(Refusal::Step));
    /// # Ok::<(), Refusal>(())
    /// ```
    #[inline]
    pub fn process_stride_buffer(
        &mut self,
        in_: &[f32],
        out: &mut [f32],
        stride: usize,
        mode: FilterMode,
    ) -> Result<(), Refusal> {
        Refusal::of(unsafe {
            ffi::svf_process_stride_buffer(
                self.state(),
                in_.as_ptr(),
                in_.len(),
                out.as_mut_ptr(),
                out.len(),
                stride,
                mode as u32,
            )
        })
    }

    /// A buffer of samples in a mode between others: low-pass at 0, the high-pass inverted (times -1) at 0.5, band-pass at 1.
    ///
    /// ```
    /// let mut filter = motif_filters::Svf::new();
    /// filter.set_g_r_h(1.0, 1.0, 0.25);
    /// let mut output = [0.0];
    /// filter.process_multimode_buffer(&[1.0], &mut output, 0.5);
    /// assert_eq!(output, [-0.25]);
    /// ```
    #[inline]
    pub fn process_multimode_buffer(&mut self, in_: &[f32], out: &mut [f32], mode: f32) {
        unsafe {
            ffi::svf_process_multimode_buffer(
                self.state(),
                in_.as_ptr(),
                in_.len(),
                out.as_mut_ptr(),
                out.len(),
                mode,
            )
        }
    }

    /// A buffer of samples into two outputs, each with a gain. Both are overwritten.
    ///
    /// ```
    /// use motif_filters::{FilterMode, Svf};
    ///
    /// let mut filter = Svf::new();
    /// filter.set_g_r_h(1.0, 1.0, 0.25);
    /// let (mut one, mut two) = ([0.0; 2], [0.0; 1]);
    /// filter.process_add_dual_buffer(&[1.0, 0.0], &mut one, &mut two, 1.0, 4.0, FilterMode::LowPass);
    /// assert_eq!((one, two), ([0.25, 0.0], [1.0]));
    /// ```
    #[inline]
    pub fn process_add_dual_buffer(
        &mut self,
        in_: &[f32],
        out_1: &mut [f32],
        out_2: &mut [f32],
        gain_1: f32,
        gain_2: f32,
        mode: FilterMode,
    ) {
        unsafe {
            ffi::svf_process_add_dual_buffer(
                self.state(),
                in_.as_ptr(),
                in_.len(),
                out_1.as_mut_ptr(),
                out_1.len(),
                out_2.as_mut_ptr(),
                out_2.len(),
                gain_1,
                gain_2,
                mode as u32,
            )
        };
    }

    /// The frequency coefficient.
    #[inline]
    pub fn g(&self) -> f32 {
        unsafe { ffi::svf_g((self as *const Self).cast()) }
    }

    /// One over the resonance.
    #[inline]
    pub fn r(&self) -> f32 {
        unsafe { ffi::svf_r((self as *const Self).cast()) }
    }

    /// 1 / (1 + r g + g g), where the setter computes it.
    #[inline]
    pub fn h(&self) -> f32 {
        unsafe { ffi::svf_h((self as *const Self).cast()) }
    }
}

/// Naive Chamberlin state-variable filter.
#[repr(C)]
#[derive(Debug, Default, Clone)]
pub struct NaiveSvf {
    f: f32,
    damp: f32,
    lp: f32,
    bp: f32,
}

fields!(NaiveSvf, 4, f, damp, lp, bp);

impl NaiveSvf {
    /// All fields 0.
    #[inline]
    pub fn new() -> Self {
        let mut filter = Self::default();
        unsafe { ffi::naive_svf_new(filter.state()) };
        filter
    }

    /// Frequency 0.01 and resonance 100.0 by `Dirty`, and the state cleared.
    #[inline]
    pub fn init(&mut self) {
        unsafe { ffi::naive_svf_init(self.state()) }
    }

    /// Clears the state.
    #[inline]
    pub fn reset(&mut self) {
        unsafe { ffi::naive_svf_reset(self.state()) }
    }

    /// Sets the frequency, as a part of the sampling rate, and the resonance. `Exact` clips at 0.497 and refuses an f below -0.497; the
    /// three others clip at 0.158 and are the same.
    ///
    /// ```
    /// use motif_filters::{FrequencyApproximation, NaiveSvf};
    ///
    /// let mut filter = NaiveSvf::new();
    /// filter.set_f_q(0.1, 1.0, FrequencyApproximation::Exact)?;
    /// filter.set_f_q(-0.1, 1.0, FrequencyApproximation::Exact)?;
    /// assert!(filter.set_f_q(-0.5, 1.0, FrequencyApproximation::Exact).is_err());
    /// # Ok::<(), motif_filters::Refusal>(())
    /// ```
    #[inline]
    pub fn set_f_q(
        &mut self,
        f: f32,
        resonance: f32,
        approximation: FrequencyApproximation,
    ) -> Result<(), Refusal> {
        Refusal::of(unsafe {
            ffi::naive_svf_set_f_q(self.state(), f, resonance, approximation as u32)
        })
    }

    /// One sample. The normalized band is that from before the update, times damp.
    #[inline]
    pub fn process(&mut self, in_: f32, mode: FilterMode) -> f32 {
        let mut out = 0.0;
        unsafe { ffi::naive_svf_process(self.state(), in_, mode as u32, &mut out) };
        out
    }

    /// The retained low-pass output.
    #[inline]
    pub fn lp(&self) -> f32 {
        unsafe { ffi::naive_svf_lp((self as *const Self).cast()) }
    }

    /// The retained band-pass output.
    #[inline]
    pub fn bp(&self) -> f32 {
        unsafe { ffi::naive_svf_bp((self as *const Self).cast()) }
    }

    /// A buffer of samples.
    ///
    /// ```
    /// use motif_filters::{FilterMode, FrequencyApproximation, NaiveSvf};
    ///
    /// let mut filter = NaiveSvf::new();
    /// filter.set_f_q(0.05, 1.0, FrequencyApproximation::Dirty)?;
    /// let mut output = [0.0; 4];
    /// filter.process_buffer(&[1.0, 0.0, 0.0, 0.0], &mut output, FilterMode::LowPass);
    /// assert_eq!(output[0], 0.0);
    /// assert_eq!(output[3], filter.lp());
    /// # Ok::<(), motif_filters::Refusal>(())
    /// ```
    #[inline]
    pub fn process_buffer(&mut self, in_: &[f32], out: &mut [f32], mode: FilterMode) {
        unsafe {
            ffi::naive_svf_process_buffer(
                self.state(),
                in_.as_ptr(),
                in_.len(),
                out.as_mut_ptr(),
                out.len(),
                mode as u32,
            )
        };
    }

    /// A buffer of samples, its low-pass and its high-pass output.
    ///
    /// ```
    /// use motif_filters::{FrequencyApproximation, NaiveSvf};
    ///
    /// let mut filter = NaiveSvf::new();
    /// filter.set_f_q(0.05, 1.0, FrequencyApproximation::Dirty)?;
    /// let (mut low, mut high) = ([9.0; 2], [9.0; 3]);
    /// filter.split(&[1.0, 0.0, 0.0], &mut low, &mut high);
    /// assert_eq!((low[0], high[0], high[2]), (0.0, 1.0, 9.0));
    /// # Ok::<(), motif_filters::Refusal>(())
    /// ```
    #[inline]
    pub fn split(&mut self, in_: &[f32], low: &mut [f32], high: &mut [f32]) {
        unsafe {
            ffi::naive_svf_split(
                self.state(),
                in_.as_ptr(),
                in_.len(),
                low.as_mut_ptr(),
                low.len(),
                high.as_mut_ptr(),
                high.len(),
            )
        }
    }

    /// Filters every sample and writes the places 0, decimate, 2 decimate .. only, each at its own place. The phase begins anew at each
    /// call. A decimation of 0 is refused.
    ///
    /// ```
    /// use motif_filters::{FilterMode, NaiveSvf, Refusal};
    ///
    /// let mut filter = NaiveSvf::new();
    /// let mut output = [7.0; 3];
    /// filter.process_decimate(&[1.0; 3], &mut output, 2, FilterMode::HighPass)?;
    /// assert_eq!(output, [1.0, 7.0, 1.0]);
    /// let refused = filter.process_decimate(&[1.0; 3], &mut output, 0, FilterMode::HighPass);
    /// assert_eq!(refused, Err(Refusal::Step));
    /// # Ok::<(), Refusal>(())
    /// ```
    #[inline]
    pub fn process_decimate(
        &mut self,
        in_: &[f32],
        out: &mut [f32],
        decimate: usize,
        mode: FilterMode,
    ) -> Result<(), Refusal> {
        Refusal::of(unsafe {
            ffi::naive_svf_process_decimate(
                self.state(),
                in_.as_ptr(),
                in_.len(),
                out.as_mut_ptr(),
                out.len(),
                decimate,
                mode as u32,
            )
        })
    }
}

/// Modified Chamberlin state-variable filter (Duane K. Wise).
#[repr(C)]
#[derive(Debug, Default, Clone)]
pub struct ModifiedSvf {
    f: f32,
    fq: f32,
    x: f32,
    lp: f32,
    bp: f32,
}

fields!(ModifiedSvf, 5, f, fq, x, lp, bp);

impl ModifiedSvf {
    /// All fields 0.
    #[inline]
    pub fn new() -> Self {
        let mut filter = Self::default();
        unsafe { ffi::modified_svf_new(filter.state()) };
        filter
    }

    /// As [`ModifiedSvf::reset`].
    #[inline]
    pub fn init(&mut self) {
        unsafe { ffi::modified_svf_init(self.state()) }
    }

    /// Clears the state, but not the last sample.
    #[inline]
    pub fn reset(&mut self) {
        unsafe { ffi::modified_svf_reset(self.state()) }
    }

    /// Sets the coefficients and clears the last sample. For a frequency φ, as a part of the sampling rate, f is 2 sin (π φ), and fq is f
    /// over the resonance.
    #[inline]
    pub fn set_f_fq(&mut self, f: f32, fq: f32) {
        unsafe { ffi::modified_svf_set_f_fq(self.state(), f, fq) }
    }

    /// A buffer of samples.
    ///
    /// ```
    /// use motif_filters::{FilterMode, ModifiedSvf};
    ///
    /// let mut filter = ModifiedSvf::new();
    /// filter.set_f_fq(0.5, 0.5);
    /// let mut output = [0.0; 2];
    /// filter.process(&[1.0, 0.0], &mut output, FilterMode::BandPass);
    /// assert_eq!(output, [0.5, 0.625]);
    /// ```
    #[inline]
    pub fn process(&mut self, in_: &[f32], out: &mut [f32], mode: FilterMode) {
        unsafe {
            ffi::modified_svf_process(
                self.state(),
                in_.as_ptr(),
                in_.len(),
                out.as_mut_ptr(),
                out.len(),
                mode as u32,
            )
        };
    }
}

/// Two passes of the modified Chamberlin filter with the same coefficients, for Linkwitz-Riley (Butterworth squared) crossovers.
#[repr(C)]
#[derive(Debug, Default, Clone)]
pub struct CrossoverSvf {
    f: f32,
    fq: f32,
    x: [f32; 2],
    lp: [f32; 2],
    bp: [f32; 2],
}

impl CrossoverSvf {
    #[inline]
    fn state(&mut self) -> *mut [f32; 8] {
        (self as *mut Self).cast()
    }

    #[doc(hidden)]
    pub fn from_fields(w: [f32; 8]) -> Self {
        Self {
            f: w[0],
            fq: w[1],
            x: [w[2], w[3]],
            lp: [w[4], w[5]],
            bp: [w[6], w[7]],
        }
    }

    #[doc(hidden)]
    pub fn fields(&self) -> [f32; 8] {
        let Self { f, fq, x, lp, bp } = self;
        [*f, *fq, x[0], x[1], lp[0], lp[1], bp[0], bp[1]]
    }

    /// All fields 0.
    #[inline]
    pub fn new() -> Self {
        let mut filter = Self::default();
        unsafe { ffi::crossover_svf_new(filter.state()) };
        filter
    }

    /// As [`CrossoverSvf::reset`].
    #[inline]
    pub fn init(&mut self) {
        unsafe { ffi::crossover_svf_init(self.state()) }
    }

    /// Clears the state and the last samples.
    #[inline]
    pub fn reset(&mut self) {
        unsafe { ffi::crossover_svf_reset(self.state()) }
    }

    /// Sets the coefficients, which are as those of [`ModifiedSvf::set_f_fq`]; the last samples stay.
    #[inline]
    pub fn set_f_fq(&mut self, f: f32, fq: f32) {
        unsafe { ffi::crossover_svf_set_f_fq(self.state(), f, fq) }
    }

    /// A buffer of samples.
    ///
    /// ```
    /// use motif_filters::{CrossoverSvf, FilterMode};
    ///
    /// let mut filter = CrossoverSvf::new();
    /// filter.set_f_fq(0.5, 0.5);
    /// let mut output = [0.0];
    /// filter.process(&[1.0], &mut output, FilterMode::HighPass);
    /// assert_eq!(output, [0.25]);
    /// ```
    #[inline]
    pub fn process(&mut self, in_: &[f32], out: &mut [f32], mode: FilterMode) {
        unsafe {
            ffi::crossover_svf_process(
                self.state(),
                in_.as_ptr(),
                in_.len(),
                out.as_mut_ptr(),
                out.len(),
                mode as u32,
            )
        };
    }
}
