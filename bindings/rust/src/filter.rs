//! The filters with the signatures of `filter.rs`, for code that is written for it: one `use` line changes, and nothing else.
//!
//! ```
//! use motif_filters::filter::{FilterMode, FrequencyApproximation, Svf};
//!
//! let mut filter = Svf::new();
//! filter.set_f_q(0.1, 0.7, FrequencyApproximation::Fast);
//! assert!(filter.process(1.0, FilterMode::LowPass) > 0.0);
//! ```
//!
//! Six calls can be refused, and the source's signatures have no place for a refusal. At the top of the crate these six answer a `Result`;
//! here they panic with the refusal's words, and the filter and the buffers stay as they were. This module is for code that never calls so:
//!
//! | call | panics here | the source, called so |
//! |---|---|---|
//! | [`OnePole::tan`], [`OnePole::set_f`], [`Svf::set_f_q`] | `Exact` with f below -0.497 | does not panic: takes the tangent, unclipped, and goes on with it |
//! | [`NaiveSvf::set_f_q`] | `Exact` with f below -0.497 | does not panic: takes the sine, unclipped, and goes on with it |
//! | [`Svf::process_stride_buffer`] | a stride of 0 | panics |
//! | [`NaiveSvf::process_decimate`] | a decimation of 0 | panics where overflow is checked; elsewhere filters every sample and writes the first place only |
//!
//! -0.497 itself is taken; a NaN is taken for 0.497. `Exact` is a series here, and the platform's tangent or sine in the source: the last
//! bits differ. All else is equal bit for bit, but for the sign and payload of a NaN.
//!
//! `OnePole`, `Svf` and `NaiveSvf` have types of their own here, which convert to those at the top of the crate and back. The other three
//! filters and the enums are the same types in both places.
//!
//! ```
//! use motif_filters::{filter, FilterMode};
//!
//! let mut panics = filter::Svf::new();
//! panics.set_g_r_h(1.0, 1.0, 0.25);
//! let mut answers = motif_filters::Svf::from(panics.clone());
//! assert_eq!(panics.process(1.0, FilterMode::LowPass), answers.process(1.0, FilterMode::LowPass));
//! let again: filter::Svf = answers.into();
//! assert_eq!(format!("{again:?}"), format!("{panics:?}"));
//! ```

use crate::Refusal;
pub use crate::{CrossoverSvf, DcBlocker, FilterMode, FrequencyApproximation, ModifiedSvf};
use std::fmt;

// A type over that of the same name at the top of the crate, with a method for each signature. What is marked `or panics` answers a
// `Result` there.
macro_rules! filter {
    (
        $(#[$attribute:meta])*
        $type:ident {
            $(fn $name:ident $parameters:tt $(-> $answer:ty)? $(, or $panics:ident)?;)+
        }
    ) => {
        $(#[$attribute])*
        #[derive(Default, Clone)]
        #[repr(transparent)]
        pub struct $type(crate::$type);

        impl $type {
            $(method!($type $name $parameters [$($answer)?] $($panics)?);)+
        }

        // The name and the fields, as the source's derived one writes them: nothing of the type below shows.
        impl fmt::Debug for $type {
            fn fmt(&self, f: &mut fmt::Formatter<'_>) -> fmt::Result {
                self.0.fmt(f)
            }
        }

        impl From<crate::$type> for $type {
            #[inline]
            fn from(filter: crate::$type) -> Self {
                Self(filter)
            }
        }

        impl From<$type> for crate::$type {
            #[inline]
            fn from(filter: $type) -> Self {
                filter.0
            }
        }
    };
}

// How a method forwards, by its parameters and by whether it panics.
macro_rules! method {
    ($type:ident $name:ident () [$answer:ty]) => {
        forward!($type $name () [$answer] Self(crate::$type::$name()));
    };
    ($type:ident $name:ident (&mut $self:ident, $other:ident: &Self) []) => {
        forward!($type $name (&mut $self, $other: &Self) [] $self.0.$name(&$other.0));
    };
    ($type:ident $name:ident (&$self:ident) [$answer:ty]) => {
        forward!($type $name (&$self) [$answer] $self.0.$name());
    };
    ($type:ident $name:ident (&mut $self:ident $(, $a:ident: $t:ty)*) [$($answer:ty)?]) => {
        forward!($type $name (&mut $self $(, $a: $t)*) [$($answer)?] $self.0.$name($($a),*));
    };
    ($type:ident $name:ident (&mut $self:ident $(, $a:ident: $t:ty)*) [] panics) => {
        forward!($type $name (&mut $self $(, $a: $t)*) [] $self.0.$name($($a),*), panics);
    };
    ($type:ident $name:ident ($($a:ident: $t:ty),*) [$answer:ty] panics) => {
        forward!($type $name ($($a: $t),*) [$answer] crate::$type::$name($($a),*), panics);
    };
}

macro_rules! forward {
    ($type:ident $name:ident ($($parameters:tt)*) [$($answer:ty)?] $call:expr) => {
        #[doc = concat!("As [`crate::", stringify!($type), "::", stringify!($name), "`].")]
        #[inline]
        pub fn $name($($parameters)*) $(-> $answer)? {
            $call
        }
    };
    ($type:ident $name:ident ($($parameters:tt)*) [$($answer:ty)?] $call:expr, panics) => {
        #[doc = concat!("As [`crate::", stringify!($type), "::", stringify!($name), "`]; panics where that is refused.")]
        #[inline]
        #[track_caller]
        pub fn $name($($parameters)*) $(-> $answer)? {
            match $call {
                Ok(answer) => answer,
                Err(refusal) => refused(concat!(stringify!($type), "::", stringify!($name)), refusal),
            }
        }
    };
}

#[cold]
#[track_caller]
fn refused(call: &str, refusal: Refusal) -> ! {
    panic!("{call}: {refusal}")
}

filter! {
    /// Zero-delay-feedback one-pole filter.
    OnePole {
        fn new() -> Self;
        fn init(&mut self);
        fn reset(&mut self);
        fn tan(f: f32, approximation: FrequencyApproximation) -> f32, or panics;
        fn set_f(&mut self, f: f32, approximation: FrequencyApproximation), or panics;
        fn process(&mut self, in_: f32, mode: FilterMode) -> f32;
    }
}

filter! {
    /// Zero-delay-feedback state-variable filter.
    Svf {
        fn new() -> Self;
        fn init(&mut self);
        fn reset(&mut self);
        fn set(&mut self, f: &Self);
        fn set_g_r_h(&mut self, g: f32, r: f32, h: f32);
        fn set_g_r(&mut self, g: f32, r: f32);
        fn set_g_q(&mut self, g: f32, resonance: f32);
        fn set_f_q(&mut self, f: f32, resonance: f32, approximation: FrequencyApproximation), or panics;
        fn process(&mut self, in_: f32, mode: FilterMode) -> f32;
        fn process_dual(&mut self, in_: f32, out_1: &mut f32, out_2: &mut f32, mode_1: FilterMode, mode_2: FilterMode);
        fn process_buffer(&mut self, in_: &[f32], out: &mut [f32], mode: FilterMode);
        fn process_add_buffer(&mut self, in_: &[f32], out: &mut [f32], gain: f32, mode: FilterMode);
        fn process_stride_buffer(&mut self, in_: &[f32], out: &mut [f32], stride: usize, mode: FilterMode), or panics;
        fn process_multimode_buffer(&mut self, in_: &[f32], out: &mut [f32], mode: f32);
        fn process_add_dual_buffer(&mut self, in_: &[f32], out_1: &mut [f32], out_2: &mut [f32], gain_1: f32, gain_2: f32, mode: FilterMode);
        fn g(&self) -> f32;
        fn r(&self) -> f32;
        fn h(&self) -> f32;
    }
}

filter! {
    /// Naive Chamberlin state-variable filter.
    NaiveSvf {
        fn new() -> Self;
        fn init(&mut self);
        fn reset(&mut self);
        fn set_f_q(&mut self, f: f32, resonance: f32, approximation: FrequencyApproximation), or panics;
        fn process(&mut self, in_: f32, mode: FilterMode) -> f32;
        fn lp(&self) -> f32;
        fn bp(&self) -> f32;
        fn process_buffer(&mut self, in_: &[f32], out: &mut [f32], mode: FilterMode);
        fn split(&mut self, in_: &[f32], low: &mut [f32], high: &mut [f32]);
        fn process_decimate(&mut self, in_: &[f32], out: &mut [f32], decimate: usize, mode: FilterMode), or panics;
    }
}
