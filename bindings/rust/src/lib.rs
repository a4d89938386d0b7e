//! Zero-delay-feedback filters (one pole and SVF), the naive and the modified Chamberlin SVF, a crossover of two passes, and a DC blocker:
//! the types and methods of `filter.rs`, by functions that are proved to compute the source's equations bit for bit. Only `Exact` differs from
//! the source, in the last bits: it is a series here, and the platform's `tan` or `sin` there.
//!
//! Code that is written for `filter.rs` compiles as it is with `use motif_filters::filter::..` in the place of its `use` line: the module
//! [`filter`] has the source's signatures, and panics where a call is refused. At the top of the crate the six calls of the filters that
//! can be refused answer a `Result` instead, and nothing panics. A refused call leaves the filter and the buffers as they were:
//!
//! | call | refused |
//! |---|---|
//! | [`OnePole::tan`], [`OnePole::set_f`], [`Svf::set_f_q`], [`NaiveSvf::set_f_q`] | [`Refusal::Frequency`]: `Exact` with f below -0.497 |
//! | [`Svf::process_stride_buffer`], [`NaiveSvf::process_decimate`] | [`Refusal::Step`]: a step of 0 |
//!
//! The module [`planes`] arranges samples for storage; what its calls refuse stands there.
//!
//! A buffer form works over the shortest of the buffers that it is lent. Later places keep their contents.
//!
//! ```
//! use motif_filters::{FilterMode, FrequencyApproximation, Svf};
//!
//! let mut filter = Svf::new();
//! filter.set_f_q(0.1, 0.7, FrequencyApproximation::Exact)?;
//! let input = [1.0, 0.0, 0.0, 0.0];
//! let mut output = [0.0; 4];
//! filter.process_buffer(&input, &mut output, FilterMode::LowPass);
//! assert!(output[0] > 0.0 && output[1] > output[0]);
//! # Ok::<(), motif_filters::Refusal>(())
//! ```

#![warn(missing_docs)]

#[doc(hidden)]
#[allow(missing_docs)]
pub mod ffi;
pub mod filter;
mod filters;
pub mod planes;
mod refusal;

pub use filters::{
    CrossoverSvf, DcBlocker, FilterMode, FrequencyApproximation, ModifiedSvf, NaiveSvf, OnePole,
    Svf,
};
pub use refusal::Refusal;
