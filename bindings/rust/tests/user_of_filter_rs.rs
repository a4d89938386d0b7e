//! Code that is written for filter.rs, with this package's `use` line. tools/compare runs the same code on the source's types too, and
//! compares what it answers.

use motif_filters::filter::{NaiveSvf, OnePole, Svf};
use motif_filters::{FilterMode, FrequencyApproximation};
use std::panic::{catch_unwind, AssertUnwindSafe};
use user::CALLS;

mod user {
    use motif_filters::filter::*;
    include!("user/filters_in_use.rs");
}

const EXACT: FrequencyApproximation = FrequencyApproximation::Exact;

// The number next below -0.497, the lowest frequency that Exact takes.
const BELOW: f32 = -0.49700004;
const LOW: FilterMode = FilterMode::LowPass;

#[test]
fn every_signature_is_the_sources() {
    user::signatures();
}

#[test]
fn a_users_code_runs() {
    let input = [1.0, 0.0, -0.5, 0.25, 0.0, 0.0, 1.0, 0.0];
    for approximation in [
        EXACT,
        FrequencyApproximation::Accurate,
        FrequencyApproximation::Fast,
        FrequencyApproximation::Dirty,
    ] {
        let answers = user::answers(&input, 0.1, 0.7, 2, approximation);
        assert_eq!(answers[0], 1.0);
        assert!(answers.iter().all(|x| x.is_finite()));
    }
}

#[test]
fn debug_is_the_sources() {
    let shown = user::shown();
    let before = "Channel { dc: DcBlocker { pole: 0.0, x: 0.0, y: 0.0 }, smooth: OnePole { g: 0.0, gi: 0.0, state: 0.0 }, \
                  tone: Svf { g: 0.0, r: 0.0, h: 0.0, state_1: 0.0, state_2: 0.0 }, naive: NaiveSvf { f: 0.0, damp: 0.0, lp: 0.0, bp: 0.0 }, ";
    assert!(shown.starts_with(before), "{shown}");
    assert!(shown.contains("\n    tone: Svf {\n        g: "), "{shown}");
}

// The words of a refusal, and that the filter and the output are as they were.
fn refused<T: Clone + std::fmt::Debug>(filter: T, call: impl Fn(&mut T, &mut [f32])) -> String {
    let (mut after, mut out) = (filter.clone(), [7.0; 2]);
    let panic = catch_unwind(AssertUnwindSafe(|| call(&mut after, &mut out))).unwrap_err();
    assert_eq!(out, [7.0; 2]);
    assert_eq!(format!("{after:?}"), format!("{filter:?}"));
    *panic.downcast::<String>().unwrap()
}

#[test]
fn a_refused_call_changes_nothing() {
    let (mut one_pole, mut svf, mut naive) = (OnePole::new(), Svf::new(), NaiveSvf::new());
    one_pole.init();
    svf.init();
    naive.init();
    let frequency = "frequency: Exact with a frequency below -0.497";
    let step = "step: a stride or a decimation of 0";
    assert_eq!(
        refused(one_pole, |s, _| s.set_f(BELOW, EXACT)),
        format!("OnePole::set_f: {frequency}")
    );
    assert_eq!(
        refused(svf.clone(), |s, _| s.set_f_q(BELOW, 1.0, EXACT)),
        format!("Svf::set_f_q: {frequency}")
    );
    assert_eq!(
        refused(naive.clone(), |s, _| s.set_f_q(BELOW, 1.0, EXACT)),
        format!("NaiveSvf::set_f_q: {frequency}")
    );
    assert_eq!(
        refused(svf, |s, y| s.process_stride_buffer(&[1.0; 2], y, 0, LOW)),
        format!("Svf::process_stride_buffer: {step}")
    );
    assert_eq!(
        refused(naive, |s, y| s.process_decimate(&[1.0; 2], y, 0, LOW)),
        format!("NaiveSvf::process_decimate: {step}")
    );
}

#[test]
#[should_panic(expected = "OnePole::tan: frequency: Exact with a frequency below -0.497")]
fn tan_panics() {
    (CALLS.tan)(BELOW, EXACT);
}

#[test]
#[should_panic(expected = "OnePole::set_f: frequency: Exact with a frequency below -0.497")]
fn set_f_panics() {
    (CALLS.set_f)(&mut OnePole::new(), BELOW, EXACT);
}

#[test]
#[should_panic(expected = "Svf::set_f_q: frequency: Exact with a frequency below -0.497")]
fn set_f_q_panics() {
    (CALLS.set_f_q)(&mut Svf::new(), BELOW, 1.0, EXACT);
}

#[test]
#[should_panic(expected = "NaiveSvf::set_f_q: frequency: Exact with a frequency below -0.497")]
fn naive_set_f_q_panics() {
    (CALLS.naive_set_f_q)(&mut NaiveSvf::new(), BELOW, 1.0, EXACT);
}

#[test]
#[should_panic(expected = "Svf::process_stride_buffer: step: a stride or a decimation of 0")]
fn stride_panics() {
    (CALLS.stride)(&mut Svf::new(), &[1.0], &mut [0.0], 0, LOW);
}

#[test]
#[should_panic(expected = "NaiveSvf::process_decimate: step: a stride or a decimation of 0")]
fn decimate_panics() {
    (CALLS.decimate)(&mut NaiveSvf::new(), &[1.0], &mut [0.0], 0, LOW);
}

#[test]
fn what_is_not_below_the_lowest_is_accepted() {
    assert_eq!(OnePole::tan(-0.0, EXACT).to_bits(), (-0.0f32).to_bits());
    assert!(OnePole::tan(f32::NAN, EXACT) > 1.0);
    assert!(OnePole::tan(BELOW, FrequencyApproximation::Dirty) < 0.0);
    for f in [0.497, 0.3, 0.25, 0.158, f32::from_bits(1)] {
        assert_eq!(OnePole::tan(-f, EXACT), -OnePole::tan(f, EXACT));
        let (mut down, mut up) = (
            motif_filters::NaiveSvf::new(),
            motif_filters::NaiveSvf::new(),
        );
        assert_eq!(down.set_f_q(-f, 1.0, EXACT), Ok(()));
        assert_eq!(up.set_f_q(f, 1.0, EXACT), Ok(()));
        assert_eq!(down.fields()[0], -up.fields()[0]);
        Svf::new().set_f_q(-f, 1.0, EXACT);
        OnePole::new().set_f(-f, EXACT);
    }
}

#[test]
fn the_two_kinds_convert() {
    let mut svf = Svf::new();
    svf.set_g_r_h(1.0, 1.0, 0.25);
    let mut answers: motif_filters::Svf = svf.clone().into();
    assert_eq!(svf.process(1.0, LOW), answers.process(1.0, LOW));
    assert_eq!(answers.fields(), [1.0, 1.0, 0.25, 0.5, 0.5]);
    let back = Svf::from(answers.clone());
    assert_eq!(motif_filters::Svf::from(back).fields(), answers.fields());
}
