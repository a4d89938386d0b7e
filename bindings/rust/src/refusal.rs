use std::fmt;

/// Why a call was refused. It changed nothing. Further calls may bring further cases, so a match needs an arm for the rest.
///
/// ```
/// use motif_filters::{FrequencyApproximation, OnePole, Refusal};
///
/// let refused = OnePole::tan(-0.5, FrequencyApproximation::Exact);
/// assert_eq!(refused, Err(Refusal::Frequency));
/// assert_eq!(Refusal::Frequency.number(), 11);
/// ```
#[derive(Debug, Clone, Copy, PartialEq, Eq)]
#[non_exhaustive]
pub enum Refusal {
    /// 10: a stride or a decimation of 0.
    Step,
    /// 11: `Exact` with a frequency below -0.497, which itself is taken.
    Frequency,
    /// 12: an output of fewer bytes than the input.
    Short,
    /// 19: an input that ends within a sample: its length is not a multiple of 4.
    Partial,
}

impl Refusal {
    /// The refusal's number.
    pub fn number(&self) -> u8 {
        match self {
            Self::Step => 10,
            Self::Frequency => 11,
            Self::Short => 12,
            Self::Partial => 19,
        }
    }

    // What a call answered: 0, or a refusal's number.
    #[inline]
    pub(crate) fn of(number: u8) -> Result<(), Self> {
        match number {
            0 => Ok(()),
            10 => Err(Self::Step),
            11 => Err(Self::Frequency),
            12 => Err(Self::Short),
            19 => Err(Self::Partial),
            // 100 names an unknown mode or approximation, which the enums cannot hold.
            _ => unreachable!("refusal {number}"),
        }
    }
}

impl fmt::Display for Refusal {
    fn fmt(&self, f: &mut fmt::Formatter<'_>) -> fmt::Result {
        match self {
            Self::Step => write!(f, "step: a stride or a decimation of 0"),
            Self::Frequency => write!(f, "frequency: Exact with a frequency below -0.497"),
            Self::Short => write!(f, "short: an output of fewer bytes than the input"),
            Self::Partial => write!(f, "partial: an input that ends within a sample"),
        }
    }
}

impl std::error::Error for Refusal {}
