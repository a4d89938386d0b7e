
// The series of documents 01 and 02 c, which stand for the two calls that filter.rs has no body for, and 02 a's approximation 4, which it
// does not have.
mod series {
    const M_PI_F: f32 = f32::from_bits(0x40490FDB);

    // Abramowitz and Stegun 4.3.101.
    fn t(x: f32) -> f32 {
        let y = x * x;
        x * (1.0
            + y * (0.3333314036
                + y * (0.1333923995
                    + y * (0.0533740603
                        + y * (0.0245650893 + y * (0.0029005250 + y * 0.0095168091))))))
    }

    fn tangent_from_zero(f: f32) -> f32 {
        if f <= 0.25 {
            t(M_PI_F * f)
        } else {
            1.0 / t(M_PI_F * (0.5 - f))
        }
    }

    // Abramowitz and Stegun 4.3.97.
    fn sine_from_zero(f: f32) -> f32 {
        let x = M_PI_F * f;
        let y = x * x;
        x * (1.0
            + y * (-0.1666666664
                + y * (0.0083333315
                    + y * (-0.0001984090 + y * (0.0000027526 + y * -0.0000000239)))))
    }

    // Document 02 c: both are odd.
    fn odd(g: fn(f32) -> f32, f: f32) -> f32 {
        if f < 0.0 {
            -g(-f)
        } else {
            g(f)
        }
    }

    // Document 02 a: the same series at every frequency.
    #[inline]
    pub fn whole(f: f32) -> f32 {
        t(M_PI_F * f)
    }

    #[inline]
    pub fn tangent(f: f32) -> f32 {
        odd(tangent_from_zero, f)
    }

    #[inline]
    pub fn sine(f: f32) -> f32 {
        odd(sine_from_zero, f)
    }
}

/// An approximation: one of the source's four, or none of them for 02 a's approximation 4.
pub type Approximation = Option<FrequencyApproximation>;

// The tangent and the setters in all five. In approximation 4 they go by the source's own setters where it has one that takes a tangent.
impl OnePole {
    pub fn tan_in(f: f32, approximation: Approximation) -> f32 {
        match approximation {
            Some(p) => Self::tan(f, p),
            None => series::whole(f),
        }
    }

    pub fn set_f_in(&mut self, f: f32, approximation: Approximation) {
        match approximation {
            Some(p) => self.set_f(f, p),
            None => {
                self.g = series::whole(f);
                self.gi = 1.0 / (1.0 + self.g);
            }
        }
    }
}

impl Svf {
    pub fn set_f_q_in(&mut self, f: f32, resonance: f32, approximation: Approximation) {
        match approximation {
            Some(p) => self.set_f_q(f, resonance, p),
            None => self.set_g_q(series::whole(f), resonance),
        }
    }
}

impl NaiveSvf {
    // Clipped as in all but Exact.
    pub fn set_f_q_in(&mut self, f: f32, resonance: f32, approximation: Approximation) {
        let p = approximation.unwrap_or(FrequencyApproximation::Dirty);
        self.set_f_q(f, resonance, p);
    }
}

/// The lowest frequency that Exact takes (document 02 c): what is below it has no answer to be compared with.
pub const EXACT_LOWEST: f32 = -0.497;

/// Frequencies below 0 where Exact changes its mind, and what stands beside them.
pub const MIRRORED: [u32; 15] = [
    0xBEFE_76C8,
    0xBEFE_76C9, // -0.497, the lowest that it takes
    0xBEFE_76CA,
    0xBE7F_FFFF,
    0xBE80_0000, // -0.25, where the tangent turns
    0xBE80_0001,
    0xBE21_CAC0,
    0xBE21_CAC1, // -0.158
    0xBE21_CAC2,
    0x8000_0000, // -0.0, which is not below 0
    0x8000_0001, // the smallest numbers below it
    0x8000_0002,
    0x807F_FFFF,
    0x8080_0000,
    0xBF00_0000, // -0.5, which is below all
];
