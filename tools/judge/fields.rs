
// A filter made from its fields, in their order, and read as them: the fields are private to this file.
macro_rules! fields {
    ($type:ident, $n:literal, $($field:ident),+) => {
        impl $type {
            pub fn from_fields(w: [f32; $n]) -> Self {
                let [$($field),+] = w;
                Self { $($field),+ }
            }

            pub fn fields(&self) -> [f32; $n] {
                [$(self.$field),+]
            }
        }
    };
}

fields!(DcBlocker, 3, pole, x, y);
fields!(OnePole, 3, g, gi, state);
fields!(Svf, 5, g, r, h, state_1, state_2);
fields!(NaiveSvf, 4, f, damp, lp, bp);
fields!(ModifiedSvf, 5, f, fq, x, lp, bp);

impl CrossoverSvf {
    pub fn from_fields(w: [f32; 8]) -> Self {
        Self {
            f: w[0],
            fq: w[1],
            x: [w[2], w[3]],
            lp: [w[4], w[5]],
            bp: [w[6], w[7]],
        }
    }

    pub fn fields(&self) -> [f32; 8] {
        let Self { f, fq, x, lp, bp } = self;
        [*f, *fq, x[0], x[1], lp[0], lp[1], bp[0], bp[1]]
    }
}
