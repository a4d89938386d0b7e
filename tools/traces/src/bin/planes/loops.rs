//! Loops in Rust that arrange samples, each as cargo compiles it and as for x86-64-v2, for which Rattle's compiler writes. All take an
//! input of whole samples and an output of as many bytes.

pub type Arrange = fn(&[u8], &mut [u8]);

/// A loop, compiled twice.
#[derive(Clone, Copy)]
pub struct Loop {
    pub plain: Arrange,
    pub for_v2: Arrange,
}

macro_rules! both {
    ($body:ident) => {{
        fn plain(input: &[u8], output: &mut [u8]) {
            $body(input, output)
        }

        fn for_v2(input: &[u8], output: &mut [u8]) {
            #[target_feature(enable = "sse4.2,popcnt,cmpxchg16b")]
            fn compiled(input: &[u8], output: &mut [u8]) {
                $body(input, output)
            }
            // The archive is for such processors alone.
            unsafe { compiled(input, output) }
        }

        Loop { plain, for_v2 }
    }};
}

// ---- the loops that a Rust programmer writes first

#[inline(always)]
fn indexed_to_planes(samples: &[u8], output: &mut [u8]) {
    let n = samples.len() / 4;
    for i in 0..n {
        for p in 0..4 {
            output[p * n + i] = samples[4 * i + p];
        }
    }
}

#[inline(always)]
fn indexed_to_samples(planes: &[u8], output: &mut [u8]) {
    let n = planes.len() / 4;
    for i in 0..n {
        for p in 0..4 {
            output[4 * i + p] = planes[p * n + i];
        }
    }
}

/// To planes, and to samples.
pub const INDEXED: [Loop; 2] = [both!(indexed_to_planes), both!(indexed_to_samples)];

// ---- over a slice for each plane, where no place is checked: as the proved loops are

/// Each sample, with the place of each of its bytes.
macro_rules! places {
    ($samples:ident, $output:ident) => {{
        let n = $samples.len() / 4;
        let (first, rest) = $output.split_at_mut(n);
        let (second, rest) = rest.split_at_mut(n);
        let (third, fourth) = rest.split_at_mut(n);
        let places = first.iter_mut().zip(second).zip(third).zip(fourth);
        $samples.chunks_exact(4).zip(places)
    }};
}

/// Each place of a sample, with its bytes.
macro_rules! bytes {
    ($planes:ident, $output:ident) => {{
        let n = $planes.len() / 4;
        let (first, rest) = $planes.split_at(n);
        let (second, rest) = rest.split_at(n);
        let (third, fourth) = rest.split_at(n);
        let bytes = first.iter().zip(second).zip(third).zip(fourth);
        $output.chunks_exact_mut(4).zip(bytes)
    }};
}

#[inline(always)]
fn word(bytes: &[u8]) -> u32 {
    u32::from_le_bytes(bytes.try_into().unwrap())
}

#[inline(always)]
fn words_to_planes(samples: &[u8], output: &mut [u8]) {
    for (sample, (((a, b), c), d)) in places!(samples, output) {
        [*a, *b, *c, *d] = word(sample).to_le_bytes();
    }
}

#[inline(always)]
fn bytes_to_samples(planes: &[u8], output: &mut [u8]) {
    for (sample, (((a, b), c), d)) in bytes!(planes, output) {
        sample[0] = *a;
        sample[1] = *b;
        sample[2] = *c;
        sample[3] = *d;
    }
}

pub const SLICES: [Loop; 2] = [both!(words_to_planes), both!(bytes_to_samples)];

// ---- shapes that were not taken

#[inline(always)]
fn bytes_to_planes(samples: &[u8], output: &mut [u8]) {
    for (sample, (((a, b), c), d)) in places!(samples, output) {
        *a = sample[0];
        *b = sample[1];
        *c = sample[2];
        *d = sample[3];
    }
}

#[inline(always)]
fn planes_one_by_one(samples: &[u8], output: &mut [u8]) {
    for (p, plane) in output.chunks_exact_mut(samples.len() / 4).enumerate() {
        for (to, sample) in plane.iter_mut().zip(samples.chunks_exact(4)) {
            *to = sample[p];
        }
    }
}

// Four words, one of each sample, become four of each plane: every second byte changes sides, then halves do. For whole fours of samples.
#[inline(always)]
fn masks_to_planes(samples: &[u8], output: &mut [u8]) {
    const EVEN: u32 = 0x00FF_00FF;
    assert!(samples.len() % 16 == 0);
    let n = samples.len() / 4;
    let (first, rest) = output.split_at_mut(n);
    let (second, rest) = rest.split_at_mut(n);
    let (third, fourth) = rest.split_at_mut(n);
    let [first, second, third, fourth] =
        [first, second, third, fourth].map(|plane| plane.as_chunks_mut::<4>().0);
    let places = first.iter_mut().zip(second).zip(third).zip(fourth);
    for (four, (((a, b), c), d)) in samples.as_chunks::<16>().0.iter().zip(places) {
        let sample = |k: usize| word(&four[4 * k..4 * k + 4]);
        let [w, x, y, z] = [sample(0), sample(1), sample(2), sample(3)];
        let low_wy = (w & 0xFFFF) | (y << 16);
        let low_xz = (x & 0xFFFF) | (z << 16);
        let high_wy = (w >> 16) | (y & 0xFFFF_0000);
        let high_xz = (x >> 16) | (z & 0xFFFF_0000);
        *a = ((low_wy & EVEN) | ((low_xz & EVEN) << 8)).to_le_bytes();
        *b = (((low_wy >> 8) & EVEN) | (low_xz & !EVEN)).to_le_bytes();
        *c = ((high_wy & EVEN) | ((high_xz & EVEN) << 8)).to_le_bytes();
        *d = (((high_wy >> 8) & EVEN) | (high_xz & !EVEN)).to_le_bytes();
    }
}

#[inline(always)]
fn words_to_samples(planes: &[u8], output: &mut [u8]) {
    for (sample, (((a, b), c), d)) in bytes!(planes, output) {
        let word = u32::from_le_bytes([*a, *b, *c, *d]);
        sample.copy_from_slice(&word.to_le_bytes());
    }
}

#[inline(always)]
fn samples_plane_by_plane(planes: &[u8], output: &mut [u8]) {
    for (p, plane) in planes.chunks_exact(planes.len() / 4).enumerate() {
        for (sample, from) in output.chunks_exact_mut(4).zip(plane) {
            sample[p] = *from;
        }
    }
}

pub const NOT_TAKEN_TO_PLANES: [(&str, Loop); 3] = [
    ("to planes, four bytes", both!(bytes_to_planes)),
    ("to planes, a loop for each plane", both!(planes_one_by_one)),
    (
        "to planes, masks and shifts over four words",
        both!(masks_to_planes),
    ),
];

pub const NOT_TAKEN_TO_SAMPLES: [(&str, Loop); 2] = [
    ("to samples, a word stored", both!(words_to_samples)),
    (
        "to samples, a loop for each plane",
        both!(samples_plane_by_plane),
    ),
];
