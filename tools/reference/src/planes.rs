//! Samples in planes (02 j): the bytes of binary32 words, low byte first, rearranged so that all lowest bytes come first, then all second,
//! third and highest; and back.

/// How many bytes a sample has.
const SAMPLE: usize = 4;

/// The length that was written, or the refusal, as the one and the other rearrangement answer it.
pub type Arrangement = fn(&[u8], &mut [u8]) -> Result<usize, u8>;

// The bytes behind each other into the output, or the refusal: 19 for an input that ends within a sample, then 12 for an output that is
// shorter than the input. Places behind them are as lent.
fn arranged(input: &[u8], out: &mut [u8], bytes: fn(&[u8]) -> Vec<u8>) -> Result<usize, u8> {
    if input.len() % SAMPLE != 0 {
        return Err(19);
    }
    let to = out.get_mut(..input.len()).ok_or(12)?;
    to.copy_from_slice(&bytes(input));
    Ok(input.len())
}

/// From sample by sample to plane by plane: the k-th plane has the k-th byte of each sample.
pub fn planes(input: &[u8], out: &mut [u8]) -> Result<usize, u8> {
    arranged(input, out, |bytes| {
        let samples = || bytes.chunks(SAMPLE);
        let plane = |k: usize| samples().map(move |sample| sample[k]);
        (0..SAMPLE).flat_map(plane).collect()
    })
}

/// From plane by plane to sample by sample: a sample has the next byte of each plane, the lowest first.
pub fn samples(input: &[u8], out: &mut [u8]) -> Result<usize, u8> {
    arranged(input, out, |bytes| {
        let n = bytes.len() / SAMPLE;
        let mut planes = [0, 1, 2, 3].map(|k| bytes[k * n..(k + 1) * n].iter());
        let mut sample = || planes.each_mut().map(|plane| *plane.next().unwrap());
        (0..n).flat_map(|_| sample()).collect()
    })
}
