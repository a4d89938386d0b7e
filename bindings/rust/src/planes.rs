//! Samples in planes, to store a trace: samples are words of four bytes, low byte first, as `f32::to_le_bytes` writes them. In planes the
//! lowest bytes of all samples come first, then all second, all third and all highest, each plane in the samples' order. Bytes that are
//! alike stand together then, and a packer finds them.
//!
//! The bytes are moved and not read as numbers, so each call undoes the other on any bytes, NaNs included. Each answers how many bytes it
//! wrote, as many as the input has; later places keep their contents. A refused call writes nothing:
//!
//! | refused, in this order | when |
//! |---|---|
//! | [`Refusal::Partial`] | the input's length is not a multiple of 4 |
//! | [`Refusal::Short`] | the output is shorter than the input |
//!
//! ```
//! use motif_filters::planes::{planes_to_samples, samples_to_planes};
//! use motif_filters::Refusal;
//!
//! let trace = [1.0f32, 1.5, f32::NAN];
//! let samples = trace.map(f32::to_le_bytes).concat();
//! let mut stored = [9; 14];
//! assert_eq!(samples_to_planes(&samples, &mut stored), Ok(12));
//! assert_eq!(stored, [0, 0, 0, 0, 0, 0, 0x80, 0xC0, 0xC0, 0x3F, 0x3F, 0x7F, 9, 9]);
//!
//! let mut again = [0; 12];
//! assert_eq!(planes_to_samples(&stored[..12], &mut again), Ok(12));
//! assert_eq!(again, samples[..]);
//!
//! assert_eq!(samples_to_planes(&samples[..11], &mut stored), Err(Refusal::Partial));
//! assert_eq!(samples_to_planes(&samples, &mut stored[..11]), Err(Refusal::Short));
//! ```

use crate::ffi;
use crate::Refusal;

/// Samples into their planes: byte p of sample i, of n, goes to the place p n + i.
///
/// ```
/// use motif_filters::planes::samples_to_planes;
///
/// let mut planes = [0; 8];
/// assert_eq!(samples_to_planes(&[1, 2, 3, 4, 11, 12, 13, 14], &mut planes), Ok(8));
/// assert_eq!(planes, [1, 11, 2, 12, 3, 13, 4, 14]);
/// ```
#[inline]
pub fn samples_to_planes(samples: &[u8], output: &mut [u8]) -> Result<usize, Refusal> {
    let number = unsafe {
        ffi::samples_to_planes(
            samples.as_ptr(),
            samples.len(),
            output.as_mut_ptr(),
            output.len(),
        )
    };
    Refusal::of(number)?;
    Ok(samples.len())
}

/// Planes into the samples that they are of.
///
/// ```
/// use motif_filters::planes::planes_to_samples;
///
/// let mut samples = [0; 8];
/// assert_eq!(planes_to_samples(&[1, 11, 2, 12, 3, 13, 4, 14], &mut samples), Ok(8));
/// assert_eq!(samples, [1, 2, 3, 4, 11, 12, 13, 14]);
/// ```
#[inline]
pub fn planes_to_samples(planes: &[u8], output: &mut [u8]) -> Result<usize, Refusal> {
    let number = unsafe {
        ffi::planes_to_samples(
            planes.as_ptr(),
            planes.len(),
            output.as_mut_ptr(),
            output.len(),
        )
    };
    Refusal::of(number)?;
    Ok(planes.len())
}
