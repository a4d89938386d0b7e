//! Samples in planes and back, beside a plain loop.

use motif_filters::planes::{planes_to_samples, samples_to_planes};
use motif_filters::Refusal;

type Arrange = fn(&[u8], &mut [u8]) -> Result<usize, Refusal>;

// Each arrangement, and where its plain loop takes byte p of sample i from and puts it, of n samples.
const BOTH: [(Arrange, fn(usize, usize, usize) -> (usize, usize)); 2] = [
    (samples_to_planes, |n, i, p| (4 * i + p, p * n + i)),
    (planes_to_samples, |n, i, p| (p * n + i, 4 * i + p)),
];

// What stands in an output before a call.
const BEFORE: u8 = 0xA5;

// In each 256 no two bytes are alike, so that one in another's place shows.
fn bytes(length: usize) -> Vec<u8> {
    (0..length).map(|k| (k * 7 + k / 256) as u8).collect()
}

fn plain(input: &[u8], room: usize, place: fn(usize, usize, usize) -> (usize, usize)) -> Vec<u8> {
    let n = input.len() / 4;
    let mut output = vec![BEFORE; room];
    for i in 0..n {
        for p in 0..4 {
            let (from, to) = place(n, i, p);
            output[to] = input[from];
        }
    }
    output
}

#[test]
fn every_length_and_room() {
    for (arrange, place) in BOTH {
        for length in 0..=300 {
            let input = bytes(length);
            for room in (0..4).chain(length.saturating_sub(5)..length + 20) {
                let mut output = vec![BEFORE; room];
                let answer = arrange(&input, &mut output);
                if length % 4 != 0 {
                    assert_eq!(answer, Err(Refusal::Partial), "{length} {room}");
                    assert_eq!(output, vec![BEFORE; room]);
                } else if room < length {
                    assert_eq!(answer, Err(Refusal::Short), "{length} {room}");
                    assert_eq!(output, vec![BEFORE; room]);
                } else {
                    assert_eq!(answer, Ok(length), "{length} {room}");
                    assert_eq!(output, plain(&input, room, place), "{length} {room}");
                }
            }
        }
    }
}

#[test]
fn a_long_trace() {
    let input = bytes(4 * 250_007);
    for (arrange, place) in BOTH {
        let mut output = vec![BEFORE; input.len() + 3];
        assert_eq!(arrange(&input, &mut output), Ok(input.len()));
        assert_eq!(output, plain(&input, output.len(), place));
    }
}

// Bytes need no alignment.
#[test]
fn at_every_address() {
    let input = bytes(16 + 204);
    for (arrange, place) in BOTH {
        for (from, to) in (0..16).flat_map(|from| (0..16).map(move |to| (from, to))) {
            let mut output = [BEFORE; 16 + 204 + 16];
            let input = &input[from..from + 204];
            assert_eq!(arrange(input, &mut output[to..to + 204]), Ok(204));
            assert_eq!(output[to..to + 204], plain(input, 204, place));
            assert!(output[..to].iter().all(|b| *b == BEFORE));
            assert!(output[to + 204..].iter().all(|b| *b == BEFORE));
        }
    }
}

#[test]
fn each_undoes_the_other() {
    for n in 0..=300 {
        let input = bytes(4 * n);
        for (one, other) in [
            (samples_to_planes as Arrange, planes_to_samples as Arrange),
            (planes_to_samples, samples_to_planes),
        ] {
            let (mut arranged, mut back) = (vec![BEFORE; 4 * n], vec![BEFORE; 4 * n]);
            assert_eq!(one(&input, &mut arranged), Ok(4 * n));
            assert_eq!(other(&arranged, &mut back), Ok(4 * n));
            assert_eq!(back, input);
        }
    }
}

#[test]
fn every_nan_comes_back_bit_for_bit() {
    let payloads = (0..23).map(|k| 1 << k).chain([1, 0x3F_FFFF, 0x7F_FFFF]);
    let words: Vec<u32> = payloads
        .flat_map(|payload| [0x7F80_0000 | payload, 0xFF80_0000 | payload])
        .chain([0x7F80_0000, 0xFF80_0000, 0x8000_0000, 0x0000_0001])
        .collect();
    let samples: Vec<u8> = words.iter().flat_map(|w| w.to_le_bytes()).collect();
    let (mut planes, mut back) = (vec![0; samples.len()], vec![0; samples.len()]);
    samples_to_planes(&samples, &mut planes).unwrap();
    planes_to_samples(&planes, &mut back).unwrap();
    let again = back
        .chunks(4)
        .map(|w| u32::from_le_bytes(w.try_into().unwrap()));
    assert!(again.eq(words));
}

#[test]
fn the_refusals_have_numbers_and_words() {
    assert_eq!(Refusal::Partial.number(), 19);
    assert_eq!(Refusal::Short.number(), 12);
    let words = "partial: an input that ends within a sample";
    assert_eq!(Refusal::Partial.to_string(), words);
    let words = "short: an output of fewer bytes than the input";
    assert_eq!(Refusal::Short.to_string(), words);
}
