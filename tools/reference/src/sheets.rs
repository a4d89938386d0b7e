//! The check of a sheet, from document 01's tables with what 02 changes in them.

/// A binary32 word of an entry: 0 for a, 1 for b, 2 for c.
pub fn word(sheet: &[u8], entry: usize, k: usize) -> u32 {
    let n = entries(sheet);
    let at = 2 + n + 12 * entry + 4 * k;
    u32::from_le_bytes(sheet[at..at + 4].try_into().unwrap())
}

pub fn entries(sheet: &[u8]) -> usize {
    usize::from(sheet[0])
}

// The second byte of each edition, and the last approximation of the kinds that take one.
const EDITIONS: [(u8, u8); 2] = [(0, 3), (2, 4)];

/// Kind and approximation of an entry.
pub fn kind(sheet: &[u8], entry: usize) -> (u8, u8) {
    let byte = sheet[2 + entry];
    (byte % 16, byte / 16)
}

// How many of a, b, c a kind uses, and whether it takes an approximation.
const KINDS: [(u8, usize, bool); 7] = [
    (1, 1, false), // DcBlocker::init: pole
    (2, 1, true),  // OnePole::set_f: f
    (3, 2, true),  // Svf::set_f_q: f, resonance
    (4, 3, false), // Svf::set_g_r_h
    (5, 2, true),  // NaiveSvf::set_f_q: f, resonance
    (6, 2, false), // ModifiedSvf::set_f_fq
    (7, 2, false), // CrossoverSvf::set_f_fq
];

// The number of a sheet of n entries that has the approximations up to the last.
fn checked(sheet: &[u8], n: usize, last: u8) -> u8 {
    if !(1..=64).contains(&n) || sheet.len() != 2 + 13 * n {
        return 2;
    }
    for entry in 0..n {
        let (kind, approximation) = kind(sheet, entry);
        let Some(&(_, used, approximates)) = KINDS.iter().find(|row| row.0 == kind) else {
            return 3;
        };
        if approximation > if approximates { last } else { 0 } {
            return 3;
        }
        for k in 0..3 {
            let w = word(sheet, entry, k);
            let another_nan = f32::from_bits(w).is_nan() && w != 0x7FC0_0000;
            if another_nan || (k >= used && w != 0) {
                return 4;
            }
        }
        let a = f32::from_bits(word(sheet, entry, 0));
        if approximates && approximation == 0 && a < oracle::EXACT_LOWEST {
            return 11;
        }
    }
    0
}

/// The number that opening the sheet gives, 0 if it is accepted.
pub fn check(sheet: &[u8]) -> u8 {
    if sheet.len() < 2 {
        return 2;
    }
    match EDITIONS.iter().find(|row| row.0 == sheet[1]) {
        Some(&(_, last)) => checked(sheet, entries(sheet), last),
        None => 2,
    }
}

/// The same by a reader that knows edition 1 only, whose n has two bytes.
pub fn check_edition_1(sheet: &[u8]) -> u8 {
    if sheet.len() < 2 {
        return 2;
    }
    let n = usize::from(sheet[0]) + 256 * usize::from(sheet[1]);
    checked(sheet, n, 3)
}

/// The check of a reader.
pub type Check = fn(&[u8]) -> u8;

/// The number of a reader's lookup of entry e: that of the sheet, then 5.
pub fn check_entry(check: Check, sheet: &[u8], e: u64) -> u8 {
    match check(sheet) {
        0 if e >= entries(sheet) as u64 => 5,
        number => number,
    }
}

/// The setting bytes of entry e; none where the check declines.
pub fn lookup(check: Check, sheet: &[u8], e: u64) -> &[u8] {
    if check_entry(check, sheet, e) != 0 {
        return &[];
    }
    let at = 2 + entries(sheet) + 12 * e as usize;
    &sheet[at..at + 12]
}

/// The edition of a sheet that was accepted: 1 or 2.
pub fn edition(sheet: &[u8]) -> usize {
    1 + EDITIONS.iter().position(|row| row.0 == sheet[1]).unwrap()
}

// Whether a sheet that was accepted has an entry with approximation 4.
fn uses_series(sheet: &[u8]) -> bool {
    (0..entries(sheet)).any(|entry| kind(sheet, entry).1 == 4)
}

/// 02 f: the sheet in edition 1 or 2 into the output. The length that was written, or the refusal.
pub fn convert(wanted: usize, sheet: &[u8], out: &mut [u8]) -> Result<usize, u8> {
    match check(sheet) {
        0 => {}
        number => return Err(number),
    }
    if wanted == 1 && uses_series(sheet) {
        return Err(15);
    }
    let Some(to) = out.get_mut(..sheet.len()) else {
        return Err(12);
    };
    to.copy_from_slice(sheet);
    (to[1], _) = EDITIONS[wanted - 1];
    Ok(sheet.len())
}

/// Whether all but the second byte would be a sheet.
pub fn is_no_edition(sheet: &[u8]) -> bool {
    sheet.len() >= 2 && ![0, 2].contains(&sheet[1]) && checked(sheet, entries(sheet), 4) == 0
}

/// Whether it would be a sheet of edition 2, and is none of edition 1.
pub fn is_raised(sheet: &[u8]) -> bool {
    sheet[1] == 0 && checked(sheet, entries(sheet), 4) == 0
}
