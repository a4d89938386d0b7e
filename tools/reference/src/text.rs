//! The text of calls: a line in, its answer out.

use crate::closing::{self, Row};
use crate::counts::Counts;
use crate::filters::{type_of, word_of, Filter, Form, Mode, NAN};
use crate::lists::Frame;
use crate::planes::{self, Arrangement};
use crate::sheets;
use crate::trials;

pub const LONGEST_LINE: usize = 65_535;
const MOST_SAMPLES: usize = 1_024;
pub const MOST_BYTES: usize = 4_096;
const MOST_TOLD: u64 = 65_535;
/// A count less than so many samples below the greatest is near it: some runs of histories would pass it.
const NEAR: u32 = 100;

fn number(word: &[u8]) -> Option<u64> {
    if word.is_empty() || word.len() > 20 || !word.iter().all(u8::is_ascii_digit) {
        return None;
    }
    std::str::from_utf8(word).unwrap().parse().ok()
}

fn hex(word: &[u8]) -> Option<Vec<u8>> {
    let digits: Option<Vec<u8>> = word
        .iter()
        .map(|b| char::from(*b).to_digit(16).map(|d| d as u8))
        .collect();
    let digits = digits?;
    (digits.len() % 2 == 0).then(|| digits.chunks(2).map(|p| 16 * p[0] + p[1]).collect())
}

fn bytes(word: &[u8]) -> Option<Vec<u8>> {
    if word == b"-" {
        return Some(Vec::new());
    }
    hex(word).filter(|b| !b.is_empty() && b.len() <= MOST_BYTES)
}

// Every NaN is the one NaN.
fn float(bits: u32) -> f32 {
    let x = f32::from_bits(bits);
    if x.is_nan() {
        f32::from_bits(NAN)
    } else {
        x
    }
}

fn samples(word: &[u8]) -> Option<Vec<f32>> {
    if word == b"-" {
        return Some(Vec::new());
    }
    let bytes = hex(word)?;
    if bytes.is_empty() || bytes.len() % 4 != 0 || bytes.len() > 4 * MOST_SAMPLES {
        return None;
    }
    Some(
        bytes
            .chunks(4)
            .map(|c| float(u32::from_be_bytes(c.try_into().unwrap())))
            .collect(),
    )
}

fn word(text: &[u8]) -> Option<f32> {
    samples(text).filter(|_| text.len() == 8).map(|s| s[0])
}

fn mode(text: &[u8]) -> Option<Mode> {
    match text {
        b"low" => Some(Mode::Low),
        b"band" => Some(Mode::Band),
        b"normalized" => Some(Mode::Normalized),
        b"high" => Some(Mode::High),
        _ => None,
    }
}

fn form(text: &[u8]) -> Option<Form> {
    let parts: Vec<&[u8]> = text.split(|b| *b == b':').collect();
    Some(match parts[..] {
        [b"plain", m] => Form::Plain(mode(m)?),
        [b"gain", m, g] => Form::Gain(mode(m)?, word(g)?),
        [b"stride", m, n] => Form::Stride(mode(m)?, number(n)?),
        [b"multimode", w] => Form::Multimode(word(w)?),
        [b"decimate", m, n] => Form::Decimate(mode(m)?, number(n)?),
        [b"gains", m, g, h] => Form::Gains(mode(m)?, word(g)?, word(h)?),
        [b"pair", m, n] => Form::Pair(mode(m)?, mode(n)?),
        [b"split"] => Form::Split,
        _ => return None,
    })
}

fn put_word(x: f32, to: &mut String) {
    put_hex(&word_of(x).to_be_bytes(), to);
}

fn put_hex(bytes: &[u8], to: &mut String) {
    for b in bytes {
        to.push(char::from_digit(u32::from(b >> 4), 16).unwrap());
        to.push(char::from_digit(u32::from(b & 15), 16).unwrap());
    }
}

fn put_samples(xs: &[f32], to: &mut String) {
    if xs.is_empty() {
        to.push('-');
    }
    xs.iter().for_each(|x| put_word(*x, to));
}

fn put_bytes(bytes: &[u8], to: &mut String) {
    if bytes.is_empty() {
        to.push('-');
    }
    put_hex(bytes, to);
}

fn put_filter(filter: &Option<Filter>, to: &mut String) {
    let Some(filter) = filter else {
        to.push_str("empty");
        return;
    };
    let (name, words) = filter.words();
    to.push_str(name);
    for word in words {
        to.push(':');
        put_hex(&word.to_be_bytes(), to);
    }
}

/// Whether a line is answered at all.
pub fn is_silent(line: &[u8]) -> bool {
    line.len() <= LONGEST_LINE && (line.is_empty() || line[0] == b'#')
}

/// Makes the call of a line and appends its answer line, if it gets one.
pub fn answer(frame: &mut Frame, line: &[u8], counts: &mut Counts, to: &mut String) {
    if is_silent(line) {
        return;
    }
    if line.len() > LONGEST_LINE {
        counts.add("long line", 1);
        to.push_str("? long line\n");
        return;
    }
    let (refused, waits) = (counts.of("refused"), frame.rota.waiting().next().is_some());
    if call(frame, line, counts, to).is_none() {
        counts.add("bad line", 1);
        to.push_str("? bad line");
    }
    if waits && counts.of("refused") > refused && !line.starts_with(b"tell ") {
        counts.add("call refused while a head waits", 1);
    }
    to.push('\n');
}

fn named(name: &str, counts: &mut Counts, to: &mut String) {
    counts.add("calls", 1);
    counts.add(name, 1);
    to.push_str(name);
}

fn numbered(name: &str, number: u8, counts: &mut Counts, to: &mut String) {
    named(name, counts, to);
    if number != 0 {
        counts.add("refused", 1);
        counts.add(&format!("refusal {number}"), 1);
    }
    to.push_str(&format!(" {number}"));
}

// Counts that a call was accepted, or by which number it was refused.
fn judged(name: &str, number: u8, counts: &mut Counts) {
    if number == 0 {
        counts.add(&format!("{name} accepted"), 1);
    } else {
        counts.add(&format!("{name} refused {number}"), 1);
    }
}

// Counts what became of a call at a head whose filter was restored, and not loaded since.
fn after_restore(frame: &mut Frame, name: &str, head: u64, number: u8, counts: &mut Counts) {
    if frame.is_restored(head) {
        judged(&format!("{name} of a restored filter"), number, counts);
    }
}

// Counts what a restore met: the rule that its bytes break, where it is one alone, or what it changed and left.
fn restored(frame: &Frame, before: &[Row], saved: &[u8], counts: &mut Counts) {
    let rows = match closing::rows(saved) {
        Ok(rows) => rows,
        Err(broken) => {
            if let [rule] = broken[..] {
                counts.add(&format!("restore against {rule}"), 1);
            }
            return;
        }
    };
    let filters = || rows.iter().filter(|row| !row.is_empty());
    let with_nan = filters().filter(|row| row.words.contains(&NAN)).count();
    let near = filters().any(|row| row.count > u32::MAX - NEAR);
    let waits = frame.rota.waiting().next().is_some();
    counts.add("filters restored", filters().count() as u64);
    counts.add("filters restored with a NaN", with_nan as u64);
    counts.add_each(&[
        ("restore of another frame", rows != before),
        ("restore of an empty frame", filters().next().is_none()),
        ("restore of marks", rows.len() > 12),
        ("restore of four marks at all heads", rows.len() == 60),
        ("restore of a count near the greatest", near),
        (
            "restore while a save is unfinished",
            !frame.left().is_empty(),
        ),
        ("restore while a head waits", waits),
    ]);
}

// Counts that a head was run or loaded while it waits.
fn while_it_waits(frame: &Frame, name: &str, head: u64, number: u8, counts: &mut Counts) {
    if number == 0 && frame.rota.waits(head) {
        counts.add(&format!("{name} accepted while its head waits"), 1);
    }
}

fn run(
    frame: &mut Frame,
    name: &str,
    head: &[u8],
    of: &[u8],
    input: &[u8],
    outputs: &[&[u8]],
    counts: &mut Counts,
    to: &mut String,
) -> Option<()> {
    let (head, form) = (number(head)?, form(of)?);
    let input = samples(input)?;
    let mut outputs: Vec<Vec<f32>> = outputs
        .iter()
        .map(|out| samples(out))
        .collect::<Option<_>>()?;
    let of_type = frame.type_at(head);
    let refusal = frame.run(head, form, &input, &mut outputs);
    if let Some(of_type) = of_type {
        counts.add(&format!("{name} {of_type} {}", form.name()), 1);
        if refusal == 0 {
            if let Form::Plain(m)
            | Form::Gain(m, _)
            | Form::Stride(m, _)
            | Form::Decimate(m, _)
            | Form::Gains(m, _, _)
            | Form::Pair(m, _) = form
            {
                let m = ["low", "band", "normalized", "high"][m as usize];
                counts.add(&format!("mode {of_type} {m}"), 1);
            }
        }
    }
    if refusal == 0 && frame.count(head) == Some(u64::from(u32::MAX)) {
        let some = !input.is_empty() && outputs.iter().all(|out| !out.is_empty());
        counts.add_each(&[
            ("run up to the greatest count", some),
            ("run of no samples at the greatest count", !some),
        ]);
    }
    after_restore(frame, name, head, refusal, counts);
    while_it_waits(frame, name, head, refusal, counts);
    numbered(name, refusal, counts, to);
    for out in &outputs {
        to.push(' ');
        put_samples(out, to);
    }
    Some(())
}

// The answer of a call that writes bytes, and its output as it stands then.
fn put_written(
    name: &str,
    answer: Result<usize, u8>,
    out: &[u8],
    counts: &mut Counts,
    to: &mut String,
) {
    match answer {
        Ok(length) => {
            numbered(name, 0, counts, to);
            to.push_str(&format!(" {length}"));
        }
        Err(refusal) => numbered(name, refusal, counts, to),
    }
    to.push(' ');
    put_bytes(out, to);
}

// Whether one of these samples is a NaN that a call of the frame would not give back.
fn has_another_nan(samples: &[u8]) -> bool {
    let words = samples.chunks_exact(4);
    words
        .map(|word| u32::from_le_bytes(word.try_into().unwrap()))
        .any(|word| f32::from_bits(word).is_nan() && word != NAN)
}

fn arrange(
    name: &str,
    by: Arrangement,
    input: &[u8],
    out: &[u8],
    counts: &mut Counts,
    to: &mut String,
) -> Option<()> {
    let (input, mut out) = (bytes(input)?, bytes(out)?);
    let short = out.len() < input.len();
    let answer = by(&input, &mut out);
    judged(name, answer.err().unwrap_or(0), counts);
    let counted = |what: &str| format!("{name} {what}");
    if let Ok(length) = answer {
        let samples = match name {
            "planes" => &input,
            _ => &out[..length],
        };
        counts.add_each(&[
            (&counted("of no samples"), length == 0),
            (&counted("of 1,024 samples"), length == MOST_BYTES),
            (&counted("of another NaN"), has_another_nan(samples)),
            (&counted("with places left over"), length < out.len()),
        ]);
    } else if answer == Err(19) && short {
        counts.add(&counted("refused 19 before 12"), 1);
    }
    put_written(name, answer, &out, counts, to);
    Some(())
}

// The routine at a place of 02 l, or that the place is past the end.
fn trial(place: u64, counts: &mut Counts, to: &mut String) {
    let number = trials::routines().len() as u64;
    named("trial", counts, to);
    counts.add_each(&[
        ("trial of a routine", place < number),
        ("trial of no calls", place == 0),
        ("trial of the last routine", place == number - 1),
        ("trial past the end", place >= number),
        ("trial of the first place past the end", place == number),
        ("trial far past the end", place > u64::from(u32::MAX)),
    ]);
    to.push_str(&match trials::routine(place) {
        Some(calls) if calls.is_empty() => " -".to_string(),
        Some(calls) => format!(" {}", calls.join(",")),
        None => " end".to_string(),
    });
}

fn put_part(name: &str, part: &[u8], counts: &mut Counts, to: &mut String) {
    named(name, counts, to);
    to.push(' ');
    put_bytes(part, to);
}

// The sheet and the entry number of a line, and the number that a reader gives them. What it accepts is counted, and what it alone declines.
fn looked_at(
    name: &str,
    by: sheets::Check,
    sheet: &[u8],
    entry: &[u8],
    counts: &mut Counts,
) -> Option<(Vec<u8>, u64, u8)> {
    let (sheet, entry) = (bytes(sheet)?, number(entry)?);
    let refusal = sheets::check_entry(by, &sheet, entry);
    if refusal == 0 {
        counts.add(&format!("{name} accepted"), 1);
    } else if sheets::check_entry(sheets::check, &sheet, entry) == 0 {
        counts.add(&format!("{name} declines edition 2"), 1);
    }
    Some((sheet, entry, refusal))
}

fn call(frame: &mut Frame, line: &[u8], counts: &mut Counts, to: &mut String) -> Option<()> {
    let words: Vec<&[u8]> = line.split(|b| *b == b' ').collect();
    match words[..] {
        [b"open", sheet] => {
            let sheet = bytes(sheet)?;
            let number = frame.open(&sheet);
            if number == 0 {
                counts.add(&format!("open of edition {}", sheets::edition(&sheet)), 1);
            } else if sheets::is_no_edition(&sheet) {
                counts.add("open of no edition", 1);
            } else if number == 3 && sheets::is_raised(&sheet) {
                counts.add("open of approximation 4 in edition 1", 1);
            }
            numbered("open", number, counts, to);
        }
        [b"load", head, entry] => {
            let (head, entry) = (number(head)?, number(entry)?);
            let refusal = frame.load(head, entry);
            if refusal == 0 {
                let byte = frame.kind_byte(entry);
                counts.add(&format!("kind byte {byte}"), 1);
                if frame.is_mirrored(entry) {
                    counts.add(&format!("mirrored load {}", type_of(byte % 16)), 1);
                }
            }
            while_it_waits(frame, "load", head, refusal, counts);
            numbered("load", refusal, counts, to);
        }
        [b"run", head, of, input, out] => {
            run(frame, "run", head, of, input, &[out], counts, to)?;
        }
        [b"two", head, of, input, first, second] => {
            run(frame, "two", head, of, input, &[first, second], counts, to)?;
        }
        [b"rest", head] => {
            let head = number(head)?;
            if frame.keeps_a_sample(head) {
                counts.add("rest of a sample that reset leaves", 1);
            }
            let refusal = frame.rest(head);
            after_restore(frame, "rest", head, refusal, counts);
            numbered("rest", refusal, counts, to);
        }
        [b"mark", head] => match frame.mark(number(head)?) {
            Ok(mark) => {
                numbered("mark", 0, counts, to);
                to.push_str(&format!(" {mark}"));
            }
            Err(refusal) => numbered("mark", refusal, counts, to),
        },
        [b"back", head, mark] => {
            let (head, mark) = (number(head)?, number(mark)?);
            let refusal = frame.back(head, mark);
            after_restore(frame, "back", head, refusal, counts);
            numbered("back", refusal, counts, to);
        }
        [b"drop", head, mark] => {
            let refusal = frame.drop(number(head)?, number(mark)?);
            numbered("drop", refusal, counts, to);
        }
        [b"count", head] => match frame.count(number(head)?) {
            Some(count) => {
                counts.add("count accepted", 1);
                if count > 0 {
                    counts.add("count above 0", 1);
                }
                numbered("count", 0, counts, to);
                to.push_str(&format!(" {count}"));
            }
            None => numbered("count", 1, counts, to),
        },
        [b"write", out] => {
            let mut out = bytes(out)?;
            let answer = frame.write(&mut out);
            if answer.is_ok() {
                counts.add(&format!("write of edition {}", sheets::edition(&out)), 1);
            }
            put_written("write", answer, &out, counts, to);
        }
        [b"begin"] => {
            let number = frame.begin();
            judged("begin", number, counts);
            if number == 0 {
                let edition = sheets::edition(frame.left());
                counts.add(&format!("begin of edition {edition}"), 1);
            }
            numbered("begin", number, counts, to);
        }
        [b"take", out] => {
            let mut out = bytes(out)?;
            let another = frame.saves_another();
            let answer = frame.take(&mut out);
            if let Ok(length) = answer {
                counts.add("take accepted", 1);
                counts.add("bytes taken", length as u64);
                counts.add_each(&[
                    ("take of no places", out.is_empty()),
                    ("take of the last byte", frame.left().is_empty()),
                    ("take with places left over", length < out.len()),
                    ("take of a sheet that is not open", another && length > 0),
                ]);
            }
            put_written("take", answer, &out, counts, to);
        }
        [b"tell", head, samples] => {
            let head = number(head)?;
            let samples = number(samples).filter(|n| *n <= MOST_TOLD)?;
            let number = frame.rota.tell(head, samples);
            judged("tell", number, counts);
            if number == 0 && frame.type_at(head).is_none() {
                counts.add("tell of an empty head", 1);
            } else if samples == 0 && number != 14 {
                counts.add(&format!("tell refused {number} before 14"), 1);
            }
            numbered("tell", number, counts, to);
        }
        [b"turn"] => {
            let (last, waiting) = (frame.rota.served(), frame.rota.waiting().count());
            named("turn", counts, to);
            match frame.rota.turn() {
                Some((head, granted)) => {
                    let waits = frame.rota.waits(head);
                    counts.add("turn granted", 1);
                    counts.add("samples granted", granted);
                    counts.add_each(&[
                        ("turn of 256 samples", granted == 256),
                        ("turn of fewer samples", granted < 256),
                        ("turn of the last 256 samples", granted == 256 && !waits),
                        ("turn that ends a wait", !waits),
                        ("turn of the head last served", last == Some(head)),
                        ("turn past head 11", last.is_some_and(|last| head < last)),
                        ("turn while others wait", waiting > 1),
                        ("turn while all heads wait", waiting == 12),
                    ]);
                    to.push_str(&format!(" {head} {granted}"));
                }
                None => {
                    counts.add("turn none", 1);
                    to.push_str(" none");
                }
            }
        }
        [b"save", out] => {
            let mut out = bytes(out)?;
            let answer = frame.save(&mut out);
            judged("save", answer.err().unwrap_or(0), counts);
            if let Ok(length) = answer {
                let rows = frame.rows();
                counts.add("rows saved", rows.len() as u64);
                counts.add_each(&[
                    ("save of an empty frame", rows.iter().all(Row::is_empty)),
                    ("save of marks", rows.len() > 12),
                    ("save with places left over", length < out.len()),
                ]);
            }
            put_written("save", answer, &out, counts, to);
        }
        [b"restore", saved] => {
            let saved = bytes(saved)?;
            let before = frame.rows();
            let number = frame.restore(&saved);
            judged("restore", number, counts);
            restored(frame, &before, &saved, counts);
            numbered("restore", number, counts, to);
        }
        [b"convert", edition, sheet, out] => {
            let wanted = match edition {
                b"1" => 1,
                b"2" => 2,
                _ => return None,
            };
            let (sheet, mut out) = (bytes(sheet)?, bytes(out)?);
            let answer = sheets::convert(wanted, &sheet, &mut out);
            judged("convert", answer.err().unwrap_or(0), counts);
            if answer.is_ok() {
                let from = sheets::edition(&sheet);
                counts.add(&format!("convert of edition {from} to {wanted}"), 1);
            }
            put_written("convert", answer, &out, counts, to);
        }
        [b"planes", input, out] => arrange("planes", planes::planes, input, out, counts, to)?,
        [b"samples", input, out] => arrange("samples", planes::samples, input, out, counts, to)?,
        [b"trial", place] => trial(number(place)?, counts, to),
        [b"check", sheet, entry] => {
            let (_, _, refusal) = looked_at("check", sheets::check, sheet, entry, counts)?;
            numbered("check", refusal, counts, to);
        }
        [b"check1", sheet, entry] => {
            let by = sheets::check_edition_1;
            let (_, _, refusal) = looked_at("check1", by, sheet, entry, counts)?;
            numbered("check1", refusal, counts, to);
        }
        [b"lookup", sheet, entry] => {
            let (sheet, entry, _) = looked_at("lookup", sheets::check, sheet, entry, counts)?;
            put_part(
                "lookup",
                sheets::lookup(sheets::check, &sheet, entry),
                counts,
                to,
            );
        }
        [b"lookup1", sheet, entry] => {
            let by = sheets::check_edition_1;
            let (sheet, entry, _) = looked_at("lookup1", by, sheet, entry, counts)?;
            put_part("lookup1", sheets::lookup(by, &sheet, entry), counts, to);
        }
        [b"head", head] => match frame.shown(number(head)?) {
            Some(filters) => {
                numbered("head", 0, counts, to);
                for filter in &filters {
                    to.push(' ');
                    put_filter(filter, to);
                }
            }
            None => numbered("head", 1, counts, to),
        },
        _ => return None,
    }
    Some(())
}
