//! The form of a saved frame (02 k): its bytes as rows, and its rules one by one, each by its own words of 02.

use crate::filters::{Filter, NAN, TYPES};

const HEADS: u8 = 12;
const MOST_MARKS: usize = 4;
const WORDS: usize = 8;
const TAG: usize = 2;
const RECORD: usize = 4 * WORDS + 4;

/// A tag with its record.
#[derive(Clone, PartialEq)]
pub struct Row {
    pub head: u8,
    pub filter: u8,
    pub words: [u32; WORDS],
    pub count: u32,
}

impl Row {
    /// The row of a filter, or of an empty head.
    pub fn of(head: u8, filter: Option<Filter>, count: u32) -> Row {
        let mut row = Row {
            head,
            filter: 0,
            words: [0; WORDS],
            count,
        };
        if let Some(filter) = filter {
            let (name, words) = filter.words();
            let place = TYPES.iter().position(|of| of.0 == name).unwrap();
            row.filter = place as u8 + 1;
            row.words[..words.len()].copy_from_slice(&words);
        }
        row
    }

    pub fn is_empty(&self) -> bool {
        self.filter == 0
    }

    /// The words that its type uses, and the others. A filter byte that is no type's uses all.
    pub fn split(&self) -> (&[u32], &[u32]) {
        let used = match usize::from(self.filter) {
            0 => 0,
            n => TYPES.get(n - 1).map_or(WORDS, |of| of.1),
        };
        self.words.split_at(used)
    }

    /// Its filter, where no rule is broken.
    pub fn filter(&self) -> Option<Filter> {
        let (name, _) = TYPES[usize::from(self.filter).checked_sub(1)?];
        Some(Filter::of_words(name, self.split().0))
    }
}

/// How many rows there are, the tags, the records; low bytes first.
pub fn bytes(rows: &[Row]) -> Vec<u8> {
    let mut bytes = (rows.len() as u16).to_le_bytes().to_vec();
    for row in rows {
        bytes.extend([row.head, row.filter]);
    }
    for row in rows {
        row.words.iter().for_each(|w| bytes.extend(w.to_le_bytes()));
        bytes.extend(row.count.to_le_bytes());
    }
    bytes
}

/// As many rows as the first two bytes say, where there are bytes for exactly these.
fn spelled(bytes: &[u8]) -> Option<Vec<Row>> {
    let (s, rest) = bytes.split_first_chunk()?;
    let s = usize::from(u16::from_le_bytes(*s));
    if rest.len() != (TAG + RECORD) * s {
        return None;
    }
    let (tags, records) = rest.split_at(TAG * s);
    let word = |bytes: &[u8]| u32::from_le_bytes(bytes.try_into().unwrap());
    let row = |(tag, record): (&[u8], &[u8])| {
        let mut words = record.chunks(4).map(word);
        Row {
            head: tag[0],
            filter: tag[1],
            words: [(); WORDS].map(|_| words.next().unwrap()),
            count: words.next().unwrap(),
        }
    };
    let pairs = tags.chunks(TAG).zip(records.chunks(RECORD));
    Some(pairs.map(row).collect())
}

// The rows of one head after the other.
fn heads(rows: &[Row]) -> impl Iterator<Item = &[Row]> {
    rows.chunk_by(|a, b| a.head == b.head)
}

/// A rule by its name, and whether rows keep it.
type Rule = (&'static str, fn(&[Row]) -> bool);

/// The rules of rows. That there are 12 to 60 follows from the first two.
pub const RULES: [Rule; 8] = [
    ("heads in turn", |rows| {
        heads(rows).map(|of| of[0].head).eq(0..HEADS)
    }),
    ("at most four marks", |rows| {
        heads(rows).all(|of| of.len() <= 1 + MOST_MARKS)
    }),
    ("filter byte", |rows| {
        rows.iter()
            .all(|row| usize::from(row.filter) <= TYPES.len())
    }),
    ("no empty mark", |rows| {
        heads(rows).all(|of| !of[1..].iter().any(Row::is_empty))
    }),
    ("no mark of an empty head", |rows| {
        heads(rows).all(|of| !of[0].is_empty() || of.len() == 1)
    }),
    ("unused words", |rows| {
        let zero = |row: &Row| row.split().1.iter().all(|w| *w == 0);
        rows.iter().all(|row| row.is_empty() || zero(row))
    }),
    ("one NaN", |rows| {
        let another = |w: &u32| f32::from_bits(*w).is_nan() && *w != NAN;
        !rows.iter().any(|row| row.split().0.iter().any(another))
    }),
    ("record of an empty head", |rows| {
        let zero = |row: &Row| row.words == [0; WORDS] && row.count == 0;
        rows.iter().all(|row| !row.is_empty() || zero(row))
    }),
];

/// The rule of the bytes. Where it is broken there are no rows, of which the others could be asked.
pub const LENGTH: &str = "length";

/// The rows of a saved frame, or the rules that its bytes break.
pub fn rows(bytes: &[u8]) -> Result<Vec<Row>, Vec<&'static str>> {
    let rows = spelled(bytes).ok_or(vec![LENGTH])?;
    let broken = RULES.iter().filter(|(_, kept)| !kept(&rows));
    let broken: Vec<&str> = broken.map(|(name, _)| *name).collect();
    if broken.is_empty() {
        Ok(rows)
    } else {
        Err(broken)
    }
}
