//! Histories: random ones, every short one, damaged sheets and damaged saved frames. A history is the text that a program gets on a fresh frame.

use crate::closing::{self, Row};
use crate::counts::Counts;
use crate::filters::{word_of, Filter};
use crate::lists::Frame;
use crate::numbers::Numbers;
use crate::planes::{self, Arrangement};
use crate::text::{self, MOST_BYTES};
use crate::trials;
use oracle::{EXACT_LOWEST, MIRRORED};

pub fn hex(bytes: &[u8]) -> String {
    if bytes.is_empty() {
        return "-".to_string();
    }
    bytes.iter().map(|b| format!("{b:02x}")).collect()
}

/// The kind bytes that name a setter, and those that do so in edition 2 only.
pub const KIND_BYTES: [u8; 16] = [
    0x01, 0x02, 0x12, 0x22, 0x32, 0x03, 0x13, 0x23, 0x33, 0x04, 0x05, 0x15, 0x25, 0x35, 0x06, 0x07,
];
pub const EDITION_2_KIND_BYTES: [u8; 3] = [0x42, 0x43, 0x45];

/// The second byte of each edition.
const EDITION_1: u8 = 0;
const EDITION_2: u8 = 2;

const SPECIAL: [u32; 20] = [
    0x0000_0000, // 0
    0x8000_0000, // -0
    0x7F80_0000, // infinity
    0xFF80_0000,
    0x7FC0_0000, // NaN
    0xFFC0_0000,
    0x7F80_0001, // a signalling NaN
    0xFFFF_FFFF,
    0x0000_0001, // the least subnormal
    0x8000_0001,
    0x007F_FFFF, // the largest subnormal
    0x807F_FFFF,
    0x0080_0000, // the least normal
    0x8080_0000,
    0x7F7F_FFFF, // the largest
    0xFF7F_FFFF,
    0x3F00_0000, // 0.5, where multimode turns
    0x3EFE_76C9, // 0.497, where Exact clips
    0x3E21_CAC1, // 0.158, where the naive filter clips
    0x3E80_0000, // 0.25, where the tangent turns
];

/// How many saved frames are kept to be restored.
const KEPT: usize = 64;

/// The two calls of 02 j; what the one writes, the other brings back.
const ARRANGEMENTS: [(&str, Arrangement); 2] =
    [("planes", planes::planes), ("samples", planes::samples)];

/// Places far past the last trial routine, some of which would not be if a byte or four of them were all that is read.
const FAR: [u64; 6] = [
    1 << 32,
    (1 << 32) + 5,
    1 << 63,
    (1 << 63) + 253,
    u64::MAX - 1,
    u64::MAX,
];

pub struct Writer {
    numbers: Numbers,
    text: String,
    // What the lines so far make of a fresh frame, so that the next one is accepted as often as not.
    frame: Frame,
    favourites: Vec<u64>,
    // Frames that were saved in this history and in those before it.
    saved: Vec<Vec<Row>>,
    /// How often what one of planes and samples wrote was brought back by the other, in all histories.
    pub returned: u64,
}

impl Writer {
    pub fn new(seed: u64) -> Writer {
        Writer {
            numbers: Numbers(seed),
            text: String::new(),
            frame: Frame::fresh(false),
            favourites: Vec::new(),
            saved: Vec::new(),
            returned: 0,
        }
    }

    fn sample_word(&mut self) -> u32 {
        match self.numbers.weighted(&[70, 12, 8, 10]) {
            0 => (((self.numbers.next() >> 40) as f32 / (1u64 << 23) as f32) - 1.0).to_bits(),
            1 => self.numbers.pick(&SPECIAL),
            2 => self.numbers.next() as u32,
            _ => self.numbers.pick(&[0x3F80_0000, 0xBF80_0000, 0x0000_0000]),
        }
    }

    fn hex_word(&mut self, w: u32) -> String {
        if self.numbers.percent(5) {
            format!("{w:08X}")
        } else {
            format!("{w:08x}")
        }
    }

    fn word(&mut self) -> String {
        let w = self.sample_word();
        self.hex_word(w)
    }

    fn samples(&mut self, n: u64) -> String {
        if n == 0 {
            return "-".to_string();
        }
        (0..n).map(|_| self.word()).collect()
    }

    fn length(&mut self) -> u64 {
        match self.numbers.weighted(&[60, 300, 100, 20, 1]) {
            0 => 0,
            1 => 1 + self.numbers.below(4),
            2 => 5 + self.numbers.below(12),
            3 => 17 + self.numbers.below(48),
            _ => 1024 - self.numbers.below(3),
        }
    }

    fn lengths(&mut self) -> (u64, u64, u64) {
        let n = self.length();
        if self.numbers.percent(70) {
            return (n, n, n);
        }
        (n, self.length(), self.length())
    }

    fn number(&mut self, n: u64) -> String {
        if self.numbers.percent(2) {
            let width = 1 + self.numbers.below(20) as usize;
            return format!("{n:0width$}");
        }
        n.to_string()
    }

    fn head(&mut self) -> u64 {
        match self.numbers.weighted(&[900, 80, 12, 8]) {
            0 => {
                let favourites = self.favourites.clone();
                self.numbers.pick(&favourites)
            }
            1 => self.numbers.below(12),
            2 => 12,
            _ => self
                .numbers
                .pick(&[13, 255, 256, 1 << 32, u64::MAX - 1, u64::MAX]),
        }
    }

    fn mode(&mut self) -> &'static str {
        self.numbers.pick(&["low", "band", "normalized", "high"])
    }

    fn step(&mut self) -> String {
        let n = match self.numbers.weighted(&[20, 70, 10]) {
            0 => 0,
            1 => 1 + self.numbers.below(5),
            _ => self
                .numbers
                .pick(&[7, 64, 1000, 1 << 31, 1 << 63, u64::MAX]),
        };
        self.number(n)
    }

    // A form, mostly one that the head's filter has in this call.
    fn form(&mut self, head: u64, outputs: usize) -> String {
        let of = self.frame.type_at(head);
        let own: &[&'static str] = match (of, outputs) {
            (Some("svf"), 1) => &["plain", "gain", "stride", "multimode"],
            (Some("naive"), 1) => &["plain", "decimate", "decimate"],
            (Some("svf"), 2) => &["gains", "pair"],
            (Some("naive"), 2) => &["split"],
            (_, 1) => &["plain"],
            _ => &["gains", "pair", "split"],
        };
        let any = [
            "plain",
            "gain",
            "stride",
            "multimode",
            "decimate",
            "gains",
            "pair",
            "split",
        ];
        let name = if self.numbers.percent(80) {
            self.numbers.pick(own)
        } else {
            self.numbers.pick(&any)
        };
        match name {
            "plain" => format!("plain:{}", self.mode()),
            "gain" => format!("gain:{}:{}", self.mode(), self.word()),
            "stride" => format!("stride:{}:{}", self.mode(), self.step()),
            "multimode" => format!("multimode:{}", self.word()),
            "decimate" => format!("decimate:{}:{}", self.mode(), self.step()),
            "gains" => {
                let mode = self.mode();
                format!("gains:{mode}:{}:{}", self.word(), self.word())
            }
            "pair" => format!("pair:{}:{}", self.mode(), self.mode()),
            _ => "split".to_string(),
        }
    }

    // A word of an entry that is used.
    fn setting(&mut self) -> u32 {
        let w = match self.numbers.weighted(&[75, 15, 10]) {
            0 => (self.numbers.below(1000) as f32 / 1600.0).to_bits(),
            1 => self.numbers.pick(&SPECIAL),
            _ => self.numbers.next() as u32,
        };
        word_of(f32::from_bits(w))
    }

    // A frequency, one in three from those below 0. In Exact it is not below what is taken.
    fn frequency(&mut self, exact: bool) -> u32 {
        let w = match self.numbers.weighted(&[4, 1, 1]) {
            0 => self.setting(),
            1 => self.numbers.pick(&MIRRORED),
            _ => (self.numbers.below(1000) as f32 / -2000.0).to_bits(),
        };
        if exact && f32::from_bits(w) < EXACT_LOWEST {
            w & 0x7FFF_FFFF
        } else {
            w
        }
    }

    fn entry(&mut self, kind: u8) -> [u32; 3] {
        let a = match kind % 16 {
            2 | 3 | 5 => self.frequency(kind < 16),
            _ => self.setting(),
        };
        let b = self.setting();
        let c = self.setting();
        match kind % 16 {
            1 | 2 => [a, 0, 0],
            4 => [a, b, c],
            _ => [a, b, 0],
        }
    }

    // Each kind as often as another, then each of the approximations that the edition has for it.
    fn kind_byte(&mut self, edition: u8) -> u8 {
        let approximations = if edition == EDITION_2 { 5 } else { 4 };
        match self.numbers.pick(&[1, 2, 3, 4, 5, 6, 7]) {
            kind @ (2 | 3 | 5) => kind + 16 * self.numbers.below(approximations) as u8,
            kind => kind,
        }
    }

    /// A sheet that is accepted.
    pub fn sheet(&mut self) -> Vec<u8> {
        let n = match self.numbers.weighted(&[20, 60, 15, 5]) {
            0 => 1,
            1 => 7 + self.numbers.below(10),
            2 => 2 + self.numbers.below(5),
            _ => 64 - self.numbers.below(2),
        };
        let edition = self.numbers.pick(&[EDITION_1, EDITION_2]);
        let kinds: Vec<u8> = (0..n).map(|_| self.kind_byte(edition)).collect();
        let mut sheet = vec![n as u8, edition];
        sheet.extend(&kinds);
        for kind in kinds {
            for w in self.entry(kind) {
                sheet.extend(w.to_le_bytes());
            }
        }
        sheet
    }

    // A sheet with one thing wrong, if the place happens to matter.
    fn damaged(&mut self) -> Vec<u8> {
        let mut sheet = self.sheet();
        let n = sheet[0] as usize;
        let entry = self.numbers.below(n as u64) as usize;
        let setting = 2 + n + 12 * entry;
        match self.numbers.below(10) {
            0 => sheet.truncate(self.numbers.below(sheet.len() as u64) as usize),
            1 => sheet.push(self.numbers.next() as u8),
            2 => sheet[0] = self.numbers.pick(&[0, 1, 63, 64, 65, 255]),
            3 => {
                sheet[1] = match self.numbers.below(3) {
                    0 if sheet[1] == EDITION_1 => EDITION_2,
                    0 => EDITION_1,
                    1 => self.numbers.pick(&[1, 3, 4, 255]),
                    _ => self.numbers.next() as u8,
                }
            }
            4 => sheet[2 + entry] = self.numbers.next() as u8,
            5 => sheet[2 + entry] = 0x40 + self.numbers.below(9) as u8,
            6 => {
                let nan = self
                    .numbers
                    .pick(&[0x7F80_0001u32, 0xFFC0_0000, 0x7FC0_0001]);
                sheet[setting..setting + 4].copy_from_slice(&nan.to_le_bytes());
            }
            7 => sheet[setting + 8 + self.numbers.below(4) as usize] ^= 1 << self.numbers.below(8),
            8 => {
                sheet[2 + entry] = self.numbers.pick(&[2, 3, 5]);
                let f = if self.numbers.percent(50) {
                    self.numbers.pick(&MIRRORED)
                } else {
                    self.numbers.next() as u32 | 0x8000_0000
                };
                sheet[setting..setting + 4].copy_from_slice(&f.to_le_bytes());
            }
            _ => {
                let place = self.numbers.below(sheet.len() as u64) as usize;
                sheet[place] = self.numbers.next() as u8;
            }
        }
        sheet
    }

    fn any_sheet(&mut self) -> Vec<u8> {
        match self.numbers.weighted(&[50, 45, 5]) {
            0 => self.sheet(),
            1 => self.damaged(),
            _ => {
                let n = self.numbers.below(40);
                (0..n).map(|_| self.numbers.next() as u8).collect()
            }
        }
    }

    fn entry_number(&mut self, sheet: &[u8]) -> String {
        let n = sheet.first().map_or(0, |n| u64::from(*n));
        let e = match self.numbers.weighted(&[85, 10, 5]) {
            0 => self.numbers.below(n.max(1)),
            1 => n,
            _ => self.numbers.pick(&[64, 65, 1 << 32, u64::MAX]),
        };
        self.number(e)
    }

    fn line(&mut self, line: &str) {
        let (mut counts, mut answer) = (Counts::default(), String::new());
        text::answer(&mut self.frame, line.as_bytes(), &mut counts, &mut answer);
        self.text.push_str(line);
        self.text.push('\n');
    }

    fn open(&mut self, sheet: Vec<u8>) {
        let line = format!("open {}", hex(&sheet));
        self.line(&line);
    }

    fn open_any(&mut self) {
        let sheet = self.any_sheet();
        self.open(sheet);
    }

    // An output for so many bytes: one in four as long, one a byte too short, one a little longer, one by chance.
    fn output(&mut self, length: usize) -> Vec<u8> {
        let length = length as u64;
        let n = match self.numbers.below(4) {
            0 => self.numbers.below(length + 200),
            1 => length,
            2 => length.saturating_sub(1),
            _ => length + self.numbers.below(3),
        };
        (0..n).map(|_| self.numbers.next() as u8).collect()
    }

    // A conversion. Half of what comes of it is opened, so that heads are loaded from it.
    fn convert(&mut self) -> u64 {
        let sheet = self.any_sheet();
        let wanted = self.numbers.pick(&[1, 2]);
        let mut out = self.output(sheet.len());
        let line = format!("convert {wanted} {} {}", hex(&sheet), hex(&out));
        self.line(&line);
        match crate::sheets::convert(wanted, &sheet, &mut out) {
            Ok(length) if self.numbers.percent(50) => {
                out.truncate(length);
                self.open(out);
                2
            }
            _ => 1,
        }
    }

    // Samples as bytes, any NaN among them. Three in ten are cut within a sample.
    fn sample_bytes(&mut self) -> Vec<u8> {
        let n = match self.numbers.weighted(&[5, 57, 25, 4, 9]) {
            0 => 0,
            1 => 1 + self.numbers.below(8),
            2 => 9 + self.numbers.below(56),
            3 => 65 + self.numbers.below(958),
            _ => 1024 - self.numbers.below(2),
        };
        let mut bytes: Vec<u8> = (0..n)
            .flat_map(|_| self.sample_word().to_le_bytes())
            .collect();
        if self.numbers.percent(30) {
            let cut = 1 + self.numbers.below(3) as usize;
            bytes.truncate(bytes.len().saturating_sub(cut));
        }
        bytes
    }

    // Samples into planes or back. Half of what is written goes back to where it came from.
    fn arrange(&mut self) -> u64 {
        let first = self.numbers.below(2) as usize;
        let input = self.sample_bytes();
        let Some(written) = self.arranged(first, &input) else {
            return 1;
        };
        if self.numbers.percent(50) {
            return 1;
        }
        if self.arranged(1 - first, &written).is_some() {
            self.returned += 1;
        }
        2
    }

    fn arranged(&mut self, which: usize, input: &[u8]) -> Option<Vec<u8>> {
        let (name, by) = ARRANGEMENTS[which];
        let mut out = self.output(input.len());
        out.truncate(if self.numbers.percent(5) {
            0
        } else {
            MOST_BYTES
        });
        self.line(&format!("{name} {} {}", hex(input), hex(&out)));
        let length = by(input, &mut out).ok()?;
        out.truncate(length);
        Some(out)
    }

    // A trial routine's place: the first, any, the last, the next behind it, one soon behind that, or one far past the end.
    fn trial(&mut self) {
        let number = trials::routines().len() as u64;
        let place = match self.numbers.weighted(&[1, 5, 1, 1, 1, 1]) {
            0 => 0,
            1 => self.numbers.below(number),
            2 => number - 1,
            3 => number,
            4 => number + 1 + self.numbers.below(4000),
            _ => self.numbers.pick(&FAR),
        };
        let line = format!("trial {}", self.number(place));
        self.line(&line);
    }

    fn begin(&mut self) {
        self.line("begin");
    }

    // An output of no places, of as many as bytes are left, of one less, of some more, of about what the longest sheet has, or by chance.
    fn take(&mut self) {
        let left = self.frame.left().len() as u64;
        let n = match self.numbers.weighted(&[10, 10, 10, 10, 2, 58]) {
            0 => 0,
            1 => left,
            2 => left.saturating_sub(1),
            3 => left + 1 + self.numbers.below(3),
            4 => self.numbers.pick(&[833, 834, 835, 4096]),
            _ => 1 + self.numbers.below(left / 2 + 20),
        };
        let out: Vec<u8> = (0..n).map(|_| self.numbers.next() as u8).collect();
        let line = format!("take {}", hex(&out));
        self.line(&line);
    }

    // Calls while there is something to go on with, mostly to its end: these, each with its weight, and any others with the last weight.
    fn go_on(
        &mut self,
        something: fn(&Writer) -> bool,
        calls: &[fn(&mut Writer)],
        weights: &[u64],
    ) -> u64 {
        let mut lines = 0;
        while something(self) && !self.numbers.percent(5) {
            match calls.get(self.numbers.weighted(weights)) {
                Some(call) => {
                    call(self);
                    lines += 1;
                }
                None => lines += self.step_on(),
            }
        }
        lines
    }

    // A save, with opens, begins and any other calls between its parts.
    fn save(&mut self) -> u64 {
        self.begin();
        let calls = [Writer::take, Writer::open_any, Writer::begin];
        1 + self.go_on(
            |writer| !writer.frame.left().is_empty(),
            &calls,
            &[6, 2, 1, 3],
        )
    }

    fn tell(&mut self, head: u64) {
        let samples = match self.numbers.weighted(&[10, 60, 28, 2]) {
            0 => 0,
            1 => self.numbers.pick(&[1, 255, 256, 257, 512, 513]),
            2 => 1 + self.numbers.below(1000),
            _ => 65_535 - self.numbers.below(2),
        };
        let line = format!("tell {} {}", self.number(head), self.number(samples));
        self.line(&line);
    }

    fn turn(&mut self) {
        self.line("turn");
    }

    // One telling in ten is of a head that is none.
    fn tell_any(&mut self) {
        let head = match self.numbers.weighted(&[9, 1]) {
            0 => self.numbers.below(12),
            _ => self.numbers.pick(&[12, u64::MAX]),
        };
        self.tell(head);
    }

    // Some heads are told, often all, and not in the ring's order; then there are turns, with tellings and any other calls between, and one
    // turn more.
    fn tellings(&mut self) -> u64 {
        let first = self.numbers.below(12);
        let some = 1 + self.numbers.below(18).min(11);
        (0..some).for_each(|k| self.tell((first + 7 * k) % 12));
        let waits = |writer: &Writer| writer.frame.rota.waiting().next().is_some();
        let lines = self.go_on(waits, &[Writer::turn, Writer::tell_any], &[9, 1, 1]);
        self.turn();
        some + lines + 1
    }

    fn load(&mut self, head: u64) {
        let library = self.frame.library().to_vec();
        let entry = self.entry_number(&library);
        let line = format!("load {} {entry}", self.number(head));
        self.line(&line);
    }

    fn run(&mut self, head: u64, outputs: usize) {
        let form = self.form(head, outputs);
        let (n, m, k) = self.lengths();
        let mut line = format!(
            "{} {} {form} {} {}",
            ["run", "two"][outputs - 1],
            self.number(head),
            self.samples(n),
            self.samples(m)
        );
        if outputs == 2 {
            line = format!("{line} {}", self.samples(k));
        }
        self.line(&line);
    }

    fn mark_number(&mut self, head: u64) -> u64 {
        let marks = self.frame.marks(head) as u64;
        match self.numbers.weighted(&[80, 12, 8]) {
            0 if marks > 0 => self.numbers.below(marks),
            0 | 1 => marks,
            _ => self.numbers.pick(&[4, 5, 1 << 33, u64::MAX]),
        }
    }

    fn back_or_drop(&mut self, head: u64, back: bool) {
        let mark = self.mark_number(head);
        let line = format!(
            "{} {} {}",
            if back { "back" } else { "drop" },
            self.number(head),
            self.number(mark)
        );
        self.line(&line);
    }

    fn mark(&mut self, head: u64) {
        let line = format!("mark {}", self.number(head));
        self.line(&line);
    }

    // Marks, runs and returns in quick turn on one head: a return inside an earlier return.
    fn returns(&mut self, head: u64) -> u64 {
        let turns = 4 + self.numbers.below(12);
        for _ in 0..turns {
            match self.numbers.weighted(&[3, 4, 3, 1, 1]) {
                0 => self.mark(head),
                1 => self.run(head, 1),
                2 => self.back_or_drop(head, true),
                3 => self.back_or_drop(head, false),
                _ => self.load(head),
            }
        }
        self.line(&format!("head {head}"));
        self.line(&format!("count {head}"));
        turns + 2
    }

    // The frame is saved, and kept to be restored.
    fn close(&mut self) {
        let rows = self.frame.rows();
        let out = self.output(closing::bytes(&rows).len());
        let line = format!("save {}", hex(&out));
        self.line(&line);
        if self.saved.len() < KEPT {
            self.saved.push(rows);
        } else {
            let place = self.numbers.below(KEPT as u64) as usize;
            self.saved[place] = rows;
        }
    }

    // A frame that was saved is restored: as it was, with counts near the greatest, or changed. Then its heads are run.
    fn restore(&mut self) -> u64 {
        if self.saved.is_empty() || self.numbers.percent(10) {
            self.close();
        }
        let place = self.numbers.below(self.saved.len() as u64) as usize;
        let mut rows = self.saved[place].clone();
        let how = self.numbers.weighted(&[20, 20, 45, 15]);
        match how {
            0 => {}
            1 => self.raise_counts(&mut rows),
            _ => self.change_rows(&mut rows),
        }
        let mut bytes = closing::bytes(&rows);
        if how == 3 {
            bytes = closing::bytes(&self.saved[place]);
            self.change_bytes(&mut bytes);
        }
        self.line(&restoring(&bytes));
        let filled: Vec<u64> = (0..12)
            .filter(|h| self.frame.type_at(*h).is_some())
            .collect();
        if filled.is_empty() || self.numbers.percent(40) {
            return 1;
        }
        let some = 1 + self.numbers.below(5);
        self.favourites = (0..some).map(|_| self.numbers.pick(&filled)).collect();
        let head = self.favourites[0];
        1 + self.returns(head)
    }

    // So near that some short runs reach the greatest count.
    fn raise_counts(&mut self, rows: &mut [Row]) {
        for row in rows.iter_mut().filter(|row| !row.is_empty()) {
            let less = match self.numbers.weighted(&[1, 3, 3, 1]) {
                0 => 0,
                1 => self.numbers.below(8),
                2 => self.numbers.below(40),
                _ => u64::from(row.count),
            };
            row.count = u32::MAX - less as u32;
        }
    }

    // A word that a filter may retain.
    fn retained(&mut self) -> u32 {
        word_of(f32::from_bits(self.sample_word()))
    }

    // One change of a frame's rows. Some changes make another frame, most make what is none.
    fn change_rows(&mut self, rows: &mut Vec<Row>) {
        let mut places = [(); 2].map(|_| self.numbers.below(rows.len() as u64) as usize);
        let change = self.numbers.below(18);
        // Most concern a filter's row, some an empty head's first, where there are such.
        for (place, of_filter) in places.iter_mut().zip([change > 3, true]) {
            let such: Vec<usize> = (0..rows.len())
                .filter(|at| rows[*at].is_empty() != of_filter)
                .collect();
            if !such.is_empty() && !self.numbers.percent(5) {
                *place = self.numbers.pick(&such);
            }
        }
        let [at, other] = places;
        let head = rows[at].head;
        match change {
            // An empty head's record, and a mark of an empty head.
            0 => rows[at].count = 1 << self.numbers.below(32),
            1 => rows[at].words[self.numbers.below(8) as usize] = 1 << self.numbers.below(32),
            2 | 3 => {
                let mut mark = rows[other].clone();
                mark.head = head;
                rows.insert(at + 1, mark);
            }
            4 => rows.insert(at + 1, Row::of(head, None, 0)),
            5 => rows.insert(at, rows[at].clone()),
            6 => {
                rows.remove(at);
            }
            7 => rows.swap(at, other),
            // Two heads change places, each with its marks.
            8 => {
                let with = rows[other].head;
                for row in rows.iter_mut() {
                    if row.head == head {
                        row.head = with;
                    } else if row.head == with {
                        row.head = head;
                    }
                }
                rows.sort_by_key(|row| row.head);
            }
            // The marks of every head in reverse order.
            9 => {
                for of in rows.chunk_by_mut(|a, b| a.head == b.head) {
                    of[1..].reverse();
                }
            }
            // Five marks.
            10 => fill(rows, at, 6),
            // Four marks at all heads.
            11 => {
                let one = rows[at].clone();
                for head in 0..12 {
                    let of = rows.iter().position(|row| row.head == head).unwrap();
                    if rows[of].is_empty() {
                        rows[of] = Row {
                            head,
                            ..one.clone()
                        };
                    }
                    fill(rows, of, 5);
                }
            }
            12 => rows.push(Row::of(12, None, 0)),
            13 => rows.last_mut().unwrap().head = self.numbers.pick(&[0, 10, 12, 13, 255]),
            14 => rows[at].filter = self.numbers.pick(&[1, 2, 3, 4, 5, 6, 7, 8, 16, 255]),
            15 => {
                let used = rows[at].split().0.len().max(1) as u64;
                rows[at].words[self.numbers.below(used) as usize] =
                    self.numbers
                        .pick(&[0x7F80_0001, 0x7FC0_0001, 0xFFC0_0000, 0xFFFF_FFFF]);
            }
            16 => {
                let used = rows[at].split().0.len() as u64;
                let word = (used + self.numbers.below(9 - used)).min(7) as usize;
                rows[at].words[word] = 1 << self.numbers.below(32);
            }
            _ => {
                for word in 0..rows[at].split().0.len() {
                    rows[at].words[word] = self.retained();
                }
            }
        }
    }

    // One change of a frame's bytes.
    fn change_bytes(&mut self, bytes: &mut Vec<u8>) {
        let at = self.numbers.below(bytes.len() as u64) as usize;
        match self.numbers.below(6) {
            0 => bytes[at] = self.numbers.next() as u8,
            1 => bytes[at] ^= 1 << self.numbers.below(8),
            2 => bytes.truncate(at),
            3 => bytes.extend(vec![0; self.numbers.pick(&[1, 2, 36, 37, 38, 39])]),
            4 => {
                let s = u16::from_le_bytes([bytes[0], bytes[1]]);
                let s = self.numbers.pick(&[0, 11, 12, 61, s - 1, s + 1, s + 256]);
                bytes[..2].copy_from_slice(&s.to_le_bytes());
            }
            _ => {
                let filter = 3 + 2 * self.numbers.below(u64::from(bytes[0])) as usize;
                bytes[filter] = self.numbers.below(10) as u8;
            }
        }
    }

    fn bad_line(&mut self) {
        const BAD: [&str; 105] = [
            "x",
            " ",
            "open",
            "open ",
            "open 0",
            "open 010",
            "open 0g",
            "open - ",
            " open -",
            "open  -",
            "Open -",
            "load 0",
            "load 0 0 0",
            "load -1 0",
            "load 0x1 0",
            "load 18446744073709551616 0",
            "load 000000000000000000000 0",
            "load +1 0",
            "load  0",
            "run 0 plain:low 3f800000",
            "run 0 plain:low 3f800000 00000000 00000000",
            "run 0 plain 3f800000 00000000",
            "run 0 plain:lowest 3f800000 00000000",
            "run 0 plain:low:low 3f800000 00000000",
            "run 0 gain:low 3f800000 00000000",
            "run 0 gain:low:3f8000 3f800000 00000000",
            "run 0 stride:low: 3f800000 00000000",
            "run 0 stride:low:99999999999999999999 - -",
            "run 0 multimode:- - -",
            "run 0 split: - -",
            "run 0 split 3f8000 00000000",
            "run 0 split 3f800000 -0",
            "two 0 split 3f800000 00000000",
            "two 0 pair:low - - -",
            "rest",
            "mark 0 0",
            "back 0",
            "drop 0 0 0",
            "check - ",
            "check1 -",
            "lookup2 - 0",
            "convert",
            "convert 1 -",
            "convert 1 - - -",
            "convert 0 - -",
            "convert 3 - -",
            "convert 01 - -",
            "convert 2 0 -",
            "convert 2 - 0g",
            "head 12345678901234567890123",
            "count",
            "count 0 0",
            "count -",
            "begin 0",
            "begin -",
            "begin ",
            "take",
            "take 0",
            "take - -",
            "tell",
            "tell 0",
            "tell 0 ",
            "tell 0 -",
            "tell 0 0 0",
            "tell 0 -1",
            "tell -1 5",
            "tell 0 65536",
            "tell 12 65536",
            "tell 0 18446744073709551615",
            "tell 0 18446744073709551616",
            "tell 18446744073709551616 5",
            "turn ",
            "turn 0",
            "turn none",
            "turns",
            "save",
            "save 0",
            "save - -",
            "restore",
            "restore ee 0",
            "restores -",
            "planes",
            "planes -",
            "planes - - -",
            "planes 0 -",
            "planes - 000",
            "planes 0g -",
            "planes  - -",
            "plane - -",
            "samples",
            "samples -",
            "samples - - 0",
            "samples 0000000 -",
            "samples - 0",
            "sample - -",
            "trial",
            "trial ",
            "trial 0 0",
            "trial  0",
            "trial -",
            "trial -1",
            "trial 0x0",
            "trial 18446744073709551616",
            "trial 000000000000000000000",
            "trials 0",
        ];
        match self.numbers.weighted(&[90, 8, 1, 1]) {
            0 => {
                let line = self.numbers.pick(&BAD);
                self.line(line);
            }
            1 => {
                let n = 1 + self.numbers.below(30);
                let line: String = (0..n)
                    .map(|_| {
                        self.numbers
                            .pick(&[' ', 'a', '0', 'r', '-', ':', '\t', '\r', '\0', 'é', '7'])
                    })
                    .collect();
                self.line(&line);
            }
            2 => {
                let n = self.numbers.pick(&[1025u64, 1100]);
                let line = format!("run 0 plain:low {} -", self.samples(n));
                self.line(&line);
            }
            _ => {
                let n = self.numbers.pick(&[4097usize, 5000]);
                let call = self.numbers.pick(&["write", "planes -", "samples"]);
                let behind = if call == "samples" { " -" } else { "" };
                let line = format!("{call} {}{behind}", "00".repeat(n));
                self.line(&line);
            }
        }
    }

    fn long_line(&mut self) {
        let n = self.numbers.pick(&[
            65_534usize,
            65_535,
            65_536,
            65_537,
            70_000,
            131_072,
            200_001,
        ]);
        let line = match self.numbers.below(3) {
            0 => "x".repeat(n),
            1 => format!("#{}", " ".repeat(n - 1)),
            _ => format!("open {}", "0".repeat(n - 5)),
        };
        self.line(&line);
    }

    // One call or a few; how many lines.
    fn step_on(&mut self) -> u64 {
        let head = self.head();
        match self.numbers.weighted(&[
            330, 130, 100, 60, 60, 35, 50, 40, 20, 20, 20, 20, 20, 20, 40, 5, 8, 6, 5, 4, 4, 6, 12,
            16, 10, 8,
        ]) {
            0 => self.run(head, 1),
            1 => self.run(head, 2),
            2 => self.load(head),
            3 => self.mark(head),
            4 => self.back_or_drop(head, true),
            5 => self.back_or_drop(head, false),
            6 => {
                let line = format!("rest {}", self.number(head));
                self.line(&line);
            }
            7 => {
                let line = format!("head {}", self.number(head));
                self.line(&line);
            }
            8 => self.open_any(),
            9 => {
                let out = self.output(self.frame.library().len());
                let line = format!("write {}", hex(&out));
                self.line(&line);
            }
            10 | 11 => {
                let sheet = self.any_sheet();
                let name = self.numbers.pick(&["check", "lookup", "check1", "lookup1"]);
                let line = format!("{name} {} {}", hex(&sheet), self.entry_number(&sheet));
                self.line(&line);
            }
            12 => return self.returns(head),
            13 => return self.convert(),
            14 => {
                let line = format!("count {}", self.number(head));
                self.line(&line);
            }
            15 => self.begin(),
            16 => self.take(),
            17 => return self.save(),
            18 => self.tell_any(),
            19 => self.turn(),
            20 => return self.tellings(),
            21 => self.close(),
            22 => return self.restore(),
            23 => return self.arrange(),
            24 => self.trial(),
            _ => match self.numbers.weighted(&[80, 10, 9, 1]) {
                0 => self.bad_line(),
                1 => self.line(""),
                2 => self.line("# a comment"),
                _ => self.long_line(),
            },
        }
        1
    }

    /// A history of about so many lines.
    pub fn history(&mut self, lines: u64) -> Vec<u8> {
        self.text.clear();
        self.frame = Frame::fresh(false);
        let some = 1 + self.numbers.below(5);
        self.favourites = (0..some).map(|_| self.numbers.below(12)).collect();
        // Before there is a library to save, or a filter.
        if self.numbers.percent(30) {
            self.begin();
            self.take();
            self.close();
        }
        if self.numbers.percent(95) {
            let sheet = self.sheet();
            self.open(sheet);
        }
        let mut done = 0;
        while done < lines {
            done += self.step_on();
        }
        // What is left of a save, and the library, of which the longest has 834 bytes; all heads; a turn for each that still waits.
        self.line(&lend("take", 834));
        self.line(&lend("write", 834));
        self.line(&lend("save", 2282));
        (0..12).for_each(|_| self.turn());
        if self.numbers.percent(50) {
            self.text.pop();
        }
        self.text.clone().into_bytes()
    }
}

/// A small alphabet of calls, of which every list is tried. A list has every shorter one as its start.
pub struct Alphabet {
    /// What its calls are.
    pub calls: &'static str,
    /// How many lists a history has, one after the other.
    together: u64,
    /// What a history begins with, by its number.
    start: fn(u64) -> String,
    /// The calls, and what a list ends with, by its place in the history.
    letters: fn(u64) -> Vec<String>,
    end: fn(u64) -> String,
}

impl Alphabet {
    pub fn named(name: &str) -> Option<Alphabet> {
        match name {
            "short" => Some(SHORT),
            "saves" => Some(SAVES),
            "rota" => Some(ROTA),
            "closings" => Some(CLOSINGS),
            _ => None,
        }
    }

    /// How many lists there are of so many calls.
    pub fn lists(&self, length: u32) -> u64 {
        ((self.letters)(0).len() as u64).pow(length)
    }

    /// The histories of every list of exactly so many calls.
    pub fn histories(&self, length: u32) -> impl Iterator<Item = Vec<u8>> + '_ {
        let lists = self.lists(length);
        let starts = (0..lists).step_by(self.together as usize);
        starts.map(move |first| {
            let mut text = (self.start)(first / self.together);
            for list in first..lists.min(first + self.together) {
                let place = list - first;
                spell(&mut text, list, length, &(self.letters)(place));
                text.push_str(&(self.end)(place));
            }
            text.into_bytes()
        })
    }
}

/// A list of so many letters, a line each: the digits of its number, the lowest first, each a letter of the alphabet.
fn spell(text: &mut String, list: u64, length: u32, letters: &[String]) {
    let mut rest = list as usize;
    for _ in 0..length {
        text.push_str(&letters[rest % letters.len()]);
        text.push('\n');
        rest /= letters.len();
    }
}

/// Each list has a head of its own on a fresh frame, and what the head holds and its count are asked for at the end.
const SHORT: Alphabet = Alphabet {
    calls: "calls",
    together: 12,
    // One-pole in Exact and naive in approximation 4, at 0.1, in turn, so that two types and both editions are tried.
    start: |history| {
        [
            "open 010002cdcccc3d0000000000000000\n",
            "open 010245cdcccc3d0000003f00000000\n",
        ][(history % 2) as usize]
            .to_string()
    },
    letters: |h| {
        vec![
            format!("load {h} 0"),
            format!("run {h} plain:low 3f800000bf000000 0000000000000000"),
            format!("run {h} plain:high 3e800000 00000000"),
            format!("rest {h}"),
            format!("mark {h}"),
            format!("back {h} 0"),
            format!("back {h} 1"),
            format!("drop {h} 0"),
            format!("drop {h} 1"),
        ]
    },
    end: |h| format!("head {h}\ncount {h}\n"),
};

/// A line that lends an output of so many places.
fn lend(call: &str, places: usize) -> String {
    format!("{call} {}", hex(&vec![0xEE; places]))
}

/// A line that restores these bytes.
fn restoring(saved: &[u8]) -> String {
    format!("restore {}", hex(saved))
}

/// Sheets of 15 bytes in edition 1, and of 28 in edition 2.
const SHORT_SHEETS: [&str; 2] = [
    "0100010000003f0000000000000000",
    "02024201cdcc4c3e00000000000000000000003f0000000000000000",
];

/// Each list is on a fresh frame; at the end what is left is taken, and the library written. Two takes of 14 places end exactly with the
/// longer sheet; of the shorter one the second gets a byte.
const SAVES: Alphabet = Alphabet {
    calls: "opens, begins and takes",
    together: 1,
    start: |_| String::new(),
    letters: |_| {
        let mut letters = SHORT_SHEETS.map(|sheet| format!("open {sheet}")).to_vec();
        letters.push("begin".to_string());
        letters.extend([0, 14, 30].map(|places| lend("take", places)));
        letters
    },
    end: |_| format!("{}\n{}\n", lend("take", 30), lend("write", 30)),
};

/// At the end there are turns until no head waits: five grants is the most that these calls can leave. Then head 11 is served, so that the
/// next list finds the rota as on a fresh frame.
const ROTA: Alphabet = Alphabet {
    calls: "tellings and turns",
    together: 12,
    start: |_| String::new(),
    letters: |_| {
        [
            "tell 0 1",
            "tell 0 300",
            "tell 5 257",
            "tell 11 1",
            "tell 12 1",
            "tell 0 0",
            "turn",
        ]
        .map(String::from)
        .to_vec()
    },
    end: |_| format!("{}tell 11 1\nturn\n", "turn\n".repeat(6)),
};

/// Two frames are restored among a head's calls: one where the head has a naive filter with a mark, two samples below the greatest count, so
/// that the next run but one is refused; and one where it is empty, and its neighbour is not. At the end the frame is saved, and emptied for
/// the next list.
const CLOSINGS: Alphabet = Alphabet {
    calls: "restores and a head's calls",
    together: 64,
    start: |_| "open 0100040000803f0000803f0000803e\n".to_string(),
    letters: |_| {
        let filter = |head, name, words: &[u32], count| {
            Row::of(head, Some(Filter::of_words(name, words)), count)
        };
        let naive = |lp| filter(0, "naive", &[0x3F00_0000, 0x3F80_0000, lp, 1], u32::MAX - 2);
        let other = filter(1, "onepole", &[0x3F80_0000, 0x3F00_0000, 0xBF80_0000], 5);
        let [near, apart] = [vec![naive(0x3F80_0000), naive(0)], vec![other]]
            .map(|rows| restoring(&closing::bytes(&with_empty(rows))));
        vec![
            near,
            apart,
            "load 0 0".to_string(),
            "run 0 plain:low 3f800000bf000000 0000000000000000".to_string(),
            "rest 0".to_string(),
            "mark 0".to_string(),
            "back 0 0".to_string(),
            "drop 0 0".to_string(),
        ]
    },
    end: |_| {
        let empty = closing::bytes(&with_empty(Vec::new()));
        format!("{}\n{}\n", lend("save", 612), restoring(&empty))
    },
};

/// These rows, and an empty one for each head that has none.
fn with_empty(mut rows: Vec<Row>) -> Vec<Row> {
    for head in 0..12 {
        if rows.iter().all(|row| row.head != head) {
            rows.push(Row::of(head, None, 0));
        }
    }
    rows.sort_by_key(|row| row.head);
    rows
}

/// A sheet of these kind bytes, whose frequencies are all f.
fn sheet_of(edition: u8, kinds: &[u8], f: u32) -> Vec<u8> {
    let mut sheet = vec![kinds.len() as u8, edition];
    sheet.extend(kinds);
    for kind in kinds {
        let words: [u32; 3] = match kind % 16 {
            1 | 2 => [f, 0, 0],
            4 => [0x3F80_0000, 0x3F00_0000, 0x3E80_0000],
            _ => [f, 0x3F00_0000, 0],
        };
        words.iter().for_each(|w| sheet.extend(w.to_le_bytes()));
    }
    sheet
}

/// The frequency 0.2.
const FIFTH: u32 = 0x3E4C_CCCD;

/// Every change of one byte, every cut and every byte behind, those at one place together.
fn changes(bytes: Vec<u8>) -> impl Iterator<Item = Vec<Vec<u8>>> {
    (0..=bytes.len()).map(move |place| {
        let before = &bytes[..place];
        let behind = bytes.get(place + 1..).unwrap_or_default();
        let changed = (0..=255).map(|value| [before, &[value], behind].concat());
        [before.to_vec()].into_iter().chain(changed).collect()
    })
}

/// The changes of a valid sheet of each kind byte, of one with all seven kinds, of those in Exact at -0.497, -0.25 and -0.0, and of sheets of
/// edition 2. Each goes through check and lookup by both readers and through open, the entry is loaded and shown, and the sheet is converted
/// to both editions.
pub fn sheet_changes() -> impl Iterator<Item = Vec<u8>> {
    let mut sheets: Vec<Vec<u8>> = KIND_BYTES
        .iter()
        .map(|k| sheet_of(EDITION_1, &[*k], FIFTH))
        .collect();
    sheets.push(sheet_of(EDITION_1, &[1, 2, 3, 4, 5, 6, 7], FIFTH));
    for kind in [2, 3, 5] {
        sheets.extend(
            [0xBEFE_76C9, 0xBE80_0000, 0x8000_0000].map(|f| sheet_of(EDITION_1, &[kind], f)),
        );
    }
    for kind in [1, 2].into_iter().chain(EDITION_2_KIND_BYTES) {
        sheets.push(sheet_of(EDITION_2, &[kind], FIFTH));
    }
    sheets.push(sheet_of(
        EDITION_2,
        &[1, 2, 0x42, 3, 0x43, 4, 5, 0x45, 6, 7],
        FIFTH,
    ));
    sheets.into_iter().flat_map(|sheet| {
        let e = sheet[0] - 1;
        let lent = "ee".repeat(sheet.len() + 1);
        let lines = move |s: &Vec<u8>| {
            let s = hex(s);
            format!(
                "check {s} {e}\nlookup {s} {e}\ncheck1 {s} {e}\nlookup1 {s} {e}\nopen {s}\nload 0 {e}\nhead 0\n\
                 convert 1 {s} {lent}\nconvert 2 {s} {lent}\n"
            )
        };
        changes(sheet).map(move |changed| changed.iter().map(&lines).collect::<String>().into_bytes())
    })
}

/// A frame with a filter of each type, among them a NaN, an infinity and a subnormal, with marks, and with empty heads between.
fn frame_to_change() -> Vec<Row> {
    let sheet = sheet_of(EDITION_1, &[1, 2, 4, 5, 6, 7], FIFTH);
    standing(&format!(
        "open {}\n\
         load 0 0\nload 2 1\nload 3 2\nload 5 3\nload 8 4\nload 11 5\n\
         run 0 plain:low 00000001bf800000 0000000000000000\n\
         mark 3\nrun 3 plain:low 3f8000007f800000 0000000000000000\nmark 3\n\
         run 8 plain:band 3f8000007fc00000 0000000000000000\nmark 8\nrest 8\n\
         run 11 plain:high 3f800000 00000000\n",
        hex(&sheet)
    ))
}

/// What stands after these lines on a fresh frame.
fn standing(text: &str) -> Vec<Row> {
    let mut writer = Writer::new(0);
    text.lines().for_each(|line| writer.line(line));
    writer.frame.rows()
}

/// Both rearrangements of every input of up to 64 bytes into every output of up to 72 places, a history for each length, and what was written
/// given back to the other. Each byte of the two is another, so an answer shows for each of its places where the byte there is from.
pub fn arrangements() -> impl Iterator<Item = Vec<u8>> {
    const LONGEST: u8 = 64;
    const MOST_PLACES: u8 = 72;
    let [planes, samples] = ARRANGEMENTS;
    (0..=LONGEST).map(move |length| {
        let input: Vec<u8> = (0..length).collect();
        let mut text = String::new();
        for places in 0..=MOST_PLACES {
            let lent: Vec<u8> = (0..places).map(|place| 0x80 + place).collect();
            for ((name, by), (back, _)) in [(planes, samples), (samples, planes)] {
                let mut out = lent.clone();
                text.push_str(&format!("{name} {} {}\n", hex(&input), hex(&lent)));
                if let Ok(length) = by(&input, &mut out) {
                    text.push_str(&format!("{back} {} {}\n", hex(&out[..length]), hex(&lent)));
                }
            }
        }
        text.into_bytes()
    })
}

/// Every place of a trial routine and thousands behind them, then each power of two with its neighbours; and each routine on a trial frame,
/// its own line and those of its neighbours between its calls, which they leave alone.
pub fn trial_places() -> impl Iterator<Item = Vec<u8>> {
    let line = |place: u64| format!("trial {place}\n");
    let powers = (0..64).map(|k| 1u64 << k);
    let near = powers.flat_map(|power| [power - 1, power, power.saturating_add(1)]);
    let places: String = (0..4000).chain(near).chain([u64::MAX]).map(line).collect();
    let among = trials::routines()
        .iter()
        .enumerate()
        .map(move |(place, calls)| {
            let place = place as u64;
            let mut text = format!("open {}\n", SHORT_SHEETS[0]);
            for call in calls {
                let number = if ["load", "back", "drop"].contains(call) {
                    " 0"
                } else {
                    ""
                };
                text.push_str(&format!("{call} 0{number}\n"));
                (place..place + 2).for_each(|place| text.push_str(&line(place)));
                text.push_str("head 0\ncount 0\n");
            }
            text.into_bytes()
        });
    [places.into_bytes()].into_iter().chain(among)
}

/// The changes of a saved frame. Each is restored where the frame itself stands, or what the change before made of it, and what stands then
/// is saved.
pub fn frame_changes() -> impl Iterator<Item = Vec<u8>> {
    let saved = closing::bytes(&frame_to_change());
    let save = lend("save", saved.len());
    let first = format!("{}\n", restoring(&saved));
    changes(saved).map(move |changed| {
        let mut text = first.clone();
        for s in changed {
            text.push_str(&format!("{}\n{save}\n", restoring(&s)));
        }
        text.into_bytes()
    })
}

/// Puts copies of a row before it until its head has so many rows.
fn fill(rows: &mut Vec<Row>, at: usize, wanted: usize) {
    let row = rows[at].clone();
    let there = rows.iter().filter(|of| of.head == row.head).count();
    rows.splice(at..at, vec![row; wanted.saturating_sub(there)]);
}

// Samples in planes and back, for the fixed list: two samples, none, every special word. The inputs are whole and cut within a sample, the
// outputs longer, as long and too short.
fn arranged_samples() -> String {
    let mut text = String::from(
        "\n# Samples in planes, and back.\n\
         planes 0000803F0000003F EEEEEEEEEEEEEEEEEE\n\
         samples 0000000080003F3F EEEEEEEEEEEEEEEEEE\n\
         planes - -\nplanes - ee\nplanes 00000000 -\nplanes 000000 -\n\
         samples - -\nsamples - ee\nsamples 00000000 -\nsamples 000000 -\n",
    );
    let words = SPECIAL.iter().rev();
    let samples: Vec<u8> = words.flat_map(|w| w.to_le_bytes()).collect();
    let mut planes = vec![0; samples.len()];
    planes::planes(&samples, &mut planes).expect("whole samples, and a place for each byte");
    for (call, input) in [("planes", &samples), ("samples", &planes)] {
        for length in [input.len(), input.len() - 1, 8, 7, 6, 5] {
            let call = format!("{call} {}", hex(&input[..length]));
            for places in [length + 1, length, length - 1] {
                text.push_str(&format!("{}\n", lend(&call, places)));
            }
        }
    }
    text
}

// All trial routines and places past the end, for the fixed list; and some between the calls of a head, which go on as if they were not there.
fn trial_routines() -> String {
    let number = trials::routines().len() as u64;
    let line = |place: u64| format!("trial {place}\n");
    let all: String = (0..number + 2).chain(FAR).map(line).collect();
    let last = number - 1;
    format!(
        "\n# The trial routines, past the end, and among other calls.\n{all}\
         open {}\nload 0 0\ntrial 5\nrun 0 plain:low 3f800000 00000000\nmark 0\ntrial {last}\n\
         run 0 plain:low 3f800000 00000000\ntrial 00000000000000000{last}\nback 0 0\ntrial {number}\nhead 0\ncount 0\n",
        SHORT_SHEETS[0]
    )
}

/// The fixed list: a call of each kind with each answer that it gives, then a short random history.
pub fn sample(seed: u64) -> Vec<u8> {
    let mut text = String::from(
        "# Made by `tools/histories --sample`, with the answers of tools/reference.\n\n\
         # No library yet.\n\
         begin\ntake ee\n\n\
         # S11 of document 01, with the sheet of S10.\n\
         open 0100010000003f0000000000000000\n\
         load 0 0\n\
         run 0 plain:low 3f800000 00000000\n\
         mark 0\n\
         run 0 plain:low 3f800000 00000000\n\
         back 0 0\n\
         run 0 plain:low 3f800000 00000000\n\
         head 0\n\n\
         # S1, and S4: stride keeps the places between.\n\
         load 1 0\n\
         run 1 plain:low 3f8000003f80000000000000 000000000000000000000000\n\
         open 0100040000803f0000803f0000803e\n\
         load 2 0\n\
         run 2 stride:low:2 3f8000004110000000000000 4048f5c34048f5c34048f5c3\n\n\
         # S12: four marks are accepted, the fifth is refused; head 11 is there, 12 is not.\n\
         mark 2\nmark 2\nmark 2\nmark 2\nmark 2\n\
         load 11 0\nload 12 0\n\n\
         # Every number of the refusal table.\n",
    );
    let mut writer = Writer::new(seed);
    let all: Vec<u8> = [7, 0, 1, 2, 3, 4, 5, 6, 7]
        .into_iter()
        .chain(
            [
                [0x3F00_0000u32, 0, 0],
                [0x3DCC_CCCD, 0, 0],
                [0x3DCC_CCCD, 0x3F00_0000, 0],
                [0x3F80_0000, 0x3F80_0000, 0x3E80_0000],
                [0x3DCC_CCCD, 0x3F00_0000, 0],
                [0x3F00_0000, 0x3F00_0000, 0],
                [0x3F00_0000, 0x3F00_0000, 0],
            ]
            .iter()
            .flatten()
            .flat_map(|w| w.to_le_bytes()),
        )
        .collect();
    for line in [
        "head 12",
        "open 00",
        "write -",
        "open 0100080000000000000000000000",
        "open 010008000000000000000000000000",
        "open 0100110000003f0000000000000000",
        "open 010001010080ff0000000000000000",
        "open 0100010000003f0000000001000000",
        "load 0 1",
        "rest 5",
        "mark 5",
        "run 5 plain:low - -",
        "two 5 split - - -",
        "back 5 0",
        "drop 2 4",
        "run 2 decimate:low:1 - -",
        "run 2 stride:low:0 - -",
        "open 010002ca76febe0000000000000000",
        "open 010002c976febe0000000000000000",
        "open 010012ca76febe0000000000000000",
        "write 00",
        "check 0100010000003f0000000000000000 0",
        "check 0100010000003f0000000000000000 1",
        "lookup 0100010000003f0000000000000000 0",
        "lookup 0100010000003f0000000000000000 1",
        "lookup - 0",
        "",
        "# Every kind with every form, in both runs.",
    ] {
        text.push_str(line);
        text.push('\n');
    }
    text.push_str(&format!(
        "open {}\nwrite {}\n",
        hex(&all),
        "ee".repeat(all.len() + 1)
    ));
    for h in 0..7 {
        text.push_str(&format!("load {h} {h}\nhead {h}\n"));
    }
    for h in 0..7 {
        for form in [
            "plain:low",
            "plain:band",
            "plain:normalized",
            "plain:high",
            "gain:low:3f000000",
            "stride:band:2",
            "multimode:3f000000",
            "multimode:3e99999a",
            "decimate:high:3",
            "gains:normalized:3f000000:bf800000",
            "pair:low:high",
            "split",
        ] {
            let lent = "7fc000017fc000017fc000017fc00001";
            text.push_str(&format!("run {h} {form} 3f800000bf00000000000000 {lent}\n"));
            text.push_str(&format!(
                "two {h} {form} 3f8000003e800000 {lent} 00000000\n"
            ));
        }
        text.push_str(&format!(
            "head {h}\ncount {h}\nrest {h}\nhead {h}\ncount {h}\n"
        ));
        // The first sample after a rest, where the last before it was a 1.
        text.push_str(&format!(
            "run {h} plain:band 3f800000 00000000\nrest {h}\nrun {h} plain:band 00000000 3f800000\nhead {h}\n"
        ));
    }
    // All samples within the shortest length count, whichever the form filters; marks keep the count, a load begins anew.
    text.push_str("\n# Counts.\ncount 12\ncount 11\nload 10 3\ncount 10\n");
    for line in [
        "run 10 stride:low:2 3f8000004110000000000000 4048f5c34048f5c34048f5c3",
        "count 10",
        "run 10 stride:low:0 3f800000 00000000",
        "count 10",
        "mark 10",
        "run 10 plain:low 3f8000003f800000 00000000",
        "count 10",
        "two 10 pair:low:high 3f8000003f800000 0000000000000000 00000000",
        "count 10",
        "rest 10",
        "count 10",
        "back 10 0",
        "count 10",
        "load 10 4",
        "count 10",
        "run 10 decimate:high:3 3f800000bf0000000000000000000000 00000000000000000000000000000000",
        "count 10",
        "back 10 0",
        "count 10",
        "drop 10 0",
        "count 10",
    ] {
        text.push_str(line);
        text.push('\n');
    }
    text.push_str(
        "\n# A save goes on with its sheet while another is opened; the next one has that.\n",
    );
    let [next, saved] = SHORT_SHEETS.map(|sheet| format!("open {sheet}"));
    for line in [
        &lend("take", 0),
        &lend("take", 2),
        &saved,
        "begin",
        "begin",
        &lend("take", 14),
        &next,
        &lend("take", 0),
        "load 9 0",
        "open 00",
        &lend("write", 16),
        &lend("take", 13),
        "begin",
        "head 9",
        &lend("take", 30),
        &lend("take", 30),
        "begin",
        &lend("take", 15),
        &lend("take", 0),
        &lend("write", 15),
    ] {
        text.push_str(line);
        text.push('\n');
    }
    text.push_str(
        "\n# The rota: 1, 13 and 14 in their order; the heads in the ring's, whenever they were told; other calls between.\n\
         turn\n\
         tell 12 0\ntell 12 1\ntell 0 65536\ntell 4 0\ntell 4 300\ntell 4 0\ntell 4 300\n\
         tell 11 257\ntell 0 1\n\
         turn\nrun 0 plain:low 3f800000 00000000\n\
         turn\n\
         tell 2 5\nload 4 0\nrun 4 plain:low 3f800000 00000000\nmark 11\nback 11 0\ndrop 11 0\nrest 2\nbegin\ntake ee\n\
         turn\n\
         open 00\nopen 0100010000003f0000000000000000\ntake eeeeeeeeeeeeeeeeeeeeeeeeeeee\n\
         tell 0 512\n\
         turn\nturn\nturn\nturn\nturn\nturn\n\
         tell 0 1\nturn\nturn\n\
         # The longest wait.\n\
         tell 3 65535\n",
    );
    text.push_str(&"turn\n".repeat(257));
    text.push_str("\n# The frame is saved: into an output a place too short, as long, longer. It is restored, and goes on from there.\n");
    let saved = standing(&text);
    let length = closing::bytes(&saved).len();
    for places in [length - 1, length, length + 2] {
        text.push_str(&format!("{}\n", lend("save", places)));
    }
    let restore = |rows: &[Row]| format!("{}\n", restoring(&closing::bytes(rows)));
    text.push_str("load 2 0\ndrop 2 0\nrest 4\nrun 3 plain:low 3f800000 00000000\nbegin\ntake ee\ntell 6 257\n");
    text.push_str(&restore(&saved));
    for h in [2, 3, 4, 10] {
        text.push_str(&format!("head {h}\ncount {h}\n"));
    }
    text.push_str("run 3 stride:low:2 3f8000003f800000 0000000000000000\nback 2 1\nmark 2\nrest 2\nhead 2\nload 2 0\ncount 2\nturn\nturn\ntake eeeeeeeeeeeeeeeeeeeeeeeeeeeeee\n");
    text.push_str(
        "\n# An empty frame; the longest one; one whose heads come to the greatest count.\n",
    );
    text.push_str(&restore(&with_empty(Vec::new())));
    text.push_str(&format!("{}\n{}\n", lend("save", 457), lend("save", 458)));
    text.push_str("rest 2\nmark 2\nback 2 0\nrun 2 plain:low - -\nload 2 0\n");
    let filters: Vec<&Row> = saved.iter().filter(|row| !row.is_empty()).collect();
    let longest: Vec<Row> = (0..60)
        .map(|k| Row {
            head: k as u8 / 5,
            count: k as u32,
            ..filters[k % filters.len()].clone()
        })
        .collect();
    text.push_str(&restore(&longest));
    text.push_str("mark 11\nback 11 3\nhead 11\ncount 11\n");
    text.push_str(&format!("{}\n{}\n", lend("save", 2281), lend("save", 2283)));
    let mut near = saved.clone();
    for row in near.iter_mut().filter(|row| !row.is_empty()) {
        row.count = u32::MAX - 2;
    }
    text.push_str(&restore(&near));
    for h in [2, 3, 5] {
        for n in [3, 2, 0, 1] {
            let samples = "3f800000".repeat(n);
            let samples = if n == 0 { "-" } else { &samples };
            text.push_str(&format!(
                "run {h} plain:low {samples} {samples}\ncount {h}\n"
            ));
        }
        text.push_str(&format!(
            "two {h} pair:low:high 3f800000 00000000 00000000\nrest {h}\ncount {h}\n"
        ));
    }
    text.push_str(
        "\n# What is no saved frame.\nrestore -\nrestore 0c\nrestore 0c00\nrestore 0000\n",
    );
    let filter = saved.iter().position(|row| row.filter == 3).unwrap();
    let none = saved.iter().position(Row::is_empty).unwrap();
    let no_mark = Row::of(saved[filter].head, None, 0);
    let mark_of_none = Row {
        head: saved[none].head,
        ..saved[filter].clone()
    };
    let broken: [&dyn Fn(&mut Vec<Row>); 9] = [
        &|rows| rows.swap(0, filter),
        &|rows| fill(rows, filter, 6),
        &|rows| rows[filter].filter = 7,
        &|rows| rows.insert(filter + 1, no_mark.clone()),
        &|rows| rows.insert(none + 1, mark_of_none.clone()),
        &|rows| rows[filter].words[7] = 0x8000_0000,
        &|rows| rows[filter].words[3] = 0xFFC0_0000,
        &|rows| rows[none].count = 1,
        &|rows| rows.push(Row::of(12, None, 0)),
    ];
    for change in broken {
        let mut rows = saved.clone();
        change(&mut rows);
        text.push_str(&restore(&rows));
    }
    text.push_str("head 2\nhead 3\ncount 3\n");
    text.push_str(&restore(&saved));
    text.push_str("\n# Exact below 0.\n");
    for kind in [2u8, 3, 5] {
        for f in MIRRORED {
            let b: u32 = if kind == 2 { 0 } else { 0x3F00_0000 };
            let mut sheet = vec![1, 0, kind];
            [f, b, 0].iter().for_each(|w| sheet.extend(w.to_le_bytes()));
            text.push_str(&format!("open {}\nload 0 0\nhead 0\n", hex(&sheet)));
        }
    }
    text.push_str("\n# Edition 2, and the reader that knows edition 1 only.\n");
    for kind in [0x42u8, 0x43, 0x45, 0x41, 0x44, 0x52, 0x12] {
        for (edition, f) in [
            (2u8, 0x3E4C_CCCDu32),
            (2, 0x3F00_0000),
            (2, 0xBF80_0000),
            (0, 0x3E4C_CCCD),
            (1, 0x3E4C_CCCD),
            (3, 0x3E4C_CCCD),
        ] {
            let b: u32 = if kind % 16 < 3 { 0 } else { 0x3F00_0000 };
            let mut sheet = vec![1, edition, kind];
            [f, b, 0].iter().for_each(|w| sheet.extend(w.to_le_bytes()));
            let sheet = hex(&sheet);
            text.push_str(&format!(
                "open {sheet}\nload 0 0\nhead 0\nwrite {}\n",
                "ee".repeat(15)
            ));
            text.push_str(&format!("check {sheet} 0\nlookup {sheet} 0\n"));
            text.push_str(&format!("check1 {sheet} 0\nlookup1 {sheet} 0\n"));
        }
    }
    text.push_str("\n# Sheets of both editions and of none, converted to both: into outputs a byte too long, as long and a byte too short.\n");
    for kinds in [[1u8, 0x12], [1, 0x42], [1, 0x41], [0x45, 0x43]] {
        for second in [EDITION_1, EDITION_2, 1] {
            let mut sheet = vec![2, second];
            sheet.extend(kinds);
            for kind in kinds {
                let b: u32 = if kind % 16 < 3 { 0 } else { 0x3F00_0000 };
                [0x3E4C_CCCD, b, 0]
                    .iter()
                    .for_each(|w| sheet.extend(w.to_le_bytes()));
            }
            for wanted in [1, 2] {
                for n in [sheet.len() + 1, sheet.len(), sheet.len() - 1] {
                    text.push_str(&format!(
                        "convert {wanted} {} {}\n",
                        hex(&sheet),
                        "ee".repeat(n)
                    ));
                }
            }
        }
    }
    text.push_str("convert 1 - -\nconvert 2 - ee\n");
    text.push_str(&arranged_samples());
    text.push_str(&trial_routines());
    text.push_str("\n# Bad lines.\n");
    for _ in 0..40 {
        writer.text.clear();
        writer.bad_line();
        if writer.text.len() < 200 {
            text.push_str(&writer.text);
        }
    }
    text.push_str("\n# A random history.\n");
    let history = writer.history(260);
    let history = String::from_utf8(history).unwrap();
    for line in history.lines().filter(|line| line.len() < 4000) {
        text.push_str(line);
        text.push('\n');
    }
    text.into_bytes()
}
