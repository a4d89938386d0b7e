//! Kept lists, and the calls in their terms.

use crate::closing::{self, Row};
use crate::filters::{has_form, loaded, type_of, Filter, Form};
use crate::rota::Rota;
use crate::sheets;
use std::rc::Rc;

/// Whether a head that has sewn so many samples can sew n more (02 i).
pub fn counts(count: u64, n: usize) -> bool {
    count + n as u64 <= u64::from(u32::MAX)
}

/// What an accepted call adds to a head's list. A restore begins it anew, with the filter and its count.
enum Item {
    Restored {
        filter: Filter,
        count: u32,
    },
    Load {
        kind: u8,
        approximation: u8,
        words: [u32; 3],
    },
    Run {
        form: Form,
        outputs: usize,
        samples: Vec<f32>,
    },
    Rest,
}

struct Node {
    item: Item,
    before: List,
    // The type that the last load or the restore put in, and which of the two it was.
    of: &'static str,
    restored: bool,
    // The list's count and its filter, which `--replay` does not read.
    count: u64,
    filter: Filter,
}

/// A list, newest item first: a copy shares its items.
#[derive(Clone, Default)]
struct List(Option<Rc<Node>>);

// A long list is taken apart from its newest item on, not by recursion.
impl Drop for List {
    fn drop(&mut self) {
        let mut next = self.0.take();
        while let Some(rc) = next {
            match Rc::try_unwrap(rc) {
                Ok(mut node) => next = node.before.0.take(),
                Err(_) => break,
            }
        }
    }
}

fn apply(item: &Item, filter: Option<Filter>) -> Filter {
    match item {
        Item::Restored { filter, .. } => filter.clone(),
        Item::Load {
            kind,
            approximation,
            words,
        } => loaded(*kind, *approximation, *words),
        Item::Run {
            form,
            outputs,
            samples,
        } => {
            let mut filter = filter.expect("a run has a filter");
            let mut first = vec![0.0; samples.len()];
            let mut second = vec![0.0; samples.len()];
            let mut out = [&mut first[..], &mut second[..]];
            filter.run(form, samples, &mut out[..*outputs]);
            filter
        }
        Item::Rest => {
            let mut filter = filter.expect("a rest has a filter");
            filter.rest();
            filter
        }
    }
}

impl List {
    fn is_empty(&self) -> bool {
        self.0.is_none()
    }

    fn of(&self) -> Option<&'static str> {
        self.0.as_ref().map(|node| node.of)
    }

    // Whether its filter was restored, and no load came after that.
    fn is_restored(&self) -> bool {
        self.0.as_ref().is_some_and(|node| node.restored)
    }

    // The samples of its runs since its last load, and where there is none what it was restored with.
    fn count(&self, replay: bool) -> u64 {
        if !replay {
            return self.0.as_ref().map_or(0, |node| node.count);
        }
        let mut sum = 0;
        let mut list = self;
        while let Some(node) = &list.0 {
            match &node.item {
                Item::Load { .. } => break,
                Item::Restored { count, .. } => {
                    sum += u64::from(*count);
                    break;
                }
                Item::Run { samples, .. } => sum += samples.len() as u64,
                Item::Rest => {}
            }
            list = &node.before;
        }
        sum
    }

    // From an empty head, item by item.
    fn replayed(&self) -> Option<Filter> {
        let mut items = Vec::new();
        let mut list = self;
        while let Some(node) = &list.0 {
            items.push(&node.item);
            list = &node.before;
        }
        items
            .into_iter()
            .rev()
            .fold(None, |filter, item| Some(apply(item, filter)))
    }

    fn filter(&self, replay: bool) -> Option<Filter> {
        if replay {
            return self.replayed();
        }
        self.0.as_ref().map(|node| node.filter.clone())
    }

    fn with(&self, item: Item, filter: Filter) -> List {
        let of = match &item {
            Item::Restored { filter, .. } => filter.words().0,
            Item::Load { kind, .. } => type_of(*kind),
            _ => self.of().expect("a load or a restored filter stands first"),
        };
        let restored = match &item {
            Item::Restored { .. } => true,
            Item::Load { .. } => false,
            _ => self.is_restored(),
        };
        let count = match &item {
            Item::Restored { count, .. } => u64::from(*count),
            Item::Load { .. } => 0,
            Item::Run { samples, .. } => self.count(false) + samples.len() as u64,
            Item::Rest => self.count(false),
        };
        List(Some(Rc::new(Node {
            item,
            before: self.clone(),
            of,
            restored,
            count,
            filter,
        })))
    }

    // The list of one item that a row of a saved frame opens, or the empty one.
    fn opened(row: &Row) -> List {
        let empty = List::default();
        match row.filter() {
            Some(filter) => {
                let item = Item::Restored {
                    filter: filter.clone(),
                    count: row.count,
                };
                empty.with(item, filter)
            }
            None => empty,
        }
    }

    fn row(&self, head: u8, replay: bool) -> Row {
        let count =
            u32::try_from(self.count(replay)).expect("no more than refusal 18 lets through");
        Row::of(head, self.filter(replay), count)
    }
}

#[derive(Default)]
struct Head {
    list: List,
    row: Vec<List>,
}

/// The sheet of the last accepted open, none before any; what is left to take of a save (02 h), nothing where none is unfinished; the rota,
/// which no other part concerns; and twelve heads.
#[derive(Default)]
pub struct Frame {
    library: Vec<u8>,
    left: Vec<u8>,
    pub rota: Rota,
    heads: [Head; 12],
    replay: bool,
}

impl Frame {
    pub fn fresh(replay: bool) -> Frame {
        Frame {
            replay,
            ..Frame::default()
        }
    }

    fn entries(&self) -> usize {
        if self.library.is_empty() {
            0
        } else {
            sheets::entries(&self.library)
        }
    }

    fn head(&mut self, head: u64) -> Option<&mut Head> {
        usize::try_from(head)
            .ok()
            .and_then(|h| self.heads.get_mut(h))
    }

    /// The type of a head's filter, by the last load in its list or by the restore that opens it.
    pub fn type_at(&mut self, head: u64) -> Option<&'static str> {
        self.head(head)?.list.of()
    }

    /// Whether a head's filter was restored, and not loaded since.
    pub fn is_restored(&mut self, head: u64) -> bool {
        self.head(head).is_some_and(|head| head.list.is_restored())
    }

    /// How many marks a head has; none above 11.
    pub fn marks(&mut self, head: u64) -> usize {
        self.head(head).map_or(0, |head| head.row.len())
    }

    /// The sheet of the last accepted open.
    pub fn library(&self) -> &[u8] {
        &self.library
    }

    /// The kind byte of an entry.
    pub fn kind_byte(&self, entry: u64) -> u8 {
        self.library[2 + entry as usize]
    }

    /// Whether an entry takes a frequency below 0 in Exact.
    pub fn is_mirrored(&self, entry: u64) -> bool {
        let a = f32::from_bits(sheets::word(&self.library, entry as usize, 0));
        [2, 3, 5].contains(&self.kind_byte(entry)) && a < 0.0
    }

    pub fn open(&mut self, sheet: &[u8]) -> u8 {
        let number = sheets::check(sheet);
        if number == 0 {
            self.library = sheet.to_vec();
        }
        number
    }

    pub fn load(&mut self, head: u64, entry: u64) -> u8 {
        if head > 11 {
            return 1;
        }
        if entry >= self.entries() as u64 {
            return 5;
        }
        let entry = entry as usize;
        let (kind, approximation) = sheets::kind(&self.library, entry);
        let words = [0, 1, 2].map(|k| sheets::word(&self.library, entry, k));
        let item = Item::Load {
            kind,
            approximation,
            words,
        };
        let filter = apply(&item, None);
        let head = self.head(head).unwrap();
        head.list = head.list.with(item, filter);
        0
    }

    /// A run of one output or of two. The outputs are as lent where it is refused.
    pub fn run(&mut self, head: u64, form: Form, input: &[f32], outputs: &mut [Vec<f32>]) -> u8 {
        let replay = self.replay;
        let Some(head) = self.head(head) else {
            return 1;
        };
        let Some(of) = head.list.of() else {
            return 6;
        };
        if !has_form(of, outputs.len(), &form) {
            return 9;
        }
        if let Form::Stride(_, 0) | Form::Decimate(_, 0) = form {
            return 10;
        }
        let shortest = outputs.iter().map(Vec::len).fold(input.len(), usize::min);
        let samples = &input[..shortest];
        if !counts(head.list.count(replay), shortest) {
            return 18;
        }
        let mut filter = head.list.filter(replay).unwrap();
        let how_many = outputs.len();
        let mut places: Vec<&mut [f32]> =
            outputs.iter_mut().map(|out| &mut out[..shortest]).collect();
        filter.run(&form, samples, &mut places);
        let item = Item::Run {
            form,
            outputs: how_many,
            samples: samples.to_vec(),
        };
        head.list = head.list.with(item, filter);
        0
    }

    pub fn rest(&mut self, head: u64) -> u8 {
        let replay = self.replay;
        let Some(head) = self.head(head) else {
            return 1;
        };
        let Some(filter) = head.list.filter(replay) else {
            return 6;
        };
        head.list = head.list.with(Item::Rest, apply(&Item::Rest, Some(filter)));
        0
    }

    /// Whether the head's filter has a last sample that its own `reset` would leave.
    pub fn keeps_a_sample(&mut self, head: u64) -> bool {
        let replay = self.replay;
        let filter = self.head(head).and_then(|head| head.list.filter(replay));
        matches!(filter, Some(Filter::Modified(f)) if f.fields()[2] != 0.0)
    }

    /// The mark's number, or the refusal's.
    pub fn mark(&mut self, head: u64) -> Result<usize, u8> {
        let head = self.head(head).ok_or(1)?;
        if head.list.is_empty() {
            return Err(6);
        }
        if head.row.len() == 4 {
            return Err(8);
        }
        head.row.push(head.list.clone());
        Ok(head.row.len() - 1)
    }

    pub fn back(&mut self, head: u64, mark: u64) -> u8 {
        let Some(head) = self.head(head) else {
            return 1;
        };
        if mark >= head.row.len() as u64 {
            return 7;
        }
        let mark = mark as usize;
        head.list = head.row[mark].clone();
        head.row.truncate(mark + 1);
        0
    }

    pub fn drop(&mut self, head: u64, mark: u64) -> u8 {
        let Some(head) = self.head(head) else {
            return 1;
        };
        if mark >= head.row.len() as u64 {
            return 7;
        }
        head.row.truncate(mark as usize);
        0
    }

    /// The samples that a head has sewn since its load; nothing for a head above 11.
    pub fn count(&mut self, head: u64) -> Option<u64> {
        let replay = self.replay;
        Some(self.head(head)?.list.count(replay))
    }

    /// The length of the sheet that was written, or the refusal.
    pub fn write(&mut self, out: &mut [u8]) -> Result<usize, u8> {
        let n = self.library.len();
        if n == 0 {
            return Err(2);
        }
        if out.len() < n {
            return Err(12);
        }
        out[..n].copy_from_slice(&self.library);
        Ok(n)
    }

    /// Begins a save. It has bytes of its own, so no later open reaches them.
    pub fn begin(&mut self) -> u8 {
        if !self.left.is_empty() {
            return 16;
        }
        if self.library.is_empty() {
            return 2;
        }
        self.left = self.library.clone();
        0
    }

    /// How many bytes were written, or the refusal. Places behind them are as lent.
    pub fn take(&mut self, out: &mut [u8]) -> Result<usize, u8> {
        if self.left.is_empty() {
            return Err(17);
        }
        let n = out.len().min(self.left.len());
        out[..n].copy_from_slice(&self.left[..n]);
        self.left.drain(..n);
        Ok(n)
    }

    /// What is left to take of a save.
    pub fn left(&self) -> &[u8] {
        &self.left
    }

    /// Whether what is left is no end of the library, so that it can only be another sheet's.
    pub fn saves_another(&self) -> bool {
        !self.left.is_empty() && !self.library.ends_with(&self.left)
    }

    /// What a saved frame has of the heads: for each its own list's row, then those of its marks, oldest first.
    pub fn rows(&self) -> Vec<Row> {
        let row = |head: usize, list: &List| list.row(head as u8, self.replay);
        let mut rows = Vec::new();
        for (place, head) in self.heads.iter().enumerate() {
            rows.push(row(place, &head.list));
            rows.extend(head.row.iter().map(|list| row(place, list)));
        }
        rows
    }

    /// The length of the saved frame that was written, or the refusal. Places behind it are as lent.
    pub fn save(&self, out: &mut [u8]) -> Result<usize, u8> {
        let saved = closing::bytes(&self.rows());
        let to = out.get_mut(..saved.len()).ok_or(12)?;
        to.copy_from_slice(&saved);
        Ok(saved.len())
    }

    /// Each row of a saved frame opens a list of its own: a head's first row that of the head, each further row a mark's.
    pub fn restore(&mut self, saved: &[u8]) -> u8 {
        let Ok(rows) = closing::rows(saved) else {
            return 20;
        };
        for (place, head) in self.heads.iter_mut().enumerate() {
            let mut lists = rows
                .iter()
                .filter(|row| usize::from(row.head) == place)
                .map(List::opened);
            head.list = lists.next().expect("a row for each head");
            head.row = lists.collect();
        }
        0
    }

    /// The filter of a head and those of its marks, `None` for an empty one; nothing for a head above 11.
    pub fn shown(&mut self, head: u64) -> Option<Vec<Option<Filter>>> {
        let replay = self.replay;
        let head = self.head(head)?;
        let mut all = vec![head.list.filter(replay)];
        all.extend(head.row.iter().map(|list| list.filter(replay)));
        Some(all)
    }
}
