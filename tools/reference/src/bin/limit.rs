//! What the program `count_limit` has to write: the same calls at one head, over the source's Rust, with 02 i's count beside it. Every line
//! has the same form as there. It takes every one of the 4,294,967,295 samples through the source's filter, where the form does.

use reference::filters::{has_form, loaded, type_of, Filter, Form, Mode};
use reference::lists::counts;

const BLOCK: usize = 262_144;
const LENT: f32 = 7.0;

struct Head {
    kind: u8,
    words: [u32; 3],
    filter: Filter,
    count: u64,
    marks: Vec<(Filter, u64)>,
    input: Vec<f32>,
    outputs: [Vec<f32>; 2],
}

impl Head {
    fn loaded(kind: u8, words: [u32; 3]) -> Head {
        let mut input = vec![1.0; BLOCK];
        input[0] = -0.5;
        Head {
            kind,
            words,
            filter: loaded(kind, 0, words),
            count: 0,
            marks: Vec::new(),
            input,
            outputs: [vec![LENT; BLOCK], vec![LENT; BLOCK]],
        }
    }

    // The refusal's number, or 0.
    fn run(&mut self, form: Form, n: usize, outputs: usize) -> u8 {
        if !has_form(type_of(self.kind), outputs, &form) {
            return 9;
        }
        if let Form::Stride(_, 0) | Form::Decimate(_, 0) = form {
            return 10;
        }
        if !counts(self.count, n) {
            return 18;
        }
        let mut places: Vec<&mut [f32]> =
            self.outputs.iter_mut().map(|out| &mut out[..n]).collect();
        self.filter
            .run(&form, &self.input[..n], &mut places[..outputs]);
        self.count += n as u64;
        0
    }

    fn say(&self, what: &str, n: usize, number: u8) {
        println!("{what} {n}: {number}, count {}", self.count);
    }

    fn told(&mut self, what: &str, form: Form, n: usize, outputs: usize) {
        self.outputs[0][0] = LENT;
        self.outputs[1][0] = LENT;
        let number = self.run(form, n, outputs);
        print!("{what} {n}: {number}, count {}", self.count);
        for out in &self.outputs[..outputs] {
            print!(", output {:08x}", out[0].to_bits());
        }
        println!();
    }

    fn mark(&mut self) {
        self.marks.push((self.filter.clone(), self.count));
        self.say("mark", self.marks.len() - 1, 0);
    }

    fn go_back(&mut self, mark: usize) {
        (self.filter, self.count) = self.marks[mark].clone();
        self.marks.truncate(mark + 1);
    }

    fn back(&mut self, mark: usize) {
        self.go_back(mark);
        self.say("back to mark", mark, 0);
    }

    fn each_length(&mut self, form: Form) {
        let mut numbers = Vec::new();
        for n in 0..=200 {
            numbers.push(self.run(form, n, 1));
            self.go_back(0);
        }
        let accepted = numbers[..=100].iter().filter(|n| **n == 0).count();
        let refused = numbers[101..].iter().filter(|n| **n == 18).count();
        self.say("up to 100 samples, accepted", accepted, 0);
        self.say("above 100 samples, refused", refused, 18);
    }

    fn try_limit(
        &mut self,
        entry: usize,
        way: Form,
        stepped: Form,
        two: Form,
        no_step: Form,
        absent: Form,
    ) {
        for _ in 0..16_383 {
            self.run(way, BLOCK, 1);
        }
        self.told("stepped, samples", stepped, BLOCK - 101, 1);
        self.mark();
        self.each_length(stepped);
        self.each_length(Form::Plain(Mode::Low));
        self.told("stepped, samples", stepped, 99, 1);
        self.mark();
        self.told("stepped, samples", stepped, 2, 1);
        self.told("two outputs, samples", two, 2, 2);
        self.told("a step of 0, samples", no_step, 2, 1);
        self.told("another type's form, samples", absent, 2, 1);
        self.told("stepped, samples", stepped, 1, 1);
        self.told("stepped, samples", stepped, 1, 1);
        self.told("stepped, samples", stepped, 0, 1);
        self.back(1);
        self.told("two outputs, samples", two, 1, 2);
        self.back(1);
        self.told("stepped, samples", stepped, 1, 1);
        self.filter.rest();
        self.say("rest of head", 11, 0);
        self.filter = loaded(self.kind, 0, self.words);
        self.count = 0;
        self.say("load of entry", entry, 0);
    }
}

fn main() {
    let low = Mode::Low;
    println!("An Svf, by strides of a whole run.");
    Head::loaded(4, [0x3F80_0000, 0x3F80_0000, 0x3E80_0000]).try_limit(
        0,
        Form::Stride(low, BLOCK as u64),
        Form::Stride(low, 2),
        Form::Pair(low, Mode::High),
        Form::Stride(low, 0),
        Form::Decimate(low, 1),
    );
    println!("A naive filter, by decimation.");
    Head::loaded(5, [0x3DCC_CCCD, 0x3F00_0000, 0]).try_limit(
        1,
        Form::Decimate(low, 2),
        Form::Decimate(low, 3),
        Form::Split,
        Form::Decimate(low, 0),
        Form::Stride(low, 1),
    );
}
