//! Gives histories to frame_calls and to the reference, and compares what they write byte for byte.
//! `histories random --seed N --calls N --lines N`, `histories short|saves|rota|closings --length N`, `histories sheets`, `histories frames`,
//! `histories planes`, `histories trials`, `histories sample`.
//! A history gets a program of its own; the reference gets many, with `# fresh frame` between.

use reference::closing::{LENGTH, RULES};
use reference::counts::Counts;
use reference::filters::TYPES;
use reference::histories::{self, Alphabet, Writer};
use reference::text::is_silent;
use std::fs::{self, File};
use std::process::{exit, Command, Stdio};
use std::time::Instant;

const PROGRAM: &str = "crates/frame_calls/out/frame_calls";
const REFERENCE: &str = "target/cargo/release/reference";
const FOLDER: &str = "target/histories";

/// The numbers of the refusals that there are. Heads come to 18 by counts that are restored; `count_limit` runs all the samples.
const REFUSALS: [u8; 20] = [
    1, 2, 3, 4, 5, 6, 7, 8, 9, 10, 11, 12, 13, 14, 15, 16, 17, 18, 19, 20,
];

/// How often each thing has to have been tried in a random run.
const LEAST: u64 = 50;

/// How often a call that document 02 adds has to have been accepted.
const OFTEN: u64 = 500;

/// Loads of a frequency below 0 in Exact.
const MIRRORED_LOADS: [&str; 3] = [
    "mirrored load onepole",
    "mirrored load svf",
    "mirrored load naive",
];

/// Only the writer of the histories knows how often.
const BROUGHT_BACK: &str = "planes or samples brought back by the other";

struct Comparison {
    counts: Counts,
    histories: u64,
    replay: bool,
}

impl Comparison {
    fn new(replay: bool) -> Comparison {
        fs::create_dir_all(FOLDER).expect("target/histories");
        Comparison {
            counts: Counts::default(),
            histories: 0,
            replay,
        }
    }

    fn compare(&mut self, batch: &[Vec<u8>]) {
        let all = format!("{FOLDER}/batch");
        let counts = format!("{FOLDER}/counts");
        let mut text = Vec::new();
        for history in batch {
            text.extend_from_slice(b"# fresh frame\n");
            text.extend_from_slice(history);
            if history.last() != Some(&b'\n') {
                text.push(b'\n');
            }
        }
        fs::write(&all, &text).expect("the batch");
        let mut reference = Command::new(REFERENCE);
        reference.args(["--frames", "--counts", &counts]);
        if self.replay {
            reference.arg("--replay");
        }
        let reference = reference
            .stdin(File::open(&all).expect("the batch"))
            .stdout(Stdio::piped())
            .spawn()
            .expect("the reference");
        let one = format!("{FOLDER}/history");
        let answers: Vec<Vec<u8>> = batch
            .iter()
            .map(|history| {
                fs::write(&one, history).expect("the history");
                let ran = Command::new(PROGRAM)
                    .stdin(File::open(&one).expect("the history"))
                    .output()
                    .expect("frame_calls");
                if !ran.status.success() {
                    eprintln!("histories: frame_calls ended with {} on {one}", ran.status);
                    exit(1);
                }
                if !each_said(&ran.stdout, &ran.stderr) {
                    eprintln!("histories: frame_calls does not say what is wrong with each bad line of {one}");
                    exit(1);
                }
                ran.stdout
            })
            .collect();
        let expected = reference.wait_with_output().expect("the reference");
        if !expected.status.success() {
            eprintln!(
                "histories: the reference ended with {} on {all}",
                expected.status
            );
            exit(1);
        }
        if answers.concat() != expected.stdout {
            differ(batch, &answers, &expected.stdout);
        }
        self.histories += batch.len() as u64;
        self.counts
            .read(&fs::read_to_string(&counts).expect("the counts"));
    }

    fn all(&mut self, histories: impl Iterator<Item = Vec<u8>>, at_once: usize) {
        let mut batch = Vec::new();
        for history in histories {
            batch.push(history);
            if batch.len() == at_once {
                self.compare(&batch);
                batch.clear();
            }
        }
        if !batch.is_empty() {
            self.compare(&batch);
        }
    }
}

// Whether standard error has a line for each answer that is none of the frame's, and no other.
fn each_said(answers: &[u8], said: &[u8]) -> bool {
    let lines = |text: &[u8], begin: &[u8]| {
        text.split(|b| *b == b'\n')
            .filter(|line| line.starts_with(begin))
            .count()
    };
    let faults = lines(said, b"frame_calls: line ");
    faults == lines(answers, b"? ") && faults == lines(said, b"f")
}

// Says where the first difference is, and keeps the history.
fn differ(batch: &[Vec<u8>], answers: &[Vec<u8>], expected: &[u8]) -> ! {
    let mut expected = expected.split(|b| *b == b'\n');
    for (history, answers) in batch.iter().zip(answers) {
        let mut ours = answers.split(|b| *b == b'\n');
        for (at, line) in history.split(|b| *b == b'\n').enumerate() {
            if is_silent(line) {
                continue;
            }
            let (a, b) = (ours.next().unwrap_or(b""), expected.next().unwrap_or(b""));
            if a != b {
                let kept = format!("{FOLDER}/differs");
                fs::write(&kept, history).expect("the history that differs");
                let show = |bytes: &[u8]| {
                    String::from_utf8_lossy(&bytes[..bytes.len().min(400)]).into_owned()
                };
                eprintln!("histories: line {} of {kept}: {}", at + 1, show(line));
                eprintln!("frame_calls answers: {}", show(a));
                eprintln!("the reference:       {}", show(b));
                exit(1);
            }
        }
    }
    eprintln!("histories: one of the outputs goes on behind the last answer");
    exit(1);
}

/// The rules of a saved frame, each with what is counted where a restore breaks it alone.
fn broken_alone() -> impl Iterator<Item = (&'static str, String)> {
    let rules = [LENGTH].into_iter().chain(RULES.map(|(rule, _)| rule));
    rules.map(|rule| (rule, format!("restore against {rule}")))
}

fn tried_enough(counts: &Counts) -> bool {
    let mut wanted: Vec<String> = REFUSALS.map(|n| format!("refusal {n}")).to_vec();
    let forms = [
        "plain",
        "gain",
        "stride",
        "multimode",
        "decimate",
        "gains",
        "pair",
        "split",
    ];
    for (of, _) in TYPES {
        for call in ["run", "two"] {
            wanted.extend(forms.iter().map(|form| format!("{call} {of} {form}")));
        }
        wanted.extend(["low", "band", "normalized", "high"].map(|m| format!("mode {of} {m}")));
    }
    wanted.extend(histories::KIND_BYTES.map(|k| format!("kind byte {k}")));
    wanted.extend(histories::EDITION_2_KIND_BYTES.map(|k| format!("kind byte {k}")));
    wanted.extend(MIRRORED_LOADS.map(String::from));
    for call in [
        "open",
        "load",
        "run",
        "two",
        "rest",
        "mark",
        "back",
        "drop",
        "write",
        "check",
        "lookup",
        "head",
        "bad line",
        "rest of a sample that reset leaves",
        "check1 declines edition 2",
        "lookup1 declines edition 2",
        "open of no edition",
        "open of approximation 4 in edition 1",
        "convert refused 2",
        "convert refused 3",
        "convert refused 4",
        "convert refused 11",
        "convert refused 12",
        "convert refused 15",
        "begin refused 2",
        "begin refused 16",
        "take of no places",
        "take with places left over",
        "tell refused 1",
        "tell refused 1 before 14",
        "tell refused 13",
        "tell refused 13 before 14",
        "tell refused 14",
        "turn none",
        "turn of the last 256 samples",
        "turn while all heads wait",
        "tell of an empty head",
        "run accepted while its head waits",
        "two accepted while its head waits",
        "load accepted while its head waits",
        "call refused while a head waits",
        "save refused 12",
        "save with places left over",
        "save of an empty frame",
        "restore refused 20",
        "restore of an empty frame",
        "restore of four marks at all heads",
        "filters restored with a NaN",
        "restore of a count near the greatest",
        "restore while a save is unfinished",
        "restore while a head waits",
        "run of a restored filter refused 9",
        "run of a restored filter refused 18",
        "two of a restored filter refused 18",
        "rest of a restored filter accepted",
        "back of a restored filter accepted",
        "run up to the greatest count",
        "run of no samples at the greatest count",
        "planes refused 19",
        "planes refused 12",
        "planes refused 19 before 12",
        "planes of no samples",
        "planes of 1,024 samples",
        "samples refused 19",
        "samples refused 12",
        "samples refused 19 before 12",
        "samples of no samples",
        "samples of 1,024 samples",
        "trial of no calls",
        "trial of the last routine",
        "trial of the first place past the end",
        "trial far past the end",
    ] {
        wanted.push(call.to_string());
    }
    wanted.extend(broken_alone().map(|(_, counted)| counted));
    let often = [
        "convert accepted",
        "convert of edition 1 to 1",
        "convert of edition 1 to 2",
        "convert of edition 2 to 1",
        "convert of edition 2 to 2",
        "check1 accepted",
        "lookup1 accepted",
        "open of edition 2",
        "write of edition 2",
        "count accepted",
        "count above 0",
        "begin accepted",
        "begin of edition 1",
        "begin of edition 2",
        "take accepted",
        "take of the last byte",
        "take of a sheet that is not open",
        "tell accepted",
        "turn granted",
        "turn of 256 samples",
        "turn of fewer samples",
        "turn that ends a wait",
        "turn of the head last served",
        "turn past head 11",
        "turn while others wait",
        "save accepted",
        "save of marks",
        "restore accepted",
        "restore of another frame",
        "restore of marks",
        "run of a restored filter accepted",
        "two of a restored filter accepted",
        "planes accepted",
        "planes of another NaN",
        "planes with places left over",
        "samples accepted",
        "samples of another NaN",
        "samples with places left over",
        BROUGHT_BACK,
        "trial of a routine",
        "trial past the end",
    ];
    let mut enough = true;
    for (what, least) in wanted
        .iter()
        .map(|what| (what.as_str(), LEAST))
        .chain(often.map(|what| (what, OFTEN)))
    {
        let n = counts.of(what);
        if n < least {
            eprintln!("histories: '{what}' was tried {n} times, and should be tried {least} times");
            enough = false;
        }
    }
    enough
}

fn summary(counts: &Counts) {
    let refusals: Vec<String> = REFUSALS
        .iter()
        .map(|n| format!("{n}: {}", counts.of(&format!("refusal {n}"))))
        .collect();
    println!("refusals {}", refusals.join(", "));
    let pairs: Vec<u64> = counts
        .0
        .iter()
        .filter(|(what, _)| {
            let words = what.split(' ').count();
            words == 3 && (what.starts_with("run ") || what.starts_with("two "))
        })
        .map(|(_, n)| *n)
        .collect();
    println!(
        "{} of a run's call, type and form, the rarest {} times; rests of a sample that reset leaves {}; mirrored loads {}; bad lines {}, long lines {}",
        pairs.len(),
        pairs.iter().min().unwrap_or(&0),
        counts.of("rest of a sample that reset leaves"),
        MIRRORED_LOADS.iter().map(|load| counts.of(load)).sum::<u64>(),
        counts.of("bad line"),
        counts.of("long line")
    );
    println!(
        "edition 2: opens {}, writes {}, loads of approximation 4 {}; the reader of edition 1: checks accepted {}, sheets of edition 2 declined {}, lookups accepted {}",
        counts.of("open of edition 2"),
        counts.of("write of edition 2"),
        histories::EDITION_2_KIND_BYTES
            .iter()
            .map(|k| counts.of(&format!("kind byte {k}")))
            .sum::<u64>(),
        counts.of("check1 accepted"),
        counts.of("check1 declines edition 2"),
        counts.of("lookup1 accepted"),
    );
    println!(
        "counts of a head {}, above 0 {}",
        counts.of("count accepted"),
        counts.of("count above 0"),
    );
    println!(
        "saves: begun in edition 1 {}, in edition 2 {}; takes {}, of a sheet that is not open {}, into no places {}, with places left over {}, of the last byte {}; bytes taken {}; begins refused with 2 {}, with 16 {}, takes with 17 {}",
        counts.of("begin of edition 1"),
        counts.of("begin of edition 2"),
        counts.of("take accepted"),
        counts.of("take of a sheet that is not open"),
        counts.of("take of no places"),
        counts.of("take with places left over"),
        counts.of("take of the last byte"),
        counts.of("bytes taken"),
        counts.of("begin refused 2"),
        counts.of("begin refused 16"),
        counts.of("refusal 17"),
    );
    println!(
        "rota: tellings {}, refused with 1 {}, with 13 {}, with 14 {}; turns {}, of 256 samples {}, of the head last served {}, past head 11 {}, while others wait {}, while all wait {}, that end a wait {}, of none {}; samples granted {}; tellings of an empty head {}; while its head waits run {}, two {}, load {}; refused while a head waits {}",
        counts.of("tell accepted"),
        counts.of("tell refused 1"),
        counts.of("tell refused 13"),
        counts.of("tell refused 14"),
        counts.of("turn granted"),
        counts.of("turn of 256 samples"),
        counts.of("turn of the head last served"),
        counts.of("turn past head 11"),
        counts.of("turn while others wait"),
        counts.of("turn while all heads wait"),
        counts.of("turn that ends a wait"),
        counts.of("turn none"),
        counts.of("samples granted"),
        counts.of("tell of an empty head"),
        counts.of("run accepted while its head waits"),
        counts.of("two accepted while its head waits"),
        counts.of("load accepted while its head waits"),
        counts.of("call refused while a head waits"),
    );
    println!(
        "saved frames: saves {}, rows {}, refused with 12 {}; restores {}, of another frame {}, with four marks at all heads {}, filters {}, with a NaN {}, while a save is unfinished {}, while a head waits {}; runs of a restored filter {}, rests {}, backs {}, runs up to the greatest count {}, refused with 18 {}; restores refused with 20 {}, by one rule alone: {}",
        counts.of("save accepted"),
        counts.of("rows saved"),
        counts.of("save refused 12"),
        counts.of("restore accepted"),
        counts.of("restore of another frame"),
        counts.of("restore of four marks at all heads"),
        counts.of("filters restored"),
        counts.of("filters restored with a NaN"),
        counts.of("restore while a save is unfinished"),
        counts.of("restore while a head waits"),
        ["run", "two"]
            .map(|call| counts.of(&format!("{call} of a restored filter accepted")))
            .iter()
            .sum::<u64>(),
        counts.of("rest of a restored filter accepted"),
        counts.of("back of a restored filter accepted"),
        counts.of("run up to the greatest count"),
        counts.of("refusal 18"),
        counts.of("restore refused 20"),
        broken_alone()
            .map(|(rule, counted)| format!("{rule} {}", counts.of(&counted)))
            .collect::<Vec<_>>()
            .join(", "),
    );
    println!(
        "conversions: edition 1 to 2 {}, 2 to 1 {}, copies {}; refused with 12 {}, with 15 {}, as no sheet {}",
        counts.of("convert of edition 1 to 2"),
        counts.of("convert of edition 2 to 1"),
        counts.of("convert of edition 1 to 1") + counts.of("convert of edition 2 to 2"),
        counts.of("convert refused 12"),
        counts.of("convert refused 15"),
        [2, 3, 4, 11]
            .map(|n| counts.of(&format!("convert refused {n}")))
            .iter()
            .sum::<u64>(),
    );
    println!(
        "{}; brought back by the other {}",
        rearranged(counts),
        counts.of(BROUGHT_BACK)
    );
    println!("{}", tried(counts));
}

fn tried(counts: &Counts) -> String {
    format!(
        "trial routines {}, the one of no calls {}, the last {}; past the end {}, by one {}, far {}",
        counts.of("trial of a routine"),
        counts.of("trial of no calls"),
        counts.of("trial of the last routine"),
        counts.of("trial past the end"),
        counts.of("trial of the first place past the end"),
        counts.of("trial far past the end"),
    )
}

fn rearranged(counts: &Counts) -> String {
    let [planes, samples] = ["planes", "samples"].map(|call| {
        let of = |what: &str| counts.of(&format!("{call} {what}"));
        format!(
            "{call} {}, of no samples {}, of 1,024 {}, of another NaN {}, with places left over {}, refused with 19 {}, of these short {}, with 12 {}",
            of("accepted"),
            of("of no samples"),
            of("of 1,024 samples"),
            of("of another NaN"),
            of("with places left over"),
            of("refused 19"),
            of("refused 19 before 12"),
            of("refused 12"),
        )
    });
    format!("{planes}; {samples}")
}

fn value(arguments: &[String], name: &str, otherwise: u64) -> u64 {
    match arguments.iter().position(|a| a == name) {
        Some(at) => match arguments.get(at + 1).and_then(|v| v.parse().ok()) {
            Some(v) => v,
            None => {
                eprintln!("histories: {name} wants a number");
                exit(2);
            }
        },
        None => otherwise,
    }
}

fn main() {
    let arguments: Vec<String> = std::env::args().skip(1).collect();
    let start = Instant::now();
    let replay = !arguments.iter().any(|a| a == "--cached");
    let mut comparison = Comparison::new(replay);
    match arguments.first().map(String::as_str) {
        Some("random") => {
            let seed = value(&arguments, "--seed", 1);
            let calls = value(&arguments, "--calls", 1_000_000);
            let lines = value(&arguments, "--lines", 2_000);
            let mut writer = Writer::new(seed);
            let at_once = (40_000 / lines).max(1) as usize;
            while comparison.counts.of("calls") < calls {
                let batch: Vec<Vec<u8>> = (0..at_once).map(|_| writer.history(lines)).collect();
                comparison.compare(&batch);
            }
            comparison.counts.add(BROUGHT_BACK, writer.returned);
            println!(
                "histories: {} calls in {} random histories, seed {seed}, {:.1} s: no difference",
                comparison.counts.of("calls"),
                comparison.histories,
                start.elapsed().as_secs_f64()
            );
            summary(&comparison.counts);
            if !tried_enough(&comparison.counts) {
                exit(1);
            }
        }
        Some("sheets") => {
            comparison.all(histories::sheet_changes(), 8);
            println!(
                "histories: {} changed sheets, {:.1} s: no difference",
                comparison.counts.of("check"),
                start.elapsed().as_secs_f64()
            );
            summary(&comparison.counts);
        }
        Some("frames") => {
            comparison.all(histories::frame_changes(), 8);
            println!(
                "histories: {} saved frames with one byte changed, cut or added, {} of them accepted, {} calls, {:.1} s: no difference",
                comparison.counts.of("restore") - comparison.histories,
                comparison.counts.of("restore accepted") - comparison.histories,
                comparison.counts.of("calls"),
                start.elapsed().as_secs_f64()
            );
            summary(&comparison.counts);
        }
        Some("planes") => {
            comparison.all(histories::arrangements(), 13);
            println!(
                "histories: planes and samples of 0 to 64 bytes into 0 to 72 places, and back, {} calls, {:.1} s: no difference",
                comparison.counts.of("calls"),
                start.elapsed().as_secs_f64()
            );
            println!("{}", rearranged(&comparison.counts));
        }
        Some("trials") => {
            comparison.all(histories::trial_places(), 64);
            println!(
                "histories: places of trial routines, and each routine on a trial frame, {} calls, {:.1} s: no difference",
                comparison.counts.of("calls"),
                start.elapsed().as_secs_f64()
            );
            println!("{}", tried(&comparison.counts));
        }
        Some("sample") => {
            use std::io::Write;
            std::io::stdout()
                .write_all(&histories::sample(value(&arguments, "--seed", 7)))
                .expect("standard output");
        }
        other => {
            let Some(alphabet) = other.and_then(Alphabet::named) else {
                eprintln!(
                    "histories: random, short, saves, rota, closings, sheets, frames, planes, trials or sample"
                );
                exit(2);
            };
            let length = value(&arguments, "--length", 5) as u32;
            comparison.all(alphabet.histories(length), 500);
            println!(
                "histories: all {} lists of {length} {}, {:.1} s: no difference",
                alphabet.lists(length),
                alphabet.calls,
                start.elapsed().as_secs_f64()
            );
        }
    }
}
