//! Answers the text of calls from kept lists. `reference [--replay] [--frames] [--counts FILE]`: with --replay each list is replayed from
//! its start whenever its filter is wanted; with --frames the line `# fresh frame` begins a fresh frame; --counts writes what was tried.

use reference::counts::Counts;
use reference::lists::Frame;
use reference::text;
use std::io::{BufRead, Write};

fn main() -> std::io::Result<()> {
    let mut replay = false;
    let mut frames = false;
    let mut counts_file = None;
    let mut arguments = std::env::args().skip(1);
    while let Some(argument) = arguments.next() {
        match argument.as_str() {
            "--replay" => replay = true,
            "--frames" => frames = true,
            "--counts" => counts_file = arguments.next(),
            _ => {
                eprintln!("reference: unknown argument {argument}");
                std::process::exit(2);
            }
        }
    }
    let mut input = std::io::stdin().lock();
    let mut output = std::io::BufWriter::with_capacity(1 << 16, std::io::stdout().lock());
    let mut frame = Frame::fresh(replay);
    let mut counts = Counts::default();
    let mut line = Vec::new();
    let mut answer = String::new();
    loop {
        line.clear();
        if input.read_until(b'\n', &mut line)? == 0 {
            break;
        }
        if line.last() == Some(&b'\n') {
            line.pop();
        }
        if frames && line == b"# fresh frame" {
            frame = Frame::fresh(replay);
            continue;
        }
        answer.clear();
        text::answer(&mut frame, &line, &mut counts, &mut answer);
        output.write_all(answer.as_bytes())?;
    }
    output.flush()?;
    if let Some(file) = counts_file {
        std::fs::write(file, counts.text())?;
    }
    Ok(())
}
