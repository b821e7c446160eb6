//! The number bench and the switch bench of `docs/RULES.md`, written from that page alone.
//!
//! `bench number` and `bench switch` read a list on standard input and print its ticks.

mod diagram;
mod kits;
mod run;
mod text;

use std::env;
use std::fs::File;
use std::io::{self, BufWriter, Read, Write};
use std::os::fd::AsFd;
use std::process::ExitCode;

use diagram::Diagram;
use kits::{Common, Joined, Kit, Number, Signal, Switch, Value};
use run::{Run, Verdict};
use text::{Cause, Line, Refusal};

const MAX_INPUT: usize = 65_536;

/// What ends a list before its last line.
enum Stop {
    Refused(Refusal),
    Failed(io::Error),
}

impl From<Refusal> for Stop {
    fn from(refusal: Refusal) -> Self {
        Stop::Refused(refusal)
    }
}

impl From<io::Error> for Stop {
    fn from(error: io::Error) -> Self {
        Stop::Failed(error)
    }
}

fn main() -> ExitCode {
    let done = match env::args().nth(1).as_deref() {
        Some("number") => bench::<i32, Joined<Common, Number>>(),
        Some("switch") => bench::<bool, Joined<Common, Switch>>(),
        _ => {
            eprintln!("usage: bench number|switch");
            return ExitCode::from(2);
        }
    };
    match done {
        Ok(()) => ExitCode::SUCCESS,
        Err(_) => ExitCode::FAILURE,
    }
}

/// From standard input to standard output. Both are taken as plain files: the standard library's own buffers would
/// read past the limit, and would write at each line feed.
fn bench<V: Value, K: Kit<V>>() -> io::Result<()> {
    let stdin = File::from(io::stdin().as_fd().try_clone_to_owned()?);
    let stdout = File::from(io::stdout().as_fd().try_clone_to_owned()?);

    let mut input = Vec::new();
    stdin.take(MAX_INPUT as u64 + 1).read_to_end(&mut input)?;

    let mut output = BufWriter::with_capacity(1 << 16, stdout);
    match run_list::<V, K>(&input, &mut output) {
        Ok(()) => {}
        Err(Stop::Refused(refusal)) => writeln!(output, "{refusal}")?,
        Err(Stop::Failed(error)) => return Err(error),
    }
    output.flush()
}

fn run_list<V: Value, K: Kit<V>>(input: &[u8], output: &mut impl Write) -> Result<(), Stop> {
    if input.len() > MAX_INPUT {
        return Err(Refusal::new(Cause::InputTooLong, 0, 0).into());
    }
    let (text, ticks, first_tick) = split_at_ticks(input);
    let diagram = Diagram::read(text)?;
    let mut run = Run::<V, K>::new(&diagram)?;

    let mut printed = Vec::new();
    for line in text::lines(ticks, first_tick) {
        run.begin();
        supply(&mut run, diagram.inputs, line)?;
        let rounds = run.settle();
        let verdict = run.close();
        printed.clear();
        print_tick(verdict, rounds, run.wires(), &mut printed);
        output.write_all(&printed)?;
    }
    Ok(())
}

/// The text of the diagram, the tick lines, and the number of the first tick line.
fn split_at_ticks(input: &[u8]) -> (&[u8], &[u8], u64) {
    let mut length = 0;
    let mut number = 1;
    for line in text::lines(input, 1) {
        if line.word() == b"tick" {
            break;
        }
        length += line.bytes.len();
        number += 1;
    }
    let (text, ticks) = input.split_at(length);
    (text, ticks, number)
}

/// Supplies the input wires from one tick line.
fn supply<V: Value, K: Kit<V>>(
    run: &mut Run<V, K>,
    inputs: usize,
    line: Line,
) -> Result<(), Refusal> {
    let content = line.content()?;
    if line.word() != b"tick" {
        return Err(line.refusal(Cause::Form, 1));
    }
    let found = text::count_fields(content);
    if found != inputs as u64 + 1 {
        return Err(line.refusal(Cause::Fields, found));
    }
    for (wire, field) in text::fields(content).skip(1).enumerate() {
        let signal = read_signal(field).map_err(|cause| line.refusal(cause, wire as u64 + 2))?;
        run.supply(wire, signal);
    }
    Ok(())
}

fn read_signal<V: Value>(field: &[u8]) -> Result<Signal<V>, Cause> {
    match field {
        b"?" => Ok(Signal::Unknown),
        b"." => Ok(Signal::Absent),
        _ => {
            let number = text::signed(field).ok_or(Cause::Form)?;
            let value = V::from_number(number).ok_or(Cause::Range)?;
            Ok(Signal::Present(value))
        }
    }
}

fn print_tick<V: Value>(verdict: Verdict, rounds: u32, wires: &[Signal<V>], out: &mut Vec<u8>) {
    out.extend_from_slice(match verdict {
        Verdict::Kept => b"kept,",
        Verdict::Undetermined => b"undetermined,",
    });
    text::push_number(i64::from(rounds), out);
    for &wire in wires {
        out.push(b',');
        match wire {
            Signal::Unknown => out.push(b'?'),
            Signal::Absent => out.push(b'.'),
            Signal::Present(value) => text::push_number(value.to_number(), out),
        }
    }
    out.push(b'\n');
}
