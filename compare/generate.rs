//! Lists for the two benches, each made from a seed alone.
//!
//! `generate SEED number|switch|loaded` writes one list to standard output.
//! `generate SEED number|switch|loaded COUNT FOLDER` writes COUNT lists, from SEED on, to FOLDER/SEED.

use std::env;
use std::fs;
use std::io::{self, Write};
use std::path::Path;
use std::process::ExitCode;

const MAX_INPUT: usize = 65_536;
const MAX_WIRES: usize = 144;
const MAX_BLOCKS: usize = 64;

fn main() -> ExitCode {
    let arguments: Vec<String> = env::args().skip(1).collect();
    let arguments: Vec<&str> = arguments.iter().map(String::as_str).collect();
    let done = match arguments[..] {
        [seed, sort] => one_list(seed, sort),
        [seed, sort, count, folder] => many_lists(seed, sort, count, Path::new(folder)),
        _ => None,
    };
    match done {
        Some(Ok(())) => ExitCode::SUCCESS,
        Some(Err(error)) => {
            eprintln!("generate: {error}");
            ExitCode::FAILURE
        }
        None => {
            eprintln!("usage: generate SEED number|switch|loaded [COUNT FOLDER]");
            ExitCode::from(2)
        }
    }
}

/// `None` where the arguments have no meaning.
fn one_list(seed: &str, sort: &str) -> Option<io::Result<()>> {
    let list = list_of(sort, seed.parse().ok()?)?;
    Some(io::stdout().write_all(&list))
}

fn many_lists(seed: &str, sort: &str, count: &str, folder: &Path) -> Option<io::Result<()>> {
    let first: u64 = seed.parse().ok()?;
    let count: u64 = count.parse().ok()?;
    for seed in first..first.checked_add(count)? {
        let list = list_of(sort, seed)?;
        if let Err(error) = fs::write(folder.join(seed.to_string()), list) {
            return Some(Err(error));
        }
    }
    Some(Ok(()))
}

fn list_of(sort: &str, seed: u64) -> Option<Vec<u8>> {
    let mut random = Random(seed);
    match sort {
        "number" => Some(mixed(&mut random, Bench::Number)),
        "switch" => Some(mixed(&mut random, Bench::Switch)),
        "loaded" => Some(loaded(&mut random)),
        _ => None,
    }
}

/// SplitMix64.
struct Random(u64);

impl Random {
    fn next(&mut self) -> u64 {
        self.0 = self.0.wrapping_add(0x9e37_79b9_7f4a_7c15);
        let mut z = self.0;
        z = (z ^ (z >> 30)).wrapping_mul(0xbf58_476d_1ce4_e5b9);
        z = (z ^ (z >> 27)).wrapping_mul(0x94d0_49bb_1331_11eb);
        z ^ (z >> 31)
    }

    fn below(&mut self, limit: usize) -> usize {
        (self.next() % limit as u64) as usize
    }

    fn between(&mut self, low: usize, high: usize) -> usize {
        low + self.below(high - low + 1)
    }

    fn one_in(&mut self, limit: usize) -> bool {
        self.below(limit) == 0
    }

    fn percent(&mut self, chance: usize) -> bool {
        self.below(100) < chance
    }

    fn byte(&mut self) -> u8 {
        self.next() as u8
    }

    fn pick<T: Copy>(&mut self, among: &[T]) -> T {
        among[self.below(among.len())]
    }

    fn shuffle<T>(&mut self, items: &mut [T]) {
        for end in (1..items.len()).rev() {
            items.swap(end, self.below(end + 1));
        }
    }
}

#[derive(Clone, Copy, PartialEq)]
enum Bench {
    Number,
    Switch,
}

#[derive(Clone, Copy)]
struct Kind {
    number: u8,
    inputs: usize,
    outputs: usize,
}

const fn kind(number: u8, inputs: usize, outputs: usize) -> Kind {
    Kind {
        number,
        inputs,
        outputs,
    }
}

const DELAY: u8 = 1;
const ADDER: Kind = kind(68, 3, 2);

const NUMBER_KINDS: [Kind; 7] = [
    kind(DELAY, 1, 1),
    kind(3, 2, 1),
    kind(16, 0, 1),
    kind(17, 2, 1),
    kind(19, 2, 1),
    kind(25, 3, 1),
    kind(26, 1, 1),
];

const SWITCH_KINDS: [Kind; 7] = [
    kind(DELAY, 1, 1),
    kind(3, 2, 1),
    kind(64, 0, 1),
    kind(65, 2, 1),
    kind(66, 2, 1),
    kind(67, 1, 1),
    ADDER,
];

impl Bench {
    fn kinds(self) -> &'static [Kind] {
        match self {
            Bench::Number => &NUMBER_KINDS,
            Bench::Switch => &SWITCH_KINDS,
        }
    }
}

type Field = Vec<u8>;
type Line = Vec<Field>;

fn field(content: impl ToString) -> Field {
    content.to_string().into_bytes()
}

/// A list in lines and fields, with the numbers that its diagram was made with.
struct List {
    lines: Vec<Line>,
    inputs: usize,
    wires: usize,
    ticks: Ticks,
}

impl List {
    /// Numbers of the lines whose first field is `word`.
    fn lines_with(&self, word: &[u8]) -> Vec<usize> {
        (0..self.lines.len())
            .filter(|&at| self.lines[at].first().is_some_and(|field| field == word))
            .collect()
    }

    /// A block line that still has its 8 fields.
    fn some_block(&mut self, random: &mut Random) -> Option<&mut Line> {
        let mut blocks = self.lines_with(b"block");
        blocks.retain(|&at| self.lines[at].len() == 8);
        if blocks.is_empty() {
            return None;
        }
        let at = random.pick(&blocks);
        Some(&mut self.lines[at])
    }

    /// A line of any sort; the first and the block lines are taken more often than their share.
    fn some_line(&mut self, random: &mut Random) -> Option<&mut Line> {
        let word = random.pick(&[&b"diagram"[..], b"block", b"tick"]);
        let mut among = self.lines_with(word);
        if among.is_empty() {
            among = (0..self.lines.len()).collect();
        }
        if among.is_empty() {
            return None;
        }
        let at = random.pick(&among);
        Some(&mut self.lines[at])
    }

    fn set_wires(&mut self, wires: usize) {
        if let Some(line) = self.lines.first_mut() {
            if line.len() == 3 {
                line[2] = field(wires);
                self.wires = wires;
            }
        }
    }

    fn bytes(&self) -> Vec<u8> {
        let mut bytes = Vec::new();
        for line in &self.lines {
            push_line(line, &mut bytes);
        }
        bytes
    }
}

fn push_line(line: &[Field], bytes: &mut Vec<u8>) {
    bytes.extend_from_slice(&line.join(&b','));
    bytes.push(b'\n');
}

/// How tick lines are made: the chances, out of 100, of `?` and of `.`.
#[derive(Clone, Copy)]
struct Ticks {
    unknown: usize,
    absent: usize,
}

impl Ticks {
    fn random(random: &mut Random) -> Self {
        Ticks {
            unknown: random.pick(&[0, 0, 0, 2, 10, 40]),
            absent: random.pick(&[0, 10, 40]),
        }
    }

    fn line(self, random: &mut Random, bench: Bench, inputs: usize) -> Line {
        let mut line = vec![field("tick")];
        for _ in 0..inputs {
            line.push(if random.percent(self.unknown) {
                field("?")
            } else if random.percent(self.absent) {
                field(".")
            } else {
                match bench {
                    Bench::Number => field(some_i32(random)),
                    Bench::Switch => field(random.below(2)),
                }
            });
        }
        line
    }
}

fn some_i32(random: &mut Random) -> i32 {
    match random.below(6) {
        0 => random.pick(&[i32::MIN, i32::MIN + 1, i32::MAX - 1, i32::MAX]),
        1 => random.pick(&[-1, 0, 1]),
        2 => random.next() as i32,
        _ => random.between(0, 20) as i32 - 10,
    }
}

/// The mixture of lists for one bench.
fn mixed(random: &mut Random, bench: Bench) -> Vec<u8> {
    match random.below(100) {
        0..=31 => {
            let blocks = some_block_count(random);
            valid(random, bench, blocks).bytes()
        }
        32..=79 => damaged(random, bench),
        80..=90 => {
            let mut bytes = small(random, bench).bytes();
            damage_bytes(random, &mut bytes);
            bytes
        }
        91..=94 => near_the_limit(random, bench),
        95..=96 => overlong(random, bench),
        _ => stray(random),
    }
}

fn some_block_count(random: &mut Random) -> usize {
    match random.below(20) {
        0 => 0,
        1 => MAX_BLOCKS,
        2..=3 => random.between(17, MAX_BLOCKS),
        4..=10 => random.between(1, 4),
        _ => random.between(5, 16),
    }
}

fn small(random: &mut Random, bench: Bench) -> List {
    let blocks = random.between(0, 6);
    valid(random, bench, blocks)
}

/// What the inputs of a diagram may read.
#[derive(Clone, Copy, PartialEq)]
enum Wiring {
    /// Loops go through a delay, so that most ticks are kept.
    Flow,
    /// The same, with an exception here and there.
    Loose,
    Any,
}

/// A list without a fault.
fn valid(random: &mut Random, bench: Bench, blocks: usize) -> List {
    let inputs = match random.below(10) {
        0 => 0,
        1 => 16,
        _ => random.between(1, 6),
    };
    let full = bench == Bench::Switch && random.one_in(12);
    let kinds: Vec<Kind> = (0..blocks)
        .map(|_| {
            if full {
                ADDER
            } else {
                random.pick(bench.kinds())
            }
        })
        .collect();
    let driven: usize = kinds.iter().map(|kind| kind.outputs).sum();
    let wires = inputs + driven;

    let mut free: Vec<usize> = (inputs..wires).collect();
    match random.below(3) {
        0 => {}
        1 => free.reverse(),
        _ => random.shuffle(&mut free),
    }
    let mut free = free.into_iter();
    let outputs: Vec<Vec<usize>> = kinds
        .iter()
        .map(|kind| free.by_ref().take(kind.outputs).collect())
        .collect();

    // the order in which signals come up, which need not be the table order
    let mut flow: Vec<usize> = (0..blocks).collect();
    match random.below(3) {
        0 => {}
        1 => flow.reverse(),
        _ => random.shuffle(&mut flow),
    }
    let wiring = random.pick(&[Wiring::Flow, Wiring::Flow, Wiring::Loose, Wiring::Any]);
    let mut ready: Vec<usize> = (0..inputs).collect();
    for (kind, outputs) in kinds.iter().zip(&outputs) {
        if kind.number == DELAY {
            ready.extend(outputs);
        }
    }
    let mut reads = vec![Vec::new(); blocks];
    for block in flow {
        let kind = kinds[block];
        reads[block] = (0..kind.inputs)
            .map(|_| {
                let any = match wiring {
                    Wiring::Flow => kind.number == DELAY,
                    Wiring::Loose => kind.number == DELAY || random.percent(12),
                    Wiring::Any => true,
                };
                if any || ready.is_empty() {
                    random.below(wires)
                } else {
                    random.pick(&ready)
                }
            })
            .collect();
        if kind.number != DELAY {
            ready.extend(&outputs[block]);
        }
    }

    let mut lines = vec![vec![field("diagram"), field(inputs), field(wires)]];
    for block in 0..blocks {
        let parameter = some_i32(random);
        lines.push(block_line(
            kinds[block].number,
            parameter,
            &reads[block],
            &outputs[block],
        ));
    }
    let ticks = Ticks::random(random);
    let count = match random.below(20) {
        0 => 0,
        1..=13 => random.between(1, 6),
        14..=18 => random.between(7, 30),
        _ => random.between(31, 200),
    };
    for _ in 0..count {
        lines.push(ticks.line(random, bench, inputs));
    }
    List {
        lines,
        inputs,
        wires,
        ticks,
    }
}

fn block_line(kind: u8, parameter: i32, inputs: &[usize], outputs: &[usize]) -> Line {
    let mut line = vec![field("block"), field(kind), field(parameter)];
    line.extend((0..3).map(|port| inputs.get(port).map_or(Field::new(), field)));
    line.extend((0..2).map(|port| outputs.get(port).map_or(Field::new(), field)));
    line
}

/// A list with one fault or a few, so that the order of the checks matters.
fn damaged(random: &mut Random, bench: Bench) -> Vec<u8> {
    let blocks = if random.one_in(4) {
        some_block_count(random)
    } else {
        random.between(1, 8)
    };
    let mut list = valid(random, bench, blocks);
    for _ in 0..random.pick(&[1, 1, 1, 1, 1, 2, 2, 3]) {
        random.pick(EDITS)(random, bench, &mut list);
    }
    let mut bytes = list.bytes();
    if random.one_in(25) {
        bytes.pop();
    }
    bytes
}

type Edit = fn(&mut Random, Bench, &mut List);

/// Edits that stand here more than once come up more often.
const EDITS: &[Edit] = &[
    edit_word,
    edit_field_count,
    edit_field_count,
    edit_form,
    edit_form,
    edit_form,
    edit_range,
    edit_range,
    edit_range,
    edit_range,
    edit_two_in_line,
    edit_two_in_line,
    edit_unfit_wire,
    edit_unfit_wire,
    edit_driven_twice,
    edit_driven_twice,
    edit_not_driven,
    edit_not_driven,
    edit_kind,
    edit_kind,
    edit_port_count,
    edit_port_count,
    edit_gap,
    edit_too_many_blocks,
    edit_too_many_blocks,
    edit_lines,
    edit_lines,
    edit_input_count,
    edit_no_ticks,
];

fn edit_word(random: &mut Random, _: Bench, list: &mut List) {
    #[rustfmt::skip]
    const WORDS: [&[u8]; 16] = [
        b"", b"diagram", b"block", b"tick", b"Block", b"TICK", b"blocks", b"bloc", b"ticks", b"tic",
        b" tick", b"tick ", b"tick\r", b"block\0", b"diagram\xff", b"?",
    ];
    if let Some(line) = list.some_line(random) {
        let word = random.pick(&WORDS).to_vec();
        match line.first_mut() {
            Some(first) => *first = word,
            None => line.push(word),
        }
    }
}

fn edit_field_count(random: &mut Random, _: Bench, list: &mut List) {
    if let Some(line) = list.some_line(random) {
        match random.below(5) {
            0 => line.push(Field::new()),
            1 => line.push(field(random.below(3))),
            2 => {
                line.pop();
            }
            3 => {
                let at = random.below(line.len() + 1);
                line.insert(at, field(random.below(3)));
            }
            // 256 more: the count must not be taken as a byte
            _ => {
                let more = random.pick(&[2, 256, 256, 256]);
                line.extend(vec![Field::new(); more]);
            }
        }
    }
}

/// A field other than the word; a block's kind and parameter come up more often than its ports.
fn some_place(random: &mut Random, line: &Line) -> Option<usize> {
    match line.len() {
        0..=1 => None,
        8 if random.one_in(2) => Some(random.between(1, 2)),
        fields => Some(random.between(1, fields - 1)),
    }
}

fn some_field<'l>(random: &mut Random, list: &'l mut List) -> Option<&'l mut Field> {
    let line = list.some_line(random)?;
    let at = some_place(random, line)?;
    Some(&mut line[at])
}

fn edit_form(random: &mut Random, _: Bench, list: &mut List) {
    if let Some(at) = some_field(random, list) {
        spoil_form(random, at);
    }
}

fn spoil_form(random: &mut Random, at: &mut Field) {
    #[rustfmt::skip]
    const FORMS: [&[u8]; 34] = [
        b"", b"00", b"07", b"01", b"+1", b"+0", b"-0", b"-00", b"-01", b"-", b"--1", b"+", b"1-",
        b"1a", b"a", b"0x1", b"1e2", b"1.0", b" 1", b"1 ", b"1\r", b"\t1", b"1\0", b"\0", b"?",
        b"??", b".", b"..", b"?1", b"\"1\"", b"\xff", b"1\x80", b"\xd9\xa1", b"1;2",
    ];
    match random.below(9) {
        0 => at.insert(0, b'0'),
        1 => at.insert(0, random.pick(b"+- 0")),
        2 => at.push(random.pick(b"\r -.?,\0\xff")),
        3 => {
            let place = random.below(at.len() + 1);
            at.insert(place, random.byte());
        }
        4..=5 => *at = random.pick(&[&b"-0"[..], b"+1", b"01", b"-01"]).to_vec(),
        _ => *at = random.pick(&FORMS).to_vec(),
    }
}

fn edit_range(random: &mut Random, bench: Bench, list: &mut List) {
    let inputs = list.inputs;
    let Some(line) = list.some_line(random) else {
        return;
    };
    if let Some(at) = some_place(random, line) {
        line[at] = near_range(random, range_of(line, at, bench, inputs));
    }
}

/// The range of the numbers in field `at` of a line, the word being field 0.
fn range_of(line: &Line, at: usize, bench: Bench, inputs: usize) -> (i128, i128) {
    let of_i32 = (i128::from(i32::MIN), i128::from(i32::MAX));
    match (&line[0][..], at) {
        (b"diagram", 1) => (0, 16),
        (b"diagram", _) => (inputs as i128, MAX_WIRES as i128),
        (b"block", 1) => (0, 255),
        (b"block", 2) => of_i32,
        (b"tick", _) if bench == Bench::Number => of_i32,
        (b"tick", _) => (0, 1),
        _ => (0, MAX_WIRES as i128 - 1),
    }
}

/// A number at an end of its range or just outside, one that a word of 32 or 64 bits would take for a number in range,
/// or a very long one.
fn near_range(random: &mut Random, (low, high): (i128, i128)) -> Field {
    match random.below(10) {
        0..=5 => field(random.pick(&[low - 1, low, high, high + 1, high + 1])),
        6..=7 => {
            let wrap = random.pick(&[1 << 8, 1 << 32, 1 << 63, 1 << 64, -1 << 32, -1 << 64]);
            field(random.pick(&[low, high]) + wrap)
        }
        8 => field(random.pick(&[2, 9, 10, 64, 100, 1_000, 65_535, 1_i128 << 100])),
        _ => {
            let mut digits = field(random.between(1, 9));
            digits.extend((0..random.between(1, 60)).map(|_| b'0' + random.below(10) as u8));
            digits
        }
    }
}

/// A range fault and a form fault in one line, in either order.
fn edit_two_in_line(random: &mut Random, bench: Bench, list: &mut List) {
    let inputs = list.inputs;
    let Some(line) = list.some_line(random) else {
        return;
    };
    if line.len() >= 3 {
        let first = random.between(1, line.len() - 2);
        let second = if random.one_in(2) {
            first + 1
        } else {
            line.len() - 1
        };
        let (form, range) = if random.one_in(3) {
            (first, second)
        } else {
            (second, first)
        };
        let (_, high) = range_of(line, range, bench, inputs);
        line[range] = field(high + 1);
        spoil_form(random, &mut line[form]);
    }
}

fn edit_unfit_wire(random: &mut Random, _: Bench, list: &mut List) {
    let (inputs, wires) = (list.inputs, list.wires);
    if let Some(line) = list.some_block(random) {
        let mut places: Vec<usize> = (3..8).filter(|&at| !line[at].is_empty()).collect();
        random.shuffle(&mut places);
        for at in places.into_iter().take(random.pick(&[1, 1, 2])) {
            line[at] = field(if at >= 6 && inputs > 0 && random.one_in(2) {
                random.below(inputs)
            } else {
                random.between(wires.min(MAX_WIRES - 1), MAX_WIRES - 1)
            });
        }
    }
}

fn edit_driven_twice(random: &mut Random, _: Bench, list: &mut List) {
    let Some(wire) = list.some_block(random).map(|line| line[6].clone()) else {
        return;
    };
    if let Some(line) = list.some_block(random) {
        let at = if line[7].is_empty() && !random.one_in(8) {
            6
        } else {
            random.between(6, 7)
        };
        line[at] = wire;
    }
}

fn edit_not_driven(random: &mut Random, _: Bench, list: &mut List) {
    let blocks = list.lines_with(b"block");
    if blocks.is_empty() || random.one_in(2) {
        let more = random.pick(&[1, 1, 2, 200]);
        list.set_wires((list.wires + more).min(MAX_WIRES));
    } else {
        list.lines.remove(random.pick(&blocks));
    }
}

/// Another kind: unknown, of the other bench, or with other ports.
fn edit_kind(random: &mut Random, bench: Bench, list: &mut List) {
    let kind = match random.below(4) {
        0 => random.pick(&[0, 2, 4, 15, 18, 20, 24, 27, 63, 69, 128, 255]),
        1 => random.byte(),
        2 => random.pick(&NUMBER_KINDS).number,
        _ => random.pick(bench.kinds()).number,
    };
    if let Some(line) = list.some_block(random) {
        line[1] = field(kind);
    }
}

/// One port more or fewer, in a diagram that stays well wired where that can be.
fn edit_port_count(random: &mut Random, _: Bench, list: &mut List) {
    let wires = list.wires;
    let more_output = random.one_in(3) && wires < MAX_WIRES;
    let wire = random.below(wires.max(1));
    let Some(line) = list.some_block(random) else {
        return;
    };
    let filled = (3..6).take_while(|&at| !line[at].is_empty()).count();
    if more_output && line[7].is_empty() {
        line[7] = field(wires);
        list.set_wires(wires + 1);
    } else if filled < 3 && (filled == 0 || random.one_in(2)) {
        line[3 + filled] = field(wire);
    } else {
        line[2 + filled].clear();
    }
}

/// A filled port after an empty one of its side.
fn edit_gap(random: &mut Random, _: Bench, list: &mut List) {
    if let Some(line) = list.some_block(random) {
        if random.one_in(3) {
            line.swap(6, 7);
        } else {
            let at = random.between(3, 4);
            line[at].clear();
            line[5] = field(random.pick(&["0", "1", "143", "144", "x", "00"]));
        }
    }
}

/// Block lines up to the 64th, the 65th or beyond.
fn edit_too_many_blocks(random: &mut Random, bench: Bench, list: &mut List) {
    let blocks = list.lines_with(b"block");
    let wanted = random.pick(&[64, 65, 65, 65, 66, 70]);
    let place = blocks
        .last()
        .map_or(list.lines.len().min(1), |last| last + 1);
    for at in blocks.len()..wanted {
        let kind = random.pick(bench.kinds());
        let next = list.wires + at;
        let reads = vec![0; kind.inputs];
        let drives: Vec<usize> = (next..next + kind.outputs).collect();
        let mut line = block_line(kind.number, 0, &reads, &drives);
        if at >= MAX_BLOCKS {
            match random.below(6) {
                0 => line[0] = field("x"),
                1 => line[1] = field("x"),
                2 => line.truncate(1),
                _ => {}
            }
        }
        list.lines.insert(place + at - blocks.len(), line);
    }
}

fn edit_lines(random: &mut Random, bench: Bench, list: &mut List) {
    if list.lines.is_empty() {
        return;
    }
    let count = list.lines.len();
    let (from, to) = (random.below(count), random.below(count));
    match random.below(9) {
        0 => list.lines.swap(from, to),
        1 => {
            let line = list.lines[from].clone();
            list.lines.insert(to, line);
        }
        2 => {
            list.lines.remove(from);
        }
        3 => {
            list.lines.remove(0);
        }
        4 => list.lines.insert(to, vec![Field::new()]),
        5 => list.lines.push(vec![Field::new()]),
        6 => {
            let line = list.ticks.line(random, bench, list.inputs);
            list.lines.insert(to, line);
        }
        7 => {
            let line = block_line(1, 0, &[0], &[list.inputs]);
            list.lines.push(line);
        }
        _ => {
            for line in &mut list.lines {
                if let Some(last) = line.last_mut() {
                    last.push(b'\r');
                }
            }
        }
    }
}

/// Another number of input wires, or of fields in the tick lines.
fn edit_input_count(random: &mut Random, bench: Bench, list: &mut List) {
    if random.one_in(2) {
        let inputs = random.between(0, 17);
        if let Some(line) = list.lines.first_mut() {
            if line.len() == 3 {
                line[1] = field(inputs);
            }
        }
    } else {
        let inputs = list.inputs + random.below(3);
        let line = list.ticks.line(random, bench, inputs.saturating_sub(1));
        list.lines.push(line);
    }
}

fn edit_no_ticks(_: &mut Random, _: Bench, list: &mut List) {
    list.lines
        .retain(|line| line.first().is_none_or(|word| word != b"tick"));
}

/// Bytes altered, put in or taken out anywhere, and now and then the end cut off.
fn damage_bytes(random: &mut Random, bytes: &mut Vec<u8>) {
    const LIKELY: &[u8] = b"0123456789-,,\n\n\r.?+ tickblo\0\x7f\x80\xff";
    for _ in 0..random.between(1, 4) {
        if bytes.is_empty() {
            return;
        }
        let at = random.below(bytes.len());
        match random.below(7) {
            0 => bytes[at] = random.byte(),
            1 => bytes[at] = random.pick(LIKELY),
            2 => bytes[at] ^= 1 << random.below(8),
            3 => bytes.insert(at, random.pick(LIKELY)),
            4 => {
                bytes.remove(at);
            }
            5 => {
                let end = (at + random.between(1, 20)).min(bytes.len());
                bytes.drain(at..end);
            }
            _ => bytes.truncate(if random.one_in(2) {
                at
            } else {
                bytes.len() - 1
            }),
        }
    }
}

/// A list whose length is at, about or above the limit, most often without another fault.
fn near_the_limit(random: &mut Random, bench: Bench) -> Vec<u8> {
    let target = match random.below(8) {
        0..=1 => MAX_INPUT,
        2..=3 => MAX_INPUT + 1,
        4 => MAX_INPUT - 1,
        5 => random.between(MAX_INPUT - 20, MAX_INPUT + 20),
        6 => random.between(MAX_INPUT, 2 * MAX_INPUT),
        _ => random.between(MAX_INPUT / 2, MAX_INPUT),
    };
    let mut list = small(random, bench);
    let mut length = list.bytes().len();
    loop {
        let line = list.ticks.line(random, bench, list.inputs);
        let more = line.join(&b',').len() + 1;
        if length + more > target {
            break;
        }
        length += more;
        list.lines.push(line);
    }
    // longer parameters make up for the rest
    for line in &mut list.lines {
        if line.len() == 8 && length < target {
            let longer = (line[2].len() + target - length).min(10);
            if longer > line[2].len() {
                length += longer - line[2].len();
                line[2] = vec![b'1'; longer];
            }
        }
    }
    let mut bytes = list.bytes();
    if bytes.len() < target && random.one_in(2) {
        bytes.extend_from_slice(b"tick");
        bytes.resize(target, b',');
    }
    if random.one_in(6) {
        damage_bytes(random, &mut bytes);
    }
    bytes
}

/// A field or a line of very great length, or very many lines.
fn overlong(random: &mut Random, bench: Bench) -> Vec<u8> {
    let mut list = small(random, bench);
    let length = random.pick(&[100, 1_000, 10_000, 60_000]);
    match random.below(4) {
        0 => {
            if let Some(at) = some_field(random, &mut list) {
                *at = vec![random.pick(b"0179"); length];
                if random.one_in(3) {
                    at.insert(0, b'-');
                }
                if random.one_in(5) {
                    at.push(b'x');
                }
            }
        }
        1 => {
            if let Some(line) = list.some_line(random) {
                line.resize(length, field(""));
            }
        }
        2 => {
            let at = random.below(list.lines.len() + 1);
            let empty = vec![vec![Field::new()]; length];
            list.lines.splice(at..at, empty);
        }
        _ => {
            let line = vec![vec![random.byte(); length]];
            let at = random.below(list.lines.len() + 1);
            list.lines.insert(at, line);
        }
    }
    list.bytes()
}

/// Texts that were never a list: empty, a few words of the language, or any bytes.
fn stray(random: &mut Random) -> Vec<u8> {
    #[rustfmt::skip]
    const STARTS: [&str; 8] = [
        "", "", "\n", "tick", "tick\n", "diagram,0,0\n", "diagram,0,0\ntick\n",
        "diagram,1,1\ntick,",
    ];
    #[rustfmt::skip]
    const WORDS: [&str; 20] = [
        "diagram", "block", "tick", "tick", ",", ",", ",", ",", "\n", "\n", "\n", "0", "1", "7",
        "-", "?", ".", " ", "\r", "block,",
    ];
    let mut bytes = random.pick(&STARTS).as_bytes().to_vec();
    match random.below(3) {
        0 => {}
        1 => {
            for _ in 0..random.between(1, 30) {
                bytes.extend_from_slice(random.pick(&WORDS).as_bytes());
            }
        }
        _ => bytes.extend((0..random.between(1, 200)).map(|_| random.byte())),
    }
    bytes
}

/// The list for timing: 64 sums written against the flow, so that every round makes one more wire known, and as many
/// ticks as the limit allows.
fn loaded(random: &mut Random) -> Vec<u8> {
    let mut lines = vec![vec![field("diagram"), field(1), field(MAX_BLOCKS + 1)]];
    for block in 0..MAX_BLOCKS {
        let feeds = if block + 1 < MAX_BLOCKS { block + 2 } else { 0 };
        lines.push(block_line(17, 0, &[feeds, 0], &[block + 1]));
    }
    let mut bytes = Vec::with_capacity(MAX_INPUT);
    for line in &lines {
        push_line(line, &mut bytes);
    }
    const TICK: usize = "tick,7\n".len();
    while bytes.len() + TICK <= MAX_INPUT {
        push_line(&[field("tick"), field(random.below(10))], &mut bytes);
    }
    bytes
}
