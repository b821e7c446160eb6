//! Diagrams and the reading of their text.

use std::ops::RangeInclusive;

use crate::text::{self, Cause, Line, Refusal};

pub const MAX_INPUTS: usize = 16;
pub const MAX_WIRES: usize = 144;
pub const MAX_BLOCKS: usize = 64;

/// Up to `N` wires in the order of the ports of one side of a block.
#[derive(Clone, Copy)]
pub struct Ports<const N: usize> {
    wires: [u8; N],
    count: usize,
}

impl<const N: usize> Ports<N> {
    const NONE: Self = Ports {
        wires: [0; N],
        count: 0,
    };

    fn push(&mut self, wire: u8) {
        self.wires[self.count] = wire;
        self.count += 1;
    }

    pub fn wires(&self) -> &[u8] {
        &self.wires[..self.count]
    }
}

pub struct Block {
    pub kind: u8,
    pub parameter: i32,
    pub inputs: Ports<3>,
    pub outputs: Ports<2>,
}

/// A diagram whose wiring has been checked.
pub struct Diagram {
    /// E, the number of input wires.
    pub inputs: usize,
    /// W, the number of all wires.
    pub wires: usize,
    pub blocks: Vec<Block>,
}

impl Diagram {
    pub fn read(text: &[u8]) -> Result<Diagram, Refusal> {
        let mut lines = text::lines(text, 1);
        let first = lines.next().unwrap_or(Line {
            number: 1,
            bytes: b"",
        });
        let (inputs, wires) = read_diagram_line(first)?;
        let mut blocks = Vec::with_capacity(MAX_BLOCKS);
        for line in lines {
            let content = content_after_word(line, b"block")?;
            if blocks.len() == MAX_BLOCKS {
                return Err(line.refusal(Cause::TooManyBlocks, 1));
            }
            blocks.push(read_block(line, content)?);
        }
        let diagram = Diagram {
            inputs,
            wires,
            blocks,
        };
        diagram.check_wiring()?;
        Ok(diagram)
    }

    fn check_wiring(&self) -> Result<(), Refusal> {
        let driven = self.inputs..self.wires;
        for (number, block) in self.blocks.iter().enumerate() {
            let inputs = block.inputs.wires().iter();
            let outputs = block.outputs.wires().iter();
            let unfit = inputs
                .filter(|&&wire| usize::from(wire) >= self.wires)
                .chain(outputs.filter(|&&wire| !driven.contains(&usize::from(wire))))
                .next();
            if let Some(&wire) = unfit {
                return Err(Refusal::new(Cause::WireUnfit, number as u64, wire.into()));
            }
        }
        let mut is_driven = [false; MAX_WIRES];
        for (number, block) in self.blocks.iter().enumerate() {
            for &wire in block.outputs.wires() {
                if std::mem::replace(&mut is_driven[usize::from(wire)], true) {
                    return Err(Refusal::new(Cause::DrivenTwice, number as u64, wire.into()));
                }
            }
        }
        for wire in driven {
            if !is_driven[wire] {
                let blocks = self.blocks.len() as u64;
                return Err(Refusal::new(Cause::NotDriven, blocks, wire as u64));
            }
        }
        Ok(())
    }
}

/// The line without its line feed; its first field must be `word`.
fn content_after_word<'t>(line: Line<'t>, word: &[u8]) -> Result<&'t [u8], Refusal> {
    let content = line.content()?;
    if line.word() == word {
        Ok(content)
    } else {
        Err(line.refusal(Cause::Form, 1))
    }
}

/// Exactly `N` fields.
fn exact_fields<'t, const N: usize>(
    line: Line<'t>,
    content: &'t [u8],
) -> Result<[&'t [u8]; N], Refusal> {
    let found = text::count_fields(content);
    if found != N as u64 {
        return Err(line.refusal(Cause::Fields, found));
    }
    let mut fields = [&content[..0]; N];
    for (place, field) in fields.iter_mut().zip(text::fields(content)) {
        *place = field;
    }
    Ok(fields)
}

/// A number that was read from a field, `None` if the field has not the form, must be there and in its range.
fn in_range(
    line: Line,
    field: u64,
    number: Option<i64>,
    range: RangeInclusive<i64>,
) -> Result<i64, Refusal> {
    let number = number.ok_or(line.refusal(Cause::Form, field))?;
    if range.contains(&number) {
        Ok(number)
    } else {
        Err(line.refusal(Cause::Range, field))
    }
}

fn read_diagram_line(line: Line) -> Result<(usize, usize), Refusal> {
    let content = content_after_word(line, b"diagram")?;
    let [_, inputs, wires] = exact_fields(line, content)?;
    let inputs = in_range(line, 2, text::unsigned(inputs), 0..=MAX_INPUTS as i64)?;
    let wires = in_range(line, 3, text::unsigned(wires), inputs..=MAX_WIRES as i64)?;
    Ok((inputs as usize, wires as usize))
}

fn read_block(line: Line, content: &[u8]) -> Result<Block, Refusal> {
    let [_, kind, parameter, ports @ ..] = exact_fields::<8>(line, content)?;
    let kind = in_range(line, 2, text::unsigned(kind), 0..=255)?;
    let parameter = in_range(
        line,
        3,
        text::signed(parameter),
        i64::from(i32::MIN)..=i64::from(i32::MAX),
    )?;
    let (inputs, outputs) = ports.split_at(3);
    let inputs = read_ports(line, 4, inputs)?;
    if outputs[0].is_empty() {
        return Err(line.refusal(Cause::Form, 7));
    }
    let outputs = read_ports(line, 7, outputs)?;
    Ok(Block {
        kind: kind as u8,
        parameter: parameter as i32,
        inputs,
        outputs,
    })
}

/// The ports of one side, whose first field has the number `first`.
fn read_ports<const N: usize>(
    line: Line,
    first: u64,
    fields: &[&[u8]],
) -> Result<Ports<N>, Refusal> {
    let mut ports = Ports::NONE;
    for (place, (field, number)) in fields.iter().zip(first..).enumerate() {
        if field.is_empty() {
            continue;
        }
        if ports.count != place {
            return Err(line.refusal(Cause::Form, number));
        }
        let wire = in_range(
            line,
            number,
            text::unsigned(field),
            0..=MAX_WIRES as i64 - 1,
        )?;
        ports.push(wire as u8);
    }
    Ok(ports)
}
