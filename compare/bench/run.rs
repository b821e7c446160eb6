//! A run of a diagram.

use crate::diagram::{Diagram, MAX_WIRES};
use crate::kits::{Cell, Kit, Signal};
use crate::text::{Cause, Refusal};

/// One slot for each wire number that a byte can hold, so that no index has to be checked.
const SLOTS: usize = 256;

/// The slot for every port that a block lacks. It is always absent: that is what a missing input is handed, and as it
/// is known, a missing output never changes it.
const MISSING: u8 = MAX_WIRES as u8;

pub enum Verdict {
    Kept,
    Undetermined,
}

#[derive(Clone, Copy)]
struct Block<V, K> {
    kind: K,
    cell: Cell<V>,
    inputs: [u8; 3],
    outputs: [u8; 2],
}

pub struct Run<V, K> {
    blocks: Vec<Block<V, K>>,
    slots: [Signal<V>; SLOTS],
    wires: usize,
}

impl<V: Copy, K: Kit<V>> Run<V, K> {
    pub fn new(diagram: &Diagram) -> Result<Self, Refusal> {
        let mut blocks = Vec::with_capacity(diagram.blocks.len());
        for (number, block) in diagram.blocks.iter().enumerate() {
            let (inputs, outputs) = (block.inputs.wires(), block.outputs.wires());
            let kind = K::kind(block.kind, block.parameter)
                .filter(|kind| kind.ports() == (inputs.len(), outputs.len()))
                .ok_or(Refusal::new(Cause::KindUnfit, number as u64, 0))?;
            blocks.push(Block {
                kind,
                cell: kind.start(),
                inputs: filled(inputs),
                outputs: filled(outputs),
            });
        }
        Ok(Run {
            blocks,
            slots: [Signal::Absent; SLOTS],
            wires: diagram.wires,
        })
    }

    pub fn begin(&mut self) {
        self.slots[..self.wires].fill(Signal::Unknown);
    }

    pub fn supply(&mut self, wire: usize, signal: Signal<V>) {
        self.slots[wire] = signal;
    }

    /// Rounds until one makes no wire known; answers how many.
    pub fn settle(&mut self) -> u32 {
        let mut rounds = 0;
        loop {
            rounds += 1;
            let mut changed = false;
            for block in &self.blocks {
                changed |= block.fire(&mut self.slots);
            }
            if !changed {
                return rounds;
            }
        }
    }

    /// Closes the tick with keep.
    pub fn close(&mut self) -> Verdict {
        if !self.wires().iter().all(Signal::is_known) {
            return Verdict::Undetermined;
        }
        for block in &mut self.blocks {
            block.cell = block.kind.next(block.cell, block.read(&self.slots));
        }
        Verdict::Kept
    }

    pub fn wires(&self) -> &[Signal<V>] {
        &self.slots[..self.wires]
    }
}

impl<V: Copy, K: Kit<V>> Block<V, K> {
    #[inline]
    fn read(&self, slots: &[Signal<V>; SLOTS]) -> [Signal<V>; 3] {
        self.inputs.map(|wire| slots[usize::from(wire)])
    }

    /// Answers whether a wire became known. Both answers are worked out before either is written.
    #[inline]
    fn fire(&self, slots: &mut [Signal<V>; SLOTS]) -> bool {
        let outputs = self.outputs.map(usize::from);
        if outputs.iter().all(|&wire| slots[wire].is_known()) {
            return false;
        }
        let answers = self.kind.fire(self.cell, self.read(slots));
        let mut changed = false;
        for (wire, answer) in outputs.into_iter().zip(answers) {
            if answer.is_known() && !slots[wire].is_known() {
                slots[wire] = answer;
                changed = true;
            }
        }
        changed
    }
}

/// The wires of one side, with the missing ports filled up.
fn filled<const N: usize>(wires: &[u8]) -> [u8; N] {
    let mut ports = [MISSING; N];
    ports[..wires.len()].copy_from_slice(wires);
    ports
}
