//! Signals, cells and the kits of blocks.

/// A value that signals and cells can carry.
pub trait Value: Copy {
    /// `None` for a number outside the range of the type.
    fn from_number(number: i64) -> Option<Self>;
    fn to_number(self) -> i64;
}

impl Value for i32 {
    fn from_number(number: i64) -> Option<Self> {
        i32::try_from(number).ok()
    }

    fn to_number(self) -> i64 {
        i64::from(self)
    }
}

impl Value for bool {
    fn from_number(number: i64) -> Option<Self> {
        match number {
            0 => Some(false),
            1 => Some(true),
            _ => None,
        }
    }

    fn to_number(self) -> i64 {
        i64::from(self)
    }
}

#[derive(Clone, Copy)]
pub enum Signal<V> {
    Unknown,
    Absent,
    Present(V),
}

use Signal::{Absent, Present, Unknown};

impl<V> Signal<V> {
    pub fn is_known(&self) -> bool {
        !matches!(self, Unknown)
    }
}

/// The state of a block; `None` is the empty cell.
pub type Cell<V> = Option<V>;

/// A kit is the set of its kinds; a kind carries the parameter where it has a use for it.
pub trait Kit<V>: Copy {
    /// `None` if the kit does not know the kind.
    fn kind(number: u8, parameter: i32) -> Option<Self>;

    /// The numbers of inputs and outputs.
    fn ports(self) -> (usize, usize);

    fn start(self) -> Cell<V>;

    /// The answers of both output ports, unknown for one that the kind lacks.
    fn fire(self, cell: Cell<V>, inputs: [Signal<V>; 3]) -> [Signal<V>; 2];

    fn next(self, cell: Cell<V>, inputs: [Signal<V>; 3]) -> Cell<V>;
}

/// Two kits as one: the first answers for the kinds it knows.
#[derive(Clone, Copy)]
pub enum Joined<A, B> {
    First(A),
    Second(B),
}

impl<V, A: Kit<V>, B: Kit<V>> Kit<V> for Joined<A, B> {
    fn kind(number: u8, parameter: i32) -> Option<Self> {
        A::kind(number, parameter)
            .map(Joined::First)
            .or_else(|| B::kind(number, parameter).map(Joined::Second))
    }

    fn ports(self) -> (usize, usize) {
        match self {
            Joined::First(kind) => kind.ports(),
            Joined::Second(kind) => kind.ports(),
        }
    }

    fn start(self) -> Cell<V> {
        match self {
            Joined::First(kind) => kind.start(),
            Joined::Second(kind) => kind.start(),
        }
    }

    #[inline]
    fn fire(self, cell: Cell<V>, inputs: [Signal<V>; 3]) -> [Signal<V>; 2] {
        match self {
            Joined::First(kind) => kind.fire(cell, inputs),
            Joined::Second(kind) => kind.fire(cell, inputs),
        }
    }

    #[inline]
    fn next(self, cell: Cell<V>, inputs: [Signal<V>; 3]) -> Cell<V> {
        match self {
            Joined::First(kind) => kind.next(cell, inputs),
            Joined::Second(kind) => kind.next(cell, inputs),
        }
    }
}

#[derive(Clone, Copy)]
pub enum Common {
    Delay,
    Default,
}

impl<V: Value> Kit<V> for Common {
    fn kind(number: u8, _: i32) -> Option<Self> {
        match number {
            1 => Some(Common::Delay),
            3 => Some(Common::Default),
            _ => None,
        }
    }

    fn ports(self) -> (usize, usize) {
        match self {
            Common::Delay => (1, 1),
            Common::Default => (2, 1),
        }
    }

    fn start(self) -> Cell<V> {
        None
    }

    #[inline]
    fn fire(self, cell: Cell<V>, [a, b, _]: [Signal<V>; 3]) -> [Signal<V>; 2] {
        let answer = match self {
            Common::Delay => cell.map_or(Absent, Present),
            Common::Default => match a {
                Absent => b,
                _ => a,
            },
        };
        [answer, Unknown]
    }

    #[inline]
    fn next(self, cell: Cell<V>, [a, ..]: [Signal<V>; 3]) -> Cell<V> {
        match (self, a) {
            (Common::Delay, Present(value)) => Some(value),
            (Common::Delay, Absent) => None,
            _ => cell,
        }
    }
}

#[derive(Clone, Copy)]
pub enum Number {
    Constant(i32),
    Sum,
    Mean,
    Choose,
    Count(i32),
}

impl Kit<i32> for Number {
    fn kind(number: u8, parameter: i32) -> Option<Self> {
        match number {
            16 => Some(Number::Constant(parameter)),
            17 => Some(Number::Sum),
            19 => Some(Number::Mean),
            25 => Some(Number::Choose),
            26 => Some(Number::Count(parameter)),
            _ => None,
        }
    }

    fn ports(self) -> (usize, usize) {
        match self {
            Number::Constant(_) => (0, 1),
            Number::Sum | Number::Mean => (2, 1),
            Number::Choose => (3, 1),
            Number::Count(_) => (1, 1),
        }
    }

    fn start(self) -> Cell<i32> {
        match self {
            Number::Count(parameter) => Some(parameter),
            _ => None,
        }
    }

    #[inline]
    fn fire(self, cell: Cell<i32>, [a, b, c]: [Signal<i32>; 3]) -> [Signal<i32>; 2] {
        let answer = match self {
            Number::Constant(parameter) => Present(parameter),
            Number::Sum => strict(a, b, i32::saturating_add),
            Number::Mean => strict(a, b, floor_mean),
            Number::Choose => match a {
                Present(0) => c,
                Present(_) => b,
                _ => a,
            },
            Number::Count(_) => match a {
                Present(_) => Present(counted(cell).saturating_add(1)),
                Absent => Present(counted(cell)),
                Unknown => Unknown,
            },
        };
        [answer, Unknown]
    }

    #[inline]
    fn next(self, cell: Cell<i32>, [a, ..]: [Signal<i32>; 3]) -> Cell<i32> {
        match (self, a) {
            (Number::Count(_), Present(_)) => Some(counted(cell).saturating_add(1)),
            (Number::Count(_), Absent) => Some(counted(cell)),
            _ => cell,
        }
    }
}

/// Unknown if an input is unknown, otherwise absent if one is absent, otherwise by the rule.
#[inline]
fn strict<V>(a: Signal<V>, b: Signal<V>, rule: impl FnOnce(V, V) -> V) -> Signal<V> {
    match (a, b) {
        (Unknown, _) | (_, Unknown) => Unknown,
        (Absent, _) | (_, Absent) => Absent,
        (Present(a), Present(b)) => Present(rule(a, b)),
    }
}

/// Half of the exact sum, rounded down; it lies between `a` and `b`, so it is in range.
fn floor_mean(a: i32, b: i32) -> i32 {
    ((i64::from(a) + i64::from(b)) >> 1) as i32
}

/// What a count has reached.
fn counted(cell: Cell<i32>) -> i32 {
    cell.unwrap_or(0)
}

#[derive(Clone, Copy)]
pub enum Switch {
    Constant(bool),
    And,
    Or,
    Not,
    Adder,
}

impl Kit<bool> for Switch {
    fn kind(number: u8, parameter: i32) -> Option<Self> {
        match number {
            64 => Some(Switch::Constant(parameter != 0)),
            65 => Some(Switch::And),
            66 => Some(Switch::Or),
            67 => Some(Switch::Not),
            68 => Some(Switch::Adder),
            _ => None,
        }
    }

    fn ports(self) -> (usize, usize) {
        match self {
            Switch::Constant(_) => (0, 1),
            Switch::And | Switch::Or => (2, 1),
            Switch::Not => (1, 1),
            Switch::Adder => (3, 2),
        }
    }

    fn start(self) -> Cell<bool> {
        None
    }

    #[inline]
    fn fire(self, _: Cell<bool>, [a, b, c]: [Signal<bool>; 3]) -> [Signal<bool>; 2] {
        let answer = match self {
            Switch::Constant(value) => Present(value),
            Switch::And => match (a, b) {
                (Present(false), _) | (_, Present(false)) => Present(false),
                _ => strict(a, b, |_, _| true),
            },
            Switch::Or => match (a, b) {
                (Present(true), _) | (_, Present(true)) => Present(true),
                _ => strict(a, b, |_, _| false),
            },
            Switch::Not => match a {
                Present(value) => Present(!value),
                _ => a,
            },
            Switch::Adder => return add(a, b, c),
        };
        [answer, Unknown]
    }

    #[inline]
    fn next(self, cell: Cell<bool>, _: [Signal<bool>; 3]) -> Cell<bool> {
        cell
    }
}

/// The carry and the sum of three switches.
fn add(a: Signal<bool>, b: Signal<bool>, c: Signal<bool>) -> [Signal<bool>; 2] {
    let inputs = [a, b, c];
    let count = |value| {
        inputs
            .iter()
            .filter(|input| matches!(input, Present(v) if *v == value))
            .count()
    };
    let undecided = if inputs.iter().all(Signal::is_known) {
        Absent
    } else {
        Unknown
    };
    let (yes, no) = (count(true), count(false));
    let carry = if yes >= 2 {
        Present(true)
    } else if no >= 2 {
        Present(false)
    } else {
        undecided
    };
    let sum = if yes + no == 3 {
        Present(yes % 2 == 1)
    } else {
        undecided
    };
    [carry, sum]
}
