//! Refusals; lines, fields and numbers of a text.

use std::fmt;

/// The causes that a bench can print.
#[derive(Clone, Copy)]
pub enum Cause {
    Form = 1,
    Range = 2,
    Fields = 3,
    TooManyBlocks = 4,
    WireUnfit = 5,
    DrivenTwice = 6,
    NotDriven = 7,
    KindUnfit = 8,
    InputTooLong = 17,
}

#[derive(Clone, Copy)]
pub struct Refusal {
    cause: Cause,
    places: [u64; 2],
}

impl Refusal {
    pub fn new(cause: Cause, first: u64, second: u64) -> Self {
        Refusal {
            cause,
            places: [first, second],
        }
    }
}

impl fmt::Display for Refusal {
    fn fmt(&self, f: &mut fmt::Formatter) -> fmt::Result {
        let [first, second] = self.places;
        write!(f, "refused,{},{first},{second}", self.cause as u8)
    }
}

/// One line, its line feed included if it has one.
#[derive(Clone, Copy)]
pub struct Line<'t> {
    pub number: u64,
    pub bytes: &'t [u8],
}

impl<'t> Line<'t> {
    /// The first field, whether or not the line has its line feed.
    pub fn word(self) -> &'t [u8] {
        let end = self.bytes.iter().position(|&b| b == b',' || b == b'\n');
        &self.bytes[..end.unwrap_or(self.bytes.len())]
    }

    /// The line without its line feed, which must be there.
    pub fn content(self) -> Result<&'t [u8], Refusal> {
        self.bytes
            .strip_suffix(b"\n")
            .ok_or(self.refusal(Cause::Fields, 0))
    }

    pub fn refusal(self, cause: Cause, place: u64) -> Refusal {
        Refusal::new(cause, self.number, place)
    }
}

/// The lines of a text, the first of which has the number given.
pub fn lines(text: &[u8], first: u64) -> impl Iterator<Item = Line<'_>> {
    text.split_inclusive(|&b| b == b'\n')
        .zip(first..)
        .map(|(bytes, number)| Line { number, bytes })
}

pub fn fields(content: &[u8]) -> impl Iterator<Item = &[u8]> {
    content.split(|&b| b == b',')
}

pub fn count_fields(content: &[u8]) -> u64 {
    content.iter().filter(|&&b| b == b',').count() as u64 + 1
}

/// A number without a sign, `None` if the field has another form. One that is too long for the type comes out as its
/// greatest value, which is outside every range asked for.
pub fn unsigned(field: &[u8]) -> Option<i64> {
    match field {
        b"0" => Some(0),
        [b'1'..=b'9', ..] => field.iter().try_fold(0i64, |number, &b| {
            b.is_ascii_digit().then(|| {
                number
                    .saturating_mul(10)
                    .saturating_add(i64::from(b - b'0'))
            })
        }),
        _ => None,
    }
}

/// A number, or a minus sign and a number other than 0.
pub fn signed(field: &[u8]) -> Option<i64> {
    match field {
        b"-0" => None,
        [b'-', digits @ ..] => unsigned(digits).map(|number| -number),
        _ => unsigned(field),
    }
}

pub fn push_number(number: i64, out: &mut Vec<u8>) {
    let mut digits = [0; 20];
    let mut start = digits.len();
    let mut rest = number.unsigned_abs();
    loop {
        start -= 1;
        digits[start] = b'0' + (rest % 10) as u8;
        rest /= 10;
        if rest == 0 {
            break;
        }
    }
    if number < 0 {
        out.push(b'-');
    }
    out.extend_from_slice(&digits[start..]);
}
