//! Calls and answers as bytes, by the tables of `docs/NUMBERS.md`.
use crate::Fault;

/// A call. Parents at a birth are 0 where not known, else one more than the person's number.
#[derive(Clone, Copy, PartialEq, Eq, Debug)]
pub enum Call {
    Born { mother: u32, father: u32 },
    Wed(u32, u32),
    Parted(u32),
    Dies(u32),
    EstateOf(u32),
}

/// An heir's share of an estate.
#[derive(Clone, Copy, PartialEq, Eq, Debug)]
pub struct Share {
    pub who: u32,
    pub up: u64,
    pub down: u64,
}

/// What is answered to a call that is taken.
#[derive(Clone, PartialEq, Eq, Debug)]
pub enum Answer {
    Number(u32),
    Shares(Vec<Share>),
}

/// What is answered to a call that is turned away.
#[derive(Clone, Copy, PartialEq, Eq, Debug)]
pub struct Refusal {
    pub number: u32,
    pub place: u32,
}

impl Refusal {
    pub fn at_once(number: u32) -> Refusal {
        Refusal { number, place: 0 }
    }
}

impl Call {
    /// The call that a row of bytes is, or the place of the first byte that doesn't fit.
    pub fn read(row: &[u8], fault: Option<Fault>) -> Result<Call, usize> {
        let kind = *row.first().ok_or(0usize)?;
        let length = match kind {
            0 | 1 => 9,
            2..=4 => 5,
            _ => return Err(0),
        };
        if row.len() > length && fault == Some(Fault::PlaceIsLength) {
            return Err(row.len());
        }
        if row.len() != length {
            return Err(row.len().min(length));
        }
        let values: Vec<u32> = row[1..].chunks(4).map(|four| four.iter().rev().fold(0, |sum, &byte| sum * 256 + u32::from(byte))).collect();
        Ok(match kind {
            0 => Call::Born { mother: values[0], father: values[1] },
            1 => Call::Wed(values[0], values[1]),
            2 => Call::Parted(values[0]),
            3 => Call::Dies(values[0]),
            _ => Call::EstateOf(values[0]),
        })
    }

    /// The bytes of a call.
    pub fn row(self) -> Vec<u8> {
        let (kind, values) = match self {
            Call::Born { mother, father } => (0, vec![mother, father]),
            Call::Wed(one, other) => (1, vec![one, other]),
            Call::Parted(who) => (2, vec![who]),
            Call::Dies(who) => (3, vec![who]),
            Call::EstateOf(who) => (4, vec![who]),
        };
        let mut row = vec![kind];
        values.iter().for_each(|&value| put(&mut row, u64::from(value), 4));
        row
    }
}

impl Answer {
    /// The bytes of an answer.
    pub fn row(&self) -> Vec<u8> {
        let mut row = Vec::new();
        match self {
            Answer::Number(number) => {
                row.push(1);
                put(&mut row, u64::from(*number), 4);
            }
            Answer::Shares(shares) => {
                row.push(2);
                put(&mut row, shares.len() as u64, 4);
                for share in shares {
                    put(&mut row, u64::from(share.who), 4);
                    put(&mut row, share.up, 8);
                    put(&mut row, share.down, 8);
                }
            }
        }
        row
    }
}

impl Refusal {
    /// The bytes of a refusal.
    pub fn row(self) -> Vec<u8> {
        let mut row = vec![0];
        put(&mut row, u64::from(self.number), 4);
        put(&mut row, u64::from(self.place), 4);
        row
    }
}

fn put(row: &mut Vec<u8>, mut value: u64, bytes: usize) {
    for _ in 0..bytes {
        row.push((value % 256) as u8);
        value /= 256;
    }
}

#[cfg(test)]
mod tests {
    use super::*;

    #[test]
    fn places() {
        for (row, place) in [(vec![], 0), (vec![5, 0, 0], 0), (vec![255], 0), (vec![0, 1], 2), (vec![2; 9], 5), (vec![1; 12], 9), (vec![4; 4], 4)] {
            assert_eq!(Call::read(&row, None), Err(place));
        }
        for call in [Call::Born { mother: 3, father: 5 }, Call::Wed(5, 7), Call::Parted(1 << 31), Call::Dies(256), Call::EstateOf(5)] {
            assert_eq!(Call::read(&call.row(), None), Ok(call));
        }
    }
}
