//! The register of families for programs in Rust: a safe wrapper of the functions that the static library `exports` exports.
//!
//! A register lies in memory that the caller lends: [`words`] words for its family and [`bytes`] bytes for its answers. Nothing is allocated, and there is no other
//! state. `docs/RULES.md` says what each call does and when it is refused, `docs/NUMBERS.md` has the bytes and the words.
//!
//! ```
//! use heirs::{Refusal, Register};
//!
//! let mut memory = vec![0; heirs::words(64)];
//! let mut answer = vec![0; heirs::bytes(64)];
//! let mut register = Register::open(&mut memory, &mut answer, 64)?;
//! let mother = register.born(None, None)?;
//! let child = register.born(Some(mother), None)?;
//! register.dies(mother)?;
//! for share in register.estate_of(mother)? {
//!     assert_eq!((share.who, share.up, share.down), (child, 1, 1));
//! }
//! assert_eq!(register.dies(mother), Err(Refusal { number: 5, place: 0 }));
//! # Ok::<(), Refusal>(())
//! ```
pub mod raw;

/// The most persons that a register can have room for.
pub const MOST_PERSONS: u32 = 4096;

/// How many words a register for so many persons asks for.
pub const fn words(limit: u32) -> usize {
    24_576 + 16 * limit as usize
}

/// How many bytes it asks for its answers.
pub const fn bytes(limit: u32) -> usize {
    let each = 8 + 20 * limit as usize;
    if each < 49_160 { 49_160 } else { each }
}

/// Why a call was turned away: a number and a place of `docs/NUMBERS.md`.
#[derive(Clone, Copy, PartialEq, Eq, Debug)]
pub struct Refusal {
    pub number: u32,
    pub place: u32,
}

impl std::fmt::Display for Refusal {
    fn fmt(&self, f: &mut std::fmt::Formatter<'_>) -> std::fmt::Result {
        write!(f, "refused {} at {}", self.number, self.place)
    }
}

impl std::error::Error for Refusal {}

/// What a signed result is: a length, or a refusal.
pub fn outcome(result: i64) -> Result<usize, Refusal> {
    usize::try_from(result).map_err(|_| {
        let told = result.unsigned_abs();
        Refusal { number: (told >> 32) as u32, place: told as u32 }
    })
}

/// An heir's share of an estate: `up` by `down`, in lowest terms.
#[derive(Clone, Copy, PartialEq, Eq, Debug)]
pub struct Share {
    pub who: u32,
    pub up: u64,
    pub down: u64,
}

/// The shares of an estate, by the heirs' numbers.
#[derive(Clone, Debug)]
pub struct Shares<'a> {
    rows: std::slice::ChunksExact<'a, u8>,
}

impl Iterator for Shares<'_> {
    type Item = Share;

    fn next(&mut self) -> Option<Share> {
        let row = self.rows.next()?;
        Some(Share { who: number(row, 0, 4) as u32, up: number(row, 4, 8), down: number(row, 12, 8) })
    }

    fn size_hint(&self) -> (usize, Option<usize>) {
        self.rows.size_hint()
    }
}

impl ExactSizeIterator for Shares<'_> {}

/// The number in so many bytes from a place on, the low byte first.
fn number(row: &[u8], at: usize, bytes: usize) -> u64 {
    row[at..at + bytes].iter().rev().fold(0, |sum, &byte| sum << 8 | u64::from(byte))
}

/// A register in lent memory. Since it alone holds the memory, its words stay those of a register.
#[derive(Debug)]
pub struct Register<'a> {
    memory: &'a mut [u32],
    answer: &'a mut [u8],
}

impl<'a> Register<'a> {
    /// Opens a register without persons. What was in its words is lost, unless it is refused: by 3 for more than 4,096 persons or too little memory.
    pub fn open(memory: &'a mut [u32], answer: &'a mut [u8], limit: u32) -> Result<Register<'a>, Refusal> {
        outcome(raw::open(memory, answer, limit))?;
        Ok(Register { memory, answer })
    }

    /// Takes up the register that words hold. Refused by 7 where they are not those of a register, and by 3 at 1 where there are too few bytes for its answers.
    pub fn resume(memory: &'a mut [u32], answer: &'a mut [u8]) -> Result<Register<'a>, Refusal> {
        outcome(raw::check(memory, answer))?;
        Ok(Register { memory, answer })
    }

    /// Answers a row of bytes: the answer's bytes, or the refusal.
    pub fn call(&mut self, row: &[u8]) -> Result<&[u8], Refusal> {
        let length = outcome(raw::call(self.memory, row, self.answer))?;
        Ok(&self.answer[..length])
    }

    /// A person is born, to parents who are known or not: their number.
    pub fn born(&mut self, mother: Option<u32>, father: Option<u32>) -> Result<u32, Refusal> {
        let link = |parent: Option<u32>| match parent {
            None => Ok(0),
            // nobody has the greatest number, and one more would not fit
            Some(number) => number.checked_add(1).ok_or(Refusal { number: 4, place: 0 }),
        };
        let (mother, father) = (link(mother)?, link(father)?);
        self.numbered(0, &[mother, father])
    }

    /// Two wed: the first of them.
    pub fn wed(&mut self, one: u32, other: u32) -> Result<u32, Refusal> {
        self.numbered(1, &[one, other])
    }

    /// Two part: the former spouse.
    pub fn parted(&mut self, who: u32) -> Result<u32, Refusal> {
        self.numbered(2, &[who])
    }

    /// Somebody dies: who.
    pub fn dies(&mut self, who: u32) -> Result<u32, Refusal> {
        self.numbered(3, &[who])
    }

    /// The shares of somebody's estate, as if they had died now.
    pub fn estate_of(&mut self, who: u32) -> Result<Shares<'_>, Refusal> {
        let answer = self.send(4, &[who])?;
        Ok(Shares { rows: answer[5..].chunks_exact(20) })
    }

    fn numbered(&mut self, kind: u8, values: &[u32]) -> Result<u32, Refusal> {
        self.send(kind, values).map(|answer| number(answer, 1, 4) as u32)
    }

    fn send(&mut self, kind: u8, values: &[u32]) -> Result<&[u8], Refusal> {
        let mut row = [kind; 9];
        for (place, value) in values.iter().enumerate() {
            row[1 + 4 * place..][..4].copy_from_slice(&value.to_le_bytes());
        }
        self.call(&row[..1 + 4 * values.len()])
    }

    /// How many persons there is room for.
    pub fn limit(&self) -> u32 {
        self.memory[0]
    }

    /// How many persons there are.
    pub fn persons(&self) -> u32 {
        self.memory[1]
    }
}

#[cfg(test)]
mod tests {
    use super::*;

    fn lent(limit: u32) -> (Vec<u32>, Vec<u8>) {
        (vec![7; words(limit)], vec![7; bytes(limit)])
    }

    #[test]
    fn a_family() {
        let (mut memory, mut answer) = lent(8);
        let mut register = Register::open(&mut memory, &mut answer, 8).unwrap();
        for (mother, father) in [(None, None), (None, None), (Some(0), Some(1)), (Some(0), Some(1)), (None, None)] {
            register.born(mother, father).unwrap();
        }
        assert_eq!(register.wed(2, 4), Ok(2));
        assert_eq!(register.born(Some(4), Some(2)), Ok(5));
        let shares: Vec<(u32, u64, u64)> = register.estate_of(2).unwrap().map(|share| (share.who, share.up, share.down)).collect();
        assert_eq!(shares, [(4, 1, 4), (5, 3, 4)]);
        assert_eq!(register.parted(4), Ok(2));
        assert_eq!(register.dies(5), Ok(5));
        assert_eq!(register.estate_of(2).unwrap().len(), 2);
        assert_eq!(register.born(Some(u32::MAX), None), Err(Refusal { number: 4, place: 0 }));
        assert_eq!(register.call(&[9]), Err(Refusal { number: 1, place: 0 }));
        assert_eq!((register.limit(), register.persons()), (8, 6));
    }

    #[test]
    fn taken_up_again() {
        let (mut memory, mut answer) = lent(3);
        let mut register = Register::open(&mut memory, &mut answer, 3).unwrap();
        register.born(None, None).unwrap();
        let mut register = Register::resume(&mut memory, &mut answer).unwrap();
        assert_eq!(register.born(Some(0), None), Ok(1));
        assert_eq!(Register::resume(&mut memory, &mut answer[1..]).unwrap_err(), Refusal { number: 3, place: 1 });
        memory[4] = 2;
        assert_eq!(Register::resume(&mut memory, &mut answer).unwrap_err(), Refusal { number: 7, place: 0 });
    }

    #[test]
    fn too_much_and_too_little() {
        let (mut memory, mut answer) = lent(1);
        assert_eq!(Register::open(&mut memory, &mut answer, 4097).unwrap_err(), Refusal { number: 3, place: 0 });
        assert_eq!(Register::open(&mut memory, &mut answer, 2).unwrap_err(), Refusal { number: 3, place: 1 });
        assert_eq!(Register::resume(&mut [], &mut []).unwrap_err(), Refusal { number: 7, place: 0 });
    }
}
