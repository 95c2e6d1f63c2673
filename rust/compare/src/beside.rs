//! Runs the exported functions beside the register written separately, and finds the first difference.
use heirs::raw;
use separate::{Answer, Fault, Refusal, Register};
use std::fmt;

/// More is lent than is asked for, and must stay as it was.
const MORE: usize = 7;
const WORD: u32 = 0xa5a5_0f0f;
const BYTE: u8 = 0x5a;

/// Both registers, the lent memory, and what must be in it.
pub struct Beside {
    separate: Register,
    memory: Vec<u32>,
    answer: Vec<u8>,
    right_memory: Vec<u32>,
    right_answer: Vec<u8>,
}

/// The first difference: at which call, and in what.
#[derive(Clone, PartialEq, Eq, Debug)]
pub struct Difference {
    /// `None` at opening.
    pub call: Option<usize>,
    pub what: What,
}

#[derive(Clone, PartialEq, Eq, Debug)]
pub enum What {
    Result { exported: i64, separate: i64, answer: Vec<u8>, right: Vec<u8> },
    Answer { place: usize, exported: u8, separate: u8 },
    Memory { place: usize, exported: u32, separate: u32 },
    Check { exported: i64, separate: i64 },
}

impl fmt::Display for What {
    fn fmt(&self, f: &mut fmt::Formatter<'_>) -> fmt::Result {
        match self {
            What::Result { exported, separate, answer, right } => {
                write!(f, "result {} exported, {} separately", told(*exported), told(*separate))?;
                write!(f, "\n  answer exported   {}\n  answer separately {}", hex(answer), hex(right))
            }
            What::Answer { place, exported, separate } => write!(f, "byte {place} of the answer is {exported} exported, {separate} separately"),
            What::Memory { place, exported, separate } => write!(f, "word {place} of memory is {exported} exported, {separate} separately"),
            What::Check { exported, separate } => write!(f, "the check says {} exported, {} separately", told(*exported), told(*separate)),
        }
    }
}

pub fn hex(bytes: &[u8]) -> String {
    bytes.iter().map(|byte| format!("{byte:02x}")).collect::<Vec<_>>().join(" ")
}

fn told(result: i64) -> String {
    match heirs::outcome(result) {
        Ok(length) => length.to_string(),
        Err(refusal) => refusal.to_string(),
    }
}

/// The signed result that a refusal is.
pub fn signed(number: u32, place: u32) -> i64 {
    -((i64::from(number) << 32) + i64::from(place))
}

fn first_difference<T: PartialEq>(these: &[T], those: &[T]) -> Option<usize> {
    if these == those { None } else { these.iter().zip(those).position(|(this, that)| this != that) }
}

impl Beside {
    /// Opens both in memory that is longer than asked for and full of other numbers.
    pub fn open(limit: u32, fault: Option<Fault>) -> Result<Beside, What> {
        let words = separate::asked_words(limit);
        let bytes = separate::asked_bytes(limit);
        let separate = Register::open(limit, fault).expect("the limit is at most 4,096");
        let mut memory = vec![WORD; words + MORE];
        let mut answer = vec![BYTE; bytes + MORE];
        let result = raw::open(&mut memory, &mut answer, limit);
        let mut right_memory = vec![0; words];
        right_memory.resize(words + MORE, WORD);
        let right_answer = vec![BYTE; bytes + MORE];
        separate::write_words(&separate, &mut right_memory);
        let beside = Beside { separate, memory, answer, right_memory, right_answer };
        beside.compare(result, 0, 0)?;
        Ok(beside)
    }

    pub fn separate(&self) -> &Register {
        &self.separate
    }

    pub fn memory(&self) -> &[u32] {
        &self.memory
    }

    /// Has both answer a row of bytes, and compares the signed results, every byte of the answer and every word of memory.
    pub fn call(&mut self, row: &[u8]) -> Result<Result<Answer, Refusal>, What> {
        let result = raw::call(&mut self.memory, row, &mut self.answer);
        let right = self.separate.call(row);
        let (right_result, length) = match &right {
            Ok(answer) => {
                let bytes = answer.row();
                self.right_answer[..bytes.len()].copy_from_slice(&bytes);
                separate::write_words(&self.separate, &mut self.right_memory);
                (bytes.len() as i64, bytes.len())
            }
            // a refusal: all bytes and words must be as they were
            Err(refusal) => (signed(refusal.number, refusal.place), 0),
        };
        self.compare(result, right_result, length)?;
        Ok(right)
    }

    fn compare(&self, exported: i64, separate: i64, length: usize) -> Result<(), What> {
        if exported != separate {
            let said = usize::try_from(exported).map_or(0, |length| length.min(self.answer.len()));
            return Err(What::Result { exported, separate, answer: self.answer[..said].to_vec(), right: self.right_answer[..length].to_vec() });
        }
        if let Some(place) = first_difference(&self.answer, &self.right_answer) {
            return Err(What::Answer { place, exported: self.answer[place], separate: self.right_answer[place] });
        }
        if let Some(place) = first_difference(&self.memory, &self.right_memory) {
            return Err(What::Memory { place, exported: self.memory[place], separate: self.right_memory[place] });
        }
        Ok(())
    }

    /// Takes the register up again in other memory, and goes on there.
    pub fn move_on(&mut self) -> Result<(), What> {
        self.memory = self.memory.clone();
        check(&self.memory, &self.answer)
    }
}

/// Compares what both say of words, whichever they are.
pub fn check(memory: &[u32], answer: &[u8]) -> Result<(), What> {
    let separate = if !separate::is_register(memory) {
        signed(7, 0)
    } else if answer.len() < separate::asked_bytes(memory[0]) {
        signed(3, 1)
    } else {
        i64::from(memory[1])
    };
    let exported = raw::check(memory, answer);
    if exported == separate { Ok(()) } else { Err(What::Check { exported, separate }) }
}

/// The first difference that a list of calls shows.
pub fn difference(limit: u32, rows: &[Vec<u8>], fault: Option<Fault>) -> Option<Difference> {
    let mut beside = match Beside::open(limit, fault) {
        Ok(beside) => beside,
        Err(what) => return Some(Difference { call: None, what }),
    };
    rows.iter().enumerate().find_map(|(call, row)| beside.call(row).err().map(|what| Difference { call: Some(call), what }))
}
