//! The words of the proved register's memory, made from a family by the tables of `docs/NUMBERS.md`.
use crate::MOST_PERSONS;
use crate::estate::living_lines;
use crate::register::{Person, Register};

const HEADER: usize = 2;
const PERSON: usize = 4;
const LINKS: usize = 4;
const MARKS: usize = 128;

/// How many words a register for so many persons asks for.
pub fn asked_words(limit: u32) -> usize {
    24_576 + 16 * limit as usize
}

/// How many bytes its answers ask for.
pub fn asked_bytes(limit: u32) -> usize {
    (8 + 20 * limit as usize).max(49_160)
}

/// A link to somebody: 0 where there is nobody, else one more than the number.
fn link(somebody: Option<usize>) -> u32 {
    somebody.map_or(0, |number| number as u32 + 1)
}

/// The child that comes behind this one among a parent's children.
fn behind(persons: &[Person], parent: Option<usize>, child: usize) -> Option<usize> {
    persons[parent?].children.iter().copied().find(|&other| other > child)
}

/// Writes the words of a register; the work area, which is 0 in them, is not written, nor what lies behind.
pub fn write_words(register: &Register, words: &mut [u32]) {
    let (limit, persons) = (register.limit as usize, &register.persons[..]);
    let links_at = HEADER + PERSON * limit;
    let marks_at = links_at + LINKS * limit;
    words[..marks_at + MARKS].fill(0);
    words[0] = register.limit;
    words[1] = persons.len() as u32;
    let lives = living_lines(persons, None);
    for (number, person) in persons.iter().enumerate() {
        let row = [link(person.mother), link(person.father), u32::from(person.lives), link(person.spouse)];
        words[HEADER + PERSON * number..][..PERSON].copy_from_slice(&row);
        let first = person.children.first().copied();
        let last = person.children.last().copied();
        let row = [link(first), link(last), link(behind(persons, person.mother, number)), link(behind(persons, person.father, number))];
        words[links_at + LINKS * number..][..LINKS].copy_from_slice(&row);
        words[marks_at + number / 32] |= u32::from(lives[number]) << (number % 32);
    }
}

/// Whether words are those of a register: whatever family can be read from them is allowed, and has just these words.
pub fn is_register(words: &[u32]) -> bool {
    let [limit, count, ..] = *words else {
        return false;
    };
    if limit > MOST_PERSONS || count > limit || words.len() < asked_words(limit) {
        return false;
    }
    let Some(register) = family(limit, &words[HEADER..][..PERSON * count as usize]) else {
        return false;
    };
    let mut right = vec![0; asked_words(limit)];
    write_words(&register, &mut right);
    right == words[..right.len()]
}

/// The family that rows of persons are, if it is allowed.
fn family(limit: u32, rows: &[u32]) -> Option<Register> {
    let mut register = Register::open(limit, None)?;
    for row in rows.chunks(PERSON) {
        register.call(&crate::Call::Born { mother: row[0], father: row[1] }.row()).ok()?;
    }
    let count = register.persons.len();
    for (number, row) in rows.chunks(PERSON).enumerate() {
        let spouse = row[3].checked_sub(1).map(|spouse| spouse as usize);
        let mutual = spouse.is_none_or(|spouse| spouse < count && spouse != number && rows[PERSON * spouse + 3] as usize == number + 1);
        if row[2] > 1 || !mutual {
            return None;
        }
        register.persons[number].lives = row[2] == 1;
        register.persons[number].spouse = spouse;
    }
    Some(register)
}
