//! Estates: who inherits, and how much, by tallies that are handed down from the oldest to the youngest.
use crate::Fault;
use crate::bytes::Share;
use crate::fraction::{Fraction, multiple};
use crate::register::Person;
use std::collections::BTreeMap;

/// An estate of more parts than this is refused, and one of this many pieces or more.
const MOST_PARTS: u64 = 4096;
const PIECES: u128 = 1 << 32;

/// How many parts there are of one by each number.
type Tally = BTreeMap<u64, u64>;

/// A line that has one by `by` of what the relatives have.
#[derive(Clone, Copy)]
struct Start {
    who: usize,
    by: u64,
}

/// Who has a line that lives, the decedent and their own line left out: all who live, and upward whoever has one of them for a child.
pub fn living_lines(persons: &[Person], decedent: Option<usize>) -> Vec<bool> {
    let mut lives = vec![false; persons.len()];
    let mut found: Vec<usize> = (0..persons.len()).filter(|&who| persons[who].lives).collect();
    while let Some(who) = found.pop() {
        if Some(who) != decedent && !lives[who] {
            lives[who] = true;
            found.extend(persons[who].parents());
        }
    }
    lives
}

struct Estate<'a> {
    persons: &'a [Person],
    decedent: usize,
    lives: Vec<bool>,
    fault: Option<Fault>,
}

impl Estate<'_> {
    fn has(&self, fault: Fault) -> bool {
        self.fault == Some(fault)
    }

    /// Those of a list whose lines live.
    fn living(&self, list: impl Iterator<Item = usize>) -> Vec<usize> {
        list.filter(|&who| self.lives[who]).collect()
    }

    fn children(&self, who: usize) -> Vec<usize> {
        self.living(self.persons[who].children.iter().copied())
    }

    fn parents(&self, who: usize) -> Vec<usize> {
        self.living(self.persons[who].parents())
    }

    /// The lines that inherit, and their order: 1 to 3, or 4 where there is none.
    fn starts(&self) -> (u8, Vec<Start>) {
        if !self.children(self.decedent).is_empty() {
            return (1, vec![Start { who: self.decedent, by: 1 }]);
        }
        let mut parents = self.parents(self.decedent);
        if self.has(Fault::LivingParentTakesAll) && parents.iter().any(|&who| self.persons[who].lives) {
            parents.retain(|&who| self.persons[who].lives);
        }
        if !parents.is_empty() {
            return (2, starts(&parents, 1));
        }
        let mut sides: Vec<Vec<usize>> = self.persons[self.decedent].parents().map(|parent| self.parents(parent)).filter(|side| !side.is_empty()).collect();
        if self.has(Fault::SidesMixed) {
            sides = vec![sides.concat()];
        }
        let grandparents: Vec<Start> = sides.iter().flat_map(|side| starts(side, sides.len() as u64)).collect();
        (if grandparents.is_empty() { 4 } else { 3 }, grandparents)
    }

    /// What reaches everybody who lives, or nothing where there are too many parts of it or one is too small.
    fn handed_down(&self, starts: &[Start]) -> Option<BTreeMap<usize, Tally>> {
        let mut reached: BTreeMap<usize, Tally> = BTreeMap::new();
        for start in starts {
            *reached.entry(start.who).or_default().entry(start.by).or_default() += 1;
        }
        let mut heirs = BTreeMap::new();
        while let Some((who, tally)) = reached.pop_first() {
            // each of these parts is handed down to at least one heir, by a multiple of its number
            if tally.values().sum::<u64>() > MOST_PARTS || tally.keys().any(|&by| u128::from(by) >= 2 * PIECES) {
                return None;
            }
            if self.persons[who].lives && who != self.decedent {
                heirs.insert(who, tally);
                continue;
            }
            let lines = self.children(who);
            let divided = if self.has(Fault::DeadLinesDivide) { self.persons[who].children.len() } else { lines.len() };
            for &child in &lines {
                let below = reached.entry(child).or_default();
                for (&by, &parts) in &tally {
                    let here = below.entry(by * divided as u64).or_default();
                    *here = if self.has(Fault::OneLineOnly) { parts } else { *here + parts };
                }
            }
        }
        Some(heirs)
    }
}

/// Lines that have equal parts of one by `by`.
fn starts(lines: &[usize], by: u64) -> Vec<Start> {
    lines.iter().map(|&who| Start { who, by: by * lines.len() as u64 }).collect()
}

/// The shares of an estate, by the heirs' numbers; none where it is beyond the limits.
pub fn shares(persons: &[Person], decedent: usize, fault: Option<Fault>) -> Option<Vec<Share>> {
    let left_out = (fault != Some(Fault::DecedentInherits)).then_some(decedent);
    let estate = Estate { persons, decedent, lives: living_lines(persons, left_out), fault };
    let spouse = persons[decedent].spouse.filter(|&spouse| persons[spouse].lives || estate.has(Fault::DeadSpouseInherits));
    let (order, starts) = estate.starts();
    let heirs = estate.handed_down(&starts)?;

    // beside a spouse the relatives have three parts of one by four times as many, or one part of one by two times as many
    let (by_spouse, times) = match (spouse, order) {
        (None, _) | (_, 4) => (1, 1),
        (_, 1) if !estate.has(Fault::HalfBesideChildren) => (4, 3),
        _ => (2, 1),
    };
    let tallies = heirs.values().flatten();
    let parts = tallies.clone().map(|(_, parts)| parts * times).sum::<u64>() + u64::from(spouse.is_some());
    if parts > MOST_PARTS - u64::from(estate.has(Fault::OnePartTooFew)) {
        return None;
    }
    let most = PIECES + u128::from(estate.has(Fault::MultipleTooLarge));
    let mut pieces = if spouse.is_some() { u128::from(by_spouse) } else { 1 };
    for (&by, _) in tallies {
        pieces = multiple(pieces, u128::from(by * by_spouse));
        if pieces >= most {
            return None;
        }
    }

    let mut fractions: BTreeMap<usize, Fraction> = BTreeMap::new();
    for (&who, tally) in &heirs {
        let sum = tally.iter().fold(Fraction::ZERO, |sum, (&by, &parts)| sum + Fraction::new(u128::from(parts * times), u128::from(by * by_spouse)));
        fractions.insert(who, sum);
    }
    if let Some(spouse) = spouse {
        let part = Fraction::new(1, u128::from(by_spouse));
        let before = if estate.has(Fault::SpouseOrHeir) { Fraction::ZERO } else { fractions.get(&spouse).copied().unwrap_or(Fraction::ZERO) };
        fractions.insert(spouse, before + part);
    }
    let mut shares: Vec<Share> = fractions.iter().map(|(&who, &fraction)| share(who, fraction, pieces, estate.has(Fault::NotInLowestTerms))).collect();
    if estate.has(Fault::HeirsAsTheyCome) {
        shares.sort_by_key(|share| Some(share.who as usize) != spouse);
    }
    Some(shares)
}

fn share(who: usize, fraction: Fraction, pieces: u128, over_pieces: bool) -> Share {
    let times = if over_pieces { pieces / fraction.down } else { 1 };
    Share { who: who as u32, up: (fraction.up * times) as u64, down: (fraction.down * times) as u64 }
}
