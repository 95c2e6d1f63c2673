//! Persons, the calls on them, and what turns a call away.
use crate::bytes::{Answer, Call, Refusal};
use crate::estate;
use crate::{Fault, MOST_PERSONS};

/// A person, with the numbers of others.
#[derive(Clone, Default, Debug)]
pub struct Person {
    pub mother: Option<usize>,
    pub father: Option<usize>,
    pub lives: bool,
    pub spouse: Option<usize>,
    pub children: Vec<usize>,
}

impl Person {
    /// The parents that are known, the mother first.
    pub fn parents(&self) -> impl Iterator<Item = usize> {
        self.mother.into_iter().chain(self.father)
    }
}

/// A register of at most so many persons.
#[derive(Clone, Debug)]
pub struct Register {
    pub(crate) limit: u32,
    pub(crate) persons: Vec<Person>,
    fault: Option<Fault>,
}

impl Register {
    /// A register without persons, if so many are allowed; a fault may be planted in it.
    pub fn open(limit: u32, fault: Option<Fault>) -> Option<Register> {
        (limit <= MOST_PERSONS).then(|| Register { limit, persons: Vec::new(), fault })
    }

    pub fn limit(&self) -> u32 {
        self.limit
    }

    pub fn persons(&self) -> &[Person] {
        &self.persons
    }

    /// Answers a row of bytes.
    pub fn call(&mut self, row: &[u8]) -> Result<Answer, Refusal> {
        let call = Call::read(row, self.fault).map_err(|place| Refusal { number: 1, place: place as u32 })?;
        match call {
            Call::Born { mother, father } => self.born(mother, father),
            Call::Wed(one, other) => self.wed(one, other),
            Call::Parted(who) => self.parted(who),
            Call::Dies(who) => self.dies(who),
            Call::EstateOf(who) => self.estate_of(who),
        }
    }

    fn find(&self, who: u32) -> Result<usize, Refusal> {
        let who = who as usize;
        if who < self.persons.len() { Ok(who) } else { Err(Refusal::at_once(4)) }
    }

    fn born(&mut self, mother: u32, father: u32) -> Result<Answer, Refusal> {
        let full = self.persons.len() >= self.limit as usize;
        if full && self.fault == Some(Fault::FullBeforeParents) {
            return Err(Refusal::at_once(6));
        }
        let known = |parent: u32| parent.checked_sub(1).map(|number| self.find(number)).transpose();
        let (mother, father) = (known(mother)?, known(father)?);
        if mother.is_some() && mother == father {
            return Err(Refusal::at_once(4));
        }
        if full {
            return Err(Refusal::at_once(6));
        }
        let child = self.persons.len();
        self.persons.push(Person { mother, father, lives: true, ..Person::default() });
        for parent in mother.into_iter().chain(father) {
            self.persons[parent].children.push(child);
        }
        Ok(Answer::Number(child as u32))
    }

    fn wed(&mut self, one: u32, other: u32) -> Result<Answer, Refusal> {
        let (a, b) = (self.find(one)?, self.find(other)?);
        if a == b || ![a, b].into_iter().all(|who| self.persons[who].lives && self.is_free(who)) {
            return Err(Refusal::at_once(5));
        }
        self.persons[a].spouse = Some(b);
        self.persons[b].spouse = Some(a);
        Ok(Answer::Number(one))
    }

    fn is_free(&self, who: usize) -> bool {
        match self.persons[who].spouse {
            None => true,
            Some(spouse) => self.fault == Some(Fault::WidowWeds) && !self.persons[spouse].lives,
        }
    }

    fn parted(&mut self, who: u32) -> Result<Answer, Refusal> {
        let who = self.find(who)?;
        let spouse = self.persons[who].spouse.take().ok_or(Refusal::at_once(5))?;
        if self.fault != Some(Fault::PartedFromOneSide) {
            self.persons[spouse].spouse = None;
        }
        Ok(Answer::Number(spouse as u32))
    }

    fn dies(&mut self, who: u32) -> Result<Answer, Refusal> {
        let number = self.find(who)?;
        if !self.persons[number].lives {
            return Err(Refusal::at_once(5));
        }
        self.persons[number].lives = false;
        Ok(Answer::Number(who))
    }

    fn estate_of(&self, who: u32) -> Result<Answer, Refusal> {
        let decedent = self.find(who)?;
        estate::shares(&self.persons, decedent, self.fault).map(Answer::Shares).ok_or(Refusal::at_once(6))
    }
}
