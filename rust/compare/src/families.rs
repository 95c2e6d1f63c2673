//! Calls on families that look random: of at most 24 persons, and at the limits of an estate.
use crate::random::Random;
use separate::{Call, Person, Register};

/// What the families are like.
#[derive(Clone, Copy, PartialEq, Eq, Debug)]
pub enum Kind {
    /// Parents are known or not, and mostly wed.
    Village,
    /// A few at the beginning, and then children of relatives.
    Cousins,
    /// Pairs of siblings, each pair the children of the one above.
    Pairs,
    /// Each the child of the one before, and now and then of another.
    Chain,
    /// Grandparents, parents, siblings and half-siblings, most of them dead.
    Orders,
}

const KINDS: [Kind; 5] = [Kind::Village, Kind::Cousins, Kind::Pairs, Kind::Chain, Kind::Orders];

/// Makes one call after the other for a family of some kind.
pub struct Caller {
    random: Random,
    kind: Kind,
    calls: usize,
    made: usize,
    /// How many of a hundred births are to be in the first half, and deaths in the second.
    births: usize,
    deaths: usize,
}

fn link(who: usize) -> u32 {
    who as u32 + 1
}

impl Caller {
    /// A caller who makes so many calls, from a number to begin with.
    pub fn new(begin: u64, calls: usize) -> Caller {
        let mut random = Random::new(begin);
        let kind = KINDS[random.below(KINDS.len())];
        let births = 45 + random.below(45);
        let deaths = 15 + random.below(40);
        Caller { random, kind, calls, made: 0, births, deaths }
    }

    /// The next call, for the family as it is.
    pub fn call(&mut self, register: &Register) -> Option<Vec<u8>> {
        if self.made == self.calls {
            return None;
        }
        self.made += 1;
        let persons = register.persons();
        let early = self.made * 2 < self.calls;
        let full = persons.len() >= register.limit() as usize;
        let births = match (early, full) {
            (true, false) => self.births,
            (false, false) => 10,
            (_, true) => 3,
        };
        let deaths = if early { 6 } else { self.deaths };
        let unreadable = 4;
        let weddings = 10;
        let partings = 3;
        let choice = self.random.below(births + deaths + unreadable + weddings + partings + 35);
        let bounds = [births, deaths, unreadable, weddings, partings].into_iter().scan(0, |sum, part| {
            *sum += part;
            Some(*sum)
        });
        Some(match bounds.take_while(|&bound| choice >= bound).count() {
            0 => self.birth(persons),
            1 => Call::Dies(self.somebody(persons, |person| person.lives)).row(),
            2 => self.unreadable(),
            3 => self.wedding(persons),
            4 => Call::Parted(self.somebody(persons, |person| person.spouse.is_some())).row(),
            _ => Call::EstateOf(self.somebody(persons, |_| true)).row(),
        })
    }

    /// Mostly somebody of whom a test is true, sometimes anybody, sometimes a number of nobody.
    fn somebody(&mut self, persons: &[Person], test: impl Fn(&Person) -> bool) -> u32 {
        let fitting: Vec<usize> = (0..persons.len()).filter(|&who| test(&persons[who])).collect();
        match self.random.below(20) {
            0 => persons.len() as u32,
            1 => self.random.pick(&[u32::MAX, 4096, persons.len() as u32 + 1]).unwrap_or(0),
            2..5 => self.random.below(persons.len() + 1) as u32,
            _ => self.random.pick(&fitting).unwrap_or(0) as u32,
        }
    }

    fn birth(&mut self, persons: &[Person]) -> Vec<u8> {
        let (mother, father) = match self.random.below(25) {
            0 => self.wrong_parents(persons.len()),
            _ if persons.is_empty() => (0, 0),
            _ => self.parents(persons),
        };
        if self.random.percent(50) { Call::Born { mother, father } } else { Call::Born { mother: father, father: mother } }.row()
    }

    fn wrong_parents(&mut self, count: usize) -> (u32, u32) {
        let somebody = self.random.below(count + 1) as u32;
        match self.random.below(4) {
            0 => (somebody, somebody),
            1 => (count as u32 + 1, somebody),
            2 => (u32::MAX, somebody),
            _ => (somebody, 5000),
        }
    }

    /// Parents by the kind of the family, as links.
    fn parents(&mut self, persons: &[Person]) -> (u32, u32) {
        let count = persons.len();
        let last = count - 1;
        match self.kind {
            Kind::Pairs if count < 2 => (0, 0),
            Kind::Pairs if self.random.percent(97) => (link(count / 2 * 2 - 2), link(count / 2 * 2 - 1)),
            Kind::Chain if self.random.percent(80) => (link(last), if self.random.percent(15) { self.another(count, last) } else { 0 }),
            Kind::Cousins if count < 3 => (0, 0),
            Kind::Orders if count < 4 => (0, 0),
            Kind::Orders => {
                let one = self.random.below(count.min(7));
                (link(one), if self.random.percent(70) { self.another(count.min(9), one) } else { 0 })
            }
            Kind::Cousins | Kind::Pairs | Kind::Chain => self.relatives(persons),
            Kind::Village => self.couple(persons),
        }
    }

    /// Somebody below a number, who is not this one; nobody where there is none.
    fn another(&mut self, end: usize, but: usize) -> u32 {
        let other = self.random.below(end);
        if other == but { 0 } else { link(other) }
    }

    /// Two of the youngest, often with a parent in common.
    fn relatives(&mut self, persons: &[Person]) -> (u32, u32) {
        let count = persons.len();
        let young = |random: &mut Random| count - 1 - random.below(count.min(6));
        let one = young(&mut self.random);
        let siblings: Vec<usize> = persons[one].parents().flat_map(|parent| persons[parent].children.iter().copied()).filter(|&who| who != one).collect();
        let other = if self.random.percent(30) { self.random.pick(&siblings) } else { None };
        let other = other.unwrap_or_else(|| young(&mut self.random));
        (link(one), if other == one { 0 } else { link(other) })
    }

    /// None, one, or two parents, who are mostly wed.
    fn couple(&mut self, persons: &[Person]) -> (u32, u32) {
        let count = persons.len();
        let one = self.random.below(count);
        match (self.random.below(10), persons[one].spouse) {
            (0, _) => (0, 0),
            (1, _) => (link(one), 0),
            (2..7, Some(spouse)) => (link(one), link(spouse)),
            _ => (link(one), self.another(count, one)),
        }
    }

    /// Mostly two who can wed, often relatives.
    fn wedding(&mut self, persons: &[Person]) -> Vec<u8> {
        let free = |person: &Person| person.lives && person.spouse.is_none();
        let one = self.somebody(persons, free);
        let other = if self.random.percent(3) { one } else { self.somebody(persons, free) };
        Call::Wed(one, other).row()
    }

    /// Bytes that are no call: none, a kind that is not there, too few, too many.
    fn unreadable(&mut self) -> Vec<u8> {
        let call = match self.random.below(5) {
            0 => Call::Born { mother: 1, father: 2 },
            1 => Call::Wed(0, 1),
            2 => Call::Parted(0),
            3 => Call::Dies(self.random.below(24) as u32),
            _ => Call::EstateOf(0),
        };
        let mut row = call.row();
        match self.random.below(4) {
            0 => row.clear(),
            1 => {
                row[0] = 5 + self.random.below(251) as u8;
                row.truncate(1 + self.random.below(9));
            }
            2 => row.truncate(1 + self.random.below(row.len() - 1)),
            _ => row.resize(row.len() + 1 + self.random.below(12), self.random.below(256) as u8),
        }
        row
    }
}

/// A family near the limits of an estate: how many persons the register is for, and the calls.
pub fn at_the_limits(begin: u64) -> (u32, Vec<Vec<u8>>) {
    let mut random = Random::new(begin);
    let mut list = List::default();
    match random.below(16) {
        0 => list.wide(&mut random),
        1..8 => list.pairs(&mut random),
        _ => list.ladder(&mut random),
    }
    (list.persons + 1, list.rows)
}

#[derive(Default)]
struct List {
    rows: Vec<Vec<u8>>,
    persons: u32,
}

impl List {
    fn call(&mut self, call: Call) {
        self.rows.push(call.row());
    }

    /// Somebody is born to parents given as links: their own link.
    fn born(&mut self, mother: u32, father: u32) -> u32 {
        self.call(Call::Born { mother, father });
        self.persons += 1;
        self.persons
    }

    /// The estates of two, whom a spouse of the first may survive.
    fn estates(&mut self, one: u32, other: u32, wed: bool) {
        if wed {
            self.call(Call::Wed(one, other));
        }
        self.call(Call::EstateOf(one));
        self.call(Call::Dies(other));
        self.call(Call::EstateOf(one));
        self.call(Call::Dies(one));
        self.call(Call::EstateOf(one));
        self.call(Call::EstateOf(other));
    }

    /// Children of a couple, about as many as three parts for each allow.
    fn wide(&mut self, random: &mut Random) {
        let (mother, father) = (self.born(0, 0), self.born(0, 0));
        for _ in 0..1364 + random.below(3) {
            self.born(mother, father);
        }
        self.estates(0, 1, true);
    }

    /// Pairs of siblings one below the other, and one or two below them.
    fn pairs(&mut self, random: &mut Random) {
        let pairs = 10 + random.below(4);
        let mut above = (self.born(0, 0), self.born(0, 0));
        for _ in 0..pairs {
            above = (self.born(above.0, above.1), self.born(above.1, above.0));
        }
        for _ in 0..1 + random.below(2) {
            self.born(above.0, above.1);
        }
        for who in 2..2 + 2 * pairs {
            self.call(Call::Dies(who as u32));
        }
        self.estates(0, 1, random.percent(60));
    }

    /// Siblings who live beside one who is dead and has the next siblings for children, until one by 2^32 is near.
    fn ladder(&mut self, random: &mut Random) {
        let (mother, father) = (self.born(0, 0), self.born(0, 0));
        let mut above = mother;
        let mut by = 1u64;
        let end = 1 << (28 + random.below(5));
        let only_two = random.percent(60);
        while by < end {
            let siblings = if only_two { 2 } else { 2 + random.below(4) as u64 };
            if above != mother {
                self.call(Call::Dies(above - 1));
            }
            let father = if above == mother { father } else { 0 };
            for _ in 1..siblings {
                self.born(above, father);
            }
            above = self.born(above, father);
            by *= siblings;
        }
        self.estates(0, 1, random.percent(60));
    }
}
