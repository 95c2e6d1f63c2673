//! Nanoseconds per call, of the exported functions, of the same with estates worked out part by part, and of the register written separately, in one run.
use compare::random::Random;
use heirs::raw;
use separate::{Call, Register};
use std::time::Instant;

/// The number that the population begins with.
const BEGIN: u64 = 20_250_704;

/// A case is run again until so many nanoseconds went by, or so many times.
const ENOUGH: u128 = 60_000_000;
const MOST_ROUNDS: u32 = 400;

/// Calls that are timed, on a family that others have led to.
struct Case {
    family: &'static str,
    call: &'static str,
    limit: u32,
    before: Vec<Call>,
    timed: Vec<Call>,
}

fn rows(calls: &[Call]) -> Vec<Vec<u8>> {
    calls.iter().map(|call| call.row()).collect()
}

/// Runs rounds, of which each gives its nanoseconds: those of a call in the quickest round, in which nothing else got in between.
fn quickest(calls: usize, mut round: impl FnMut() -> u128) -> f64 {
    let (mut total, mut least, mut rounds) = (0, u128::MAX, 0);
    while rounds < MOST_ROUNDS && (rounds < 3 || total < ENOUGH) {
        let time = round();
        total += time;
        least = least.min(time);
        rounds += 1;
    }
    least as f64 / calls as f64
}

/// A function that answers a row of bytes in lent memory.
type Answers = fn(&mut [u32], &[u8], &mut [u8]) -> i64;

/// Nanoseconds per call of an exported function, and how many calls were taken.
fn exported(case: &Case, call: Answers) -> (f64, usize) {
    let mut prepared = vec![0; heirs::words(case.limit)];
    let mut answer = vec![0; heirs::bytes(case.limit)];
    assert_eq!(raw::open(&mut prepared, &mut answer, case.limit), 0);
    for row in rows(&case.before) {
        raw::call(&mut prepared, &row, &mut answer);
    }
    let timed = rows(&case.timed);
    let mut memory = prepared.clone();
    let mut taken = 0;
    let nanoseconds = quickest(timed.len(), || {
        memory.copy_from_slice(&prepared);
        taken = 0;
        let start = Instant::now();
        for row in &timed {
            taken += usize::from(call(&mut memory, row, &mut answer) >= 0);
        }
        start.elapsed().as_nanos()
    });
    (nanoseconds, taken)
}

/// The same of the register written separately; its answers are made into bytes too.
fn separately(case: &Case) -> (f64, usize) {
    let mut prepared = Register::open(case.limit, None).expect("the limit is at most 4,096");
    for row in rows(&case.before) {
        let _ = prepared.call(&row);
    }
    let timed = rows(&case.timed);
    let mut taken = 0;
    let nanoseconds = quickest(timed.len(), || {
        let mut register = prepared.clone();
        taken = 0;
        let start = Instant::now();
        for row in &timed {
            taken += usize::from(register.call(row).is_ok_and(|answer| !answer.row().is_empty()));
        }
        start.elapsed().as_nanos()
    });
    (nanoseconds, taken)
}

fn print(case: &Case) {
    let (passes, taken) = exported(case, raw::call);
    let (parts, by_parts) = exported(case, raw::call_by_parts);
    let (separately, also) = separately(case);
    assert_eq!((taken, taken), (by_parts, also), "all take the same calls");
    println!("| {} | {} | {} | {} of {} | {passes:.0} | {parts:.0} | {separately:.0} |", case.family, case.limit, case.call, taken, case.timed.len());
}

/// Births, weddings and deaths of a population over eight generations, of which one couple of ten are cousins.
struct Population {
    births: Vec<Call>,
    weddings: Vec<Call>,
    deaths: Vec<Call>,
}

const GENERATIONS: usize = 8;

/// Of a hundred in each generation, so many are dead.
const DEAD: [usize; GENERATIONS] = [100, 100, 100, 98, 85, 40, 8, 2];

impl Population {
    fn new(persons: usize) -> Population {
        let mut random = Random::new(BEGIN);
        let size = persons / GENERATIONS;
        let mut parents: Vec<Option<(usize, usize)>> = vec![None; persons];
        let mut population = Population { births: Vec::new(), weddings: Vec::new(), deaths: Vec::new() };
        let mut couples: Vec<(usize, usize)> = Vec::new();
        for (generation, &dead) in DEAD.iter().enumerate() {
            let from = generation * size;
            for (who, known) in parents.iter_mut().enumerate().skip(from).take(size) {
                *known = random.pick(&couples);
                let (mother, father) = known.map_or((0, 0), |(mother, father)| (mother as u32 + 1, father as u32 + 1));
                population.births.push(Call::Born { mother, father });
                if random.percent(dead) {
                    population.deaths.push(Call::Dies(who as u32));
                }
            }
            couples = wed(&mut random, &parents, from, size);
            population.weddings.extend(couples.iter().map(|&(one, other)| Call::Wed(one as u32, other as u32)));
        }
        population
    }
}

/// The couples of a generation.
fn wed(random: &mut Random, parents: &[Option<(usize, usize)>], from: usize, size: usize) -> Vec<(usize, usize)> {
    let grandparent = |who: usize| parents[who].and_then(|(mother, _)| parents[mother]).map(|(grandmother, _)| grandmother);
    let mut free: Vec<usize> = (from..from + size).collect();
    let mut couples = Vec::new();
    while let Some(one) = free.pop() {
        let cousin = free.iter().position(|&other| parents[one] != parents[other] && grandparent(one).is_some() && grandparent(one) == grandparent(other));
        let place = match cousin {
            Some(place) if random.percent(10) => place,
            _ if free.is_empty() => break,
            _ => random.below(free.len()),
        };
        couples.push((one, free.swap_remove(place)));
    }
    couples
}

fn population(cases: &mut Vec<Case>, persons: usize) {
    let limit = persons as u32;
    let Population { births, weddings, deaths } = Population::new(persons);
    let estates: Vec<Call> = (0..limit).map(Call::EstateOf).collect();
    let family = "a population, eight generations";
    let mut before = Vec::new();
    for (call, timed) in [("births", births), ("weddings", weddings), ("deaths", deaths), ("estates", estates)] {
        cases.push(Case { family, call, limit, before: before.clone(), timed: timed.clone() });
        before.extend(timed);
    }
}

/// Births of so many with parents by a rule, each given as a link.
fn births(persons: u32, parents: impl Fn(u32) -> (u32, u32)) -> Vec<Call> {
    (0..persons).map(parents).map(|(mother, father)| Call::Born { mother, father }).collect()
}

fn chain(persons: u32) -> Vec<Call> {
    births(persons, |who| (who, 0))
}

fn wide(persons: u32) -> Vec<Call> {
    births(persons, |who| (u32::from(who > 0), 0))
}

/// The mother has half the child's number, and the father a quarter.
fn halves(persons: u32) -> Vec<Call> {
    births(persons, |who| match who {
        0 => (0, 0),
        1 => (1, 0),
        _ => (who / 2 + 1, who / 4 + 1),
    })
}

/// Pairs of siblings one below the other, and then a chain.
fn pairs_and_chain(pairs: u32, persons: u32) -> Vec<Call> {
    births(persons, |who| match who {
        0 | 1 => (0, 0),
        _ if who <= 2 * pairs + 2 => (who / 2 * 2 - 1, who / 2 * 2),
        _ => (who, 0),
    })
}

fn dying(who: impl Iterator<Item = u32>) -> Vec<Call> {
    who.map(Call::Dies).collect()
}

fn shapes(cases: &mut Vec<Case>, limit: u32) {
    let together = |first: &[Call], then: Vec<Call>| [first, &then].concat();
    let estate = |family, before, who| Case { family, call: "estates", limit, before, timed: vec![Call::EstateOf(who); 4] };
    let all_but = |first: u32, last: u32| dying(first..last);

    let pairs = pairs_and_chain(12, limit);
    cases.push(estate("twelve pairs of siblings, then a chain; the last lives", together(&pairs, all_but(2, limit - 1)), 0));
    let children = wide(limit);
    cases.push(estate("all children of one", children.clone(), 0));
    let chained = chain(limit);
    cases.push(estate("a chain; the last lives", together(&chained, all_but(1, limit - 1)), 0));
    for (family, births) in [("all children of one", children), ("a chain", chained), ("parents of half and a quarter of the number", halves(limit))] {
        cases.push(Case { family, call: "births", limit, before: Vec::new(), timed: births.clone() });
        for (call, deaths) in [("deaths, the oldest first", dying(0..limit)), ("deaths, the youngest first", dying((0..limit).rev()))] {
            cases.push(Case { family, call, limit, before: births.clone(), timed: deaths });
        }
    }
    let dead = together(&chain(limit - 8), dying(0..limit - 8));
    let timed = (limit - 8..limit).flat_map(|who| [Call::Born { mother: limit - 8, father: 0 }, Call::Dies(who)]).collect();
    cases.push(Case { family: "a chain of the dead", call: "births and deaths at its end", limit, before: dead, timed });
}

/// Nanoseconds of the check on the population, and on words that hold nobody.
fn print_checks(persons: usize) {
    let limit = persons as u32;
    let Population { births, weddings, deaths } = Population::new(persons);
    let mut memory = vec![0; heirs::words(limit)];
    let mut answer = vec![0; heirs::bytes(limit)];
    assert_eq!(raw::open(&mut memory, &mut answer, limit), 0);
    let check = |memory: &[u32], answer: &[u8], right: i64| {
        quickest(1, || {
            let start = Instant::now();
            assert_eq!(raw::check(memory, answer), right);
            start.elapsed().as_nanos()
        })
    };
    let empty = check(&memory, &answer, 0);
    for row in rows(&[births, weddings, deaths].concat()) {
        raw::call(&mut memory, &row, &mut answer);
    }
    println!("| a population, eight generations | {limit} | {empty:.0} | {:.0} |", check(&memory, &answer, i64::from(limit)));
}

fn main() {
    // cargo hands on words such as --bench
    let sizes = [64, 512, 4096];
    let mut cases = Vec::new();
    sizes.iter().for_each(|&persons| population(&mut cases, persons));
    sizes.iter().for_each(|&persons| shapes(&mut cases, persons as u32));
    println!("| family | persons | calls | taken | exported, ns | part by part, ns | separate, ns |");
    println!("|---|---|---|---|---|---|---|");
    cases.iter().for_each(print);
    println!();
    println!("| family | persons | check without persons, ns | check, ns |");
    println!("|---|---|---|---|");
    sizes.into_iter().for_each(print_checks);
}
