//! The exported functions beside a register written separately: the same answers, the same signed results, the same words of memory.
use compare::beside::{self, Beside, Difference, What};
use compare::families::{self, Caller};
use compare::random::Random;
use compare::shorten;
use heirs::raw;
use separate::{Answer, Call, Fault};
use std::process::ExitCode;

/// The number that all families begin with.
const BEGIN: u64 = 20_250_704;

/// How many families of at most 24 persons, and calls on each.
const FAMILIES: u64 = 10_000;
const PERSONS: u32 = 24;
const CALLS: usize = 100;

/// After so many of them there is one with a smaller limit, and one at the limits of an estate.
const OTHERS_AFTER: u64 = 25;

const USAGE: &str = "compare            runs all families, and ends with 1 and the shortest list of calls at the first difference
compare --faults   plants each fault in the separate register, and ends with 1 if one is not found
compare --fault N  plants one fault, and shows the shortest list of calls that finds it";

/// What was met, to show how far the test goes.
#[derive(Default)]
struct Met {
    families: u64,
    smaller: u64,
    at_limits: u64,
    numbers: u64,
    estates: u64,
    without_heirs: u64,
    most_heirs: usize,
    refused: [u64; 7],
    tampered: u64,
    still_registers: u64,
}

/// A difference, with the calls that lead to it.
struct Found {
    family: u64,
    limit: u32,
    rows: Vec<Vec<u8>>,
    difference: Difference,
}

impl Met {
    fn count(&mut self, answer: &Result<Answer, separate::Refusal>) {
        match answer {
            Ok(Answer::Number(_)) => self.numbers += 1,
            Ok(Answer::Shares(shares)) => {
                self.estates += 1;
                self.without_heirs += u64::from(shares.is_empty());
                self.most_heirs = self.most_heirs.max(shares.len());
            }
            Err(refusal) => self.refused[refusal.number as usize] += 1,
        }
    }

    fn print(&self) {
        println!(
            "{} families of at most {PERSONS} persons with {CALLS} calls each, {} with smaller limits, {} at the limits of an estate",
            self.families, self.smaller, self.at_limits
        );
        println!(
            "taken: {} births, weddings, partings and deaths, {} estates, {} of them without heirs, at most {} heirs",
            self.numbers, self.estates, self.without_heirs, self.most_heirs
        );
        let refused: Vec<String> = (1..=6).map(|number| format!("{} by {number}", self.refused[number])).collect();
        println!("refused: {}", refused.join(", "));
        println!("words that were changed: {} times, of which {} still are a register's", self.tampered, self.still_registers);
    }
}

/// Families of which each call depends on the family as it is.
fn run_random(limit: u32, begin: u64, fault: Option<Fault>, met: &mut Met) -> Result<Beside, (Vec<Vec<u8>>, Difference)> {
    let mut rows: Vec<Vec<u8>> = Vec::new();
    let mut beside = Beside::open(limit, fault).map_err(|what| (Vec::new(), Difference { call: None, what }))?;
    let mut caller = Caller::new(begin, CALLS);
    while let Some(row) = caller.call(beside.separate()) {
        rows.push(row);
        let call = rows.len() - 1;
        let outcome = beside.call(&rows[call]).and_then(|answer| {
            met.count(&answer);
            if call == CALLS / 2 { beside.move_on() } else { Ok(()) }
        });
        if let Err(what) = outcome {
            return Err((rows, Difference { call: Some(call), what }));
        }
    }
    Ok(beside)
}

fn run_list(limit: u32, rows: Vec<Vec<u8>>, fault: Option<Fault>, met: &mut Met) -> Result<Beside, (Vec<Vec<u8>>, Difference)> {
    let mut beside = Beside::open(limit, fault).map_err(|what| (Vec::new(), Difference { call: None, what }))?;
    for (call, row) in rows.iter().enumerate() {
        match beside.call(row) {
            Ok(answer) => met.count(&answer),
            Err(what) => return Err((rows, Difference { call: Some(call), what })),
        }
    }
    Ok(beside)
}

/// All families, until the first difference.
fn run(fault: Option<Fault>, met: &mut Met) -> Option<Found> {
    for family in 0..FAMILIES {
        let begin = BEGIN + family;
        met.families += 1;
        let mut runs = vec![(PERSONS, None)];
        if family % OTHERS_AFTER == 0 {
            let smaller = match family / OTHERS_AFTER % 4 {
                0 => 0,
                1 => 1,
                _ => 2 + (family / OTHERS_AFTER) as u32 % (PERSONS - 2),
            };
            met.smaller += 1;
            runs.push((smaller, None));
            met.at_limits += 1;
            let (limit, rows) = families::at_the_limits(begin);
            runs.push((limit, Some(rows)));
        }
        for (limit, list) in runs {
            let outcome = match list {
                None => run_random(limit, begin, fault, met),
                Some(rows) => run_list(limit, rows, fault, met),
            };
            let result = outcome.and_then(|beside| tampered(&beside, begin, met).map_err(|what| (Vec::new(), Difference { call: None, what })));
            if let Err((rows, difference)) = result {
                return Some(Found { family, limit, rows, difference });
            }
        }
    }
    None
}

/// Words that were changed: both checks say the same of them, and a call on them keeps to its own words and bytes.
fn tampered(beside: &Beside, begin: u64, met: &mut Met) -> Result<(), What> {
    let mut random = Random::new(begin ^ 0xffff_0000);
    let limit = beside.separate().limit();
    let own = separate::asked_words(limit);
    let mut memory = beside.memory().to_vec();
    let mut answer = vec![0x33; separate::asked_bytes(limit) + 3];
    beside::check(&memory, &answer)?;
    beside::check(&memory, &answer[4..])?;
    let front = 2 + 8 * limit as usize + 128;
    for _ in 0..1 + random.below(3) {
        let place = match random.below(20) {
            0 => random.below(2),
            1 => random.below(own),
            2 => random.below(memory.len()),
            _ => random.below(front),
        };
        memory[place] = match random.below(4) {
            0 => memory[place] ^ 1 << random.below(32),
            1 => random.draw() as u32,
            2 => 0,
            _ => random.below(limit as usize + 3) as u32,
        };
    }
    met.tampered += 1;
    met.still_registers += u64::from(separate::is_register(&memory));
    beside::check(&memory, &answer)?;
    let fits =
        memory[0] <= 4096 && memory[1] <= memory[0] && memory.len() >= separate::asked_words(memory[0]) && answer.len() >= separate::asked_bytes(memory[0]);
    for _ in 0..8 {
        let before = (memory.clone(), answer.clone());
        let who = random.below(limit as usize + 1) as u32;
        // no estates: links that lead around in a circle can have them go on beyond all patience
        let call = [Call::Born { mother: who, father: random.below(3) as u32 }, Call::Dies(who), Call::Wed(who, 0), Call::Parted(who)];
        let exported = raw::call(&mut memory, &call[random.below(call.len())].row(), &mut answer);
        let behind = separate::asked_words(before.0[0].min(4096)).min(memory.len());
        let kept = if fits { memory[behind..] == before.0[behind..] && memory[0] == before.0[0] } else { memory == before.0 && answer == before.1 };
        let told = exported <= answer.len() as i64 && (fits || exported == fitting_refusal(&memory));
        if !kept || !told || (exported < 0 && answer != before.1) {
            return Err(What::Check { exported, separate: 0 });
        }
    }
    Ok(())
}

/// The refusal of a call on words or bytes that don't fit.
fn fitting_refusal(memory: &[u32]) -> i64 {
    let fits = memory.len() >= 2 && memory[0] <= 4096 && memory[1] <= memory[0] && memory.len() >= separate::asked_words(memory[0]);
    if fits { beside::signed(3, 1) } else { beside::signed(7, 0) }
}

/// Slices that are too short, and limits that are too large.
fn run_small() -> Result<(), What> {
    for (limit, less_words, less_bytes, right) in [
        (0, 0, 0, 0),
        (24, 1, 0, beside::signed(3, 1)),
        (24, 0, 1, beside::signed(3, 1)),
        (4096, 1, 1, beside::signed(3, 1)),
        (4096, 0, 0, 0),
        (4097, 0, 0, beside::signed(3, 0)),
        (u32::MAX, 0, 0, beside::signed(3, 0)),
    ] {
        let mut memory = vec![9; separate::asked_words(limit.min(4097)) - less_words];
        let mut answer = vec![9; separate::asked_bytes(limit.min(4097)) - less_bytes];
        let exported = raw::open(&mut memory, &mut answer, limit);
        let kept = right == 0 || memory.iter().all(|&word| word == 9);
        if exported != right || !kept || answer.iter().any(|&byte| byte != 9) {
            return Err(What::Check { exported, separate: right });
        }
    }
    for length in 0..3 {
        let mut memory = vec![0; length];
        let exported = raw::call(&mut memory, &[4, 0, 0, 0, 0], &mut []);
        if exported != beside::signed(7, 0) || memory.iter().any(|&word| word != 0) {
            return Err(What::Check { exported, separate: beside::signed(7, 0) });
        }
        beside::check(&memory, &[])?;
    }
    Ok(())
}

fn show(found: &Found, fault: Option<Fault>) {
    if found.rows.is_empty() {
        println!("difference in family {} with the limit {}, at opening or on words that were changed: {}", found.family, found.limit, found.difference.what);
        return;
    }
    let rows = shorten::shorten(found.limit, &found.rows, fault);
    println!("difference in family {} with the limit {}; the shortest list of calls that shows it:", found.family, found.limit);
    for row in &rows {
        match Call::read(row, None) {
            Ok(call) => println!("  {call:?}"),
            Err(place) => println!("  unreadable at {place}: {}", beside::hex(row)),
        }
    }
    match beside::difference(found.limit, &rows, fault) {
        Some(difference) => println!("{}", difference.what),
        None => println!("{}", found.difference.what),
    }
}

/// Plants each fault: whether all were found.
fn run_faults() -> bool {
    let mut all = true;
    println!("fault | found after families | calls that show it | what is wrong");
    for (number, (fault, wrong)) in Fault::ALL.into_iter().enumerate() {
        match run(Some(fault), &mut Met::default()) {
            Some(found) => {
                let calls = shorten::shorten(found.limit, &found.rows, Some(fault)).len();
                println!("{} | {} | {calls} | {wrong}", number + 1, found.family + 1);
            }
            None => {
                println!("{} | not found | | {wrong}", number + 1);
                all = false;
            }
        }
    }
    all
}

fn run_all() -> bool {
    if let Err(what) = run_small() {
        println!("at opening, or on words that are too few: {what}");
        return false;
    }
    let mut met = Met::default();
    match run(None, &mut met) {
        None => {
            met.print();
            println!("no difference");
            true
        }
        Some(found) => {
            show(&found, None);
            false
        }
    }
}

fn main() -> ExitCode {
    let arguments: Vec<String> = std::env::args().skip(1).collect();
    let words: Vec<&str> = arguments.iter().map(String::as_str).collect();
    let well = match words[..] {
        [] => run_all(),
        ["--faults"] => run_faults(),
        ["--fault", number] => {
            let Some(&(fault, _)) = number.parse::<usize>().ok().and_then(|number| Fault::ALL.get(number.wrapping_sub(1))) else {
                eprintln!("{USAGE}");
                return ExitCode::from(2);
            };
            match run(Some(fault), &mut Met::default()) {
                Some(found) => {
                    show(&found, Some(fault));
                    false
                }
                None => true,
            }
        }
        _ => {
            eprintln!("{USAGE}");
            return ExitCode::from(2);
        }
    };
    if well { ExitCode::SUCCESS } else { ExitCode::FAILURE }
}
