//! The shortest list of calls that shows a difference.
use crate::beside::difference;
use separate::{Call, Fault, Register};

/// Leaves out calls, and persons with all that names them, until nothing more can be left out: no call, no two calls, no person.
pub fn shorten(limit: u32, rows: &[Vec<u8>], fault: Option<Fault>) -> Vec<Vec<u8>> {
    let shows = |rows: &[Vec<u8>]| difference(limit, rows, fault).is_some();
    let mut shortest = rows.to_vec();
    if let Some(end) = difference(limit, rows, fault).and_then(|difference| difference.call) {
        shortest.truncate(end + 1);
    }
    loop {
        let found = shorter(limit, &shortest).find(|rows| shows(rows));
        match found {
            Some(rows) => shortest = rows,
            None => return shortest,
        }
    }
}

/// Lists that leave out a little: a person, a call, two calls.
fn shorter(limit: u32, rows: &[Vec<u8>]) -> impl Iterator<Item = Vec<Vec<u8>>> {
    let persons = births(limit, rows).into_iter().map(move |(call, number)| without_person(rows, call, number));
    let calls = (0..rows.len()).rev().map(move |out| without(rows, &[out]));
    let pairs = (0..rows.len()).rev().flat_map(move |one| (0..one).rev().map(move |other| without(rows, &[one, other])));
    persons.chain(calls).chain(pairs)
}

fn without(rows: &[Vec<u8>], out: &[usize]) -> Vec<Vec<u8>> {
    rows.iter().enumerate().filter(|(call, _)| !out.contains(call)).map(|(_, row)| row.clone()).collect()
}

/// The calls by which somebody is born, with their numbers.
fn births(limit: u32, rows: &[Vec<u8>]) -> Vec<(usize, u32)> {
    let Some(mut register) = Register::open(limit, None) else {
        return Vec::new();
    };
    let mut births = Vec::new();
    for (call, row) in rows.iter().enumerate() {
        let number = register.persons().len() as u32;
        if register.call(row).is_ok() && register.persons().len() as u32 > number {
            births.push((call, number));
        }
    }
    births
}

/// The calls as they are without this person, who is born by this call: nobody's parent, and named by no call. Those who are born later have a smaller number.
fn without_person(rows: &[Vec<u8>], birth: usize, number: u32) -> Vec<Vec<u8>> {
    let renamed = |who: u32| if who == number { None } else { Some(if who > number { who - 1 } else { who }) };
    let parent = |link: u32| link.checked_sub(1).and_then(renamed).map_or(0, |who| who + 1);
    let without = |row: &Vec<u8>| match Call::read(row, None) {
        Err(_) => Some(row.clone()),
        Ok(Call::Born { mother, father }) => Some(Call::Born { mother: parent(mother), father: parent(father) }.row()),
        Ok(Call::Wed(one, other)) => Some(Call::Wed(renamed(one)?, renamed(other)?).row()),
        Ok(Call::Parted(who)) => Some(Call::Parted(renamed(who)?).row()),
        Ok(Call::Dies(who)) => Some(Call::Dies(renamed(who)?).row()),
        Ok(Call::EstateOf(who)) => Some(Call::EstateOf(renamed(who)?).row()),
    };
    rows[..birth].iter().cloned().chain(rows[birth + 1..].iter().filter_map(without)).collect()
}
