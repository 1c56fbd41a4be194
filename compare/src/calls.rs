//! Lists of calls on one sheet, extensions and corrections: made one by one, made by one call, and counted.

use crate::corrections::{any_entry, no_entry};
use crate::polynomials::Given;
use crate::random::Random;
use crate::report::{engine, second, Called, Outcome, Report};
use crate::sheets::{correct, extend, total};
use bopkheul::{sheet as e, Call};
use second::calls::{self as s, PlainCount};

/// To a number of terms that is mostly allowed.
fn extension(random: &mut Random, given: &Given, lent: u32) -> Call {
    let (n, reach) = (given.n, given.reach());
    let outside = [0, reach + 1, n, n + 1, u32::MAX]; // n where the reach is less
    let w = if random.once_in(5) { random.pick(&outside) } else { random.within(1, reach) };
    Call::Extend { lent, w }
}

/// Of an entry that is mostly there, to a number that is mostly below p.
fn correction(random: &mut Random, given: &Given, lent: u32) -> Call {
    let there = if random.once_in(6) { None } else { any_entry(random, given) };
    let (j, t) = there.unwrap_or_else(|| no_entry(random, given));
    let entry = if random.once_in(6) { random.edge_word(given.p) } else { random.below(given.p) };
    Call::Correct { lent, j, t, entry }
}

/// Calls that are lent the whole sheet of what was given, in so many words, or only its first words.
fn calls(random: &mut Random, given: &Given, length: u32) -> Vec<Call> {
    let total = total(given);
    let mut list = Vec::new();
    for _ in 0..random.below(7) {
        let lent = random.pick(&[length, length, length, total, total - 1, total / 2, 10, 0]);
        list.push(if random.once_in(2) { extension(random, given, lent) } else { correction(random, given, lent) });
    }
    list
}

fn words(calls: &[Call]) -> Vec<u32> {
    calls.iter().flat_map(|call| call.words()).collect()
}

fn make(report: &mut Report, sheet: &[u32], call: Call) -> Called<u32> {
    match call {
        Call::Extend { lent, w } => extend(report, &sheet[..lent as usize], w),
        Call::Correct { lent, j, t, entry } => correct(report, &sheet[..lent as usize], j, t, entry),
    }
}

/// The kind of a call on a sheet with so many columns and terms.
fn kind(n: u32, k: u32, call: Call, outcome: Outcome) -> Option<&'static str> {
    let kind = match (call, outcome) {
        (Call::Extend { w, .. }, Err((14, _))) if (1..=n).contains(&w) => "sheet: a call of a list wants more than the least length, and at most N",
        (Call::Correct { t, .. }, Ok(_)) if t < k => "list: a correction below the terms worked",
        (Call::Correct { .. }, Ok(_)) => "list: a correction from the terms worked up",
        (Call::Correct { .. }, Err((13, _))) => "list: a correction that is lent too few words",
        (Call::Correct { .. }, Err((20, _))) => "list: a correction where there is no entry",
        (Call::Correct { .. }, Err((6, _))) => "list: a correction to p or more",
        _ => return None,
    };
    Some(kind)
}

/// What is left by the calls one after the other, and what they answer, in two words each.
fn one_by_one(report: &mut Report, fresh: &[u32], calls: &[Call]) -> (Vec<u32>, Vec<u32>) {
    let mut sheet = fresh.to_vec();
    let mut answers = Vec::new();
    for &call in calls {
        let called = make(report, &sheet, call);
        if called.words.len() < sheet.len() {
            report.kind("sheet: only its first words lent");
        }
        kind(sheet[2], sheet[3], call, called.outcome).into_iter().for_each(|kind| report.kind(kind));
        sheet[..called.words.len()].copy_from_slice(&called.words);
        answers.extend(called.outcome.map_or_else(|(number, detail)| [number, detail], |answer| [0, answer]));
    }
    (sheet, answers)
}

/// The plain count, which knows nothing but what open was given.
fn plain_count(given: &Given) -> PlainCount {
    PlainCount::new(total(given), given.p, given.n, &given.f, &given.lengths)
}

/// The calls one by one, then the same list by one call, then the plain count: all must agree. The sheet, and what it now holds.
pub fn several_goes(random: &mut Random, report: &mut Report, given: &Given, fresh: &[u32]) -> (Vec<u32>, Given) {
    let calls = calls(random, given, fresh.len() as u32);
    let (sheet, answers) = one_by_one(report, fresh, &calls);
    let mut count = plain_count(given);
    let counted = count.answers(&words(&calls)) == answers && count.terms == sheet[3];
    let held = sheet[sheet[6] as usize..sheet[7] as usize] == count.f;
    report.expect(counted && held, &format!("the plain count is that of {calls:?} on {fresh:?}"));
    replay(random, report, fresh, &calls, &sheet, &answers);
    report.kind("sheet: worked in several goes");
    (sheet, Given { f: count.f, ..given.clone() })
}

/// Makes words of calls on a slice of this length such that row 5 refuses them, and says how.
fn spoil(random: &mut Random, list: &mut Vec<u32>, length: u32) -> &'static str {
    let count = list.len() / 5;
    let call = 5 * random.below(count.max(1) as u32) as usize;
    let few = random.within(1, 4) as usize;
    match random.below(if count == 0 { 1 } else { 5 }) {
        0 => list.resize(list.len() + few, 0),
        1 => list.truncate(list.len() - few),
        2 => {
            list[call] = random.pick(&[length + 1, u32::MAX]);
            return "list: refused, a call lends more words than there are";
        }
        3 => {
            list[call + 1] = random.pick(&[2, 3, 1 << 31, u32::MAX]);
            return "list: refused, a call of neither kind";
        }
        _ => {
            list[call + 1] = 0;
            list[call + random.pick(&[3, 4])] = random.pick(&[1, 1 << 31, u32::MAX]);
            return "list: refused, an extension with a word that is not 0 after w";
        }
    }
    "list: refused, its words are no multiple of five"
}

fn replay(random: &mut Random, report: &mut Report, fresh: &[u32], calls: &[Call], after: &[u32], answers: &[u32]) {
    let mut list = words(calls);
    let spoiled = random.once_in(8).then(|| spoil(random, &mut list, fresh.len() as u32));
    let (room, needed) = (random.room(answers.len()), answers.len() as u32);
    let out = random.junk(room);
    let (mut mine, mut other) = (fresh.to_vec(), fresh.to_vec());
    let called = report.call(
        "sheet replay",
        || format!("{list:?} on {fresh:?}"),
        &[&list],
        &out,
        |o| engine(e::replay(&mut mine, &list, o)),
        |o| second(s::replay(&mut other, &list, o)),
    );
    let expected = match spoiled {
        Some(_) => Err((5, 0)),
        None if room < answers.len() => Err((10, needed)),
        None => Ok(needed),
    };
    report.expect(called.outcome == expected, &format!("replay comes to {:?} and not {expected:?}, of {list:?} on {fresh:?}", called.outcome));
    let left = if expected.is_ok() { after } else { fresh };
    report.expect(mine == left && other == left, &format!("{calls:?} by one call leave what they leave one by one, from {fresh:?}"));
    if expected.is_ok() {
        report.expect(called.words[..answers.len()] == *answers, "replay's answers are those of the calls");
        report.kind("sheet: a list of calls");
    }
    spoiled.into_iter().for_each(|kind| report.kind(kind));
}

/// Calls that come to what is held, with so many terms: any first, then those that are still needed, in any order.
fn another_way(random: &mut Random, given: &Given, held: &Given, terms: u32, lent: u32) -> Vec<Call> {
    let mut first = Vec::new();
    for _ in 0..random.below(4) {
        first.push(Call::Extend { lent, w: random.within(1, terms) });
        first.push(correction(random, given, lent));
    }
    let mut count = plain_count(given);
    count.answers(&words(&first));
    let mut needed = vec![Call::Extend { lent, w: terms }];
    for (place, (&now, &entry)) in (0..).zip(count.f.iter().zip(&held.f)) {
        if now != entry {
            needed.push(Call::Correct { lent, j: place / given.n, t: place % given.n, entry });
        }
    }
    random.shuffle(&mut needed);
    [first, needed].concat()
}

/// Two lists from one opened sheet that end with the same polynomial and as many terms: they leave the same words.
pub fn end_alike(random: &mut Random, report: &mut Report, given: &Given, fresh: &[u32]) {
    let (sheet, held) = several_goes(random, report, given, fresh);
    let calls = another_way(random, given, &held, sheet[3], fresh.len() as u32);
    let (words, _) = one_by_one(report, fresh, &calls);
    report.expect(words == sheet, &format!("{calls:?} on {fresh:?} leave {sheet:?}"));
    let kinds = ["list: two lists that end alike, with what open was given", "list: two lists that end alike, with a corrected polynomial"];
    report.kind(kinds[(held.f != given.f) as usize]);
}
