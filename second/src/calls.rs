//! Lists of calls on one sheet: made one after the other, and counted without a sheet.

use crate::refusal::{beyond, judge, no_entry, short, unreduced, when, Answer, Refusal};
use crate::sheet::{correct, extend};

#[derive(Clone, Copy)]
enum Call {
    Extend { w: u32 },
    Correct { j: u32, t: u32, entry: u32 },
}

/// The calls of a list, five words for each, with the number of words that each is lent; none where some five words are no call, or the last are fewer than five.
fn calls(list: &[u32]) -> Option<Vec<(u32, Call)>> {
    let call = |five: &[u32]| match *five {
        [lent, 0, w, 0, 0] => Some((lent, Call::Extend { w })),
        [lent, 1, j, t, entry] => Some((lent, Call::Correct { j, t, entry })),
        _ => None,
    };
    list.chunks(5).map(call).collect()
}

/// The two words that say what a call came to: 0 and the answer, or the refusal's number and detail.
fn answer_words(answer: Answer) -> [u32; 2] {
    answer.map_or_else(|refusal| [refusal.number, refusal.detail], |answer| [0, answer])
}

/// Makes the calls of a list, each on the first words of the sheet, and writes two words for each. The answer is the number of words written. What is no list of
/// calls is 5, and so is one that lends more words than there are.
pub fn replay(sheet: &mut [u32], list: &[u32], answers: &mut [u32]) -> Answer {
    let size = sheet.len();
    let fitting = calls(list).filter(|calls| calls.iter().all(|&(lent, _)| lent as usize <= size));
    let calls = fitting.ok_or(Refusal { number: 5, detail: 0 })?;
    judge(&[(10, &|| short(answers, 2 * calls.len()))])?;
    for (&(lent, call), to) in calls.iter().zip(answers.chunks_mut(2)) {
        let lent = &mut sheet[..lent as usize];
        to.copy_from_slice(&answer_words(match call {
            Call::Extend { w } => extend(lent, w),
            Call::Correct { j, t, entry } => correct(lent, j, t, entry),
        }));
    }
    Ok(2 * calls.len() as u32)
}

/// Demand 3's plain count. It knows T and what open was given, and never looks at a sheet.
pub struct PlainCount {
    total: u32,
    p: u32,
    n: u32,
    lengths: Vec<u32>,
    /// The polynomial's rows now held.
    pub f: Vec<u32>,
    /// K.
    pub terms: u32,
}

impl PlainCount {
    /// Of a sheet of T words that open has just written.
    pub fn new(total: u32, p: u32, n: u32, f: &[u32], lengths: &[u32]) -> PlainCount {
        PlainCount { total, p, n, lengths: lengths.to_vec(), f: f.to_vec(), terms: 1 }
    }

    /// What `replay` writes for a list of calls that fit.
    pub fn answers(&mut self, list: &[u32]) -> Vec<u32> {
        let calls = calls(list).expect("a list of calls");
        calls.into_iter().flat_map(|(lent, call)| answer_words(self.answer(lent, call))).collect()
    }

    fn answer(&mut self, lent: u32, call: Call) -> Answer {
        judge(&[(13, &|| when(lent < self.total))])?;
        match call {
            Call::Extend { w } => {
                let reach = *self.lengths.iter().min().expect("there is a row below the top one");
                judge(&[(14, &|| beyond(w, reach)), (15, &|| when(w < self.terms))])?;
                self.terms = w;
            }
            Call::Correct { j, t, entry } => {
                judge(&[(20, &|| no_entry(&self.lengths, j, t)), (6, &|| unreduced(self.p, &[&[entry]]))])?;
                self.f[(j * self.n + t) as usize] = entry;
            }
        }
        Ok(self.terms)
    }
}
