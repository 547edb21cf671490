//! How often each thing came up.

use crate::question::{Question, Said};
use rewind::NONE;

const ANSWERS: usize = 13;
const CODES: usize = 4;

#[derive(Clone, PartialEq, Eq, Default, Debug)]
pub struct Tally {
    /// Calls by their code, which a request of any length may have in its first
    /// byte, and by their answer. Last the calls with no such code.
    pub calls: [[u64; ANSWERS]; CODES + 1],
    pub finder: [u64; ANSWERS],
    pub helpers: [u64; ANSWERS],
    /// Helpers that found nothing left.
    pub none_left: u64,
    /// The most that one call undid.
    pub most_undone: u32,
    /// Every locality that some call touched.
    pub touched: u32,
}

impl Tally {
    pub fn count(&mut self, question: &Question, said: &Said) {
        let answer = usize::from(said.answer);
        match question {
            Question::Call(request) => {
                self.calls[code_of(request)][answer] += 1;
                self.most_undone = self.most_undone.max(said.number);
                self.touched |= said.touched;
            }
            Question::Find(_) => self.finder[answer] += 1,
            Question::FreeKey | Question::FreeLocality => {
                self.helpers[answer] += 1;
                let none = said.answer == 0 && said.number == u32::from(NONE);
                self.none_left += u64::from(none);
            }
        }
    }

    pub fn call_count(&self) -> u64 {
        self.calls.iter().flatten().sum()
    }

    pub fn question_count(&self) -> u64 {
        let others = self.finder.iter().chain(&self.helpers);
        self.call_count() + others.sum::<u64>()
    }

    /// The answers of calls, whatever their code.
    pub fn call_answers(&self) -> [u64; ANSWERS] {
        let mut sums = [0; ANSWERS];
        for by_answer in &self.calls {
            for (sum, count) in sums.iter_mut().zip(by_answer) {
                *sum += count;
            }
        }
        sums
    }

    pub fn text(&self) -> String {
        let names = ["forward", "backward", "rollback", "roll", "no code"];
        let rows = names.into_iter().zip(&self.calls);
        let rows = rows.chain([("finder", &self.finder), ("helpers", &self.helpers)]);
        let mut text = format!("{:9}", "answer");
        text.extend((0..ANSWERS).map(|answer| format!("{answer:9}")));
        text.push('\n');
        for (name, counts) in rows {
            text += &format!("{name:9}");
            text.extend(counts.iter().map(|count| format!("{count:9}")));
            text.push('\n');
        }
        text + &format!(
            "most undone by one call {}, none left {}, touched {:08x}\n",
            self.most_undone, self.none_left, self.touched
        )
    }
}

fn code_of(request: &[u8]) -> usize {
    match request.first() {
        Some(&code) if usize::from(code) < CODES => usize::from(code),
        _ => CODES,
    }
}
