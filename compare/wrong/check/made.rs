//! What a wrong unit makes of a check.

use super::asked::Asked;
use crate::call::{DIFFERS, UNQUALIFIED};

/// A check with what the wrong unit makes of it; at first that is what the unit made.
pub struct Made {
    pub asked: Asked,
    pub number: u64,
    pub answer: [u64; 8],
    pub kept: Vec<u64>,
    pub table: Vec<u64>,
}

impl Made {
    pub fn of(asked: Asked) -> Made {
        let (number, answer) = asked.on_unit();
        let (kept, table) = (asked.kept.clone(), asked.table.clone());
        Made {
            asked,
            number,
            answer,
            kept,
            table,
        }
    }

    /// Whether it was carried out, and said this.
    pub fn said(&self, says: u64) -> bool {
        self.number == 0 && self.answer[0] == says
    }

    pub fn say(&mut self, words: [u64; 3]) {
        let [says, word, number] = words;
        self.number = 0;
        self.answer = [says, word, number, 0, 0, 0, 0, 0];
    }

    pub fn refuse(&mut self, number: u64, row: u64) {
        self.number = number;
        self.answer = [row, 0, 0, 0, 0, 0, 0, 0];
    }

    /// Another row is named.
    pub fn name(&mut self, named: impl Fn(&Asked, u64) -> u64) {
        if self.said(DIFFERS) {
            self.answer[1] = named(&self.asked, self.answer[1]);
        }
    }

    /// Another command is named, by its batch and its number.
    pub fn number(&mut self, named: impl Fn(&Asked, usize, u64) -> [u64; 2]) {
        if self.said(UNQUALIFIED) {
            let [_, batch, number, ..] = self.answer;
            let [batch, number] = named(&self.asked, batch as usize, number);
            self.say([UNQUALIFIED, batch, number]);
        }
    }

    /// Rows are compared otherwise, where every command qualifies: the row that differs, if
    /// one does.
    pub fn compare(&mut self, row: impl Fn(&Asked) -> Option<usize>) {
        if self.number == 0 && self.answer[0] != UNQUALIFIED {
            match row(&self.asked) {
                Some(row) => self.say([DIFFERS, row as u64, 0]),
                None => self.say([0; 3]),
            }
        }
    }
}
