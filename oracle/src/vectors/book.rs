//! Calls in a sheet, and questions about them: lines that name a call by its number and say what is changed about it.

use super::{decimal, Sheet};
use crate::reading::Refusal;
use crate::rng::{Rng, SEED};
use samples::lines::Edit;
use samples::Call;

/// The sheet, and the calls that stand in it already.
pub struct Book {
    pub sheet: Sheet,
    pub calls: Vec<Call>,
    pub rng: Rng,
}

impl Book {
    pub fn new(sheet: Sheet) -> Self {
        Book { sheet, calls: vec![], rng: Rng::new(SEED) }
    }

    /// Writes a call down in its fields; its number is what later lines name it by.
    pub fn enter(&mut self, call: Call, call_fields: Vec<String>) -> usize {
        let number = self.calls.len();
        let mut fields = vec![decimal(number as u64)];
        fields.extend(call_fields);
        self.sheet.row("b", fields, vec![decimal(call.node_words.len() as u64)]);
        self.calls.push(call);
        number
    }

    /// Asks about a call with these changes; `more` is what the question says beside.
    pub fn question(
        &mut self,
        operation: &str,
        number: usize,
        more: Vec<String>,
        edits: &[Edit],
        answer: impl FnOnce(&Call) -> Vec<String>,
    ) {
        let mut fields = vec![decimal(number as u64)];
        fields.extend(more);
        fields.extend(edits.iter().map(Edit::to_string));
        self.sheet.row(operation, fields, answer(&self.calls[number].edited(edits)));
    }
}

/// Number and index and, where the call is done, its nodes or particles.
pub fn answer(refusal: Option<Refusal>, records: impl FnOnce() -> Vec<String>) -> Vec<String> {
    match refusal {
        Some(refusal) => vec![decimal(refusal.number), decimal(refusal.index as u64)],
        None => [vec![decimal(0u32); 2], records()].concat(),
    }
}

/// The change of an entry of 32 bits.
pub fn entry(letter: char, place: usize, bits: u32) -> Edit {
    Edit::Entry(letter, place, u64::from(bits))
}
