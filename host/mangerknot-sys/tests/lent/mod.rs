//! Memory to lend to a call, of which every word is looked at afterwards. Every test has of this what it needs.
#![allow(dead_code)]

/// Words that no call may touch, in front of those that are lent and behind them: more than a region has floats, so that a whole region
/// written beside the list is seen; and an odd number, so that what is lent is aligned as it has to be and no better.
const GUARDS: usize = 131;

/// Memory that is lent, between guards, and how it was.
pub struct Lent<T> {
    all: Vec<T>,
    old: Vec<T>,
}

impl<T: Copy + PartialEq> Lent<T> {
    /// These words, with guards of one pattern in front of them and of another behind.
    pub fn of(words: &[T], [front, back]: [T; 2]) -> Self {
        let all = [&[front; GUARDS], words, &[back; GUARDS]].concat();
        Lent { old: all.clone(), all }
    }

    pub fn lent(&mut self) -> &mut [T] {
        let end = self.all.len() - GUARDS;
        &mut self.all[GUARDS..end]
    }

    pub fn is_kept(&self) -> bool {
        self.all == self.old
    }

    pub fn guards_are_kept(&self) -> bool {
        let end = self.all.len() - GUARDS;
        self.all[..GUARDS] == self.old[..GUARDS] && self.all[end..] == self.old[end..]
    }
}
