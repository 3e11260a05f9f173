//! "States from before an expedition": the second model of filling a shelf and of
//! coming back to it, and wrong ones.

use crate::layout::{Word, WORDS};
use crate::model::Desk;
use std::collections::BTreeSet;

/// "Three shelves, 0 to 2".
pub const SHELVES: i64 = 3;
/// "in a lent store of 12,288 words"
pub const STORE: i64 = 12_288;

#[derive(Clone, Copy, Debug, PartialEq, Eq)]
pub enum Fault {
    /// All shelves keep their book in one place.
    ShelfShared,
    /// Filling a shelf again leaves what it kept.
    FirstFilling,
    /// Coming back leaves a word as it is where the shelf keeps 0.
    KeepsAdds,
    /// A filled shelf counts as never filled.
    FlagForgotten,
    /// Both calls go while a ticket stands.
    TicketIgnored,
    /// 14 is checked before 19.
    FourteenBefore19,
    /// 20 is checked before 14.
    TwentyBefore14,
    /// A shelf that was never filled is come back to.
    NeverFilled,
}

pub const FAULTS: [(&str, Fault); 8] = [
    ("shelf-shared", Fault::ShelfShared),
    ("first-filling", Fault::FirstFilling),
    ("keeps-adds", Fault::KeepsAdds),
    ("flag-forgotten", Fault::FlagForgotten),
    ("ticket-ignored", Fault::TicketIgnored),
    ("14-before-19", Fault::FourteenBefore19),
    ("20-before-14", Fault::TwentyBefore14),
    ("never-filled", Fault::NeverFilled),
];

/// How many words of book and store a call is lent.
#[derive(Clone, Copy, Debug, PartialEq, Eq)]
pub struct Lent {
    pub book: i64,
    pub store: i64,
}

impl Lent {
    /// As many as there must be.
    pub const WHOLE: Lent = Lent { book: WORDS, store: STORE };
}

/// The store, and which shelves of it are filled.
#[derive(Clone, Debug, PartialEq, Eq)]
pub struct Shelves {
    pub store: Vec<Word>,
    pub filled: BTreeSet<i64>,
    fault: Option<Fault>,
}

impl Shelves {
    /// "begun with no shelf filled", whatever the store holds.
    pub fn none_filled(store: Vec<Word>, fault: Option<Fault>) -> Shelves {
        Shelves { store, filled: BTreeSet::new(), fault }
    }

    fn is(&self, fault: Fault) -> bool {
        self.fault == Some(fault)
    }

    /// "Checks: 19, store of another length, after 1 and before 14; 20, shelf above
    /// 2, or come back to but never filled, after 14."
    fn refusal(&self, desk: &Desk, lent: Lent, unknown: bool) -> Option<i64> {
        // "Filling and coming back both go only while no ticket stands."
        let stands = !desk.tickets.is_empty() && !self.is(Fault::TicketIgnored);
        let mut order = [1, 19, 14, 20];
        if self.is(Fault::FourteenBefore19) {
            order.swap(1, 2);
        }
        if self.is(Fault::TwentyBefore14) {
            order.swap(2, 3);
        }
        order.into_iter().find(|number| match number {
            1 => lent.book != WORDS,
            19 => lent.store != STORE,
            14 => stands,
            _ => unknown,
        })
    }

    /// The words of the store that a shelf has: a book's, one shelf after another.
    fn words(&mut self, shelf: i64) -> &mut [Word] {
        let shelf = if self.is(Fault::ShelfShared) { 0 } else { shelf };
        self.store.chunks_mut(WORDS as usize).nth(shelf as usize).expect("a shelf")
    }

    /// Keeps the book on a shelf: "filling writes no word of the book", and "filling
    /// one again replaces what it kept". 0, or the refusal.
    pub fn fill(&mut self, desk: &Desk, lent: Lent, shelf: i64) -> i64 {
        if let Some(number) = self.refusal(desk, lent, shelf >= SHELVES) {
            return number;
        }
        if !(self.is(Fault::FirstFilling) && self.filled.contains(&shelf)) {
            self.words(shelf).copy_from_slice(&desk.book);
        }
        if !self.is(Fault::FlagForgotten) {
            self.filled.insert(shelf);
        }
        0
    }

    /// "Coming back to a shelf restores every word as kept." 0, or the refusal. The
    /// ranks stay as they are: "under the ranks now in force".
    pub fn come_back(&mut self, desk: &mut Desk, lent: Lent, shelf: i64) -> i64 {
        let never = !self.filled.contains(&shelf) && !self.is(Fault::NeverFilled);
        if let Some(number) = self.refusal(desk, lent, shelf >= SHELVES || never) {
            return number;
        }
        let merges = self.is(Fault::KeepsAdds);
        for (word, kept) in desk.book.iter_mut().zip(self.words(shelf)) {
            if !(merges && *kept == Word::Value(0)) {
                *word = *kept;
            }
        }
        0
    }
}
