//! "Is this book sound?": books lent to the check, as the program `crates/books`
//! reads them, and what the model says of each.
//!
//! A case is bytes of scratch, words of the book, a number of words given (16 bits
//! each), then so many times a word (16 bits) and its value (64); words not given
//! are 0. Each gets a line: `yes`, `no`, `refused 1` or `refused 12`. The scratch is a
//! part of a buffer full of other bytes; the program writes ` spoiled` behind a line
//! if the check wrote elsewhere than into the first 126 bytes of that part.

use crate::demand3::{Leg, Plain};
use crate::layout::*;
use crate::rounds::Order;
use crate::streams::{Author, Prng};
use crate::wrong::{self, Fault};
use std::collections::{BTreeMap, BTreeSet};

/// "and the check's scratch to 126 bytes": still a bit for each leg.
const SCRATCH: i64 = 126;

/// How legs lie in a book: the last one, the link's word of each, which place and measure
/// follow, and the words of a plain book.
pub struct Rows {
    pub last: i64,
    pub link: fn(i64) -> i64,
    pub word: fn(&Plain, i64) -> i64,
}

/// Four words a leg.
const ROWS: Rows = Rows { last: LEGS, link: link_word, word: Plain::word };

/// The plain book that words tell by their links, if they tell one at all.
fn told(book: &[Word], rows: &Rows, fault: Option<Fault>) -> Option<Plain> {
    let value = |word: i64| match book[word as usize] {
        Word::Value(value) => Some(value),
        Word::Marked(_) => None,
    };
    let mut plain = Plain::fresh();
    for p in 0..PASSAGES {
        let mut number = value(newest_word(p))?;
        while number != 0 {
            if !(1..=rows.last).contains(&number) || plain.count(p) > rows.last {
                return None;
            }
            let link = (rows.link)(number);
            let (place, measure) = (value(link + 1)?, value(link + 2)?);
            let leg = wrong::read(fault, place as u64, measure as u64)?;
            let Reading { from, to, measure, .. } = leg;
            plain.lists[p as usize].push(Leg { number, from, to, measure });
            number = value(link)?;
        }
    }
    Some(plain)
}

/// The plain book whose words these are, if there is one: the one that they tell has no
/// number twice, and its words are these.
pub fn plain_in(book: &[Word], rows: &Rows, fault: Option<Fault>) -> Option<Plain> {
    let book = &wrong::book(fault, book, rows)[..];
    let plain = told(book, rows, fault)?;
    let legs: Vec<&Leg> = plain.lists.iter().flatten().collect();
    let numbers: BTreeSet<i64> = legs.iter().map(|leg| leg.number).collect();
    let own = |word: i64| {
        let (right, found) = ((rows.word)(&plain, word), book[word as usize]);
        found == wrong::wanted(fault, &plain, word, right, found)
    };
    let sound = numbers.len() == legs.len()
        && legs.iter().all(|leg| leg.sound_up_to(rows.last))
        && (0..WORDS).all(own);
    sound.then_some(plain)
}

/// The plain book whose words these are, in four words a leg.
pub fn lists_in(book: &[Word], fault: Option<Fault>) -> Option<Plain> {
    plain_in(book, &ROWS, fault)
}

/// "yes exactly when the words are those of some plain book"
pub fn sound(book: &[Word], fault: Option<Fault>) -> bool {
    lists_in(book, fault).is_some()
}

/// "Checks: 12, scratch too short, after 1." Below 126 bytes it applies now.
fn answer(book: &[Word], scratch: i64, fault: Option<Fault>) -> &'static str {
    match (book.len() as i64, scratch) {
        (length, _) if length != WORDS => "refused 1",
        (_, bytes) if bytes < wrong::scratch(fault, SCRATCH) => "refused 12",
        _ if sound(book, fault) => "yes",
        _ => "no",
    }
}

pub type Words = BTreeMap<i64, u64>;

struct Case {
    scratch: i64,
    length: i64,
    words: Words,
}

impl Case {
    fn of(words: Words) -> Case {
        Case { scratch: SCRATCH, length: WORDS, words }
    }

    fn bytes(&self) -> Vec<u8> {
        let mut bytes = Vec::new();
        for number in [self.scratch, self.length, self.words.len() as i64] {
            bytes.extend((number as u16).to_le_bytes());
        }
        for (word, value) in &self.words {
            bytes.extend((*word as u16).to_le_bytes());
            bytes.extend(value.to_le_bytes());
        }
        bytes
    }
}

/// The line for each case of an input, from the model or a program with a fault.
pub fn answered(input: &[u8], fault: Option<Fault>) -> Result<String, String> {
    let (mut rest, mut lines) = (input, String::new());
    let mut take = |count: usize| -> Result<u64, String> {
        let (number, after) = rest.split_at_checked(count).ok_or("a torn case")?;
        rest = after;
        Ok(number.iter().rev().fold(0, |high, byte| high << 8 | u64::from(*byte)))
    };
    while let Ok(scratch) = take(2) {
        let (length, given) = (take(2)?, take(2)?);
        let mut book = vec![Word::Value(0); length as usize];
        for _ in 0..given {
            let (word, value) = (take(2)? as usize, take(8)?);
            if let Some(place) = book.get_mut(word) {
                *place = Word::of_bits(value);
            }
        }
        lines += answer(&book, scratch as i64, fault);
        lines += "\n";
    }
    Ok(lines)
}

pub fn words_of(book: &[Word]) -> Words {
    let used = book.iter().enumerate().filter(|(_, word)| **word != Word::Value(0));
    used.map(|(word, value)| (word as i64, value.bits())).collect()
}

/// Legs of one passage, newest first.
fn chain(p: i64, numbers: &[i64]) -> Words {
    let mut words = Words::from([
        (newest_word(p), numbers.first().copied().unwrap_or(0) as u64),
        (count_word(p), numbers.len() as u64),
    ]);
    for (index, number) in numbers.iter().enumerate() {
        let older = numbers.get(index + 1).copied().unwrap_or(0);
        let measure = Measure { distance: 1 + number, compass: 9, clino: 150 - number % 300 };
        words.insert(link_word(*number), older as u64);
        words.insert(place_word(*number), place(p, *number, number + 1) as u64);
        words.insert(measure_word(*number), measure.written() as u64);
        let newer = index.checked_sub(1).map_or(0, |before| numbers[before]);
        words.insert(newer_word(*number), newer as u64);
    }
    words
}

fn with(words: &Words, changes: &[(i64, u64)]) -> Case {
    let mut changed = words.clone();
    changed.extend(changes.iter().copied());
    Case::of(changed)
}

/// One fault for each sentence of the request.
fn faults() -> Vec<Case> {
    let three = chain(4, &[7, 1, LEGS]);
    let mut two = three.clone();
    two.extend(chain(9, &[20, 21]));
    let mut cases: Vec<Case> = [Words::new(), three.clone(), two.clone()].map(Case::of).into();
    for (scratch, length) in [(0, 0), (SCRATCH - 1, 4_095), (2_000, 4_095), (2_000, 4_097)] {
        cases.push(Case { scratch, length, words: Words::new() });
    }
    let mark = 1 << 63;
    cases.extend([
        with(&two, &[(count_word(4), 2)]),
        with(&two, &[(count_word(4), 4)]),
        with(&two, &[(count_word(4), 1 + LEGS as u64)]),
        with(&two, &[(count_word(31), u64::MAX)]),
        with(&two, &[(count_word(5), 1)]),
        with(&two, &[(newest_word(5), 30)]),
        with(&two, &[(newest_word(4), 0)]),
        with(&two, &[(newest_word(4), 1 + LEGS as u64)]),
        with(&two, &[(newest_word(4), 1_344)]),
        with(&two, &[(newest_word(4), 65_536 + 7)]),
        // A circle, a chain into another passage, one that two passages share.
        with(&two, &[(link_word(LEGS), 7)]),
        with(&two, &[(link_word(LEGS), 7), (newer_word(7), LEGS as u64)]),
        with(&two, &[(link_word(LEGS), 7), (count_word(4), LEGS as u64)]),
        with(&two, &[(link_word(LEGS), 20), (count_word(4), 5)]),
        with(&two, &[(link_word(LEGS), 20), (count_word(4), 5), (newer_word(20), LEGS as u64)]),
        with(&two, &[(newest_word(9), 7), (count_word(9), 3)]),
        with(&three, &[(newest_word(5), 7), (count_word(5), 3)]),
        with(&two, &[(link_word(1), mark)]),
        with(&two, &[(link_word(1), mark + 3)]),
        with(&two, &[(place_word(1), mark + 15)]),
        with(&two, &[(measure_word(1), mark + 16)]),
        with(&two, &[(newest_word(0), mark)]),
        // Unused legs that are not zero.
        with(&two, &[(link_word(2), 1)]),
        with(&two, &[(place_word(LEGS - 1), 1)]),
        with(&two, &[(measure_word(LEGS - 1), 1 << 62)]),
        // A place of another passage, from equal to to, a measure out of range.
        with(&two, &[(place_word(7), place(9, 7, 8) as u64)]),
        with(&two, &[(place_word(7), place(4, 8, 8) as u64)]),
        with(&two, &[(place_word(7), 0), (measure_word(7), 0)]),
        with(&two, &[(measure_word(7), 0)]),
        with(&two, &[(measure_word(7), 36_000 << 17 | 5)]),
        // Still sound: other figures in range.
        with(&two, &[(measure_word(7), 1)]),
        with(&two, &[(place_word(7), place(4, 65_535, 0) as u64)]),
    ]);
    cases.extend(shafts(&two));
    cases.extend(newer_words());
    let all: Vec<i64> = (1..=LEGS).rev().collect();
    cases.push(Case::of(chain(0, &all)));
    cases.push(with(&chain(0, &all), &[(link_word(1), LEGS as u64)]));
    cases.push(with(&chain(0, &all), &[(newer_word(LEGS), 1)]));
    // The sum of the counts is right in both, each of them in the first alone.
    let dealt = over_passages();
    let share = dealt[&count_word(0)];
    cases.push(Case::of(dealt.clone()));
    cases.push(with(&dealt, &[(count_word(0), share - 1), (count_word(1), share + 1)]));
    cases.extend([Words::new(), two].iter().flat_map(scratches));
    cases
}

/// The words of a whole book for each fault, and of some without.
pub fn each_fault() -> Vec<Words> {
    let whole = faults().into_iter().filter(|case| case.length == WORDS);
    whole.map(|case| case.words).collect()
}

/// "the next newer leg, 0 for the newest", and "unused legs zero": each newer word of a book
/// changed, at both ends of a chain and amid, of a leg alone and of legs that are in no list.
fn newer_words() -> Vec<Case> {
    let mut words = chain(4, &[7, 1, LEGS, 30]);
    words.extend(chain(9, &[20, 21]));
    words.extend(chain(31, &[500]));
    let newest = [0, 1, 7, 20, 21, 30, 500, 2, LEGS, 1 + LEGS, 65_536, 65_543].map(|r| r as u64);
    let marks = [1 << 63, (1 << 63) + 15, u64::MAX];
    let mut cases = vec![Case::of(words.clone())];
    for leg in [7, 1, LEGS, 30, 20, 21, 500, 2, LEGS - 1] {
        let own = words.get(&newer_word(leg)).copied().unwrap_or(0);
        let values = newest.into_iter().chain(marks).filter(|value| *value != own);
        cases.extend(values.map(|value| with(&words, &[(newer_word(leg), value)])));
    }
    // Newer words that agree with each other, and with no links.
    let turned = [(newer_word(7), 1), (newer_word(1), LEGS as u64), (newer_word(LEGS), 30)];
    cases.push(with(&words, &[&turned[..], &[(newer_word(30), 0)]].concat()));
    cases.push(with(&words, &[(newer_word(1), 20), (newer_word(21), 7)]));
    cases
}

/// All legs, dealt out to all passages.
fn over_passages() -> Words {
    let legs = |p: i64| (1..=LEGS).filter(|r| r % PASSAGES == p).collect::<Vec<i64>>();
    (0..PASSAGES).flat_map(|p| chain(p, &legs(p))).collect()
}

/// Scratches too short, just enough, and more than enough, for a book that is sound
/// and for one that isn't.
fn scratches(words: &Words) -> Vec<Case> {
    let lengths = [0, 1, 125, 126, 127, 167, 168, 1_007, 1_008, 2_000];
    let unsound = with(words, &[(count_word(31), LEGS as u64)]).words;
    let of = |words: &Words, scratch: i64| Case { scratch, ..Case::of(words.clone()) };
    lengths.iter().flat_map(|scratch| [of(words, *scratch), of(&unsound, *scratch)]).collect()
}

/// "a plumb leg with another compass reads as no leg, and the book check says no to
/// it": up, down and just not plumb, as the newest leg and as the oldest.
fn shafts(words: &Words) -> Vec<Case> {
    let mut cases = Vec::new();
    for clino in [-9_000, -8_999, 8_999, 9_000] {
        for compass in [0, 1, 500, 18_000, 35_999] {
            let shaft = Measure { distance: 5_000, compass, clino }.written() as u64;
            cases.extend([7, 21].map(|leg| with(words, &[(measure_word(leg), shaft)])));
        }
    }
    cases
}

/// A word of a book changed as a bad disk might change it.
pub fn damaged(rng: &mut Prng, words: &Words) -> Words {
    let mut damaged = words.clone();
    let places: Vec<i64> =
        words.keys().copied().chain([newest_word(rng.below(PASSAGES))]).collect();
    let (word, other) = (rng.pick(&places), rng.pick(&places));
    let value = words.get(&word).copied().unwrap_or(0);
    let changed = match rng.below(5) {
        0 => value ^ (1 << rng.below(64)),
        1 => value.wrapping_add(1),
        2 => 0,
        3 => (1 << 63) + rng.below(17) as u64,
        _ => words.get(&other).copied().unwrap_or(0),
    };
    damaged.insert(word, changed);
    damaged
}

/// The cases stored: each fault, and books that streams leave, whole and damaged.
pub fn stored() -> Vec<u8> {
    let mut cases = faults();
    for seed in 1..=8 {
        let mut author = Author::new(seed);
        for _ in 0..3 {
            author.contend(100 * seed as i64);
            cases.push(Case::of(words_of(author.book())));
            author.finish_all(Order::Rising);
            let words = words_of(author.book());
            let mut rng = Prng::new(seed + author.frames as u64);
            cases.extend((0..6).map(|_| Case::of(damaged(&mut rng, &words))));
            cases.push(Case::of(words));
        }
    }
    cases.iter().flat_map(Case::bytes).collect()
}

/// How often each answer came; each must have.
pub fn summary(lines: &str) -> Result<String, String> {
    let counts = ["yes", "no", "refused 1", "refused 12"]
        .map(|kind| (kind, lines.lines().filter(|line| *line == kind).count()));
    if let Some((kind, _)) = counts.iter().find(|(_, count)| *count < 2) {
        return Err(format!("the stored books hardly reach: {kind}"));
    }
    Ok(format!("books: {}", counts.map(|(kind, count)| format!("{kind} {count}")).join(", ")))
}

#[cfg(test)]
mod tests {
    use super::*;

    #[test]
    fn books_left_by_finished_tickets_are_sound() {
        for seed in 1..=20 {
            let mut author = Author::new(seed);
            author.contend(400);
            author.finish_all(Order::Rising);
            assert!(sound(author.book(), None), "seed {seed}");
        }
    }

    #[test]
    fn a_word_held_is_not_sound() {
        let mut author = Author::new(3);
        author.contend(200);
        author.finish_all(Order::Rising);
        let mut book = author.book().to_vec();
        book[77] = Word::Marked(2);
        assert!(!sound(&book, None));
    }
}
