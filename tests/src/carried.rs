//! "An old book is carried over into a second lent one": cases as the program
//! `crates/carried` reads them, and what the model says of each.
//!
//! A case is words of the old book, words of the second, slots lent, words given of the old
//! book, words given of the second (16 bits each, low byte first), and the value of all words
//! of the second that aren't given (64 bits); those of the old book are 0. Then come
//!
//! - the slots: team (16 bits), tries (32), n, claimed, done and kind (16 each), how many
//!   numbers (16), and so many numbers (64) for the table's targets from place 27 x team on.
//!   All other slots have no ticket, and all other numbers are 0;
//! - the words given of the old book: word (16), value (64);
//! - the words given of the second, alike.
//!
//! Each case gets the line `carried` or `refused N`, and behind it `word W V` for each word of
//! the second that has changed, by rising number. All numbers are decimal.

use crate::books::{damaged, plain_in, Rows, Words};
use crate::demand3::{Leg, Plain};
use crate::layout::*;
use crate::rounds::Order;
use crate::streams::{Author, Prng};
use crate::tables::{self, Slot, Whose};
use crate::wrong;

/// "Leg r, 1 to 1,344, has three words from 64 + 3(r - 1): link, place, measure."
const OLD_LEGS: i64 = 1_344;

fn old_link_word(r: i64) -> i64 {
    64 + 3 * (r - 1)
}

/// The words of a plain book as they were before there were newer words.
fn old_word(plain: &Plain, word: i64) -> i64 {
    if word < 2 * PASSAGES {
        return plain.word(word);
    }
    let Some((p, index)) = plain.find((word - 64) / 3 + 1) else { return 0 };
    let leg = plain.list(p)[index];
    match (word - 64) % 3 {
        0 => plain.number_at(p, Some(index + 1)),
        1 => place(p, leg.from, leg.to),
        _ => leg.measure.written(),
    }
}

const OLD_ROWS: Rows = Rows { last: OLD_LEGS, link: old_link_word, word: old_word };

#[derive(Clone, Copy, Debug, PartialEq, Eq)]
pub enum Fault {
    /// The newer words of the second stay as they were.
    CarriesFormerNewer,
    /// Words of the second that should be 0 stay as they were.
    CarriesFormer,
    /// A newer word names the next older leg.
    NewerNamesOlder,
    /// The newest leg's newer word names itself.
    NewestNamesItself,
    /// The words are copied as they are.
    CopiesWords,
    /// 16 is checked before 15.
    FifteenAfter16,
    /// 14 is checked before 1.
    FourteenBefore1,
    /// 14 is checked after 15.
    FourteenAfter15,
    /// 1 covers the old book alone.
    SecondUnmeasured,
    /// 1 covers the second book alone.
    OldUnmeasured,
    /// Only a ticket that is well made stands.
    BadTicketPasses,
    /// Only the first team's ticket is asked for.
    FirstTeamOnly,
    /// A view isn't asked for.
    ViewPasses,
    /// The slot of a finished ticket counts as one.
    FinishedStands,
    /// The old book is taken as one without the rule for plumb legs.
    PlumbPasses,
    /// The old book is taken as one of 1,008 legs.
    OldOf1008,
    /// Words of the old book above leg 1,008 that are in no list aren't looked at.
    UnusedAbovePasses,
    /// Leg 1,009 isn't above 1,008.
    Leg1009Carried,
    /// Leg 1,008 is.
    Leg1008Refused,
    /// 16 is for the newest legs alone.
    OlderAbovePasses,
    /// The second is written before 16 is checked.
    WritesBefore16,
}

pub const FAULTS: [(&str, Fault); 21] = [
    ("carries-former-newer", Fault::CarriesFormerNewer),
    ("carries-former", Fault::CarriesFormer),
    ("newer-names-older", Fault::NewerNamesOlder),
    ("newest-names-itself", Fault::NewestNamesItself),
    ("copies-words", Fault::CopiesWords),
    ("carry-15-after-16", Fault::FifteenAfter16),
    ("carry-14-before-1", Fault::FourteenBefore1),
    ("carry-14-after-15", Fault::FourteenAfter15),
    ("second-unmeasured", Fault::SecondUnmeasured),
    ("old-unmeasured", Fault::OldUnmeasured),
    ("bad-ticket-passes", Fault::BadTicketPasses),
    ("first-team-only", Fault::FirstTeamOnly),
    ("view-passes", Fault::ViewPasses),
    ("finished-stands", Fault::FinishedStands),
    ("plumb-passes", Fault::PlumbPasses),
    ("old-of-1008", Fault::OldOf1008),
    ("unused-above-passes", Fault::UnusedAbovePasses),
    ("leg-1009-carried", Fault::Leg1009Carried),
    ("leg-1008-refused", Fault::Leg1008Refused),
    ("older-above-passes", Fault::OlderAbovePasses),
    ("writes-before-16", Fault::WritesBefore16),
];

pub fn named(name: &str) -> Option<Fault> {
    FAULTS.iter().find(|(known, _)| *known == name).map(|(_, fault)| *fault)
}

/// A program that carries books over, right or wrong.
#[derive(Clone, Copy)]
struct Carrier(Option<Fault>);

impl Carrier {
    fn is(self, fault: Fault) -> bool {
        self.0 == Some(fault)
    }

    /// "when no ticket stands"
    fn stands(self, slots: &[(i64, Slot)]) -> bool {
        slots.iter().any(|(team, slot)| match slot.says() {
            _ if self.is(Fault::FirstTeamOnly) && *team > 0 => false,
            None => self.is(Fault::FinishedStands) && slot.n > 0,
            Some(ticket) if self.is(Fault::BadTicketPasses) => ticket.well_made(),
            Some(_) => !(self.is(Fault::ViewPasses) && slot.whose == Whose::Views),
        })
    }

    /// The lists of the old book, if it is "sound in its own layout".
    fn lists(self, old: &[Word]) -> Option<Plain> {
        let mut old = old.to_vec();
        old.resize(WORDS as usize, Word::Value(0));
        if self.is(Fault::UnusedAbovePasses) {
            let used = |word: i64| {
                let place = old_link_word((word - 64) / 3 + 1) + 1;
                old.get(place as usize).is_some_and(|word| *word != Word::Value(0))
            };
            let words = old_link_word(LEGS + 1)..WORDS;
            let unused: Vec<i64> = words.filter(|word| !used(*word)).collect();
            unused.into_iter().for_each(|word| old[word as usize] = Word::Value(0));
        }
        let rows =
            Rows { last: if self.is(Fault::OldOf1008) { LEGS } else { OLD_LEGS }, ..OLD_ROWS };
        let plumb = self.is(Fault::PlumbPasses).then_some(wrong::Fault::PlumbReads);
        plain_in(&old, &rows, plumb)
    }

    /// "a leg above 1,008 is in use"
    fn too_high(self, plain: &Plain) -> bool {
        let last = match self.0 {
            Some(Fault::Leg1009Carried) => LEGS + 1,
            Some(Fault::Leg1008Refused) => LEGS - 1,
            _ => LEGS,
        };
        let seen = if self.is(Fault::OlderAbovePasses) { 1 } else { usize::MAX };
        let mut legs = plain.lists.iter().flat_map(|list| list.iter().take(seen));
        legs.any(|leg| leg.number > last)
    }

    /// Whether a place of a leg above 1,008 is written, in a book of any words.
    fn high_place(old: &[Word]) -> bool {
        let places = (LEGS + 1..=OLD_LEGS).map(|leg| old_link_word(leg) as usize + 1);
        places.into_iter().any(|place| old.get(place).is_some_and(|word| *word != Word::Value(0)))
    }

    /// "Checks: 15, the old book isn't sound in its own layout, after 14; 16, a leg above 1,008
    /// is in use, after 15", and "1 covers both".
    fn refusal(self, old: &[Word], second: &[Word], slots: &[(i64, Slot)]) -> Option<i64> {
        let whole = |book: &[Word]| book.len() as i64 == WORDS;
        let mut order = [1, 14, 15, 16];
        match self.0 {
            Some(Fault::FourteenBefore1) => order.swap(0, 1),
            Some(Fault::FourteenAfter15) => order.swap(1, 2),
            Some(Fault::FifteenAfter16) => order.swap(2, 3),
            _ => {}
        }
        order.into_iter().find(|number| match number {
            1 => {
                !(whole(old) || self.is(Fault::OldUnmeasured))
                    || !(whole(second) || self.is(Fault::SecondUnmeasured))
            }
            14 => self.stands(slots),
            15 => self.lists(old).is_none(),
            _ if self.is(Fault::FifteenAfter16) => Carrier::high_place(old),
            _ => self.lists(old).is_some_and(|plain| self.too_high(&plain)),
        })
    }

    /// "after it the second is the four-word layout of the same lists": all its words.
    fn write(self, old: &[Word], second: &mut [Word]) {
        let Some(plain) = self.lists(old) else { return };
        for (word, to) in (0..).zip(second.iter_mut()) {
            let leg = leg_of_newer(word).filter(|leg| plain.find(*leg).is_some());
            let value = match (self.0, leg) {
                (Some(Fault::NewerNamesOlder), Some(leg)) => plain.word(link_word(leg)),
                (Some(Fault::NewestNamesItself), Some(leg)) if plain.word(word) == 0 => leg,
                (Some(Fault::CopiesWords), _) => old_word(&plain, word),
                _ => plain.word(word),
            };
            let kept = (self.is(Fault::CarriesFormerNewer) && leg_of_newer(word).is_some())
                || (self.is(Fault::CarriesFormer) && value == 0);
            if !kept {
                *to = Word::Value(value);
            }
        }
    }

    /// The call. The refusal, if it is one: "a refusal leaves both".
    fn carry(self, old: &[Word], second: &mut [Word], slots: &[(i64, Slot)]) -> Option<i64> {
        let refusal = self.refusal(old, second, slots);
        if refusal.is_none() || (refusal == Some(16) && self.is(Fault::WritesBefore16)) {
            self.write(old, second);
        }
        refusal
    }
}

#[derive(Clone)]
struct Case {
    old_length: i64,
    second_length: i64,
    slots: Vec<(i64, Slot)>,
    old: Words,
    /// What the second holds where nothing is given.
    former: u64,
    second: Words,
}

impl Case {
    /// An old book, a second of zeros, and no ticket.
    fn of(old: Words) -> Case {
        let (slots, second) = (Vec::new(), Words::new());
        Case { old_length: WORDS, second_length: WORDS, slots, old, former: 0, second }
    }

    fn lending(self, slots: &[(i64, Slot)]) -> Case {
        Case { slots: slots.to_vec(), ..self }
    }

    fn of_lengths(self, old_length: i64, second_length: i64) -> Case {
        Case { old_length, second_length, ..self }
    }

    /// Into a second of such words, in which some are given.
    fn onto(self, former: u64, second: Words) -> Case {
        Case { former, second, ..self }
    }

    fn bytes(&self) -> Vec<u8> {
        let short = |number: i64| (number as u16).to_le_bytes();
        let counts = [self.slots.len(), self.old.len(), self.second.len()];
        let head = [self.old_length, self.second_length];
        let head = head.into_iter().chain(counts.map(|count| count as i64));
        let mut bytes: Vec<u8> = head.flat_map(short).collect();
        bytes.extend(self.former.to_le_bytes());
        for (team, slot) in &self.slots {
            bytes.extend(short(*team));
            bytes.extend(slot.bytes());
            bytes.extend(short(slot.numbers.len() as i64));
            bytes.extend(slot.numbers.iter().flat_map(|number| number.to_le_bytes()));
        }
        for (word, value) in self.old.iter().chain(&self.second) {
            bytes.extend(short(*word));
            bytes.extend(value.to_le_bytes());
        }
        bytes
    }
}

/// The numbers of an input, low byte first.
struct Reader<'a>(&'a [u8]);

impl Reader<'_> {
    fn take(&mut self, count: usize) -> Result<u64, String> {
        let (number, after) = self.0.split_at_checked(count).ok_or("a torn case")?;
        self.0 = after;
        Ok(number.iter().rev().fold(0, |high, byte| high << 8 | u64::from(*byte)))
    }

    fn short(&mut self) -> Result<i64, String> {
        self.take(2).map(|number| number as i64)
    }

    fn slot(&mut self) -> Result<(i64, Slot), String> {
        let (team, tries) = (self.short()?, self.take(4)? as i64);
        let (n, claimed, done) = (self.short()?, self.short()?, self.short()?);
        let whose = match self.short()? {
            0 => Whose::Edits,
            1 => Whose::StaleEdits,
            2 => Whose::Views,
            other => return Err(format!("a slot of kind {other}")),
        };
        let count = self.short()?;
        let numbers = (0..count).map(|_| self.take(8)).collect::<Result<Vec<u64>, String>>()?;
        Ok((team, Slot { whose, n, claimed, done, tries, numbers }))
    }

    fn words(&mut self, count: i64) -> Result<Words, String> {
        (0..count).map(|_| Ok((self.short()?, self.take(8)?))).collect()
    }

    fn case(&mut self) -> Result<Case, String> {
        let (old_length, second_length) = (self.short()?, self.short()?);
        let (slots, old, second) = (self.short()?, self.short()?, self.short()?);
        let former = self.take(8)?;
        let slots = (0..slots).map(|_| self.slot()).collect::<Result<Vec<_>, String>>()?;
        let (old, second) = (self.words(old)?, self.words(second)?);
        Ok(Case { old_length, second_length, slots, old, former, second })
    }
}

fn book_of(length: i64, filler: u64, words: &Words) -> Vec<Word> {
    let value = |word: i64| Word::of_bits(words.get(&word).copied().unwrap_or(filler));
    (0..length).map(value).collect()
}

/// The lines for all cases of an input, from the model or a program with a fault.
pub fn answered(input: &[u8], fault: Option<Fault>) -> Result<String, String> {
    let (mut reader, mut lines) = (Reader(input), String::new());
    while !reader.0.is_empty() {
        let case = reader.case()?;
        let old = book_of(case.old_length, 0, &case.old);
        let before = book_of(case.second_length, case.former, &case.second);
        let mut second = before.clone();
        lines += &match Carrier(fault).carry(&old, &mut second, &case.slots) {
            None => "carried\n".to_string(),
            Some(number) => format!("refused {number}\n"),
        };
        let changed = before.iter().zip(&second).enumerate().filter(|(_, (old, new))| old != new);
        lines.extend(changed.map(|(word, (_, new))| format!("word {word} {}\n", new.bits())));
    }
    Ok(lines)
}

/// Lists of legs by their numbers, newest first, with figures that tell them apart.
fn lists(of: &[(i64, &[i64])]) -> Plain {
    let mut plain = Plain::fresh();
    for (p, numbers) in of {
        let legs = numbers.iter().map(|number| {
            let measure = Measure { distance: 1 + number, compass: 9, clino: 150 - number % 300 };
            Leg { number: *number, from: *number, to: number + 1, measure }
        });
        plain.lists[*p as usize] = legs.collect();
    }
    plain
}

fn words_by(plain: &Plain, word_of: fn(&Plain, i64) -> i64) -> Words {
    let words = (0..WORDS).map(|word| (word, word_of(plain, word) as u64));
    words.filter(|(_, value)| *value != 0).collect()
}

fn old_words(plain: &Plain) -> Words {
    words_by(plain, old_word)
}

fn with(words: &Words, changes: &[(i64, u64)]) -> Words {
    let mut changed = words.clone();
    changed.extend(changes.iter().copied());
    changed
}

/// Two passages with legs up to this one, which is the last of the first.
fn two_up_to(last: i64) -> Words {
    old_words(&lists(&[(4, &[7, 1, last]), (9, &[20, 21])]))
}

/// Books that aren't sound: for each sentence on soundness, and for each word of a leg.
fn unsound(two: &Words, last: i64) -> Vec<Words> {
    let (link, mark) = (old_link_word, 1 << 63);
    let (place_of, measure_of) = (|r| old_link_word(r) + 1, |r| old_link_word(r) + 2);
    let end = last as u64;
    let mut changes: Vec<Vec<(i64, u64)>> = vec![
        vec![(count_word(4), 2)],
        vec![(count_word(4), 4)],
        vec![(count_word(4), 1_345)],
        vec![(count_word(31), u64::MAX)],
        vec![(count_word(5), 1)],
        vec![(count_word(4), 2), (count_word(9), 3)],
        vec![(newest_word(5), 30)],
        vec![(newest_word(4), 0)],
        vec![(newest_word(4), 1_345)],
        vec![(newest_word(4), 65_536 + 7)],
        vec![(link(last), 7)],
        vec![(link(last), 1_345)],
        vec![(link(last), 7), (count_word(4), 1_344)],
        vec![(link(last), 20), (count_word(4), 5)],
        vec![(newest_word(9), 7), (count_word(9), 3)],
        vec![(link(21), end), (count_word(9), 3)],
        vec![(place_of(7), place(9, 7, 8) as u64)],
        vec![(place_of(7), place(4, 8, 8) as u64)],
        vec![(place_of(7), 0), (measure_of(7), 0)],
        vec![(measure_of(7), 36_000 << 17 | 5)],
        vec![(newest_word(0), mark)],
    ];
    for word in [link(1), place_of(1), measure_of(1), link(last), place_of(last), measure_of(last)]
    {
        changes.extend([mark, mark + 15, u64::MAX].map(|value| vec![(word, value)]));
    }
    // Legs in no list, below and above 1,008.
    for leg in [2, 1_007, 1_009, 1_010, 1_343] {
        changes.extend([0, 1, 2].map(|word| vec![(link(leg) + word, 1)]));
    }
    // "with the plumb rule": a compass other than 0 at clino 9,000 and -9,000.
    for (leg, clino) in [(7, 9_000), (last, -9_000)] {
        for compass in [1, 500, 18_000, 35_999] {
            let shaft = Measure { distance: 5_000, compass, clino }.written() as u64;
            changes.push(vec![(measure_of(leg), shaft)]);
        }
    }
    changes.iter().map(|changes| with(two, changes)).collect()
}

/// "and 1 covers both", before all else.
fn other_lengths() -> Vec<Case> {
    let lengths = [
        (0, WORDS),
        (4_095, WORDS),
        (WORDS + 1, WORDS),
        (WORDS, 0),
        (WORDS, 4_095),
        (WORDS, WORDS + 1),
        (0, 0),
        (4_095, WORDS + 1),
        (4_095, 4_095),
        (12_288, WORDS),
    ];
    let low = two_up_to(LEGS);
    let ticket = [(3, tables::plain(Whose::Edits, 1))];
    let unsound = with(&low, &[(count_word(4), 2)]);
    let books = [Words::new(), low, unsound, two_up_to(OLD_LEGS)];
    let cases = lengths.iter().flat_map(|(old, second)| {
        books.iter().flat_map(|book| {
            let case = Case::of(book.clone()).onto(5, Words::new()).of_lengths(*old, *second);
            [case.clone(), case.lending(&ticket)]
        })
    });
    cases.collect()
}

/// Slots with a ticket: of each team alone, in each phase, well made or not, and of all.
fn standing() -> Vec<Vec<(i64, Slot)>> {
    use Whose::*;
    let phases = [
        tables::plain(Edits, 2),
        tables::plain(Edits, 9).counting(9, 8),
        tables::plain(StaleEdits, 3).counting(2, 1),
        tables::plain(Views, 6),
        tables::plain(Views, 6).counting(6, 5),
    ];
    let bad = [
        tables::plain(Edits, 9).saying(10),
        tables::plain(Edits, 9).saying(65_535),
        tables::plain(Views, 9),
        Slot::of(Edits, &[[4_096, 0, 1]]),
        Slot::of(Edits, &[[0, 1 << 63, 1]]),
        Slot::of(Views, &[[9, 0, 8]]),
        tables::plain(StaleEdits, 2).counting(2, 1),
        tables::plain(Edits, 9).saying(65_535).counting(0, 65_534),
    ];
    let of_teams = (0..TEAMS).map(|team| vec![(team, tables::plain(Edits, 1))]);
    let of_phases = phases
        .into_iter()
        .chain(bad)
        .flat_map(|slot| [0, 15].map(|team| vec![(team, slot.clone())]));
    let all = (0..TEAMS).map(|team| (team, tables::plain(Views, 3))).collect();
    of_teams.chain(of_phases).chain([all]).collect()
}

/// Slots without a ticket, whatever they keep.
fn gone() -> Vec<Vec<(i64, Slot)>> {
    use Whose::*;
    let slots = [
        tables::plain(Edits, 5).counting(5, 5),
        tables::plain(StaleEdits, 5).counting(3, 9),
        tables::plain(Views, 9).counting(0, 9),
        Slot::of(Edits, &[]).before(u64::MAX),
        Slot::of(Views, &[]).saying(65_535).counting(7, 65_535).before(7),
    ];
    let alone = slots
        .clone()
        .into_iter()
        .flat_map(|slot| [0, 7, 15].map(|team| vec![(team, slot.clone())]));
    let all = (0..TEAMS).map(|team| (team, slots[team as usize % slots.len()].clone())).collect();
    alone.chain([all]).collect()
}

/// "when no ticket stands", after 1 and before 15.
fn tickets() -> Vec<Case> {
    let low = two_up_to(LEGS);
    let books = [low.clone(), with(&low, &[(count_word(4), 2)]), two_up_to(LEGS + 1)];
    let of = |slots: &Vec<(i64, Slot)>| {
        let lent = |book: &Words| Case::of(book.clone()).lending(slots);
        books.iter().map(lent).collect::<Vec<_>>()
    };
    standing().iter().chain(&gone()).flat_map(of).collect()
}

/// A leg above 1,008 as the newest, amid, as the oldest, alone, and several of them; and the
/// highest leg that there still is in all these places.
fn high_legs() -> Vec<Case> {
    let mut cases = Vec::new();
    for leg in [1_007, LEGS, LEGS + 1, LEGS + 2, 1_343, OLD_LEGS] {
        let chains: [&[i64]; 4] = [&[leg, 5, 3], &[5, leg, 3], &[5, 3, leg], &[leg]];
        for (p, chain) in [0, 25, 31].into_iter().flat_map(|p| chains.map(|chain| (p, chain))) {
            cases.push(Case::of(old_words(&lists(&[(p, chain), (6, &[2, 9])]))));
        }
    }
    cases.push(Case::of(old_words(&lists(&[(0, &[LEGS + 1, LEGS]), (1, &[OLD_LEGS])]))));
    let all: Vec<i64> = (1..=OLD_LEGS).collect();
    cases.push(Case::of(old_words(&lists(&[(0, &all)]))));
    // Written over what was there, and refused for it.
    cases.push(Case::of(old_words(&lists(&[(0, &[LEGS + 1, LEGS])]))).onto(u64::MAX, Words::new()));
    cases
}

/// Sound books: empty, with one leg, with shafts, with all legs in one passage and in all.
fn sound() -> Vec<Case> {
    let dealt = |p: i64| (1..=LEGS).filter(|r| r % PASSAGES == p).collect::<Vec<i64>>();
    let all: Vec<(i64, Vec<i64>)> = (0..PASSAGES).map(|p| (p, dealt(p))).collect();
    let all: Vec<(i64, &[i64])> = all.iter().map(|(p, legs)| (*p, &legs[..])).collect();
    let falling: Vec<i64> = (1..=LEGS).rev().collect();
    let mut books = vec![lists(&[]), lists(&all), lists(&[(31, &falling)])];
    books.extend((0..PASSAGES).map(|p| lists(&[(p, &[LEGS, 1 + p])])));
    for clino in [-9_000, -8_999, 8_999, 9_000] {
        let mut shafts = lists(&[(2, &[8, 6, 7]), (3, &[5])]);
        let measure = Measure { distance: 100_000, compass: 35_999, clino }.taken();
        shafts.lists[2].iter_mut().for_each(|leg| leg.measure = measure);
        (shafts.lists[3][0].from, shafts.lists[3][0].to) = (65_535, 0);
        books.push(shafts);
    }
    books.iter().map(|plain| Case::of(old_words(plain))).collect()
}

/// "after it the second is the four-word layout of the same lists", whatever it held: marks,
/// other values, the layout of other lists or of the same ones, and newer words alone.
fn former() -> Vec<Case> {
    let plain = lists(&[(4, &[7, 1, LEGS, 30]), (9, &[20, 21]), (12, &[500])]);
    let other = lists(&[(4, &[1, 7]), (10, &[21, 20, 900]), (12, &[500])]);
    let case = Case::of(old_words(&plain));
    let [own, others] = [&plain, &other].map(|plain| words_by(plain, Plain::word));
    let newer = |value: u64| (1..=LEGS).map(|leg| (newer_word(leg), value)).collect::<Words>();
    vec![
        case.clone().onto(u64::MAX, Words::new()),
        case.clone().onto(1 << 63, Words::new()),
        Case::of(Words::new()).onto(1, Words::new()),
        case.clone().onto(0, others.clone()),
        case.clone().onto(0, own.clone()),
        case.clone().onto(0, old_words(&plain)),
        case.clone().onto(0, newer(5)),
        case.clone().onto(0, with(&own, &[(newer_word(1), 20), (newer_word(7), LEGS as u64)])),
        Case::of(Words::new()).onto(0, others),
        // A book that is in four words already isn't sound in three.
        Case::of(own.clone()),
        Case::of(own).onto(u64::MAX, Words::new()),
    ]
}

/// The lists that streams leave, in three words, whole, with numbers above 1,008 and damaged.
fn left_by_streams() -> Vec<Case> {
    let mut cases = Vec::new();
    for seed in 1..=8 {
        let mut author = Author::new(seed);
        for _ in 0..3 {
            author.contend(100 * seed as i64);
            author.finish_all(Order::Rising);
            let plain = author.watch.plain.clone();
            let mut raised = plain.clone();
            raised.lists.iter_mut().flatten().for_each(|leg| leg.number += OLD_LEGS - LEGS);
            let mut rng = Prng::new(seed + author.frames as u64);
            for plain in [plain, raised] {
                let words = old_words(&plain);
                cases.extend((0..6).map(|_| Case::of(damaged(&mut rng, &words))));
                cases.push(Case::of(words));
            }
        }
    }
    cases
}

/// The cases stored.
pub fn stored() -> Vec<u8> {
    let [low, high] = [LEGS, OLD_LEGS].map(|last| unsound(&two_up_to(last), last));
    let unsound = low.into_iter().chain(high).map(|words| Case::of(words).onto(3, Words::new()));
    let cases = [other_lengths(), tickets(), unsound.collect(), high_legs(), sound(), former()];
    let cases = cases.concat().into_iter().chain(left_by_streams());
    cases.flat_map(|case| case.bytes()).collect()
}

/// How often each answer came; each must have.
pub fn summary(lines: &str) -> Result<String, String> {
    let kinds = ["carried", "refused 1", "refused 14", "refused 15", "refused 16"];
    let counts = kinds.map(|kind| (kind, lines.lines().filter(|line| *line == kind).count()));
    if let Some((kind, _)) = counts.iter().find(|(_, count)| *count < 10) {
        return Err(format!("the stored carry-overs hardly reach: {kind}"));
    }
    Ok(format!("carried: {}", counts.map(|(kind, count)| format!("{kind} {count}")).join(", ")))
}

#[cfg(test)]
mod tests {
    use super::*;
    use crate::books;

    const RIGHT: Carrier = Carrier(None);

    /// The old layout's own figures.
    #[test]
    fn words_of_the_old_layout() {
        assert_eq!((old_link_word(1), old_link_word(OLD_LEGS) + 2), (64, 4_095));
        let words = old_words(&lists(&[(4, &[7, 1, OLD_LEGS])]));
        assert_eq!([8, 9, 64, 82].map(|word| words[&word]), [7, 3, 1_344, 1]);
        assert_eq!(words.get(&old_link_word(OLD_LEGS)), None);
    }

    /// Every list of legs up to 1,008 that is sound in three words is sound in four after it,
    /// and is the same.
    #[test]
    fn the_second_has_the_same_lists() {
        for seed in 1..=20 {
            let mut author = Author::new(seed);
            author.contend(400);
            author.finish_all(Order::Rising);
            let old = book_of(WORDS, 0, &old_words(&author.watch.plain));
            let mut second = vec![Word::Value(77); WORDS as usize];
            assert_eq!(RIGHT.carry(&old, &mut second, &[]), None, "seed {seed}");
            assert_eq!(second, author.book(), "seed {seed}");
            assert!(books::sound(&second, None));
        }
    }

    /// The checks in their order, each before the next.
    #[test]
    fn refusals_come_in_order() {
        let high = book_of(WORDS, 0, &two_up_to(LEGS + 1));
        let unsound = book_of(WORDS, 0, &with(&two_up_to(LEGS + 1), &[(count_word(9), 1)]));
        let ticket = [(15, tables::plain(Whose::Views, 9))];
        let refusal = |old: &[Word], slots| {
            let mut second = vec![Word::Value(9); WORDS as usize];
            let number = RIGHT.carry(old, &mut second, slots);
            assert!(second.iter().all(|word| *word == Word::Value(9)));
            number
        };
        assert_eq!(refusal(&high, &[]), Some(16));
        assert_eq!(refusal(&unsound, &[]), Some(15));
        assert_eq!(refusal(&unsound, &ticket), Some(14));
        assert_eq!(refusal(&unsound[1..], &ticket), Some(1));
        assert_eq!(RIGHT.carry(&unsound, &mut [Word::Value(0); 7], &ticket), Some(1));
    }

    #[test]
    fn the_last_leg_is_carried_and_the_next_is_not() {
        for (leg, number) in [(LEGS, None), (LEGS + 1, Some(16)), (OLD_LEGS, Some(16))] {
            let old = book_of(WORDS, 0, &old_words(&lists(&[(3, &[leg, 2])])));
            let mut second = vec![Word::Value(0); WORDS as usize];
            assert_eq!(RIGHT.carry(&old, &mut second, &[]), number);
            let newer = second[newer_word(2) as usize];
            assert_eq!(newer, Word::Value(if number.is_none() { leg } else { 0 }));
        }
    }

    #[test]
    fn every_fault_is_told() {
        let stored = stored();
        let right = answered(&stored, None).expect("cases");
        for (name, fault) in FAULTS {
            assert_ne!(answered(&stored, Some(fault)).expect("cases"), right, "{name}");
        }
    }

    /// The form that the program reads, byte by byte.
    #[test]
    fn a_case_in_bytes() {
        let slot = Slot::of(Whose::Views, &[[1, 2, 3]]).counting(0x102, 0x304);
        let case = Case::of(Words::from([(5, 6)])).lending(&[(15, slot)]).of_lengths(7, 8);
        let case = case.onto(0x99, Words::from([(0x10, 0x11)]));
        let head = [7, 0, 8, 0, 1, 0, 1, 0, 1, 0, 0x99, 0, 0, 0, 0, 0, 0, 0];
        let slot = [15, 0, 0, 0, 0, 0, 1, 0, 2, 1, 4, 3, 2, 0, 3, 0];
        let numbers = [1, 2, 3].map(u64::to_le_bytes).concat();
        let words = [5, 0, 6, 0, 0, 0, 0, 0, 0, 0, 16, 0, 17, 0, 0, 0, 0, 0, 0, 0];
        assert_eq!(case.bytes(), [&head[..], &slot, &numbers, &words].concat());
    }
}
