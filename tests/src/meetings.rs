//! "Where passages meet": books and stations as the program `crates/meetings` reads them, and
//! what the model says of each.
//!
//! The form of a call is that of `records.rs`. Tags:
//!
//! - 0: every word of a room of 4,097 is 0, then the words given that are carried are set.
//! - 1 sets the words given that are carried, over the book as it is.
//! - 2 asks for a station, the number, with so many words of the book, and so many words of an
//!   output (a room of 3,072) lent. Every word of that room is 2^64 - 1 before.
//!
//! A meeting's line is `written N` and the first N words of the output, or `refused N`; ` spoiled`
//! stands behind it if a word of the room has changed that isn't among those written. All
//! numbers are decimal.

use crate::books::{self, damaged, Words};
use crate::demand3::{Leg, Plain};
use crate::layout::*;
use crate::records::{given, record, set_words, words_given, Record};
use crate::rounds::Order;
use crate::streams::{Author, Prng};
use crate::{records, wrong};

/// The words that a program has for its output, one more than it ever lends.
const ROOM: usize = 3_072;
/// What they all hold before each call.
const FORMER: u64 = u64::MAX;
/// The longest list that there is: 2 counts, 1,008 legs and 496 pairs.
const LONGEST: i64 = 3_010;

#[derive(Clone, Copy, Debug, PartialEq, Eq)]
pub enum Fault {
    /// A leg to the station isn't listed.
    ToForgotten,
    /// A leg from the station isn't listed.
    FromForgotten,
    /// Only the newest leg of each passage is listed.
    OnePerPassage,
    /// The legs of a passage are listed from the oldest on.
    OldestFirst,
    /// The legs of a passage are listed by their numbers.
    ByLegNumber,
    /// All legs are listed by their numbers.
    AllByLegNumber,
    /// Passages come by rank.
    ByRank,
    /// Passages come by falling number.
    FallingPassages,
    /// Distances are cut to 16 bits.
    ShortDistance,
    /// The whole measure is written for the distance.
    MeasureForDistance,
    /// The count of legs is that of their words.
    LegsCountedInWords,
    /// The count of pairs is that of their words.
    PairsCountedInWords,
    /// Counts are cut to 8 bits.
    CountsInAByte,
    /// Where there is no pair the count of pairs isn't written.
    NoCountOfNoPairs,
    /// The pairs come before the legs.
    PairsBeforeLegs,
    /// A passage with two legs there is a pair with itself.
    PairedWithItself,
    /// Each pair comes for each two legs of its passages.
    PairForEachTwoLegs,
    /// Each pair comes in both orders.
    PairsBothWays,
    /// The higher number is first in a pair.
    HigherFirst,
    /// Only passages that follow each other in the list are paired.
    NeighboursPaired,
    /// Pairs rise by their second number first.
    BySecond,
    /// The last passage isn't looked at.
    LastPassageLeftOut,
    /// Station 0 is none.
    NoStation0,
    /// Station 65,535 is none.
    NoStation65535,
    /// Stations are compared by their low bytes.
    LowByteOfStation,
    /// A book of another length isn't sound.
    LengthUnsound,
    /// A longer book is taken by its first 4,096 words.
    LongerBookPasses,
    /// 15 is checked before 1.
    FifteenBefore1,
    /// 21 is checked before 15, by the lists that the links tell.
    TwentyOneBefore15,
    /// An output of the list's length is too short.
    ExactTooShort,
    /// An output one word too short gets the list without its last word.
    OneShortPasses,
    /// What fits is written before 21.
    WritesBefore21,
    /// The word behind the list becomes 0.
    ClearsBehind,
    /// All words behind the list become 0.
    ClearsAll,
    /// The number of words lent is returned.
    ReturnsLength,
    /// Whether the book is sound isn't asked.
    Unchecked,
    /// The soundness of a book doesn't depend on its newer words.
    NewerUnchecked,
    /// A plumb leg with another compass is sound.
    PlumbPasses,
    /// A mark in a leg that isn't at the station, nor its passage, is passed over.
    MarkElsewherePasses,
}

pub const FAULTS: [(&str, Fault); 39] = [
    ("to-forgotten", Fault::ToForgotten),
    ("from-forgotten", Fault::FromForgotten),
    ("one-per-passage", Fault::OnePerPassage),
    ("oldest-first", Fault::OldestFirst),
    ("by-leg-number", Fault::ByLegNumber),
    ("all-by-leg-number", Fault::AllByLegNumber),
    ("by-rank", Fault::ByRank),
    ("falling-passages", Fault::FallingPassages),
    ("short-distance", Fault::ShortDistance),
    ("measure-for-distance", Fault::MeasureForDistance),
    ("legs-counted-in-words", Fault::LegsCountedInWords),
    ("pairs-counted-in-words", Fault::PairsCountedInWords),
    ("counts-in-a-byte", Fault::CountsInAByte),
    ("no-count-of-no-pairs", Fault::NoCountOfNoPairs),
    ("pairs-before-legs", Fault::PairsBeforeLegs),
    ("paired-with-itself", Fault::PairedWithItself),
    ("pair-for-each-two-legs", Fault::PairForEachTwoLegs),
    ("pairs-both-ways", Fault::PairsBothWays),
    ("higher-first", Fault::HigherFirst),
    ("neighbours-paired", Fault::NeighboursPaired),
    ("by-second", Fault::BySecond),
    ("last-passage-left-out", Fault::LastPassageLeftOut),
    ("no-station-0", Fault::NoStation0),
    ("no-station-65535", Fault::NoStation65535),
    ("low-byte-of-station", Fault::LowByteOfStation),
    ("length-unsound", Fault::LengthUnsound),
    ("longer-book-passes", Fault::LongerBookPasses),
    ("meet-15-before-1", Fault::FifteenBefore1),
    ("21-before-15", Fault::TwentyOneBefore15),
    ("exact-too-short", Fault::ExactTooShort),
    ("one-short-passes", Fault::OneShortPasses),
    ("writes-before-21", Fault::WritesBefore21),
    ("clears-behind", Fault::ClearsBehind),
    ("clears-all", Fault::ClearsAll),
    ("returns-length", Fault::ReturnsLength),
    ("unchecked", Fault::Unchecked),
    ("meet-newer-unchecked", Fault::NewerUnchecked),
    ("meet-plumb-passes", Fault::PlumbPasses),
    ("mark-elsewhere-passes", Fault::MarkElsewherePasses),
];

pub fn named(name: &str) -> Option<Fault> {
    FAULTS.iter().find(|(known, _)| *known == name).map(|(_, fault)| *fault)
}

/// A leg that is listed, and its passage.
type Listed = (i64, Leg);

/// A program that lists stations, right or wrong.
#[derive(Clone, Copy)]
struct Guide(Option<Fault>);

impl Guide {
    fn is(self, fault: Fault) -> bool {
        self.0 == Some(fault)
    }

    /// "every leg that has it as from or to"
    fn meets(self, leg: &Leg, station: i64) -> bool {
        let (from, to) = (leg.from == station, leg.to == station);
        match self.0 {
            Some(Fault::ToForgotten) => from,
            Some(Fault::FromForgotten) => to,
            Some(Fault::NoStation0) => station != 0 && (from || to),
            Some(Fault::NoStation65535) => station != 65_535 && (from || to),
            Some(Fault::LowByteOfStation) => {
                [leg.from, leg.to].iter().any(|own| own % 256 == station % 256)
            }
            _ => from || to,
        }
    }

    /// "by rising passage, then newest first, each exactly once"
    fn legs(self, plain: &Plain, station: i64) -> Vec<Listed> {
        let mut listed: Vec<Listed> = Vec::new();
        for p in self.passages() {
            let meeting = plain.list(p).iter().filter(|leg| self.meets(leg, station));
            let mut own: Vec<Listed> = meeting.map(|leg| (p, *leg)).collect();
            match self.0 {
                Some(Fault::OnePerPassage) => own.truncate(1),
                Some(Fault::OldestFirst) => own.reverse(),
                Some(Fault::ByLegNumber) => own.sort_by_key(|(_, leg)| leg.number),
                _ => {}
            }
            listed.extend(own);
        }
        if self.is(Fault::AllByLegNumber) {
            listed.sort_by_key(|(_, leg)| leg.number);
        }
        listed
    }

    fn passages(self) -> Vec<i64> {
        let mut passages: Vec<i64> = (0..PASSAGES).collect();
        match self.0 {
            Some(Fault::ByRank) => passages.sort_by_key(|p| RANKS[*p as usize]),
            Some(Fault::FallingPassages) => passages.reverse(),
            Some(Fault::LastPassageLeftOut) => drop(passages.pop()),
            _ => {}
        }
        passages
    }

    /// "then every pair of different passages with a leg there, once, lower number first, pairs
    /// rising"
    fn pairs(self, legs: &[Listed]) -> Vec<(i64, i64)> {
        let count = |p: i64| legs.iter().filter(|(own, _)| *own == p).count();
        let there: Vec<i64> = (0..PASSAGES).filter(|p| count(*p) > 0).collect();
        let mut pairs = Vec::new();
        for (index, low) in there.iter().enumerate() {
            if self.is(Fault::PairedWithItself) && count(*low) > 1 {
                pairs.push((*low, *low));
            }
            for high in &there[index + 1..] {
                let times =
                    if self.is(Fault::PairForEachTwoLegs) { count(*low) * count(*high) } else { 1 };
                pairs.extend(vec![(*low, *high); times]);
            }
        }
        self.pairs_otherwise(&mut pairs, &there);
        pairs
    }

    fn pairs_otherwise(self, pairs: &mut Vec<(i64, i64)>, there: &[i64]) {
        match self.0 {
            Some(Fault::NeighboursPaired) => {
                *pairs = there.windows(2).map(|two| (two[0], two[1])).collect();
            }
            Some(Fault::PairsBothWays) => {
                pairs.extend(pairs.clone().into_iter().map(|(low, high)| (high, low)));
                pairs.sort();
            }
            Some(Fault::HigherFirst) => {
                pairs.iter_mut().for_each(|(low, high)| std::mem::swap(low, high));
            }
            Some(Fault::BySecond) => pairs.sort_by_key(|(low, high)| (*high, *low)),
            _ => {}
        }
    }

    /// "The lent output of 64-bit words gets the number of legs, leg and distance for each, the
    /// number of pairs, and the two passages of each"
    fn list(self, plain: &Plain, station: i64) -> Vec<u64> {
        let legs = self.legs(plain, station);
        let pairs = self.pairs(&legs);
        let distance = |leg: &Leg| match self.0 {
            Some(Fault::ShortDistance) => leg.measure.distance % 65_536,
            Some(Fault::MeasureForDistance) => leg.measure.written(),
            _ => leg.measure.distance,
        };
        let of_legs: Vec<i64> =
            legs.iter().flat_map(|(_, leg)| [leg.number, distance(leg)]).collect();
        let of_pairs: Vec<i64> = pairs.iter().flat_map(|(one, other)| [*one, *other]).collect();
        let in_words = |count: usize, fault: Fault| {
            let count = if self.is(fault) { 2 * count } else { count } as i64;
            if self.is(Fault::CountsInAByte) {
                count % 256
            } else {
                count
            }
        };
        let mut legs = vec![in_words(legs.len(), Fault::LegsCountedInWords)];
        let mut last = vec![in_words(pairs.len(), Fault::PairsCountedInWords)];
        if self.is(Fault::NoCountOfNoPairs) && pairs.is_empty() {
            last.clear();
        }
        legs.extend(of_legs);
        last.extend(of_pairs);
        let words = if self.is(Fault::PairsBeforeLegs) { [last, legs] } else { [legs, last] };
        words.concat().into_iter().map(|word| word as u64).collect()
    }

    /// The lists of a sound book; of a wrong program also those of others.
    fn plain(self, book: &[Word], station: i64) -> Option<Plain> {
        let fault = match self.0 {
            Some(Fault::NewerUnchecked) => Some(wrong::Fault::NewerUnchecked),
            Some(Fault::PlumbPasses) => Some(wrong::Fault::PlumbReads),
            _ => None,
        };
        let mut book = book.to_vec();
        book.resize(WORDS as usize, Word::Value(0));
        match self.0 {
            Some(Fault::Unchecked) => Some(told(&book)),
            Some(Fault::MarkElsewherePasses) => {
                unmark(&mut book, station);
                books::lists_in(&book, None)
            }
            _ => books::lists_in(&book, fault),
        }
    }

    /// The refusal, if it is one: 1, "an unsound book gives 15", and "21, output too short for
    /// the whole list, after 15".
    fn refusal(
        self,
        book: &[Word],
        list: Option<&[u64]>,
        station: i64,
        output: usize,
    ) -> Option<i64> {
        let mut order = [1, 15, 21];
        match self.0 {
            Some(Fault::FifteenBefore1) => order.swap(0, 1),
            Some(Fault::TwentyOneBefore15) => order.swap(1, 2),
            _ => {}
        }
        order.into_iter().find(|number| match number {
            1 if self.is(Fault::LongerBookPasses) => (book.len() as i64) < WORDS,
            1 if self.is(Fault::LengthUnsound) => false,
            1 => book.len() as i64 != WORDS,
            15 if self.is(Fault::LengthUnsound) && book.len() as i64 != WORDS => true,
            15 => list.is_none(),
            _ if self.is(Fault::TwentyOneBefore15) => {
                self.too_short(self.list(&told(book), station).len(), output)
            }
            _ => list.is_some_and(|list| self.too_short(list.len(), output)),
        })
    }

    fn too_short(self, words: usize, output: usize) -> bool {
        match self.0 {
            Some(Fault::ExactTooShort) => output <= words,
            Some(Fault::OneShortPasses) => output + 1 < words,
            _ => output < words,
        }
    }

    /// The call: how many words are written, or the refusal. "words after these stay", and of a
    /// refused call "nothing is written".
    fn meet(self, book: &[Word], station: i64, output: &mut [u64]) -> Result<usize, i64> {
        let list = self.plain(book, station).map(|plain| self.list(&plain, station));
        let refusal = self.refusal(book, list.as_deref(), station, output.len());
        let written = match refusal {
            None => true,
            Some(number) => number == 21 && self.is(Fault::WritesBefore21),
        };
        let words = list.filter(|_| written).unwrap_or_default();
        output.iter_mut().zip(&words).for_each(|(place, word)| *place = *word);
        let behind = match self.0 {
            _ if refusal.is_some() => 0,
            Some(Fault::ClearsBehind) => 1,
            Some(Fault::ClearsAll) => ROOM,
            _ => 0,
        };
        output.iter_mut().skip(words.len()).take(behind).for_each(|place| *place = 0);
        match refusal {
            Some(number) => Err(number),
            None if self.is(Fault::ReturnsLength) => Ok(output.len()),
            None => Ok(words.len()),
        }
    }
}

/// The lists that newest legs, counts and links tell, whatever else stands in the words.
fn told(book: &[Word]) -> Plain {
    let value = |word: i64| match book.get(word as usize) {
        Some(Word::Value(value)) => *value,
        _ => 0,
    };
    let mut plain = Plain::fresh();
    for p in 0..PASSAGES {
        let mut number = value(newest_word(p));
        for _ in 0..value(count_word(p)).min(LEGS) {
            if !(1..=LEGS).contains(&number) {
                break;
            }
            let (place, measure) = (value(place_word(number)), value(measure_word(number)));
            let (from, to) = (place / 64 % 65_536, place / 4_194_304);
            let measure = Measure { distance: measure % (1 << 17), compass: 0, clino: 0 };
            plain.lists[p as usize].push(Leg { number, from, to, measure });
            number = value(link_word(number));
        }
    }
    plain
}

/// A book in which the marked words are as they should be that don't say who is at a station.
fn unmark(book: &mut [Word], station: i64) {
    let own = told(book);
    let at = |leg: &Leg| [leg.from, leg.to].contains(&station);
    let elsewhere = |p: i64| !own.list(p).iter().any(at);
    for p in (0..PASSAGES).filter(|p| elsewhere(*p)) {
        for (index, leg) in own.list(p).iter().enumerate() {
            let newer = own.number_at(p, index.checked_sub(1));
            let measure = Measure { distance: 1, compass: 0, clino: 0 }.written();
            for (word, value) in
                [(newer_word(leg.number), newer), (measure_word(leg.number), measure)]
            {
                if matches!(book[word as usize], Word::Marked(_)) {
                    book[word as usize] = Word::Value(value);
                }
            }
        }
    }
}

/// What a program reads.
#[derive(Clone, Debug, PartialEq, Eq)]
enum Call {
    Fresh(Words),
    Set(Words),
    Meet { book: i64, output: i64, station: i64 },
}

impl Call {
    /// With a whole book.
    fn meet(station: i64, output: i64) -> Call {
        Call::Meet { book: WORDS, output, station }
    }

    fn bytes(&self) -> Vec<u8> {
        match self {
            Call::Fresh(words) => record([0, 0, 0, 0], &given(words)),
            Call::Set(words) => record([1, 0, 0, 0], &given(words)),
            Call::Meet { book, output, station } => record([2, *book, *output, *station], &[]),
        }
    }

    fn of_record((numbers, carried): Record) -> Option<Call> {
        match numbers {
            [0, 0, 0, 0] => words_given(carried).map(Call::Fresh),
            [1, 0, 0, 0] => words_given(carried).map(Call::Set),
            [2, book, output, station] if book <= WORDS + 1 && output < ROOM as i64 => {
                Some(Call::Meet { book, output, station })
            }
            _ => None,
        }
    }
}

/// The line of a meeting.
fn line(guide: Guide, book: &[Word], station: i64, output: usize) -> String {
    let mut room = vec![FORMER; ROOM];
    let (said, written) = match guide.meet(book, station, &mut room[..output]) {
        Ok(count) => {
            let words = room.iter().take(count).map(|word| format!(" {word}"));
            (format!("written {count}{}", words.collect::<String>()), count)
        }
        Err(number) => (format!("refused {number}"), 0),
    };
    let spoiled = room.iter().skip(written).any(|word| *word != FORMER);
    format!("{said}{}\n", if spoiled { " spoiled" } else { "" })
}

/// The line for each meeting among some calls.
fn lines(calls: Vec<Call>, fault: Option<Fault>) -> impl Iterator<Item = String> {
    let zeros = vec![Word::Value(0); WORDS as usize + 1];
    let mut room = zeros.clone();
    calls.into_iter().filter_map(move |call| {
        match call {
            Call::Fresh(words) => {
                room = zeros.clone();
                set_words(&mut room, &words);
            }
            Call::Set(words) => set_words(&mut room, &words),
            Call::Meet { book, output, station } => {
                return Some(line(Guide(fault), &room[..book as usize], station, output as usize));
            }
        }
        None
    })
}

/// The lines for all calls of an input, from the model or a program with a fault.
pub fn answered(input: &[u8], fault: Option<Fault>) -> Result<String, String> {
    Ok(lines(records::all(input, Call::of_record)?, fault).collect())
}

fn words_by(plain: &Plain) -> Words {
    let words = (0..WORDS).map(|word| (word, plain.word(word) as u64));
    words.filter(|(_, value)| *value != 0).collect()
}

/// The words of the station's list in a plain book.
fn listed_words(plain: &Plain, station: i64) -> i64 {
    Guide(None).list(plain, station).len() as i64
}

/// A station with outputs one word too short, just long enough, and longer.
fn around(plain: &Plain, station: i64) -> Vec<Call> {
    let words = listed_words(plain, station);
    [words - 1, words, words + 1].map(|output| Call::meet(station, output)).into()
}

/// A leg with distances that reach from one end to the other.
fn leg(number: i64, from: i64, to: i64) -> Leg {
    let distance = 1 + number * 99_371 % 100_000;
    let measure = Measure { distance, compass: number * 35 % 36_000, clino: 150 - number % 300 };
    Leg { number, from, to, measure }
}

fn book_of(lists: &[(i64, &[Leg])]) -> Plain {
    let mut plain = Plain::fresh();
    lists.iter().for_each(|(p, legs)| plain.lists[*p as usize] = legs.to_vec());
    plain
}

/// All legs dealt out to some passages, each with the station at one end.
fn all_at(station: i64, passages: &[i64]) -> Plain {
    let mut plain = Plain::fresh();
    for number in 1..=LEGS {
        let p = passages[number as usize * 7 % passages.len()];
        let other = (station + number) % 65_536;
        let (from, to) = if number % 3 == 0 { (other, station) } else { (station, other) };
        plain.lists[p as usize].push(leg(number, from, to));
    }
    plain
}

/// "all 1,008 legs at one station in 32 passages": 3,010 words, and none is to spare. Then in
/// 31 passages and in one alone.
fn all_legs() -> Vec<Call> {
    let all: Vec<i64> = (0..PASSAGES).collect();
    let in_32 = all_at(700, &all);
    let mut calls = vec![Call::Fresh(words_by(&in_32))];
    let outputs = [LONGEST, LONGEST - 1, LONGEST + 1, ROOM as i64 - 1, 0, 1, 2];
    calls.extend(outputs.map(|output| Call::meet(700, output)));
    calls.extend([699, 701, 1_000, 1_708, 1_709].into_iter().flat_map(|at| around(&in_32, at)));
    for passages in [&all[1..], &all[..31], &all[31..]] {
        let plain = all_at(65_535, passages);
        calls.push(Call::Fresh(words_by(&plain)));
        calls.extend(around(&plain, 65_535));
        calls.extend(around(&plain, 7));
    }
    calls
}

/// Two passages and one that has the station twice, with every output up to what is needed and
/// some longer ones.
fn small() -> Plain {
    book_of(&[
        (4, &[leg(7, 5, 6), leg(1_008, 6, 5), leg(30, 8, 9)]),
        (9, &[leg(20, 6, 0), leg(3, 65_535, 5)]),
        (25, &[leg(500, 8, 6)]),
        (31, &[leg(2, 65_535, 0), leg(900, 261, 6)]),
    ])
}

/// The whole book at each station, in outputs of every length.
fn every_output() -> Vec<Call> {
    let plain = small();
    let mut calls = vec![Call::Fresh(words_by(&plain))];
    for station in [6, 5, 8, 9, 0, 65_535, 261, 256, 7, 10, 32_768] {
        let words = listed_words(&plain, station);
        let outputs = (0..=words + 2).chain([100, ROOM as i64 - 1]);
        calls.extend(outputs.map(|output| Call::meet(station, output)));
    }
    calls
}

/// The empty book, stations at both ends, outputs of 0 to 3 words.
fn empty() -> Vec<Call> {
    let stations = [0, 1, 32_767, 65_535];
    let asked = stations
        .into_iter()
        .flat_map(|station| [0, 1, 2, 3, 100].map(|output| Call::meet(station, output)));
    [Call::Fresh(Words::new())].into_iter().chain(asked).collect()
}

/// "1", before all else: books of other lengths, empty, sound, not sound and marked.
fn other_lengths() -> Vec<Call> {
    let words = words_by(&small());
    let unsound = Words::from([(count_word(4), 9)]);
    let marked = Words::from([(newest_word(4), 1 << 63)]);
    let mut calls = Vec::new();
    let books = [
        Call::Fresh(Words::new()),
        Call::Fresh(words),
        Call::Set(Words::from([(WORDS, 1)])),
        Call::Set(unsound),
        Call::Set(marked),
    ];
    for book in books {
        calls.push(book);
        for length in [0, 1, 64, 4_095, WORDS, WORDS + 1] {
            let meet = |output| Call::Meet { book: length, output, station: 6 };
            calls.extend([0, 3, 100].map(meet));
        }
    }
    calls
}

/// A mark at each word of legs at the station and elsewhere, in the words of passages with legs
/// and without, and in legs that are in no list.
fn marks() -> Vec<Call> {
    let plain = small();
    let words = words_by(&plain);
    let of_leg = |r: i64| [link_word(r), place_word(r), measure_word(r), newer_word(r)];
    let legs = [7, 30, 500, 2, 900, 77].into_iter().flat_map(of_leg);
    let passages = [4, 9, 31, 0].into_iter().flat_map(|p| [newest_word(p), count_word(p)]);
    let mut calls = Vec::new();
    for word in legs.chain(passages) {
        for mark in [1 << 63, (1 << 63) + 15, u64::MAX] {
            let own = Words::from([(word, words.get(&word).copied().unwrap_or(0))]);
            calls.push(Call::Set(Words::from([(word, mark)])));
            calls.extend([Call::meet(5, 100), Call::meet(10, 0)]);
            calls.push(Call::Set(own));
        }
    }
    calls.push(Call::meet(5, 100));
    [vec![Call::Fresh(words)], calls].concat()
}

/// Books with one fault each, as the check gets them, with an output for the list and with none.
fn unsound() -> Vec<Call> {
    let books = books::each_fault().into_iter().filter(|words| words.len() < 1_000);
    books.flat_map(|words| [Call::Fresh(words), Call::meet(8, 200), Call::meet(8, 1)]).collect()
}

/// What streams leave, with tickets standing and with none, whole and damaged.
fn left_by_streams() -> Vec<Call> {
    let mut calls = Vec::new();
    for seed in 1..=10 {
        let mut author = Author::new(seed);
        for _ in 0..3 {
            author.contend(80 * seed as i64);
            calls.push(Call::Fresh(books::words_of(author.book())));
            calls.extend([0, 300].map(|station| Call::meet(station, 2_000)));
            author.finish_all(Order::Rising);
            let (words, plain) = (books::words_of(author.book()), &author.watch.plain);
            calls.push(Call::Fresh(words.clone()));
            calls.extend([0, 1, 2, 300, 65_535].into_iter().flat_map(|at| around(plain, at)));
            let mut rng = Prng::new(seed + author.frames as u64);
            for _ in 0..4 {
                calls.push(Call::Fresh(damaged(&mut rng, &words)));
                calls.push(Call::meet(rng.pick(&[0, 1, 2, 300, 65_535]), 500));
            }
        }
    }
    calls
}

/// Legs over all passages, at a few stations, in any order.
fn any_lists(rng: &mut Prng) -> Plain {
    let mut plain = Plain::fresh();
    let (count, stations) = (rng.between(20, 90), rng.between(4, 12));
    for number in rng.some(count, 1, LEGS) {
        let ends = rng.some(2, 0, stations).into_iter().map(|at| at * 5_957 % 65_536);
        let ends: Vec<i64> = ends.collect();
        let p = rng.below(PASSAGES);
        plain.lists[p as usize].push(leg(number, ends[0], ends[1]));
    }
    plain
}

fn any_books() -> Vec<Call> {
    let mut calls = Vec::new();
    for seed in 1..=25 {
        let mut rng = Prng::new(900 + seed);
        let plain = any_lists(&mut rng);
        calls.push(Call::Fresh(words_by(&plain)));
        for _ in 0..5 {
            let station = rng.below(13) * 5_957 % 65_536;
            calls.extend(around(&plain, station));
        }
    }
    calls
}

/// The calls stored.
pub fn stored() -> Vec<u8> {
    let own = [all_legs(), every_output(), empty(), other_lengths(), marks(), unsound()];
    let calls = own.concat().into_iter().chain(left_by_streams()).chain(any_books());
    calls.flat_map(|call| call.bytes()).collect()
}

/// How often each answer came; each must have, and the longest list too.
pub fn summary(lines: &str) -> Result<String, String> {
    let kinds = ["written", "refused 1", "refused 15", "refused 21"];
    let counts = kinds.map(|kind| {
        let own = |line: &&str| line.split(' ').zip(kind.split(' ')).all(|(a, b)| a == b);
        (kind, lines.lines().filter(own).count())
    });
    let longest = format!("written {LONGEST} {LEGS} ");
    if let Some((kind, _)) = counts.iter().find(|(_, count)| *count < 20) {
        return Err(format!("the stored meetings hardly reach: {kind}"));
    }
    if !lines.lines().any(|line| line.starts_with(&longest)) {
        return Err(format!("no stored meeting has {LONGEST} words"));
    }
    Ok(format!("meetings: {}", counts.map(|(kind, count)| format!("{kind} {count}")).join(", ")))
}

#[cfg(test)]
mod tests {
    use super::*;

    const RIGHT: Guide = Guide(None);

    /// Two passages at station 2, one leg of each and another of the first.
    #[test]
    fn a_list_in_full() {
        let plain =
            book_of(&[(5, &[leg(2, 2, 3)]), (0, &[leg(3, 4, 2), leg(9, 7, 8), leg(1, 1, 2)])]);
        let distance = |r: i64| leg(r, 0, 1).measure.distance as u64;
        let at_2 = [3, 3, distance(3), 1, distance(1), 2, distance(2), 1, 0, 5];
        assert_eq!(RIGHT.list(&plain, 2), at_2);
        assert_eq!(RIGHT.list(&plain, 1), [1, 1, distance(1), 0]);
        assert_eq!(RIGHT.list(&plain, 9), [0, 0]);
    }

    #[test]
    fn pairs_rise() {
        let at = |p: i64| (p, leg(p + 1, 0, 1));
        let pairs = RIGHT.pairs(&[at(1), at(4), at(4), at(5), at(31)]);
        assert_eq!(pairs, [(1, 4), (1, 5), (1, 31), (4, 5), (4, 31), (5, 31)]);
    }

    /// 3,010 words and no more, of the whole book.
    #[test]
    fn the_longest_list() {
        let all: Vec<i64> = (0..PASSAGES).collect();
        let plain = all_at(700, &all);
        assert_eq!(listed_words(&plain, 700), LONGEST);
        let book: Vec<Word> = (0..WORDS).map(|word| Word::Value(plain.word(word))).collect();
        let mut output = vec![5; LONGEST as usize - 1];
        assert_eq!(RIGHT.meet(&book, 700, &mut output), Err(21));
        assert!(output.iter().all(|word| *word == 5));
        output.extend([5, 5]);
        assert_eq!(RIGHT.meet(&book, 700, &mut output), Ok(LONGEST as usize));
        assert_eq!(output[LONGEST as usize..], [5]);
    }

    /// The lists that frames made are those that the words tell.
    #[test]
    fn lists_of_streams() {
        for seed in 1..=20 {
            let mut author = Author::new(seed);
            author.contend(400);
            author.finish_all(Order::Rising);
            for station in [0, 1, 2, 300, 65_535, 17] {
                let mut output = vec![FORMER; ROOM];
                let count = RIGHT.meet(author.book(), station, &mut output).expect("sound");
                assert_eq!(output[..count], RIGHT.list(&author.watch.plain, station));
            }
        }
    }

    #[test]
    fn refusals_come_in_order() {
        let book: Vec<Word> = (0..WORDS).map(|word| Word::Value(small().word(word))).collect();
        let mut unsound = book.clone();
        unsound[count_word(4) as usize] = Word::Marked(3);
        let refusal = |book: &[Word], output: usize| {
            let mut output = vec![9; output];
            let number = RIGHT.meet(book, 6, &mut output).err();
            assert!(number.is_none() || output.iter().all(|word| *word == 9));
            number
        };
        assert_eq!(refusal(&book, 100), None);
        assert_eq!(refusal(&book, 3), Some(21));
        assert_eq!(refusal(&unsound, 3), Some(15));
        assert_eq!(refusal(&unsound[1..], 3), Some(1));
        assert_eq!(refusal(&[&book[..], &[Word::Value(0)]].concat(), 100), Some(1));
    }

    #[test]
    fn every_fault_is_told() {
        let stored = stored();
        let calls = records::all(&stored, Call::of_record).expect("calls");
        let right: Vec<String> = lines(calls.clone(), None).collect();
        for (name, fault) in FAULTS {
            assert!(!lines(calls.clone(), Some(fault)).eq(right.iter().cloned()), "{name}");
        }
        assert!(right.iter().all(|line| !line.contains("spoiled")));
        assert!(stored.len() < 1 << 20, "a program has no room for it");
    }

    /// The form that the program reads, byte by byte.
    #[test]
    fn calls_in_bytes() {
        let words = Words::from([(0x102, 0x304)]);
        let carried = [2, 1, 4, 3, 0, 0, 0, 0, 0, 0];
        let head = [0, 0, 0, 0, 0, 0, 0, 0, 10, 0];
        assert_eq!(Call::Fresh(words.clone()).bytes(), [head, carried].concat());
        let head = [1, 0, 0, 0, 0, 0, 0, 0, 10, 0];
        assert_eq!(Call::Set(words).bytes(), [head, carried].concat());
        let meet = Call::Meet { book: 4_097, output: 0x203, station: 0x405 };
        assert_eq!(meet.bytes(), [2, 0, 1, 16, 3, 2, 5, 4, 0, 0]);
    }
}
