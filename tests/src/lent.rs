//! Calls that a stream can't reach, as the program `crates/lent` reads them, and what the
//! model says of each: other books, short outputs, lent tickets, and readings.
//!
//! A call is five numbers of 16 bits, low byte first (tag, words of the book lent, bytes of
//! the output lent, a number, how many bytes it carries), then these bytes. Tags:
//!
//! - 0 is a title: the bytes carried, to be written as they stand.
//! - 1: zero words and no ticket from here on.
//! - 2: the word of that number becomes the value carried, 64 bits.
//! - 3 lends the team of that number a slot: tries, 32 bits, then n, claimed, done and kind,
//!   16 bits each. 4 puts a number, 64 bits, at that place of the table's targets.
//! - 5 gives the frame carried, with an output whose bytes are all that number.
//! - 6 reads the place and the measure carried, 64 bits each.
//!
//! A frame's lines: `returns N : BYTES` with the whole output; `word W V` for each word that
//! has changed; and `ticket TEAM PHASE N CLAIMED DONE TRIES : WORD QUOTED NEW ...` for each
//! ticket that stands, with its n targets or those that there is room for. Of a view QUOTED is
//! the value noted, and NEW the word named in that place. A reading's line is
//! `leg P FROM TO DISTANCE COMPASS CLINO` or `no leg`. All numbers are decimal, bytes
//! hexadecimal.

use crate::frames::{framed, Field::*, Kind, Request};
use crate::layout::*;
use crate::lists::{in_hex, same};
use crate::model::{Desk, Phase, Ticket, OUTPUT};
use crate::records::record;
use crate::tables::{self, Slot};
use crate::wrong::{self, Fault};

#[derive(Clone, Debug, PartialEq, Eq)]
pub enum Call {
    Title(&'static str),
    Fresh,
    Word(i64, u64),
    Lend(i64, Slot),
    Frame { book: i64, output: usize, fill: u8, frame: Vec<u8> },
    Read(u64, u64),
}

impl Call {
    /// With a whole book, and an output just long enough for every answer.
    pub fn ask(request: Request) -> Call {
        Call::frame(WORDS, OUTPUT, &request.bytes())
    }

    fn frame(book: i64, output: usize, frame: &[u8]) -> Call {
        Call::Frame { book, output, fill: 170, frame: frame.to_vec() }
    }

    pub fn step(team: i64) -> Call {
        Call::ask(Request::step(team))
    }

    pub fn look(word: i64) -> Call {
        Call::ask(Request::look(word))
    }

    fn bytes(&self) -> Vec<u8> {
        match self {
            Call::Title(text) => record([0, 0, 0, 0], format!("# {text}\n").as_bytes()),
            Call::Fresh => record([1, 0, 0, 0], &[]),
            Call::Word(word, value) => record([2, 0, 0, *word], &value.to_le_bytes()),
            Call::Lend(team, slot) => {
                let numbers = slot.numbers.iter().zip(tables::first_place(*team)..);
                let numbers = numbers
                    .flat_map(|(number, place)| record([4, 0, 0, place], &number.to_le_bytes()));
                record([3, 0, 0, *team], &slot.bytes()).into_iter().chain(numbers).collect()
            }
            Call::Frame { book, output, fill, frame } => {
                record([5, *book, *output as i64, i64::from(*fill)], frame)
            }
            Call::Read(place, measure) => {
                record([6, 0, 0, 0], &[place.to_le_bytes(), measure.to_le_bytes()].concat())
            }
        }
    }
}

fn ticket_line(team: i64, ticket: &Ticket) -> String {
    let phase = match ticket.phase {
        Phase::Claiming => "claiming",
        Phase::Putting => "putting",
        Phase::GivingBack => "giving-back",
        Phase::Viewing => "viewing",
        Phase::Viewed => "viewed",
    };
    let Ticket { n, claimed, done, tries, targets, .. } = ticket;
    let targets = targets.iter().map(|target| {
        format!(" {} {} {}", target.word as u64, target.quoted.bits(), target.new.bits())
    });
    let targets: String = targets.collect();
    format!("ticket {team} {phase} {n} {claimed} {done} {tries} :{targets}")
}

/// What a program has at hand, and its fault, if it has one.
struct Run {
    desk: Desk,
    fault: Option<Fault>,
    says: fn(&Slot) -> Option<Ticket>,
}

impl Run {
    /// Makes a call; its lines.
    fn obey(&mut self, call: &Call) -> Vec<String> {
        match call {
            Call::Title(text) => return vec![format!("# {text}")],
            Call::Fresh => self.desk = Desk::fresh(),
            Call::Word(word, value) => self.desk.book[*word as usize] = Word::of_bits(*value),
            Call::Lend(team, slot) => {
                self.desk.tickets.remove(team);
                self.desk.tickets.extend((self.says)(slot).map(|ticket| (*team, ticket)));
            }
            Call::Frame { book, output, fill, frame } => {
                return self.give(*book, vec![*fill; *output], frame);
            }
            Call::Read(place, measure) => return vec![self.read(*place, *measure)],
        }
        Vec::new()
    }

    fn give(&mut self, book: i64, mut output: Vec<u8>, frame: &[u8]) -> Vec<String> {
        let before = self.desk.book.clone();
        let answering = |desk: &mut Desk, frame: &[u8]| match self.fault {
            None => desk.answer(frame),
            Some(fault) => wrong::answer(fault, desk, frame),
        };
        let mut desk = self.desk.clone();
        desk.book.resize(book as usize, Word::Value(0));
        let returned = desk.call_answered(&answering, frame, &mut output);
        if book == WORDS {
            self.desk = desk;
        }
        let mut lines = vec![format!("returns {returned} :{}", in_hex(&output))];
        let words = before.iter().zip(&self.desk.book).enumerate();
        let changed = words.filter(|(_, (old, new))| old != new);
        lines.extend(changed.map(|(word, (_, new))| format!("word {word} {}", new.bits())));
        lines.extend(self.desk.tickets.iter().map(|(team, ticket)| ticket_line(*team, ticket)));
        lines
    }

    fn read(&self, place: u64, measure: u64) -> String {
        wrong::read(self.fault, place, measure).map_or("no leg".to_string(), |leg| {
            let Measure { distance, compass, clino } = leg.measure;
            format!("leg {} {} {} {distance} {compass} {clino}", leg.p, leg.from, leg.to)
        })
    }
}

/// What the model, or a program with a fault, writes for calls.
pub fn answered(calls: &[Call], fault: Option<Fault>) -> String {
    answered_by(calls, fault, Slot::says)
}

/// The same of one that reads slots in its own way.
pub fn answered_by(
    calls: &[Call],
    fault: Option<Fault>,
    says: fn(&Slot) -> Option<Ticket>,
) -> String {
    let mut run = Run { desk: Desk::fresh(), fault, says };
    calls.iter().flat_map(|call| run.obey(call)).map(|line| line + "\n").collect()
}

pub fn input(calls: &[Call]) -> Vec<u8> {
    calls.iter().flat_map(Call::bytes).collect()
}

/// A word that is no team's mark.
pub const NOBODYS: u64 = (1 << 63) + TEAMS as u64;

/// "1. The book isn't 4,096 words long."
fn other_books() -> Vec<Call> {
    let (look, step) = (Request::look(0).bytes(), Request::step(0).bytes());
    vec![
        Call::Title("Refusal 1: other book lengths, before everything else."),
        Call::Fresh,
        Call::frame(4_095, OUTPUT, &look),
        Call::frame(4_095, 0, &[]),
        Call::frame(4_097, OUTPUT, &look),
        Call::frame(0, 64, &step),
    ]
}

fn outputs() -> Vec<Call> {
    let look = Request::look(0).bytes();
    let mut calls = vec![Call::Title(
        "Refusal 2: outputs of 0 to 53 bytes, before everything that the frame can be.",
    )];
    calls.extend([0, 11, 12, 51, 52, 53].map(|output| Call::frame(WORDS, output, &look)));
    calls.push(Call::frame(WORDS, 51, &[]));
    calls.push(Call::Title("Later bytes of the output keep their contents."));
    for (output, request) in
        [(60, Request::look(4_095)), (60, Request::look(4_096)), (56, Request::step(0))]
    {
        calls.push(Call::Frame { book: WORDS, output, fill: 85, frame: request.bytes() });
    }
    calls
}

/// "3. The frame has fewer than 4 or more than 64 bytes, or its length field isn't the
/// count of bytes after it."
fn other_counts() -> Vec<Call> {
    let (short, long) = ([6], [6, 0, 0, 0]);
    let with = |length: u16, rest: &[u8]| [&length.to_le_bytes(), rest].concat();
    let mut frames = vec![Vec::new(), vec![4], with(0, &[]), with(1, &short), with(2, &short)];
    frames.extend([3, 5, 62].map(|length| with(length, &long)));
    frames.push(with(4, &[6, 0, 0, 0, 0]));
    // A whole frame of 64 bytes is too long for its kind, one of more bytes for any.
    frames.extend([60, 61, 254].map(|zeros| framed(Kind::Look as i64, &vec![0; zeros])));
    let title = "Refusal 3: no frame of a stream has another count of bytes than it says.";
    let asked = frames.iter().map(|frame| Call::frame(WORDS, OUTPUT, frame));
    [Call::Title(title)].into_iter().chain(asked).collect()
}

fn held_words() -> Vec<Call> {
    let mut calls = vec![Call::Title("Words at 2^63 and above are Held, whoever has them.")];
    for value in [(1 << 63) - 1, 1 << 63, NOBODYS, u64::MAX] {
        calls.extend([Call::Word(7, value), Call::look(7)]);
    }
    calls
}

/// The measure of the whole case.
const MEASURE: [i64; 3] = [5_000, 9_000, -150];

fn add(team: i64, p: i64, r: i64) -> Request {
    let [distance, compass, clino] = MEASURE;
    let leg = [(Team, team), (P, p), (R, r), (From, 1), (To, 2)];
    let measure = [(Distance, distance), (Compass, compass), (Clino, clino)];
    Request::new(Kind::Add, &[&leg[..], &measure].concat())
}

/// Leg 7 on top of h, the only leg of passage 25.
fn on_top(team: i64, h: i64) -> Request {
    let mut added = add(team, 25, 7);
    [(H, h), (C, 1)].into_iter().for_each(|(field, value)| added.set(field, value));
    added
}

fn correct(team: i64, old: [i64; 3], new: [i64; 3]) -> Request {
    let leg = [(Team, team), (P, 0), (R, 7), (From, 1), (To, 2)];
    let old = [(Distance, old[0]), (Compass, old[1]), (Clino, old[2])];
    let new = [(NewDistance, new[0]), (NewCompass, new[1]), (NewClino, new[2])];
    Request::new(Kind::Correct, &[&leg[..], &old, &new].concat())
}

fn strike(team: i64, [f, s, c]: [i64; 3], of: [i64; 3]) -> Request {
    let leg = [(Team, team), (P, 0), (F, f), (R, 7), (S, s), (C, c), (From, 1), (To, 2)];
    let measure = [(Distance, of[0]), (Compass, of[1]), (Clino, of[2])];
    Request::new(Kind::Strike, &[&leg[..], &measure].concat())
}

fn to_25(team: i64, p: i64, [s, c, h, d]: [i64; 4]) -> Request {
    let leg = [(Team, team), (P, p), (Q, 25), (F, 0), (R, 7), (S, s), (From, 1), (To, 2)];
    Request::new(Kind::Move, &[&leg[..], &[(C, c), (H, h), (D, d)]].concat())
}

fn opened() -> Vec<Call> {
    vec![
        Call::Title("An edit stores its targets by rising position."),
        Call::Fresh,
        Call::ask(add(0, 25, 7)),
        Call::ask(correct(1, MEASURE, [1, 0, 0])),
        Call::ask(strike(2, [9, 8, 3], MEASURE)),
        Call::ask(to_25(3, 6, [8, 3, 9, 2])),
        Call::Title("The newer words of h, of s and of r among them, where there is such a leg."),
        Call::Fresh,
        Call::ask(on_top(0, 9)),
        Call::ask(on_top(1, 6)),
        Call::ask(strike(2, [9, 0, 2], MEASURE)),
        Call::ask(strike(3, [0, 8, 2], MEASURE)),
        Call::ask(strike(4, [0, 0, 1], MEASURE)),
        Call::ask(strike(5, [9, 6, 3], MEASURE)),
        Call::ask(to_25(6, 6, [0, 1, 0, 0])),
        Call::ask(to_25(7, 6, [8, 2, 0, 0])),
        Call::ask(to_25(8, 6, [0, 1, 9, 2])),
        Call::ask(to_25(9, 6, [6, 2, 5, 1])),
        Call::ask(to_25(10, 6, [LEGS, 2, LEGS - 1, 1])),
        Call::Title("A view does alike, and beside them stand the words in the order named."),
        Call::Fresh,
        Call::ask(Request::view(0, &[4_095, 12, 65, 51, 50, 13])),
    ]
}

/// Leg 7 alone in passage 0, plumb, with the compass 18,000 that older books may have:
/// corrected and struck in vain, then moved to passage 25.
fn plumb_leg() -> Vec<Call> {
    let shaft = Measure { distance: 5_000, compass: 18_000, clino: 9_000 };
    let figures = [shaft.distance, shaft.compass, shaft.clino];
    let written = shaft.written() as u64;
    let mut calls = vec![
        Call::Title("A plumb leg written with another compass: nothing quotes it, but it moves."),
        Call::Fresh,
        Call::Word(newest_word(0), 7),
        Call::Word(count_word(0), 1),
        Call::Word(place_word(7), place(0, 1, 2) as u64),
        Call::Word(measure_word(7), written),
    ];
    let edits = [
        (correct(1, figures, [1, 18_000, 9_000]), 3),
        (strike(1, [0, 0, 1], figures), 9),
        (to_25(1, 0, [0, 1, 0, 0]), 14),
    ];
    for (edit, steps) in edits {
        calls.push(Call::ask(edit));
        calls.extend(vec![Call::step(1); steps]);
    }
    calls
}

/// The leg of the whole case, and words beside it: no passage, passage 32, no distance, a
/// station too far, from equal to to, and the largest. Then plumb up and down with compass 0
/// and 18,000, and 18,000 where the clino is one hundredth less steep.
fn readings() -> Vec<Call> {
    let (at, of) = (8_388_673, 76_022_100_792_200);
    let largest = ((1 << 63) - 1, u64::MAX);
    let others = [(0, 0), (at - 1, of), (at + 32, of), (at, of - 5_000), (1 << 38, of)];
    let mut calls = vec![Call::Title("Reading."), Call::Read(at, of)];
    calls.extend(others.map(|(place, measure)| Call::Read(place, measure)));
    calls.extend([Call::Read(4_194_369, of), Call::Read(largest.0, largest.1)]);
    calls.push(Call::Title("Reading plumb legs."));
    let steep = [(9_000, 0), (9_000, 18_000), (-9_000, 0), (-9_000, 18_000)];
    for (clino, compass) in steep.into_iter().chain([(8_999, 18_000), (-8_999, 18_000)]) {
        let measure = Measure { distance: 5_000, compass, clino };
        calls.push(Call::Read(at, measure.written() as u64));
    }
    calls
}

/// The calls stored.
pub fn stored() -> Vec<Call> {
    let before = [other_books(), outputs(), other_counts(), held_words()].concat();
    let after = [opened(), plumb_leg(), readings()].concat();
    [before, tables::cases(), after].concat()
}

/// The stored calls are these, and what is stored beside them the model's.
pub fn check(stored_input: &[u8], output: &str) -> Result<String, String> {
    let calls = stored();
    if input(&calls) != stored_input {
        return Err("stdin isn't that of the model's calls".to_string());
    }
    same(&answered(&calls, None), output)?;
    let count = |test: fn(&Call) -> bool| calls.iter().filter(|call| test(call)).count();
    let titles = count(|call| matches!(call, Call::Title(_)));
    let frames = count(|call| matches!(call, Call::Frame { .. }));
    let slots = count(|call| matches!(call, Call::Lend(..)));
    let readings = count(|call| matches!(call, Call::Read(..)));
    Ok(format!("lent: {titles} cases, {frames} frames, {slots} slots lent, {readings} readings"))
}
