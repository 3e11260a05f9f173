//! Writes a stream of frames as sixteen teams would send them, the same one for
//! the same number of frames and seed:
//!
//!     stream FRAMES SEED > FILE
//!
//! The teams' lists of legs are kept here, so that an edit quotes what its team
//! would read in the book. What the stream holds is summed up on standard error.

#![forbid(unsafe_code)]

use plain::*;
use std::io::{self, BufWriter, Write};

/// Of a thousand frames, how many are looks, how many are views if a team is free
/// for one, and how many are to be refused.
const LOOKS: u64 = 74;
const VIEWS: u64 = 6;
const REFUSALS: u64 = 5;
/// Of a hundred edits, how many quote a figure wrongly, and how many go to
/// passages that other teams work in.
const WRONG: u64 = 4;
const AWAY: u64 = 6;
/// Of a hundred measures, how many are plumb legs'.
const PLUMB: u64 = 5;
/// Of a hundred adds, how many are in minutes, and so of a hundred corrections of legs
/// whose figures can be said in minutes, in whichever form they were written.
const ADDS_IN_MINUTES: u64 = 10;
const CORRECTIONS_IN_MINUTES: u64 = 25;
/// Of a hundred measures made in minutes, how many are level, and sent as up or down.
const LEVEL: u64 = 2;
/// The clino of a leg straight up; straight down it is the negative.
const STEEPEST: i16 = 9_000;
/// Compasses in range are below this.
const COMPASSES: u16 = 36_000;
/// The book fills up to so many legs, then empties to so few, then fills again.
const MANY: usize = 825;
const FEW: usize = 300;

/// Numbers at random (SplitMix64).
struct Dice(u64);

impl Dice {
    fn roll(&mut self) -> u64 {
        self.0 = self.0.wrapping_add(0x9E37_79B9_7F4A_7C15);
        let mut z = self.0;
        z = (z ^ (z >> 30)).wrapping_mul(0xBF58_476D_1CE4_E5B9);
        z = (z ^ (z >> 27)).wrapping_mul(0x94D0_49BB_1331_11EB);
        z ^ (z >> 31)
    }

    /// A number below `end`.
    fn below(&mut self, end: u64) -> u64 {
        ((self.roll() as u128 * end as u128) >> 64) as u64
    }

    fn percent(&mut self, share: u64) -> bool {
        self.below(100) < share
    }
}

/// An angle as old instruments show it.
struct Angle {
    degrees: u16,
    minutes: u16,
}

impl Angle {
    /// Any below so many degrees.
    fn any_below(degrees: u64, dice: &mut Dice) -> Self {
        Angle {
            degrees: dice.below(degrees) as u16,
            minutes: dice.below(60) as u16,
        }
    }

    /// To the nearest hundredth of a degree.
    fn hundredths(&self) -> u16 {
        let minutes = 60 * self.degrees as u32 + self.minutes as u32;
        ((200 * minutes + 60) / 120) as u16
    }

    /// The angle that is so many hundredths after rounding, if there is one.
    fn rounded_to(hundredths: u16) -> Option<Self> {
        let angle = Angle {
            degrees: hundredths / 100,
            minutes: (6 * (hundredths % 100) + 5) / 10,
        };
        (angle.hundredths() == hundredths).then_some(angle)
    }
}

/// A measure in hundredths, in whichever form it is sent.
#[derive(Clone, Copy, PartialEq)]
struct Measure {
    distance: u32,
    compass: u16,
    clino: i16,
}

impl Measure {
    fn any(dice: &mut Dice) -> Self {
        let distance = 1 + dice.below(100_000) as u32;
        let clino = match dice.below(100) {
            share if share >= PLUMB => dice.below(18_001) as i16 - STEEPEST,
            share if share % 2 == 0 => STEEPEST,
            _ => -STEEPEST,
        };
        Measure {
            distance,
            compass: Self::any_compass(dice),
            clino,
        }
    }

    fn any_compass(dice: &mut Dice) -> u16 {
        dice.below(COMPASSES as u64) as u16
    }

    /// Any that can be said in minutes.
    fn any_in_minutes(dice: &mut Dice) -> Self {
        let distance = 1 + dice.below(100_000) as u32;
        let steep = match dice.below(100) {
            share if share < PLUMB => STEEPEST,
            share if share < PLUMB + LEVEL => 0,
            _ => Angle::any_below(90, dice).hundredths() as i16,
        };
        Measure {
            distance,
            compass: Angle::any_below(360, dice).hundredths(),
            clino: if dice.percent(50) { -steep } else { steep },
        }
    }

    /// A new measure in the form of an edit.
    fn any_in(in_minutes: bool, dice: &mut Dice) -> Self {
        if in_minutes {
            Self::any_in_minutes(dice)
        } else {
            Self::any(dice)
        }
    }

    fn is_plumb(self) -> bool {
        self.clino.abs() == STEEPEST
    }

    /// The measure as the lists keep it: a plumb leg has no compass reading.
    fn taken(self) -> Self {
        let compass = if self.is_plumb() { 0 } else { self.compass };
        Measure { compass, ..self }
    }

    /// The measure as a team quotes it: each writes a compass of its own for a shaft.
    fn quoted(self, dice: &mut Dice) -> Self {
        if !self.is_plumb() {
            return self;
        }
        Measure {
            compass: Self::any_compass(dice),
            ..self
        }
    }

    /// The same in minutes, if the figures can be said so.
    fn quoted_in_minutes(self, dice: &mut Dice) -> Option<Self> {
        if self.is_plumb() {
            let compass = Angle::any_below(360, dice).hundredths();
            return Some(Measure { compass, ..self });
        }
        Angle::rounded_to(self.compass)?;
        Angle::rounded_to(self.clino.unsigned_abs())?;
        Some(self)
    }
}

#[derive(Clone, Copy)]
struct Leg {
    number: u16,
    from: u16,
    to: u16,
    measure: Measure,
}

/// An edit, with what is quoted.
#[derive(Clone, Copy)]
enum Edit {
    Add {
        p: u16,
        h: u16,
        c: u16,
        leg: Leg,
        in_minutes: bool,
    },
    Correct {
        p: u16,
        leg: Leg,
        new: Measure,
        in_minutes: bool,
    },
    Strike {
        p: u16,
        f: u16,
        s: u16,
        c: u16,
        leg: Leg,
    },
    Move {
        p: u16,
        q: u16,
        f: u16,
        s: u16,
        c: u16,
        h: u16,
        d: u16,
        leg: Leg,
    },
}

impl Edit {
    /// Whether a measure in it is a plumb leg's.
    fn has_plumb_measure(&self) -> bool {
        match self {
            Edit::Add { leg, .. } | Edit::Strike { leg, .. } => leg.measure.is_plumb(),
            Edit::Correct { leg, new, .. } => leg.measure.is_plumb() || new.is_plumb(),
            Edit::Move { .. } => false,
        }
    }

    /// Whether it is sent in minutes, for edits that can be.
    fn in_minutes(&self) -> Option<bool> {
        match *self {
            Edit::Add { in_minutes, .. } | Edit::Correct { in_minutes, .. } => Some(in_minutes),
            Edit::Strike { .. } | Edit::Move { .. } => None,
        }
    }
}

/// The passages' lists, newest leg last. A plumb leg's compass is 0 in them.
#[derive(Clone)]
struct Lists(Vec<Vec<Leg>>);

impl Lists {
    fn of(&self, p: u16) -> &Vec<Leg> {
        &self.0[p as usize]
    }

    fn legs(&self) -> usize {
        self.0.iter().map(Vec::len).sum()
    }

    fn newest(&self, p: u16) -> u16 {
        self.of(p).last().map_or(0, |leg| leg.number)
    }

    fn count(&self, p: u16) -> u16 {
        self.of(p).len() as u16
    }

    /// The next newer and the next older leg.
    fn beside(&self, p: u16, at: usize) -> (u16, u16) {
        let number = |at: usize| self.of(p).get(at).map_or(0, |leg| leg.number);
        (number(at + 1), if at == 0 { 0 } else { number(at - 1) })
    }

    fn find(&self, p: u16, number: u16) -> Option<usize> {
        self.of(p).iter().position(|leg| leg.number == number)
    }

    fn has(&self, number: u16) -> bool {
        (0..PASSAGES).any(|p| self.find(p, number).is_some())
    }

    /// Where a leg is, if it is there with the figures quoted.
    fn quoted(&self, p: u16, leg: &Leg, with_measure: bool) -> Option<usize> {
        let at = self.find(p, leg.number)?;
        let there = &self.of(p)[at];
        let same = there.from == leg.from
            && there.to == leg.to
            && (!with_measure || there.measure == leg.measure.taken());
        same.then_some(at)
    }

    /// Makes the edit if it succeeds, and says whether it did.
    fn perform(&mut self, edit: &Edit) -> bool {
        match *edit {
            Edit::Add { p, h, c, leg, .. } => {
                if self.newest(p) != h || self.count(p) != c || self.has(leg.number) {
                    return false;
                }
                let measure = leg.measure.taken();
                self.0[p as usize].push(Leg { measure, ..leg });
            }
            Edit::Correct { p, leg, new, .. } => {
                let Some(at) = self.quoted(p, &leg, true) else {
                    return false;
                };
                self.0[p as usize][at].measure = new.taken();
            }
            Edit::Strike { p, f, s, c, leg } => {
                let Some(at) = self.quoted(p, &leg, true) else {
                    return false;
                };
                if self.count(p) != c || self.beside(p, at) != (f, s) {
                    return false;
                }
                self.0[p as usize].remove(at);
            }
            Edit::Move {
                p,
                q,
                f,
                s,
                c,
                h,
                d,
                leg,
            } => {
                let Some(at) = self.quoted(p, &leg, false) else {
                    return false;
                };
                if self.count(p) != c || self.beside(p, at) != (f, s) {
                    return false;
                }
                if self.newest(q) != h || self.count(q) != d {
                    return false;
                }
                let leg = self.0[p as usize].remove(at);
                self.0[q as usize].push(leg);
            }
        }
        true
    }
}

/// A frame being written: its bytes after the length.
struct Writer {
    bytes: Frame,
    end: usize,
}

impl Writer {
    fn new(kind: u16, team: u16) -> Self {
        let mut writer = Writer {
            bytes: [0; LONGEST_FRAME],
            end: 2,
        };
        writer.field(kind);
        writer.field(team);
        writer
    }

    fn field(&mut self, value: u16) {
        self.bytes[self.end..self.end + 2].copy_from_slice(&value.to_le_bytes());
        self.end += 2;
    }

    fn fields(&mut self, values: &[u16]) {
        values.iter().for_each(|&value| self.field(value));
    }

    fn measure(&mut self, measure: Measure, in_minutes: bool) {
        self.field(measure.distance as u16);
        self.field((measure.distance >> 16) as u16);
        if in_minutes {
            return self.angles_in_minutes(measure);
        }
        self.field(measure.compass);
        self.field(measure.clino as u16);
    }

    /// A level leg goes up or down, by the last bit of its distance.
    fn angles_in_minutes(&mut self, measure: Measure) {
        let angle = |hundredths| Angle::rounded_to(hundredths).expect("chosen to be sayable");
        let compass = angle(measure.compass);
        let clino = angle(measure.clino.unsigned_abs());
        let down = measure.clino < 0 || measure.clino == 0 && measure.distance % 2 == 1;
        self.fields(&[compass.degrees, compass.minutes, down as u16]);
        self.fields(&[clino.degrees, clino.minutes]);
    }

    fn whole(mut self) -> (Frame, usize) {
        let length = (self.end - 2) as u16;
        self.bytes[..2].copy_from_slice(&length.to_le_bytes());
        (self.bytes, self.end)
    }
}

fn edit_frame(team: u16, edit: &Edit) -> (Frame, usize) {
    let writer = match *edit {
        Edit::Add {
            p,
            h,
            c,
            leg,
            in_minutes,
        } => {
            let kind = if in_minutes { ADD_IN_MINUTES } else { ADD };
            let mut writer = Writer::new(kind, team);
            writer.fields(&[p, leg.number, h, c, leg.from, leg.to]);
            writer.measure(leg.measure, in_minutes);
            writer
        }
        Edit::Correct {
            p,
            leg,
            new,
            in_minutes,
        } => {
            let kind = if in_minutes {
                CORRECT_IN_MINUTES
            } else {
                CORRECT
            };
            let mut writer = Writer::new(kind, team);
            writer.fields(&[p, leg.number, leg.from, leg.to]);
            writer.measure(leg.measure, in_minutes);
            writer.measure(new, in_minutes);
            writer
        }
        Edit::Strike { p, f, s, c, leg } => {
            let mut writer = Writer::new(STRIKE, team);
            writer.fields(&[p, f, leg.number, s, c, leg.from, leg.to]);
            writer.measure(leg.measure, false);
            writer
        }
        Edit::Move {
            p,
            q,
            f,
            s,
            c,
            h,
            d,
            leg,
        } => {
            let mut writer = Writer::new(MOVE, team);
            writer.fields(&[p, q, f, leg.number, s, c, h, d, leg.from, leg.to]);
            writer
        }
    };
    writer.whole()
}

struct Teams {
    dice: Dice,
    lists: Lists,
    /// The edit of each team's ticket.
    open: [Option<Edit>; TEAMS],
    /// Whether it was found stale, and is being given back.
    found: [bool; TEAMS],
    /// Whether the ticket is a view.
    viewing: [bool; TEAMS],
    filling: bool,
    /// How many edits were sent, how many of them with a plumb leg's measure, how many
    /// were adds or corrections, and how many of those in minutes.
    edits: u64,
    plumb_edits: u64,
    adds_and_corrections: u64,
    edits_in_minutes: u64,
}

impl Teams {
    fn has_ticket(&self, team: u16) -> bool {
        self.open[team as usize].is_some() || self.viewing[team as usize]
    }

    /// A passage: one of the team's own two, or now and then any.
    fn passage(&mut self, team: u16) -> u16 {
        if self.dice.percent(AWAY) {
            self.dice.below(PASSAGES as u64) as u16
        } else {
            2 * team + self.dice.below(2) as u16
        }
    }

    /// A new leg under a number that no list and no open edit has.
    fn new_leg(&mut self, in_minutes: bool) -> Leg {
        let number = loop {
            let number = 1 + self.dice.below(LAST_LEG as u64) as u16;
            let asked = |edit: &Option<Edit>| matches!(edit, Some(Edit::Add { leg, .. }) if leg.number == number);
            if !self.lists.has(number) && !self.open.iter().any(asked) {
                break number;
            }
        };
        let from = self.dice.below(65_536) as u16;
        let to = from.wrapping_add(1 + self.dice.below(65_535) as u16);
        Leg {
            number,
            from,
            to,
            measure: Measure::any_in(in_minutes, &mut self.dice),
        }
    }

    /// An edit as the book is now; wrong in one figure now and then.
    fn edit(&mut self, team: u16) -> Edit {
        let legs = self.lists.legs();
        if legs > MANY {
            self.filling = false;
        } else if legs < FEW {
            self.filling = true;
        }
        let p = self.passage(team);
        let count = self.lists.count(p);
        let off = self.dice.percent(WRONG) as u16;
        let adds = if self.filling { 45 } else { 20 };
        let choice = self.dice.below(100);
        if choice < adds || count == 0 {
            let in_minutes = self.dice.percent(ADDS_IN_MINUTES);
            let leg = self.new_leg(in_minutes);
            return Edit::Add {
                p,
                h: self.lists.newest(p),
                c: count + off,
                leg,
                in_minutes,
            };
        }
        // Work is mostly at the newer end.
        let depth = self
            .dice
            .below(count as u64)
            .min(self.dice.below(count as u64)) as usize;
        let at = count as usize - 1 - depth;
        let mut leg = self.lists.of(p)[at];
        let said = leg.measure.quoted_in_minutes(&mut self.dice);
        leg.measure = leg.measure.quoted(&mut self.dice);
        let (f, s) = self.lists.beside(p, at);
        if choice < 65 {
            let c = count + off;
            return Edit::Strike { p, f, s, c, leg };
        }
        if choice < 82 {
            let said = said.filter(|_| self.dice.percent(CORRECTIONS_IN_MINUTES));
            let in_minutes = said.is_some();
            leg.measure = said.unwrap_or(leg.measure);
            if off == 1 {
                leg.measure.distance = leg.measure.distance % 100_000 + 1;
            }
            return Edit::Correct {
                p,
                leg,
                new: Measure::any_in(in_minutes, &mut self.dice),
                in_minutes,
            };
        }
        let q = loop {
            let q = self.passage(team);
            if q != p {
                break q;
            }
        };
        let (h, d) = (self.lists.newest(q), self.lists.count(q) + off);
        Edit::Move {
            p,
            q,
            f,
            s,
            c: count,
            h,
            d,
            leg,
        }
    }

    /// A frame that is refused, for each reason that a stream can give.
    fn refusal(&mut self) -> (Frame, usize) {
        let team = self.dice.below(TEAMS as u64) as u16;
        let has_ticket = self.has_ticket(team);
        let in_minutes = self.dice.percent(ADDS_IN_MINUTES);
        let leg = self.new_leg(in_minutes);
        let add = |p, h, leg| Edit::Add {
            p,
            h,
            c: 0,
            leg,
            in_minutes,
        };
        match self.dice.below(11) {
            0 => {
                // A whole frame of two or three bytes.
                let mut bytes = [0; LONGEST_FRAME];
                bytes[0] = self.dice.below(2) as u8;
                (bytes, 2 + bytes[0] as usize)
            }
            // Between the kinds in hundredths and those in minutes there are none.
            1 => Writer::new(8 + self.dice.below(9) as u16, team).whole(),
            2 => {
                let mut writer = Writer::new(STEP, team);
                writer.field(0);
                writer.whole()
            }
            3 => Writer::new(STEP, 16 + team).whole(),
            4 => Writer::new(LOOK, 4_096 + team).whole(),
            5 => {
                let mut writer = Writer::new(ADD_IN_MINUTES, team);
                writer.fields(&[0; 10]);
                writer.whole()
            }
            // An edit over a ticket, or a step without one.
            _ if has_ticket => edit_frame(team, &add(0, 0, leg)),
            6 => Writer::new(STEP, team).whole(),
            7 => edit_frame(team, &add(32, 0, leg)),
            8 => edit_frame(team, &add(0, leg.number, leg)),
            9 => self.angle_out_of_range(team, leg),
            // The compass of a plumb leg is to be in range, though it isn't kept.
            _ => {
                let measure = Measure {
                    compass: COMPASSES,
                    clino: STEEPEST,
                    ..leg.measure
                };
                edit_frame(team, &add(0, 0, Leg { measure, ..leg }))
            }
        }
    }

    /// An add in minutes with one field of an angle out of range: sixty minutes, a sign
    /// that is neither up nor down, or a minute over 90 degrees.
    fn angle_out_of_range(&mut self, team: u16, leg: Leg) -> (Frame, usize) {
        let mut angles = [
            self.dice.below(360) as u16,
            self.dice.below(60) as u16,
            self.dice.below(2) as u16,
            self.dice.below(90) as u16,
            self.dice.below(60) as u16,
        ];
        match self.dice.below(4) {
            0 => angles[1] = 60,
            1 => angles[2] = 2,
            2 => angles[3..].copy_from_slice(&[90, 1]),
            _ => angles[4] = 60,
        }
        let mut writer = Writer::new(ADD_IN_MINUTES, team);
        writer.fields(&[0, leg.number, 0, 0, leg.from, leg.to]);
        writer.fields(&[
            leg.measure.distance as u16,
            (leg.measure.distance >> 16) as u16,
        ]);
        writer.fields(&angles);
        writer.whole()
    }

    fn frame(&mut self) -> (Frame, usize) {
        let choice = self.dice.below(1_000);
        if choice < REFUSALS {
            return self.refusal();
        }
        if choice < REFUSALS + VIEWS {
            return self.view();
        }
        if choice < REFUSALS + VIEWS + LOOKS {
            return self.look();
        }
        let team = self.dice.below(TEAMS as u64) as u16;
        if self.has_ticket(team) {
            return Writer::new(STEP, team).whole();
        }
        let edit = self.edit(team);
        self.open[team as usize] = Some(edit);
        self.edits += 1;
        self.plumb_edits += edit.has_plumb_measure() as u64;
        self.adds_and_corrections += edit.in_minutes().is_some() as u64;
        self.edits_in_minutes += (edit.in_minutes() == Some(true)) as u64;
        edit_frame(team, &edit)
    }

    /// A look. Half of them go to passages.
    fn look(&mut self) -> (Frame, usize) {
        let end = if self.dice.percent(50) {
            64
        } else {
            WORDS as u64
        };
        Writer::new(LOOK, self.dice.below(end) as u16).whole()
    }

    /// A view of a leg, or of one to six words of it and its passage.
    /// A look if no team is free.
    fn view(&mut self) -> (Frame, usize) {
        let first = self.dice.below(TEAMS as u64) as u16;
        let mut turn = (0..TEAMS as u16).map(|k| (first + k) % TEAMS as u16);
        let Some(team) = turn.find(|&team| !self.has_ticket(team)) else {
            return self.look();
        };
        let p = self.passage(team);
        let link = 60 + 4 * self.lists.newest(p).max(1);
        let words = [link + 2, link + 1, link, 2 * p, 2 * p + 1, link + 3];
        let any = 1 + self.dice.below(words.len() as u64) as usize;
        let n = if self.dice.percent(50) { 3 } else { any };
        self.viewing[team as usize] = true;
        let mut writer = Writer::new(VIEW, team);
        writer.field(n as u16);
        writer.fields(&words[..n]);
        writer.whole()
    }

    /// Takes in an answer to a step, and checks it against the lists.
    fn heard(&mut self, team: usize, answer: Answer) {
        if answer.kind() == SEEN {
            self.viewing[team] = false;
        }
        let Some(edit) = self.open[team] else { return };
        let targets = match edit {
            Edit::Add { h, .. } => 5 + (h != 0) as u16,
            Edit::Correct { .. } => 2,
            Edit::Strike { s, .. } => 6 + (s != 0) as u16,
            Edit::Move { s, h, .. } => 7 + (s != 0) as u16 + (h != 0) as u16,
        };
        match answer.kind() {
            CLAIMED if answer.field() == targets => {
                assert!(
                    self.lists.perform(&edit),
                    "granted, and the lists say stale"
                );
            }
            FOUND => {
                self.refuted(&edit);
                self.found[team] = true;
            }
            GRANTED => self.open[team] = None,
            STALE => {
                if !self.found[team] {
                    self.refuted(&edit);
                }
                self.found[team] = false;
                self.open[team] = None;
            }
            _ => {}
        }
    }

    fn refuted(&self, edit: &Edit) {
        assert!(
            !self.lists.clone().perform(edit),
            "stale, and the lists say granted"
        );
    }
}

fn main() -> io::Result<()> {
    let mut arguments = std::env::args()
        .skip(1)
        .map(|argument| argument.parse::<u64>());
    let (Some(Ok(frames)), Some(Ok(seed)), None) =
        (arguments.next(), arguments.next(), arguments.next())
    else {
        eprintln!("usage: stream FRAMES SEED > FILE");
        std::process::exit(2);
    };
    let mut out = BufWriter::with_capacity(1 << 20, io::stdout().lock());
    let mut book = Book::fresh();
    let mut teams = Teams {
        dice: Dice(seed),
        lists: Lists(vec![Vec::new(); PASSAGES as usize]),
        open: [None; TEAMS],
        found: [false; TEAMS],
        viewing: [false; TEAMS],
        filling: true,
        edits: 0,
        plumb_edits: 0,
        adds_and_corrections: 0,
        edits_in_minutes: 0,
    };
    let mut kinds = [0u64; 256];
    for _ in 0..frames {
        let (frame, bytes) = teams.frame();
        out.write_all(&frame[..bytes])?;
        let answer = book.answer(&Ranks::FIXED, &frame);
        kinds[answer.kind() as usize] += 1;
        let kind = u16::from_le_bytes([frame[2], frame[3]]);
        if kind == STEP && answer.kind() != REFUSED {
            teams.heard(frame[4] as usize, answer);
        }
    }
    out.flush()?;
    let names = [
        (STANDING, "Standing"),
        (CLAIMED, "Claimed"),
        (WAITING, "Waiting"),
        (FOUND, "Found"),
        (PUT, "Put"),
        (RETURNED, "Returned"),
        (GRANTED, "Granted"),
        (STALE, "Stale"),
        (VALUE, "Value"),
        (HELD, "Held"),
        (SEEN, "Seen"),
        (REFUSED, "Refused"),
    ];
    let counts = names.map(|(kind, name)| format!("{name} {}", kinds[kind as usize]));
    eprintln!(
        "{frames} frames, seed {seed}; edits: {}, with a plumb measure {}; adds and corrections: {}, in minutes {}; answers: {}",
        teams.edits,
        teams.plumb_edits,
        teams.adds_and_corrections,
        teams.edits_in_minutes,
        counts.join(", ")
    );
    Ok(())
}
