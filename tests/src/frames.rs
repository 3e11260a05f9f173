//! "Frames": what a frame asks, what an answer says, and their bytes.

use crate::layout::{Measure, LEGS, NOBODY, WORDS};
use std::fmt;

/// The named fields of all frames. `Distance`, `Compass`, `Clino` are M (of
/// Correct: the old M), the `New` ones are Correct's new M. `N` and the words
/// after it are a view's. Degrees, minutes and signs are those of M in minutes.
#[rustfmt::skip]
#[derive(Clone, Copy, Debug, PartialEq, Eq)]
pub enum Field {
    Team, P, Q, F, R, S, H, C, D, From, To,
    Distance, Compass, Clino, NewDistance, NewCompass, NewClino, Looked,
    N, Word1, Word2, Word3, Word4, Word5, Word6,
    CompassDegrees, CompassMinutes, Sign, ClinoDegrees, ClinoMinutes,
    NewCompassDegrees, NewCompassMinutes, NewSign, NewClinoDegrees, NewClinoMinutes,
}
use Field::*;

const FIELDS: usize = 35;

/// "compass and clino are a degree and a minute field each, the clino with a sign
/// field (0 up, 1 down) before them"
pub const ANGLES: [Field; 5] = [CompassDegrees, CompassMinutes, Sign, ClinoDegrees, ClinoMinutes];
#[rustfmt::skip]
pub const NEW_ANGLES: [Field; 5] =
    [NewCompassDegrees, NewCompassMinutes, NewSign, NewClinoDegrees, NewClinoMinutes];

/// The words that a view names, in the order named.
pub const NAMED: [Field; 6] = [Word1, Word2, Word3, Word4, Word5, Word6];

impl Field {
    /// "16 bits unless said (distance 32, clino signed)".
    pub fn width(self) -> usize {
        if matches!(self, Distance | NewDistance) {
            4
        } else {
            2
        }
    }

    fn signed(self) -> bool {
        matches!(self, Clino | NewClino)
    }

    /// Whether a frame's field can carry this number at all.
    pub fn carries(self, value: i64) -> bool {
        let bits = 8 * self.width() as u32;
        let least = if self.signed() { -(1 << (bits - 1)) } else { 0 };
        (least..least + (1 << bits)).contains(&value)
    }

    fn read(self, bytes: &[u8]) -> i64 {
        let unsigned = little(bytes);
        if self.signed() {
            i64::from(unsigned as u16 as i16)
        } else {
            unsigned
        }
    }
}

/// "all fields are little-endian".
fn little(bytes: &[u8]) -> i64 {
    bytes.iter().rev().fold(0, |sum, byte| 256 * sum + i64::from(*byte))
}

#[derive(Clone, Copy, Debug, PartialEq, Eq)]
pub enum Kind {
    Add = 1,
    Correct = 2,
    Strike = 3,
    Move = 4,
    Step = 5,
    Look = 6,
    View = 7,
    AddInMinutes = 17,
    CorrectInMinutes = 18,
}

impl Kind {
    #[rustfmt::skip]
    const ALL: [Kind; 9] = [
        Kind::Add, Kind::Correct, Kind::Strike, Kind::Move, Kind::Step, Kind::Look, Kind::View,
        Kind::AddInMinutes, Kind::CorrectInMinutes,
    ];

    pub const IN_MINUTES: [Kind; 2] = [Kind::AddInMinutes, Kind::CorrectInMinutes];

    fn of(number: i64) -> Option<Kind> {
        Kind::ALL.into_iter().find(|kind| *kind as i64 == number)
    }

    /// The fields of the kind, in their longest form.
    fn form(self) -> &'static [Field] {
        match self {
            // "1 Add (length 24): team p r h c from to M."
            Kind::Add => &[Team, P, R, H, C, From, To, Distance, Compass, Clino],
            // "2 Correct (28): team p r from to, old M, new M."
            Kind::Correct => {
                &[Team, P, R, From, To, Distance, Compass, Clino, NewDistance, NewCompass, NewClino]
            }
            // "3 Strike (26): team p f r s c from to M."
            Kind::Strike => &[Team, P, F, R, S, C, From, To, Distance, Compass, Clino],
            // "4 Move (24): team p q f r s c h d from to."
            Kind::Move => &[Team, P, Q, F, R, S, C, H, D, From, To],
            // "5 Step (4): team. 6 Look (4): word."
            Kind::Step => &[Team],
            Kind::Look => &[Looked],
            // "kind 7, names a team, a count n of 1 to 6 and n distinct words"
            Kind::View => &[Team, N, Word1, Word2, Word3, Word4, Word5, Word6],
            // "Add and Correct get second kinds, 17 (length 30) and 18 (40)"
            #[rustfmt::skip]
            Kind::AddInMinutes => &[
                Team, P, R, H, C, From, To,
                Distance, CompassDegrees, CompassMinutes, Sign, ClinoDegrees, ClinoMinutes,
            ],
            #[rustfmt::skip]
            Kind::CorrectInMinutes => &[
                Team, P, R, From, To,
                Distance, CompassDegrees, CompassMinutes, Sign, ClinoDegrees, ClinoMinutes,
                NewDistance, NewCompassDegrees, NewCompassMinutes, NewSign, NewClinoDegrees,
                NewClinoMinutes,
            ],
        }
    }

    /// Whether the length is that of the kind: its fields and the kind itself.
    fn has_length(self, length: usize) -> bool {
        match self {
            // "Its length is even, 8 to 18"
            Kind::View => length % 2 == 0 && (8..=18).contains(&length),
            _ => length == 2 + self.form().iter().map(|field| field.width()).sum::<usize>(),
        }
    }

    /// Edits and views.
    pub fn opens_a_ticket(self) -> bool {
        !matches!(self, Kind::Step | Kind::Look)
    }

    /// The kind whose angles are hundredths, of one whose angles are minutes.
    pub fn in_hundredths(self) -> Option<Kind> {
        match self {
            Kind::AddInMinutes => Some(Kind::Add),
            Kind::CorrectInMinutes => Some(Kind::Correct),
            _ => None,
        }
    }
}

/// "The angle is rounded to the nearest hundredth of a degree": from the degrees on,
/// as long as the next hundredth is nearer. In a sixtieth of a hundredth, a hundredth
/// is 60 and a minute 100.
pub fn nearest_hundredth(degrees: i64, minutes: i64) -> i64 {
    let off = |hundredth: i64| (60 * hundredth - 100 * (60 * degrees + minutes)).abs();
    let mut hundredth = 100 * degrees;
    while off(hundredth + 1) < off(hundredth) {
        hundredth += 1;
    }
    hundredth
}

/// A frame of a known kind and of the right length, its fields read.
#[derive(Clone, Copy, Debug, PartialEq, Eq)]
pub struct Request {
    pub kind: Kind,
    /// How many words the frame has room to name, whatever its n says.
    names: usize,
    values: [i64; FIELDS],
}

impl Request {
    pub fn new(kind: Kind, values: &[(Field, i64)]) -> Request {
        let mut request = Request { kind, names: 0, values: [0; FIELDS] };
        for (field, value) in values {
            request.set(*field, *value);
        }
        request
    }

    pub fn step(team: i64) -> Request {
        Request::new(Kind::Step, &[(Team, team)])
    }

    pub fn look(word: i64) -> Request {
        Request::new(Kind::Look, &[(Looked, word)])
    }

    /// A view of one to six words.
    pub fn view(team: i64, words: &[i64]) -> Request {
        let mut view = Request::new(Kind::View, &[(Team, team), (N, words.len() as i64)]);
        view.names = words.len();
        NAMED.iter().zip(words).for_each(|(field, word)| view.set(*field, *word));
        view
    }

    /// The fields that the frame has.
    pub fn form(&self) -> &'static [Field] {
        let form = self.kind.form();
        match self.kind {
            Kind::View => &form[..2 + self.names],
            _ => form,
        }
    }

    /// The words that a view names, in the order named.
    pub fn named(&self) -> Vec<i64> {
        NAMED[..self.names].iter().map(|field| self.get(*field)).collect()
    }

    pub fn get(&self, field: Field) -> i64 {
        self.values[field as usize]
    }

    pub fn set(&mut self, field: Field, value: i64) {
        self.values[field as usize] = value;
    }

    pub fn team(&self) -> i64 {
        self.get(Team)
    }

    pub fn measure(&self) -> Measure {
        let [distance, compass, clino] = [Distance, Compass, Clino].map(|field| self.get(field));
        Measure { distance, compass, clino }
    }

    pub fn new_measure(&self) -> Measure {
        let [distance, compass, clino] =
            [NewDistance, NewCompass, NewClino].map(|field| self.get(field));
        Measure { distance, compass, clino }
    }

    /// "The edit then behaves as one in hundredths": that one. Other requests are
    /// themselves.
    pub fn in_hundredths(&self) -> Request {
        self.rounded_by(nearest_hundredth)
    }

    /// The edit in hundredths by some rule for degrees and minutes. "Up and down zero
    /// mean the same."
    pub fn rounded_by(&self, rule: fn(i64, i64) -> i64) -> Request {
        let Some(kind) = self.kind.in_hundredths() else { return *self };
        let mut edit = Request { kind, ..*self };
        for (angles, compass, clino) in
            [(ANGLES, Compass, Clino), (NEW_ANGLES, NewCompass, NewClino)]
        {
            let [degrees, minutes, sign, up, up_minutes] = angles.map(|field| self.get(field));
            edit.set(compass, rule(degrees, minutes));
            edit.set(clino, rule(up, up_minutes) * if sign == 0 { 1 } else { -1 });
        }
        edit
    }

    /// Least and greatest of a field, as refusals 6 and 10 have them.
    pub fn limits(&self, field: Field) -> (i64, i64) {
        match field {
            Team => (0, 15),
            P | Q => (0, 31),
            R => (1, LEGS),
            // "f, s, h 0 to 1,344", and now 1,008: "Leg, link and count ranges shrink to match".
            F | S | H => (0, LEGS),
            // "c in Add and d 0 to 1,343; other c 1 to 1,344", shrunk alike.
            C if matches!(self.kind, Kind::Add | Kind::AddInMinutes) => (0, LEGS - 1),
            C => (1, LEGS),
            D => (0, LEGS - 1),
            From | To => (0, 65_535),
            Distance | NewDistance => (1, 100_000),
            Compass | NewCompass => (0, 35_999),
            Clino | NewClino => (-9_000, 9_000),
            // "looked-at word 0 to 4,095"
            Looked => (0, WORDS - 1),
            // "an n other than (length - 6) / 2 or a word above 4,095 counts under 10"
            N => (self.names as i64, self.names as i64),
            Word1 | Word2 | Word3 | Word4 | Word5 | Word6 => (0, WORDS - 1),
            // "Minutes are 0 to 59, degrees up to 359 and 90; over 90 degrees 0
            // minutes, or another sign, is out of range, under 10."
            CompassDegrees | NewCompassDegrees => (0, 359),
            ClinoDegrees | NewClinoDegrees => (0, 90),
            ClinoMinutes if self.get(ClinoDegrees) == 90 => (0, 0),
            NewClinoMinutes if self.get(NewClinoDegrees) == 90 => (0, 0),
            CompassMinutes | ClinoMinutes | NewCompassMinutes | NewClinoMinutes => (0, 59),
            Sign | NewSign => (0, 1),
        }
    }

    /// The fields that are out of range.
    pub fn beyond(&self) -> Vec<Field> {
        let beyond = |field: &Field| {
            let (least, greatest) = self.limits(*field);
            !(least..=greatest).contains(&self.get(*field))
        };
        self.form().iter().copied().filter(beyond).collect()
    }

    /// "10. A field is out of range".
    pub fn out_of_range(&self) -> bool {
        !self.beyond().is_empty()
    }

    /// "11. from equals to, q equals p, or a leg number other than 0 is named
    /// twice." Of a view: "equal words under 11".
    pub fn muddled(&self) -> bool {
        let form = self.form();
        let same = |a: Field, b: Field| {
            form.contains(&a) && form.contains(&b) && self.get(a) == self.get(b)
        };
        let legs: Vec<i64> = form
            .iter()
            .filter(|field| matches!(field, F | R | S | H))
            .map(|field| self.get(*field))
            .filter(|leg| *leg != 0)
            .collect();
        same(From, To) || same(Q, P) || any_twice(&legs) || any_twice(&self.named())
    }

    /// The frame's bytes; fields that the frame can't carry are cut off.
    pub fn bytes(&self) -> Vec<u8> {
        let body = self.form().iter().flat_map(|field| {
            self.get(*field).to_le_bytes().into_iter().take(field.width()).collect::<Vec<u8>>()
        });
        framed(self.kind as i64, &body.collect::<Vec<u8>>())
    }
}

pub fn any_twice<T: PartialEq>(list: &[T]) -> bool {
    (1..list.len()).any(|i| list[..i].contains(&list[i]))
}

/// "Each starts with a 16-bit length of what follows it, then a 16-bit kind".
pub fn framed(kind: i64, body: &[u8]) -> Vec<u8> {
    let mut bytes = (2 + body.len() as u16).to_le_bytes().to_vec();
    bytes.extend((kind as u16).to_le_bytes());
    bytes.extend(body);
    bytes
}

/// A frame's kind and fields, or the refusal (3, 4 or 5) that comes first.
pub fn parse(frame: &[u8]) -> Result<Request, i64> {
    // "3. The frame has fewer than 4 or more than 64 bytes, or its length field
    // isn't the count of bytes after it."
    if frame.len() < 4 || frame.len() > 64 || little(&frame[..2]) != frame.len() as i64 - 2 {
        return Err(3);
    }
    // "4. The kind isn't 1 to 6", and now 7, 17 and 18.
    let kind = Kind::of(little(&frame[2..4])).ok_or(4)?;
    // "5. The length isn't that of the kind."
    if !kind.has_length(frame.len() - 2) {
        return Err(5);
    }
    let mut request = Request::new(kind, &[]);
    if kind == Kind::View {
        request.names = (frame.len() - 2 - 6) / 2;
    }
    let mut rest = &frame[4..];
    for field in request.form() {
        let (bytes, after) = rest.split_at(field.width());
        request.set(*field, field.read(bytes));
        rest = after;
    }
    Ok(request)
}

/// What comes next in a stream of frames or answers.
#[derive(Debug, PartialEq, Eq)]
pub enum Next<'a> {
    Nothing,
    /// Fewer bytes than the length field asks, or half a length field.
    Torn,
    /// "a length field above 62"
    TooLong,
    Whole(&'a [u8]),
}

pub fn next(rest: &[u8]) -> Next<'_> {
    match rest {
        [] => Next::Nothing,
        [_] => Next::Torn,
        _ if little(&rest[..2]) > 62 => Next::TooLong,
        _ => rest.get(..2 + little(&rest[..2]) as usize).map_or(Next::Torn, Next::Whole),
    }
}

/// All frames of a stream; what is torn or too long comes last, as one piece.
pub fn split(stream: &[u8]) -> Vec<&[u8]> {
    let mut pieces = Vec::new();
    let mut rest = stream;
    loop {
        match next(rest) {
            Next::Nothing => return pieces,
            Next::Torn | Next::TooLong => {
                pieces.push(rest);
                return pieces;
            }
            Next::Whole(frame) => {
                pieces.push(frame);
                rest = &rest[frame.len()..];
            }
        }
    }
}

#[derive(Clone, Debug, PartialEq, Eq)]
pub enum Answer {
    Standing(i64),
    Claimed(i64),
    /// "Waiting becomes length 6 with word and team": the team that holds the word.
    Waiting(i64, i64),
    Found(i64),
    Put(i64),
    Returned(i64),
    Granted(i64),
    Stale(i64, i64),
    Value(u64),
    Held,
    Refused(i64),
    /// "kind 139 with the values in the order named"
    Seen(Vec<u64>),
}

impl Answer {
    /// "Answers: 128 Standing, n. 129 Claimed, how many. ..."
    pub fn number(&self) -> i64 {
        match self {
            Answer::Standing(_) => 128,
            Answer::Claimed(_) => 129,
            Answer::Waiting(..) => 130,
            Answer::Found(_) => 131,
            Answer::Put(_) => 132,
            Answer::Returned(_) => 133,
            Answer::Granted(_) => 134,
            Answer::Stale(..) => 135,
            Answer::Value(_) => 136,
            Answer::Held => 137,
            Answer::Refused(_) => 138,
            Answer::Seen(_) => 139,
        }
    }

    pub fn bytes(&self) -> Vec<u8> {
        let short = |number: &i64| (*number as u16).to_le_bytes().to_vec();
        let tries = |number: &i64| (*number as u32).to_le_bytes().to_vec();
        let body = match self {
            Answer::Waiting(word, team) => [short(word), short(team)].concat(),
            Answer::Granted(count) => tries(count),
            Answer::Stale(word, count) => [short(word), tries(count)].concat(),
            Answer::Value(bits) => bits.to_le_bytes().to_vec(),
            Answer::Seen(values) => values.iter().flat_map(|bits| bits.to_le_bytes()).collect(),
            Answer::Held => Vec::new(),
            Answer::Standing(x) | Answer::Claimed(x) | Answer::Found(x) => short(x),
            Answer::Put(x) | Answer::Returned(x) | Answer::Refused(x) => short(x),
        };
        framed(self.number(), &body)
    }

    /// The answer that these bytes are, if they are one.
    pub fn of_bytes(bytes: &[u8]) -> Option<Answer> {
        let number = little(bytes.get(2..4)?);
        let body = &bytes[4..];
        let first = little(&body[..body.len().min(2)]);
        let answer = match number {
            128 => Answer::Standing(first),
            129 => Answer::Claimed(first),
            130 => Answer::Waiting(first, little(body.get(2..4)?)),
            131 => Answer::Found(first),
            132 => Answer::Put(first),
            133 => Answer::Returned(first),
            134 => Answer::Granted(little(body.get(..4)?)),
            135 => Answer::Stale(first, little(body.get(2..6)?)),
            136 => Answer::Value(u64::from_le_bytes(body.try_into().ok()?)),
            137 => Answer::Held,
            138 => Answer::Refused(first),
            139 if (1..=6).contains(&(body.len() / 8)) => Answer::Seen(longs(body)),
            _ => return None,
        };
        (answer.bytes() == bytes).then_some(answer)
    }
}

/// The whole 64-bit numbers of a body.
fn longs(body: &[u8]) -> Vec<u64> {
    let long = |bytes: &[u8]| bytes.iter().rev().fold(0, |sum, byte| sum << 8 | u64::from(*byte));
    body.chunks_exact(8).map(long).collect()
}

impl fmt::Display for Request {
    fn fmt(&self, f: &mut fmt::Formatter) -> fmt::Result {
        write!(f, "{:?}:", self.kind)?;
        for field in self.form() {
            let name = format!("{field:?}").replace("Looked", "Word");
            let apart = |letter: char| format!(" {}", letter.to_lowercase());
            for letter in name.chars() {
                let upper = letter.is_uppercase();
                write!(f, "{}", if upper { apart(letter) } else { letter.to_string() })?;
            }
            write!(f, " {},", self.get(*field))?;
        }
        write!(f, " in a frame of {} bytes", self.bytes().len())
    }
}

impl fmt::Display for Answer {
    fn fmt(&self, f: &mut fmt::Formatter) -> fmt::Result {
        match self {
            Answer::Standing(n) => write!(f, "Standing, {n} targets"),
            Answer::Claimed(k) => write!(f, "Claimed {k}"),
            Answer::Waiting(word, NOBODY) => write!(f, "Waiting at word {word}, no team's mark"),
            Answer::Waiting(word, team) => write!(f, "Waiting at word {word} for team {team}"),
            Answer::Found(word) => write!(f, "Found, word {word} differs"),
            Answer::Put(k) => write!(f, "Put {k}"),
            Answer::Returned(k) => write!(f, "Returned {k}"),
            Answer::Granted(tries) => write!(f, "Granted, tries {tries}"),
            Answer::Stale(word, tries) => write!(f, "Stale, word {word}, tries {tries}"),
            Answer::Value(bits) => write!(f, "Value {bits}"),
            Answer::Held => write!(f, "Held"),
            Answer::Refused(number) => write!(f, "Refused {number}"),
            Answer::Seen(values) => write!(f, "Seen, values {values:?}"),
        }
    }
}

pub fn hex(bytes: &[u8]) -> String {
    bytes.iter().map(|byte| format!("{byte:02X}")).collect::<Vec<_>>().join(" ")
}

/// A frame in words.
pub fn frame_in_words(frame: &[u8]) -> String {
    let shown = hex(&frame[..frame.len().min(70)]);
    match (next(frame), parse(frame)) {
        (Next::TooLong, _) => format!("a length field above 62 [{shown} ...]"),
        (Next::Whole(_), Ok(request)) => format!("{request} [{shown}]"),
        (Next::Whole(_), Err(number)) => format!("a frame that refusal {number} is for [{shown}]"),
        _ => format!("a torn frame [{shown}]"),
    }
}

/// An answer's bytes in words.
pub fn answer_in_words(bytes: &[u8]) -> String {
    let shown = hex(&bytes[..bytes.len().min(70)]);
    match Answer::of_bytes(bytes) {
        Some(answer) => format!("{answer} [{shown}]"),
        None => format!("no answer of the paper [{shown}]"),
    }
}
