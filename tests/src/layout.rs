//! "Words of the book" and "Claim order": where words are, what is written in
//! them and by which position they are claimed.

/// "A book is 4,096 unsigned 64-bit words".
pub const WORDS: i64 = 4_096;
/// "Passage p, 0 to 31".
pub const PASSAGES: i64 = 32;
/// "Leg r, now 1 to 1,008".
pub const LEGS: i64 = 1_008;
/// "held by team t, 0 to 15".
pub const TEAMS: i64 = 16;
/// Named in place of a team where a mark is no team's: "else 65,535".
pub const NOBODY: i64 = 65_535;

/// "Passages carry a rank. For p = 0 to 31: ..." The fixed ranks, in whose place "the
/// caller may load 32 ranks".
pub const RANKS: [i64; 32] = [
    3, 8, 13, 18, 23, 28, 1, 6, 11, 16, 21, 26, 31, 4, 9, 14, 19, 24, 29, 2, 7, 12, 17, 22, 27, 0,
    5, 10, 15, 20, 25, 30,
];

/// One word of a book, read as the paper reads it.
#[derive(Clone, Copy, Debug, PartialEq, Eq)]
pub enum Word {
    /// "A value is below 2^63."
    Value(i64),
    /// "A word of 2^63 + t is held by team t, 0 to 15."
    Marked(i64),
}

impl Word {
    pub fn of_bits(bits: u64) -> Word {
        match i64::try_from(bits) {
            Ok(value) => Word::Value(value),
            Err(_) => Word::Marked((bits - (1 << 63)) as i64),
        }
    }

    pub fn bits(self) -> u64 {
        match self {
            Word::Value(value) => value as u64,
            Word::Marked(team) => (1 << 63) + team as u64,
        }
    }

    /// Of a word of 2^63 or more: "the team is the mark less 2^63 if that is below
    /// 16, else 65,535".
    pub fn holder(self) -> Option<i64> {
        match self {
            Word::Value(_) => None,
            Word::Marked(team) if team < TEAMS => Some(team),
            Word::Marked(_) => Some(NOBODY),
        }
    }
}

/// "Passage p ... has word 2p, its newest leg".
pub fn newest_word(p: i64) -> i64 {
    2 * p
}

/// "and word 2p + 1, its count of legs".
pub fn count_word(p: i64) -> i64 {
    2 * p + 1
}

/// "Leg r ... starts at word 64 + 4(r - 1)": link, place, measure and, "each leg gets a
/// fourth word, the next newer leg, 0 for the newest", newer.
pub fn link_word(r: i64) -> i64 {
    64 + 4 * (r - 1)
}

pub fn place_word(r: i64) -> i64 {
    link_word(r) + 1
}

pub fn measure_word(r: i64) -> i64 {
    link_word(r) + 2
}

pub fn newer_word(r: i64) -> i64 {
    link_word(r) + 3
}

/// The leg that has this word as its newer word, if one has.
pub fn leg_of_newer(word: i64) -> Option<i64> {
    let r = (word - newer_word(0)) / 4;
    (r >= 1 && newer_word(r) == word).then_some(r)
}

/// "They are accepted exactly when each number 0 to 31 occurs", and they are 32.
pub fn accepted(ranks: &[i64]) -> bool {
    ranks.len() as i64 == PASSAGES && (0..PASSAGES).all(|rank| ranks.contains(&rank))
}

/// "Word 2p has position 2 x rank, word 2p + 1 one more. A leg's word has its
/// own number as position."
pub fn position(ranks: &[i64], word: i64) -> i64 {
    if word < 2 * PASSAGES {
        2 * ranks[(word / 2) as usize] + word % 2
    } else {
        word
    }
}

/// M of the frames: "M stands for distance, compass, clino".
#[derive(Clone, Copy, Debug, PartialEq, Eq)]
pub struct Measure {
    pub distance: i64,
    pub compass: i64,
    pub clino: i64,
}

impl Measure {
    /// "Distance is 1 to 100,000 mm, compass 0 to 35,999, clino -9,000 to 9,000".
    pub fn in_range(self) -> bool {
        (1..=100_000).contains(&self.distance)
            && (0..=35_999).contains(&self.compass)
            && (-9_000..=9_000).contains(&self.clino)
    }

    /// "a leg at clino 9,000 or -9,000 has no compass reading"
    pub fn plumb(self) -> bool {
        self.clino.abs() == 9_000
    }

    /// "A plumb leg's compass is taken as 0".
    pub fn taken(self) -> Measure {
        Measure { compass: if self.plumb() { 0 } else { self.compass }, ..self }
    }

    /// "measure = distance + 2^17 x compass + 2^33 x (clino + 9,000)".
    pub fn written(self) -> i64 {
        self.distance + (1 << 17) * self.compass + (1 << 33) * (self.clino + 9_000)
    }
}

/// "place = (p + 1) + 64 x from + 4,194,304 x to".
pub fn place(p: i64, from: i64, to: i64) -> i64 {
    (p + 1) + 64 * from + 4_194_304 * to
}

/// What Reading gives: a leg's passage, stations and measure.
#[derive(Clone, Copy, Debug, PartialEq, Eq)]
pub struct Reading {
    pub p: i64,
    pub from: i64,
    pub to: i64,
    pub measure: Measure,
}

/// "Reading is a call on place and measure: it gives the leg if one in range,
/// from other than to, is written as those two words, and 'no leg' if not." With
/// "Plumb legs": "a plumb leg with another compass reads as no leg".
pub fn reading(place_bits: u64, measure_bits: u64) -> Option<Reading> {
    let (at, of) = (i64::try_from(place_bits).ok()?, i64::try_from(measure_bits).ok()?);
    let measure = Measure {
        distance: of % (1 << 17),
        compass: of / (1 << 17) % (1 << 16),
        clino: of / (1 << 33) - 9_000,
    };
    let leg = Reading { p: at % 64 - 1, from: at / 64 % 65_536, to: at / 4_194_304, measure };
    let in_range = (0..PASSAGES).contains(&leg.p) && leg.to <= 65_535 && measure.in_range();
    let as_written = place(leg.p, leg.from, leg.to) == at && measure.taken().written() == of;
    (in_range && as_written && leg.from != leg.to).then_some(leg)
}
