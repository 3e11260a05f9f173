//! What came how often, and what must have come at all.

use crate::frames::{parse, split, Answer, Field::*, Kind, Request, ANGLES, NEW_ANGLES};
use crate::layout::{leg_of_newer, TEAMS};
use crate::model::listed_targets;
use std::collections::BTreeMap;

#[derive(Default)]
pub struct Tally {
    pub frames: i64,
    pub streams: i64,
    counts: BTreeMap<String, i64>,
    /// The form in which each leg's measure was written last, of the stream at hand.
    written: BTreeMap<i64, &'static str>,
}

/// Each team's last edit or view, whether it waited, and whether it found a word
/// differing.
type Open = BTreeMap<i64, (Request, bool, bool)>;

/// Every answer, and every refusal that a stream can reach: 1 and 2 are the
/// caller's, and 7 needs a ticket table that was lent.
#[rustfmt::skip]
const ANSWERS: [&str; 20] = [
    "Standing", "Claimed", "Waiting", "Found", "Put", "Returned", "Granted", "Stale", "Value",
    "Held", "Seen", "Refused", "Refused 3", "Refused 4", "Refused 5", "Refused 6", "Refused 8",
    "Refused 9", "Refused 10", "Refused 11",
];

/// What streams with contention must also have shown.
#[rustfmt::skip]
const OUTCOMES: [&str; 42] = [
    "granted Add", "granted Correct", "granted Move", "granted Strike of newest",
    "granted Strike of oldest", "granted Strike of middle", "granted Strike of only",
    "stale at once", "stale after Found", "granted after waits", "seen 1", "seen 2", "seen 3",
    "seen 4", "seen 5", "seen 6", "seen after waits", "edit waits for edit",
    "edit waits for view", "view waits for edit", "view waits for view",
    "granted AddInMinutes", "granted CorrectInMinutes",
    "granted Correct of a leg in minutes", "granted CorrectInMinutes of a leg in hundredths",
    "granted Strike of a leg in minutes", "granted at down zero",
    "refused 90 degrees and minutes", "refused angle with equal stations",
    "granted Add with 5 targets", "granted Add with 6 targets",
    "granted Strike with 6 targets", "granted Strike with 7 targets",
    "granted Move with 7 targets", "granted Move with 8 targets", "granted Move with 9 targets",
    "granted Move of newest", "granted Move of oldest", "granted Move of middle",
    "found at a newer word", "wait at a newer word", "seen with a newer word",
];

/// Measures of edits with a compass other than 0 at clino 9,000, 8,999 and their
/// opposites: each must have been granted, and the plumb ones refused as well, by a
/// compass out of range.
const MEASURED: [&str; 4] = ["Add", "Correct", "Correct to", "Strike"];
const STEEP: [(i64, &str); 4] =
    [(9_000, "up"), (-9_000, "down"), (8_999, "nearly up"), (-8_999, "nearly down")];

/// Measures in minutes, which must have been granted and refused at 90 degrees.
const IN_MINUTES: [&str; 3] = ["AddInMinutes", "CorrectInMinutes", "CorrectInMinutes to"];

impl Tally {
    fn one_more(&mut self, name: &str) {
        *self.counts.entry(name.to_string()).or_default() += 1;
    }

    pub fn of(&self, name: &str) -> i64 {
        self.counts.get(name).copied().unwrap_or(0)
    }

    pub fn add(&mut self, input: &[u8], output: &[u8]) {
        self.streams += 1;
        self.written.clear();
        let mut open = BTreeMap::new();
        for (frame, bytes) in split(input).into_iter().zip(split(output)) {
            self.frames += 1;
            let Some(answer) = Answer::of_bytes(bytes) else { continue };
            self.count_answer(&answer);
            if let Ok(request) = parse(frame) {
                if answer == Answer::Refused(10) {
                    self.count_steep("refused", &request);
                    self.count_angles(&request);
                }
                self.count_outcome(&mut open, request, &answer);
            }
        }
    }

    fn count_answer(&mut self, answer: &Answer) {
        let shown = format!("{answer:?}");
        self.one_more(shown.split('(').next().unwrap_or(""));
        if let Answer::Refused(number) = answer {
            self.one_more(&format!("Refused {number}"));
        }
    }

    fn count_outcome(&mut self, open: &mut Open, request: Request, answer: &Answer) {
        let team = request.team();
        match (answer, open.get_mut(&team)) {
            (Answer::Standing(_), _) => drop(open.insert(team, (request, false, false))),
            (Answer::Waiting(word, holder), Some((_, waited, _))) => {
                *waited = true;
                self.count_wait(open, team, *holder);
                if leg_of_newer(*word).is_some() {
                    self.one_more("wait at a newer word");
                }
            }
            (Answer::Found(word), Some((_, _, found))) => {
                *found = true;
                if leg_of_newer(*word).is_some() {
                    self.one_more("found at a newer word");
                }
            }
            (Answer::Stale(..), Some((_, _, true))) => self.one_more("stale after Found"),
            (Answer::Stale(..), Some((_, _, false))) => self.one_more("stale at once"),
            (Answer::Granted(_), Some((edit, waited, _))) => {
                self.one_more(&granted_name(edit));
                self.count_targets(edit);
                self.count_steep("granted", edit);
                self.count_forms(edit);
                if *waited {
                    self.one_more("granted after waits");
                }
            }
            (Answer::Seen(values), Some((view, waited, _))) => {
                self.one_more(&format!("seen {}", values.len()));
                if view.named().into_iter().any(|word| leg_of_newer(word).is_some()) {
                    self.one_more("seen with a newer word");
                }
                if *waited {
                    self.one_more("seen after waits");
                }
            }
            _ => {}
        }
    }

    /// A granted edit by its number of targets, and a move by its leg's neighbours.
    fn count_targets(&mut self, edit: &Request) {
        let edit = edit.in_hundredths();
        let n = listed_targets(&edit).len();
        self.one_more(&format!("granted {:?} with {n} targets", edit.kind));
        let which = match (edit.get(F), edit.get(S)) {
            (0, 0) => "only",
            (0, _) => "newest",
            (_, 0) => "oldest",
            _ => "middle",
        };
        if edit.kind == Kind::Move {
            self.one_more(&format!("granted Move of {which}"));
        }
    }

    /// The edit's measures at a steep clino: granted with a compass, or refused with
    /// one that is out of range.
    fn count_steep(&mut self, outcome: &str, edit: &Request) {
        let least = if outcome == "refused" { 36_000 } else { 1 };
        let name = format!("{:?}", edit.kind);
        let edit = edit.in_hundredths();
        for (name, of) in [(name.clone(), edit.measure()), (name + " to", edit.new_measure())] {
            let steep = STEEP.iter().find(|(clino, _)| *clino == of.clino);
            if let Some((_, way)) = steep.filter(|_| of.compass >= least) {
                self.one_more(&format!("{outcome} {name} {way}"));
            }
        }
    }

    /// An edit in minutes refused for one angle field alone.
    fn count_angles(&mut self, edit: &Request) {
        let [field] = edit.beyond()[..] else { return };
        if edit.kind.in_hundredths().is_none() {
            return;
        }
        self.one_more(&format!("refused {:?} by {field:?}", edit.kind));
        let at_ninety = match field {
            ClinoMinutes => edit.get(ClinoDegrees) == 90,
            NewClinoMinutes => edit.get(NewClinoDegrees) == 90,
            _ => false,
        };
        if at_ninety && edit.get(field) < 60 {
            self.one_more("refused 90 degrees and minutes");
        }
        let angle = ANGLES.contains(&field) || NEW_ANGLES.contains(&field);
        if angle && edit.get(From) == edit.get(To) {
            self.one_more("refused angle with equal stations");
        }
    }

    /// Whether a granted edit quoted a leg's measure in another form than its own.
    fn count_forms(&mut self, edit: &Request) {
        let minutes = edit.kind.in_hundredths().is_some();
        let form = if minutes { "minutes" } else { "hundredths" };
        let leg = edit.get(R);
        let meant = edit.in_hundredths().kind;
        if matches!(meant, Kind::Correct | Kind::Strike) {
            if let Some(before) = self.written.get(&leg).filter(|before| **before != form) {
                self.one_more(&format!("granted {:?} of a leg in {before}", edit.kind));
            }
        }
        if matches!(meant, Kind::Add | Kind::Correct) {
            self.written.insert(leg, form);
        }
        if minutes && [Sign, ClinoDegrees, ClinoMinutes].map(|field| edit.get(field)) == [1, 0, 0] {
            self.one_more("granted at down zero");
        }
    }

    /// Who waits for whom.
    fn count_wait(&mut self, open: &Open, team: i64, holder: i64) {
        let ticket = |team: i64| match open.get(&team) {
            Some((opener, ..)) if opener.kind == Kind::View => "view",
            Some(_) => "edit",
            None => "nothing",
        };
        self.one_more(&format!("{} waits for {}", ticket(team), ticket(holder)));
        self.one_more(&wait_name(holder));
    }

    fn missing(&self, names: impl IntoIterator<Item = String>) -> Vec<String> {
        names.into_iter().filter(|name| self.of(name) == 0).collect()
    }

    /// Complains of answers and refusals that never came.
    pub fn complete(&self, with_outcomes: bool) -> Result<(), String> {
        let mut missing = self.missing(ANSWERS.map(str::to_string));
        if with_outcomes {
            missing.extend(self.missing(OUTCOMES.map(str::to_string)));
            missing.extend(self.missing((0..TEAMS).map(wait_name)));
            missing.extend(self.missing(steep_names()));
            missing.extend(self.missing(angle_names()));
        }
        if missing.is_empty() {
            Ok(())
        } else {
            Err(format!("never came: {}", missing.join(", ")))
        }
    }

    /// One line of all counts of answers and refusals.
    pub fn summary(&self) -> String {
        let counts = ANSWERS.iter().map(|name| format!("{name} {}", self.of(name)));
        let counts = counts.collect::<Vec<_>>().join(", ");
        format!("{} frames in {} streams: {counts}", self.frames, self.streams)
    }

    /// One line of how edits and views came out.
    pub fn outcomes(&self) -> String {
        let names = OUTCOMES.map(str::to_string).into_iter();
        let names = names.chain(steep_names()).chain(angle_names());
        let counts = names.map(|name| format!("{name} {}", self.of(&name)));
        counts.collect::<Vec<_>>().join(", ")
    }
}

fn steep_names() -> Vec<String> {
    let granted = STEEP.iter().map(|(_, way)| ("granted", *way));
    let refused = STEEP[..2].iter().map(|(_, way)| ("refused", *way));
    let ways = granted.chain(refused);
    ways.flat_map(|(outcome, way)| MEASURED.map(|name| format!("{outcome} {name} {way}"))).collect()
}

/// What must have come of edits in minutes: granted and refused with a compass at 90
/// degrees, and refused for each angle field alone.
fn angle_names() -> Vec<String> {
    let steep = ["granted", "refused"].into_iter().flat_map(|outcome| {
        let named = move |name| ["up", "down"].map(|way| format!("{outcome} {name} {way}"));
        IN_MINUTES.into_iter().flat_map(named)
    });
    let old = Kind::IN_MINUTES.into_iter().flat_map(|kind| ANGLES.map(|field| (kind, field)));
    let fields = old.chain(NEW_ANGLES.map(|field| (Kind::CorrectInMinutes, field)));
    steep.chain(fields.map(|(kind, field)| format!("refused {kind:?} by {field:?}"))).collect()
}

fn wait_name(holder: i64) -> String {
    format!("wait for team {holder}")
}

fn granted_name(edit: &Request) -> String {
    let which = match (edit.kind, edit.get(F), edit.get(S)) {
        (Kind::Strike, 0, 0) => " of only",
        (Kind::Strike, 0, _) => " of newest",
        (Kind::Strike, _, 0) => " of oldest",
        (Kind::Strike, _, _) => " of middle",
        _ => "",
    };
    format!("granted {:?}{which}", edit.kind)
}
