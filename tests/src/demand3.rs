//! "The plain book" and demand 3, and whom Waiting names, from frames and answers
//! alone: no book of words, no ticket of the model is used here.

use crate::frames::{parse, split, Answer, Field::*, Kind, Request};
use crate::layout::*;
use crate::model::listed_targets;
use std::collections::BTreeMap;

/// "number, from, to, distance, compass, clino"
#[derive(Clone, Copy, Debug, PartialEq, Eq)]
pub struct Leg {
    pub number: i64,
    pub from: i64,
    pub to: i64,
    pub measure: Measure,
}

/// The figures that the plain book goes by: "A plumb leg's compass is taken as 0 in
/// edits, quoted figures and the plain book alike".
fn figures(sent: Measure) -> Measure {
    match sent.clino {
        -9_000 | 9_000 => Measure { compass: 0, ..sent },
        _ => sent,
    }
}

/// The edit that the plain book is fed for one in minutes: "behaves as one in
/// hundredths". Other edits are fed as they are.
fn fed(edit: &Request) -> Request {
    let mut fed = *edit;
    fed.kind = match edit.kind {
        Kind::AddInMinutes => Kind::Add,
        Kind::CorrectInMinutes => Kind::Correct,
        other => other,
    };
    if fed.kind == edit.kind {
        return fed;
    }
    fed.set(Compass, angle(edit.get(CompassDegrees), edit.get(CompassMinutes)));
    fed.set(NewCompass, angle(edit.get(NewCompassDegrees), edit.get(NewCompassMinutes)));
    let clino = angle(edit.get(ClinoDegrees), edit.get(ClinoMinutes));
    fed.set(Clino, if edit.get(Sign) == 1 { -clino } else { clino });
    let clino = angle(edit.get(NewClinoDegrees), edit.get(NewClinoMinutes));
    fed.set(NewClino, if edit.get(NewSign) == 1 { -clino } else { clino });
    fed
}

/// Three minutes are five hundredths of a degree. One minute more is 1 2/3 hundredths,
/// and nearest to 2; two more are 3 1/3, and nearest to 3.
fn angle(degrees: i64, minutes: i64) -> i64 {
    let rest = [0, 2, 3][(minutes % 3) as usize];
    100 * degrees + 5 * (minutes / 3) + rest
}

/// The words of a ticket as they are claimed, by a rule of its own: rank after rank the
/// words of the passage that has it, then those of legs by their numbers.
fn in_claim_order(words: &[i64], ranks: &[i64]) -> Vec<i64> {
    let passage = |rank: i64| ranks.iter().position(|own| *own == rank);
    let passages = (0..PASSAGES).filter_map(passage).map(|p| p as i64);
    let own = passages.flat_map(|p| [newest_word(p), count_word(p)]);
    let mut of_legs: Vec<i64> =
        words.iter().copied().filter(|word| *word >= 2 * PASSAGES).collect();
    of_legs.sort();
    own.filter(|word| words.contains(word)).chain(of_legs).collect()
}

impl Leg {
    fn quoted(edit: &Request) -> Leg {
        let [number, from, to] = [R, From, To].map(|field| edit.get(field));
        Leg { number, from, to, measure: figures(edit.measure()) }
    }

    /// "all in range, from other than to", and a plumb leg's compass 0; the numbers end
    /// with the layout's last.
    pub fn sound_up_to(&self, last: i64) -> bool {
        let stations = 0..65_536;
        (1..=last).contains(&self.number)
            && stations.contains(&self.from)
            && stations.contains(&self.to)
            && self.from != self.to
            && self.measure.in_range()
            && self.measure == figures(self.measure)
    }

    pub fn sound(&self) -> bool {
        self.sound_up_to(LEGS)
    }

    fn same_stations(&self, other: &Leg) -> bool {
        (self.number, self.from, self.to) == (other.number, other.from, other.to)
    }
}

/// "For each passage a list of legs, newest first".
#[derive(Clone, Debug, PartialEq, Eq)]
pub struct Plain {
    pub lists: Vec<Vec<Leg>>,
}

impl Plain {
    /// "Fresh: all empty".
    pub fn fresh() -> Plain {
        Plain { lists: vec![Vec::new(); PASSAGES as usize] }
    }

    pub fn list(&self, p: i64) -> &[Leg] {
        &self.lists[p as usize]
    }

    /// The number of the leg at an index of a list, 0 if there is none.
    pub fn number_at(&self, p: i64, index: Option<usize>) -> i64 {
        index.and_then(|i| self.list(p).get(i)).map_or(0, |leg| leg.number)
    }

    pub fn newest(&self, p: i64) -> i64 {
        self.number_at(p, Some(0))
    }

    pub fn count(&self, p: i64) -> i64 {
        self.list(p).len() as i64
    }

    /// Passage and index of a leg.
    pub fn find(&self, number: i64) -> Option<(i64, usize)> {
        (0..PASSAGES).find_map(|p| {
            let index = self.list(p).iter().position(|leg| leg.number == number)?;
            Some((p, index))
        })
    }

    /// Where r is in p "with the quoted figures", c legs in p, "f just newer and
    /// s just older (0: no such leg)".
    fn between(&self, edit: &Request, fits: impl Fn(&Leg) -> bool) -> Option<usize> {
        let [p, f, s, c] = [P, F, S, C].map(|field| edit.get(field));
        let index = self.list(p).iter().position(fits)?;
        let newer = self.number_at(p, index.checked_sub(1));
        let older = self.number_at(p, Some(index + 1));
        (self.count(p) == c && newer == f && older == s).then_some(index)
    }

    /// Plays an edit if it succeeds, and says whether it did. "If not, the edit
    /// is stale and the lists stay."
    pub fn play(&mut self, edit: &Request) -> bool {
        self.try_edit(&fed(edit)).is_some()
    }

    fn try_edit(&mut self, edit: &Request) -> Option<()> {
        let quoted = Leg::quoted(edit);
        let [p, q] = [P, Q].map(|field| edit.get(field));
        match edit.kind {
            Kind::Add => {
                // "the list of p starts with h (is empty for 0), has c legs, and r
                // is in no list; r goes in front"
                let starts = self.newest(p) == edit.get(H) && self.count(p) == edit.get(C);
                if !starts || self.find(quoted.number).is_some() {
                    return None;
                }
                self.lists[p as usize].insert(0, quoted);
            }
            Kind::Correct => {
                // "r is in p with the quoted figures; it takes the new distance,
                // compass and clino"
                let index = self.list(p).iter().position(|leg| *leg == quoted)?;
                self.lists[p as usize][index].measure = figures(edit.new_measure());
            }
            Kind::Strike => {
                // "p has c legs, r with the quoted figures, f just newer and s just
                // older (0: no such leg); r goes"
                let index = self.between(edit, |leg| *leg == quoted)?;
                self.lists[p as usize].remove(index);
            }
            Kind::Move => {
                // "the same for r, stations only, and q starts with h and has d
                // legs; r goes to the front of q with its measure"
                let index = self.between(edit, |leg| leg.same_stations(&quoted))?;
                if self.newest(q) != edit.get(H) || self.count(q) != edit.get(D) {
                    return None;
                }
                let leg = self.lists[p as usize].remove(index);
                self.lists[q as usize].insert(0, leg);
            }
            Kind::Step | Kind::Look | Kind::View => return None,
            Kind::AddInMinutes | Kind::CorrectInMinutes => return None,
        }
        Some(())
    }

    /// "The plain book's words are those of the layout above."
    pub fn word(&self, word: i64) -> i64 {
        if word < 2 * PASSAGES {
            let p = word / 2;
            return if word % 2 == 0 { self.newest(p) } else { self.count(p) };
        }
        let Some((p, index)) = self.find((word - 64) / 4 + 1) else { return 0 };
        let leg = self.list(p)[index];
        match (word - 64) % 4 {
            0 => self.number_at(p, Some(index + 1)),
            1 => place(p, leg.from, leg.to),
            2 => leg.measure.written(),
            // "the next newer leg, 0 for the newest"
            _ => self.number_at(p, index.checked_sub(1)),
        }
    }

    fn legs(&self) -> i64 {
        self.lists.iter().map(|list| list.len() as i64).sum()
    }
}

/// What a bystander knows of one team's ticket.
#[derive(Clone, Debug)]
struct Heard {
    /// The edit or view that opened it.
    opener: Request,
    /// Its words by rising position, by the ranks in force at its Standing: later loads
    /// leave them.
    words: Vec<i64>,
    /// Whether the edit succeeded on the plain book, once decided.
    decided: Option<bool>,
    /// The plain book's words, in the order named, at a view's last claim.
    seen: Option<Vec<u64>>,
    /// The word that Found named.
    found: Option<i64>,
    steps: i64,
    waits: i64,
    /// "a ticket holds its k-th target by position from Claimed k until Put k,
    /// Returned k or the ticket's last answer"
    holds: Vec<i64>,
}

impl Heard {
    /// The k-th target's word.
    fn target(&self, k: i64) -> Result<i64, String> {
        let n = self.words.len() as i64;
        demand((1..=n).contains(&k), || format!("target {k} of {n}"))?;
        Ok(self.words[k as usize - 1])
    }

    /// "until Put k, Returned k"
    fn release(&mut self, k: i64) -> Verdict {
        let word = self.target(k)?;
        self.holds.retain(|held| *held != word);
        Ok(())
    }
}

/// A bystander of one list of calls, who complains where demand 3 fails.
#[derive(Clone, Debug)]
pub struct Watch {
    pub plain: Plain,
    /// The ranks in force: the fixed ones, and from a load on those loaded.
    pub ranks: Vec<i64>,
    teams: BTreeMap<i64, Heard>,
    /// The counts' sum in the book last come back to, and what was granted since.
    kept: i64,
    adds: i64,
    strikes: i64,
}

type Verdict = Result<(), String>;

fn demand(holds: bool, complaint: impl FnOnce() -> String) -> Verdict {
    if holds {
        Ok(())
    } else {
        Err(complaint())
    }
}

impl Watch {
    pub fn new() -> Watch {
        let (plain, ranks, teams) = (Plain::fresh(), RANKS.to_vec(), BTreeMap::new());
        Watch { plain, ranks, teams, kept: 0, adds: 0, strikes: 0 }
    }

    /// Whether no ticket was heard to stand.
    pub fn is_idle(&self) -> bool {
        self.teams.is_empty()
    }

    /// The teams that were heard to have a ticket.
    pub fn busy_teams(&self) -> Vec<i64> {
        self.teams.keys().copied().collect()
    }

    /// "They are accepted exactly when each number 0 to 31 occurs and no ticket stands":
    /// a load has no place in the order, but none where a ticket stands.
    pub fn load(&mut self, ranks: &[i64]) -> Verdict {
        demand(self.is_idle(), || "ranks are loaded while a ticket stands".to_string())?;
        let each = (0..PASSAGES).all(|rank| ranks.iter().filter(|own| **own == rank).count() == 1);
        demand(each && ranks.len() == 32, || format!("ranks {ranks:?} are loaded"))?;
        self.ranks = ranks.to_vec();
        Ok(())
    }

    /// "coming back takes its place in the order and makes the plain book that of the
    /// filling. From then on the counts sum to the kept book's sum plus the adds
    /// granted since, less the strikes granted since." The ranks stay those now in force.
    pub fn come_back(&mut self, filling: &Plain) {
        self.plain = filling.clone();
        (self.kept, self.adds, self.strikes) = (filling.legs(), 0, 0);
    }

    pub fn is_busy(&self, team: i64) -> bool {
        self.teams.contains_key(&team)
    }

    fn holder(&self, word: i64) -> Option<i64> {
        let holding = |heard: &Heard| heard.holds.contains(&word);
        self.teams.iter().find(|(_, heard)| holding(heard)).map(|(team, _)| *team)
    }

    /// One frame and its answer.
    pub fn hear(&mut self, frame: &[u8], answer: &[u8]) -> Verdict {
        let answer = Answer::of_bytes(answer).ok_or("the answer isn't one of the paper")?;
        // "every refusal is passed over"
        if let Answer::Refused(_) = answer {
            return Ok(());
        }
        let request = parse(frame).map_err(|n| format!("refusal {n} is answered {answer}"))?;
        match request.kind {
            Kind::Look => self.hear_look(request.get(Looked), answer),
            Kind::Step => self.hear_step(request.team(), answer),
            _ => self.hear_opener(request, answer),
        }
    }

    /// "a look is decided at Value ... For a look it gives its own word and stays."
    fn hear_look(&self, word: i64, answer: Answer) -> Verdict {
        let holder = self.holder(word);
        match answer {
            Answer::Value(bits) => {
                let own = self.plain.word(word);
                demand(bits == own as u64, || {
                    format!("word {word} shows {bits}, the plain book has {own}")
                })?;
                demand(holder.is_none(), || format!("word {word} is held, but shows a value"))
            }
            Answer::Held => {
                demand(holder.is_some(), || format!("word {word} is Held, but nobody holds it"))
            }
            _ => Err(format!("a look is answered {answer}")),
        }
    }

    /// "A ticket's edit is the edit frame that opened it, answered Standing." A
    /// view "opens with Standing, n".
    fn hear_opener(&mut self, opener: Request, answer: Answer) -> Verdict {
        let words: Vec<i64> = listed_targets(&opener).iter().map(|target| target.word).collect();
        let words = in_claim_order(&words, &self.ranks);
        let standing = answer == Answer::Standing(words.len() as i64);
        demand(standing, || format!("{opener} is answered {answer}"))?;
        demand(!self.is_busy(opener.team()), || "a second ticket stands".to_string())?;
        let heard = Heard {
            opener,
            words,
            decided: None,
            seen: None,
            found: None,
            steps: 0,
            waits: 0,
            holds: Vec::new(),
        };
        self.teams.insert(opener.team(), heard);
        Ok(())
    }

    fn hear_step(&mut self, team: i64, answer: Answer) -> Verdict {
        if let Answer::Waiting(word, holder) = answer {
            self.hear_waiting(team, word, holder)?;
        }
        let mut heard = self.teams.remove(&team).ok_or("a step without a ticket is answered")?;
        heard.steps += 1;
        let last = match heard.opener.kind {
            Kind::View => self.hear_of_view(&mut heard, answer)?,
            _ => self.hear_of_edit(&mut heard, answer)?,
        };
        if !last {
            self.teams.insert(team, heard);
        }
        Ok(())
    }

    /// "Who holds the word": Waiting names the ticket's next word, and the team that
    /// holds it by what was heard. Nobody else can: all marks of a fresh book are
    /// teams'.
    fn hear_waiting(&self, team: i64, word: i64, named: i64) -> Verdict {
        let next = self.teams.get(&team).and_then(|heard| heard.words.get(heard.holds.len()));
        demand(next == Some(&word), || format!("a wait at word {word}, but {next:?} is next"))?;
        let holder = self.holder(word);
        demand(holder == Some(named), || {
            format!("a wait for team {named} at word {word}, which is held by {holder:?}")
        })
    }

    /// Takes one answer to a step of an edit; true if it was the ticket's last.
    fn hear_of_edit(&mut self, heard: &mut Heard, answer: Answer) -> Result<bool, String> {
        let n = heard.words.len() as i64;
        match answer {
            Answer::Claimed(k) => {
                self.hold(heard, k)?;
                // "decided as granted at the step answered Claimed with the number
                // of its edit's targets"
                if k == n {
                    self.decide(heard, true)?;
                }
            }
            Answer::Waiting(..) => heard.waits += 1,
            // "and as stale at Found"
            Answer::Found(word) => {
                self.decide(heard, false)?;
                heard.found = Some(word);
            }
            Answer::Put(k) | Answer::Returned(k) => heard.release(k)?,
            Answer::Granted(tries) => {
                self.hear_last(heard, true, tries)?;
                // "A granted ticket has tries of 2n plus its waits"
                let waits = heard.waits;
                demand(tries == 2 * n + waits, || format!("{answer}, but 2 x {n} + {waits}"))?;
                return Ok(true);
            }
            Answer::Stale(word, tries) => {
                // "or at Stale with no Found before it in that ticket"
                match heard.found {
                    None => self.decide(heard, false)?,
                    Some(found) => {
                        demand(found == word, || format!("{answer}, but Found named {found}"))?
                    }
                }
                self.hear_last(heard, false, tries)?;
                return Ok(true);
            }
            _ => return Err(format!("a step of an edit is answered {answer}")),
        }
        Ok(false)
    }

    /// The same of a view, which is "never stale".
    fn hear_of_view(&mut self, heard: &mut Heard, answer: Answer) -> Result<bool, String> {
        let n = heard.words.len() as i64;
        match answer {
            Answer::Claimed(k) => {
                self.hold(heard, k)?;
                if k == n {
                    self.see(heard)?;
                }
            }
            Answer::Waiting(..) => heard.waits += 1,
            Answer::Returned(k) => heard.release(k)?,
            Answer::Seen(_) => {
                // "and shows the plain book's words of that moment"
                let own = heard.seen.clone().map(Answer::Seen);
                demand(own.as_ref() == Some(&answer), || {
                    format!("{answer}, at the last claim the plain book had {own:?}")
                })?;
                let (steps, waits) = (heard.steps, heard.waits);
                demand(steps == 2 * n + waits, || format!("{steps} steps, but 2 x {n} + {waits}"))?;
                return Ok(true);
            }
            _ => return Err(format!("a step of a view is answered {answer}")),
        }
        Ok(false)
    }

    /// "from Claimed k"
    fn hold(&self, heard: &mut Heard, k: i64) -> Verdict {
        let word = heard.target(k)?;
        demand(self.holder(word).is_none(), || format!("word {word} is held twice"))?;
        heard.holds.push(word);
        Ok(())
    }

    /// "A finished view takes its place at its last claim".
    fn see(&self, heard: &mut Heard) -> Verdict {
        demand(heard.seen.is_none(), || "a view has two last claims".to_string())?;
        let own = |word: &i64| self.plain.word(*word) as u64;
        heard.seen = Some(heard.opener.named().iter().map(own).collect());
        Ok(())
    }

    /// "The plain book is fed the fields of these frames ... It finds for itself
    /// whether an edit succeeds."
    fn decide(&mut self, heard: &mut Heard, granted: bool) -> Verdict {
        demand(heard.decided.is_none(), || "a ticket is decided twice".to_string())?;
        let succeeds = self.plain.play(&heard.opener);
        let [claimed, found] = [granted, succeeds].map(|yes| if yes { "granted" } else { "stale" });
        demand(granted == succeeds, || {
            format!("decided as {claimed}, the plain book says {found}: {}", heard.opener)
        })?;
        heard.decided = Some(succeeds);
        let adds = matches!(heard.opener.kind, Kind::Add | Kind::AddInMinutes);
        self.adds += i64::from(granted && adds);
        self.strikes += i64::from(granted && heard.opener.kind == Kind::Strike);
        self.check_leg(heard.opener.get(R))?;
        // "the counts of all passages in the plain book, each the length of its
        // list, sum to granted adds less granted strikes"
        let sum = self.kept + self.adds - self.strikes;
        demand(self.plain.legs() == sum, || "counts don't add up".to_string())
    }

    /// The decided leg keeps the plain book's rules.
    fn check_leg(&self, number: i64) -> Verdict {
        let alike: Vec<&Leg> =
            self.plain.lists.iter().flatten().filter(|leg| leg.number == number).collect();
        demand(alike.len() < 2, || format!("leg {number} is in the plain book twice"))?;
        demand(alike.iter().all(|leg| leg.sound()), || format!("leg {number} is out of range"))
    }

    /// "a decided ticket's last answer, once it has come, is Granted if the edit
    /// succeeds on the plain book and Stale if not"
    fn hear_last(&self, heard: &Heard, granted: bool, tries: i64) -> Verdict {
        demand(heard.decided == Some(granted), || {
            format!("the last answer is granted: {granted}, decided: {:?}", heard.decided)
        })?;
        let steps = heard.steps;
        demand(tries == steps, || format!("{tries} tries, but {steps} steps were answered"))
    }
}

/// A final sweep: "every word nobody holds" is looked at.
pub fn sweep() -> Vec<u8> {
    (0..WORDS).flat_map(|word| Request::look(word).bytes()).collect()
}

/// Demand 3 on a whole stream and its answers; complains with the frame's index.
pub fn check(input: &[u8], output: &[u8]) -> Result<Watch, String> {
    let (frames, answers) = (split(input), split(output));
    if frames.len() != answers.len() {
        return Err(format!("{} frames, but {} answers", frames.len(), answers.len()));
    }
    let mut watch = Watch::new();
    for (index, (frame, answer)) in frames.iter().zip(&answers).enumerate() {
        watch.hear(frame, answer).map_err(|complaint| format!("frame {index}: {complaint}"))?;
    }
    Ok(watch)
}
