//! The second model: "Edits", "Tickets and steps", "Frames refused, in checking
//! order" and "The program survey", and of document 02 "Words seen together", "Who
//! holds the word", "Plumb legs", "The cave's own ranks", "Old instruments in minutes" and
//! "Chains that run both ways".

use crate::frames::{any_twice, next, parse, Answer, Field::*, Kind, Next, Request};
use crate::layout::*;
use std::collections::BTreeMap;

/// "Each target is a word, a quoted value and a new value." Of a view, the quoted
/// value is the one noted, 0 before, and the new values of all targets, as they
/// stand, are the words in the order named: not this target's own word.
#[derive(Clone, Copy, Debug, PartialEq, Eq)]
pub struct Target {
    pub word: i64,
    pub quoted: Word,
    pub new: Word,
}

/// The targets of an edit, in the order in which "Edits" lists them, or those of
/// a view, in the order named. An edit in minutes has those of the one in hundredths.
pub fn listed_targets(request: &Request) -> Vec<Target> {
    let edit = request.in_hundredths();
    let target = |word: i64, quoted: i64, new: i64| Target {
        word,
        quoted: Word::Value(quoted),
        new: Word::Value(new),
    };
    let [p, q, f, r, s] = [P, Q, F, R, S].map(|field| edit.get(field));
    let [h, c, d] = [H, C, D].map(|field| edit.get(field));
    let place_in = |passage: i64| place(passage, edit.get(From), edit.get(To));
    // "'Before-word' is the link of f, or word 2p where f is 0."
    let before_word = if f == 0 { newest_word(p) } else { link_word(f) };
    // "A plumb leg's compass is taken as 0 in edits, quoted figures ... alike".
    let [measure, new_measure] =
        [edit.measure(), edit.new_measure()].map(|measure| measure.taken().written());
    // "Where h isn't 0, Add and Move set it for h 0->r; where s isn't 0, Strike and Move
    // set it for s r->f": nothing is set where there is no leg.
    let newer =
        |leg: i64, quoted: i64, new: i64| (leg != 0).then(|| target(newer_word(leg), quoted, new));
    let listed = match edit.kind {
        // "Add: word 2p h->r, count c->c+1, link r 0->h, place r 0->place,
        // measure r 0->measure."
        Kind::Add => vec![
            target(newest_word(p), h, r),
            target(count_word(p), c, c + 1),
            target(link_word(r), 0, h),
            target(place_word(r), 0, place_in(p)),
            target(measure_word(r), 0, measure),
        ],
        // "Correct: place r unchanged but quoted, measure r old->new."
        Kind::Correct => vec![
            target(place_word(r), place_in(p), place_in(p)),
            target(measure_word(r), measure, new_measure),
        ],
        // "Strike: before-word r->s, count c->c-1, link r s->0, place r ->0,
        // measure r ->0."
        Kind::Strike => vec![
            target(before_word, r, s),
            target(count_word(p), c, c - 1),
            target(link_word(r), s, 0),
            target(place_word(r), place_in(p), 0),
            target(measure_word(r), measure, 0),
            // "these two always set it for r f->0", where f is 0 too.
            target(newer_word(r), f, 0),
        ],
        // "Move from p to q, h and d being newest leg and count of q: before-word
        // r->s, count of p c->c-1, word 2q h->r, count of q d->d+1, link r s->h,
        // place r from p's to q's."
        Kind::Move => vec![
            target(before_word, r, s),
            target(count_word(p), c, c - 1),
            target(newest_word(q), h, r),
            target(count_word(q), d, d + 1),
            target(link_word(r), s, h),
            target(place_word(r), place_in(p), place_in(q)),
            target(newer_word(r), f, 0),
        ],
        Kind::View => edit.named().iter().map(|word| target(*word, 0, *word)).collect(),
        Kind::AddInMinutes | Kind::CorrectInMinutes => Vec::new(),
        Kind::Step | Kind::Look => Vec::new(),
    };
    let of_front = if matches!(edit.kind, Kind::Add | Kind::Move) { newer(h, 0, r) } else { None };
    let of_gap = if matches!(edit.kind, Kind::Strike | Kind::Move) { newer(s, r, f) } else { None };
    listed.into_iter().chain(of_front).chain(of_gap).collect()
}

/// "An edit's ticket has up to 9 targets, a view's up to 6 as before."
pub const MOST_OF_EDITS: i64 = 9;
pub const MOST_OF_VIEWS: i64 = 6;

/// "Targets are claimed by rising position", by the ranks in force.
pub fn targets(request: &Request, ranks: &[i64]) -> Vec<Target> {
    targets_by(request, |word| position(ranks, word))
}

/// The targets in some order of their words. A view's list of names stays as it is.
pub fn targets_by(request: &Request, order: impl Fn(i64) -> i64) -> Vec<Target> {
    let listed = listed_targets(request);
    let mut targets = listed.clone();
    targets.sort_by_key(|target| order(target.word));
    if request.kind == Kind::View {
        targets.iter_mut().zip(listed).for_each(|(target, named)| target.new = named.new);
    }
    targets
}

/// "It is claiming, putting or giving back". A view is claiming while `Viewing`,
/// and giving back when `Viewed`.
#[derive(Clone, Copy, Debug, PartialEq, Eq)]
pub enum Phase {
    Claiming,
    Putting,
    GivingBack,
    Viewing,
    Viewed,
}

/// A ticket, also one that a caller lent and that isn't well made.
#[derive(Clone, Debug, PartialEq, Eq)]
pub struct Ticket {
    pub phase: Phase,
    pub n: i64,
    pub claimed: i64,
    pub done: i64,
    pub tries: i64,
    pub targets: Vec<Target>,
}

/// "Tries ... stops rising at 4,294,967,295."
pub const STOP: i64 = 4_294_967_295;

/// "Every call now needs an output of 52 bytes instead of 12."
pub const OUTPUT: usize = 52;

impl Ticket {
    /// "An edit opens it claiming, its targets stored by rising position, with
    /// nothing claimed or done and tries 0". So does a view. The order is kept, whatever
    /// ranks are in force later.
    pub fn opened(request: &Request, ranks: &[i64]) -> Ticket {
        let targets = targets(request, ranks);
        let phase = if request.kind == Kind::View { Phase::Viewing } else { Phase::Claiming };
        Ticket { phase, n: targets.len() as i64, claimed: 0, done: 0, tries: 0, targets }
    }

    /// "A ticket is well made if ..."
    pub fn well_made(&self) -> bool {
        // "n is 1 to 6", and now 9 of an edit.
        let most = match self.phase {
            Phase::Viewing | Phase::Viewed => MOST_OF_VIEWS,
            Phase::Claiming | Phase::Putting | Phase::GivingBack => MOST_OF_EDITS,
        };
        if !(1..=most).contains(&self.n) || (self.targets.len() as i64) < self.n {
            return false;
        }
        // "its n words are below 4,096, their quoted and new values below 2^63"
        let sound = |target: &Target| {
            (0..WORDS).contains(&target.word)
                && matches!((target.quoted, target.new), (Word::Value(_), Word::Value(_)))
        };
        self.targets[..self.n as usize].iter().all(sound)
            && match self.phase {
                // "claimed is below n when claiming"
                Phase::Claiming => self.claimed < self.n,
                // "done is below n when putting"
                Phase::Putting => self.done < self.n,
                // "when giving back done is below claimed and claimed below n"
                Phase::GivingBack => self.done < self.claimed && self.claimed < self.n,
                Phase::Viewing => self.claimed < self.n && self.names_its_targets(),
                // "A view giving back has claimed equal to n."
                Phase::Viewed => {
                    self.done < self.claimed && self.claimed == self.n && self.names_its_targets()
                }
            }
    }

    /// "A view ... whose named words aren't distinct and its targets in some order,
    /// isn't well made."
    fn names_its_targets(&self) -> bool {
        let names = self.names();
        let words = self.targets[..names.len()].iter().map(|target| Word::Value(target.word));
        let words: Vec<Word> = words.collect();
        !any_twice(&names) && names.iter().all(|name| words.contains(name))
    }

    /// The words of a view, in the order named.
    fn names(&self) -> Vec<Word> {
        self.targets[..self.n as usize].iter().map(|target| target.new).collect()
    }

    /// "the values in the order named"
    fn seen(&self) -> Vec<u64> {
        let noted = |name: &Word| self.targets.iter().find(|t| Word::Value(t.word) == *name);
        self.names().iter().filter_map(noted).map(|target| target.quoted.bits()).collect()
    }

    fn target(&self, index: i64) -> Target {
        self.targets[index as usize]
    }
}

/// Book, tickets and the ranks in force, as a caller lends them: "nothing else writes"
/// the ranks but a load, but a caller may lend any.
#[derive(Clone, Debug, PartialEq, Eq)]
pub struct Desk {
    pub book: Vec<Word>,
    pub tickets: BTreeMap<i64, Ticket>,
    pub ranks: Vec<i64>,
}

/// What a desk answers to a frame, or what a wrong program with that desk does.
pub type Answering<'a> = &'a dyn Fn(&mut Desk, &[u8]) -> Answer;

impl Desk {
    /// "a fresh book of 4,096 zero words", "Fresh: all empty, no ticket." The fixed
    /// ranks are in force.
    pub fn fresh() -> Desk {
        let book = vec![Word::Value(0); WORDS as usize];
        Desk { book, tickets: BTreeMap::new(), ranks: RANKS.to_vec() }
    }

    /// The call: what it returns; what it writes is in `output`.
    pub fn call(&mut self, frame: &[u8], output: &mut [u8]) -> i64 {
        self.call_answered(&Desk::answer, frame, output)
    }

    /// The call of a program that may be wrong where none of 1, 13 and 2 applies.
    pub fn call_answered(&mut self, answering: Answering, frame: &[u8], output: &mut [u8]) -> i64 {
        match self.refused_alone(output) {
            Some(number) => number,
            None => self.write(answering, frame, output),
        }
    }

    /// The first refusal that is returned and not written, whatever the frame.
    pub fn refused_alone(&self, output: &[u8]) -> Option<i64> {
        // "1. The book isn't 4,096 words long."
        if self.book.len() as i64 != WORDS {
            return Some(1);
        }
        // "13, not 32 ranks or not each of 0 to 31, after 1", and "a frame given while
        // the ranks aren't each of 0 to 31 returns 13 and writes nothing".
        if !accepted(&self.ranks) {
            return Some(13);
        }
        // "2. The output is shorter than 12 bytes", and now 52.
        (output.len() < OUTPUT).then_some(2)
    }

    /// "The call returns the bytes written; later bytes of the output keep their
    /// contents."
    pub fn write(&mut self, answering: Answering, frame: &[u8], output: &mut [u8]) -> i64 {
        let bytes = answering(self, frame).bytes();
        output[..bytes.len()].copy_from_slice(&bytes);
        bytes.len() as i64
    }

    /// The answer where none of 1, 13 and 2 applies.
    pub fn answer(&mut self, frame: &[u8]) -> Answer {
        match self.understood(frame) {
            Err(number) => Answer::Refused(number),
            Ok(request) => match request.kind {
                Kind::Step => self.step(request.team()),
                Kind::Look => self.look(request.get(Looked)),
                _ => self.open(&request),
            },
        }
    }

    /// The request, or the first refusal of 3 to 11 that applies.
    fn understood(&self, frame: &[u8]) -> Result<Request, i64> {
        let request = parse(frame)?;
        if request.kind != Kind::Look {
            self.refuse_team(&request)?;
        }
        if request.out_of_range() {
            return Err(10);
        }
        if request.muddled() {
            return Err(11);
        }
        Ok(request)
    }

    fn refuse_team(&self, request: &Request) -> Result<(), i64> {
        // "6. The team is above 15."
        if request.team() >= TEAMS {
            return Err(6);
        }
        match self.tickets.get(&request.team()) {
            // "7. The team's own ticket isn't well made."
            Some(ticket) if !ticket.well_made() => Err(7),
            // "8. An edit comes from a team with a ticket." A view alike.
            Some(_) if request.kind.opens_a_ticket() => Err(8),
            // "9. A step comes from a team without one."
            None if request.kind == Kind::Step => Err(9),
            _ => Ok(()),
        }
    }

    /// "... and changes no word (Standing)."
    fn open(&mut self, request: &Request) -> Answer {
        let ticket = Ticket::opened(request, &self.ranks);
        let n = ticket.n;
        self.tickets.insert(request.team(), ticket);
        Answer::Standing(n)
    }

    /// "A look reads one word: Value, or Held if 2^63 or more."
    fn look(&self, word: i64) -> Answer {
        match self.book[word as usize] {
            Word::Value(value) => Answer::Value(value as u64),
            Word::Marked(_) => Answer::Held,
        }
    }

    fn step(&mut self, team: i64) -> Answer {
        let Some(mut ticket) = self.tickets.remove(&team) else { return Answer::Refused(9) };
        // "Tries counts the swaps tried, waits included".
        ticket.tries = (ticket.tries + 1).min(STOP);
        let answer = match ticket.phase {
            Phase::Claiming => self.claim(team, &mut ticket),
            Phase::Putting => self.put(team, &mut ticket),
            Phase::GivingBack => self.give_back(team, &mut ticket),
            Phase::Viewing => self.note(team, &mut ticket),
            Phase::Viewed => self.give_back_seen(team, &mut ticket),
        };
        // "A finished ticket is gone."
        if !matches!(answer, Answer::Granted(_) | Answer::Stale(..) | Answer::Seen(_)) {
            self.tickets.insert(team, ticket);
        }
        answer
    }

    fn claim(&mut self, team: i64, ticket: &mut Ticket) -> Answer {
        let target = ticket.target(ticket.claimed);
        let word = &mut self.book[target.word as usize];
        // "if the word is the quoted value it becomes the team's mark (Claimed;
        // with the n-th the ticket also goes over to putting, nothing done yet)"
        if *word == target.quoted {
            *word = Word::Marked(team);
            ticket.claimed += 1;
            if ticket.claimed == ticket.n {
                ticket.phase = Phase::Putting;
                ticket.done = 0;
            }
            return Answer::Claimed(ticket.claimed);
        }
        // "If it is 2^63 or more nothing changes (Waiting)."
        if let Some(holder) = word.holder() {
            return Answer::Waiting(target.word, holder);
        }
        // "Otherwise the ticket is stale: giving back, nothing done yet, if any
        // word is claimed (Found), else finished (Stale)."
        if ticket.claimed > 0 {
            ticket.phase = Phase::GivingBack;
            ticket.done = 0;
            return Answer::Found(target.word);
        }
        Answer::Stale(target.word, ticket.tries)
    }

    /// "the next target gets its new value if it holds the team's mark and stays
    /// if not; either way it counts as done"
    fn leave(&mut self, team: i64, word: i64, value: Word) {
        if self.book[word as usize] == Word::Marked(team) {
            self.book[word as usize] = value;
        }
    }

    /// "(Put; the last: Granted)"
    fn put(&mut self, team: i64, ticket: &mut Ticket) -> Answer {
        let target = ticket.target(ticket.done);
        self.leave(team, target.word, target.new);
        ticket.done += 1;
        if ticket.done == ticket.n {
            Answer::Granted(ticket.tries)
        } else {
            Answer::Put(ticket.done)
        }
    }

    /// "Giving back: likewise with the quoted value (Returned; the last: Stale)."
    fn give_back(&mut self, team: i64, ticket: &mut Ticket) -> Answer {
        let target = ticket.target(ticket.done);
        self.leave(team, target.word, target.quoted);
        ticket.done += 1;
        if ticket.done == ticket.claimed {
            // "Found and Stale name the word that differed."
            Answer::Stale(ticket.target(ticket.claimed).word, ticket.tries)
        } else {
            Answer::Returned(ticket.done)
        }
    }

    /// "claims each by position, noting the value found, never stale: its claiming
    /// swap ... takes any value below 2^63 and else waits; then it gives all back"
    fn note(&mut self, team: i64, ticket: &mut Ticket) -> Answer {
        let target = &mut ticket.targets[ticket.claimed as usize];
        let word = &mut self.book[target.word as usize];
        if let Some(holder) = word.holder() {
            return Answer::Waiting(target.word, holder);
        }
        target.quoted = *word;
        *word = Word::Marked(team);
        ticket.claimed += 1;
        if ticket.claimed == ticket.n {
            ticket.phase = Phase::Viewed;
            ticket.done = 0;
        }
        Answer::Claimed(ticket.claimed)
    }

    /// "and the last step answers kind 139 with the values in the order named"
    fn give_back_seen(&mut self, team: i64, ticket: &mut Ticket) -> Answer {
        let target = ticket.target(ticket.done);
        self.leave(team, target.word, target.quoted);
        ticket.done += 1;
        if ticket.done == ticket.n {
            Answer::Seen(ticket.seen())
        } else {
            Answer::Returned(ticket.done)
        }
    }
}

/// "It starts from a fresh book of 4,096 zero words, reads frames from standard
/// input to its end and writes each answer. A torn last frame, or a length field
/// above 62, gives Refused 3 and stops it." It lends the fixed ranks throughout.
pub fn survey(input: &[u8]) -> Vec<u8> {
    let mut desk = Desk::fresh();
    let mut output = Vec::new();
    let mut rest = input;
    loop {
        match next(rest) {
            Next::Nothing => return output,
            Next::Torn | Next::TooLong => {
                output.extend(Answer::Refused(3).bytes());
                return output;
            }
            Next::Whole(frame) => {
                let mut room = [0; OUTPUT];
                let written = desk.call(frame, &mut room);
                output.extend(&room[..written as usize]);
                rest = &rest[frame.len()..];
            }
        }
    }
}
