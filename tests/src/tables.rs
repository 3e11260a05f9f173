//! Tables of tickets as a caller lends them, and calls on them: tickets that aren't well
//! made, odd ones that are, slots of finished tickets, and numbers that mean nothing.

use crate::frames::{Field::*, Kind, Request};
use crate::layout::*;
use crate::lent::{Call, NOBODYS};
use crate::model::{Phase, Target, Ticket, STOP};

/// Room for the targets of a team: as many as an edit may have, and more than a view may.
const ROOM: i64 = 9;
/// The numbers of a target: word, quoted value, new value.
const TARGET: i64 = 3;

/// The place of a team's first number among the targets of all.
pub fn first_place(team: i64) -> i64 {
    TARGET * ROOM * team
}

/// Whose ticket a slot keeps.
#[derive(Clone, Copy, Debug, PartialEq, Eq)]
pub enum Whose {
    Edits = 0,
    StaleEdits = 1,
    Views = 2,
}
use Whose::*;

/// A team's slot, and the first numbers of its room. Numbers behind these stay.
#[derive(Clone, Debug, PartialEq, Eq)]
pub struct Slot {
    pub whose: Whose,
    pub n: i64,
    pub claimed: i64,
    pub done: i64,
    pub tries: i64,
    pub numbers: Vec<u64>,
}

impl Slot {
    pub fn bytes(&self) -> Vec<u8> {
        let counts = [self.n, self.claimed, self.done, self.whose as i64];
        let counts = counts.into_iter().flat_map(|count| (count as u16).to_le_bytes());
        (self.tries as u32).to_le_bytes().into_iter().chain(counts).collect()
    }

    /// "A finished ticket is gone": one stands where fewer are done than it has targets.
    pub fn stands(&self) -> bool {
        self.done < self.n
    }

    /// What the slot says. A ticket claims while nothing is done and not all is claimed.
    /// Then an edit puts, a view gives back; an edit found stale gives back.
    pub fn says(&self) -> Option<Ticket> {
        let claims = self.done == 0 && self.claimed < self.n;
        let phase = match (self.whose, claims) {
            (Edits, true) => Phase::Claiming,
            (Edits, false) => Phase::Putting,
            (StaleEdits, _) => Phase::GivingBack,
            (Views, true) => Phase::Viewing,
            (Views, false) => Phase::Viewed,
        };
        self.stands().then(|| self.in_phase(phase))
    }

    /// The ticket of its counts and of its first n numbers, or all.
    pub fn in_phase(&self, phase: Phase) -> Ticket {
        let Slot { n, claimed, done, tries, .. } = *self;
        let targets = self.numbers.chunks_exact(TARGET as usize).map(|target| Target {
            word: target[0] as i64,
            quoted: Word::of_bits(target[1]),
            new: Word::of_bits(target[2]),
        });
        Ticket { phase, n, claimed, done, tries, targets: targets.take(n as usize).collect() }
    }

    /// A slot of so many targets, with nothing claimed, done or tried.
    pub fn of(whose: Whose, targets: &[[u64; 3]]) -> Slot {
        let (n, numbers) = (targets.len() as i64, targets.concat());
        Slot { whose, n, claimed: 0, done: 0, tries: 0, numbers }
    }

    pub fn counting(self, claimed: i64, done: i64) -> Slot {
        Slot { claimed, done, ..self }
    }

    /// With another n than it has targets.
    pub fn saying(self, n: i64) -> Slot {
        Slot { n, ..self }
    }

    fn tried(self, tries: i64) -> Slot {
        Slot { tries, ..self }
    }

    /// With such a number in all the room behind its targets.
    pub fn before(mut self, number: u64) -> Slot {
        self.numbers.resize((TARGET * ROOM) as usize, number);
        self
    }
}

const HELD: u64 = 1 << 63;
const LARGEST: u64 = u64::MAX;

/// So many targets of the words from 0 on, which a view names in their order.
pub fn plain(whose: Whose, n: u64) -> Slot {
    let target = |word: u64| [word, 0, if whose == Views { word } else { 1 }];
    Slot::of(whose, &(0..n).map(target).collect::<Vec<_>>())
}

/// An Add that could be granted, and one with no distance and from equal to to.
fn adds(team: i64) -> [Request; 2] {
    let leg = [(Team, team), (P, 25), (R, 7), (From, 1), (To, 2), (Distance, 5_000)];
    [Request::new(Kind::Add, &leg), Request::new(Kind::Add, &[(Team, team), (R, 1)])]
}

/// A view of two words, and one of a word out of range, named twice.
fn views(team: i64) -> [Request; 2] {
    [Request::view(team, &[12, 50]), Request::view(team, &[4_096, 4_096])]
}

/// An edit, a step and a view of its team, each on a fresh book and that slot alone. Before
/// the first come calls that leave it in any case: an edit and a view to be refused under 10
/// and 11, and a look at word 0.
fn in_each_way(team: i64, slot: &Slot) -> Vec<Call> {
    let ([add, bad_add], [view, bad_view]) = (adds(team), views(team));
    let groups =
        [vec![bad_add, bad_view, Request::look(0), add], vec![Request::step(team)], vec![view]];
    let lent = [Call::Fresh, Call::Lend(team, slot.clone())];
    let calls = groups.map(|group| group.into_iter().map(Call::ask).collect::<Vec<_>>());
    calls.into_iter().flat_map(|calls| [&lent[..], &calls].concat()).collect()
}

fn all_in_each_way(title: &'static str, team: i64, slots: &[Slot]) -> Vec<Call> {
    let calls = slots.iter().flat_map(|slot| in_each_way(team, slot));
    [Call::Title(title)].into_iter().chain(calls).collect()
}

/// Steps of a team on a fresh book, from that slot on.
fn steps(words: &[(i64, u64)], team: i64, slot: &Slot, count: usize) -> Vec<Call> {
    let words = words.iter().map(|(word, value)| Call::Word(*word, *value));
    let lent = [Call::Lend(team, slot.clone())];
    let steps = vec![Call::step(team); count];
    [Call::Fresh].into_iter().chain(words).chain(lent).chain(steps).collect()
}

fn marks_of_nobody() -> Vec<Call> {
    let mut calls = vec![Call::Title("A claim waits for a mark that is nobody's.")];
    let slots = [Slot::of(Edits, &[[7, 0, 1]]), Slot::of(Views, &[[7, 0, 7]])];
    for slot in slots {
        calls.extend(steps(&[(7, LARGEST)], 5, &slot, 1));
        calls.extend([Call::Word(7, NOBODYS), Call::step(5)]);
        calls.extend([Call::Word(7, HELD - 1), Call::step(5), Call::step(5)]);
    }
    calls
}

/// "An edit's ticket has up to 9 targets, a view's up to 6 as before."
fn other_counts_of_targets() -> Vec<Call> {
    let mut slots: Vec<Slot> = (7..=9).map(|n| plain(Views, n)).collect();
    slots.extend([10, 255, 256, 262, 265, 65_535].map(|n| plain(Edits, 9).saying(n)));
    slots.extend([10, 262, 65_535].map(|n| plain(Views, 9).saying(n)));
    slots.extend([10, 265, 65_535].map(|n| plain(StaleEdits, 9).saying(n).counting(2, 1)));
    slots.extend([10, 65_535].map(|n| plain(Edits, 9).saying(n).counting(n, n - 1)));
    slots.extend([7, 9, 65_535].map(|n| plain(Views, 9).saying(n).counting(n, n - 1)));
    let last = [
        plain(Views, 9),
        plain(Edits, 9).saying(10),
        plain(Edits, 9).saying(65_535),
        plain(Views, 9).saying(10),
    ];
    let title = "More targets than nine, or six of a view: refusal 7, before 8, 10 and 11.";
    let of_last = "The same of the last team.";
    [all_in_each_way(title, 3, &slots), all_in_each_way(of_last, 15, &last)].concat()
}

/// Edits with more targets than a view may have, in each phase.
fn most_targets() -> Vec<Call> {
    let of = |n: u64| {
        [
            plain(Edits, n),
            plain(Edits, n).counting(n as i64 - 1, 0),
            plain(Edits, n).counting(n as i64, n as i64 - 1),
            plain(StaleEdits, n).counting(n as i64 - 1, n as i64 - 2),
        ]
    };
    let slots = (7..=9).flat_map(of).collect::<Vec<_>>();
    let nine: Vec<[u64; 3]> = (0..9).map(|k| [4_095 - k, k, HELD - 1 - k]).collect();
    let words: Vec<(i64, u64)> = nine.iter().map(|target| (target[0] as i64, target[1])).collect();
    let mut off = words.clone();
    off[8].1 = 9;
    let title = "Seven to nine targets of an edit are well made, of any team.";
    [
        all_in_each_way(title, 3, &slots),
        all_in_each_way("The same of the last team.", 15, &slots[8..]),
        vec![Call::Title("Nine targets claimed and put, and given back at the ninth.")],
        steps(&words, 15, &Slot::of(Edits, &nine), 18),
        steps(&off, 15, &Slot::of(Edits, &nine), 17),
    ]
    .concat()
}

/// "its n words are below 4,096"
fn other_words() -> Vec<Call> {
    let words = [4_096, 4_097, 65_535, 65_536, 65_543, (1 << 32) + 7, HELD, HELD + 3, LARGEST];
    let slots = words.into_iter().flat_map(|word| {
        [
            Slot::of(Edits, &[[word, 0, 1]]),
            Slot::of(Edits, &[[0, 0, 1], [word, 0, 1]]),
            Slot::of(Edits, &[[word, 0, 1], [0, 0, 1]]).counting(2, 1),
            Slot::of(StaleEdits, &[[0, 0, 1], [word, 0, 1]]).counting(1, 0),
            Slot::of(Views, &[[word, 0, word]]),
            Slot::of(Views, &[[0, 0, word], [word, 0, 0]]).counting(2, 1),
        ]
    });
    let title = "Words that no book has: refusal 7.";
    all_in_each_way(title, 3, &slots.collect::<Vec<_>>())
}

/// "their quoted and new values below 2^63"
fn other_values() -> Vec<Call> {
    let slots = [HELD, HELD + 3, LARGEST].into_iter().flat_map(|value| {
        [
            Slot::of(Edits, &[[0, value, 0]]),
            Slot::of(Edits, &[[0, 0, value]]),
            Slot::of(Edits, &[[0, 0, 1], [1, 0, value]]).counting(2, 0),
            Slot::of(StaleEdits, &[[0, value, 1], [1, 0, 1]]).counting(1, 0),
            Slot::of(Views, &[[0, value, 0]]),
            Slot::of(Views, &[[0, 0, value]]),
            Slot::of(Views, &[[0, value, 0]]).counting(1, 0),
        ]
    });
    all_in_each_way("Marks for values: refusal 7.", 3, &slots.collect::<Vec<_>>())
}

/// "when giving back done is below claimed and claimed below n", "A view giving back has
/// claimed equal to n."
fn other_counts() -> Vec<Call> {
    let stale = |n, claimed, done| plain(StaleEdits, n).counting(claimed, done);
    let view = |n, claimed, done| plain(Views, n).counting(claimed, done);
    let slots = [
        stale(2, 2, 1),
        stale(2, 1, 1),
        stale(3, 1, 2),
        stale(2, 0, 0),
        stale(3, 0, 1),
        stale(3, 4, 0),
        stale(3, 65_535, 2),
        stale(1, 1, 0),
        view(2, 1, 1),
        view(2, 0, 1),
        view(2, 3, 0),
        view(2, 3, 1),
        view(2, 65_535, 0),
    ];
    all_in_each_way("Counts out of order: refusal 7.", 3, &slots)
}

/// "whose named words aren't distinct and its targets in some order"
fn other_names() -> Vec<Call> {
    let two = |names: [[u64; 2]; 2]| names.map(|[word, name]| [word, 0, name]);
    let slots = [
        Slot::of(Views, &two([[9, 9], [9, 9]])),
        Slot::of(Views, &two([[0, 1], [1, 1]])),
        Slot::of(Views, &two([[0, 0], [1, 65_537]])),
        Slot::of(Views, &two([[0, 0], [1, 2]])),
        Slot::of(Views, &two([[9, 9], [9, 8]])).counting(2, 0),
        Slot::of(Views, &two([[0, 1], [1, 1]])).counting(2, 1),
    ];
    all_in_each_way("Views that name other words than their targets: refusal 7.", 3, &slots)
}

/// A ticket that isn't well made is its own team's affair.
fn bad_for_one_team() -> Vec<Call> {
    let bad = Slot::of(Edits, &[[50, HELD, 7]]);
    let calls = [Call::step(3), Call::step(16), Call::step(4), Call::look(3)];
    let mut asked =
        vec![Call::Title("Refusal 7 comes after 6, and to the ticket's own team alone.")];
    asked.extend([Call::Fresh, Call::Lend(3, bad)]);
    asked.extend(calls);
    let others = (0..TEAMS).filter(|team| *team != 3);
    let slots = [plain(Edits, 9).saying(65_535), Slot::of(Views, &[[LARGEST; 3]]).before(LARGEST)];
    asked.push(Call::Fresh);
    asked.extend(others.map(|team| Call::Lend(team, slots[team as usize % 2].clone())));
    asked.extend([Call::ask(adds(3)[0]), Call::step(3), Call::look(50), Call::step(4)]);
    asked
}

/// An edit that is putting may have claimed any number.
fn odd_counts() -> Vec<Call> {
    let putting = |claimed, done| plain(Edits, 2).counting(claimed, done).tried(9);
    let slots = [putting(3, 0), putting(65_535, 0), putting(0, 1), putting(1, 1), putting(2, 0)];
    all_in_each_way("Well made though odd: putting, whatever is claimed.", 3, &slots)
}

/// Whatever stands in a team's room behind its n targets.
fn numbers_behind() -> Vec<Call> {
    let two_words = Slot::of(Views, &[[12, 6, 50], [50, 6, 12]]);
    let slots = [
        Slot::of(Edits, &[[0, 0, 5]]),
        plain(Edits, 6),
        plain(Edits, 8),
        plain(Edits, 2).counting(2, 0),
        plain(StaleEdits, 3).counting(2, 0),
        two_words.clone().counting(1, 0),
        two_words.counting(2, 1),
        plain(Views, 6).counting(6, 5),
    ];
    let behind = |number: u64| slots.clone().map(|slot| slot.before(number));
    let title = "Numbers behind the n-th target mean nothing, a view's noted values neither.";
    let asked = [LARGEST, 12].map(behind).concat();
    let to_the_end = behind(HELD).map(|slot| steps(&[(50, 8)], 3, &slot, 2 * slot.n as usize));
    [all_in_each_way(title, 3, &asked), to_the_end.concat()].concat()
}

/// "A finished ticket is gone", whatever its slot keeps.
fn finished() -> Vec<Call> {
    let counts = [(1, 1, 1), (3, 1, 3), (2, 65_535, 2), (65_535, 7, 65_535)];
    let beyond = [(1, 0, 9), (0, 0, 0), (0, 5, 0), (0, 0, 65_535), (6, 6, 7)];
    let slots = counts.into_iter().chain(beyond).flat_map(|(n, claimed, done)| {
        [Edits, StaleEdits, Views].map(|whose| {
            let slot = Slot::of(whose, &[]).saying(n).counting(claimed, done).tried(STOP - 1);
            slot.before(if n % 2 == 0 { LARGEST } else { 7 })
        })
    });
    let title = "Slots without a ticket: no targets, or all are done.";
    all_in_each_way(title, 3, &slots.collect::<Vec<_>>())
}

/// A ticket of every team, each with its own words, and a team whose neighbours' rooms
/// are full.
fn every_team() -> Vec<Call> {
    let mut calls = vec![Call::Title("A ticket of every team."), Call::Fresh];
    for team in 0..TEAMS {
        let first = 100 * team as u64;
        let targets = |n: u64, named: fn(u64) -> u64| {
            (0..n).map(|k| [first + k, 0, first + named(k)]).collect::<Vec<_>>()
        };
        let views = team % 2 == 1;
        let slot = if views {
            Slot::of(Views, &targets(6, |k| 5 - k))
        } else {
            Slot::of(Edits, &targets(9, |k| k + 1))
        };
        calls.push(Call::Lend(team, slot.before(LARGEST)));
    }
    calls.extend((0..TEAMS).map(Call::step));
    calls.push(Call::Title("Opening leaves the rooms of both neighbours."));
    calls.push(Call::Fresh);
    calls.extend([2, 4].map(|team| Call::Lend(team, plain(Edits, 9).before(0))));
    calls.extend([adds(3)[0], views(3)[0]].map(Call::ask));
    let six = Request::view(3, &[4_095, 12, 65, 51, 50, 13]);
    calls.extend([Call::Lend(3, plain(Edits, 9).counting(0, 9)), Call::ask(six)]);
    let nine = [(Team, 3), (P, 0), (Q, 1), (F, 10), (R, 500), (S, 300), (H, 1_000)];
    let mut nine = Request::new(Kind::Move, &nine);
    [(C, 3), (D, 1), (From, 1), (To, 2)].into_iter().for_each(|(at, value)| nine.set(at, value));
    calls.extend([Call::Lend(3, plain(Edits, 9).counting(0, 9)), Call::ask(nine)]);
    calls
}

fn out_of_order() -> Vec<Call> {
    let title = "Words named twice or out of order: the second claim waits for the first.";
    let twice = Slot::of(Edits, &[[9, 0, 1], [9, 0, 2]]);
    let falling = Slot::of(Edits, &[[30, 0, 1], [3, 0, 2]]);
    [vec![Call::Title(title)], steps(&[], 2, &twice, 2), steps(&[], 2, &falling, 4)].concat()
}

fn marks_lost() -> Vec<Call> {
    let marks = [(10, HELD + 2), (11, HELD + 3)];
    let puts = Slot::of(Edits, &[[12, 0, 5], [11, 0, 5], [10, 0, 5]]).counting(3, 0).tried(6);
    let back = Slot::of(StaleEdits, &[[10, 4, 5], [11, 4, 5], [12, 4, 5], [33, 4, 5]]);
    let back = back.counting(3, 0).tried(6);
    let seen = Slot::of(Views, &[[10, 40, 12], [11, 41, 10], [12, 42, 11]]);
    let seen = seen.counting(3, 0).tried(6);
    [
        vec![Call::Title(
            "Putting leaves a word that doesn't hold the mark; either way it counts.",
        )],
        steps(&marks, 2, &puts, 3),
        vec![Call::Title(
            "Giving back the same, with the quoted value; Stale names the word at claimed.",
        )],
        steps(&marks, 2, &back, 3),
        vec![Call::Title("A view alike, and it shows what was noted.")],
        steps(&marks, 2, &seen, 3),
    ]
    .concat()
}

fn changes_of_phase() -> Vec<Call> {
    let claimed_one =
        |quoted| Slot::of(Edits, &[[0, 0, 1], [1, quoted, 1]]).counting(1, 0).tried(3);
    let six = |k: u64| [k, 10 + k, 5 - k];
    let view = Slot::of(Views, &(0..6).map(six).collect::<Vec<_>>()).counting(6, 5).tried(11);
    let own = [(0, HELD + 1)];
    let noted = Slot::of(Views, &[[12, 6, 50], [50, 6, 12]]).counting(1, 0).tried(7);
    [
        vec![Call::Title("At each change of phase nothing is done yet.")],
        steps(&own, 1, &claimed_one(0), 3),
        steps(&own, 1, &claimed_one(8), 2),
        steps(&[(12, HELD + 1), (50, 8)], 1, &noted, 3),
        vec![Call::Title("Six values fill an output of 52 bytes.")],
        steps(&[], 1, &view, 1),
    ]
    .concat()
}

fn tries_stop() -> Vec<Call> {
    let mut calls = vec![Call::Title("Tries stop at 4,294,967,295.")];
    let slots = [(Slot::of(Edits, &[[0, 0, 1]]), 0), (Slot::of(Views, &[[0, 0, 0]]), 5)];
    for (slot, value) in slots {
        calls.extend(steps(&[(0, NOBODYS)], 0, &slot.tried(STOP - 1), 2));
        calls.extend([Call::Word(0, value), Call::step(0), Call::step(0)]);
    }
    let back = Slot::of(StaleEdits, &[[0, 0, 1], [1, 0, 1], [2, 0, 1]]).counting(2, 0);
    calls.extend(steps(&[], 0, &back.tried(STOP), 2));
    calls
}

/// The largest that a ticket may have.
fn at_limits() -> Vec<Call> {
    let edit = Slot::of(Edits, &[[4_095, HELD - 1, HELD - 1], [4_094, 0, HELD - 1]]);
    let stale = Slot::of(StaleEdits, &[[4_095, HELD - 1, 0], [4_094, 1, HELD - 1]]);
    let view = Slot::of(Views, &[[4_095, 0, 0], [0, HELD - 1, 4_095]]);
    [
        vec![Call::Title("The largest words and values.")],
        steps(&[(4_095, HELD - 1)], 15, &edit, 4),
        steps(&[(4_095, HELD + 15)], 15, &stale.counting(1, 0), 1),
        steps(&[(4_095, HELD - 1)], 15, &view, 4),
    ]
    .concat()
}

/// All calls on lent tables.
pub fn cases() -> Vec<Call> {
    let badly_made = [other_counts_of_targets(), other_words(), other_values(), other_counts()];
    let others = [most_targets(), other_names(), bad_for_one_team()];
    let odd = [odd_counts(), numbers_behind(), finished(), every_team(), out_of_order()];
    let steps = [marks_lost(), changes_of_phase(), tries_stop(), at_limits()];
    [vec![marks_of_nobody()], badly_made.into(), others.into(), odd.into(), steps.into()]
        .concat()
        .concat()
}

#[cfg(test)]
mod tests {
    use super::*;
    use crate::lent::{answered_by, stored};

    /// What a program takes for a team's ticket that reads the table otherwise.
    type Says = fn(&Slot) -> Option<Ticket>;

    fn words_by(slot: &Slot, word: fn(u64) -> u64) -> Option<Ticket> {
        let mut numbers = slot.numbers.clone();
        numbers.iter_mut().step_by(TARGET as usize).for_each(|number| *number = word(*number));
        Slot { numbers, ..slot.clone() }.says()
    }

    fn counts_by(slot: &Slot, count: fn(i64) -> i64) -> Option<Ticket> {
        let [n, claimed, done] = [slot.n, slot.claimed, slot.done].map(count);
        Slot { n, claimed, done, ..slot.clone() }.says()
    }

    const OTHERWISE: [(&str, Says); 11] = [
        ("no ticket where n is 0", |slot| {
            let said = Slot { done: slot.done.min(slot.n - 1), ..slot.clone() };
            if slot.n == 0 {
                None
            } else {
                said.says()
            }
        }),
        ("no ticket where all is done", |slot| {
            let said = Slot { n: slot.n.max(slot.done + 1), ..slot.clone() };
            if slot.n == slot.done {
                None
            } else {
                said.says()
            }
        }),
        ("claims while not all is claimed", |slot| {
            let claims = slot.whose == Edits && slot.claimed < slot.n && slot.stands();
            if claims {
                Some(slot.in_phase(Phase::Claiming))
            } else {
                slot.says()
            }
        }),
        ("a view claims while not all is claimed", |slot| {
            let claims = slot.whose == Views && slot.claimed < slot.n && slot.stands();
            if claims {
                Some(slot.in_phase(Phase::Viewing))
            } else {
                slot.says()
            }
        }),
        ("puts once anything is claimed", |slot| {
            let puts = slot.whose == Edits && slot.claimed > 0 && slot.stands();
            if puts {
                Some(slot.in_phase(Phase::Putting))
            } else {
                slot.says()
            }
        }),
        ("an edit found stale puts", |slot| {
            let puts = slot.whose == StaleEdits && slot.stands();
            if puts {
                Some(slot.in_phase(Phase::Putting))
            } else {
                slot.says()
            }
        }),
        ("words of 16 bits", |slot| words_by(slot, |word| word % 65_536)),
        ("words of 63 bits", |slot| words_by(slot, |word| word % HELD)),
        ("words of 12 bits", |slot| words_by(slot, |word| word % 4_096)),
        ("counts of 8 bits", |slot| counts_by(slot, |count| count % 256)),
        ("the whole room is the ticket's", |slot| {
            let said = slot.says()?;
            let whole = Slot { n: ROOM, ..slot.clone() }.in_phase(said.phase);
            let fits = (1..=ROOM).contains(&said.n) && slot.numbers.len() == 27;
            let bad = |target: &Target| !(0..WORDS).contains(&target.word);
            Some(if fits && whole.targets.iter().any(bad) { Ticket { n: 0, ..said } } else { said })
        }),
    ];

    #[test]
    fn other_readings_of_the_table_are_told() {
        let calls = stored();
        let right = answered_by(&calls, None, Slot::says);
        for (name, says) in OTHERWISE {
            assert_ne!(answered_by(&calls, None, says), right, "{name}");
        }
    }

    /// No number is told that a case doesn't give.
    #[test]
    fn tickets_are_lent_whole() {
        for call in stored() {
            let Call::Lend(team, slot) = call else { continue };
            let given = slot.numbers.len() as i64;
            assert!(given <= TARGET * ROOM, "{team}: {slot:?}");
            assert!(!slot.stands() || given >= TARGET * slot.n.min(ROOM), "{team}: {slot:?}");
        }
    }

    /// The form that the program reads, byte by byte.
    #[test]
    fn slots_in_bytes() {
        let slot = Slot::of(Views, &[[1, 2, 3]]).counting(0x102, 0x304).tried(0x8070_6050);
        assert_eq!(slot.bytes(), [0x50, 0x60, 0x70, 0x80, 1, 0, 2, 1, 4, 3, 2, 0]);
        assert_eq!((first_place(0), first_place(3), first_place(15)), (0, 81, 405));
    }
}
