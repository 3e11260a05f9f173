//! "Every ticket gets done": after any frames, rounds in which each team with a
//! ticket steps once, in orders that are chosen to make teams wait.

use crate::frames::{Answer, Request};
use crate::layout::Word;
use crate::model::{Answering, Desk, Phase};
use crate::streams::Prng;

/// "in any order": how the teams of a round follow each other.
#[derive(Clone, Copy, Debug, PartialEq, Eq)]
pub enum Order {
    Rising,
    Falling,
    /// Rising and falling in turn.
    Alternating,
    Random,
    /// Those that wait as the round begins, before all others.
    WaitersFirst,
    /// By the number of words held as the round begins, the most last.
    HoldersLast,
    /// Chosen anew before each step: one that waits if there is one, else one
    /// that claims.
    Hindering,
}

pub const ORDERS: [Order; 7] = [
    Order::Rising,
    Order::Falling,
    Order::Alternating,
    Order::Random,
    Order::WaitersFirst,
    Order::HoldersLast,
    Order::Hindering,
];

/// What the rounds were.
#[derive(Debug, Default)]
pub struct Course {
    /// The teams as they stepped.
    pub steps: Vec<i64>,
    pub rounds: i64,
    /// "twice as many rounds as the standing tickets have targets together"
    pub bound: i64,
}

/// Steps in rounds until no ticket stands. Complains of a round in which all wait,
/// and of tickets that stand after as many rounds as the paper allows.
pub fn run(
    desk: &mut Desk,
    answering: Answering,
    order: Order,
    rng: &mut Prng,
) -> Result<Course, String> {
    let targets: i64 = desk.tickets.values().map(|ticket| ticket.n).sum();
    let mut course = Course { bound: 2 * targets, ..Course::default() };
    while !desk.tickets.is_empty() {
        if course.rounds == course.bound {
            return Err(format!("after {} rounds tickets stand", course.rounds));
        }
        course.rounds += 1;
        let mut left = arranged(desk, order, course.rounds, rng);
        let mut moved = false;
        while !left.is_empty() {
            let at = if order == Order::Hindering { most_hindering(desk, &left) } else { 0 };
            let team = left.remove(at);
            moved |= !step_waits(desk, answering, team);
            course.steps.push(team);
        }
        if !moved {
            return Err(format!("in round {} all wait", course.rounds));
        }
    }
    Ok(course)
}

/// Makes a team's step; true if it was answered Waiting.
fn step_waits(desk: &mut Desk, answering: Answering, team: i64) -> bool {
    matches!(answering(desk, &Request::step(team).bytes()), Answer::Waiting(..))
}

/// The teams with a ticket as a round's order has them; where that leaves it
/// open, in any.
fn arranged(desk: &Desk, order: Order, round: i64, rng: &mut Prng) -> Vec<i64> {
    let mut teams: Vec<i64> = desk.tickets.keys().copied().collect();
    let falling = order == Order::Falling || (order == Order::Alternating && round % 2 == 0);
    if falling {
        teams.reverse();
    }
    if !matches!(order, Order::Rising | Order::Falling | Order::Alternating) {
        teams.sort_by_cached_key(|_| rng.next());
    }
    match order {
        Order::WaitersFirst => teams.sort_by_key(|team| !must_wait(desk, *team)),
        Order::HoldersLast => teams.sort_by_key(|team| words_held(desk, *team)),
        _ => {}
    }
    teams
}

/// Where in a list the team is whose step now helps the others least.
fn most_hindering(desk: &Desk, teams: &[i64]) -> usize {
    let help = |team: i64| match is_claiming(desk, team) {
        true if must_wait(desk, team) => 0,
        true => 1,
        false => 2,
    };
    (0..teams.len()).min_by_key(|at| help(teams[*at])).unwrap_or(0)
}

fn is_claiming(desk: &Desk, team: i64) -> bool {
    matches!(desk.tickets[&team].phase, Phase::Claiming | Phase::Viewing)
}

/// Whether a team's next target is a word that somebody holds.
fn must_wait(desk: &Desk, team: i64) -> bool {
    let ticket = &desk.tickets[&team];
    let next = ticket.targets.get(ticket.claimed as usize).filter(|_| is_claiming(desk, team));
    next.is_some_and(|target| desk.book[target.word as usize].holder().is_some())
}

fn words_held(desk: &Desk, team: i64) -> usize {
    let targets = desk.tickets[&team].targets.iter();
    targets.filter(|target| desk.book[target.word as usize] == Word::Marked(team)).count()
}

#[cfg(test)]
mod tests {
    use super::*;
    use crate::checks::opposite_moves;
    use crate::frames::{split, Field::*, Kind};
    use crate::layout::{TEAMS, WORDS};
    use crate::loads::permutation;
    use crate::ranks;
    use crate::streams::Author;
    use crate::wrong::{self, Fault};
    use std::collections::BTreeMap;

    fn wrong_by(fault: Fault) -> impl Fn(&mut Desk, &[u8]) -> Answer {
        move |desk, frame| wrong::answer(fault, desk, frame)
    }

    /// The desk that frames lead to.
    fn after(answering: Answering, input: &[u8]) -> Desk {
        let mut desk = Desk::fresh();
        split(input).iter().for_each(|frame| drop(answering(&mut desk, frame)));
        desk
    }

    fn after_views(views: &[&[i64]]) -> Desk {
        let view = |(team, words): (usize, &&[i64])| Request::view(team as i64, words).bytes();
        let frames: Vec<u8> = views.iter().enumerate().flat_map(view).collect();
        after(&Desk::answer, &frames)
    }

    /// Contention that leaves a ticket of every team.
    fn crowd(seed: u64) -> Vec<u8> {
        let mut author = Author::new(seed);
        author.contend(300);
        author.crowd();
        author.bytes
    }

    /// All orders in which a round's teams can step.
    fn every_order(teams: &[i64]) -> Vec<Vec<i64>> {
        if teams.is_empty() {
            return vec![Vec::new()];
        }
        let mut orders = Vec::new();
        for first in teams {
            let others: Vec<i64> = teams.iter().copied().filter(|team| team != first).collect();
            let with_first = |rest: Vec<i64>| [&[*first], &rest[..]].concat();
            orders.extend(every_order(&others).into_iter().map(with_first));
        }
        orders
    }

    /// The most rounds that it can take until no ticket stands, whatever the orders;
    /// none if in one of them all wait. What is known of a desk isn't worked out again.
    fn longest(
        desk: &Desk,
        answering: Answering,
        known: &mut BTreeMap<String, Option<i64>>,
    ) -> Option<i64> {
        let teams: Vec<i64> = desk.tickets.keys().copied().collect();
        let words = desk.book.iter().enumerate();
        let used: Vec<_> = words.filter(|(_, word)| **word != Word::Value(0)).collect();
        let name = format!("{:?} {used:?}", desk.tickets);
        if let Some(rounds) = known.get(&name) {
            return *rounds;
        }
        let mut rounds = Some(0);
        for order in every_order(&teams).into_iter().filter(|order| !order.is_empty()) {
            let mut later = desk.clone();
            let waits = order.iter().filter(|team| step_waits(&mut later, answering, **team));
            let moved = waits.count() < order.len();
            let rest = if moved { longest(&later, answering, known) } else { None };
            rounds = rounds.zip(rest).map(|(most, rest)| most.max(1 + rest));
        }
        known.insert(name, rounds);
        rounds
    }

    fn longest_of(desk: &Desk) -> Option<i64> {
        longest(desk, &Desk::answer, &mut BTreeMap::new())
    }

    #[test]
    fn no_ticket_takes_no_round() {
        for order in ORDERS {
            let course = run(&mut Desk::fresh(), &Desk::answer, order, &mut Prng::new(1)).unwrap();
            assert_eq!((course.rounds, course.bound), (0, 0));
        }
    }

    /// The bound can't be less: one of two views of a word waits while the other
    /// has it, in both its rounds if it steps first in the second.
    #[test]
    fn two_views_of_one_word_take_four_of_four_rounds() {
        let desk = after_views(&[&[9], &[9]]);
        for (order, rounds) in [(Order::WaitersFirst, 4), (Order::Hindering, 4), (Order::Rising, 3)]
        {
            let course = run(&mut desk.clone(), &Desk::answer, order, &mut Prng::new(2)).unwrap();
            assert_eq!((course.rounds, course.bound), (rounds, 4), "{order:?}");
        }
        assert_eq!(longest_of(&desk), Some(4));
    }

    #[test]
    fn views_of_one_word_by_all_teams_take_all_rounds() {
        let mut desk = after_views(&[&[9][..]; TEAMS as usize]);
        let course = run(&mut desk, &Desk::answer, Order::WaitersFirst, &mut Prng::new(3)).unwrap();
        assert_eq!((course.rounds, course.bound), (32, 32));
        assert_eq!(desk, Desk::fresh());
    }

    #[test]
    fn few_views_in_every_order() {
        assert_eq!(longest_of(&after_views(&[&[9], &[9], &[9]])), Some(6));
        let cases: [&[&[i64]]; 4] = [
            &[&[9, 8], &[8, 9]],
            &[&[0, 50], &[50, 0], &[0]],
            &[&[1, 2, 3], &[3, 2], &[1]],
            &[&[1, 2, 3, 4, 5, 6], &[6, 5, 4, 3, 2, 1]],
        ];
        for views in cases {
            let targets: usize = views.iter().map(|words| words.len()).sum();
            let most = longest_of(&after_views(views)).expect("not all wait");
            assert!(most <= 2 * targets as i64, "{views:?}: {most}");
        }
    }

    /// One of them is granted in sixteen rounds, and meanwhile the other learns that
    /// it is stale. In the order of listing each can have the word that the other
    /// wants.
    #[test]
    fn opposite_moves_in_every_order() {
        let wrong = wrong_by(Fault::ListingOrder);
        for (p, q) in [(0, 25), (25, 0), (31, 6)] {
            let input = opposite_moves(p, q);
            assert_eq!(longest_of(&after(&Desk::answer, &input)), Some(16), "{p} and {q}");
            let desk = after(&wrong, &input);
            assert_eq!(longest(&desk, &wrong, &mut BTreeMap::new()), None, "{p} and {q}");
        }
    }

    #[test]
    fn tickets_left_by_contention_get_done() {
        let mut waiting = 0;
        for (seed, order) in (0..40).flat_map(|seed| ORDERS.map(|order| (seed, order))) {
            let mut desk = after(&Desk::answer, &crowd(seed));
            let course = run(&mut desk, &Desk::answer, order, &mut Prng::new(seed)).unwrap();
            // With more steps than two for each target, some were waits.
            waiting += i64::from(course.steps.len() as i64 > course.bound);
        }
        assert!(waiting > 100, "{waiting} of 280 courses have more steps than two for each target");
    }

    /// Ranks loaded first: "the finishing of all tickets included, holds for each accepted
    /// table".
    #[test]
    fn tickets_get_done_by_other_ranks() {
        for (seed, order) in (0..20).flat_map(|seed| ORDERS.map(|order| (seed, order))) {
            let mut author = Author::new(seed);
            author.contend(100);
            author.finish_all(order);
            let ranks = permutation(&mut author.rng);
            assert_eq!(ranks::load(&mut author.desk, WORDS, &ranks, None), 0);
            author.watch.load(&ranks).expect("no ticket stands");
            author.contend(100);
            author.crowd();
            let mut desk = author.desk.clone();
            run(&mut desk, &Desk::answer, order, &mut Prng::new(seed)).unwrap();
        }
    }

    /// Two opposite moves in every order, by ranks that go either way.
    #[test]
    fn opposite_moves_by_other_ranks() {
        for (p, q) in [(0, 25), (31, 6)] {
            for exchanged in [false, true] {
                let mut desk = Desk::fresh();
                if exchanged {
                    desk.ranks.swap(p as usize, q as usize);
                }
                let input = opposite_moves(p, q);
                split(&input).iter().for_each(|frame| drop(desk.answer(frame)));
                assert_eq!(longest_of(&desk), Some(16), "{p} and {q}");
            }
        }
    }

    /// Why a load waits for tickets: one of two opposite moves opened before it and one
    /// after it can have the word that the other wants, for ever.
    #[test]
    fn a_load_over_a_ticket_lets_moves_block_each_other() {
        let (p, q) = (0, 25);
        let input = opposite_moves(p, q);
        let frames = split(&input);
        let (second, before) = frames.split_last().expect("two moves");
        let mut desk = Desk::fresh();
        before.iter().for_each(|frame| drop(desk.answer(frame)));
        let mut exchanged = desk.ranks.clone();
        exchanged.swap(p as usize, q as usize);
        assert_eq!(ranks::load(&mut desk, WORDS, &exchanged, None), 14);
        let wrong = Some(ranks::Fault::LoadOverTicket);
        assert_eq!(ranks::load(&mut desk, WORDS, &exchanged, wrong), 0);
        desk.answer(second);
        assert_eq!(longest_of(&desk), None);
        let complaint =
            run(&mut desk, &Desk::answer, Order::Rising, &mut Prng::new(5)).unwrap_err();
        assert!(complaint.ends_with("all wait"));
    }

    /// Views of few words, so that each is wanted by many, some of them begun.
    #[test]
    fn views_of_the_same_words_get_done() {
        let mut most = 0;
        for (seed, order) in (0..40).flat_map(|seed| ORDERS.map(|order| (seed, order))) {
            let mut rng = Prng::new(seed);
            let (words, n) = (rng.between(2, 5), rng.between(1, 2));
            let views: Vec<Vec<i64>> = (0..TEAMS).map(|_| rng.some(n, 0, words)).collect();
            let views: Vec<&[i64]> = views.iter().map(Vec::as_slice).collect();
            let mut desk = after_views(&views);
            for _ in 0..20 {
                desk.answer(&Request::step(rng.below(TEAMS)).bytes());
            }
            let course = run(&mut desk, &Desk::answer, order, &mut rng).unwrap();
            most = most.max(100 * course.rounds / course.bound);
        }
        assert!(most > 40, "at most {most} in a hundred of the rounds allowed are needed");
    }

    /// The faults by which a ticket may never get done, or too late.
    #[test]
    fn wrong_programs_leave_tickets() {
        for fault in [Fault::ListingOrder, Fault::WaitingWhenFree, Fault::KeepsWord] {
            let wrong = wrong_by(fault);
            let complaints = (0..20).filter_map(|seed| {
                let mut desk = after(&wrong, &crowd(seed));
                run(&mut desk, &wrong, Order::Random, &mut Prng::new(seed)).err()
            });
            let all_wait = complaints.filter(|complaint| complaint.ends_with("all wait")).count();
            assert!(all_wait > 0, "{fault:?}");
        }
    }

    #[test]
    fn a_ticket_that_waits_for_itself_is_noticed() {
        let wrong = wrong_by(Fault::StrikesItself);
        let fields = [(P, 0), (F, 1), (R, 1), (C, 1), (From, 1), (To, 2), (Distance, 1)];
        let strike = Request::new(Kind::Strike, &fields).bytes();
        let mut desk = after(&wrong, &strike);
        desk.book[1] = Word::Value(1);
        desk.book[64] = Word::Value(1);
        let complaint = run(&mut desk, &wrong, Order::Rising, &mut Prng::new(4)).unwrap_err();
        assert_eq!(complaint, "in round 3 all wait");
    }
}
