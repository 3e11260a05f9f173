//! "The cave's own ranks": the second model of loading ranks, and wrong ones; also wrong
//! ways with frames that are given while the ranks are damaged.

use crate::frames::{any_twice, parse, Answer, Kind};
use crate::layout::{accepted, position, PASSAGES, RANKS, WORDS};
use crate::model::{Desk, Phase, Ticket, OUTPUT};

#[derive(Clone, Copy, Debug, PartialEq, Eq)]
pub enum Fault {
    /// A load goes while a ticket stands.
    LoadOverTicket,
    /// A load goes while a ticket of team 0 stands.
    Team0Overlooked,
    /// A load goes while a ticket of team 15 stands.
    Team15Overlooked,
    /// A load goes while views stand.
    ViewsOverlooked,
    /// A load goes while tickets stand that have claimed nothing.
    UnclaimedOverlooked,
    /// A load checks 14 before 13.
    FourteenBefore13,
    /// A load checks 13 before 1.
    LoadChecks13Before1,
    /// A load takes a book of any length.
    LoadWithout1,
    /// A load takes any 32 numbers.
    LoadOfAny32,
    /// A frame is answered under any 32 numbers.
    ThirteenOfLengthOnly,
    /// More than 32 ranks pass if the first 32 are right.
    ThirteenOfFirst32,
    /// Fewer than 32 ranks pass if none is above 31 or there twice.
    ThirteenOfNumbersOnly,
    /// 32 numbers pass if their sum is right.
    ThirteenBySum,
    /// Ranks are tested by what is left of them after division by 32.
    ThirteenModulo32,
    /// Ranks are tested by their low bytes.
    ThirteenByLowByte,
    /// Frames are checked for 13 after 2.
    ThirteenAfter2,
    /// Frames are checked for 13 before 1.
    ThirteenBefore1,
    /// 13 is written as a Refused frame.
    ThirteenWritten,
    /// Looks are answered under damaged ranks.
    LookUnderBadRanks,
    /// Steps are answered under damaged ranks.
    StepUnderBadRanks,
    /// Only frames that open a ticket get 13.
    ThirteenOfOpeners,
    /// Frames that 3, 4 or 5 is for don't get 13.
    ThirteenOfWholeFrames,
    /// A refused load writes the ranks all the same.
    LoadRefusedWrites,
    /// An accepted load leaves the ranks as they were.
    LoadForgotten,
    /// Damaged ranks in force stop a load.
    DamagedStopLoad,
    /// A load that 14 refuses brings standing tickets into the order of its ranks.
    LoadReordersStanding,
    /// A ticket claims by the ranks in force at its steps.
    StepsByRanksNow,
    /// Tickets open by the fixed ranks.
    FixedOrder,
    /// Views open by the fixed ranks.
    ViewsFixedOrder,
    /// Moves open by the fixed ranks.
    MovesFixedOrder,
    /// Coming back to a shelf brings back the ranks of its filling.
    BackRestoresRanks,
    /// Damaged ranks stop fillings and comings back too.
    ThirteenOfShelves,
}

pub const FAULTS: [(&str, Fault); 32] = [
    ("load-over-ticket", Fault::LoadOverTicket),
    ("team-0-overlooked", Fault::Team0Overlooked),
    ("team-15-overlooked", Fault::Team15Overlooked),
    ("views-overlooked", Fault::ViewsOverlooked),
    ("unclaimed-overlooked", Fault::UnclaimedOverlooked),
    ("14-before-13", Fault::FourteenBefore13),
    ("load-13-before-1", Fault::LoadChecks13Before1),
    ("load-without-1", Fault::LoadWithout1),
    ("load-of-any-32", Fault::LoadOfAny32),
    ("13-of-length-only", Fault::ThirteenOfLengthOnly),
    ("13-of-first-32", Fault::ThirteenOfFirst32),
    ("13-of-numbers-only", Fault::ThirteenOfNumbersOnly),
    ("13-by-sum", Fault::ThirteenBySum),
    ("13-modulo-32", Fault::ThirteenModulo32),
    ("13-by-low-byte", Fault::ThirteenByLowByte),
    ("13-after-2", Fault::ThirteenAfter2),
    ("13-before-1", Fault::ThirteenBefore1),
    ("13-written", Fault::ThirteenWritten),
    ("look-under-bad-ranks", Fault::LookUnderBadRanks),
    ("step-under-bad-ranks", Fault::StepUnderBadRanks),
    ("13-of-openers", Fault::ThirteenOfOpeners),
    ("13-of-whole-frames", Fault::ThirteenOfWholeFrames),
    ("load-refused-writes", Fault::LoadRefusedWrites),
    ("load-forgotten", Fault::LoadForgotten),
    ("damaged-stop-load", Fault::DamagedStopLoad),
    ("load-reorders-standing", Fault::LoadReordersStanding),
    ("steps-by-ranks-now", Fault::StepsByRanksNow),
    ("fixed-order", Fault::FixedOrder),
    ("views-fixed-order", Fault::ViewsFixedOrder),
    ("moves-fixed-order", Fault::MovesFixedOrder),
    ("back-restores-ranks", Fault::BackRestoresRanks),
    ("13-of-shelves", Fault::ThirteenOfShelves),
];

/// "The caller may load 32 ranks in place of the fixed ones." 0, or the refusal; `book`
/// is how many words of the book are lent. "A load writes no word of the book."
pub fn load(desk: &mut Desk, book: i64, loaded: &[i64], fault: Option<Fault>) -> i64 {
    let refusal = load_refusal(desk, book, loaded, fault);
    match (fault, refusal) {
        (Some(Fault::LoadRefusedWrites), Some(_)) => {
            desk.ranks.iter_mut().zip(loaded).take(32).for_each(|(own, new)| *own = *new);
        }
        (Some(Fault::LoadReordersStanding), Some(14)) => {
            desk.tickets.values_mut().for_each(|ticket| reorder(ticket, loaded));
        }
        (Some(Fault::LoadForgotten), None) => {}
        // "a refused load keeps the old ranks"
        (_, Some(_)) => {}
        // What a wrong load takes besides may be fewer or more.
        (_, None) => {
            let behind = desk.ranks.iter().skip(loaded.len());
            desk.ranks = loaded.iter().chain(behind).take(32).copied().collect();
        }
    }
    refusal.unwrap_or(0)
}

/// "Checks: 13, not 32 ranks or not each of 0 to 31, after 1; 14, a ticket stands, after
/// 13." The ranks in force aren't asked for: a load repairs damaged ones.
fn load_refusal(desk: &Desk, book: i64, loaded: &[i64], fault: Option<Fault>) -> Option<i64> {
    let order: &[i64] = match fault {
        Some(Fault::FourteenBefore13) => &[1, 14, 13],
        Some(Fault::LoadChecks13Before1) => &[13, 1, 14],
        Some(Fault::LoadWithout1) => &[13, 14],
        Some(Fault::LoadOverTicket) => &[1, 13],
        _ => &[1, 13, 14],
    };
    let stopped = fault == Some(Fault::DamagedStopLoad) && !accepted(&desk.ranks);
    let taken = pass(loaded, fault) || (fault == Some(Fault::LoadOfAny32) && loaded.len() == 32);
    let stands = |(team, ticket): (&i64, &Ticket)| match fault {
        Some(Fault::Team0Overlooked) => *team != 0,
        Some(Fault::Team15Overlooked) => *team != 15,
        Some(Fault::ViewsOverlooked) => !matches!(ticket.phase, Phase::Viewing | Phase::Viewed),
        Some(Fault::UnclaimedOverlooked) => ticket.claimed > 0,
        _ => true,
    };
    order.iter().copied().find(|number| match number {
        1 => book != WORDS,
        13 => !taken || stopped,
        _ => desk.tickets.iter().any(stands),
    })
}

/// Whether ranks pass as each of 0 to 31.
fn pass(ranks: &[i64], fault: Option<Fault>) -> bool {
    let through = |rule: fn(i64) -> i64| {
        accepted(&ranks.iter().map(|rank| rule(*rank)).collect::<Vec<i64>>())
    };
    match fault {
        Some(Fault::ThirteenOfFirst32) => ranks.get(..32).is_some_and(accepted),
        Some(Fault::ThirteenOfNumbersOnly) => {
            ranks.iter().all(|rank| *rank < PASSAGES) && !any_twice(ranks)
        }
        Some(Fault::ThirteenBySum) => {
            ranks.len() == 32 && ranks.iter().sum::<i64>() == RANKS.iter().sum()
        }
        Some(Fault::ThirteenModulo32) => through(|rank| rank % 32),
        Some(Fault::ThirteenByLowByte) => through(|rank| rank % 256),
        _ => accepted(ranks),
    }
}

/// Brings what a ticket has yet to claim into another order.
fn reorder(ticket: &mut Ticket, ranks: &[i64]) {
    if !matches!(ticket.phase, Phase::Claiming | Phase::Viewing) {
        return;
    }
    let names: Vec<_> = ticket.targets.iter().map(|target| target.new).collect();
    let to_claim = &mut ticket.targets[ticket.claimed as usize..];
    to_claim.sort_by_key(|target| position(ranks, target.word));
    if ticket.phase == Phase::Viewing {
        ticket.targets.iter_mut().zip(names).for_each(|(target, name)| target.new = name);
    }
}

/// A call with a frame by a program that may have a fault: what it returns.
pub fn call(desk: &mut Desk, frame: &[u8], output: &mut [u8], fault: Option<Fault>) -> i64 {
    let Some(fault) = fault else { return desk.call(frame, output) };
    match refused_alone(desk, frame, output, fault) {
        Some(13) if fault == Fault::ThirteenWritten && output.len() >= OUTPUT => {
            desk.write(&|_, _| Answer::Refused(13), frame, output)
        }
        Some(number) => number,
        None => write(desk, frame, output, fault),
    }
}

/// The first of 1, 13 and 2 that such a program finds.
fn refused_alone(desk: &Desk, frame: &[u8], output: &[u8], fault: Fault) -> Option<i64> {
    let order = match fault {
        Fault::ThirteenAfter2 => [1, 2, 13],
        Fault::ThirteenBefore1 => [13, 1, 2],
        _ => [1, 13, 2],
    };
    let kind = parse(frame).map(|request| request.kind);
    let asked = match fault {
        Fault::LookUnderBadRanks => kind != Ok(Kind::Look),
        Fault::StepUnderBadRanks => kind != Ok(Kind::Step),
        Fault::ThirteenOfOpeners => kind.is_ok_and(Kind::opens_a_ticket),
        Fault::ThirteenOfWholeFrames => kind.is_ok(),
        Fault::ThirteenOfLengthOnly => desk.ranks.len() != 32,
        _ => true,
    };
    order.into_iter().find(|number| match number {
        1 => desk.book.len() as i64 != WORDS,
        13 => asked && !pass(&desk.ranks, Some(fault)),
        _ => output.len() < OUTPUT,
    })
}

/// Answers a frame by the ranks that such a program goes by; where some are missing, by
/// 0 in their place.
fn write(desk: &mut Desk, frame: &[u8], output: &mut [u8], fault: Fault) -> i64 {
    let lent = desk.ranks.clone();
    let request = parse(frame).ok();
    let fixed = match fault {
        Fault::FixedOrder => true,
        Fault::ViewsFixedOrder => request.is_some_and(|request| request.kind == Kind::View),
        Fault::MovesFixedOrder => request.is_some_and(|request| request.kind == Kind::Move),
        _ => false,
    };
    if fixed {
        desk.ranks = RANKS.to_vec();
    }
    desk.ranks.resize(32, 0);
    let steps = request.filter(|request| request.kind == Kind::Step);
    if let Some(step) = steps.filter(|_| fault == Fault::StepsByRanksNow) {
        let own = desk.tickets.get_mut(&step.team());
        own.into_iter().for_each(|ticket| reorder(ticket, &lent));
    }
    let returned = desk.write(&Desk::answer, frame, output);
    desk.ranks = lent;
    returned
}

#[cfg(test)]
mod tests {
    use super::*;
    use crate::frames::{framed, Field::*, Request};
    use crate::layout::{count_word, newest_word, TEAMS};
    use crate::loads::{damaged, permutation};
    use crate::streams::{a_fair_edit, fair_requests, Prng};

    fn right_load(desk: &mut Desk, ranks: &[i64]) -> i64 {
        load(desk, WORDS, ranks, None)
    }

    /// The right numbers, counted another way.
    fn each_once(ranks: &[i64]) -> bool {
        let mut sorted = ranks.to_vec();
        sorted.sort();
        sorted == (0..PASSAGES).collect::<Vec<i64>>()
    }

    #[test]
    fn accepted_is_each_of_0_to_31_once() {
        let mut rng = Prng::new(1);
        for _ in 0..200 {
            let ranks = permutation(&mut rng);
            assert!(accepted(&ranks) && each_once(&ranks));
            for damage in damaged(&mut rng, &ranks) {
                assert!(!accepted(&damage) && !each_once(&damage), "{damage:?}");
            }
            for (place, other) in (0..32).flat_map(|p| (0..34).map(move |other| (p, other))) {
                let mut off = ranks.clone();
                off[place] = other;
                assert_eq!(accepted(&off), off == ranks);
            }
        }
        assert!(accepted(&RANKS));
    }

    /// "No two words share a position", by every accepted table.
    #[test]
    fn positions_differ_by_every_accepted_table() {
        let mut rng = Prng::new(2);
        for _ in 0..50 {
            let ranks = permutation(&mut rng);
            let mut positions: Vec<i64> = (0..WORDS).map(|word| position(&ranks, word)).collect();
            positions.sort();
            assert_eq!(positions, (0..WORDS).collect::<Vec<i64>>());
        }
    }

    /// "a refused load keeps the old ranks", and "a load writes no word of the book".
    #[test]
    fn loads_go_through_1_13_14() {
        let mut rng = Prng::new(3);
        let (ranks, other) = (permutation(&mut rng), permutation(&mut rng));
        let mut desk = Desk::fresh();
        assert_eq!((right_load(&mut desk, &ranks), &desk.ranks), (0, &ranks));
        assert_eq!(desk, Desk { ranks: ranks.clone(), ..Desk::fresh() });
        let idle = desk.clone();
        for damage in damaged(&mut rng, &other) {
            assert_eq!(load(&mut desk, WORDS - 1, &damage, None), 1);
            assert_eq!(right_load(&mut desk, &damage), 13);
        }
        assert_eq!((load(&mut desk, 0, &other, None), &desk), (1, &idle));
        for team in 0..TEAMS {
            let mut desk = idle.clone();
            desk.answer(&Request::view(team, &[9, 8]).bytes());
            let standing = desk.clone();
            assert_eq!(right_load(&mut desk, &other), 14, "team {team}");
            for damage in damaged(&mut rng, &other) {
                assert_eq!(load(&mut desk, WORDS + 1, &damage, None), 1);
                assert_eq!(right_load(&mut desk, &damage), 13, "13 goes before 14");
            }
            assert_eq!(desk, standing);
        }
    }

    #[test]
    fn damaged_ranks_in_force_do_not_stop_a_load() {
        let mut rng = Prng::new(4);
        let ranks = permutation(&mut rng);
        for damage in damaged(&mut rng, &ranks) {
            let mut desk = Desk { ranks: damage.clone(), ..Desk::fresh() };
            assert_eq!((right_load(&mut desk, &damage), &desk.ranks), (13, &damage));
            assert_eq!((right_load(&mut desk, &ranks), &desk.ranks), (0, &ranks));
        }
    }

    /// Every frame, with tickets standing or none: 13 after 1 and before 2, and nothing
    /// changes.
    #[test]
    fn every_frame_gets_13_under_damaged_ranks() {
        let mut rng = Prng::new(5);
        let mut frames: Vec<Vec<u8>> = fair_requests().iter().map(|r| r.bytes()).collect();
        frames.extend([Vec::new(), vec![4], vec![0; 70], framed(8, &[0, 0]), framed(5, &[])]);
        let mut busy = Desk::fresh();
        busy.answer(&Request::view(0, &[50, 0]).bytes());
        busy.answer(&Request::step(0).bytes());
        for damage in damaged(&mut rng, &RANKS) {
            for (desk, frame) in [&Desk::fresh(), &busy]
                .iter()
                .flat_map(|d| frames.iter().map(move |frame| (*d, frame)))
            {
                let lent = Desk { ranks: damage.clone(), ..desk.clone() };
                for length in [0, 51, 52, 64] {
                    let (mut after, mut output) = (lent.clone(), vec![7; length]);
                    assert_eq!(after.call(frame, &mut output), 13);
                    assert_eq!((&after, output), (&lent, vec![7; length]));
                    after.book.pop();
                    assert_eq!(after.call(frame, &mut vec![7; length]), 1);
                }
            }
        }
    }

    /// The order of claims is that of the ranks in force at opening, whatever is lent later.
    #[test]
    fn a_ticket_keeps_the_order_of_its_opening() {
        let words = |desk: &Desk| -> Vec<i64> {
            desk.tickets[&0].targets.iter().map(|target| target.word).collect()
        };
        let mut moved = a_fair_edit(Kind::Move);
        [(P, 0), (Q, 25), (F, 0)].iter().for_each(|(field, value)| moved.set(*field, *value));
        let (of_0, of_25) = ([newest_word(0), count_word(0)], [newest_word(25), count_word(25)]);
        let mut exchanged = RANKS.to_vec();
        exchanged.swap(0, 25);
        let orders = [(RANKS.to_vec(), [of_25, of_0]), (exchanged, [of_0, of_25])];
        for ((ranks, passages), (others, _)) in orders.iter().zip(orders.iter().rev()) {
            let mut desk = Desk::fresh();
            assert_eq!(right_load(&mut desk, ranks), 0);
            desk.answer(&moved.bytes());
            let opened = words(&desk);
            assert_eq!(opened[..4], passages.concat());
            desk.ranks = others.clone();
            let stale = Answer::Stale(passages[0][0], 1);
            assert_eq!(desk.answer(&Request::step(0).bytes()), stale);
            desk.answer(&Request::view(0, &[count_word(0), newest_word(25)]).bytes());
            assert_ne!(
                words(&desk)[0],
                [newest_word(25), count_word(0)][usize::from(ranks[0] < ranks[25])]
            );
        }
    }

    /// Add, Correct and Strike name one passage at most: they open alike by all ranks.
    #[test]
    fn ranks_matter_to_moves_and_views_alone() {
        let mut rng = Prng::new(6);
        let mut differs = std::collections::BTreeSet::new();
        for _ in 0..100 {
            let ranks = permutation(&mut rng);
            for request in fair_requests().iter().filter(|request| request.kind.opens_a_ticket()) {
                if Ticket::opened(request, &ranks) != Ticket::opened(request, &RANKS) {
                    differs.insert(request.kind as i64);
                }
            }
        }
        assert_eq!(differs.into_iter().collect::<Vec<i64>>(), [4, 7]);
    }
}
