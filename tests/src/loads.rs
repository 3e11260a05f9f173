//! Mixed lists written about ranks: loads that are accepted and refused, frames under
//! damaged ranks, and teams at work under ranks of the cave's own.

use crate::frames::{framed, Field, Field::*, Kind, Request};
use crate::layout::{count_word, newest_word, PASSAGES, TEAMS, WORDS};
use crate::lists::Call;
use crate::mixed::ListAuthor;
use crate::rounds::ORDERS;
use crate::streams::{a_fair_edit, fair_requests, Prng};

/// Ranks in no order.
pub fn permutation(rng: &mut Prng) -> Vec<i64> {
    rng.some(PASSAGES, 0, PASSAGES - 1)
}

/// Ranks with something wrong: too few and too many, a number twice, one too large. Some
/// have the right sum, the right low bytes, or the right numbers but for multiples of 32.
pub fn damaged(rng: &mut Prng, ranks: &[i64]) -> Vec<Vec<i64>> {
    let [one, other] = rng.some(2, 0, PASSAGES - 1)[..] else { return Vec::new() };
    let with = |at: i64, rank: i64| {
        let mut changed = ranks.to_vec();
        changed[at as usize] = rank;
        changed
    };
    // Two numbers made one, their sum being what it was.
    let place = |rank: i64| ranks.iter().position(|own| *own == rank).unwrap_or(0);
    let mut level = with(place(7) as i64, 8);
    level[place(9)] = 8;
    let more = |count: usize| [ranks, &ranks[..count]].concat();
    vec![
        Vec::new(),
        ranks[..31].to_vec(),
        more(1),
        [ranks, &[PASSAGES]].concat(),
        more(8),
        with(one, ranks[other as usize]),
        with(one, PASSAGES),
        with(one, ranks[one as usize] + PASSAGES),
        with(one, ranks[one as usize] + 256),
        with(one, 65_535),
        level,
        vec![0; PASSAGES as usize],
    ]
}

/// An edit with every field in range but for those given.
fn edit(kind: Kind, values: &[(Field, i64)]) -> Request {
    let mut edit = a_fair_edit(kind);
    values.iter().for_each(|(field, value)| edit.set(*field, *value));
    edit
}

/// Frames of each kind, and such as 3, 4 and 5 are for.
fn every_frame() -> Vec<Vec<u8>> {
    let step = Request::step(1).bytes();
    let fair = fair_requests().into_iter().chain([Request::step(15)]);
    let fair = fair.map(|request| request.bytes());
    let torn = [Vec::new(), vec![4], step[..5].to_vec(), [&step[..], &[0]].concat(), vec![0; 65]];
    let unknown = [0, 8, 16, 19, 65_535].map(|kind| framed(kind, &[1, 0]));
    let others = [framed(5, &[1, 0, 0, 0]), framed(7, &[1, 0, 0, 0])];
    fair.chain(torn).chain(unknown).chain(others).collect()
}

/// Every frame with a short output and a long one, and a look with other books, while the
/// ranks are damaged in each way; then those that were in force before.
fn under_damaged(list: &mut ListAuthor) {
    let before = list.author.desk.ranks.clone();
    for ranks in damaged(list.rng(), &before) {
        list.lend(&ranks);
        for frame in every_frame() {
            let outputs = [list.rng().pick(&[0, 12, 51]), list.rng().pick(&[52, 53, 64])];
            let given =
                outputs.map(|output| Call::Frame { book: WORDS, output, frame: frame.clone() });
            list.calls.extend(given);
        }
        for (book, output) in [(4_095, 52), (WORDS + 1, 0), (0, 64)] {
            let frame = Request::look(0).bytes();
            list.calls.push(Call::Frame { book, output, frame });
        }
        list.tell();
    }
    list.lend(&before);
}

/// Some frames under damaged ranks, in the middle of whatever teams do; then the ranks are
/// mended, by the caller or, where no ticket stands, by a load.
pub fn damage_for_a_while(list: &mut ListAuthor) {
    let before = list.author.desk.ranks.clone();
    let damages = damaged(list.rng(), &before);
    let at = list.rng().below(damages.len() as i64) as usize;
    list.lend(&damages[at]);
    for _ in 0..4 {
        let (team, output) = (list.rng().below(TEAMS), list.rng().pick(&[51, 52, 64]));
        let word = list.rng().below(WORDS);
        let request = list.rng().pick(&[Request::step(team), Request::look(word)]);
        list.calls.push(Call::Frame { book: WORDS, output, frame: request.bytes() });
    }
    let ranks = permutation(list.rng());
    if !list.load(&ranks) {
        list.lend(&before);
    }
}

/// Damaged ranks over tickets in several phases, which then go on as if nothing had been.
fn frames_under_damaged(seed: u64) -> Vec<Call> {
    let mut list = ListAuthor::new(seed);
    under_damaged(&mut list);
    let ranks = permutation(list.rng());
    list.load(&ranks);
    list.contend(60);
    list.saying(|author| author.crowd());
    list.contend(40);
    under_damaged(&mut list);
    list.finish();
    list.tell();
    list.calls
}

/// Loads of each kind of damage, and of ranks that are right, with each length of book.
fn each_load(list: &mut ListAuthor) {
    let ranks = permutation(list.rng());
    for loaded in damaged(list.rng(), &ranks).into_iter().chain([ranks.clone()]) {
        for book in [0, 4_095, WORDS + 1] {
            list.calls.push(Call::Load { book, ranks: loaded.clone() });
        }
        list.load(&loaded);
        list.tell();
    }
}

/// A load that is refused and one that may go, over ranks in force with each damage: what
/// is there is either left as it was, however many they are, or mended. A shelf is filled
/// and come back to whatever the ranks are, if no ticket stands.
fn over_damaged(list: &mut ListAuthor) {
    let before = list.author.desk.ranks.clone();
    for damage in damaged(list.rng(), &before) {
        list.lend(&damage);
        list.fill(2);
        list.come_back(2);
        let ranks = permutation(list.rng());
        let damages = damaged(list.rng(), &ranks);
        let at = list.rng().below(damages.len() as i64) as usize;
        list.load(&damages[at]);
        list.tell();
        list.load(&ranks);
        list.tell();
    }
}

/// The first check that applies: each load without and with a ticket, and over ranks that
/// were damaged; and ranks with one entry off, at each place and for each number.
fn every_load(seed: u64) -> Vec<Call> {
    let mut list = ListAuthor::new(seed);
    each_load(&mut list);
    list.saying(|author| author.settle(&a_fair_edit(Kind::Add)));
    let ranks = permutation(list.rng());
    for place in 0..PASSAGES as usize {
        let mut off = ranks.clone();
        off[place] = (off[place] + list.rng().between(1, 31)) % 32;
        list.load(&off);
    }
    list.tell();
    list.saying(|author| drop(author.say(&Request::view(9, &[50, 0]).bytes())));
    each_load(&mut list);
    let before = list.author.desk.ranks.clone();
    over_damaged(&mut list);
    list.lend(&before);
    list.finish();
    over_damaged(&mut list);
    list.contend(40);
    list.finish();
    list.tell();
    list.calls
}

/// A ticket of each team alone, fresh or begun: it stops a load, and bad ranks are told
/// before it. The view and the moves show that a refused load leaves the order of claims.
fn over_each_team(seed: u64) -> Vec<Call> {
    let mut list = ListAuthor::new(seed);
    for team in 0..TEAMS {
        let [p, q, other] = list.rng().some(3, 0, PASSAGES - 1)[..] else { continue };
        let view = Request::view(team, &[count_word(q), newest_word(p), newest_word(other), 64]);
        let moved = edit(Kind::Move, &[(Team, team), (P, p), (Q, q), (F, 0)]);
        let added = edit(Kind::AddInMinutes, &[(Team, team), (P, p), (H, 0), (C, 9)]);
        for opener in [view, moved, added] {
            list.saying(|author| drop(author.say(&opener.bytes())));
            let ranks = permutation(list.rng());
            let damages = damaged(list.rng(), &ranks);
            list.load(&damages[(team as usize + 5) % damages.len()]);
            list.load(&ranks);
            list.saying(|author| drop(author.say(&Request::step(team).bytes())));
            list.load(&ranks);
            list.saying(|author| author.finish(team));
        }
        list.tell();
        let ranks = permutation(list.rng());
        list.load(&ranks);
    }
    list.tell();
    list.calls
}

/// A load before every step of an add, a move, a view and a strike that finds another
/// word, each alone: 14 until its last answer. Each opens under the ranks last loaded.
fn through_all_phases(seed: u64) -> Vec<Call> {
    let mut list = ListAuthor::new(seed);
    let [p, q] = list.rng().some(2, 0, PASSAGES - 1)[..] else { return list.calls };
    let added = edit(Kind::Add, &[(Team, 2), (P, p), (H, 0), (C, 0)]);
    let quoted = [(Team, 3), (P, p), (Q, q), (F, 0), (S, 0), (H, 0), (D, 0)];
    let moved = edit(Kind::Move, &quoted);
    let struck = edit(Kind::Strike, &[(Team, 4), (P, q), (F, 0), (S, 0), (Distance, 2)]);
    let view = Request::view(5, &[newest_word(q), 4_095, count_word(p), newest_word(p), 73, 0]);
    for opener in [added, moved, struck, view] {
        list.saying(|author| drop(author.say(&opener.bytes())));
        let ranks = permutation(list.rng());
        while !list.load(&ranks) {
            list.saying(|author| drop(author.say(&Request::step(opener.team()).bytes())));
        }
        list.tell();
    }
    list.calls
}

/// Ranks that a caller lends in the place of others while a ticket stands: the ticket
/// keeps the order of its opening.
fn lent_over_a_ticket(seed: u64) -> Vec<Call> {
    let mut list = ListAuthor::new(seed);
    for team in [0, 7, 15] {
        let words = list.rng().some(6, 0, 2 * PASSAGES - 1);
        let moved = edit(Kind::Move, &[(Team, team), (P, 0), (Q, 25), (F, 0)]);
        for opener in [Request::view(team, &words), moved] {
            list.saying(|author| drop(author.say(&opener.bytes())));
            while list.author.watch.is_busy(team) {
                let ranks = permutation(list.rng());
                list.lend(&ranks);
                list.saying(|author| drop(author.say(&Request::step(team).bytes())));
                let word = list.rng().pick(&words);
                list.saying(|author| drop(author.say(&Request::look(word).bytes())));
            }
        }
    }
    list.tell();
    list.calls
}

/// The ranks of two passages exchanged.
fn exchanged(ranks: &[i64], p: i64, q: i64) -> Vec<i64> {
    let mut ranks = ranks.to_vec();
    ranks.swap(p as usize, q as usize);
    ranks
}

/// Two legs change places by opposite moves, and the very same frames come again after a
/// load that turns the order of the two passages around; then once more under the ranks
/// of the beginning. Looks show which word each team got first.
fn moves_around_a_load(seed: u64) -> Vec<Call> {
    let mut list = ListAuthor::new(seed);
    for (p, q) in [(0, 25), (12, 31), (5, 6), (30, 2)] {
        let before = list.author.desk.ranks.clone();
        list.finish();
        list.fill(0);
        let from = list.calls.len();
        list.saying(|author| author.cross(p, q));
        let frames = list.calls.len() - from;
        for ranks in [exchanged(&before, p, q), before] {
            list.load(&ranks);
            list.come_back(0);
            list.repeat(0, frames);
            list.finish();
            list.tell();
        }
    }
    list.calls
}

/// Moves that all quotes of are wrong, so that Stale names the word claimed first, and
/// views of words of two passages, with looks that show which was; under several ranks.
fn first_claims(seed: u64) -> Vec<Call> {
    let mut list = ListAuthor::new(seed);
    for _ in 0..8 {
        let ranks = permutation(list.rng());
        list.load(&ranks);
        for _ in 0..4 {
            let [p, q] = list.rng().some(2, 0, PASSAGES - 1)[..] else { continue };
            let moved = edit(Kind::Move, &[(P, p), (Q, q), (F, 0)]);
            list.saying(|author| {
                author.settle(&moved);
                author.say(&Request::view(0, &[newest_word(p), count_word(q)]).bytes());
                author.say(&Request::step(0).bytes());
                author.say(&Request::look(newest_word(p)).bytes());
                author.finish(0);
            });
        }
    }
    list.tell();
    list.calls
}

/// Legs written and quoted in minutes and in hundredths under other ranks: "Every result
/// so far ... holds for each accepted table".
fn minutes_under_other_ranks(seed: u64) -> Vec<Call> {
    let mut list = ListAuthor::new(seed);
    for angles in [[12, 34, 1, 0, 30], [0, 1, 1, 0, 0], [359, 59, 0, 90, 0], [7, 59, 1, 89, 59]] {
        let ranks = permutation(list.rng());
        list.load(&ranks);
        list.saying(|author| author.two_forms(angles));
    }
    list.tell();
    list.calls
}

/// A load, contention, a ticket of every team, then rounds of steps alone, in each order:
/// all tickets are done within as many rounds as the paper allows.
pub fn rounds_after_loads(seed: u64) -> Vec<Call> {
    let mut list = ListAuthor::new(seed);
    for order in ORDERS {
        let ranks = permutation(list.rng());
        list.load(&ranks);
        list.contend(50);
        list.saying(|author| {
            author.crowd();
            author.finish_all(order);
        });
        list.tell();
    }
    list.calls
}

/// Shelves filled under some ranks and come back to under others, which stay.
pub fn shelves_and_loads(seed: u64) -> Vec<Call> {
    let mut list = ListAuthor::new(seed);
    let work = |list: &mut ListAuthor| {
        let ranks = permutation(list.rng());
        list.load(&ranks);
        list.contend(40);
        list.finish();
    };
    for shelf in [0, 1, 2] {
        work(&mut list);
        list.fill(shelf);
        list.tell();
    }
    for shelf in [1, 0, 2, 1] {
        work(&mut list);
        list.come_back(shelf);
        list.tell();
        list.repeat(shelf, 30);
        list.finish();
        list.come_back(shelf);
        list.contend(30);
        list.finish();
    }
    list.tell();
    list.calls
}

/// The part of a list that is about ranks.
pub fn about_ranks(seed: u64) -> Vec<Call> {
    let mut calls = every_load(seed + 51);
    calls.extend(frames_under_damaged(seed + 52));
    calls.extend(over_each_team(seed + 53));
    calls.extend(through_all_phases(seed + 54));
    calls.extend(lent_over_a_ticket(seed + 55));
    calls.extend(moves_around_a_load(seed + 56));
    calls.extend(first_claims(seed + 57));
    calls.extend(minutes_under_other_ranks(seed + 58));
    (61..=62).for_each(|salt| calls.extend(rounds_after_loads(seed + salt)));
    (71..=72).for_each(|salt| calls.extend(shelves_and_loads(seed + salt)));
    calls
}

#[cfg(test)]
mod tests {
    use super::*;
    use crate::lists::answered;

    /// The same frames are answered otherwise where the load turned the order of claims
    /// around, and as at first where it is what it was.
    #[test]
    fn the_same_moves_before_and_after_a_load() {
        let calls = moves_around_a_load(9);
        let is_frame = |call: &&Call| matches!(call, Call::Frame { .. });
        let answers = |calls: &[Call]| -> Vec<String> {
            answered(calls, None).lines().map(str::to_string).collect()
        };
        let places = |which: fn(&Call) -> bool| -> Vec<usize> {
            (0..calls.len()).filter(|at| which(&calls[*at])).collect()
        };
        let fills = places(|call| matches!(call, Call::Fill(..)));
        let backs = places(|call| matches!(call, Call::ComeBack(..)));
        assert_eq!((fills.len(), backs.len()), (4, 8));
        for (fill, backs) in fills.iter().zip(backs.chunks(2)) {
            let frames = calls[fill + 1..].iter().take_while(is_frame).count();
            let [first, second, third] = [*fill, backs[0], backs[1]].map(|from| {
                let before = answers(&calls[..=from]).len();
                answers(&calls[..=from + frames])[before..].to_vec()
            });
            assert_eq!(calls[fill + 1..=fill + frames], calls[backs[0] + 1..=backs[0] + frames]);
            assert_ne!(first, second);
            assert_eq!(first, third);
        }
    }
}
