//! Mixed lists written: teams at work, shelves filled and come back to, and ranks loaded in
//! between.

use crate::demand3::Watch;
use crate::frames::{split, Request};
use crate::layout::WORDS;
use crate::lists::Call;
use crate::loads;
use crate::model::Desk;
use crate::ranks;
use crate::rounds::ORDERS;
use crate::shelves::{Lent, SHELVES, STORE};
use crate::streams::{Author, Prng};
use std::collections::BTreeMap;

/// What a shelf keeps, and the frames since its filling.
struct Filling {
    desk: Desk,
    watch: Watch,
    since: Vec<Vec<u8>>,
}

/// Writes a mixed list, and listens to what the model answers to it.
pub struct ListAuthor {
    pub author: Author,
    kept: BTreeMap<i64, Filling>,
    pub calls: Vec<Call>,
}

impl ListAuthor {
    pub fn new(seed: u64) -> ListAuthor {
        let author = Author::new(seed);
        let calls = vec![Call::Begin(seed as i64 % 7 * 9_001)];
        ListAuthor { author, kept: BTreeMap::new(), calls }
    }

    pub fn rng(&mut self) -> &mut Prng {
        &mut self.author.rng
    }

    /// Takes over the frames that the author says.
    pub fn saying(&mut self, say: impl FnOnce(&mut Author)) {
        self.author.bytes.clear();
        say(&mut self.author);
        for frame in split(&self.author.bytes) {
            self.calls.push(Call::frame(frame));
            self.kept.values_mut().for_each(|filling| filling.since.push(frame.to_vec()));
        }
    }

    pub fn contend(&mut self, frames: i64) {
        self.saying(|author| author.contend(frames));
    }

    pub fn finish(&mut self) {
        let order = self.rng().pick(&ORDERS);
        self.saying(|author| author.finish_all(order));
    }

    pub fn fill(&mut self, shelf: i64) {
        self.calls.push(Call::Fill(Lent::WHOLE, shelf));
        if self.author.desk.tickets.is_empty() && shelf < SHELVES {
            let (desk, watch) = (self.author.desk.clone(), self.author.watch.clone());
            self.kept.insert(shelf, Filling { desk, watch, since: Vec::new() });
        }
    }

    /// Whether it went. The ranks stay those now in force.
    pub fn come_back(&mut self, shelf: i64) -> bool {
        self.calls.push(Call::ComeBack(Lent::WHOLE, shelf));
        let Some(filling) = self.kept.get(&shelf) else { return false };
        let goes = self.author.desk.tickets.is_empty();
        if goes {
            let ranks = self.author.desk.ranks.clone();
            self.author.watch = filling.watch.clone();
            self.author.watch.ranks = ranks.clone();
            self.author.desk = Desk { ranks, ..filling.desk.clone() };
        }
        goes
    }

    /// Loads ranks; whether it went.
    pub fn load(&mut self, ranks: &[i64]) -> bool {
        self.calls.push(Call::load(ranks));
        let goes = ranks::load(&mut self.author.desk, WORDS, ranks, None) == 0;
        if goes {
            self.author.watch.load(ranks).expect("the model loads as the paper says");
        }
        goes
    }

    /// Lends other ranks, to frames that follow.
    pub fn lend(&mut self, ranks: &[i64]) {
        self.calls.push(Call::Lend(ranks.to_vec()));
        self.author.desk.ranks = ranks.to_vec();
        self.author.watch.ranks = ranks.to_vec();
    }

    /// The first frames since the filling again: under the ranks of the filling they must
    /// fare as they did then.
    pub fn repeat(&mut self, shelf: i64, most: usize) {
        let Some(filling) = self.kept.get(&shelf) else { return };
        let frames: Vec<Vec<u8>> = filling.since.iter().take(most).cloned().collect();
        self.saying(|author| frames.iter().for_each(|frame| drop(author.say(frame))));
    }

    pub fn tell(&mut self) {
        self.calls.push(Call::Tell);
    }

    /// Some ranks that may be accepted: most are, others have a number twice or too large,
    /// or are too few or too many.
    fn some_ranks(&mut self) -> Vec<i64> {
        let ranks = loads::permutation(self.rng());
        let damages = loads::damaged(self.rng(), &ranks);
        let at = self.rng().below(3 * damages.len() as i64) as usize;
        damages.get(at).cloned().unwrap_or(ranks)
    }

    /// A call that is refused for what it is lent: 1, 2, 19, or one of them and more.
    fn lent_otherwise(&mut self) {
        let book = self.rng().pick(&[0, 4_095, WORDS, WORDS, WORDS + 1]);
        let store = self.rng().pick(&[0, 4_096, 12_287, STORE, STORE + 1]);
        let (output, shelf) = (self.rng().pick(&[0, 12, 51]), self.rng().below(5));
        let look = Request::look(shelf).bytes();
        let lent = Lent { book, store };
        let call = match self.rng().below(3) {
            0 => Call::Frame { book, output, frame: look },
            1 if lent != Lent::WHOLE => Call::Fill(lent, shelf),
            2 if lent != Lent::WHOLE => Call::ComeBack(lent, shelf),
            _ => return,
        };
        self.calls.push(call);
    }

    /// One call about shelves or ranks, or some frames.
    fn turn(&mut self) {
        let (shelf, frames) = (self.rng().below(5), self.rng().between(1, 25));
        match self.rng().below(14) {
            0 => self.fill(shelf),
            1 => drop(self.come_back(shelf)),
            2 => self.lent_otherwise(),
            3 | 4 => {
                self.finish();
                self.fill(shelf % SHELVES);
                self.tell();
            }
            5 | 6 => {
                self.finish();
                if self.come_back(shelf) && self.rng().percent(60) {
                    self.repeat(shelf, 3 * frames as usize);
                }
                self.tell();
            }
            7 => {
                let ranks = self.some_ranks();
                self.load(&ranks);
            }
            8 | 9 => {
                self.finish();
                let ranks = self.some_ranks();
                self.load(&ranks);
                self.tell();
            }
            10 => loads::damage_for_a_while(self),
            _ => self.contend(frames),
        }
    }
}

/// Teams at work, shelves filled and come back to and ranks loaded in between.
pub fn contended(seed: u64, turns: i64) -> Vec<Call> {
    let mut list = ListAuthor::new(seed);
    (0..turns).for_each(|_| list.turn());
    list.finish();
    for shelf in 0..SHELVES {
        list.come_back(shelf);
        list.tell();
    }
    list.calls
}

/// A look with each length of book and output, then both calls with each length of book
/// and store and each shelf, fillings only where wanted.
fn each_lending(calls: &mut Vec<Call>, fills: impl Fn(Lent) -> bool) {
    let stores = [STORE, 0, 4_096, 12_287, STORE + 1];
    for book in [WORDS, 4_095, WORDS + 1, 0] {
        let look = |output| Call::Frame { book, output, frame: Request::look(9).bytes() };
        calls.extend([0, 51, 52, 64].map(look));
        let shelves = [0, 1, 2, 3, 4, 65_535];
        for (store, shelf) in stores.iter().flat_map(|store| shelves.map(|s| (*store, s))) {
            let lent = Lent { book, store };
            calls.push(Call::ComeBack(lent, shelf));
            calls.extend(fills(lent).then_some(Call::Fill(lent, shelf)));
        }
    }
    calls.push(Call::Tell);
}

/// Each lending with and without a ticket, while no shelf is filled, then while all are:
/// the first check that applies.
fn every_check() -> Vec<Call> {
    let mut calls = vec![Call::Begin(1)];
    let view = Call::frame(&Request::view(15, &[9]).bytes());
    let step = Call::frame(&Request::step(15).bytes());
    for filled in [false, true] {
        calls.push(view.clone());
        each_lending(&mut calls, |_| true);
        calls.extend([step.clone(), step.clone()]);
        each_lending(&mut calls, |lent| filled || lent != Lent::WHOLE);
        calls.extend((0..SHELVES).map(|shelf| Call::Fill(Lent::WHOLE, shelf)));
    }
    calls
}

/// Fill, edit, fill again, come back; come back twice; other shelves remain.
pub fn in_turn(seed: u64) -> Vec<Call> {
    let mut list = ListAuthor::new(seed);
    let work = |list: &mut ListAuthor| {
        list.contend(60);
        list.finish();
        list.tell();
    };
    for shelf in [0, 1, 2, 1] {
        work(&mut list);
        list.fill(shelf);
    }
    for shelf in [1, 1, 0, 2, 0] {
        work(&mut list);
        list.come_back(shelf);
        list.tell();
        list.repeat(shelf, 40);
        list.finish();
    }
    list.come_back(2);
    list.come_back(0);
    list.come_back(2);
    list.tell();
    list.calls
}

/// A case, and the run that ended when the shelf was filled, with the same calls behind.
pub fn twin_cases(seed: u64) -> Vec<Call> {
    let mut list = ListAuthor::new(seed);
    let shelf = seed as i64 % SHELVES;
    list.contend(80);
    list.finish();
    list.fill(shelf);
    let filling = list.calls.len();
    list.contend(100);
    list.finish();
    list.fill((shelf + 1) % SHELVES);
    list.contend(20);
    list.finish();
    list.come_back(shelf);
    let back = list.calls.len();
    list.repeat(shelf, 30);
    list.contend(60);
    list.finish();
    list.tell();
    let ListAuthor { calls, .. } = list;
    [&calls[..], &calls[..filling], &calls[back..]].concat()
}

/// The same with ranks loaded before the filling, between it and the coming back, and
/// later: the run that ended at the filling loads there those now in force.
pub fn twin_cases_with_loads(seed: u64) -> Vec<Call> {
    let mut list = ListAuthor::new(seed);
    let shelf = seed as i64 % SHELVES;
    let work = |list: &mut ListAuthor, frames: i64| {
        list.contend(frames);
        list.finish();
        let ranks = loads::permutation(list.rng());
        list.load(&ranks);
    };
    work(&mut list, 60);
    list.contend(20);
    list.finish();
    list.fill(shelf);
    let filling = list.calls.len();
    work(&mut list, 60);
    work(&mut list, 40);
    let now = Call::load(&list.author.desk.ranks);
    list.contend(30);
    // A load that is refused leaves the ranks that the twin is given.
    let refused = loads::permutation(list.rng());
    list.saying(|author| author.crowd());
    list.load(&refused);
    list.finish();
    list.come_back(shelf);
    let back = list.calls.len();
    list.tell();
    list.repeat(shelf, 30);
    list.contend(60);
    work(&mut list, 20);
    list.contend(40);
    list.finish();
    list.tell();
    let ListAuthor { calls, .. } = list;
    [&calls[..], &calls[..filling], &[now], &calls[back..]].concat()
}

/// The list stored, whose seed is 0, or another.
pub fn list(seed: u64) -> Vec<u8> {
    let mut calls = every_check();
    (11..=13).for_each(|salt| calls.extend(in_turn(seed + salt)));
    (21..=26).for_each(|salt| calls.extend(twin_cases(seed + salt)));
    (31..=37).for_each(|salt| calls.extend(contended(seed + salt, 44)));
    (41..=46).for_each(|salt| calls.extend(twin_cases_with_loads(seed + salt)));
    calls.extend(loads::about_ranks(seed));
    calls.iter().flat_map(Call::bytes).collect()
}
