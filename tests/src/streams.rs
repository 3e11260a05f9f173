//! Seeded streams of frames: contention, a full book, fuzz, damage, endings.

use crate::demand3::{sweep, Plain, Watch};
use crate::frames::{
    framed, nearest_hundredth, split, Answer, Field, Field::*, Kind, Request, ANGLES, NAMED,
    NEW_ANGLES,
};
use crate::layout::*;
use crate::model::Desk;
use crate::rounds::{self, Order, ORDERS};

/// splitmix64.
pub struct Prng(u64);

impl Prng {
    pub fn new(seed: u64) -> Prng {
        Prng(seed.wrapping_mul(0x9E37_79B9_7F4A_7C15) ^ 0x6D75_7373_6C65)
    }

    pub fn next(&mut self) -> u64 {
        self.0 = self.0.wrapping_add(0x9E37_79B9_7F4A_7C15);
        let mut z = self.0;
        z = (z ^ (z >> 30)).wrapping_mul(0xBF58_476D_1CE4_E5B9);
        z = (z ^ (z >> 27)).wrapping_mul(0x94D0_49BB_1331_11EB);
        z ^ (z >> 31)
    }

    pub fn below(&mut self, bound: i64) -> i64 {
        (self.next() % bound as u64) as i64
    }

    pub fn between(&mut self, least: i64, greatest: i64) -> i64 {
        least + self.below(greatest - least + 1)
    }

    pub fn percent(&mut self, share: i64) -> bool {
        self.below(100) < share
    }

    pub fn pick<T: Copy>(&mut self, from: &[T]) -> T {
        from[self.below(from.len() as i64) as usize]
    }

    fn bytes(&mut self, count: i64) -> Vec<u8> {
        (0..count).map(|_| self.next() as u8).collect()
    }

    /// Some different numbers of a range.
    pub fn some(&mut self, count: i64, least: i64, greatest: i64) -> Vec<i64> {
        let mut all: Vec<i64> = (least..=greatest).collect();
        (0..count).map(|_| all.swap_remove(self.below(all.len() as i64) as usize)).collect()
    }
}

/// Where a stream's teams meet and how they behave (shares in percent).
struct Site {
    passages: Vec<i64>,
    legs: Vec<i64>,
    teams: i64,
    looks: i64,
    /// Tickets opened, and how many of them are views.
    opened: i64,
    views: i64,
    /// Edits with one quoted field made wrong.
    wrong: i64,
    /// Edits quoted from an old view of the lists.
    old: i64,
    /// Steps that one team takes in a row, at most.
    burst: i64,
}

impl Site {
    fn new(rng: &mut Prng) -> Site {
        let (junctions, legs) = (rng.pick(&[2, 2, 3, 4, 6]), rng.pick(&[5, 12, 30, 150]));
        Site {
            passages: rng.some(junctions, 0, PASSAGES - 1),
            legs: rng.some(legs, 1, LEGS),
            teams: rng.pick(&[2, 5, 16, 16, 16]),
            looks: rng.pick(&[2, 10, 25]),
            opened: rng.pick(&[5, 15, 30]),
            views: rng.pick(&[10, 25, 50]),
            wrong: rng.pick(&[3, 10, 30]),
            old: rng.pick(&[0, 5, 20]),
            burst: rng.pick(&[1, 1, 3, 12]),
        }
    }
}

fn stations(rng: &mut Prng) -> (i64, i64) {
    let from = rng.pick(&[0, 1, 2, 300, 65_535]);
    let to = rng.between(3, 299);
    if rng.percent(50) {
        (from, to)
    } else {
        (to, from)
    }
}

/// A measure; its least and greatest figures come often, and clinos next to them and
/// to 0. Half of them can be read in minutes.
fn measure(rng: &mut Prng) -> [i64; 3] {
    let beside = rng.percent(10);
    let [distance, compass, clino] = [Distance, Compass, Clino].map(|field| {
        let (least, greatest) = Request::new(Kind::Add, &[]).limits(field);
        let between = rng.between(least, greatest);
        let inward = i64::from(beside && field == Clino);
        let level = if field == Clino { rng.between(-1, 1) } else { between };
        rng.pick(&[least + inward, greatest - inward, between, between, level])
    });
    if rng.percent(50) {
        return [distance, compass, clino];
    }
    [distance, readable(compass), clino.signum() * readable(clino.abs())]
}

/// The greatest figure up to this one that an instrument in minutes can give.
fn readable(figure: i64) -> i64 {
    (0..=figure).rev().find(|figure| minutes_of(*figure).is_some()).unwrap_or(0)
}

/// The degrees and minutes that are rounded to this figure, if any are.
fn minutes_of(figure: i64) -> Option<(i64, i64)> {
    let (degrees, near) = (figure / 100, figure % 100 * 3 / 5);
    let fits = |minutes: &i64| *minutes < 60 && nearest_hundredth(degrees, *minutes) == figure;
    [near, near + 1].into_iter().find(fits).map(|minutes| (degrees, minutes))
}

/// An Add or Correct said in minutes, if its figures can be.
fn in_minutes(rng: &mut Prng, edit: &Request) -> Option<Request> {
    let mut said = *edit;
    said.kind = match edit.kind {
        Kind::Add => Kind::AddInMinutes,
        Kind::Correct => Kind::CorrectInMinutes,
        _ => return None,
    };
    for (angles, measure) in [(ANGLES, edit.measure()), (NEW_ANGLES, edit.new_measure())] {
        let (degrees, minutes) = minutes_of(measure.compass)?;
        let (up, up_minutes) = minutes_of(measure.clino.abs())?;
        let sign = match measure.clino.signum() {
            0 => rng.below(2),
            way => i64::from(way < 0),
        };
        let values = [degrees, minutes, sign, up, up_minutes];
        angles.into_iter().zip(values).for_each(|(field, value)| said.set(field, value));
    }
    Some(said)
}

/// An edit of a team that quotes the lists of a view as they are, in either form.
fn draft(rng: &mut Prng, site: &Site, view: &Plain, team: i64) -> Request {
    let edit = draft_in_hundredths(rng, site, view, team);
    let said = if rng.percent(50) { in_minutes(rng, &edit) } else { None };
    said.unwrap_or(edit)
}

fn draft_in_hundredths(rng: &mut Prng, site: &Site, view: &Plain, team: i64) -> Request {
    let p = rng.pick(&site.passages);
    let few = view.count(p) < rng.between(1, 5);
    if view.list(p).is_empty() || rng.percent(if few { 70 } else { 25 }) {
        return draft_add(rng, site, view, team, p);
    }
    // The newest, the oldest, or any leg.
    let last = view.list(p).len() - 1;
    let any = rng.below(last as i64 + 1) as usize;
    let index = rng.pick(&[0, last, any]);
    match rng.below(4) {
        0 => {
            let edit = draft_correct(rng, view, team, p, index);
            by_any_compass(rng, edit)
        }
        1 => by_any_compass(rng, draft_strike(view, team, p, index)),
        _ => {
            let others: Vec<i64> = site.passages.iter().copied().filter(|q| *q != p).collect();
            draft_move(view, team, p, rng.pick(&others), index)
        }
    }
}

fn draft_add(rng: &mut Prng, site: &Site, view: &Plain, team: i64, p: i64) -> Request {
    let free = |r: &i64| view.find(*r).is_none();
    let tried: Vec<i64> = (0..4).map(|_| rng.pick(&site.legs)).collect();
    let r = tried.iter().copied().find(free).unwrap_or(tried[0]);
    add(rng, view, team, p, r)
}

fn add(rng: &mut Prng, view: &Plain, team: i64, p: i64, r: i64) -> Request {
    let ((from, to), [distance, compass, clino]) = (stations(rng), measure(rng));
    let seen = [(Team, team), (P, p), (R, r), (H, view.newest(p)), (C, view.count(p))];
    let mut add = Request::new(Kind::Add, &seen);
    set(&mut add, &[(From, from), (To, to)]);
    set(&mut add, &[(Distance, distance), (Compass, compass), (Clino, clino)]);
    add
}

fn set(request: &mut Request, values: &[(Field, i64)]) {
    values.iter().for_each(|(field, value)| request.set(*field, *value));
}

/// An edit of the leg at an index of a passage's list, with its neighbours.
fn quoting(view: &Plain, kind: Kind, team: i64, p: i64, index: usize) -> Request {
    let leg = view.list(p)[index];
    let newer = view.number_at(p, index.checked_sub(1));
    let older = view.number_at(p, Some(index + 1));
    let mut edit = Request::new(kind, &[(Team, team), (P, p), (R, leg.number)]);
    set(&mut edit, &[(F, newer), (S, older), (C, view.count(p)), (From, leg.from), (To, leg.to)]);
    let of = leg.measure;
    set(&mut edit, &[(Distance, of.distance), (Compass, of.compass), (Clino, of.clino)]);
    edit
}

fn draft_correct(rng: &mut Prng, view: &Plain, team: i64, p: i64, index: usize) -> Request {
    let mut edit = quoting(view, Kind::Correct, team, p, index);
    let [distance, compass, clino] = measure(rng);
    set(&mut edit, &[(NewDistance, distance), (NewCompass, compass), (NewClino, clino)]);
    edit
}

fn draft_strike(view: &Plain, team: i64, p: i64, index: usize) -> Request {
    quoting(view, Kind::Strike, team, p, index)
}

/// An edit that quotes a plumb leg by any of the compasses that members wrote for it.
fn by_any_compass(rng: &mut Prng, mut edit: Request) -> Request {
    if edit.measure().plumb() {
        edit.set(Compass, rng.pick(&WRITTEN_FOR_ONE_SHAFT));
    }
    edit
}

/// "Two members wrote 0 and 18,000 for one shaft"; the greatest means the same.
const WRITTEN_FOR_ONE_SHAFT: [i64; 3] = [0, 18_000, 35_999];

fn draft_move(view: &Plain, team: i64, p: i64, q: i64, index: usize) -> Request {
    let mut edit = quoting(view, Kind::Move, team, p, index);
    set(&mut edit, &[(Q, q), (H, view.newest(q)), (D, view.count(q))]);
    edit
}

/// A word of the site's passages and legs.
fn a_word(rng: &mut Prng, site: &Site) -> i64 {
    let (p, r) = (rng.pick(&site.passages), rng.pick(&site.legs));
    let of_leg = rng.pick(&[link_word(r), place_word(r), measure_word(r), newer_word(r)]);
    rng.pick(&[newest_word(p), count_word(p), of_leg])
}

/// A view of one to six words, most of them those of one leg and its passage.
fn draft_view(rng: &mut Prng, site: &Site, plain: &Plain, team: i64) -> Request {
    let p = rng.pick(&site.passages);
    let r = if plain.list(p).is_empty() { rng.pick(&site.legs) } else { plain.newest(p) };
    let of_leg = [link_word(r), place_word(r), measure_word(r), newer_word(r)];
    let near = [&[newest_word(p), count_word(p)], &of_leg[..]].concat();
    let (n, mut words) = (rng.between(1, 6) as usize, Vec::new());
    while words.len() < n {
        let any = a_word(rng, site);
        let word = rng.pick(&near);
        let word = rng.pick(&[word, word, any]);
        if !words.contains(&word) {
            words.push(word);
        }
    }
    Request::view(team, &words)
}

/// Makes one of the quoted fields wrong.
fn misquote(rng: &mut Prng, site: &Site, edit: &mut Request) {
    let field = rng.pick(edit.form());
    let now = edit.get(field);
    let value = match field {
        Team => now,
        P | Q => rng.pick(&site.passages),
        F | R | S | H => rng.pick(&[0, next_leg(site, now)]),
        _ => now + rng.pick(&[-1, 1]),
    };
    let (least, greatest) = edit.limits(field);
    edit.set(field, value.clamp(least, greatest));
}

/// The leg of the site that follows a leg, in no order that matters.
fn next_leg(site: &Site, now: i64) -> i64 {
    let at = site.legs.iter().position(|leg| *leg == now).map_or(0, |at| at + 1);
    site.legs[at % site.legs.len()]
}

/// An edit with every field in range and no two legs alike.
pub fn a_fair_edit(kind: Kind) -> Request {
    let mut edit = Request::new(kind, &[(P, 1), (Q, 2), (F, 3), (R, 4), (S, 5), (H, 6)]);
    set(&mut edit, &[(C, 1), (D, 1), (From, 1), (To, 2)]);
    set(&mut edit, &[(Distance, 1), (NewDistance, 1)]);
    edit
}

/// Requests of each kind, and views of each length, that aren't refused.
pub fn fair_requests() -> Vec<Request> {
    let edits = [Kind::Add, Kind::Correct, Kind::Strike, Kind::Move].map(a_fair_edit);
    let edits = edits.into_iter().chain(Kind::IN_MINUTES.map(a_fair_edit));
    let views = (1..=6).map(|n| Request::view(0, &[50, 1, 0, 13, 64, 4_094][..n]));
    edits.chain([Request::step(0), Request::look(0)]).chain(views).collect()
}

/// Changes of a fair request that may make it one to refuse.
fn oddities(request: &Request) -> Vec<Vec<(Field, i64)>> {
    let mut found = Vec::new();
    for field in request.form() {
        let (least, greatest) = request.limits(*field);
        let values = [least - 1, least, greatest, greatest + 1];
        let carried = values.into_iter().filter(|value| field.carries(*value));
        found.extend(carried.map(|value| vec![(*field, value)]));
    }
    for (one, other) in pairs(request) {
        found.extend([0, 7].map(|value| vec![(one, value), (other, value)]));
    }
    found
}

/// The pairs of a request's fields that mustn't agree.
fn pairs(request: &Request) -> Vec<(Field, Field)> {
    let words = (0..6).flat_map(|i| (0..i).map(move |j| (NAMED[j], NAMED[i])));
    let has = |field: &Field| request.form().contains(field);
    PAIRS.into_iter().chain(words).filter(|(one, other)| has(one) && has(other)).collect()
}

const PAIRS: [(Field, Field); 8] =
    [(From, To), (Q, P), (F, R), (F, S), (R, S), (H, R), (H, F), (H, S)];

/// Writes a stream, and listens to what the model answers to it.
pub struct Author {
    pub rng: Prng,
    pub bytes: Vec<u8>,
    pub frames: i64,
    pub desk: Desk,
    pub watch: Watch,
    old_view: Plain,
    site: Site,
}

impl Author {
    pub fn new(seed: u64) -> Author {
        let mut rng = Prng::new(seed);
        let site = Site::new(&mut rng);
        let (desk, watch, old_view) = (Desk::fresh(), Watch::new(), Plain::fresh());
        Author { rng, bytes: Vec::new(), frames: 0, desk, watch, old_view, site }
    }

    pub fn say(&mut self, frame: &[u8]) -> Answer {
        let answer = self.desk.answer(frame);
        self.watch.hear(frame, &answer.bytes()).expect("the model keeps demand 3");
        self.bytes.extend(frame);
        self.frames += 1;
        answer
    }

    pub fn contend(&mut self, frames: i64) {
        let end = self.frames + frames;
        while self.frames < end {
            self.turn();
        }
    }

    /// Something that teams do: a look, an edit or a view, steps.
    fn turn(&mut self) {
        if self.rng.percent(2) {
            self.old_view = self.watch.plain.clone();
        }
        let team = self.rng.below(self.site.teams);
        let (share, busy) = (self.rng.below(100), self.watch.is_busy(team));
        if share < self.site.looks {
            self.look();
        } else if !busy && share < self.site.looks + self.site.opened {
            self.open(team);
        } else if !busy && self.rng.percent(3) {
            self.oppose();
        } else if busy || self.rng.percent(1) {
            self.steps(team);
        }
    }

    fn look(&mut self) {
        let word = a_word(&mut self.rng, &self.site);
        self.say(&Request::look(word).bytes());
    }

    fn open(&mut self, team: i64) {
        if self.rng.percent(self.site.views) {
            let view = self.drafted_view(team);
            self.say(&view.bytes());
        } else {
            self.edit(team);
        }
    }

    fn drafted_view(&mut self, team: i64) -> Request {
        draft_view(&mut self.rng, &self.site, &self.watch.plain, team)
    }

    fn drafted(&mut self, team: i64) -> Request {
        let old = self.rng.percent(self.site.old);
        let view = if old { &self.old_view } else { &self.watch.plain };
        draft(&mut self.rng, &self.site, view, team)
    }

    fn edit(&mut self, team: i64) {
        let mut edit = self.drafted(team);
        if self.rng.percent(self.site.wrong) {
            misquote(&mut self.rng, &self.site, &mut edit);
        }
        self.say(&edit.bytes());
    }

    /// Two teams move legs in opposite directions, their steps mixed.
    fn oppose(&mut self) {
        let plain = &self.watch.plain;
        let full = |p: &i64| !plain.list(*p).is_empty();
        let places: Vec<i64> = self.site.passages.iter().copied().filter(full).collect();
        let idle: Vec<i64> =
            (0..self.site.teams).filter(|team| !self.watch.is_busy(*team)).collect();
        let ([p, q, ..], [a, b, ..]) = (&places[..], &idle[..]) else { return };
        let first = draft_move(plain, *a, *p, *q, 0).bytes();
        let second = draft_move(plain, *b, *q, *p, 0).bytes();
        let teams = [*a, *b];
        self.say(&first);
        self.say(&second);
        for _ in 0..self.rng.below(12) {
            let team = self.rng.pick(&teams);
            self.say(&Request::step(team).bytes());
        }
    }

    fn steps(&mut self, team: i64) {
        for _ in 0..self.rng.between(1, self.site.burst) {
            let answer = self.say(&Request::step(team).bytes());
            if matches!(answer, Answer::Waiting(..)) || !self.watch.is_busy(team) {
                return;
            }
        }
    }

    /// Steps till the team has no ticket; nobody else must be at work.
    pub fn finish(&mut self, team: i64) {
        while self.watch.is_busy(team) {
            self.say(&Request::step(team).bytes());
        }
    }

    /// Rounds of steps until no ticket stands.
    pub fn finish_all(&mut self, order: Order) {
        let mut rng = Prng::new(self.frames as u64);
        let course = rounds::run(&mut self.desk.clone(), &Desk::answer, order, &mut rng);
        for team in course.expect("the model gets every ticket done").steps {
            self.say(&Request::step(team).bytes());
        }
    }

    /// Every team without a ticket opens one.
    pub fn crowd(&mut self) {
        for team in (0..TEAMS).filter(|team| !self.watch.is_busy(*team)).collect::<Vec<_>>() {
            self.open(team);
        }
    }

    /// The book that the stream has left so far.
    pub fn book(&self) -> &[Word] {
        &self.desk.book
    }

    pub fn sweep(&mut self) {
        self.bytes.extend(sweep());
        self.frames += WORDS;
    }

    /// All legs into one passage, then edits at the greatest counts.
    fn fill(&mut self) {
        let p = self.site.passages[0];
        for r in self.rng.some(LEGS, 1, LEGS) {
            let edit = add(&mut self.rng, &self.watch.plain, r % TEAMS, p, r);
            self.settle(&edit);
        }
        let one_more = add(&mut self.rng, &self.watch.plain, 0, p, 1);
        self.say(&one_more.bytes());
        let q = self.site.passages[1];
        for index in [LEGS as usize - 1, 700, 0] {
            let moved = draft_move(&self.watch.plain, 3, p, q, index);
            self.settle(&moved);
        }
        for index in [LEGS as usize - 4, 700, 0] {
            let struck = draft_strike(&self.watch.plain, 4, p, index);
            self.settle(&struck);
        }
        let last = [newer_word(LEGS), newest_word(p), place_word(LEGS), link_word(LEGS)];
        self.settle(&Request::view(5, &last));
        self.site.legs = (1..=LEGS).collect();
    }

    /// Says an edit or a view, and ends its ticket if there is one now.
    pub fn settle(&mut self, opener: &Request) {
        self.say(&opener.bytes());
        self.finish(opener.team());
    }

    /// Each field of each kind at and one past each limit, each pair of fields
    /// that mustn't agree (both 0 is all right for legs), and each pair of those.
    fn every_limit(&mut self) {
        for fair in fair_requests() {
            let oddities = oddities(&fair);
            for (index, odd) in oddities.iter().enumerate() {
                for other in &oddities[index..] {
                    let mut request = fair;
                    set(&mut request, odd);
                    set(&mut request, other);
                    self.settle(&request);
                }
            }
        }
    }

    /// Each field of a leg or a count at and one past its limits, and at those that there were
    /// in three words a leg.
    fn every_leg_limit(&mut self) {
        let kinds = [Kind::Add, Kind::Correct, Kind::Strike, Kind::Move, Kind::AddInMinutes];
        for fair in kinds.map(a_fair_edit) {
            for field in [F, R, S, H, C, D].into_iter().filter(|at| fair.form().contains(at)) {
                let (least, greatest) = fair.limits(field);
                for value in [least, greatest, greatest + 1, 1_343, 1_344] {
                    let mut request = fair;
                    request.set(field, value);
                    self.settle(&request);
                }
            }
        }
    }

    /// Some legs that are in no list.
    fn free_legs(&mut self, count: usize) -> Vec<i64> {
        let mut legs = self.rng.some(LEGS, 1, LEGS);
        legs.retain(|r| self.watch.plain.find(*r).is_none());
        legs.truncate(count);
        legs
    }

    /// A leg alone moved from one empty passage to another and back. A chain on top of it, then
    /// its newest, a middle and its oldest leg moved away and back onto the chain, and struck,
    /// with the newer words looked at.
    fn both_ways(&mut self) {
        let empty = |p: &i64| self.watch.plain.list(*p).is_empty();
        let passages: Vec<i64> = (0..PASSAGES).filter(empty).collect();
        let (p, q) = (passages[passages.len() - 1], passages[0]);
        let legs = self.free_legs(7);
        for r in &legs {
            let added = add(&mut self.rng, &self.watch.plain, r % TEAMS, p, *r);
            self.settle(&added);
            if self.watch.plain.count(p) == 1 {
                for (from, to) in [(p, q), (q, p)] {
                    let moved = draft_move(&self.watch.plain, 2, from, to, 0);
                    self.settle(&moved);
                }
            }
        }
        self.other_neighbours(p, q);
        for index in [0, 2, usize::MAX] {
            for (from, to) in [(p, q), (q, p)] {
                let last = self.watch.plain.list(from).len() - 1;
                let index = if from == p { index.min(last) } else { 0 };
                let moved = draft_move(&self.watch.plain, 3, from, to, index);
                self.settle(&moved);
                self.look_at_newer(&legs);
            }
        }
        for index in [2, usize::MAX, 0] {
            let last = self.watch.plain.list(p).len() - 1;
            let struck = draft_strike(&self.watch.plain, 4, p, index.min(last));
            self.settle(&struck);
            self.look_at_newer(&legs);
        }
    }

    /// Strikes and moves of the legs of a chain that quote another leg of it as the next newer or
    /// the next older. Where that leg's words, or the leg's own, are claimed before the links, a
    /// newer word is what differs.
    fn other_neighbours(&mut self, p: i64, q: i64) {
        let plain = self.watch.plain.clone();
        for (index, field) in (1..4).flat_map(|index| [(index, F), (index, S)]) {
            let own = draft_strike(&plain, 5, p, index);
            let named = [F, R, S].map(|at| own.get(at));
            for other in plain.list(p).iter().map(|leg| leg.number).filter(|r| !named.contains(r)) {
                let moves = other % 2 == 0;
                let mut edit = if moves { draft_move(&plain, 5, p, q, index) } else { own };
                edit.set(field, other);
                self.settle(&edit);
            }
        }
    }

    fn look_at_newer(&mut self, legs: &[i64]) {
        for r in legs {
            self.say(&Request::look(newer_word(*r)).bytes());
        }
    }

    /// A shaft up and down, and legs just not plumb, each written by one compass,
    /// corrected and struck by another: granted for the shafts alone.
    fn every_shaft(&mut self) {
        let compasses = WRITTEN_FOR_ONE_SHAFT;
        let pairs = compasses.iter().flat_map(|one| compasses.map(|other| (*one, other)));
        for (written, quoted) in pairs {
            for clino in [-9_000, -8_999, 8_999, 9_000] {
                self.shaft(clino, written, quoted);
            }
        }
        [-9_000, 9_000].into_iter().for_each(|clino| self.compass_out_of_range(clino));
    }

    /// A leg added, corrected to a shorter one and back, and struck.
    fn shaft(&mut self, clino: i64, written: i64, quoted: i64) {
        let (p, r) = (self.site.passages[0], self.site.legs[0]);
        let mut added = add(&mut self.rng, &self.watch.plain, 0, p, r);
        set(&mut added, &[(Distance, 9_000), (Compass, written), (Clino, clino)]);
        self.settle(&added);
        for (old, new) in [(9_000, 8_000), (8_000, 9_000)] {
            let mut corrected = quoting(&self.watch.plain, Kind::Correct, 1, p, 0);
            set(&mut corrected, &[(Distance, old), (Compass, quoted), (Clino, clino)]);
            set(&mut corrected, &[(NewDistance, new), (NewCompass, quoted), (NewClino, clino)]);
            self.settle(&corrected);
            self.say(&Request::look(measure_word(r)).bytes());
        }
        for compass in [quoted, written] {
            let mut struck = quoting(&self.watch.plain, Kind::Strike, 2, p, 0);
            set(&mut struck, &[(Distance, 9_000), (Compass, compass), (Clino, clino)]);
            self.settle(&struck);
            if self.watch.plain.find(r).is_none() {
                return;
            }
        }
    }

    /// "though its field must still be in range": each compass field of each edit.
    fn compass_out_of_range(&mut self, clino: i64) {
        for (kind, field) in [
            (Kind::Add, Compass),
            (Kind::Correct, Compass),
            (Kind::Correct, NewCompass),
            (Kind::Strike, Compass),
        ] {
            for compass in [35_999, 36_000, 65_535] {
                let mut edit = a_fair_edit(kind);
                set(&mut edit, &[(Clino, clino), (NewClino, clino), (field, compass)]);
                self.settle(&edit);
            }
        }
    }

    /// Each field of edits in minutes at and one past each limit, also with clinos
    /// of 90 degrees, and with stations that agree.
    fn every_limit_in_minutes(&mut self) {
        for kind in Kind::IN_MINUTES {
            let level = a_fair_edit(kind);
            let mut plumb = level;
            set(&mut plumb, &[(ClinoDegrees, 90), (NewClinoDegrees, 90)]);
            let mut down = plumb;
            set(&mut down, &[(Sign, 1), (NewSign, 1)]);
            let mut muddled = level;
            muddled.set(To, level.get(From));
            for fair in [level, plumb, down, muddled] {
                for odd in oddities(&fair) {
                    let mut request = fair;
                    set(&mut request, &odd);
                    self.settle(&request);
                }
            }
        }
    }

    /// Limits; each minute in an angle of a leg that two teams write and quote in
    /// either form; kinds that there are none of, and other lengths.
    fn every_minute(&mut self) {
        self.every_limit_in_minutes();
        for minute in 0..60 {
            let angles =
                [6 * minute % 360, minute, minute % 2, minute * 7 % 90, (minute + 30) % 60];
            self.two_forms(angles);
        }
        for sign in [0, 1] {
            self.two_forms([359, 59, sign, 0, 0]);
            self.two_forms([0, 1, sign, 0, 30]);
            self.two_forms([359, 59, sign, 90, 0]);
            self.two_forms([0, 0, sign, 89, 59]);
        }
        for kind in (8..=19).chain([81, 82]) {
            for length in [4, 24, 28, 30, 32, 38, 40, 42] {
                let mut body = a_fair_edit(Kind::CorrectInMinutes).bytes().split_off(4);
                body.resize(length - 2, 0);
                self.say(&framed(kind, &body));
            }
        }
    }

    /// A leg added in one form, corrected to another and back with its figures quoted
    /// in the other form, and struck.
    pub fn two_forms(&mut self, angles: [i64; 5]) {
        let (p, r) = (self.site.passages[0], self.site.legs[0]);
        for minutes_first in [true, false] {
            let mut added = add(&mut self.rng, &self.watch.plain, 0, p, r);
            added.kind = Kind::AddInMinutes;
            ANGLES.into_iter().zip(angles).for_each(|(field, angle)| added.set(field, angle));
            let figures = added.in_hundredths();
            self.settle(if minutes_first { &added } else { &figures });
            self.say(&Request::look(measure_word(r)).bytes());
            for (team, minutes) in [(1, !minutes_first), (2, minutes_first)] {
                let mut corrected = quoting(&self.watch.plain, Kind::CorrectInMinutes, team, p, 0);
                for fields in [ANGLES, NEW_ANGLES] {
                    fields.into_iter().zip(angles).for_each(|(field, angle)| {
                        corrected.set(field, angle);
                    });
                }
                corrected.set(NewDistance, corrected.get(Distance) % 1_000 + 1);
                let figures = corrected.in_hundredths();
                self.settle(if minutes { &corrected } else { &figures });
                self.say(&Request::look(measure_word(r)).bytes());
            }
            let mut struck = quoting(&self.watch.plain, Kind::Strike, 3, p, 0);
            set(&mut struck, &[(Compass, figures.get(Compass)), (Clino, figures.get(Clino))]);
            self.settle(&struck);
        }
    }

    /// Two legs that change places between two passages, their moves opposite and
    /// claimed in turn. Where the passages' ranks and numbers rise differently, the
    /// first claim by position is not the first by word number.
    pub fn cross(&mut self, p: i64, q: i64) {
        let legs = self.free_legs(2);
        for (passage, r) in [(p, legs[0]), (q, legs[1])] {
            let added = add(&mut self.rng, &self.watch.plain, 0, passage, r);
            self.settle(&added);
        }
        let moves = [(0, p, q), (1, q, p)]
            .map(|(team, from, to)| draft_move(&self.watch.plain, team, from, to, 0));
        moves.iter().for_each(|opened| drop(self.say(&opened.bytes())));
        self.say(&Request::step(0).bytes());
        self.say(&Request::step(1).bytes());
        self.say(&Request::look(newest_word(p)).bytes());
        self.say(&Request::look(newest_word(q)).bytes());
        self.finish_all(Order::Rising);
    }

    /// A move between each two passages of a fresh book, so that all its quotes
    /// are wrong: Stale names the word that is claimed first. And a view of a word
    /// of each: a look after its first claim shows which that was.
    fn every_rank(&mut self) {
        for (p, q) in (0..PASSAGES).flat_map(|p| (0..PASSAGES).map(move |q| (p, q))) {
            let mut request = a_fair_edit(Kind::Move);
            set(&mut request, &[(P, p), (Q, q), (F, 0)]);
            self.settle(&request);
            self.say(&Request::view(0, &[newest_word(p), count_word(q)]).bytes());
            self.say(&Request::step(0).bytes());
            self.say(&Request::look(newest_word(p)).bytes());
            self.finish(0);
        }
    }

    pub fn fuzz(&mut self, frames: i64) {
        let end = self.frames + frames;
        while self.frames < end {
            if self.rng.percent(50) {
                self.turn();
            } else {
                self.oddity();
            }
        }
    }

    /// A frame with something wrong, or nearly so.
    fn oddity(&mut self) {
        let team = self.rng.below(TEAMS);
        let mut request = match self.rng.below(5) {
            0 => Request::step(team),
            1 => Request::look(self.rng.below(WORDS)),
            2 => self.drafted_view(team),
            _ => self.drafted(team),
        };
        let frame = match self.rng.below(11) {
            0 | 1 => self.at_a_limit(&mut request),
            2 => self.repeating(&mut request),
            3 => self.other_kind(&request),
            4 => self.other_length(&request),
            5 => self.other_team(&mut request),
            6 => self.any_frame(),
            7 => self.bit_turned(&request),
            8 | 9 => self.odd_view(team),
            _ => request.bytes(),
        };
        self.say(&frame);
    }

    /// "fields at and one past each limit"; sometimes two of them.
    fn at_a_limit(&mut self, request: &mut Request) -> Vec<u8> {
        for _ in 0..self.rng.between(1, 2) {
            let field = self.rng.pick(request.form());
            let (least, greatest) = request.limits(field);
            let value = self.rng.pick(&[least - 1, least, greatest, greatest + 1]);
            if field.carries(value) {
                request.set(field, value);
            }
        }
        request.bytes()
    }

    /// from = to, q = p, leg numbers or words repeated; sometimes out of range as
    /// well.
    fn repeating(&mut self, request: &mut Request) -> Vec<u8> {
        let pairs = pairs(request);
        if !pairs.is_empty() {
            let (one, other) = self.rng.pick(&pairs);
            request.set(one, request.get(other));
        }
        if self.rng.percent(20) {
            return self.at_a_limit(request);
        }
        request.bytes()
    }

    fn other_kind(&mut self, request: &Request) -> Vec<u8> {
        let known = self.rng.pick(&[0, 1, 2, 3, 4, 5, 6, 7, 17, 18]);
        let between = self.rng.between(8, 19);
        let far = self.rng.pick(&[81, 82, 128, 139, 256, 261, 263, 273, 65_535]);
        let kind = self.rng.pick(&[known, between, far]);
        framed(kind, &request.bytes()[4..])
    }

    fn other_length(&mut self, request: &Request) -> Vec<u8> {
        let mut body = request.bytes().split_off(4);
        let (any, right) = (self.rng.between(0, 60), body.len() as i64);
        let count = self.rng.pick(&[any, any, right - 2, right + 2]);
        body.extend(self.rng.bytes(60));
        body.truncate(count as usize);
        framed(request.kind as i64, &body)
    }

    /// A view with its n, a word or two, or its length wrong, or several of them.
    fn odd_view(&mut self, team: i64) -> Vec<u8> {
        let mut view = self.drafted_view(team);
        let n = view.get(N);
        if self.rng.percent(40) {
            view.set(N, self.rng.pick(&[0, n - 1, n + 1, 6, 7, n + 256, 65_535]));
        }
        if self.rng.percent(40) {
            let field = self.rng.pick(&NAMED[..n as usize]);
            view.set(field, self.rng.pick(&[4_095, 4_096, 65_535]));
        }
        if self.rng.percent(40) {
            return self.repeating(&mut view);
        }
        let mut body = view.bytes().split_off(4);
        if self.rng.percent(40) {
            let length = self.rng.between(6, 20) as usize;
            body.extend(self.rng.bytes(16));
            body.truncate(length - 2);
        }
        framed(Kind::View as i64, &body)
    }

    fn other_team(&mut self, request: &mut Request) -> Vec<u8> {
        let team = self.rng.pick(&[15, 16, 17, 31, 256, 65_535]);
        request.set(Team, team);
        request.bytes()
    }

    /// A whole frame of any length up to 62, random after its length field.
    fn any_frame(&mut self) -> Vec<u8> {
        let any = self.rng.between(0, 62);
        let length = self.rng.pick(&[0, 1, 2, 3, 4, 62, any, any]);
        let mut frame = (length as u16).to_le_bytes().to_vec();
        frame.extend(self.rng.bytes(length));
        frame
    }

    fn bit_turned(&mut self, request: &Request) -> Vec<u8> {
        let mut frame = request.bytes();
        let at = self.rng.between(2, frame.len() as i64 - 1) as usize;
        frame[at] ^= 1 << self.rng.below(8);
        frame
    }
}

/// Sixteen teams at a few passages, with a final sweep of looks.
pub fn contention(seed: u64, frames: i64) -> Vec<u8> {
    let mut author = Author::new(seed);
    author.contend(frames);
    author.sweep();
    author.bytes
}

/// Contention again and again, each time until all tickets are done in rounds of one
/// of the orders.
pub fn in_rounds(seed: u64, frames: i64) -> Vec<u8> {
    let mut author = Author::new(seed);
    for order in ORDERS {
        author.contend(frames / ORDERS.len() as i64);
        author.crowd();
        author.finish_all(order);
    }
    author.sweep();
    author.bytes
}

/// A book with all its legs, then contention over it.
pub fn full(seed: u64, frames: i64) -> Vec<u8> {
    let mut author = Author::new(seed);
    author.fill();
    author.contend(frames);
    author.sweep();
    author.bytes
}

/// All ranks, fields at their limits, then contention.
pub fn at_limits(seed: u64, frames: i64) -> Vec<u8> {
    let mut author = Author::new(seed);
    author.every_rank();
    author.both_ways();
    author.every_limit();
    author.contend(frames);
    author.sweep();
    author.bytes
}

/// Shafts by every compass, then contention.
pub fn plumb(seed: u64, frames: i64) -> Vec<u8> {
    let mut author = Author::new(seed);
    author.every_shaft();
    author.contend(frames);
    author.sweep();
    author.bytes
}

/// Edits in minutes at their limits and in either form, then contention.
pub fn minutes(seed: u64, frames: i64) -> Vec<u8> {
    let mut author = Author::new(seed);
    author.every_minute();
    author.contend(frames);
    author.sweep();
    author.bytes
}

pub fn fuzz(seed: u64, frames: i64) -> Vec<u8> {
    let mut author = Author::new(seed);
    author.fuzz(frames);
    author.sweep();
    author.bytes
}

/// A stream with a few bytes changed, lost or added anywhere, or random bytes.
pub fn damaged(seed: u64, frames: i64) -> Vec<u8> {
    let mut author = Author::new(seed);
    author.contend(frames);
    let Author { mut rng, mut bytes, .. } = author;
    for _ in 0..rng.between(1, 3) {
        let at = rng.below(bytes.len() as i64) as usize;
        match rng.below(4) {
            0 => bytes[at] = rng.next() as u8,
            1 => bytes.insert(at, rng.below(8) as u8),
            2 => drop(bytes.remove(at)),
            _ => bytes.splice(at.., rng.bytes(200)).for_each(drop),
        }
    }
    bytes
}

/// Short streams with every ending that "The program survey" speaks of.
pub fn endings(seed: u64) -> Vec<Vec<u8>> {
    let mut author = Author::new(seed);
    author.contend(40);
    let before = author.bytes.clone();
    let (edit, view) = (author.drafted(1).bytes(), author.drafted_view(2).bytes());
    let lengths = [0u16, 1, 2, 61, 62, 63, 64, 255, 256, 65_535];
    let cuts = |whole: Vec<u8>| (0..=whole.len()).map(move |cut| whole[..cut].to_vec());
    let mut tails: Vec<Vec<u8>> = cuts(edit).chain(cuts(view)).collect();
    for length in lengths {
        for count in [0, 1, 2, i64::from(length.min(70))] {
            tails.push([&length.to_le_bytes()[..], &author.rng.bytes(count)[..]].concat());
        }
        // A whole piece of that length, then frames that may or may not be read.
        let whole = [&length.to_le_bytes()[..], &author.rng.bytes(i64::from(length))[..]].concat();
        tails.push([&whole[..], &before[..]].concat());
    }
    let with_before = tails.iter().map(|tail| [&before[..], &tail[..]].concat());
    with_before.chain(tails.iter().cloned()).collect()
}

/// The whole case of document 01.
pub fn whole_case() -> (Vec<u8>, Vec<u8>) {
    let add = "18 00 01 00 00 00 00 00 01 00 00 00 00 00 01 00 02 00 88 13 00 00 28 23 6A FF";
    let mut input = of_hex(add);
    let mut output = of_hex("04 00 80 00 05 00");
    (0..10).for_each(|_| input.extend(of_hex("04 00 05 00 00 00")));
    (1..=5).for_each(|k| output.extend(of_hex(&format!("04 00 81 00 {k:02X} 00"))));
    (1..=4).for_each(|k| output.extend(of_hex(&format!("04 00 84 00 {k:02X} 00"))));
    output.extend(of_hex("06 00 86 00 0A 00 00 00"));
    (input, output)
}

pub fn of_hex(text: &str) -> Vec<u8> {
    let byte = |pair| u8::from_str_radix(pair, 16).expect("two hexadecimal digits");
    text.split_whitespace().map(byte).collect()
}

/// The stored stream: the whole case, shafts, minutes, chains walked both ways, legs and counts
/// at their limits, crossing moves, a strike of f = r, contention, fuzz, a sweep, a length field above 62 and a look behind it.
pub fn stored() -> Vec<u8> {
    let mut author = Author::new(STORED_SEED);
    for frame in split(&whole_case().0) {
        author.say(frame);
    }
    author.every_shaft();
    author.every_minute();
    author.both_ways();
    author.every_leg_limit();
    // Passage 25 goes before 0 by rank, and 31 before 12.
    author.cross(0, 25);
    author.cross(31, 12);
    let mut strike = a_fair_edit(Kind::Strike);
    strike.set(F, strike.get(R));
    author.say(&strike.bytes());
    author.contend(4_000);
    author.fuzz(1_500);
    author.contend(1_000);
    author.sweep();
    // A length field of 63 stops the program: neither its bytes nor the look behind them are answered.
    author.bytes.extend([63, 0]);
    author.bytes.extend([0; 63]);
    author.bytes.extend([4, 0, 6, 0, 0, 0]);
    author.bytes
}

const STORED_SEED: u64 = 255;
