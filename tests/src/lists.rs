//! Mixed lists of calls, as the program `crates/lists` reads them, and what the model
//! says of each; demand 3 over them, from calls and answers alone; and twins.
//!
//! A call is five numbers of 16 bits, low byte first (tag, words of the book lent, words
//! of the store lent, a number, how many bytes it carries), then these bytes. Tags:
//!
//! - 0 begins a case: a fresh book, no ticket, no shelf filled, the fixed ranks lent, word
//!   i of the store being the number times i + 1.
//! - 1 gives the frame carried, the number being the bytes of its output.
//! - 2 fills and 3 comes back to the shelf of that number.
//! - 4 tells where things stand.
//! - 5 loads the ranks carried. 6 is no call: it lends the ranks carried from now on. Of
//!   both the number is how many ranks they are, at most 40, and the bytes carried are
//!   the ranks, 16 bits each, low byte first: twice as many as the number.
//!
//! A program keeps the ranks that it lends in 40 places, with a count. Tag 6 writes the
//! first places and the count. A frame is lent as many as the count says. A load is lent
//! the first 32 places to write to, whatever the count; when it is done the count is 32,
//! and a refused one leaves it.
//!
//! A frame's line is the number returned and so many bytes of its output, all if there
//! are fewer; that of a filling, coming back or load is the number, 0 if not refused.
//! Beginning and lending have none. Telling writes five lines: digests of the book and
//! the word behind it, digests of each shelf and the word behind the store, which shelves
//! are filled, the whole output, and of the ranks lent first how many and then each. The
//! output keeps what it holds from one call to the next.
//!
//! Lending is what a caller does, not what a call of the library does: "nothing else
//! writes" the ranks. It is how frames come to be given under damaged ranks.

use crate::demand3::{Plain, Watch};
use crate::frames::parse;
use crate::layout::{accepted, Word, PASSAGES, TEAMS, WORDS};
use crate::model::{Desk, OUTPUT};
use crate::ranks;
use crate::records::{self, of_shorts, record, shorts, Record};
use crate::shelves::{self, Lent, Shelves, SHELVES, STORE};
use crate::streams::of_hex;
use std::collections::{BTreeMap, BTreeSet};

/// The longest output that a list can lend.
const LONGEST_OUTPUT: usize = 64;
/// The most ranks that a list can load or lend.
const MOST_RANKS: usize = 40;

/// A fault of shelves or of ranks.
#[derive(Clone, Copy, Debug, PartialEq, Eq)]
pub enum Fault {
    OfShelves(shelves::Fault),
    OfRanks(ranks::Fault),
}

/// All faults that lists can have, by their names.
pub fn faults() -> Vec<(&'static str, Fault)> {
    let of_shelves = shelves::FAULTS.iter().map(|(name, fault)| (*name, Fault::OfShelves(*fault)));
    let of_ranks = ranks::FAULTS.iter().map(|(name, fault)| (*name, Fault::OfRanks(*fault)));
    of_shelves.chain(of_ranks).collect()
}

pub fn named(name: &str) -> Option<Fault> {
    faults().into_iter().find(|(known, _)| *known == name).map(|(_, fault)| fault)
}

#[derive(Clone, Debug, PartialEq, Eq)]
pub enum Call {
    Begin(i64),
    Frame { book: i64, output: i64, frame: Vec<u8> },
    Fill(Lent, i64),
    ComeBack(Lent, i64),
    Tell,
    Load { book: i64, ranks: Vec<i64> },
    Lend(Vec<i64>),
}

impl Call {
    pub fn load(ranks: &[i64]) -> Call {
        Call::Load { book: WORDS, ranks: ranks.to_vec() }
    }

    pub fn frame(frame: &[u8]) -> Call {
        Call::Frame { book: WORDS, output: OUTPUT as i64, frame: frame.to_vec() }
    }

    pub fn bytes(&self) -> Vec<u8> {
        let (numbers, carried) = match self {
            Call::Begin(former) => ([0, 0, 0, *former], Vec::new()),
            Call::Frame { book, output, frame } => ([1, *book, 0, *output], frame.clone()),
            Call::Fill(lent, shelf) => ([2, lent.book, lent.store, *shelf], Vec::new()),
            Call::ComeBack(lent, shelf) => ([3, lent.book, lent.store, *shelf], Vec::new()),
            Call::Tell => ([4, 0, 0, 0], Vec::new()),
            Call::Load { book, ranks } => ([5, *book, 0, ranks.len() as i64], shorts(ranks)),
            Call::Lend(ranks) => ([6, 0, 0, ranks.len() as i64], shorts(ranks)),
        };
        record(numbers, &carried)
    }

    /// How many lines a program writes for it.
    fn lines(&self) -> usize {
        match self {
            Call::Begin(_) | Call::Lend(_) => 0,
            Call::Tell => 5,
            _ => 1,
        }
    }
}

fn call_of(([tag, book, store, number], carried): Record) -> Option<Call> {
    let lent = Lent { book, store };
    let fits = book <= WORDS + 1 && store <= STORE + 1;
    let counted = number <= MOST_RANKS as i64 && carried.len() as i64 == 2 * number;
    let call = match tag {
        0 => Call::Begin(number),
        1 if number <= LONGEST_OUTPUT as i64 => {
            Call::Frame { book, output: number, frame: carried.to_vec() }
        }
        2 => Call::Fill(lent, number),
        3 => Call::ComeBack(lent, number),
        4 => Call::Tell,
        5 if counted => Call::Load { book, ranks: of_shorts(carried) },
        6 if counted => Call::Lend(of_shorts(carried)),
        _ => return None,
    };
    fits.then_some(call)
}

pub fn calls_of(input: &[u8]) -> Result<Vec<Call>, String> {
    records::all(input, call_of)
}

/// 32 bits at a time, the low ones of a word first.
fn digest(words: impl IntoIterator<Item = u64>) -> u64 {
    let halves = words.into_iter().flat_map(|word| [word % (1 << 32), word >> 32]);
    halves.fold(0, |digest, half| (65_599 * digest + half) % 4_294_967_311)
}

fn of_words(words: &[Word]) -> u64 {
    digest(words.iter().map(|word| word.bits()))
}

/// What the store holds when a case begins, and the word behind it.
fn former(number: i64) -> Vec<Word> {
    (0..=STORE).map(|i| Word::Value(number * (i + 1))).collect()
}

/// What the calls of a list share.
#[derive(Clone)]
struct Run {
    desk: Desk,
    shelves: Shelves,
    behind: Word,
    output: [u8; LONGEST_OUTPUT],
    fault: Option<Fault>,
    /// The ranks of each filling, which only a wrong program asks for.
    filled_under: BTreeMap<i64, Vec<i64>>,
}

impl Run {
    fn new(fault: Option<Fault>) -> Run {
        let (desk, behind, filled_under) = (Desk::fresh(), Word::Value(0), BTreeMap::new());
        let shelves = Shelves::none_filled(Vec::new(), None);
        Run { desk, shelves, behind, output: [0; LONGEST_OUTPUT], fault, filled_under }
    }

    fn fault_of_shelves(&self) -> Option<shelves::Fault> {
        match self.fault {
            Some(Fault::OfShelves(fault)) => Some(fault),
            _ => None,
        }
    }

    fn fault_of_ranks(&self) -> Option<ranks::Fault> {
        match self.fault {
            Some(Fault::OfRanks(fault)) => Some(fault),
            _ => None,
        }
    }

    /// Makes a call; its lines.
    fn obey(&mut self, call: &Call) -> Vec<String> {
        match call {
            Call::Begin(number) => {
                let mut store = former(*number);
                self.behind = store.pop().expect("the word behind");
                self.shelves = Shelves::none_filled(store, self.fault_of_shelves());
                self.desk = Desk::fresh();
                self.filled_under.clear();
                Vec::new()
            }
            Call::Frame { book, output, frame } => vec![self.call(*book, *output, frame)],
            Call::Fill(lent, shelf) => vec![self.fill(*lent, *shelf).to_string()],
            Call::ComeBack(lent, shelf) => vec![self.come_back(*lent, *shelf).to_string()],
            Call::Tell => self.tell(),
            Call::Load { book, ranks } => {
                let fault = self.fault_of_ranks();
                vec![ranks::load(&mut self.desk, *book, ranks, fault).to_string()]
            }
            Call::Lend(ranks) => {
                self.desk.ranks = ranks.clone();
                Vec::new()
            }
        }
    }

    /// Whether a wrong program refuses a filling or coming back for the ranks: neither is
    /// a frame, and the paper has no 13 for them.
    fn refuses_shelves(&self, lent: Lent) -> bool {
        let fault = self.fault_of_ranks() == Some(ranks::Fault::ThirteenOfShelves);
        fault && lent.book == WORDS && !accepted(&self.desk.ranks)
    }

    fn fill(&mut self, lent: Lent, shelf: i64) -> i64 {
        if self.refuses_shelves(lent) {
            return 13;
        }
        let number = self.shelves.fill(&self.desk, lent, shelf);
        if number == 0 {
            self.filled_under.insert(shelf, self.desk.ranks.clone());
        }
        number
    }

    fn come_back(&mut self, lent: Lent, shelf: i64) -> i64 {
        if self.refuses_shelves(lent) {
            return 13;
        }
        let number = self.shelves.come_back(&mut self.desk, lent, shelf);
        let restores = self.fault_of_ranks() == Some(ranks::Fault::BackRestoresRanks);
        if let Some(former) = self.filled_under.get(&shelf).filter(|_| restores && number == 0) {
            self.desk.ranks = former.clone();
        }
        number
    }

    fn call(&mut self, book: i64, output: i64, frame: &[u8]) -> String {
        let fault = self.fault_of_ranks();
        let output = &mut self.output[..output as usize];
        let returned = if book == WORDS {
            ranks::call(&mut self.desk, frame, output, fault)
        } else {
            let mut other = self.desk.clone();
            other.book.resize(book as usize, Word::Value(0));
            ranks::call(&mut other, frame, output, fault)
        };
        let shown = output.len().min(returned as usize);
        format!("{returned}{}", in_hex(&output[..shown]))
    }

    fn tell(&self) -> Vec<String> {
        let shelves = self.shelves.store.chunks(WORDS as usize).map(of_words);
        let filled = (0..SHELVES).map(|shelf| u64::from(self.shelves.filled.contains(&shelf)));
        vec![
            told("book", [of_words(&self.desk.book), 0]),
            told("store", shelves.chain([of_words(&[self.behind])])),
            told("filled", filled),
            format!("output{}", in_hex(&self.output)),
            told_ranks(&self.desk.ranks),
        ]
    }
}

pub fn in_hex(bytes: &[u8]) -> String {
    bytes.iter().map(|byte| format!(" {byte:02X}")).collect()
}

fn told(name: &str, numbers: impl IntoIterator<Item = u64>) -> String {
    numbers.into_iter().fold(name.to_string(), |line, number| format!("{line} {number}"))
}

/// "ranks", how many, and each.
fn told_ranks(ranks: &[i64]) -> String {
    told("ranks", [ranks.len() as u64].into_iter().chain(ranks.iter().map(|rank| *rank as u64)))
}

/// What the model, or a wrong one, writes for a list.
pub fn answered(calls: &[Call], fault: Option<Fault>) -> String {
    let mut run = Run::new(fault);
    let lines = calls.iter().flat_map(|call| run.obey(call));
    lines.map(|line| line + "\n").collect()
}

/// Each call with its lines.
type Heard<'a> = Vec<(&'a Call, &'a [&'a str])>;

fn heard<'a>(calls: &'a [Call], mut lines: &'a [&'a str]) -> Result<Heard<'a>, String> {
    let mut heard = Vec::new();
    for call in calls {
        let (own, after) = lines.split_at_checked(call.lines()).ok_or("lines are missing")?;
        heard.push((call, own));
        lines = after;
    }
    if lines.is_empty() {
        Ok(heard)
    } else {
        Err("there are lines too many".to_string())
    }
}

/// What a bystander keeps for a shelf: its plain book, the digest of that, and the ranks
/// at the filling.
struct Kept {
    plain: Plain,
    digest: u64,
    ranks: Vec<i64>,
}

fn of_plain(plain: &Plain) -> u64 {
    digest((0..WORDS).map(|word| plain.word(word) as u64))
}

/// A bystander of a mixed list: the one of its frames, with a copy of the plain book for
/// each shelf filled. No store of the model is used here, and of ranks only those that
/// were lent, or loaded with the answer 0.
struct Bystander {
    watch: Watch,
    kept: BTreeMap<i64, Kept>,
    /// Digests of the shelves, and of the word behind the store, when the case began.
    before: Vec<u64>,
    /// How many comings back took their place in the order.
    backs: i64,
    /// What came of ranks, in all cases so far.
    came: BTreeSet<String>,
}

impl Bystander {
    fn new() -> Bystander {
        let (watch, kept, came) = (Watch::new(), BTreeMap::new(), BTreeSet::new());
        Bystander { watch, kept, before: Vec::new(), backs: 0, came }
    }

    fn hear(&mut self, call: &Call, lines: &[&str]) -> Result<(), String> {
        match (call, lines) {
            (Call::Begin(number), _) => {
                let before = former(*number).chunks(WORDS as usize).map(of_words).collect();
                let (came, backs) = (std::mem::take(&mut self.came), self.backs);
                *self = Bystander { before, backs, came, ..Bystander::new() };
                Ok(())
            }
            (Call::Frame { book, output, frame }, [line]) => {
                self.hear_frame(*book, *output, frame, line)
            }
            // "every refusal is passed over"
            (Call::Fill(_, shelf), ["0"]) => self.hear_filling(*shelf),
            (Call::ComeBack(_, shelf), ["0"]) => self.hear_coming_back(*shelf),
            (Call::Load { book, ranks }, [line]) => self.hear_load(*book, ranks, line),
            (Call::Lend(ranks), _) => {
                self.watch.ranks = ranks.clone();
                Ok(())
            }
            (Call::Tell, [book, store, filled, _, ranks]) => {
                self.hear_told(book, store, filled, ranks)
            }
            _ => Ok(()),
        }
    }

    fn note(&mut self, what: String) {
        self.came.insert(what);
    }

    /// "A frame given while the ranks aren't each of 0 to 31 returns 13 and writes
    /// nothing", "after 1"; under others it never does.
    fn hear_frame(
        &mut self,
        book: i64,
        output: i64,
        frame: &[u8],
        line: &str,
    ) -> Result<(), String> {
        let (returned, bytes) = line.split_once(' ').unwrap_or((line, ""));
        let damaged = !accepted(&self.watch.ranks);
        let due = match (book == WORDS, damaged) {
            (false, _) => "1",
            (true, true) => "13",
            (true, false) if returned == "2" => return Ok(()),
            (true, false) => return self.watch.hear(frame, &of_hex(bytes)),
        };
        if line.split(' ').next() != Some(due) {
            return Err(format!("{line} where {due} is to be returned"));
        }
        if damaged && book == WORDS {
            let room = if output < OUTPUT as i64 { "short" } else { "long" };
            self.note(format!("13 to {}, {room} output", name_of(frame)));
            self.note(format!("13 under {}", damage(&self.watch.ranks)));
            if !self.watch.is_idle() {
                self.note("13 to a frame over a ticket".to_string());
            }
        }
        Ok(())
    }

    /// "They are accepted exactly when each number 0 to 31 occurs and no ticket stands".
    fn hear_load(&mut self, book: i64, ranks: &[i64], line: &str) -> Result<(), String> {
        let (right, idle) = (accepted(ranks), self.watch.is_idle());
        let over_damaged = !accepted(&self.watch.ranks);
        match line {
            "0" if book != WORDS => return Err("a load went without its book".to_string()),
            "0" => self.watch.load(ranks)?,
            _ if right && idle && book == WORDS => {
                return Err(format!("{line} where the load is to be accepted"));
            }
            _ => {}
        }
        if !right {
            self.note(format!("load {line} of {}", damage(ranks)));
        }
        if let [team] = self.watch.busy_teams()[..] {
            self.note(format!("load {line} over team {team}"));
        }
        if over_damaged {
            self.note(format!("load {line} over damaged ranks"));
        }
        Ok(())
    }

    /// "Filling and coming back both go only while no ticket stands."
    fn needs_idle(&self) -> Result<(), String> {
        if self.watch.is_idle() {
            Ok(())
        } else {
            Err("it went while a ticket stands".to_string())
        }
    }

    fn hear_filling(&mut self, shelf: i64) -> Result<(), String> {
        self.needs_idle()?;
        if !accepted(&self.watch.ranks) {
            self.note("fill 0 under damaged ranks".to_string());
        }
        let (plain, ranks) = (self.watch.plain.clone(), self.watch.ranks.clone());
        self.kept.insert(shelf, Kept { digest: of_plain(&plain), plain, ranks });
        Ok(())
    }

    fn hear_coming_back(&mut self, shelf: i64) -> Result<(), String> {
        self.needs_idle()?;
        let filling = self.kept.get(&shelf).ok_or(format!("shelf {shelf} was never filled"))?;
        let other = filling.ranks != self.watch.ranks;
        self.watch.come_back(&filling.plain);
        self.backs += 1;
        if other {
            self.note("come back under other ranks than at the filling".to_string());
        }
        if !accepted(&self.watch.ranks) {
            self.note("come back 0 under damaged ranks".to_string());
        }
        Ok(())
    }

    /// Words that nobody holds, and those of filled shelves, are plain books' words; other
    /// shelves hold what they held when the case began. "nothing else writes" the ranks.
    fn hear_told(&self, book: &str, store: &str, filled: &str, ranks: &str) -> Result<(), String> {
        let before = &self.before;
        let shelf = |shelf: i64| self.kept.get(&shelf).map_or(before[shelf as usize], |k| k.digest);
        let ours = [
            told_ranks(&self.watch.ranks),
            told("store", (0..SHELVES).map(shelf).chain([before[SHELVES as usize]])),
            told("filled", (0..SHELVES).map(|s| u64::from(self.kept.contains_key(&s)))),
            told("book", [of_plain(&self.watch.plain), 0]),
        ];
        for (own, line) in ours.iter().zip([ranks, store, filled, book]) {
            if own != line && (line != book || self.watch.is_idle()) {
                return Err(format!("told: {line}, of plain books: {own}"));
            }
        }
        Ok(())
    }
}

/// How a frame is named where it got 13.
fn name_of(frame: &[u8]) -> String {
    match parse(frame) {
        Ok(request) => format!("kind {}", request.kind as i64),
        Err(3) if frame.is_empty() => "an empty frame".to_string(),
        Err(3) => "a torn frame".to_string(),
        Err(4) => "an unknown kind".to_string(),
        Err(_) => "another length".to_string(),
    }
}

/// What is wrong with ranks.
fn damage(ranks: &[i64]) -> String {
    match ranks.len() {
        32 if ranks.iter().any(|rank| *rank >= PASSAGES) => "a rank above 31".to_string(),
        32 => "a rank twice".to_string(),
        count => format!("{count} ranks"),
    }
}

/// What must have come of ranks.
fn to_come() -> Vec<String> {
    let kinds = (1..=7).chain([17, 18]).map(|kind| format!("kind {kind}"));
    let others = ["an empty frame", "a torn frame", "an unknown kind", "another length"];
    let frames: Vec<String> = kinds.chain(others.map(str::to_string)).collect();
    let outputs = ["short", "long"];
    let frames =
        frames.iter().flat_map(|frame| outputs.map(|o| format!("13 to {frame}, {o} output")));
    let damages = ["0 ranks", "31 ranks", "33 ranks", "a rank twice", "a rank above 31"];
    let damages = damages.iter().flat_map(|d| [format!("13 under {d}"), format!("load 13 of {d}")]);
    let teams = (0..TEAMS)
        .flat_map(|team| [13, 14].map(|number| format!("load {number} over team {team}")));
    let single = [
        "13 to a frame over a ticket",
        "load 0 over damaged ranks",
        "load 13 over damaged ranks",
        "load 14 over damaged ranks",
        "come back under other ranks than at the filling",
        "fill 0 under damaged ranks",
        "come back 0 under damaged ranks",
    ];
    frames.chain(damages).chain(teams).chain(single.map(str::to_string)).collect()
}

/// Demand 3 on a whole list, and what the paper says of frames and loads by the ranks
/// that were heard; how many comings back it has, and what came of ranks.
fn demand3(heard: &Heard) -> Result<(i64, BTreeSet<String>), String> {
    let mut bystander = Bystander::new();
    for (index, (call, lines)) in heard.iter().enumerate() {
        let complain = |complaint| format!("call {index}, {call:?}: {complaint}");
        bystander.hear(call, lines).map_err(complain)?;
    }
    Ok((bystander.backs, bystander.came))
}

/// Where the cases of a list begin and end.
fn cases<'a, 'b>(heard: &'b [(&'a Call, &'a [&'a str])]) -> Vec<&'b [(&'a Call, &'a [&'a str])]> {
    let begins = |(call, _): &(&Call, &[&str])| matches!(call, Call::Begin(_));
    let mut starts: Vec<usize> = (0..heard.len()).filter(|at| begins(&heard[*at])).collect();
    starts.push(heard.len());
    starts.windows(2).map(|pair| &heard[pair[0]..pair[1]]).collect()
}

/// The case's last coming back that went, and the filling that it goes back to.
fn last_return(case: &[(&Call, &[&str])]) -> Option<(usize, usize)> {
    let went = |at: &usize| case[*at].1 == ["0"];
    let back =
        (0..case.len()).rev().filter(went).find(|at| matches!(case[*at].0, Call::ComeBack(..)))?;
    let Call::ComeBack(_, shelf) = case[back].0 else { return None };
    let fills = |at: &usize| matches!(case[*at].0, Call::Fill(_, filled) if filled == shelf);
    Some((back, (0..back).rev().filter(went).find(fills)?))
}

/// "Later calls behave as in a run that ended when the shelf was filled, under the ranks
/// now in force": where a case is the one before it without what lies between filling and
/// coming back but the last load there, calls are answered alike and leave the same book.
/// How many calls were compared in how many pairs, and in how many of these there was such
/// a load.
fn twins(heard: &Heard) -> Result<(usize, usize, usize), String> {
    let (mut pairs, mut compared, mut loaded) = (0, 0, 0);
    for pair in cases(heard).windows(2) {
        let Some((back, filling)) = last_return(pair[0]) else { continue };
        let (later, ended) = (&pair[0][back + 1..], &pair[1][..]);
        let went = |(call, lines): &&(&Call, &[&str])| {
            matches!(call, Call::Load { .. }) && *lines == ["0"]
        };
        let load = pair[0][filling..back].iter().rev().find(went);
        let calls = pair[0][..=filling].iter().chain(load).chain(later).map(|(call, _)| call);
        if !calls.eq(ended.iter().map(|(call, _)| call)) {
            continue;
        }
        pairs += 1;
        loaded += usize::from(load.is_some());
        let twin = &ended[ended.len() - later.len()..];
        for ((call, lines), (_, twin)) in later.iter().zip(twin) {
            // Of what is told, the book and the ranks: store and flags are those of now.
            if lines.first() != twin.first() || lines.last() != twin.last() {
                return Err(format!("{call:?}: {lines:?}, but {twin:?} had it not come back"));
            }
            compared += 1;
        }
    }
    Ok((pairs, compared, loaded))
}

/// The same on the model, from every coming back to the end of its case, with the ranks,
/// the store and the flags of now in both runs. How many comings back there were.
fn forks(calls: &[Call]) -> Result<i64, String> {
    let (mut run, mut kept, mut count) = (Run::new(None), BTreeMap::new(), 0);
    for (index, call) in calls.iter().enumerate() {
        let lines = run.obey(call);
        match call {
            Call::Begin(_) => kept.clear(),
            Call::Fill(_, shelf) if lines == ["0"] => drop(kept.insert(*shelf, run.desk.clone())),
            Call::ComeBack(_, shelf) if lines == ["0"] => {
                let filling = kept.get(shelf).ok_or("a shelf never filled")?.clone();
                let desk = Desk { ranks: run.desk.ranks.clone(), ..filling };
                let mut ended = Run { desk, ..run.clone() };
                let mut went_on = run.clone();
                let begins = |call: &&Call| !matches!(call, Call::Begin(_));
                for later in calls[index + 1..].iter().take_while(begins) {
                    if ended.obey(later) != went_on.obey(later) {
                        return Err(format!("after call {index}, {later:?} is answered otherwise"));
                    }
                }
                count += 1;
            }
            _ => {}
        }
    }
    Ok(count)
}

/// What each kind of call returned, but for answers to frames.
fn counts(heard: &Heard) -> BTreeMap<String, i64> {
    let mut counts = BTreeMap::new();
    for (call, lines) in heard {
        let line = lines.first().copied().unwrap_or("");
        let returned = line.split(' ').next().unwrap_or("");
        let name = match call {
            Call::Begin(_) | Call::Tell | Call::Lend(_) => continue,
            Call::Fill(..) => format!("fill {returned}"),
            Call::ComeBack(..) => format!("come back {returned}"),
            Call::Load { .. } => format!("load {returned}"),
            Call::Frame { .. } if matches!(returned, "1" | "2" | "13") => {
                format!("frame {returned}")
            }
            Call::Frame { .. } => "frame answered".to_string(),
        };
        *counts.entry(name).or_default() += 1;
    }
    counts
}

#[rustfmt::skip]
const REACHED: [&str; 18] = [
    "frame answered", "frame 1", "frame 2", "fill 0", "fill 1", "fill 14", "fill 19", "fill 20",
    "come back 0", "come back 1", "come back 14", "come back 19", "come back 20",
    "frame 13", "load 0", "load 1", "load 13", "load 14",
];

/// The lines are the model's; demand 3 and twins hold of them; nothing is missing.
pub fn check(input: &[u8], output: &str) -> Result<String, String> {
    let calls = calls_of(input)?;
    same(&answered(&calls, None), output)?;
    let lines: Vec<&str> = output.lines().collect();
    let heard = heard(&calls, &lines)?;
    let (backs, came) = demand3(&heard)?;
    let (pairs, compared, loaded) = twins(&heard)?;
    let forks = forks(&calls)?;
    let counts = counts(&heard);
    let missing = REACHED.iter().filter(|name| counts.get(**name).copied().unwrap_or(0) < 2);
    let missing = missing.chain((pairs < 4).then_some(&"twins"));
    let missing = missing.chain((loaded < 4).then_some(&"twins with a load"));
    let missing = missing.map(|name| name.to_string());
    if let Some(name) = missing.chain(to_come().into_iter().filter(|n| !came.contains(n))).next() {
        return Err(format!("the stored list hardly reaches: {name}"));
    }
    let shown: Vec<String> =
        counts.iter().map(|(name, count)| format!("{name}: {count}")).collect();
    let total: i64 = counts.values().sum();
    Ok(format!(
        "lists: {} cases, {total} calls ({}); {backs} comings back in the order, {forks} as in the run that ended at the filling, {pairs} twins with {compared} calls, {loaded} of them with a load",
        cases(&heard).len(),
        shown.join(", ")
    ))
}

/// Complains of the first line that differs.
pub fn same(ours: &str, theirs: &str) -> Result<(), String> {
    if ours == theirs {
        return Ok(());
    }
    let (ours, theirs): (Vec<&str>, Vec<&str>) = (ours.lines().collect(), theirs.lines().collect());
    let at = (0..).find(|at| ours.get(*at) != theirs.get(*at)).unwrap_or(0);
    let [ours, theirs] = [ours, theirs].map(|lines| lines.get(at).copied().unwrap_or("(nothing)"));
    Err(format!("line {}:\n  model:   {ours}\n  program: {theirs}", at + 1))
}

#[cfg(test)]
mod tests {
    use super::*;
    use crate::layout::RANKS;
    use crate::loads::{rounds_after_loads, shelves_and_loads};
    use crate::mixed::{contended, in_turn, twin_cases, twin_cases_with_loads};

    fn stored_files() -> (Vec<Call>, &'static str) {
        let calls = calls_of(include_bytes!("../../crates/lists/stdin")).expect("calls");
        (calls, include_str!("../../crates/lists/stdout"))
    }

    #[test]
    fn every_fault_changes_the_stored_output() {
        let (calls, output) = stored_files();
        assert_eq!(answered(&calls, None), output);
        for (name, fault) in faults() {
            assert_ne!(answered(&calls, Some(fault)), output, "{name}");
        }
    }

    /// What a wrong program answers breaks demand 3 and the sentences on ranks by itself,
    /// but where it refuses otherwise, or answers frames of which nothing is known:
    /// refusals are passed over.
    #[test]
    fn demand_3_tells_wrong_programs_apart() {
        let (calls, _) = stored_files();
        let mut kept = Vec::new();
        for (name, fault) in faults() {
            let output = answered(&calls, Some(fault));
            let lines: Vec<&str> = output.lines().collect();
            if demand3(&heard(&calls, &lines).expect("a line for each call")).is_ok() {
                kept.push(name);
            }
        }
        let otherwise = ["14-before-13", "load-13-before-1", "13-of-shelves"];
        assert_eq!(kept, [&["14-before-19", "20-before-14"], &otherwise[..]].concat());
    }

    #[test]
    fn twins_tell_a_book_that_did_not_come_back() {
        let (calls, _) = stored_files();
        let wrong = [
            Fault::OfShelves(shelves::Fault::KeepsAdds),
            Fault::OfShelves(shelves::Fault::ShelfShared),
            Fault::OfRanks(ranks::Fault::BackRestoresRanks),
        ];
        for fault in wrong {
            let output = answered(&calls, Some(fault));
            let lines: Vec<&str> = output.lines().collect();
            let twins = twins(&heard(&calls, &lines).expect("a line for each call"));
            assert!(twins.is_err(), "{fault:?}");
        }
    }

    #[test]
    fn other_lists_keep_demand_3_and_have_twins() {
        for seed in 100..=130 {
            let shelves = [contended(seed, 60), in_turn(seed), twin_cases(seed)].concat();
            let ranks =
                [twin_cases_with_loads(seed), shelves_and_loads(seed), rounds_after_loads(seed)];
            let calls = [shelves, ranks.concat()].concat();
            let output = answered(&calls, None);
            let lines: Vec<&str> = output.lines().collect();
            let heard = heard(&calls, &lines).expect("a line for each call");
            assert!(demand3(&heard).expect("demand 3").0 > 5, "seed {seed}");
            let (pairs, _, loaded) = twins(&heard).expect("twins");
            assert_eq!((pairs, loaded), (2, 1), "seed {seed}");
            assert!(forks(&calls).is_ok(), "seed {seed}");
        }
    }

    /// The form that the program reads, byte by byte.
    #[test]
    fn loads_and_lendings_in_bytes() {
        let load = Call::Load { book: 4_095, ranks: vec![3, 0x1234] };
        assert_eq!(load.bytes(), [5, 0, 0xFF, 0x0F, 0, 0, 2, 0, 4, 0, 3, 0, 0x34, 0x12]);
        let lend = Call::Lend(vec![31]);
        assert_eq!(lend.bytes(), [6, 0, 0, 0, 0, 0, 1, 0, 2, 0, 31, 0]);
        assert_eq!(Call::Lend(Vec::new()).bytes(), [6, 0, 0, 0, 0, 0, 0, 0, 0, 0]);
        for call in [load, lend, Call::Lend(Vec::new()), Call::load(&RANKS)] {
            assert_eq!(calls_of(&call.bytes()), Ok(vec![call]));
        }
        assert!(calls_of(&Call::Lend(vec![0; 40]).bytes()).is_ok());
        assert!(calls_of(&Call::Lend(vec![0; 41]).bytes()).is_err());
        assert!(calls_of(&[6, 0, 0, 0, 0, 0, 1, 0, 3, 0, 31, 0, 0]).is_err());
    }

    /// What a list tells of ranks, and what it answers to them.
    #[test]
    fn ranks_in_a_list() {
        let mut other = RANKS;
        other.reverse();
        let look = Call::frame(&crate::frames::Request::look(0).bytes());
        let of = |call: &Call, run: &mut Run| run.obey(call);
        let mut run = Run::new(None);
        let told = |run: &mut Run| run.obey(&Call::Tell)[4].clone();
        of(&Call::Begin(0), &mut run);
        assert!(told(&mut run).starts_with("ranks 32 3 8 13 18 "));
        assert_eq!(of(&Call::load(&other), &mut run), ["0"]);
        assert!(told(&mut run).starts_with("ranks 32 30 25 20 "));
        assert_eq!(of(&look, &mut run), ["12 0A 00 88 00 00 00 00 00 00 00 00 00"]);
        assert!(of(&Call::Lend(vec![5, 65_535]), &mut run).is_empty());
        assert_eq!(told(&mut run), "ranks 2 5 65535");
        // The first 13 bytes of an output that is as it was.
        assert_eq!(of(&look, &mut run), ["13 0A 00 88 00 00 00 00 00 00 00 00 00 00"]);
        assert_eq!(of(&Call::load(&other[1..]), &mut run), ["13"]);
        assert_eq!(told(&mut run), "ranks 2 5 65535");
        assert_eq!(of(&Call::load(&RANKS), &mut run), ["0"]);
        assert!(told(&mut run).starts_with("ranks 32 3 8 13 18 "));
        of(&Call::load(&other), &mut run);
        of(&Call::Begin(0), &mut run);
        assert!(told(&mut run).starts_with("ranks 32 3 8 13 18 "));
    }
}
