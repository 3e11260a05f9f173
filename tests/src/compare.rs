//! Runs a program on streams and compares it with the model, byte for byte.

use crate::demand3;
use crate::frames::{answer_in_words, frame_in_words, next, split, Next};
use crate::model::survey;
use crate::streams::{self, Prng};
use crate::tally::Tally;
use std::io::{Read, Write};
use std::process::{Child, ChildStdin, Command, Stdio};
use std::sync::mpsc::{channel, Receiver, RecvTimeoutError};
use std::thread;
use std::time::{Duration, Instant};

pub struct Program {
    pub path: String,
    pub arguments: Vec<String>,
    /// How long an answer, or the end of a whole run, is waited for.
    pub patience: Duration,
}

/// A running program; what it writes comes in through a channel.
struct Running {
    child: Child,
    stdin: Option<ChildStdin>,
    pieces: Receiver<Vec<u8>>,
    heard: Vec<u8>,
}

impl Program {
    fn start(&self) -> Result<Running, String> {
        let mut child = Command::new(&self.path)
            .args(&self.arguments)
            .stdin(Stdio::piped())
            .stdout(Stdio::piped())
            .spawn()
            .map_err(|error| format!("can't start {}: {error}", self.path))?;
        let stdin = child.stdin.take();
        let mut stdout = child.stdout.take().ok_or("no standard output")?;
        let (sender, pieces) = channel();
        thread::spawn(move || {
            let mut room = [0; 65_536];
            while let Ok(count @ 1..) = stdout.read(&mut room) {
                if sender.send(room[..count].to_vec()).is_err() {
                    return;
                }
            }
        });
        Ok(Running { child, stdin, pieces, heard: Vec::new() })
    }

    /// Everything the program writes to an input given in pieces of these sizes
    /// (the last size again and again).
    pub fn run(&self, input: &[u8], sizes: &[usize]) -> Result<Vec<u8>, String> {
        let mut running = self.start()?;
        let (bytes, sizes) = (input.to_vec(), sizes.to_vec());
        let stdin = running.stdin.take();
        let writer = thread::spawn(move || write_pieces(stdin, &bytes, &sizes));
        running.hear_out(Instant::now() + self.patience)?;
        // A program that stopped early has closed its end: that isn't a fault.
        drop(writer.join());
        Ok(std::mem::take(&mut running.heard))
    }

    /// Sends a stream up to each cut in turn, and goes on only when all answers
    /// to the frames that are whole by then have come. At the end, input is
    /// closed, unless the stream ends with a length field above 62.
    pub fn converse(&self, input: &[u8], cuts: &[usize]) -> Result<(), String> {
        let expected = survey(input);
        let due = answers_due(input, &expected);
        let mut running = self.start()?;
        let mut stdin = running.stdin.take();
        let mut sent = 0;
        for cut in cuts.iter().copied().chain([input.len()]) {
            drop(stdin.as_mut().map(|pipe| pipe.write_all(&input[sent..cut])));
            sent = cut;
            let bytes = due.iter().filter(|(end, _)| *end <= cut).map(|(_, bytes)| *bytes).max();
            let bytes = bytes.unwrap_or(0);
            let late = running.hear(bytes, Instant::now() + self.patience).err();
            let heard = &running.heard[..bytes.min(running.heard.len())];
            differ(&input[..cut], &expected[..bytes], heard).map_err(|difference| {
                let complaint = late.unwrap_or("an answer differs".to_string());
                format!("after {cut} bytes of input, {complaint}: {difference}")
            })?;
        }
        let stops_itself = due.last().is_some_and(|(_, bytes)| *bytes == expected.len())
            && split(input).last().is_some_and(|piece| next(piece) == Next::TooLong);
        if !stops_itself {
            drop(stdin.take());
        }
        running.hear_out(Instant::now() + self.patience)?;
        differ(input, &expected, &running.heard)
    }
}

fn write_pieces(stdin: Option<ChildStdin>, mut rest: &[u8], sizes: &[usize]) {
    let Some(mut stdin) = stdin else { return };
    let last = sizes.last().copied().unwrap_or(rest.len());
    let mut sizes = sizes.iter().copied();
    while !rest.is_empty() {
        let size = sizes.next().unwrap_or(last).clamp(1, rest.len());
        if stdin.write_all(&rest[..size]).is_err() {
            return;
        }
        rest = &rest[size..];
    }
}

/// For each frame that is answered at once: where it ends in the input, and
/// where its answer ends in the output. A torn frame is answered at the end only.
fn answers_due(input: &[u8], expected: &[u8]) -> Vec<(usize, usize)> {
    let (mut end, mut bytes, mut due) = (0, 0, Vec::new());
    for (frame, answer) in split(input).iter().zip(split(expected)) {
        let ends_after = if next(frame) == Next::TooLong { 2 } else { frame.len() };
        bytes += answer.len();
        if next(frame) != Next::Torn {
            due.push((end + ends_after, bytes));
        }
        end += frame.len();
    }
    due
}

impl Running {
    /// Hears until so many bytes have come in all.
    fn hear(&mut self, bytes: usize, deadline: Instant) -> Result<(), String> {
        while self.heard.len() < bytes {
            let left = deadline.saturating_duration_since(Instant::now());
            match self.pieces.recv_timeout(left) {
                Ok(piece) => self.heard.extend(piece),
                Err(RecvTimeoutError::Timeout) => {
                    return Err("the program is silent though an answer is due".to_string())
                }
                Err(RecvTimeoutError::Disconnected) => {
                    return Err("the program closed its output though an answer is due".to_string())
                }
            }
        }
        Ok(())
    }

    /// Hears to the end of output; the program must end by itself.
    fn hear_out(&mut self, deadline: Instant) -> Result<(), String> {
        loop {
            let left = deadline.saturating_duration_since(Instant::now());
            match self.pieces.recv_timeout(left) {
                Ok(piece) => self.heard.extend(piece),
                Err(RecvTimeoutError::Timeout) => return Err("the program doesn't end".to_string()),
                Err(RecvTimeoutError::Disconnected) => break,
            }
        }
        let status = self.child.wait().map_err(|error| error.to_string())?;
        match status.code() {
            Some(_) => Ok(()),
            None => Err(format!("the program was ended: {status}")),
        }
    }
}

impl Drop for Running {
    fn drop(&mut self) {
        drop(self.stdin.take());
        drop(self.child.kill());
        drop(self.child.wait());
    }
}

/// The first difference, told in words.
pub fn differ(input: &[u8], model: &[u8], program: &[u8]) -> Result<(), String> {
    if model == program {
        return Ok(());
    }
    let (frames, ours, theirs) = (split(input), split(model), split(program));
    let most = frames.len().max(ours.len()).max(theirs.len());
    let at = (0..most).find(|i| ours.get(*i) != theirs.get(*i)).unwrap_or(0);
    let answer = |list: &[&[u8]], i: usize| {
        list.get(i).map_or("nothing".to_string(), |bytes| answer_in_words(bytes))
    };
    let frame = |i: usize| {
        frames.get(i).map_or("nothing (the input has ended)".to_string(), |f| frame_in_words(f))
    };
    let mut text = format!("the first difference is at frame {at} (counted from 0)\n");
    for i in at.saturating_sub(4)..at {
        text += &format!("  before:  frame {i}, {} -> {}\n", frame(i), answer(&ours, i));
    }
    text += &format!("  asked:   {}\n", frame(at));
    text += &format!("  model:   {}\n", answer(&ours, at));
    text += &format!("  program: {}", answer(&theirs, at));
    Err(text)
}

/// One generated stream: its name, what makes it, its seed and length.
type Plan = (&'static str, fn(u64, i64) -> Vec<u8>, u64, i64);

fn plans(seed: u64, frames: i64) -> Vec<Plan> {
    let seeds = |count: u64, salt: u64| (0..count).map(move |i| seed * 1_000 + salt + i);
    let mut plans: Vec<Plan> = Vec::new();
    plans.extend(seeds(24, 0).map(|s| ("contention", streams::contention as _, s, frames / 30)));
    plans.extend(seeds(1, 100).map(|s| ("full", streams::full as _, s, frames / 50)));
    plans.extend(seeds(1, 150).map(|s| ("at limits", streams::at_limits as _, s, frames / 50)));
    plans.extend(seeds(1, 160).map(|s| ("plumb", streams::plumb as _, s, frames / 50)));
    plans.extend(seeds(1, 170).map(|s| ("minutes", streams::minutes as _, s, frames / 50)));
    plans.extend(seeds(6, 200).map(|s| ("fuzz", streams::fuzz as _, s, frames / 30)));
    plans.extend(seeds(8, 250).map(|s| ("rounds", streams::in_rounds as _, s, frames / 100)));
    plans.extend(seeds(60, 300).map(|s| ("damaged", streams::damaged as _, s, 120)));
    plans
}

/// Sizes of pieces: all at once, large ones or small ones.
fn piece_sizes(rng: &mut Prng, bytes: usize, index: usize) -> Vec<usize> {
    let greatest = [bytes as i64 + 1, 100_000, 700][index % 3];
    (0..=2 * bytes as i64 / greatest).map(|_| 1 + rng.below(greatest) as usize).collect()
}

fn compare_one(program: &Program, input: &[u8], sizes: &[usize]) -> Result<Vec<u8>, String> {
    let expected = survey(input);
    let got = program.run(input, sizes)?;
    differ(input, &expected, &got)?;
    demand3::check(input, &got).map_err(|complaint| format!("demand 3 fails: {complaint}"))?;
    Ok(got)
}

/// The whole comparison; the tally of everything answered.
pub fn compare(program: &Program, seed: u64, frames: i64) -> Result<Tally, String> {
    let mut tally = Tally::default();
    let mut rng = Prng::new(seed);
    let at = |name: &str, seed: u64, fault: String| format!("stream {name}, seed {seed}: {fault}");
    for (index, (name, make, seed, frames)) in plans(seed, frames).into_iter().enumerate() {
        let input = make(seed, frames);
        let sizes = piece_sizes(&mut rng, input.len(), index);
        let got = compare_one(program, &input, &sizes).map_err(|fault| at(name, seed, fault))?;
        tally.add(&input, &got);
    }
    for input in streams::endings(seed).into_iter().chain([Vec::new()]) {
        let got = compare_one(program, &input, &[]).map_err(|fault| at("ending", seed, fault))?;
        tally.add(&input, &got);
    }
    compare_slowly(program, seed, &mut rng).map_err(|fault| at("slow", seed, fault))?;
    tally.complete(true)?;
    Ok(tally)
}

/// Byte by byte; each answer before the next frame; answers while a part of the
/// next frame is there already; and each ending, with input left open.
fn compare_slowly(program: &Program, seed: u64, rng: &mut Prng) -> Result<(), String> {
    let input = streams::fuzz(seed, 800);
    compare_one(program, &input, &[1])?;
    let mut ends: Vec<usize> = Vec::new();
    for frame in split(&input) {
        ends.push(ends.last().unwrap_or(&0) + frame.len());
    }
    program.converse(&input, &ends)?;
    let further = ends.iter().step_by(3).map(|end| end + rng.below(9) as usize);
    let mut overhanging: Vec<usize> = further.map(|cut| cut.min(input.len())).collect();
    overhanging.sort();
    program.converse(&input, &overhanging)?;
    // What a pipe takes at once, so that a program that reads no more can't block this.
    for ending in streams::endings(seed + 1).into_iter().filter(|ending| ending.len() < 60_000) {
        program.converse(&ending, &[])?;
    }
    Ok(())
}
