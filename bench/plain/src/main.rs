//! `survey` as a plain Rust program: frames from standard input, answers to
//! standard output.

#![forbid(unsafe_code)]

use plain::{Book, Ranks, LONGEST_FRAME, SLACK};
use std::fs::File;
use std::io::{self, ErrorKind, Read, Write};
use std::os::fd::AsFd;

/// Bytes that are read at once, at most.
const CHUNK: usize = 65_536;

fn main() -> io::Result<()> {
    // As files: the standard handles have buffers of their own.
    let mut frames = File::from(io::stdin().as_fd().try_clone_to_owned()?);
    let mut answers = File::from(io::stdout().as_fd().try_clone_to_owned()?);
    let mut input = vec![0; CHUNK + LONGEST_FRAME];
    let mut output = vec![0; 3 * CHUNK + SLACK];
    let mut book = Book::fresh();
    let mut filled = 0;
    loop {
        match frames.read(&mut input[filled..CHUNK]) {
            Err(error) if error.kind() == ErrorKind::Interrupted => continue,
            Err(error) => return Err(error),
            Ok(0) => break,
            Ok(more) => filled += more,
        }
        let progress = book.answer_all(&Ranks::FIXED, &input, filled, &mut output);
        answers.write_all(&output[..progress.written])?;
        if progress.stopped {
            return Ok(());
        }
        input.copy_within(progress.read..filled, 0);
        filled -= progress.read;
    }
    if filled > 0 {
        let written = Book::answer_torn(&mut output);
        answers.write_all(&output[..written])?;
    }
    Ok(())
}
