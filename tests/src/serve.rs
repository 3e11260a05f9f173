//! The model as a program: each answer as soon as its frame is there.

use crate::frames::{next, Answer, Next};
use crate::model::Desk;
use crate::wrong::{self, Fault};
use std::io::{Read, Result, Write};

fn answer(fault: Option<Fault>, desk: &mut Desk, frame: &[u8]) -> Vec<u8> {
    match fault {
        None => desk.answer(frame).bytes(),
        Some(fault) => wrong::answer(fault, desk, frame).bytes(),
    }
}

pub fn serve(mut input: impl Read, mut output: impl Write, fault: Option<Fault>) -> Result<()> {
    let mut desk = Desk::fresh();
    let (mut unread, mut unsaid) = (Vec::new(), Vec::new());
    let mut room = [0; 65_536];
    loop {
        let count = input.read(&mut room)?;
        unread.extend(&room[..count]);
        let mut at = 0;
        while let Next::Whole(frame) = next(&unread[at..]) {
            unsaid.extend(answer(fault, &mut desk, frame));
            at += frame.len();
        }
        unread.drain(..at);
        let stopped = next(&unread) == Next::TooLong;
        if stopped || (count == 0 && !unread.is_empty()) {
            unsaid.extend(Answer::Refused(3).bytes());
        }
        if stopped || count == 0 || fault != Some(Fault::Late) {
            output.write_all(&unsaid)?;
            output.flush()?;
            unsaid.clear();
        }
        if stopped || count == 0 {
            return Ok(());
        }
    }
}
