//! The comparison against the model run as a program, right and wrong.

use std::path::PathBuf;
use std::process::{Command, Output};

const TESTS: &str = env!("CARGO_BIN_EXE_tests");

fn tests(words: &[&str]) -> Output {
    Command::new(TESTS).args(words).output().expect("the program runs")
}

fn said(output: &Output) -> String {
    String::from_utf8_lossy(&[&output.stdout[..], &output.stderr[..]].concat()).to_string()
}

fn folder(name: &str) -> PathBuf {
    PathBuf::from(env!("CARGO_TARGET_TMPDIR")).join(name)
}

#[test]
fn the_model_agrees_with_itself() {
    let output = tests(&["compare", TESTS, "--", "serve"]);
    assert!(output.status.success(), "{}", said(&output));
    let last = said(&output).lines().last().unwrap_or("").to_string();
    let frames = last.split(" frames in ").next().and_then(|text| text.split(' ').next_back());
    let frames: i64 = frames.and_then(|number| number.parse().ok()).expect("a count of frames");
    assert!(frames >= 1_000_000, "{last}");
}

/// A wrong program must be told apart, with the frame in words.
fn told_apart(fault: &str) {
    let output = tests(&["compare", TESTS, "--patience", "3", "--", "serve", "--wrong", fault]);
    assert!(!output.status.success(), "{fault} passes");
    for word in ["first difference", "asked:", "model:", "program:"] {
        assert!(said(&output).contains(word), "{fault}: {}", said(&output));
    }
}

#[test]
fn wrong_programs_are_told_apart() {
    for fault in ["waiting-when-free", "gives-back-new", "listing-order", "word-order"] {
        told_apart(fault);
    }
    for fault in ["shows-mark", "strikes-itself", "uncounted-waits", "reports-only", "late"] {
        told_apart(fault);
    }
    for fault in ["notes-mark", "notes-only", "claimed-order", "first-value", "keeps-word"] {
        told_apart(fault);
    }
    for fault in ["waiter-named", "word-team-exchanged"] {
        told_apart(fault);
    }
    for fault in ["plumb-up-only", "nearly-plumb", "plumb-range-skipped", "plumb-refused"] {
        told_apart(fault);
    }
    for fault in ["rounds-down", "rounds-up", "minutes-as-hundredths", "minutes-doubled"] {
        told_apart(fault);
    }
    for fault in ["old-unrounded", "new-unrounded", "new-in-hundredths", "sign-after-clino"] {
        told_apart(fault);
    }
    for fault in ["down-zero-is-minus-one", "down-zero-refused", "sixty-minutes-pass"] {
        told_apart(fault);
    }
    for fault in ["sign-2-is-down", "ninety-and-minutes", "angles-after-stations"] {
        told_apart(fault);
    }
    for fault in ["minutes-not-adjusted", "kinds-between-known", "minutes-unknown-by-length"] {
        told_apart(fault);
    }
    for fault in ["add-not-adjusted", "old-not-adjusted", "new-not-adjusted", "strike-not-adjusted"]
    {
        told_apart(fault);
    }
    for fault in ["add-without-newer", "move-without-newer", "front-quoted", "older-keeps-newer"] {
        told_apart(fault);
    }
    for fault in ["older-becomes-newest", "newer-left", "newer-quotes-older", "newer-of-none"] {
        told_apart(fault);
    }
    for fault in ["n-drops-zero-change", "newer-last", "legs-to-1344", "six-targets"] {
        told_apart(fault);
    }
}

#[test]
fn a_program_that_is_silent_or_ends_early_fails() {
    let silent = tests(&["compare", "sleep", "--patience", "1", "--", "20"]);
    assert!(said(&silent).contains("doesn't end"), "{}", said(&silent));
    let absent = tests(&["compare", "true"]);
    assert!(said(&absent).contains("program: nothing"), "{}", said(&absent));
    assert!(!tests(&["compare", "cat"]).status.success());
    assert!(!tests(&["compare", "no-such-program"]).status.success());
    assert!(!tests(&["whole-case", "cat"]).status.success());
}

#[test]
fn the_stored_files_are_checked() {
    let dir = folder("stored");
    let name = dir.to_str().expect("a readable name");
    assert!(tests(&["stored", name]).status.success());
    assert!(tests(&["stored", name, "--check"]).status.success());
    let mut output = std::fs::read(dir.join("stdout")).expect("stored");
    output[100] ^= 1;
    std::fs::write(dir.join("stdout"), output).expect("written");
    assert!(!tests(&["stored", name, "--check"]).status.success());
}

#[test]
fn the_stored_lent_calls_are_checked() {
    let dir = folder("lent");
    let name = dir.to_str().expect("a readable name");
    assert!(tests(&["lent", name]).status.success());
    let output = std::fs::read_to_string(dir.join("stdout")).expect("stored");
    let wrong = output.replacen("returns 12", "returns 6", 1);
    std::fs::write(dir.join("stdout"), wrong).expect("written");
    let checked = tests(&["lent", name, "--check"]);
    assert!(!checked.status.success() && said(&checked).contains("model:   returns 12"));
    std::fs::write(dir.join("stdout"), output).expect("written");
    assert!(tests(&["lent", name, "--check"]).status.success());
    let mut input = std::fs::read(dir.join("stdin")).expect("stored");
    input.pop();
    std::fs::write(dir.join("stdin"), input).expect("written");
    assert!(!tests(&["lent", name, "--check"]).status.success());
}

#[test]
fn the_stored_carry_overs_are_checked() {
    let dir = folder("carried");
    let name = dir.to_str().expect("a readable name");
    assert!(tests(&["carried", name]).status.success());
    let wrong = tests(&["carried", name, "--wrong", "carries-former-newer"]);
    assert!(!wrong.status.success() && said(&wrong).contains("model:   word"), "{}", said(&wrong));
    let wrong = tests(&["carried", name, "--wrong", "carry-15-after-16"]);
    assert!(!wrong.status.success() && said(&wrong).contains("program: refused 16"));
    assert!(said(&tests(&["carried", name, "--wrong", "no-such-fault"])).contains("usage"));
    let output = std::fs::read_to_string(dir.join("stdout")).expect("stored");
    std::fs::write(dir.join("stdout"), output.replacen("refused 14", "carried", 1))
        .expect("written");
    let checked = tests(&["carried", name, "--check"]);
    assert!(!checked.status.success() && said(&checked).contains("program: carried"));
    std::fs::write(dir.join("stdout"), output).expect("written");
    assert!(tests(&["carried", name, "--check"]).status.success());
}

#[test]
fn the_stored_meetings_are_checked() {
    let dir = folder("meetings");
    let name = dir.to_str().expect("a readable name");
    assert!(tests(&["meetings", name]).status.success());
    let wrong = tests(&["meetings", name, "--wrong", "writes-before-21"]);
    assert!(!wrong.status.success() && said(&wrong).contains("program: refused 21 spoiled"));
    assert!(said(&tests(&["meetings", name, "--wrong", "no-such-fault"])).contains("usage"));
    let output = std::fs::read_to_string(dir.join("stdout")).expect("stored");
    std::fs::write(dir.join("stdout"), output.replacen("refused 21", "refused 15", 1))
        .expect("written");
    let checked = tests(&["meetings", name, "--check"]);
    assert!(!checked.status.success() && said(&checked).contains("model:   refused 21"));
    std::fs::write(dir.join("stdout"), output).expect("written");
    assert!(tests(&["meetings", name, "--check"]).status.success());
}

#[test]
fn the_stored_lists_are_checked() {
    let dir = folder("lists");
    let name = dir.to_str().expect("a readable name");
    assert!(tests(&["lists", name]).status.success());
    let wrong = tests(&["lists", name, "--wrong", "first-filling"]);
    assert!(!wrong.status.success() && said(&wrong).contains("program: store"));
    let wrong = tests(&["lists", name, "--wrong", "load-forgotten"]);
    assert!(!wrong.status.success() && said(&wrong).contains("program: ranks 32 3 8 13"));
    assert!(said(&tests(&["lists", name, "--wrong", "no-such-fault"])).contains("usage"));
    let output = std::fs::read_to_string(dir.join("stdout")).expect("stored");
    std::fs::write(dir.join("stdout"), output.replacen("19", "14", 1)).expect("written");
    assert!(!tests(&["lists", name, "--check"]).status.success());
}
