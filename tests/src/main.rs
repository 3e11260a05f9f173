//! The test side of Mussletread: a second model of document 01 and what is
//! compared with it. See README.md.

mod books;
mod carried;
#[cfg(test)]
mod checks;
mod compare;
mod demand3;
mod frames;
mod layout;
mod lent;
mod lists;
mod loads;
mod meetings;
mod mixed;
mod model;
mod ranks;
mod records;
mod rounds;
mod serve;
mod shelves;
mod streams;
mod tables;
mod tally;
mod wrong;

use compare::{differ, Program};
use std::fs;
use std::path::Path;
use std::process::ExitCode;
use std::time::{Duration, Instant};

const USAGE: &str = "usage:
  tests compare PROGRAM [--seed N] [--frames N] [--patience SECONDS] [-- ARGUMENT ...]
  tests whole-case PROGRAM
  tests stored DIR [--check]
  tests lent DIR [--check]
  tests books DIR [--check]
  tests carried DIR [--check | --wrong FAULT]
  tests lists DIR [--check | --seed N | --wrong FAULT]
  tests meetings DIR [--check | --wrong FAULT]
  tests serve [--wrong FAULT]";

fn main() -> ExitCode {
    let words: Vec<String> = std::env::args().skip(1).collect();
    let words: Vec<&str> = words.iter().map(String::as_str).collect();
    match run(&words) {
        Ok(line) => {
            if !line.is_empty() {
                println!("{line}");
            }
            ExitCode::SUCCESS
        }
        Err(complaint) => {
            eprintln!("{complaint}");
            ExitCode::FAILURE
        }
    }
}

fn run(words: &[&str]) -> Result<String, String> {
    match words {
        ["compare", path, options @ ..] => compare_with(path, options),
        ["whole-case", path] => whole_case(path),
        ["stored", dir] => store(Path::new(dir)),
        ["stored", dir, "--check"] => check_stored(Path::new(dir)),
        ["lent", dir] => store_lent(Path::new(dir)),
        ["lent", dir, "--check"] => check_lent(Path::new(dir)),
        ["books", dir] => store_books(Path::new(dir)),
        ["books", dir, "--check"] => check_books(Path::new(dir)),
        ["lists", dir] => store_lists(Path::new(dir), 0),
        ["lists", dir, "--seed", number] => store_lists(Path::new(dir), 1_000 * parsed(number)?),
        ["lists", dir, "--check"] => check_lists(Path::new(dir)),
        ["lists", dir, "--wrong", name] => {
            let fault = lists::named(name).ok_or(USAGE)?;
            wrong_lists(Path::new(dir), fault)
        }
        [name, rest @ ..] if cases_of(name).is_some() => {
            cases_of(name).expect("a program").run(rest)
        }
        ["serve"] => serve_as(None),
        ["serve", "--wrong", name] => serve_as(Some(wrong::named(name).ok_or(USAGE)?)),
        _ => Err(USAGE.to_string()),
    }
}

fn program(path: &str, arguments: &[&str], seconds: u64) -> Program {
    let arguments = arguments.iter().map(|word| word.to_string()).collect();
    Program { path: path.to_string(), arguments, patience: Duration::from_secs(seconds) }
}

fn compare_with(path: &str, options: &[&str]) -> Result<String, String> {
    let (mut seed, mut frames, mut patience, mut rest) = (1, 1_000_000, 20, options);
    let arguments = loop {
        match rest {
            [] => break &[][..],
            ["--", arguments @ ..] => break arguments,
            ["--seed", number, after @ ..] => (seed, rest) = (parsed(number)?, after),
            ["--frames", number, after @ ..] => (frames, rest) = (parsed(number)?, after),
            ["--patience", number, after @ ..] => (patience, rest) = (parsed(number)?, after),
            _ => return Err(USAGE.to_string()),
        }
    };
    let began = Instant::now();
    let tally = compare::compare(&program(path, arguments, patience), seed, frames as i64)?;
    println!("{}", tally.outcomes());
    Ok(format!("same as the model, {:.1} s, {}", began.elapsed().as_secs_f64(), tally.summary()))
}

fn parsed(number: &str) -> Result<u64, String> {
    number.parse().map_err(|_| format!("{number} isn't a number\n{USAGE}"))
}

/// "Whole case, hexadecimal": the paper's own bytes, not the model's.
fn whole_case(path: &str) -> Result<String, String> {
    let (input, output) = streams::whole_case();
    let got = program(path, &[], 20).run(&input, &[])?;
    differ(&input, &output, &got)?;
    Ok("the whole case of document 01 comes out as the paper has it".to_string())
}

fn store(dir: &Path) -> Result<String, String> {
    let input = streams::stored();
    let output = model::survey(&input);
    let failed = |error: std::io::Error| error.to_string();
    fs::create_dir_all(dir).map_err(failed)?;
    fs::write(dir.join("stdin"), &input).map_err(failed)?;
    fs::write(dir.join("stdout"), &output).map_err(failed)?;
    check_stored(dir)
}

/// The stored output is the model's, demand 3 holds of it, it begins with the
/// whole case, and nothing that a stream can reach is missing.
fn check_stored(dir: &Path) -> Result<String, String> {
    let read = |name: &str| fs::read(dir.join(name)).map_err(|error| format!("{name}: {error}"));
    let (input, output) = (read("stdin")?, read("stdout")?);
    differ(&input, &model::survey(&input), &output)?;
    demand3::check(&input, &output)?;
    let (case_in, case_out) = streams::whole_case();
    if !input.starts_with(&case_in) || !output.starts_with(&case_out) {
        return Err("the stored stream doesn't begin with the whole case".to_string());
    }
    let mut tally = tally::Tally::default();
    tally.add(&input, &output);
    tally.complete(true)?;
    Ok(format!("stored: {}", tally.summary()))
}

/// Writes calls that a stream can't reach, and what the model says of each.
fn store_lent(dir: &Path) -> Result<String, String> {
    let calls = lent::stored();
    let failed = |error: std::io::Error| error.to_string();
    fs::create_dir_all(dir).map_err(failed)?;
    fs::write(dir.join("stdin"), lent::input(&calls)).map_err(failed)?;
    fs::write(dir.join("stdout"), lent::answered(&calls, None)).map_err(failed)?;
    check_lent(dir)
}

fn check_lent(dir: &Path) -> Result<String, String> {
    let input = fs::read(dir.join("stdin")).map_err(|error| format!("stdin: {error}"))?;
    lent::check(&input, &read_text(&dir.join("stdout").to_string_lossy())?)
}

/// Writes books to be checked, and what the model says of each.
fn store_books(dir: &Path) -> Result<String, String> {
    let input = books::stored();
    let failed = |error: std::io::Error| error.to_string();
    fs::create_dir_all(dir).map_err(failed)?;
    fs::write(dir.join("stdout"), books::answered(&input, None)?).map_err(failed)?;
    fs::write(dir.join("stdin"), &input).map_err(failed)?;
    check_books(dir)
}

/// The stored answers are the model's, and each that there is comes.
fn check_books(dir: &Path) -> Result<String, String> {
    let input = fs::read(dir.join("stdin")).map_err(|error| format!("stdin: {error}"))?;
    let output = read_text(&dir.join("stdout").to_string_lossy())?;
    let expected = books::answered(&input, None)?;
    if expected != output {
        let line = expected.lines().zip(output.lines()).position(|(a, b)| a != b);
        return Err(format!("the stored answers to books differ from the model's, case {line:?}"));
    }
    books::summary(&output)
}

/// A program without frames: its stored cases, what the model or a program with a named fault
/// says of some, and what must have come.
struct Cases {
    stored: fn() -> Vec<u8>,
    answered: fn(&[u8], Option<&str>) -> Result<String, String>,
    summary: fn(&str) -> Result<String, String>,
}

fn cases_of(name: &str) -> Option<Cases> {
    /// The fault of a name, and a complaint if there is none.
    fn fault<F>(name: Option<&str>, named: fn(&str) -> Option<F>) -> Result<Option<F>, String> {
        name.map(|name| named(name).ok_or(USAGE.to_string())).transpose()
    }
    match name {
        "carried" => Some(Cases {
            stored: carried::stored,
            answered: |input, name| carried::answered(input, fault(name, carried::named)?),
            summary: carried::summary,
        }),
        "meetings" => Some(Cases {
            stored: meetings::stored,
            answered: |input, name| meetings::answered(input, fault(name, meetings::named)?),
            summary: meetings::summary,
        }),
        _ => None,
    }
}

impl Cases {
    fn run(&self, words: &[&str]) -> Result<String, String> {
        match words {
            [dir] => self.store(Path::new(dir)),
            [dir, "--check"] => self.check(Path::new(dir)),
            [dir, "--wrong", name] => self.wrong(Path::new(dir), name),
            _ => Err(USAGE.to_string()),
        }
    }

    /// Writes the cases, and what the model says of each.
    fn store(&self, dir: &Path) -> Result<String, String> {
        let input = (self.stored)();
        let failed = |error: std::io::Error| error.to_string();
        fs::create_dir_all(dir).map_err(failed)?;
        fs::write(dir.join("stdout"), (self.answered)(&input, None)?).map_err(failed)?;
        fs::write(dir.join("stdin"), &input).map_err(failed)?;
        self.check(dir)
    }

    /// The stored cases and lines are the model's, and each answer that there is comes.
    fn check(&self, dir: &Path) -> Result<String, String> {
        let (input, output) = read_lists(dir)?;
        if input != (self.stored)() {
            return Err("stdin isn't that of the model's cases".to_string());
        }
        lists::same(&(self.answered)(&input, None)?, &output)?;
        (self.summary)(&output)
    }

    /// Complains of the first line that a wrong program has otherwise.
    fn wrong(&self, dir: &Path, name: &str) -> Result<String, String> {
        let (input, output) = read_lists(dir)?;
        lists::same(&output, &(self.answered)(&input, Some(name))?)?;
        Ok("the stored cases don't tell this fault".to_string())
    }
}

/// Writes a mixed list of calls, and what the model says of each.
fn store_lists(dir: &Path, seed: u64) -> Result<String, String> {
    let input = mixed::list(seed);
    let failed = |error: std::io::Error| error.to_string();
    fs::create_dir_all(dir).map_err(failed)?;
    let output = lists::answered(&lists::calls_of(&input)?, None);
    fs::write(dir.join("stdout"), output).map_err(failed)?;
    fs::write(dir.join("stdin"), &input).map_err(failed)?;
    check_lists(dir)
}

fn read_lists(dir: &Path) -> Result<(Vec<u8>, String), String> {
    let input = fs::read(dir.join("stdin")).map_err(|error| format!("stdin: {error}"))?;
    Ok((input, read_text(&dir.join("stdout").to_string_lossy())?))
}

fn check_lists(dir: &Path) -> Result<String, String> {
    let (input, output) = read_lists(dir)?;
    lists::check(&input, &output)
}

/// Complains of the first line that a wrong program has otherwise.
fn wrong_lists(dir: &Path, fault: lists::Fault) -> Result<String, String> {
    let (input, output) = read_lists(dir)?;
    lists::same(&output, &lists::answered(&lists::calls_of(&input)?, Some(fault)))?;
    Ok("the stored list doesn't tell this fault".to_string())
}

fn read_text(file: &str) -> Result<String, String> {
    fs::read_to_string(file).map_err(|error| format!("{file}: {error}"))
}

fn serve_as(fault: Option<wrong::Fault>) -> Result<String, String> {
    let served = serve::serve(std::io::stdin(), std::io::stdout(), fault);
    served.map(|()| String::new()).map_err(|error| error.to_string())
}
