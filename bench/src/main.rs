// A second opinion on the programs `judge` and `follow`, and their speed beside a plain engine.

mod answers;
mod check;
mod compare;
mod engine;
mod forms;
mod generate;
mod hard;
mod hash;
#[cfg(test)]
mod known;
mod random;
mod rules;
mod search;
mod show;
mod speed;

use engine::{Engine, LARGEST_COUNT};
use std::fs;
use std::io;
use std::process::ExitCode;

const USAGE: &str = "usage:
  bench compare --judge PATH --follow PATH [--seed N] [--files N]
  bench speed --follow PATH [--seed N] [--boards N]
  bench check [--seed N] [--boards N]
  bench hard [--seed N] [--edge N] [--room N] [--rooms N] [--near N] [--steps N]
  bench plain FILE [--count]
  bench show SEED NUMBER";

/// The words after the command: `--name value` pairs, and the rest.
struct Arguments {
    named: Vec<(String, String)>,
    rest: Vec<String>,
}

impl Arguments {
    /// Nothing if a name stands without a value.
    fn new(words: &[String]) -> Option<Arguments> {
        let (mut named, mut rest) = (Vec::new(), Vec::new());
        let mut words = words.iter();
        while let Some(word) = words.next() {
            match word.strip_prefix("--") {
                Some("count") => named.push(("count".into(), String::new())),
                Some(name) => named.push((name.into(), words.next()?.clone())),
                None => rest.push(word.clone()),
            }
        }
        Some(Arguments { named, rest })
    }

    fn take(&mut self, name: &str) -> Option<String> {
        let at = self.named.iter().position(|(known, _)| known == name)?;
        Some(self.named.remove(at).1)
    }

    /// The number of this name, or the usual one; nothing if it is no number.
    fn number(&mut self, name: &str, usual: u64) -> Option<u64> {
        match self.take(name) {
            Some(value) => value.parse().ok(),
            None => Some(usual),
        }
    }

    fn all_used(&self, rest: usize) -> Option<()> {
        (self.named.is_empty() && self.rest.len() == rest).then_some(())
    }
}

/// Runs a command: whether all went well, or nothing if it is not understood.
fn run(command: &str, mut arguments: Arguments) -> Option<io::Result<bool>> {
    match command {
        "compare" => {
            let programs = compare::Programs {
                judge: arguments.take("judge")?.into(),
                follow: arguments.take("follow")?.into(),
            };
            let seed = arguments.number("seed", 1)?;
            let files = arguments.number("files", 1000)?;
            arguments.all_used(0)?;
            Some(compare::compare(&programs, seed, files))
        }
        "check" => {
            let seed = arguments.number("seed", 1)?;
            let boards = arguments.number("boards", 10_000)?;
            arguments.all_used(0)?;
            Some(Ok(check::check(seed, boards)))
        }
        "speed" => {
            let follow = arguments.take("follow")?;
            let seed = arguments.number("seed", 1)?;
            let boards = arguments.number("boards", 20)?;
            arguments.all_used(0)?;
            Some(speed::speed(follow.as_ref(), seed, boards as usize))
        }
        "hard" => {
            let wanted = hard::Wanted {
                edge: arguments.number("edge", 16)? as usize,
                room: arguments.number("room", 16)? as usize,
                rooms: arguments.number("rooms", 30)? as usize,
                count: arguments.number("near", 1000)? as usize,
            };
            let seed = arguments.number("seed", 1)?;
            let steps = arguments.number("steps", 1000)?;
            arguments.all_used(0)?;
            wanted.makes_sense().then_some(())?;
            hard::print_climb(seed, &wanted, steps as usize);
            Some(Ok(true))
        }
        "plain" => {
            let count = arguments.take("count").is_some();
            arguments.all_used(1)?;
            Some(plain(&arguments.rest[0], count))
        }
        "show" => {
            arguments.all_used(2)?;
            let (seed, number) = (
                arguments.rest[0].parse().ok()?,
                arguments.rest[1].parse().ok()?,
            );
            print!("{}", show::picture(&generate::file(seed, number)));
            Some(Ok(true))
        }
        _ => None,
    }
}

/// Prints what `follow` should print, by the plain engine; and the count of the board, if wanted.
fn plain(path: &str, count: bool) -> io::Result<bool> {
    let bytes = fs::read(path).map_err(|error| io::Error::other(format!("{path}: {error}")))?;
    print!("{}", answers::plain(&bytes));
    if count {
        println!("{}", count_line(&bytes));
    }
    Ok(true)
}

fn count_line(bytes: &[u8]) -> String {
    let Ok(setup) = answers::standing(bytes) else {
        return "no count".into();
    };
    let Ok(rooms) = setup.board.judged_rooms() else {
        return "no count".into();
    };
    match Engine::new(&setup, &rooms).own_worth(LARGEST_COUNT) {
        Some(worth) => format!("count {}", worth.count),
        None => format!("count above {LARGEST_COUNT}"),
    }
}

fn main() -> ExitCode {
    let words: Vec<String> = std::env::args().skip(1).collect();
    let (command, rest) = match words.split_first() {
        Some((command, rest)) => (command.as_str(), rest),
        None => ("", &[][..]),
    };
    match Arguments::new(rest).and_then(|arguments| run(command, arguments)) {
        Some(Ok(true)) => ExitCode::SUCCESS,
        Some(Ok(false)) => ExitCode::from(1),
        Some(Err(error)) => {
            eprintln!("bench: {error}");
            ExitCode::from(1)
        }
        None => {
            eprintln!("{USAGE}");
            ExitCode::from(2)
        }
    }
}
