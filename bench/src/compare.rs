// Runs the two programs on generated files and compares what they print with the second opinion.

use crate::answers::{self, Opinion};
use crate::generate;
use crate::show;
use std::collections::BTreeMap;
use std::fs;
use std::io;
use std::path::{Path, PathBuf};
use std::process::{Command, Output};

pub struct Programs {
    pub judge: PathBuf,
    pub follow: PathBuf,
}

/// What was done, and how often something was wrong.
#[derive(Default)]
struct Tally {
    /// How often each kind of answer was expected of each program.
    expected: BTreeMap<String, usize>,
    differences: usize,
    errors: usize,
}

/// A folder for this run's files.
pub fn folder() -> io::Result<PathBuf> {
    let folder = std::env::temp_dir().join(format!("planks-bench-{}", std::process::id()));
    fs::create_dir_all(&folder)?;
    Ok(folder)
}

/// Tries so many files; says whether all went well.
pub fn compare(programs: &Programs, seed: u64, files: u64) -> io::Result<bool> {
    let folder = folder()?;
    println!("seed {seed}, {files} files");
    let mut tally = Tally::default();
    for number in 0..files {
        let bytes = generate::file(seed, number);
        let path = folder.join(format!("{seed}-{number}"));
        fs::write(&path, &bytes)?;
        let judge = ("judge", programs.judge.as_path());
        let judge = try_one(&mut tally, judge, &path, answers::judge(&bytes))?;
        let follow = ("follow", programs.follow.as_path());
        let follow = try_one(&mut tally, follow, &path, answers::follow(&bytes))?;
        let wrong: Vec<String> = [judge, follow].into_iter().flatten().collect();
        if wrong.is_empty() {
            fs::remove_file(&path)?;
        } else {
            println!("seed {seed}, file {number}, kept as {}", path.display());
            print!("{}{}", show::picture(&bytes), wrong.concat());
        }
    }
    Ok(report(&folder, &tally))
}

fn report(folder: &Path, tally: &Tally) -> bool {
    for (kind, number) in &tally.expected {
        println!("{number:8} {kind}");
    }
    println!("{:8} differences", tally.differences);
    if tally.errors > 0 {
        println!(
            "{:8} times the second opinion was at odds with itself",
            tally.errors
        );
    }
    // Only an empty folder goes; kept files stay.
    let _ = fs::remove_dir(folder);
    tally.differences + tally.errors == 0
}

/// The kind of an answer: a refusal with its number, a verdict, or a game that is over.
fn kind(text: &str) -> String {
    let line = text.lines().last().unwrap_or("");
    match line.split(' ').collect::<Vec<_>>()[..] {
        ["refused", number, ..] => format!("refused {number}"),
        [_, "made", ..] => "last moves".into(),
        _ => "verdicts".into(),
    }
}

fn run(program: &Path, file: &Path) -> io::Result<Output> {
    let output = Command::new(program).arg(file).output();
    output.map_err(|error| io::Error::other(format!("{}: {error}", program.display())))
}

/// Runs one program on one file; tells what is wrong, if anything is.
fn try_one(
    tally: &mut Tally,
    (name, program): (&str, &Path),
    file: &Path,
    opinion: Opinion,
) -> io::Result<Option<String>> {
    let expected = match opinion {
        Ok(expected) => expected,
        Err(doubt) => {
            tally.errors += 1;
            return Ok(Some(format!("error of the bench: {doubt}\n")));
        }
    };
    let kind = format!("{name}: {}", kind(&expected));
    *tally.expected.entry(kind).or_default() += 1;
    let output = run(program, file)?;
    if output.stdout == expected.as_bytes() && output.status.code() == Some(0) {
        return Ok(None);
    }
    tally.differences += 1;
    Ok(Some(format!(
        "{name}: expected\n{expected}got, with {},\n{}{}",
        output.status,
        String::from_utf8_lossy(&output.stdout),
        String::from_utf8_lossy(&output.stderr),
    )))
}
