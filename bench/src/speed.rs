// Measures `follow` beside the plain engine on the same boards; the start of a process counts for both.

use crate::compare::folder;
use crate::generate::{any_side, played_board};
use crate::hard::{crowded, hardest, judgement};
use crate::random::Random;
use crate::rules::{board_file, Setup, LARGEST_ROOM};
use crate::show;
use std::fs;
use std::io;
use std::path::{Path, PathBuf};
use std::process::Command;
use std::time::Instant;

/// A board with what is known of it, and the time each engine took for it, in milliseconds.
struct Sample {
    rooms: usize,
    count: usize,
    /// Pairs of forms that the counts of the board and of those after one plank are made of.
    pairs: usize,
    follow: f64,
    plain: f64,
}

/// Each board is run this often, and the shortest time counts,
const RUNS: usize = 5;
/// unless the runs together take longer than this, in milliseconds.
const ENOUGH: f64 = 2000.0;

struct Bench<'a> {
    follow: &'a Path,
    plain: PathBuf,
    folder: PathBuf,
    differences: usize,
}

/// Runs a command several times: its shortest time in milliseconds, and what it printed.
fn shortest(command: &mut Command) -> io::Result<(f64, Vec<u8>)> {
    let (mut best, mut all) = (f64::INFINITY, 0.0);
    let mut printed = Vec::new();
    for _ in 0..RUNS {
        let start = Instant::now();
        printed = command.output()?.stdout;
        let time = start.elapsed().as_secs_f64() * 1000.0;
        best = best.min(time);
        all += time;
        if all > ENOUGH {
            break;
        }
    }
    Ok((best, printed))
}

impl Bench<'_> {
    /// The times of both engines for one board, which both judge alike.
    fn times(&mut self, setup: &Setup) -> io::Result<(f64, f64)> {
        let path = self.folder.join("board");
        let bytes = board_file(setup);
        fs::write(&path, &bytes)?;
        let (follow, by_follow) = shortest(Command::new(self.follow).arg(&path))?;
        let (plain, by_plain) = shortest(Command::new(&self.plain).arg("plain").arg(&path))?;
        if by_follow != by_plain {
            self.differences += 1;
            print!("{}", show::picture(&bytes));
            print!("follow: {}", String::from_utf8_lossy(&by_follow));
            print!("plain:  {}", String::from_utf8_lossy(&by_plain));
        }
        Ok((follow, plain))
    }

    /// Measures a board, unless it is refused.
    fn sample(&mut self, setup: &Setup) -> io::Result<Option<Sample>> {
        let Some(judged) = judgement(setup) else {
            return Ok(None);
        };
        let (follow, plain) = self.times(setup)?;
        Ok(Some(Sample {
            rooms: judged.rooms.len(),
            count: judged.count,
            pairs: judged.pairs,
            follow,
            plain,
        }))
    }

    /// Measures boards until there are enough that are not refused.
    fn class(
        &mut self,
        name: &str,
        wanted: usize,
        mut boards: impl Iterator<Item = Setup>,
    ) -> io::Result<Vec<Sample>> {
        let mut samples = Vec::new();
        while samples.len() < wanted {
            let Some(setup) = boards.next() else {
                break;
            };
            samples.extend(self.sample(&setup)?);
        }
        print_class(name, &samples);
        Ok(samples)
    }

    /// The same board with only its first rooms, one row for each number of them.
    fn growth(&mut self, random: &mut Random) -> io::Result<()> {
        println!("\none board of 32 rooms cut to its first rooms");
        print_head("rooms");
        let Some(whole) = (0..1000).find_map(|_| full_board(random)) else {
            println!("no such board was found");
            return Ok(());
        };
        let rooms = whole.board.rooms();
        for kept in (4..=rooms.len()).step_by(4) {
            let mut setup = whole.clone();
            for &square in rooms[kept..].iter().flatten() {
                setup.board.free[square] = false;
            }
            if let Some(sample) = self.sample(&setup)? {
                print_row(&kept.to_string(), &[&sample]);
            }
        }
        Ok(())
    }
}

/// Random play on eight by eight until no room has more than eight squares.
fn small_setup(random: &mut Random) -> Setup {
    let board = played_board(random, 8, 8, 8);
    let side = any_side(random);
    Setup { board, side }
}

/// Sixteen by sixteen, by play or with drawn rooms.
fn large_setup(random: &mut Random) -> Setup {
    let board = match random.below(2) {
        0 => played_board(random, 16, 16, LARGEST_ROOM),
        _ => {
            let room = random.within(3, 12);
            crowded(random, 16, room)
        }
    };
    let side = any_side(random);
    Setup { board, side }
}

/// A board with 32 rooms of some size, if one is drawn.
fn full_board(random: &mut Random) -> Option<Setup> {
    let board = crowded(random, 16, 7);
    let side = any_side(random);
    (board.rooms().len() == 32).then_some(Setup { board, side })
}

fn total(samples: &[&Sample], time: fn(&Sample) -> f64) -> f64 {
    samples.iter().map(|sample| time(sample)).sum()
}

/// Sum, median and longest.
fn figures(samples: &[Sample], time: fn(&Sample) -> f64) -> String {
    let mut times: Vec<f64> = samples.iter().map(time).collect();
    times.sort_by(f64::total_cmp);
    let sum: f64 = times.iter().sum();
    let median = times.get(times.len() / 2).copied().unwrap_or(0.0);
    let longest = times.last().copied().unwrap_or(0.0);
    format!("{sum:12.2}{median:12.2}{longest:12.2}")
}

fn print_class(name: &str, samples: &[Sample]) {
    let all: Vec<&Sample> = samples.iter().collect();
    let ratio = total(&all, |s| s.follow) / total(&all, |s| s.plain);
    println!("\n{name}: {} boards", samples.len());
    println!("{:8}{:>12}{:>12}{:>12}", "ms", "sum", "median", "max");
    println!("{:8}{}", "follow", figures(samples, |s| s.follow));
    println!("{:8}{}", "plain", figures(samples, |s| s.plain));
    println!("ratio {ratio:.2} (follow to plain)");
}

/// The boards themselves, so that they can be tried again.
fn print_each(samples: &[Sample], files: &[Vec<u8>]) {
    for (sample, file) in samples.iter().zip(files) {
        let Sample {
            rooms,
            count,
            follow,
            plain,
            ..
        } = sample;
        println!("rooms {rooms}, count {count}: follow {follow:.0} ms, plain {plain:.0} ms");
        println!("  printf {}", show::printf_string(file));
    }
}

fn print_head(key: &str) {
    let heads = ["boards", "count", "pairs", "follow ms", "plain ms"];
    print!("{key:>20}");
    for head in heads {
        print!("{head:>12}");
    }
    println!("{:>8}", "ratio");
}

/// One row of a growth table: means over some samples.
fn print_row(key: &str, samples: &[&Sample]) {
    let number = samples.len() as f64;
    let follow = total(samples, |s| s.follow) / number;
    let plain = total(samples, |s| s.plain) / number;
    println!(
        "{key:>20}{:>12}{:>12.0}{:>12.0}{follow:>12.2}{plain:>12.2}{:>8.2}",
        samples.len(),
        total(samples, |s| s.count as f64) / number,
        total(samples, |s| s.pairs as f64) / number,
        follow / plain,
    );
}

/// Means over the samples whose key falls between one bound and the next.
fn print_growth(name: &str, samples: &[Sample], bounds: &[usize], key: fn(&Sample) -> usize) {
    println!("\nmeans by {name}");
    print_head(name);
    for pair in bounds.windows(2) {
        let (first, end) = (pair[0], pair[1]);
        let within = |sample: &&Sample| (first..end).contains(&key(sample));
        let chosen: Vec<&Sample> = samples.iter().filter(within).collect();
        if !chosen.is_empty() {
            print_row(&format!("{first} to {}", end - 1), &chosen);
        }
    }
}

fn floor(bench: &mut Bench) -> io::Result<()> {
    let setup = Setup {
        board: crate::rules::Board::empty(2, 2),
        side: crate::rules::Side::Upright,
    };
    let (follow, plain) = bench.times(&setup)?;
    println!("floor, a board of two by two: follow {follow:.2} ms, plain {plain:.2} ms");
    Ok(())
}

/// Measures all classes; says whether both engines gave the same answers.
pub fn speed(follow: &Path, seed: u64, boards: usize) -> io::Result<bool> {
    println!("seed {seed}, shortest of up to {RUNS} runs for each board");
    let mut bench = Bench {
        follow,
        plain: std::env::current_exe()?,
        folder: folder()?,
        differences: 0,
    };
    floor(&mut bench)?;
    let [small, large, hard, cut] = [0, 1, 2, 3].map(|item| Random::new(seed, item));
    let endless = |mut random: Random, make: fn(&mut Random) -> Setup| {
        std::iter::repeat_with(move || make(&mut random))
    };
    let mut samples = bench.class(
        "late boards of 8 by 8, rooms of at most 8",
        boards,
        endless(small, small_setup),
    )?;
    samples.extend(bench.class(
        "boards of 16 by 16, up to 32 rooms of up to 16",
        boards,
        endless(large, large_setup),
    )?);
    let hardest = hardest(&mut { hard }, 10 * boards, boards.div_ceil(4));
    let files: Vec<Vec<u8>> = hardest.iter().map(board_file).collect();
    let measured = bench.class("hard boards", hardest.len(), hardest.into_iter())?;
    print_each(&measured, &files);
    samples.extend(measured);
    let rooms: Vec<usize> = (1..=33).step_by(4).collect();
    print_growth("rooms", &samples, &rooms, |sample| sample.rooms);
    let fourfold: Vec<usize> = (0..16).map(|power| 1 << (2 * power)).collect();
    print_growth("count", &samples, &fourfold, |sample| sample.count);
    print_growth("pairs", &samples, &fourfold, |sample| sample.pairs);
    bench.growth(&mut { cut })?;
    fs::remove_dir_all(&bench.folder)?;
    println!("\n{} boards with different answers", bench.differences);
    Ok(bench.differences == 0)
}
