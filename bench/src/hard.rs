// Looks for hard boards: of high count, or of a count near a wanted one.

use crate::engine::{Engine, Judgement, LARGEST_COUNT};
use crate::generate::{any_side, draw_room};
use crate::random::Random;
use crate::rules::{board_file, Board, Setup, Side, LARGEST_ROOM, LONGEST_EDGE, MOST_ROOMS};
use crate::show;

/// What is looked for.
pub struct Wanted {
    pub edge: usize,
    /// The most squares of a room.
    pub room: usize,
    /// The fewest rooms.
    pub rooms: usize,
    pub count: usize,
}

impl Wanted {
    pub fn makes_sense(&self) -> bool {
        (1..=LONGEST_EDGE).contains(&self.edge)
            && (2..=LARGEST_ROOM).contains(&self.room)
            && self.rooms <= MOST_ROOMS
            && self.count > 0
    }
}

/// A board with as many drawn rooms as it takes, up to 32.
pub fn crowded(random: &mut Random, edge: usize, room: usize) -> Board {
    let mut board = Board::empty(edge, edge);
    board.free.fill(false);
    for _ in 0..300 {
        if board.rooms().len() == MOST_ROOMS {
            break;
        }
        let squares = random.within(2, room);
        draw_room(random, &mut board, squares);
    }
    board
}

/// The board's own count, if its rooms may be judged and the count is at most `limit`.
fn own_count(board: &Board, limit: usize) -> Option<usize> {
    let setup = &Setup {
        board: board.clone(),
        side: Side::Upright,
    };
    let rooms = board.judged_rooms().ok()?;
    Some(Engine::new(setup, &rooms).own_worth(limit)?.count)
}

pub fn judgement(setup: &Setup) -> Option<Judgement> {
    let rooms = setup.board.judged_rooms().ok()?;
    Engine::new(setup, &rooms).judge(LARGEST_COUNT)
}

/// Of so many crowded boards, those of highest count that are not refused.
pub fn hardest(random: &mut Random, tries: usize, wanted: usize) -> Vec<Setup> {
    let mut found = Vec::new();
    for _ in 0..tries {
        let room = random.within(8, 14);
        let board = crowded(random, 16, room);
        if let Some(count) = own_count(&board, LARGEST_COUNT) {
            let side = any_side(random);
            found.push((count, Setup { board, side }));
        }
    }
    found.sort_by_key(|&(count, _)| std::cmp::Reverse(count));
    let judged = |setup: &Setup| judgement(setup).is_some();
    let setups = found.into_iter().map(|(_, setup)| setup);
    setups.filter(judged).take(wanted).collect()
}

/// How far a count is from the wanted one; a count that is not known is farthest.
fn distance(count: Option<usize>, wanted: usize) -> f64 {
    match count {
        Some(count) => (count as f64 / wanted as f64).ln().abs(),
        None => f64::INFINITY,
    }
}

fn fits(board: &Board, wanted: &Wanted) -> bool {
    let rooms = board.rooms();
    rooms.len() >= wanted.rooms
        && rooms.len() <= MOST_ROOMS
        && rooms.iter().all(|room| room.len() <= wanted.room)
}

/// Changes up to three squares.
fn changed(random: &mut Random, board: &Board) -> Board {
    let mut changed = board.clone();
    for _ in 0..random.within(1, 3) {
        let square = random.below(board.free.len());
        changed.free[square] = !changed.free[square];
    }
    changed
}

/// A first board with enough rooms; smaller ones are drawn until there is one.
fn start(random: &mut Random, wanted: &Wanted) -> Board {
    for attempt in 0.. {
        let room = wanted.room.min(9).saturating_sub(attempt / 10).max(2);
        let board = crowded(random, wanted.edge, room);
        if fits(&board, wanted) || attempt > 1000 {
            return board;
        }
    }
    unreachable!("the loop ends by an answer")
}

/// Changes a board step by step towards the wanted count; gives the count it has in the end,
/// unless that is far above.
pub fn climb(random: &mut Random, wanted: &Wanted, steps: usize) -> (Board, Option<usize>) {
    let limit = wanted.count + wanted.count / 10;
    let mut board = start(random, wanted);
    let mut count = own_count(&board, limit);
    for _ in 0..steps {
        if count == Some(wanted.count) {
            break;
        }
        let next = changed(random, &board);
        if !fits(&next, wanted) {
            continue;
        }
        let new = own_count(&next, limit);
        if distance(new, wanted.count) <= distance(count, wanted.count) {
            (board, count) = (next, new);
        }
    }
    (board, count)
}

/// Looks for one board and prints it.
pub fn print_climb(seed: u64, wanted: &Wanted, steps: usize) {
    let random = &mut Random::new(seed, 0);
    let (board, count) = climb(random, wanted, steps);
    let side = Side::Upright;
    let setup = Setup { board, side };
    print!("{}", show::picture(&board_file(&setup)));
    let rooms = setup.board.rooms().len();
    match count {
        Some(count) => println!("seed {seed}: rooms {rooms}, count {count}"),
        None => println!("seed {seed}: rooms {rooms}, count far above"),
    }
    match judgement(&setup) {
        Some(found) => println!(
            "highest count after a plank {}, {} pairs, {:?}",
            found.highest_count_after, found.pairs, found.verdict
        ),
        None => println!("refused: the count is too high, here or after a plank"),
    }
}
