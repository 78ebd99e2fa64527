// Files to try: boards of many kinds, late boards, damaged files, records. All follow from a seed.

use crate::hard;
use crate::random::Random;
use crate::rules::{board_file, Board, Setup, Side, LARGEST_ROOM};

/// The file with this number under a seed.
pub fn file(seed: u64, number: u64) -> Vec<u8> {
    let random = &mut Random::new(seed, number);
    match random.below(100) {
        0..=1 => Vec::new(),
        2..=4 => head_only(random),
        5..=19 => damaged(random),
        20..=49 => record(random),
        _ => board_file(&any_setup(random)),
    }
}

/// A board of any kind, with a side.
pub fn any_setup(random: &mut Random) -> Setup {
    let board = match random.below(1000) {
        0..=9 => near_the_judges_count(random),
        10..=17 => crowded(random),
        18..=99 => scattered(random, 1, 16),
        100..=299 => small(random),
        300..=599 => late_board(random, 8, 8),
        600..=699 => late_board(random, 16, LARGEST_ROOM),
        700..=799 => separate_rooms(random, 16, LARGEST_ROOM),
        800..=899 => separate_rooms(random, 8, 8),
        _ => many_rooms(random),
    };
    let side = any_side(random);
    Setup { board, side }
}

pub fn any_side(random: &mut Random) -> Side {
    match random.below(2) {
        0 => Side::Upright,
        _ => Side::Flat,
    }
}

/// Squares taken at random, from hardly any to nearly all.
fn scattered(random: &mut Random, shortest: usize, longest: usize) -> Board {
    let width = random.within(shortest, longest);
    let mut board = Board::empty(width, random.within(shortest, longest));
    let taken = random.within(0, 100);
    for free in &mut board.free {
        *free = !random.percent(taken);
    }
    board
}

/// A board that is small enough to be played out.
pub fn small(random: &mut Random) -> Board {
    let mut board = scattered(random, 1, 7);
    while board.free_squares() > 20 {
        let square = random.below(board.free.len());
        board.free[square] = false;
    }
    board
}

/// Lays one plank at random; says whether the side could.
fn lay_somewhere(random: &mut Random, board: &mut Board, side: Side) -> bool {
    let place = random.pick(&board.places(side));
    place.is_some_and(|place| board.lay(side, place))
}

fn largest_room(board: &Board) -> usize {
    board.rooms().iter().map(Vec::len).max().unwrap_or(0)
}

/// Random play from the empty board until no room has more than `room` squares.
pub fn played_board(random: &mut Random, width: usize, height: usize, room: usize) -> Board {
    let mut board = Board::empty(width, height);
    let mut side = any_side(random);
    while largest_room(&board) > room && lay_somewhere(random, &mut board, side) {
        side = side.other();
    }
    board
}

/// A board of up to `edge` each way after such play; now and then a few planks earlier or later.
pub fn late_board(random: &mut Random, edge: usize, room: usize) -> Board {
    let shortest = 1 + edge / 2 * random.below(2);
    let width = random.within(shortest, edge);
    let height = random.within(shortest, edge);
    let early = room + if random.percent(10) { 4 } else { 0 };
    let mut board = played_board(random, width, height, early);
    let mut side = any_side(random);
    for _ in 0..random.below(4) * random.below(4) {
        lay_somewhere(random, &mut board, side);
        side = side.other();
    }
    board
}

/// Rooms drawn one by one on a board whose squares are all taken, each of up to `room` squares.
pub fn separate_rooms(random: &mut Random, edge: usize, room: usize) -> Board {
    let width = random.within(1, edge);
    let mut board = Board::empty(width, random.within(1, edge));
    board.free.fill(false);
    let tries = random.within(1, 60);
    let largest = random.within(2, room);
    for _ in 0..tries {
        let squares = random.within(2, largest);
        draw_room(random, &mut board, squares);
    }
    board
}

/// About as many rooms as a judged board may have, most of them very small.
pub fn many_rooms(random: &mut Random) -> Board {
    let width = random.within(13, 16);
    let mut board = Board::empty(width, random.within(13, 16));
    board.free.fill(false);
    let rooms = random.within(29, 36);
    let largest = random.within(2, 6);
    for _ in 0..400 {
        if board.rooms().len() >= rooms {
            break;
        }
        let squares = random.within(2, largest);
        draw_room(random, &mut board, squares);
    }
    board
}

/// As many rooms as fit, of a size at which the count is about the highest that is judged.
fn crowded(random: &mut Random) -> Board {
    let room = random.within(10, 15);
    hard::crowded(random, 16, room)
}

/// A board whose count is about the highest that the judging program serves.
fn near_the_judges_count(random: &mut Random) -> Board {
    let wanted = hard::Wanted {
        edge: 8,
        room: 8,
        rooms: 2,
        count: random.within(490, 530),
    };
    hard::climb(random, &wanted, 1500).0
}

/// Draws a room of up to so many squares somewhere, where it touches no other.
pub fn draw_room(random: &mut Random, board: &mut Board, squares: usize) {
    let start = random.below(board.free.len());
    if board.free[start] || touches(board, start, &[]) {
        return;
    }
    let mut room = vec![start];
    for _ in 0..squares * 4 {
        if room.len() == squares {
            break;
        }
        let from = room[random.below(room.len())];
        let Some(next) = random.pick(&board.neighbours(from)) else {
            break;
        };
        if !room.contains(&next) && !board.free[next] && !touches(board, next, &room) {
            room.push(next);
        }
    }
    if room.len() >= 2 {
        for square in room {
            board.free[square] = true;
        }
    }
}

/// Whether a square has a free neighbour outside of these.
fn touches(board: &Board, square: usize, room: &[usize]) -> bool {
    let mut neighbours = board.neighbours(square).into_iter();
    neighbours.any(|neighbour| board.free[neighbour] && !room.contains(&neighbour))
}

/// A record of random play: of some planks or to the end, sometimes with a wrong one.
fn record(random: &mut Random) -> Vec<u8> {
    let Setup { mut board, side } = match random.below(4) {
        0 => empty_setup(random),
        _ => any_setup(random),
    };
    let mut bytes = board_file(&Setup {
        board: board.clone(),
        side,
    });
    let planks = match random.below(3) {
        0 => 128,
        1 => random.below(4),
        _ => random.below(1 + board.free_squares() / 2),
    };
    play(random, &mut board, side, planks, &mut bytes);
    if random.percent(15) {
        bytes.push(random.below(256) as u8);
    }
    if random.percent(10) {
        spoil_plank(random, 3 + board.free.len(), &mut bytes);
    }
    bytes
}

fn empty_setup(random: &mut Random) -> Setup {
    let width = random.within(1, 16);
    let board = Board::empty(width, random.within(1, 16));
    let side = any_side(random);
    Setup { board, side }
}

/// Lays up to so many planks in turn and writes their places down.
fn play(random: &mut Random, board: &mut Board, first: Side, planks: usize, bytes: &mut Vec<u8>) {
    let mut side = first;
    for _ in 0..planks {
        let Some(place) = random.pick(&board.places(side)) else {
            return;
        };
        board.lay(side, place);
        bytes.push(place as u8);
        side = side.other();
    }
}

/// Changes one plank's place, if there is a plank.
fn spoil_plank(random: &mut Random, planks_from: usize, bytes: &mut [u8]) {
    if bytes.len() > planks_from {
        let place = random.within(planks_from, bytes.len() - 1);
        bytes[place] = random.below(256) as u8;
    }
}

/// A file that ends within its first bytes, good or bad.
fn head_only(random: &mut Random) -> Vec<u8> {
    let length = random.within(1, 5);
    let usual = [0, 1, 2, 16, 17, b'u', b'f', b'.', b'#', b'U', 10, 255];
    let mut bytes = vec![0; length];
    for byte in &mut bytes {
        *byte = usual[random.below(usual.len())];
    }
    bytes
}

/// A board or record with a byte changed, cut short, or with bytes after its end.
fn damaged(random: &mut Random) -> Vec<u8> {
    let mut bytes = match random.below(2) {
        0 => record(random),
        _ => board_file(&any_setup(random)),
    };
    for _ in 0..random.within(1, 2) {
        damage(random, &mut bytes);
    }
    bytes
}

fn damage(random: &mut Random, bytes: &mut Vec<u8>) {
    let likely = [0, 1, 15, 16, 17, b'u', b'f', b'.', b'#', b' ', b'\n'];
    let byte = match random.below(3) {
        0 => random.below(256) as u8,
        _ => likely[random.below(likely.len())],
    };
    match random.below(5) {
        0 if !bytes.is_empty() => bytes.truncate(random.below(bytes.len())),
        1 => bytes.push(byte),
        2 if !bytes.is_empty() => change(random, bytes, 3, byte),
        _ if !bytes.is_empty() => change(random, bytes, usize::MAX, byte),
        _ => bytes.push(byte),
    }
}

/// Changes a byte among the first so many.
fn change(random: &mut Random, bytes: &mut [u8], among: usize, byte: u8) {
    let place = random.below(bytes.len().min(among));
    bytes[place] = byte;
}

#[cfg(test)]
mod tests {
    use super::*;
    use crate::rules::{lay_all, read_board, read_record};

    #[test]
    fn files_follow_from_seed_and_number() {
        assert!((0..100).all(|number| file(7, number) == file(7, number)));
        assert!((0..100).any(|number| file(7, number) != file(8, number)));
    }

    #[test]
    fn every_kind_comes_up() {
        let files: Vec<Vec<u8>> = (0..700).map(|number| file(1, number)).collect();
        let boards = files.iter().map(|bytes| read_board(bytes));
        let laid = files.iter().map(|bytes| {
            let (setup, planks) = read_record(bytes)?;
            lay_all(setup, planks)?.board.judged_rooms()
        });
        let number = |refusal: crate::rules::Refusal| refusal.number;
        let mut numbers: Vec<u8> = boards.filter_map(|read| read.err().map(number)).collect();
        numbers.extend(laid.filter_map(|read| read.err().map(number)));
        assert!([1, 2, 3, 4, 9, 5, 6].iter().all(|n| numbers.contains(n)));
        assert!(files.iter().any(Vec::is_empty));
        let good = files
            .iter()
            .filter(|bytes| read_board(bytes).is_ok())
            .count();
        assert!(good > 300, "{good}");
    }
}
