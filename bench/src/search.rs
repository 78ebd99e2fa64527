// The rules played out in every way, with a memory of what was met; knows nothing of rooms and forms.

use crate::hash::Map;
use crate::rules::{Board, Setup, Side, Verdict, SIDES};

/// Larger boards are not played out.
pub const MOST_FREE_SQUARES: usize = 24;

/// A plank: its place, and the free squares that it takes, a bit for each.
struct Plank {
    place: usize,
    squares: u32,
}

struct Search {
    /// For each side, in reading order.
    planks: [Vec<Plank>; 2],
    /// Whether the side to move wins, with its number in the bit above the free squares.
    known: Map<u32, bool>,
}

impl Search {
    fn new(board: &Board) -> Search {
        let mut bit_of = vec![0u32; board.free.len()];
        let free = (0..board.free.len()).filter(|&square| board.free[square]);
        for (number, square) in free.enumerate() {
            bit_of[square] = 1 << number;
        }
        let planks = SIDES.map(|side| {
            let lawful = |place| board.plank(side, place).map(|taken| (place, taken));
            (0..board.free.len())
                .filter_map(lawful)
                .map(|(place, [one, two])| Plank {
                    place,
                    squares: bit_of[one] | bit_of[two],
                })
                .collect()
        });
        Search {
            planks,
            known: Map::default(),
        }
    }

    /// Whether a side that is to move makes the last move.
    fn wins(&mut self, free: u32, side: Side) -> bool {
        let key = free | (side as u32) << MOST_FREE_SQUARES;
        if let Some(&known) = self.known.get(&key) {
            return known;
        }
        let wins = self.good_place(free, side).is_some();
        self.known.insert(key, wins);
        wins
    }

    /// The first place after which the other side, to move, has lost.
    fn good_place(&mut self, free: u32, side: Side) -> Option<usize> {
        for number in 0..self.planks[side as usize].len() {
            let Plank { place, squares } = self.planks[side as usize][number];
            if free & squares == squares && !self.wins(free & !squares, side.other()) {
                return Some(place);
            }
        }
        None
    }
}

/// The verdict by the rules alone, unless the board has too many free squares to be played out.
pub fn verdict(setup: &Setup) -> Option<Verdict> {
    let free = setup.board.free_squares();
    if free > MOST_FREE_SQUARES {
        return None;
    }
    let mut search = Search::new(&setup.board);
    Some(match search.good_place((1 << free) - 1, setup.side) {
        Some(place) => Verdict::WinsAt(place),
        None => Verdict::Lost,
    })
}

/// Whether two boards of at most eight by eight stand for each other, by play alone: beside the
/// first, the second turned over its diagonal, which exchanges the players. Who begins must lose.
/// Nothing is said if they have too many free squares together.
pub fn alike(one: &Board, two: &Board) -> Option<bool> {
    let mut both = Board::empty(16, 16);
    both.free.fill(false);
    for square in (0..one.free.len()).filter(|&square| one.free[square]) {
        let (row, column) = (square / one.width, square % one.width);
        both.free[row * 16 + column] = true;
    }
    for square in (0..two.free.len()).filter(|&square| two.free[square]) {
        let (row, column) = (square / two.width, square % two.width);
        both.free[(8 + column) * 16 + 8 + row] = true;
    }
    let mut alike = true;
    for side in SIDES {
        let board = both.clone();
        alike &= verdict(&Setup { board, side })? == Verdict::Lost;
    }
    Some(alike)
}
