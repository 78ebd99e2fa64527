// The rules of the game: reading files with the refusals in their order, laying planks, rooms.

/// Who lays: upright planks cover a square and the one below it, flat ones a square and the next.
#[derive(Clone, Copy, PartialEq, Eq, Debug)]
pub enum Side {
    Upright,
    Flat,
}

pub const SIDES: [Side; 2] = [Side::Upright, Side::Flat];

impl Side {
    pub fn other(self) -> Side {
        match self {
            Side::Upright => Side::Flat,
            Side::Flat => Side::Upright,
        }
    }

    pub fn letter(self) -> char {
        match self {
            Side::Upright => 'u',
            Side::Flat => 'f',
        }
    }

    fn of_letter(letter: u8) -> Option<Side> {
        match letter {
            b'u' => Some(Side::Upright),
            b'f' => Some(Side::Flat),
            _ => None,
        }
    }
}

/// What is said of a board for the side to move.
#[derive(Clone, Copy, PartialEq, Eq, Debug)]
pub enum Verdict {
    WinsAt(usize),
    Lost,
}

/// Why a file is refused: a number of the list, and where.
#[derive(Clone, Copy, PartialEq, Eq, Debug)]
pub struct Refusal {
    pub number: u8,
    pub place: usize,
}

fn refuse<T>(number: u8, place: usize) -> Result<T, Refusal> {
    Err(Refusal { number, place })
}

pub const LONGEST_EDGE: usize = 16;
/// No room of a judged board has more squares.
pub const LARGEST_ROOM: usize = 16;
/// No judged board has more rooms.
pub const MOST_ROOMS: usize = 32;

#[derive(Clone, PartialEq, Eq, Debug)]
pub struct Board {
    pub width: usize,
    pub height: usize,
    /// One for each square, in reading order.
    pub free: Vec<bool>,
}

/// The squares of a room, rising.
pub type Squares = Vec<usize>;

impl Board {
    pub fn empty(width: usize, height: usize) -> Board {
        Board {
            width,
            height,
            free: vec![true; width * height],
        }
    }

    pub fn free_squares(&self) -> usize {
        self.free.iter().filter(|&&free| free).count()
    }

    /// The second square of a plank at `place`, if it stays on the board and, for a flat one, in its row.
    fn second_square(&self, side: Side, place: usize) -> Option<usize> {
        let (row, column) = (place / self.width, place % self.width);
        match side {
            Side::Upright => (row + 1 < self.height).then_some(place + self.width),
            Side::Flat => (row < self.height && column + 1 < self.width).then_some(place + 1),
        }
    }

    /// The two squares that a plank at `place` takes, if it may be laid there.
    pub fn plank(&self, side: Side, place: usize) -> Option<[usize; 2]> {
        let second = self.second_square(side, place)?;
        (self.free[place] && self.free[second]).then_some([place, second])
    }

    /// Lays a plank if it may be laid, and says whether it was.
    pub fn lay(&mut self, side: Side, place: usize) -> bool {
        let Some(taken) = self.plank(side, place) else {
            return false;
        };
        for square in taken {
            self.free[square] = false;
        }
        true
    }

    /// Where a side may lay, in reading order.
    pub fn places(&self, side: Side) -> Vec<usize> {
        (0..self.free.len())
            .filter(|&place| self.plank(side, place).is_some())
            .collect()
    }

    /// The squares that share an edge with this one.
    pub fn neighbours(&self, square: usize) -> Vec<usize> {
        let (row, column) = (square / self.width, square % self.width);
        let mut found = Vec::with_capacity(4);
        if row > 0 {
            found.push(square - self.width);
        }
        if column > 0 {
            found.push(square - 1);
        }
        if column + 1 < self.width {
            found.push(square + 1);
        }
        if row + 1 < self.height {
            found.push(square + self.width);
        }
        found
    }

    /// All rooms in the order of their first squares. A single free square is no room.
    pub fn rooms(&self) -> Vec<Squares> {
        let mut seen = vec![false; self.free.len()];
        let mut rooms = Vec::new();
        for first in 0..self.free.len() {
            if self.free[first] && !seen[first] {
                let room = self.flood(first, &mut seen);
                if room.len() >= 2 {
                    rooms.push(room);
                }
            }
        }
        rooms
    }

    /// The free squares reached from `first` over free neighbours, rising; all of them are marked as seen.
    fn flood(&self, first: usize, seen: &mut [bool]) -> Squares {
        let mut room = vec![first];
        seen[first] = true;
        let mut looked_at = 0;
        while looked_at < room.len() {
            for neighbour in self.neighbours(room[looked_at]) {
                if self.free[neighbour] && !seen[neighbour] {
                    seen[neighbour] = true;
                    room.push(neighbour);
                }
            }
            looked_at += 1;
        }
        room.sort_unstable();
        room
    }

    /// Refusal 5 is a room of more than 16 squares, at its first square; refusal 6, looked at
    /// afterwards, is a 33rd room, at its first square.
    pub fn judged_rooms(&self) -> Result<Vec<Squares>, Refusal> {
        let rooms = self.rooms();
        if let Some(large) = rooms.iter().find(|room| room.len() > LARGEST_ROOM) {
            return refuse(5, large[0]);
        }
        match rooms.get(MOST_ROOMS) {
            Some(one_too_many) => refuse(6, one_too_many[0]),
            None => Ok(rooms),
        }
    }
}

/// A board with the side to move.
#[derive(Clone, PartialEq, Eq, Debug)]
pub struct Setup {
    pub board: Board,
    pub side: Side,
}

/// The bytes before the squares: width, height, side.
const HEAD: usize = 3;

/// The first three bytes. Each byte's own check comes as soon as it is known to be there; a byte
/// that is missing is refusal 3 at the file's length.
pub fn read_head(bytes: &[u8]) -> Result<(usize, usize, Side), Refusal> {
    let mut edges = [0; 2];
    for (place, edge) in edges.iter_mut().enumerate() {
        let Some(&byte) = bytes.get(place) else {
            return refuse(3, bytes.len());
        };
        *edge = byte as usize;
        if *edge == 0 || *edge > LONGEST_EDGE {
            return refuse(1, place);
        }
    }
    let Some(&letter) = bytes.get(2) else {
        return refuse(3, bytes.len());
    };
    match Side::of_letter(letter) {
        Some(side) => Ok((edges[0], edges[1], side)),
        None => refuse(2, 2),
    }
}

/// The squares after the head; the first byte that is none is refusal 4 at its place in the file.
fn read_squares(bytes: &[u8], squares: usize) -> Result<Vec<bool>, Refusal> {
    let mut free = Vec::with_capacity(squares);
    for (place, &byte) in bytes.iter().enumerate().skip(HEAD).take(squares) {
        match byte {
            b'.' => free.push(true),
            b'#' => free.push(false),
            _ => return refuse(4, place),
        }
    }
    Ok(free)
}

/// A board file has exactly one byte for each square after the head.
pub fn read_board(bytes: &[u8]) -> Result<Setup, Refusal> {
    let (width, height, _) = read_head(bytes)?;
    if bytes.len() > HEAD + width * height {
        return refuse(3, bytes.len());
    }
    Ok(read_record(bytes)?.0)
}

/// A record has a byte for the place of each plank after the squares, so it may be longer.
pub fn read_record(bytes: &[u8]) -> Result<(Setup, &[u8]), Refusal> {
    let (width, height, side) = read_head(bytes)?;
    let squares = width * height;
    if bytes.len() < HEAD + squares {
        return refuse(3, bytes.len());
    }
    let free = read_squares(bytes, squares)?;
    let board = Board {
        width,
        height,
        free,
    };
    Ok((Setup { board, side }, &bytes[HEAD + squares..]))
}

/// Lays the planks in turn; the first that may not be laid is refusal 9 at its number.
pub fn lay_all(setup: Setup, planks: &[u8]) -> Result<Setup, Refusal> {
    let Setup {
        mut board,
        mut side,
    } = setup;
    for (number, &place) in planks.iter().enumerate() {
        if !board.lay(side, place as usize) {
            return refuse(9, number);
        }
        side = side.other();
    }
    Ok(Setup { board, side })
}

/// The file of a board.
pub fn board_file(setup: &Setup) -> Vec<u8> {
    let Setup { board, side } = setup;
    let mut bytes = vec![board.width as u8, board.height as u8, side.letter() as u8];
    bytes.extend(
        board
            .free
            .iter()
            .map(|&free| if free { b'.' } else { b'#' }),
    );
    bytes
}

#[cfg(test)]
mod tests {
    use super::*;
    use Side::{Flat, Upright};

    fn refused(bytes: &[u8]) -> Option<(u8, usize)> {
        read_board(bytes).err().map(|r| (r.number, r.place))
    }

    fn record_refused(bytes: &[u8]) -> Option<(u8, usize)> {
        let laid = read_record(bytes).and_then(|(setup, planks)| lay_all(setup, planks));
        laid.err().map(|r| (r.number, r.place))
    }

    #[test]
    fn short_files() {
        assert_eq!(refused(b""), Some((3, 0)));
        assert_eq!(refused(b"\x05"), Some((3, 1)));
        assert_eq!(refused(b"\x05\x02"), Some((3, 2)));
        assert_eq!(refused(b"\x05\x02u"), Some((3, 3)));
        assert_eq!(refused(b"\x00"), Some((1, 0)));
        assert_eq!(refused(b"\x05\x11"), Some((1, 1)));
        assert_eq!(refused(b"\x05\x02x"), Some((2, 2)));
    }

    #[test]
    fn the_first_check_that_fails_is_told() {
        assert_eq!(refused(b"\x11\x00x"), Some((1, 0)));
        assert_eq!(refused(b"\x10\x00x"), Some((1, 1)));
        assert_eq!(refused(b"\x01\x01x?!"), Some((2, 2)));
        assert_eq!(refused(b"\x02\x01u?"), Some((3, 4)));
        assert_eq!(refused(b"\x02\x01u.?#"), Some((3, 6)));
        assert_eq!(refused(b"\x02\x01u.?"), Some((4, 4)));
        assert_eq!(refused(b"\x02\x01u.."), None);
    }

    #[test]
    fn records_may_be_longer_than_boards() {
        assert_eq!(record_refused(b"\x02\x02u..."), Some((3, 6)));
        assert_eq!(record_refused(b"\x02\x02u..?.\x09"), Some((4, 5)));
        assert_eq!(record_refused(b"\x02\x02u....\x00"), None);
        assert_eq!(record_refused(b"\x02\x02u....\x01\x00"), Some((9, 1)));
        assert_eq!(record_refused(b"\x02\x02u....\x02"), Some((9, 0)));
        assert_eq!(record_refused(b"\x02\x02f....\xff"), Some((9, 0)));
    }

    #[test]
    fn flat_planks_stay_in_their_row() {
        let mut board = Board::empty(2, 2);
        assert!(!board.lay(Flat, 1) && !board.lay(Flat, 3) && !board.lay(Upright, 2));
        assert!(board.lay(Flat, 2) && board.free == [true, true, false, false]);
        assert_eq!(board.places(Flat), [0]);
        assert_eq!(board.places(Upright), []);
    }

    #[test]
    fn a_large_room_comes_before_a_33rd() {
        let rows = b"..#..#..#..#..#.################".repeat(8);
        let mut board = Board {
            free: rows.iter().map(|&byte| byte == b'.').collect(),
            ..Board::empty(16, 16)
        };
        let refusal = |board: &Board| board.judged_rooms().map_err(|r| (r.number, r.place));
        assert_eq!(board.rooms().len(), 40);
        assert_eq!(refusal(&board), Err((6, 12 * 16 + 6)));
        board.free[14 * 16 + 1..15 * 16].fill(false);
        board.free[15 * 16..].fill(true);
        assert_eq!(refusal(&board), Err((5, 14 * 16)));
        board.free[14 * 16] = false;
        board.free[12 * 16 + 6..14 * 16].fill(false);
        assert_eq!(refusal(&board), Err((6, 15 * 16)));
        board.free[12 * 16 + 3..14 * 16].fill(false);
        assert_eq!(refusal(&board).map(|rooms| rooms.len()), Ok(32));
    }

    #[test]
    fn files_are_read_as_written() {
        let (mut board, side) = (Board::empty(3, 2), Flat);
        board.lay(Upright, 1);
        let setup = Setup { board, side };
        assert_eq!(board_file(&setup), b"\x03\x02f.#..#.");
        assert_eq!(read_board(&board_file(&setup)), Ok(setup));
    }
}
