// What the two programs should print for a file, by the second opinion.

use crate::engine::{Engine, LARGEST_COUNT};
use crate::forms::Form;
use crate::rules::{self, Refusal, Setup, Squares, Verdict};
use crate::search;
use std::fmt::Write;

/// The judging program serves boards of at most so many squares,
const PROGRAM_SQUARES: usize = 64;
/// whose rooms have at most so many,
const PROGRAM_ROOM: usize = 8;
/// and whose own count is at most this. Boards after one plank have the general limit.
const PROGRAM_COUNT: usize = 512;

/// What should be printed; or what is wrong with the second opinion itself.
pub type Opinion = Result<String, String>;

const TOO_HIGH: Refusal = Refusal {
    number: 7,
    place: 0,
};

/// What `judge` should print.
pub fn judge(bytes: &[u8]) -> Opinion {
    match read_and_judge(bytes) {
        Ok(opinion) => opinion,
        Err(refusal) => Ok(refusal_line(refusal)),
    }
}

fn read_and_judge(bytes: &[u8]) -> Result<Opinion, Refusal> {
    let setup = rules::read_board(bytes)?;
    let rooms = setup.board.judged_rooms()?;
    let large = |room: &Squares| room.len() > PROGRAM_ROOM;
    if setup.board.free.len() > PROGRAM_SQUARES || rooms.iter().any(large) {
        return Err(TOO_HIGH);
    }
    let judgement = Engine::new(&setup, &rooms).judge(PROGRAM_COUNT);
    let judgement = judgement.ok_or(TOO_HIGH)?;
    Ok(searched(&setup, judgement.verdict).map(|verdict| {
        let mut text = room_lines(&rooms, &judgement.rooms);
        text += &verdict_line(&setup, verdict);
        text
    }))
}

/// What `follow` should print.
pub fn follow(bytes: &[u8]) -> Opinion {
    match read_and_follow(bytes) {
        Ok(opinion) => opinion,
        Err(refusal) => Ok(refusal_line(refusal)),
    }
}

fn read_and_follow(bytes: &[u8]) -> Result<Opinion, Refusal> {
    let setup = standing(bytes)?;
    if let Some(line) = last_move_line(&setup) {
        return Ok(Ok(line));
    }
    let verdict = engine_verdict(&setup)?;
    Ok(searched(&setup, verdict).map(|verdict| verdict_line(&setup, verdict)))
}

/// What `follow` should print, by the plain engine alone.
pub fn plain(bytes: &[u8]) -> String {
    let line = |bytes| {
        let setup = standing(bytes)?;
        match last_move_line(&setup) {
            Some(line) => Ok(line),
            None => Ok(verdict_line(&setup, engine_verdict(&setup)?)),
        }
    };
    line(bytes).unwrap_or_else(refusal_line)
}

/// The board after a record's last plank.
pub fn standing(bytes: &[u8]) -> Result<Setup, Refusal> {
    let (setup, planks) = rules::read_record(bytes)?;
    rules::lay_all(setup, planks)
}

pub fn engine_verdict(setup: &Setup) -> Result<Verdict, Refusal> {
    let rooms = setup.board.judged_rooms()?;
    let judgement = Engine::new(setup, &rooms).judge(LARGEST_COUNT);
    Ok(judgement.ok_or(TOO_HIGH)?.verdict)
}

/// The engine's verdict, unless the board is small enough to be played out and play says otherwise.
fn searched(setup: &Setup, by_engine: Verdict) -> Result<Verdict, String> {
    match search::verdict(setup) {
        Some(by_search) if by_search != by_engine => {
            Err(format!("by play {by_search:?}, by forms {by_engine:?}"))
        }
        _ => Ok(by_engine),
    }
}

fn refusal_line(Refusal { number, place }: Refusal) -> String {
    format!("refused {number} at {place}\n")
}

/// If the side to move may lay nowhere, the other one made the last move.
fn last_move_line(setup: &Setup) -> Option<String> {
    let nowhere = setup.board.places(setup.side).is_empty();
    nowhere.then(|| format!("{} made the last move\n", setup.side.other().letter()))
}

fn verdict_line(setup: &Setup, verdict: Verdict) -> String {
    let letter = setup.side.letter();
    match verdict {
        Verdict::WinsAt(place) => format!("{letter} wins at {place}\n"),
        Verdict::Lost => format!("{letter} lost\n"),
    }
}

/// The rooms with their first squares, and for each the first earlier one with the same form.
fn room_lines(rooms: &[Squares], forms: &[Form]) -> String {
    let mut text = format!("rooms {}\n", rooms.len());
    for (number, squares) in rooms.iter().enumerate() {
        write!(text, "room {number} at {}", squares[0]).unwrap();
        match forms[..number]
            .iter()
            .position(|&form| form == forms[number])
        {
            Some(earlier) => writeln!(text, " like {earlier}").unwrap(),
            None => writeln!(text).unwrap(),
        }
    }
    text
}

#[cfg(test)]
mod tests {
    use super::*;

    #[test]
    fn lines_of_the_judge() {
        let h = "rooms 2\nroom 0 at 0\nroom 1 at 3\nu wins at 0\n";
        assert_eq!(judge(b"\x05\x02u..#....#.#"), Ok(h.into()));
        let g = "rooms 2\nroom 0 at 0\nroom 1 at 3 like 0\nf lost\n";
        assert_eq!(judge(b"\x05\x02f..#....#.."), Ok(g.into()));
        assert_eq!(judge(b"\x01\x01u."), Ok("rooms 0\nu lost\n".into()));
        assert_eq!(judge(b"\x02\x01u.?"), Ok("refused 4 at 4\n".into()));
    }

    #[test]
    fn limits_of_the_judge_alone() {
        let nine = b"\x03\x03u.........";
        assert_eq!(judge(nine), Ok("refused 7 at 0\n".into()));
        assert_eq!(follow(nine), Ok("u wins at 1\n".into()));
        let mut wide = b"\x0d\x05f".to_vec();
        wide.extend([b'#'; 63]);
        wide.extend(b"..");
        assert_eq!(judge(&wide), Ok("refused 7 at 0\n".into()));
        assert_eq!(follow(&wide), Ok("f wins at 63\n".into()));
        let seventeen = b"\x11\x01u.................";
        assert_eq!(judge(seventeen), Ok("refused 1 at 0\n".into()));
        let room_of_seventeen = b"\x09\x02f#.................";
        assert_eq!(judge(room_of_seventeen), Ok("refused 5 at 1\n".into()));
    }

    #[test]
    fn lines_of_records() {
        assert_eq!(
            follow(b"\x02\x02u....\x00"),
            Ok("u made the last move\n".into())
        );
        assert_eq!(
            follow(b"\x02\x02u....\x00\x00"),
            Ok("refused 9 at 1\n".into())
        );
        assert_eq!(follow(b"\x02\x01u.."), Ok("f made the last move\n".into()));
        assert_eq!(follow(b"\x02\x02u...."), Ok("u wins at 0\n".into()));
        let over_with_a_large_room = b"\x11\x01f.................";
        assert_eq!(
            follow(over_with_a_large_room),
            Ok("refused 1 at 0\n".into())
        );
        assert_eq!(
            follow(b"\x01\x10f................"),
            Ok("u made the last move\n".into())
        );
    }
}
