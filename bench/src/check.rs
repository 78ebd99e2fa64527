// Compares the two halves of the second opinion on small boards: play and forms.

use crate::generate;
use crate::hard::judgement;
use crate::random::Random;
use crate::rules::{board_file, Board, Setup, Side, Squares, SIDES};
use crate::search;
use crate::show;

#[derive(Default)]
struct Tally {
    verdicts: usize,
    pairs_of_rooms: usize,
    alike: usize,
    wrong: usize,
}

/// Compares both on so many boards; needs no program.
pub fn check(seed: u64, boards: u64) -> bool {
    println!("seed {seed}, {boards} boards, both sides");
    let mut tally = Tally::default();
    for number in 0..boards {
        let random = &mut Random::new(seed, number);
        let board = match random.below(3) {
            0 => generate::late_board(random, 6, 8),
            1 => generate::separate_rooms(random, 6, 12),
            _ => generate::small(random),
        };
        for side in SIDES {
            let board = board.clone();
            check_verdict(&mut tally, &Setup { board, side });
        }
        check_rooms(&mut tally, board);
    }
    let Tally {
        verdicts,
        pairs_of_rooms,
        alike,
        wrong,
    } = tally;
    println!("{verdicts} verdicts, {pairs_of_rooms} pairs of rooms, {alike} of them alike");
    println!("{wrong} differences");
    wrong == 0
}

fn tell(tally: &mut Tally, setup: &Setup, difference: String) {
    tally.wrong += 1;
    print!("{}", show::picture(&board_file(setup)));
    println!("{difference}");
}

/// The verdict by play and the one by forms, where there are both.
fn check_verdict(tally: &mut Tally, setup: &Setup) {
    let (Some(by_play), Some(judged)) = (search::verdict(setup), judgement(setup)) else {
        return;
    };
    tally.verdicts += 1;
    let by_forms = judged.verdict;
    if by_play != by_forms {
        tell(
            tally,
            setup,
            format!("by play {by_play:?}, by forms {by_forms:?}"),
        );
    }
}

/// Whether the first two rooms are alike, by play and by forms, where both can say.
fn check_rooms(tally: &mut Tally, board: Board) {
    let side = Side::Upright;
    let setup = &Setup { board, side };
    let (Some(judged), [one, two, ..]) = (judgement(setup), &setup.board.rooms()[..]) else {
        return;
    };
    let (one, two) = (alone(&setup.board, one), alone(&setup.board, two));
    let Some(by_play) = search::alike(&one, &two) else {
        return;
    };
    tally.pairs_of_rooms += 1;
    tally.alike += usize::from(by_play);
    let by_forms = judged.rooms[0] == judged.rooms[1];
    if by_play != by_forms {
        let text = format!("the first two rooms alike: by play {by_play}, by forms {by_forms}");
        tell(tally, setup, text);
    }
}

/// The board with all squares taken but those of one room.
fn alone(board: &Board, room: &Squares) -> Board {
    let mut alone = board.clone();
    alone.free.fill(false);
    for &square in room {
        alone.free[square] = true;
    }
    alone
}

#[cfg(test)]
mod tests {
    use super::*;

    #[test]
    fn play_and_forms_agree() {
        assert!(check(11, 1500));
    }

    /// All boards reached by planks of either player.
    fn reached(board: &Board) -> Vec<Board> {
        let mut found = vec![board.clone()];
        let mut looked_at = 0;
        while looked_at < found.len() {
            for side in SIDES {
                for place in found[looked_at].places(side) {
                    let mut after = found[looked_at].clone();
                    after.lay(side, place);
                    if !found.contains(&after) {
                        found.push(after);
                    }
                }
            }
            looked_at += 1;
        }
        found
    }

    /// The count of a board with one room is the number of its positions that differ by play.
    #[test]
    fn counts_of_single_rooms_by_play() {
        for number in 0..150 {
            let random = &mut Random::new(5, number);
            let mut board = Board::empty(4, 4);
            board.free.fill(false);
            let squares = random.within(2, 9);
            generate::draw_room(random, &mut board, squares);
            let mut different: Vec<Board> = Vec::new();
            for position in reached(&board) {
                let known = |other: &Board| search::alike(other, &position).unwrap();
                if !different.iter().any(known) {
                    different.push(position);
                }
            }
            let side = Side::Upright;
            let count = judgement(&Setup { board, side }).unwrap().count;
            assert_eq!(count, different.len(), "board {number}");
        }
    }
}
