// Tests: boards whose verdicts, counts and numbers of forms are known.

use crate::engine::{Engine, LARGEST_COUNT};
use crate::rules::{Board, Setup, Side, Verdict};
use crate::search;
use Verdict::{Lost, WinsAt};

fn board(rows: &str) -> Board {
    let rows: Vec<&str> = rows.split('/').map(str::trim).collect();
    Board {
        width: rows[0].len(),
        height: rows.len(),
        free: rows.concat().bytes().map(|byte| byte == b'.').collect(),
    }
}

fn setup(rows: &str, side: Side) -> Setup {
    let board = board(rows);
    Setup { board, side }
}

const VERDICTS: [(&str, Verdict, Verdict); 13] = [
    (".", Lost, Lost),
    (". / .", WinsAt(0), Lost),
    ("..", Lost, WinsAt(0)),
    (".. / ..", WinsAt(0), WinsAt(0)),
    (".. / .#", WinsAt(0), WinsAt(0)),
    ("... / ### / ..#", Lost, WinsAt(0)),
    ("..#.. / ..#..", Lost, Lost),
    ("..#.. / ..#.#", WinsAt(0), WinsAt(0)),
    ("... / ... / ...", WinsAt(1), WinsAt(3)),
    (".... / ....", Lost, WinsAt(1)),
    ("..#... / ..#... / ####..", WinsAt(4), WinsAt(3)),
    ("..... / ..... / .....", Lost, WinsAt(0)),
    (".#.#. / .#.#. / ##### / ..#..", WinsAt(0), Lost),
];

fn by_engine(setup: &Setup) -> Verdict {
    let rooms = setup.board.judged_rooms().unwrap();
    Engine::new(setup, &rooms)
        .judge(LARGEST_COUNT)
        .unwrap()
        .verdict
}

#[test]
fn verdicts() {
    for (rows, upright, flat) in VERDICTS {
        for (side, verdict) in [(Side::Upright, upright), (Side::Flat, flat)] {
            let setup = setup(rows, side);
            assert_eq!(by_engine(&setup), verdict, "{rows} by forms");
            assert_eq!(search::verdict(&setup), Some(verdict), "{rows} by play");
        }
    }
}

#[test]
fn counts() {
    let known = [
        ("..#../..#..", 8),
        ("..#../..#.#", 8),
        (".#.#./.#.#./#####/..#..", 5),
        ("..#.../..#.../###...", 30),
        ("../#./../##/..", 3),
        (".", 1),
    ];
    for (rows, count) in known {
        let setup = setup(rows, Side::Upright);
        let rooms = setup.board.judged_rooms().unwrap();
        let mut engine = Engine::new(&setup, &rooms);
        assert_eq!(engine.own_worth(count).unwrap().count, count, "{rows}");
        assert!(
            rooms.is_empty() || engine.own_worth(count - 1).is_none(),
            "{rows}"
        );
    }
}

#[test]
fn forms_and_positions_of_full_rooms() {
    let known = [
        (2, 2, 4, 6),
        (2, 3, 7, 18),
        (2, 4, 12, 54),
        (5, 3, 81, 3054),
        (4, 4, 160, 5700),
        (16, 1, 9, 1597),
    ];
    for (width, height, forms, positions) in known {
        for (width, height) in [(width, height), (height, width)] {
            let setup = Setup {
                board: Board::empty(width, height),
                side: Side::Upright,
            };
            let rooms = setup.board.judged_rooms().unwrap();
            let sizes = Engine::new(&setup, &rooms).sizes(0);
            assert_eq!(sizes, (forms, positions), "{width} by {height}");
        }
    }
}
