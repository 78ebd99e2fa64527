// Canonical forms in a table: the order, making a game canonical, sums.

use crate::hash::Map;
use crate::rules::{Side, SIDES};
use std::rc::Rc;

/// The number of a canonical form in the table.
pub type Form = u32;

/// The game in which nobody may move.
pub const EMPTY: Form = 0;

/// A game by the forms of its options: upright ones, flat ones. In the table both rows rise.
#[derive(Clone, Default, PartialEq, Eq, Hash)]
pub struct Options {
    pub of: [Vec<Form>; 2],
}

impl Options {
    fn tidy(&mut self) {
        for row in &mut self.of {
            row.sort_unstable();
            row.dedup();
        }
    }
}

/// What is remembered of pairs is forgotten at this size, so that memory stays bounded.
const MOST_REMEMBERED: usize = 1 << 22;

pub struct Forms {
    rows: Vec<Rc<Options>>,
    numbers: Map<Rc<Options>, Form>,
    /// For a pair, whether the first is at most the second.
    order: Map<u64, bool>,
    sums: Map<u64, Form>,
}

fn pair(x: Form, y: Form) -> u64 {
    (x as u64) << 32 | y as u64
}

fn remember<V>(memory: &mut Map<u64, V>, key: u64, value: V) {
    if memory.len() >= MOST_REMEMBERED {
        memory.clear();
    }
    memory.insert(key, value);
}

impl Forms {
    /// A table with the empty game.
    pub fn new() -> Forms {
        let mut forms = Forms {
            rows: Vec::new(),
            numbers: Map::default(),
            order: Map::default(),
            sums: Map::default(),
        };
        let empty = forms.number(Options::default());
        debug_assert_eq!(empty, EMPTY);
        forms
    }

    pub fn len(&self) -> usize {
        self.rows.len()
    }

    pub fn options(&self, x: Form, side: Side) -> &[Form] {
        &self.rows[x as usize].of[side as usize]
    }

    /// The form with these options, which are those of a canonical form.
    fn number(&mut self, options: Options) -> Form {
        if let Some(&known) = self.numbers.get(&options) {
            return known;
        }
        let new = self.rows.len() as Form;
        let row = Rc::new(options);
        self.rows.push(Rc::clone(&row));
        self.numbers.insert(row, new);
        new
    }

    /// x is at most y if no upright option of x has y at most it, and no flat option of y is at most x.
    pub fn at_most(&mut self, x: Form, y: Form) -> bool {
        if x == y {
            return true;
        }
        let key = pair(x, y);
        if let Some(&known) = self.order.get(&key) {
            return known;
        }
        let (row_x, row_y) = (self.row(x), self.row(y));
        let refuted = row_x.of[0].iter().any(|&option| self.at_most(y, option))
            || row_y.of[1].iter().any(|&option| self.at_most(option, x));
        remember(&mut self.order, key, !refuted);
        !refuted
    }

    fn row(&self, x: Form) -> Rc<Options> {
        Rc::clone(&self.rows[x as usize])
    }

    /// Whether a form is at most a game that is not in the table.
    fn at_most_game(&mut self, x: Form, game: &Options) -> bool {
        let row = self.row(x);
        !(game.of[1].iter().any(|&option| self.at_most(option, x))
            || row.of[0]
                .iter()
                .any(|&option| self.game_at_most(game, option)))
    }

    /// Whether a game that is not in the table is at most a form.
    fn game_at_most(&mut self, game: &Options, y: Form) -> bool {
        let row = self.row(y);
        !(game.of[0].iter().any(|&option| self.at_most(y, option))
            || row.of[1]
                .iter()
                .any(|&option| self.at_most_game(option, game)))
    }

    /// Whether x is no better than y for a side. More is better for the upright player.
    fn no_better(&mut self, side: Side, x: Form, y: Form) -> bool {
        match side {
            Side::Upright => self.at_most(x, y),
            Side::Flat => self.at_most(y, x),
        }
    }

    /// Whether a form is no better than a game for a side.
    fn no_better_than_game(&mut self, side: Side, x: Form, game: &Options) -> bool {
        match side {
            Side::Upright => self.at_most_game(x, game),
            Side::Flat => self.game_at_most(game, x),
        }
    }

    /// Strikes the options that are no better than another one. Options are distinct canonical
    /// forms, so of two different ones at most one is struck for the other.
    fn strike(&mut self, side: Side, row: &mut Vec<Form>) {
        let all = row.clone();
        row.retain(|&x| !all.iter().any(|&y| x != y && self.no_better(side, x, y)));
    }

    /// Puts the side's options of y in the place of an option x, if the other player can answer x
    /// by y and y is no better for the side than the whole game.
    fn bypass(&mut self, side: Side, game: &Options) -> Vec<Form> {
        let mut pending = game.of[side as usize].clone();
        let mut kept = Vec::new();
        while let Some(x) = pending.pop() {
            let answers = self.row(x);
            let mut answers = answers.of[side.other() as usize].iter();
            match answers.find(|&&y| self.no_better_than_game(side, y, game)) {
                Some(&y) => pending.extend_from_slice(self.options(y, side)),
                None => kept.push(x),
            }
        }
        kept
    }

    /// The canonical form of a game with these options.
    pub fn canonical(&mut self, mut game: Options) -> Form {
        game.tidy();
        for side in SIDES {
            self.strike(side, &mut game.of[side as usize]);
        }
        let mut made = Options {
            of: SIDES.map(|side| self.bypass(side, &game)),
        };
        made.tidy();
        for side in SIDES {
            self.strike(side, &mut made.of[side as usize]);
        }
        self.number(made)
    }

    /// The canonical form of two games beside each other, where a move is a move in one of them.
    pub fn sum(&mut self, x: Form, y: Form) -> Form {
        if x == EMPTY || y == EMPTY {
            return x.max(y);
        }
        let key = pair(x.min(y), x.max(y));
        if let Some(&known) = self.sums.get(&key) {
            return known;
        }
        let (row_x, row_y) = (self.row(x), self.row(y));
        let moves = |side: Side| {
            let in_x = row_x.of[side as usize].iter().map(|&option| (option, y));
            let in_y = row_y.of[side as usize].iter().map(|&option| (x, option));
            in_x.chain(in_y)
        };
        let of = SIDES.map(|side| moves(side).map(|(a, b)| self.sum(a, b)).collect());
        let sum = self.canonical(Options { of });
        remember(&mut self.sums, key, sum);
        sum
    }

    /// Whether a side that is to move loses: the upright player where the form is at most the
    /// empty game, the flat player where it is at least that.
    pub fn loses(&mut self, side: Side, x: Form) -> bool {
        self.no_better(side, x, EMPTY)
    }
}

#[cfg(test)]
mod tests {
    use super::*;

    #[test]
    fn small_games() {
        let mut forms = Forms::new();
        let mut game = |upright: &[Form], flat: &[Form]| {
            forms.canonical(Options {
                of: [upright.to_vec(), flat.to_vec()],
            })
        };
        let one = game(&[EMPTY], &[]);
        let minus_one = game(&[], &[EMPTY]);
        let star = game(&[EMPTY], &[EMPTY]);
        assert_eq!(game(&[minus_one], &[one]), EMPTY);
        assert_eq!(
            game(&[EMPTY, star], &[EMPTY, star]),
            game(&[star, EMPTY], &[EMPTY, star])
        );
        let switch = game(&[one], &[minus_one]);
        assert_eq!(forms.sum(one, minus_one), EMPTY);
        assert_eq!(forms.sum(star, star), EMPTY);
        assert_eq!(forms.sum(switch, switch), EMPTY);
        assert!(forms.loses(Side::Flat, one) && !forms.loses(Side::Upright, one));
        assert!(!forms.loses(Side::Flat, star) && !forms.loses(Side::Upright, star));
        assert!(forms.loses(Side::Flat, EMPTY) && forms.loses(Side::Upright, EMPTY));
        assert!(forms.at_most(minus_one, star) && forms.at_most(star, one));
        assert!(!forms.at_most(star, EMPTY) && !forms.at_most(EMPTY, star));
    }

    #[test]
    fn answers_that_can_be_bypassed() {
        let mut forms = Forms::new();
        let star = forms.canonical(Options {
            of: [vec![EMPTY], vec![EMPTY]],
        });
        let up = forms.canonical(Options {
            of: [vec![EMPTY], vec![star]],
        });
        let twice = forms.sum(up, up);
        assert_eq!(forms.options(twice, Side::Upright), [EMPTY]);
        let up_star = forms.sum(up, star);
        assert_eq!(forms.options(twice, Side::Flat), [up_star]);
        assert_eq!(forms.options(up_star, Side::Upright), [EMPTY, star]);
        assert_eq!(forms.options(up_star, Side::Flat), [EMPTY]);
    }
}
