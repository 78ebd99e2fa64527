// The plain engine: forms of the positions of rooms, the row of rooms with its count, verdicts.

use crate::forms::{Form, Forms, Options, EMPTY};
use crate::hash::{Map, Set};
use crate::rules::{Setup, Side, Squares, Verdict, SIDES};
use std::rc::Rc;

/// No judged board, and no board after one plank, has more forms.
pub const LARGEST_COUNT: usize = 16_384;

/// No form that counts has more options for a player.
const MOST_OPTIONS: usize = 16;

/// Squares of a room, bit i for its i-th square.
type Bits = u16;

/// A room of the judged board, with what is known of its positions.
struct Room {
    squares: Squares,
    /// What each plank takes, for each side.
    planks: [Vec<Bits>; 2],
    /// The form of each position met.
    forms: Map<Bits, Form>,
    /// All forms of the positions reached from a position.
    reached: Map<Bits, Rc<[Form]>>,
}

/// Squares of a room that are a room of the board now.
#[derive(Clone, Copy)]
struct Part {
    first_square: usize,
    room: usize,
    bits: Bits,
}

/// What is found of a row of rooms.
pub struct Worth {
    pub sum: Form,
    pub count: usize,
    /// How many pairs of forms were added up.
    pub pairs: usize,
}

/// What is found of a board that is not refused.
pub struct Judgement {
    pub verdict: Verdict,
    /// The form of each room.
    pub rooms: Vec<Form>,
    pub count: usize,
    /// How many pairs of forms were added up, for the board and each board after one plank.
    pub pairs: usize,
    pub highest_count_after: usize,
}

pub struct Engine<'a> {
    setup: &'a Setup,
    forms: Forms,
    rooms: Vec<Room>,
    /// For each square its room and its bit there.
    room_of: Vec<Option<(usize, Bits)>>,
    /// The forms reached from a form over options, itself included.
    followers: Map<Form, Rc<[Form]>>,
    /// The last row in which a form counted.
    counted_in: Vec<u32>,
    rows: u32,
}

impl<'a> Engine<'a> {
    /// An engine for one board, whose rooms are within the limits.
    pub fn new(setup: &'a Setup, rooms: &[Squares]) -> Engine<'a> {
        let mut room_of = vec![None; setup.board.free.len()];
        for (number, squares) in rooms.iter().enumerate() {
            for (bit, &square) in squares.iter().enumerate() {
                room_of[square] = Some((number, 1 << bit));
            }
        }
        let mut engine = Engine {
            setup,
            forms: Forms::new(),
            rooms: Vec::new(),
            room_of,
            followers: Map::default(),
            counted_in: Vec::new(),
            rows: 0,
        };
        engine.rooms = rooms.iter().map(|squares| engine.room(squares)).collect();
        engine
    }

    fn room(&self, squares: &Squares) -> Room {
        let planks_of = |side| {
            let taken = |&place: &usize| self.plank(side, place).map(|(_, bits)| bits);
            squares.iter().filter_map(taken).collect()
        };
        Room {
            squares: squares.clone(),
            planks: SIDES.map(planks_of),
            forms: Map::default(),
            reached: Map::default(),
        }
    }

    /// The room of a plank at this place, and what it takes there, if it may be laid.
    fn plank(&self, side: Side, place: usize) -> Option<(usize, Bits)> {
        let [first, second] = self.setup.board.plank(side, place)?;
        let (room, one) = self.room_of[first]?;
        let (_, two) = self.room_of[second]?;
        Some((room, one | two))
    }

    /// The form of a position of a room.
    fn position(&mut self, room: usize, bits: Bits) -> Form {
        if let Some(&known) = self.rooms[room].forms.get(&bits) {
            return known;
        }
        let of = SIDES.map(|side| {
            let after = self.positions_after(room, bits, side);
            after
                .iter()
                .map(|&bits| self.position(room, bits))
                .collect()
        });
        let form = self.forms.canonical(Options { of });
        self.rooms[room].forms.insert(bits, form);
        form
    }

    fn positions_after(&self, room: usize, bits: Bits, side: Side) -> Vec<Bits> {
        let planks = self.rooms[room].planks[side as usize].iter();
        let lawful = planks.filter(|&&plank| bits & plank == plank);
        lawful.map(|&plank| bits & !plank).collect()
    }

    /// The forms of all positions reached from this one by planks of either player, each once.
    fn forms_reached(&mut self, room: usize, bits: Bits) -> Rc<[Form]> {
        if let Some(known) = self.rooms[room].reached.get(&bits) {
            return Rc::clone(known);
        }
        let mut seen = vec![false; 1 << self.rooms[room].squares.len()];
        seen[bits as usize] = true;
        let mut pending = vec![bits];
        let mut found = Set::default();
        while let Some(position) = pending.pop() {
            found.insert(self.position(room, position));
            for side in SIDES {
                for after in self.positions_after(room, position, side) {
                    if !std::mem::replace(&mut seen[after as usize], true) {
                        pending.push(after);
                    }
                }
            }
        }
        let forms: Rc<[Form]> = found.into_iter().collect();
        self.rooms[room].reached.insert(bits, Rc::clone(&forms));
        forms
    }

    /// The form itself and all that is reached from it over options.
    fn followers(&mut self, form: Form) -> Rc<[Form]> {
        if let Some(known) = self.followers.get(&form) {
            return Rc::clone(known);
        }
        let mut seen: Set<Form> = Set::default();
        seen.insert(form);
        let mut found = vec![form];
        let mut looked_at = 0;
        while looked_at < found.len() {
            for side in SIDES {
                for &option in self.forms.options(found[looked_at], side) {
                    if seen.insert(option) {
                        found.push(option);
                    }
                }
            }
            looked_at += 1;
        }
        let found: Rc<[Form]> = found.into();
        self.followers.insert(form, Rc::clone(&found));
        found
    }

    /// Whether a form counts for the first time in this row.
    fn counts_anew(&mut self, form: Form) -> bool {
        if self.counted_in.len() <= form as usize {
            self.counted_in.resize(self.forms.len(), 0);
        }
        std::mem::replace(&mut self.counted_in[form as usize], self.rows) != self.rows
    }

    fn has_too_many_options(&self, form: Form) -> bool {
        let too_many = |&side: &Side| self.forms.options(form, side).len() > MOST_OPTIONS;
        SIDES.iter().any(too_many)
    }

    /// Adds up a row of rooms. What counts, beside the empty game: for each room, every sum of a
    /// form that the sum of the rooms before it reaches and a form of a position of the room.
    /// Nothing is said if more than `limit` forms count, or one of them has too many options.
    fn worth(&mut self, row: &[Part], limit: usize) -> Option<Worth> {
        self.rows += 1;
        self.counts_anew(EMPTY);
        let (mut sum, mut count, mut pairs) = (EMPTY, 1, 0);
        for part in row {
            let before = self.followers(sum);
            let here = self.forms_reached(part.room, part.bits);
            pairs += before.len() * here.len();
            for &x in before.iter() {
                for &y in here.iter() {
                    let form = self.forms.sum(x, y);
                    if self.counts_anew(form) {
                        count += 1;
                        if count > limit || self.has_too_many_options(form) {
                            return None;
                        }
                    }
                }
            }
            let form = self.position(part.room, part.bits);
            sum = self.forms.sum(sum, form);
        }
        Some(Worth { sum, count, pairs })
    }

    /// The rooms as they are.
    fn whole_row(&self) -> Vec<Part> {
        let whole = |(number, room): (usize, &Room)| Part {
            first_square: room.squares[0],
            room: number,
            bits: ((1u32 << room.squares.len()) - 1) as Bits,
        };
        self.rooms.iter().enumerate().map(whole).collect()
    }

    /// The rooms after a plank in one of them; the others stay as they are.
    fn row_after(&self, row: &[Part], room: usize, plank: Bits) -> Vec<Part> {
        let mut after = row.to_vec();
        let touched = after.remove(room);
        after.extend(self.parts(room, touched.bits & !plank));
        after.sort_unstable_by_key(|part| part.first_square);
        after
    }

    /// The rooms that these squares of a room fall into.
    fn parts(&self, room: usize, bits: Bits) -> Vec<Part> {
        let Room {
            squares, planks, ..
        } = &self.rooms[room];
        let mut left = bits;
        let mut parts = Vec::new();
        while left != 0 {
            let first = left.trailing_zeros() as usize;
            let part = grown(1 << first, left, planks);
            left &= !part;
            if part.count_ones() >= 2 {
                parts.push(Part {
                    first_square: squares[first],
                    room,
                    bits: part,
                });
            }
        }
        parts
    }

    /// The board's own count and sum.
    pub fn own_worth(&mut self, limit: usize) -> Option<Worth> {
        self.worth(&self.whole_row(), limit)
    }

    /// The verdict, unless the board's own count is above `own_limit`, or that of a board after one
    /// plank of either player is above 16,384, or a form that counts has too many options.
    pub fn judge(&mut self, own_limit: usize) -> Option<Judgement> {
        let row = self.whole_row();
        let own = self.worth(&row, own_limit)?;
        let mut judgement = Judgement {
            verdict: Verdict::Lost,
            rooms: Vec::new(),
            count: own.count,
            pairs: own.pairs,
            highest_count_after: 0,
        };
        for side in SIDES {
            for place in 0..self.room_of.len() {
                let Some((room, plank)) = self.plank(side, place) else {
                    continue;
                };
                let after = self.worth(&self.row_after(&row, room, plank), LARGEST_COUNT)?;
                judgement.pairs += after.pairs;
                judgement.highest_count_after = judgement.highest_count_after.max(after.count);
                if side == self.setup.side
                    && judgement.verdict == Verdict::Lost
                    && self.forms.loses(side.other(), after.sum)
                {
                    judgement.verdict = Verdict::WinsAt(place);
                }
            }
        }
        let form_of = |part: &Part| self.rooms[part.room].forms[&part.bits];
        judgement.rooms = row.iter().map(form_of).collect();
        Some(judgement)
    }

    /// The number of forms, and of positions, that a room has.
    #[cfg(test)]
    pub fn sizes(&mut self, room: usize) -> (usize, usize) {
        let all = self.whole_row()[room].bits;
        let forms = self.forms_reached(room, all).len();
        (forms, self.rooms[room].forms.len())
    }
}

/// All squares of `within` that are reached from `start` over squares that share a plank.
fn grown(start: Bits, within: Bits, planks: &[Vec<Bits>; 2]) -> Bits {
    let mut part = start;
    loop {
        let before = part;
        for &plank in planks.iter().flatten() {
            if plank & within == plank && plank & part != 0 {
                part |= plank;
            }
        }
        if part == before {
            return part;
        }
    }
}
