//! Holds forecasts against the calls that they foretell (Req 02 of document
//! 02): at random points of an event file, for every board, in the state
//! there, in spoilt copies of it and in copies with random rows and tags.

use crate::forecast::{self, Forecast};
use crate::module::{self, Answer, Requester, Shape, Touched, CUT, DONE, UNCUT};
use crate::places;
use crate::random::Random;
use crate::reached::Reached;
use crate::state::{self, State};
use std::fmt::Debug;

/// What a check over many files has to reach.
const SITUATIONS: &[&str] = &[
    "commit: refused 1",
    "commit: refused 11",
    "commit: refused 12",
    "commit: refused 14",
    "commit: one member",
    "commit: several members",
    "commit: sixteen members",
    "commit: no block",
    "commit: several blocks",
    "commit: K is 0",
    "commit: a block of a board outside",
    "commit: a tag above P",
    "commit: cut after the deciding store",
    "commit: cut before the deciding store",
    "between: changed the image",
    "between: changed the record",
    "between: a fault with a block",
    "between: a port access",
    "between: a straddling read",
    "between: a straddling write",
    "between: refused",
    "fault: refused 1",
    "fault: refused 11",
    "fault: refused 12",
    "fault: one board",
    "fault: several boards",
    "fault: no block",
    "fault: several blocks",
    "fault: a tag above P",
    "fault: a member of the open commit",
    "fault: cut",
];

/// No situation reached yet.
pub fn reached() -> Reached {
    Reached::none_of(SITUATIONS)
}

/// Plays a whole file and checks; the first difference is an error.
pub fn file(input: &[u8], seed: u64, reached: &mut Reached) -> Result<(), String> {
    let random = Random::new(seed);
    let mut check = Check { random, reached };
    state::at_points(input, seed, 70, |state| check.point(state))
}

struct Check<'a> {
    random: Random,
    reached: &'a mut Reached,
}

/// An error where the two differ.
fn agree<T: PartialEq + Debug>(what: &str, got: T, expected: T) -> Result<(), String> {
    if got == expected {
        Ok(())
    } else {
        Err(format!("{what}: {got:?}, foretold {expected:?}"))
    }
}

impl Check<'_> {
    fn point(&mut self, state: State) -> Result<(), String> {
        self.every_board(&state, "")?;
        let Some(shape) = module::header(&state.image, 0) else {
            return Ok(());
        };
        let [scrambled, spoilt] = state.others(&mut self.random, &shape);
        if self.random.per_mille(300) {
            self.every_board(&scrambled, "scrambled, ")?;
        }
        self.every_board(&spoilt, "spoilt, ")
    }

    /// The boards below P, one at P or above it.
    fn every_board(&mut self, state: &State, kind: &str) -> Result<(), String> {
        let shape = module::header(&state.image, 0);
        let boards = shape.map_or(2, |shape| shape.boards);
        let beyond = [boards, boards + 1, 16, 17, 32, 255, 65_536, usize::MAX];
        let beyond = beyond.map(|board| board.max(boards));
        let beyond = self.random.pick(&beyond);
        for board in (0..boards).chain([beyond]) {
            let checked = match self.fault(state, board) {
                Ok(()) => self.commit(state, board, shape.as_ref()),
                Err(what) => Err(what),
            };
            checked.map_err(|what| format!("{kind}board {board}: {what}"))?;
        }
        Ok(())
    }

    /// A fault made next, for allowances around the figure.
    fn fault(&mut self, state: &State, board: usize) -> Result<(), String> {
        let told = forecast::fault(&state.image, &state.record, board);
        let fault = |k| module::fault(&mut state.image.clone(), state.record, board, k).0;
        let stores = told.stores;
        for k in [stores, stores + 1, UNCUT] {
            agree("fault", fault(k), done(told))?;
        }
        if told.code != DONE {
            self.reached.note(&format!("fault: refused {}", told.code));
            return Ok(());
        }
        if stores > 0 {
            let cut = Answer {
                code: CUT,
                stores: stores - 1,
                ..Answer::default()
            };
            agree("fault cut", fault(stores - 1), cut)?;
            self.reached.note("fault: cut");
        }
        let reached = &mut *self.reached;
        let shape = module::header(&state.image, 0).ok_or("taken without a header")?;
        let one = told.group.count_ones() == 1;
        reached.note_if(one, "fault: one board");
        reached.note_if(!one, "fault: several boards");
        reached.note_if(stores == 0, "fault: no block");
        let several = stores as usize > shape.size() + 1;
        reached.note_if(several, "fault: several blocks");
        reached.note_if(state.tag_above(&shape), "fault: a tag above P");
        let member = told.group & state.record.members != 0;
        reached.note_if(member, "fault: a member of the open commit");
        Ok(())
    }

    /// A start made next, and where it is taken the whole commit.
    fn commit(&mut self, state: &State, board: usize, shape: Option<&Shape>) -> Result<(), String> {
        let told = forecast::commit(&state.image, &state.record, board);
        let length = shape.map_or_else(|| self.random.below(65), |shape| shape.context);
        // 3 comes after 11, 12 and 1, and before 14.
        let other = if length == 0 { 1 } else { length - 1 };
        let code = if matches!(told.code, DONE | 14) {
            3
        } else {
            told.code
        };
        let answer = self.start(state, board, other, UNCUT);
        agree("start, not K bytes", answer, Answer::refused(code))?;
        if told.code != DONE {
            for k in [0, 1, UNCUT] {
                let answer = self.start(state, board, length, k);
                agree("start", answer, done(told))?;
            }
            self.reached.note(&format!("commit: refused {}", told.code));
            return Ok(());
        }
        let shape = shape.ok_or("taken without a header")?;
        self.commit_allowances(state, shape, board, told)?;
        self.note_commit(state, shape, told);
        Ok(())
    }

    /// The whole commit, with the figure as allowance, more, and less.
    fn commit_allowances(
        &mut self,
        state: &State,
        shape: &Shape,
        board: usize,
        told: Forecast,
    ) -> Result<(), String> {
        let more = told.stores + self.random.within(1, 200) as u32;
        for allowance in [told.stores, more] {
            let made = self.whole_commit(state, shape, board, told, allowance)?;
            agree("commit", made, Made::Done(told.stores))?;
        }
        let one_less = told.stores - 1;
        let made = self.whole_commit(state, shape, board, told, one_less)?;
        agree("commit, one store less", made, Made::Cut(one_less, true))?;
        let less = self.random.below(told.stores as usize) as u32;
        let made = self.whole_commit(state, shape, board, told, less)?;
        // The contexts of all members, then bytes 10, 11 and 9.
        let decided = less >= told.group.count_ones() * shape.context as u32 + 3;
        agree("commit, fewer stores", made, Made::Cut(less, decided))?;
        let reached = &mut *self.reached;
        reached.note_if(decided, "commit: cut after the deciding store");
        reached.note_if(!decided, "commit: cut before the deciding store");
        Ok(())
    }

    fn note_commit(&mut self, state: &State, shape: &Shape, told: Forecast) {
        let reached = &mut *self.reached;
        let members = told.group.count_ones() as usize;
        let contexts = 2 * members * shape.context;
        let saved = told.stores as usize - 4 - contexts;
        let outside = state
            .tags(shape)
            .any(|tag| tag != 0 && tag <= shape.boards && told.group >> (tag - 1) & 1 == 0);
        reached.note_if(members == 1, "commit: one member");
        reached.note_if(members > 1, "commit: several members");
        reached.note_if(members == 16, "commit: sixteen members");
        reached.note_if(saved == 0, "commit: no block");
        reached.note_if(saved > shape.size() + 1, "commit: several blocks");
        reached.note_if(shape.context == 0, "commit: K is 0");
        reached.note_if(outside, "commit: a block of a board outside");
        reached.note_if(state.tag_above(shape), "commit: a tag above P");
    }

    /// The start and the other members' acknowledgements in any order, each
    /// with what the earlier ones left of the allowance, other calls between.
    fn whole_commit(
        &mut self,
        state: &State,
        shape: &Shape,
        board: usize,
        told: Forecast,
        allowance: u32,
    ) -> Result<Made, String> {
        let mut state = state.clone();
        let order = self.calling_order(board, told.group);
        let mut left = allowance;
        for (i, member) in order.iter().enumerate() {
            let call = if i == 0 {
                module::start
            } else {
                module::acknowledge
            };
            let context = self.bytes(shape.context);
            let (answer, next) = call(&mut state.image, state.record, *member, &context, left);
            left -= answer.stores;
            if answer.code == CUT {
                return Ok(Made::Cut(allowance - left, answer.decided));
            }
            let last = i + 1 == order.len();
            let expected = Answer {
                decided: last,
                stores: answer.stores,
                ..done(told)
            };
            agree("start or acknowledgement", answer, expected)?;
            state.record = next;
            for _ in 0..if last { 0 } else { self.random.below(4) } {
                self.between(&mut state, shape);
            }
        }
        Ok(Made::Done(allowance - left))
    }

    /// The board, then the group's others in any order.
    fn calling_order(&mut self, board: usize, group: u16) -> Vec<usize> {
        let mut order: Vec<usize> = (0..16)
            .filter(|i| *i != board && group >> i & 1 == 1)
            .collect();
        self.random.shuffle(&mut order);
        order.insert(0, board);
        order
    }

    /// A call that the claim allows: no fault with a member in its group, no
    /// power-up, nothing cut, no acknowledgement that counts.
    fn between(&mut self, state: &mut State, shape: &Shape) {
        let before = state.clone();
        let record = state.record;
        let board = self.mostly_outsider(record.members, shape);
        let (cell, n) = self.place(shape);
        let length = shape.context + self.random.pick(&[0, 0, 1]);
        let bytes = self.bytes(n.max(length));
        let image = &mut state.image;
        let kind = self.random.below(10);
        let requester = self.random.pick(&[
            Requester::Board(board),
            Requester::Board(board),
            Requester::Port,
        ]);
        let (answer, next) = match kind {
            0 | 1 => module::read(image, record, requester, cell, n, &mut [0; 64]),
            2..=5 => module::write(image, record, requester, cell, &bytes[..n], UNCUT),
            6 | 7 => module::fault(image, record, board, UNCUT),
            8 => module::start(image, record, board, &bytes[..length], UNCUT),
            _ => module::acknowledge(image, record, board, &bytes[..length], UNCUT),
        };
        let counts = kind == 9 && answer.code == DONE;
        let rolls_back = matches!(kind, 6 | 7) && answer.group & record.members != 0;
        if counts || rolls_back {
            *state = before;
            return;
        }
        state.record = next;
        let reached = &mut *self.reached;
        let changed = state.image != before.image;
        reached.note_if(changed, "between: changed the image");
        reached.note_if(next != record, "between: changed the record");
        reached.note_if(
            changed && answer.group != 0,
            "between: a fault with a block",
        );
        reached.note_if(answer.code != DONE, "between: refused");
        let access = kind <= 5 && answer.code == DONE;
        let port = access && requester == Requester::Port;
        reached.note_if(port, "between: a port access");
        let straddling = access && Touched::of(shape, cell, n).straddles();
        reached.note_if(straddling && kind <= 1, "between: a straddling read");
        reached.note_if(straddling && kind > 1, "between: a straddling write");
    }

    /// First cell and length, a third of them over a border.
    fn place(&mut self, shape: &Shape) -> (usize, usize) {
        let size = shape.size();
        let block = self.random.below(shape.blocks);
        let over = places::straddling(&mut self.random, shape, block, size);
        let any = self.random.within(1, size);
        let n = self.random.pick(&[1, any, size, size]);
        let inside = (block * size + self.random.below(size - n + 1), n);
        over.filter(|_| self.random.per_mille(333))
            .unwrap_or(inside)
    }

    /// A board that is no member; sometimes, or where all are members, any
    /// board from 0 to P.
    fn mostly_outsider(&mut self, members: u16, shape: &Shape) -> usize {
        let outsiders: Vec<usize> = (0..shape.boards)
            .filter(|i| members >> i & 1 == 0)
            .collect();
        if outsiders.is_empty() || self.random.per_mille(200) {
            self.random.within(0, shape.boards)
        } else {
            self.random.pick(&outsiders)
        }
    }

    fn start(&mut self, state: &State, board: usize, length: usize, k: u32) -> Answer {
        let context = self.bytes(length);
        module::start(&mut state.image.clone(), state.record, board, &context, k).0
    }

    fn bytes(&mut self, count: usize) -> Vec<u8> {
        (0..count).map(|_| self.random.below(256) as u8).collect()
    }
}

/// What a whole commit came to.
#[derive(Debug, PartialEq)]
enum Made {
    Done(u32),
    /// The stores made, and whether the deciding one is among them.
    Cut(u32, bool),
}

/// The answer of a call that does all of the forecast and decides nothing.
fn done(told: Forecast) -> Answer {
    Answer {
        code: told.code,
        decided: false,
        group: told.group,
        stores: told.stores,
    }
}
