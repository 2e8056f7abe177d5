//! Port accesses (Req 03 of document 02) in random histories. Event lines do
//! not carry them, so the lines of a file are played with port accesses in
//! place of some accesses and between lines, each call held against the
//! ledger. At random points the law of the port is checked by itself, in the
//! state there and in scrambled and spoilt copies of it.

use crate::check::Checker;
use crate::ledger::Call;
use crate::lines::{self, Event, Room, LONGEST};
use crate::module::{self, Answer, Record, Requester, Shape, Touched, CUT, DONE, TAGS, UNCUT};
use crate::places;
use crate::player::{Played, Player, MOST_LINES};
use crate::random::Random;
use crate::reached::Reached;
use crate::state::State;
use std::collections::BTreeSet;

/// What a check over many files has to reach.
const SITUATIONS: &[&str] = &[
    "law: cut",
    "law: refused 2, n above S and above 4",
    "law: refused 2, n above 4 and within S",
    "law: refused 2, n from 1 to 4 and within S",
    "law: refused 2, n above S and not above 4",
    "law: refused 2, n is 0",
    "law: refused 5",
    "law: refused 11 for the header",
    "law: refused 11 for the header, n above 4",
    "law: refused 11 for the tag",
    "law: refused 11 for the tag of the first block, straddling",
    "law: refused 11 for the tag of the last block, straddling",
    "law: refused 12",
    "law: refused 12, n above 4",
    "law: refused 13, P - 1 is a member",
    "law: refused 13, a member's block",
    "law: refused 13, the first block a member's, straddling",
    "law: refused 13, the last block a member's, straddling",
    "law: refused 17",
    "law: refused 17, n is 5",
    "law: refused 17, straddling",
    "law: refused 17, the board's access refused 5",
    "law: refused 17, the board's access refused 11 for the tag",
    "law: refused 17, the board's access refused 13",
    "law: refused 17, the board's access taken",
    "law: taken",
    "law: taken, n is 4 and S above 4",
    "law: taken, n is 4 and S is 4",
    "law: taken, n is S and S below 4",
    "law: taken, straddling",
    "law: taken, P is 1",
    "law: taken, P is 2",
    "law: taken, P is 16",
    "port access: refused 17",
    "port access: refused 13, P - 1 is a member",
    "port access: refused 13, a member's block",
    "port access: refused 13, straddling",
    "port access: read, no link",
    "port access: read that links",
    "port access: read of a member's block",
    "port access: straddling read",
    "port access: straddling read of two other writers' blocks",
    "port access: write to a clean block",
    "port access: write to a block of P - 1",
    "port access: short write that links",
    "port access: whole overwrite that links",
    "port access: straddling write",
    "port access: straddling write over two other writers' blocks",
    "port access: straddling write of S cells that links",
    "port access: write cut before the tag",
    "port access: write cut after the tag",
    "port access: write cut over another board's block",
    "port access: straddling write cut between the tags",
    "port access: straddling write cut between the blocks' bytes",
    "port access: P is 1",
    "port access: P is 16",
    "port access: S below 4",
    "port write: its block read by a board",
    "port write: its block written by a board",
    "port write: kept by a commit that P - 1 started",
    "port write: kept by a commit that another board started",
    "port write: rolled back by a fault of P - 1",
    "port write: rolled back by a fault of another board",
    "port write: rolled back by a fault of another board, three boards or more",
    "port write: rolled back by a cut and a power-up",
    "port write: rolled back by a cut and a power-up that was cut",
    "port write: rolled back by a power-up while the record is on",
];

/// What an answer buffer is filled with before a read.
const FILL: u8 = 238;

/// For accesses to an image that has no shape.
const ANY: Shape = Shape {
    boards: 2,
    power: 3,
    blocks: 2,
    context: 0,
};

/// No situation reached yet.
pub fn reached() -> Reached {
    Reached::none_of(SITUATIONS)
}

/// Plays a whole file and checks; the first difference is an error.
pub fn file(mut input: &[u8], seed: u64, reached: &mut Reached) -> Result<(), String> {
    let mut random = Random::new(seed);
    let often = random.pick(&[30, 100, 300]);
    let cut = random.pick(&[0, 50, 200]);
    let mut check = Check {
        random,
        reached,
        player: Player::default(),
        checker: Checker::default(),
        cut,
        written: BTreeSet::new(),
    };
    let mut line = Vec::new();
    while check.player.number < MOST_LINES
        && lines::next_line(&mut input, &mut line).unwrap_or(false)
    {
        check
            .line(&line, often)
            .map_err(|what| format!("line {}: {what}", check.player.number))?;
    }
    Ok(())
}

/// A read with the length of its answer buffer, or a write with its
/// allowance; who makes it is said apart.
#[derive(Debug)]
enum Access {
    Read { cell: usize, n: usize, room: usize },
    Write { cell: usize, bytes: Vec<u8>, k: u32 },
}

impl Access {
    fn cell(&self) -> usize {
        match self {
            Access::Read { cell, .. } | Access::Write { cell, .. } => *cell,
        }
    }

    fn length(&self) -> usize {
        match self {
            Access::Read { n, .. } => *n,
            Access::Write { bytes, .. } => bytes.len(),
        }
    }

    /// The tags of the first and the last block, if these are two.
    fn two_tags(&self, shape: &Shape, image: &[u8]) -> Option<[u8; 2]> {
        let Touched { first, last } = Touched::of(shape, self.cell(), self.length());
        (first != last).then(|| [first, last].map(|block| image[TAGS + block]))
    }

    /// Makes the access; gives the answer, the next record and the buffer.
    fn make(&self, image: &mut [u8], record: Record, by: Requester) -> (Answer, Record, Vec<u8>) {
        match self {
            Access::Read { cell, n, room } => {
                let mut buffer = vec![FILL; *room];
                let (answer, next) = module::read(image, record, by, *cell, *n, &mut buffer);
                (answer, next, buffer)
            }
            Access::Write { cell, bytes, k } => {
                let (answer, next) = module::write(image, record, by, *cell, bytes, *k);
                (answer, next, Vec::new())
            }
        }
    }
}

/// All that an access comes to.
struct Outcome {
    answer: Answer,
    state: State,
    buffer: Vec<u8>,
}

impl Outcome {
    fn of(access: &Access, state: &State, by: Requester) -> Outcome {
        let mut image = state.image.clone();
        let (answer, record, buffer) = access.make(&mut image, state.record, by);
        let state = State { image, record };
        Outcome {
            answer,
            state,
            buffer,
        }
    }

    fn refused(code: u8, access: &Access, state: &State) -> Outcome {
        let buffer = match access {
            Access::Read { room, .. } => vec![FILL; *room],
            Access::Write { .. } => Vec::new(),
        };
        Outcome {
            answer: Answer::refused(code),
            state: state.clone(),
            buffer,
        }
    }

    /// An error that names the first part that differs.
    fn agree(&self, expected: &Outcome) -> Result<(), String> {
        if self.answer != expected.answer {
            let (got, expected) = (self.answer, expected.answer);
            return Err(format!("answer {got:?}, by the law {expected:?}"));
        }
        let parts = [
            ("image", self.state.image == expected.state.image),
            ("record", self.state.record == expected.state.record),
            ("buffer", self.buffer == expected.buffer),
        ];
        match parts.iter().find(|(_, same)| !same) {
            None => Ok(()),
            Some((part, _)) => Err(format!("{part} not as by the law")),
        }
    }
}

struct Check<'a> {
    random: Random,
    reached: &'a mut Reached,
    player: Player,
    checker: Checker,
    /// How often a port write is cut, per mille.
    cut: usize,
    /// The blocks that the port wrote since P - 1 was last cleared.
    written: BTreeSet<usize>,
}

impl Check<'_> {
    /// Plays a line, or a port access in its place; then perhaps port
    /// accesses and the law.
    fn line(&mut self, line: &[u8], often: usize) -> Result<(), String> {
        let mut room: Room = [0; LONGEST / 2];
        let event = lines::parse(line, &mut room);
        match event.as_ref().and_then(|event| self.access_like(event)) {
            Some(access) if self.random.per_mille(often) => {
                self.player.number += 1;
                self.port(&access)?;
            }
            _ => self.play(event.as_ref())?,
        }
        while self.random.per_mille(often) {
            let shape = module::header(&self.player.image, 0);
            let access = self.access(&shape.unwrap_or(ANY), 20, self.cut);
            self.port(&access)?;
        }
        if self.random.per_mille(60) {
            self.point()?;
        }
        Ok(())
    }

    /// Plays an event and holds it against the ledger.
    fn play(&mut self, event: Option<&Event>) -> Result<(), String> {
        let before = self.player.record;
        let played = self.player.play(event);
        let Some(event) = event else { return Ok(()) };
        self.checker.line(
            event,
            played.k,
            &played.answer,
            self.player.bytes(),
            played.power_up.as_ref(),
            &self.player.image,
        )?;
        self.note_event(event, &played, &before);
        Ok(())
    }

    /// Makes a port access, with power-ups after a cut, and holds each call
    /// against the ledger.
    fn port(&mut self, access: &Access) -> Result<(), String> {
        let before = self.state();
        let image = &mut self.player.image;
        let (answer, next, buffer) = access.make(image, before.record, Requester::Port);
        self.player.record = next;
        let read = if answer.code == DONE {
            &buffer[..access.length().min(buffer.len())]
        } else {
            &[]
        };
        let (call, k) = match access {
            Access::Read { cell, n, .. } => (Call::PortRead { cell: *cell, n: *n }, UNCUT),
            Access::Write { cell, bytes, k } => (Call::PortWrite { cell: *cell, bytes }, *k),
        };
        let image = &self.player.image;
        self.checker.call(call, k, &answer, read, image)?;
        self.note_port(access, &answer, &before);
        if answer.code == CUT {
            self.power_up()?;
        }
        Ok(())
    }

    /// Power-ups, the first ones perhaps cut, until one is done.
    fn power_up(&mut self) -> Result<(), String> {
        let mut situation = "port write: rolled back by a cut and a power-up";
        loop {
            let k = self.random.pick(&[0, 1, 2, 5, UNCUT, UNCUT, UNCUT]);
            let (answer, next) = module::power_up(&mut self.player.image, k);
            self.player.record = next;
            let image = &self.player.image;
            self.checker.call(Call::PowerUp, k, &answer, &[], image)?;
            if answer.code != CUT {
                break;
            }
            situation = "port write: rolled back by a cut and a power-up that was cut";
        }
        self.forget(situation);
        Ok(())
    }

    /// P - 1 is cleared: its port writes, if any, met this end.
    fn forget(&mut self, situation: &str) {
        self.reached.note_if(!self.written.is_empty(), situation);
        self.written.clear();
    }

    fn state(&self) -> State {
        State {
            image: self.player.image.clone(),
            record: self.player.record,
        }
    }

    fn note_port(&mut self, access: &Access, answer: &Answer, before: &State) {
        let Some(shape) = module::header(&before.image, 0) else {
            return;
        };
        let reached = &mut *self.reached;
        let members = before.record.members;
        let member = members >> (shape.boards - 1) & 1 == 1;
        match answer.code {
            DONE | CUT => {}
            13 => {
                let two = access.two_tags(&shape, &before.image).is_some();
                reached.note_if(two, "port access: refused 13, straddling");
                return reached.note(if member {
                    "port access: refused 13, P - 1 is a member"
                } else {
                    "port access: refused 13, a member's block"
                });
            }
            17 => return reached.note("port access: refused 17"),
            _ => return,
        }
        reached.note_if(shape.boards == 1, "port access: P is 1");
        reached.note_if(shape.boards == 16, "port access: P is 16");
        reached.note_if(shape.size() < 4, "port access: S below 4");
        match access {
            Access::Read { .. } => self.note_read(access, before, &shape),
            Access::Write { cell, bytes, .. } => {
                let n = bytes.len();
                match access.two_tags(&shape, &before.image) {
                    None => self.note_write(cell >> shape.power, n, answer, before, &shape),
                    Some(tags) => {
                        self.note_straddling_write(*cell, n, tags, answer, before, &shape);
                    }
                }
            }
        }
    }

    fn note_read(&mut self, access: &Access, before: &State, shape: &Shape) {
        let reached = &mut *self.reached;
        let links = self.player.record != before.record;
        reached.note_if(links, "port access: read that links");
        reached.note_if(!links, "port access: read, no link");
        let members = before.record.members;
        let mut blocks = Touched::of(shape, access.cell(), access.length()).blocks();
        let closed = blocks.any(|block| module::tagged(before.image[TAGS + block], members));
        reached.note_if(closed, "port access: read of a member's block");
        if let Some(tags) = access.two_tags(shape, &before.image) {
            let others = two_other_writers(tags, shape);
            reached.note("port access: straddling read");
            reached.note_if(
                others,
                "port access: straddling read of two other writers' blocks",
            );
        }
    }

    /// A port write to one block, done or cut.
    fn note_write(
        &mut self,
        block: usize,
        n: usize,
        answer: &Answer,
        before: &State,
        shape: &Shape,
    ) {
        let reached = &mut *self.reached;
        let tag = usize::from(before.image[TAGS + block]);
        let another = tag != 0 && tag != shape.boards;
        if answer.code == CUT {
            let stored = answer.stores > 0;
            reached.note_if(!stored, "port access: write cut before the tag");
            reached.note_if(stored && tag == 0, "port access: write cut after the tag");
            reached.note_if(another, "port access: write cut over another board's block");
            return;
        }
        let links = self.player.record != before.record;
        let whole = n == shape.size();
        reached.note_if(tag == 0, "port access: write to a clean block");
        reached.note_if(
            tag == shape.boards,
            "port access: write to a block of P - 1",
        );
        reached.note_if(links && !whole, "port access: short write that links");
        reached.note_if(links && whole, "port access: whole overwrite that links");
        self.written.insert(block);
    }

    /// A port write over a border, done or cut; the tags are those before it.
    fn note_straddling_write(
        &mut self,
        cell: usize,
        n: usize,
        tags: [u8; 2],
        answer: &Answer,
        before: &State,
        shape: &Shape,
    ) {
        let reached = &mut *self.reached;
        let touched = Touched::of(shape, cell, n);
        reached.note_if(
            two_other_writers(tags, shape),
            "port access: straddling write over two other writers' blocks",
        );
        if answer.code == CUT {
            let differ = tags.map(|tag| usize::from(tag) != shape.boards);
            let between_tags = differ == [true; 2] && answer.stores == 1;
            reached.note_if(
                between_tags,
                "port access: straddling write cut between the tags",
            );
            // All tags and the bytes up to the border.
            let tags = differ.iter().filter(|differs| **differs).count();
            let border = tags + touched.last * shape.size() - cell;
            let between_bytes = answer.stores as usize == border;
            reached.note_if(
                between_bytes,
                "port access: straddling write cut between the blocks' bytes",
            );
            return;
        }
        reached.note("port access: straddling write");
        let links = self.player.record != before.record;
        let full = links && n == shape.size();
        reached.note_if(full, "port access: straddling write of S cells that links");
        self.written.extend(touched.blocks());
    }

    /// What a line did to blocks that the port wrote.
    fn note_event(&mut self, event: &Event, played: &Played, before: &Record) {
        let answer = &played.answer;
        if matches!(event, Event::Format(_)) && matches!(answer.code, DONE | CUT) {
            self.written.clear();
        }
        let Some(shape) = module::header(&self.player.image, 0) else {
            return;
        };
        let last = shape.boards - 1;
        let cleared = answer.group >> last & 1 == 1;
        match *event {
            _ if answer.code == CUT && answer.decided => self.written.clear(),
            _ if answer.code == CUT => {
                self.forget("port write: rolled back by a cut and a power-up");
            }
            _ if answer.code != DONE => {}
            Event::Read { board, cell, n } => {
                self.note_board(board, cell, n.into(), &shape, "read");
            }
            Event::Write { board, cell, bytes } => {
                self.note_board(board, cell, bytes.len(), &shape, "written");
            }
            Event::Start { .. } if cleared && answer.decided => {
                self.forget("port write: kept by a commit that P - 1 started");
            }
            Event::Acknowledge { .. } if cleared && answer.decided => {
                let own = usize::from(before.starter) == last;
                let starter = if own { "P - 1" } else { "another board" };
                self.forget(&format!(
                    "port write: kept by a commit that {starter} started"
                ));
            }
            Event::Fault { board } if cleared => self.note_fault(board.into(), answer.group, last),
            Event::PowerUp => {
                self.forget("port write: rolled back by a power-up while the record is on");
            }
            _ => {}
        }
    }

    /// A board's access to a block that the port wrote.
    fn note_board(&mut self, board: u16, cell: u16, n: usize, shape: &Shape, how: &str) {
        let mut blocks = Touched::of(shape, cell.into(), n).blocks();
        let port = blocks.any(|block| self.written.contains(&block));
        if port && usize::from(board) + 1 != shape.boards {
            let situation = format!("port write: its block {how} by a board");
            self.reached.note(&situation);
        }
    }

    /// A fault that took P - 1 along.
    fn note_fault(&mut self, board: usize, group: u16, last: usize) {
        if board == last {
            return self.forget("port write: rolled back by a fault of P - 1");
        }
        let many = group.count_ones() >= 3 && !self.written.is_empty();
        self.reached.note_if(
            many,
            "port write: rolled back by a fault of another board, three boards or more",
        );
        self.forget("port write: rolled back by a fault of another board");
    }

    /// A port access like the line's access, mostly of a length that the port
    /// takes.
    fn access_like(&mut self, event: &Event) -> Option<Access> {
        let (cell, length) = match *event {
            Event::Read { cell, n, .. } => (cell, n.into()),
            Event::Write { cell, bytes, .. } => (cell, bytes.len()),
            _ => return None,
        };
        let length = self.random.pick(&[length, length.min(4), length.min(4)]);
        let cell = usize::from(cell);
        Some(match event {
            Event::Read { .. } => self.read(cell, length),
            _ => self.write(cell, length, self.cut),
        })
    }

    /// A random access: of all lengths about the limits, mostly inside a
    /// block or over its border. So many of a thousand are wild, so many
    /// writes are cut.
    fn access(&mut self, shape: &Shape, wild: usize, cut: usize) -> Access {
        let (cell, n) = self.place(shape, wild);
        if self.random.per_mille(450) {
            self.read(cell, n)
        } else {
            self.write(cell, n, cut)
        }
    }

    /// First cell and length, a third of them over a border.
    fn place(&mut self, shape: &Shape, wild: usize) -> (usize, usize) {
        let size = shape.size();
        let block = self.block(shape);
        if self.random.per_mille(333) {
            let most = self.random.pick(&[4, 4, 4, 5, size]);
            if let Some(place) = places::straddling(&mut self.random, shape, block, most) {
                return place;
            }
        }
        let n = self.length(size, wild);
        if self.random.per_mille(wild) {
            (self.anywhere(shape.cells(), n), n)
        } else {
            let inside = self.random.below(size.saturating_sub(n) + 1);
            (block * size + inside, n)
        }
    }

    fn length(&mut self, size: usize, wild: usize) -> usize {
        let random = &mut self.random;
        if random.per_mille(wild) {
            return random.pick(&[0, 0, 5, size + 4, 256, 260]);
        }
        let inside = random.within(1, size);
        let short = random.within(1, size.min(4));
        random.pick(&[short, short, size.min(4), 4, 5, inside, size, size + 1])
    }

    /// Any cell, and those where n cells end at the last one or pass it.
    fn anywhere(&mut self, cells: usize, n: usize) -> usize {
        let any = self.random.below(cells + 1);
        let end = cells.saturating_sub(n);
        self.random
            .pick(&[any, any, end, end + 1, cells - 1, cells])
    }

    /// Mostly a block with a tag, where the image has one.
    fn block(&mut self, shape: &Shape) -> usize {
        let tags = self.player.image.get(TAGS..TAGS + shape.blocks);
        let tagged: Vec<usize> = (0..shape.blocks)
            .filter(|block| tags.is_some_and(|tags| tags[*block] != 0))
            .collect();
        if tagged.is_empty() || self.random.per_mille(250) {
            self.random.below(shape.blocks)
        } else {
            self.random.pick(&tagged)
        }
    }

    fn read(&mut self, cell: usize, n: usize) -> Access {
        let room = self.random.pick(&[n, n, n + 1, 64, 64]);
        let room = if self.random.per_mille(100) {
            self.random.pick(&[0, n / 2, n.saturating_sub(1)])
        } else {
            room
        };
        Access::Read { cell, n, room }
    }

    /// A write that is cut so often in a thousand.
    fn write(&mut self, cell: usize, n: usize, cut: usize) -> Access {
        let random = &mut self.random;
        let bytes: Vec<u8> = (0..n).map(|_| random.below(256) as u8).collect();
        let some = random.below(n + 3);
        let k = random.pick(&[0, 1, 2, some, n.saturating_sub(1), n, n + 1]) as u32;
        let k = if random.per_mille(cut) { k } else { UNCUT };
        Access::Write { cell, bytes, k }
    }

    /// The law, in the state here and in copies of it.
    fn point(&mut self) -> Result<(), String> {
        let state = self.state();
        let shape = module::header(&state.image, 0);
        self.laws(&state, &shape.unwrap_or(ANY), "")?;
        let Some(shape) = shape else { return Ok(()) };
        let [scrambled, spoilt] = state.others(&mut self.random, &shape);
        self.laws(&scrambled, &shape, "scrambled, ")?;
        self.laws(&spoilt, &shape, "spoilt, ")
    }

    fn laws(&mut self, state: &State, shape: &Shape, kind: &str) -> Result<(), String> {
        for _ in 0..6 {
            let access = self.access(shape, 100, 200);
            self.law(state, &access)
                .map_err(|what| format!("{kind}{access:?}: {what}"))?;
        }
        Ok(())
    }

    /// A port access is refused 17 exactly where 11 for the header, 12 and 2
    /// do not hold for that access of board P - 1 and n is above 4; else it
    /// comes to what that access comes to. A board's is never refused 17.
    fn law(&mut self, state: &State, access: &Access) -> Result<(), String> {
        let shape = module::header(&state.image, 0);
        // Without a header there is no P, and any board is refused 11.
        let boards = shape.map_or(16, |shape| shape.boards);
        let any = Requester::Board(self.random.below(boards + 2));
        let any = Outcome::of(access, state, any);
        let board = Outcome::of(access, state, Requester::Board(boards - 1));
        if any.answer.code == 17 || board.answer.code == 17 {
            return Err("a board's access refused 17".into());
        }
        let earlier = shape.is_none() || matches!(board.answer.code, 12 | 2);
        let port = Outcome::of(access, state, Requester::Port);
        if !earlier && access.length() > 4 {
            port.agree(&Outcome::refused(17, access, state))?;
            let two_tags = shape.and_then(|shape| access.two_tags(&shape, &state.image));
            self.reached
                .note_if(two_tags.is_some(), "law: refused 17, straddling");
            self.note_17(access, &board.answer);
        } else {
            port.agree(&board)?;
            self.note_law(access, &port.answer, shape.as_ref(), state);
        }
        Ok(())
    }

    /// Refused 17; the answer is that of the board's access.
    fn note_17(&mut self, access: &Access, board: &Answer) {
        let reached = &mut *self.reached;
        reached.note("law: refused 17");
        reached.note_if(access.length() == 5, "law: refused 17, n is 5");
        match board.code {
            5 => reached.note("law: refused 17, the board's access refused 5"),
            11 => reached.note("law: refused 17, the board's access refused 11 for the tag"),
            13 => reached.note("law: refused 17, the board's access refused 13"),
            _ => reached.note("law: refused 17, the board's access taken"),
        }
    }

    /// Not refused 17.
    fn note_law(&mut self, access: &Access, answer: &Answer, shape: Option<&Shape>, state: &State) {
        let reached = &mut *self.reached;
        let n = access.length();
        let Some(shape) = shape else {
            reached.note("law: refused 11 for the header");
            reached.note_if(n > 4, "law: refused 11 for the header, n above 4");
            return;
        };
        let (boards, size) = (shape.boards, shape.size());
        let members = state.record.members;
        let member = members >> (boards - 1) & 1 == 1;
        if let DONE | 11 | 13 = answer.code {
            if let Some(tags) = access.two_tags(shape, &state.image) {
                let above = tags.map(|tag| usize::from(tag) > boards);
                let closed = tags.map(|tag| !member && module::tagged(tag, members));
                note_straddling(reached, answer.code, above, closed);
            }
        }
        match answer.code {
            CUT => reached.note("law: cut"),
            2 => note_2(reached, n, size),
            5 => reached.note("law: refused 5"),
            11 => reached.note("law: refused 11 for the tag"),
            12 => {
                reached.note("law: refused 12");
                reached.note_if(n > 4, "law: refused 12, n above 4");
            }
            13 if member => reached.note("law: refused 13, P - 1 is a member"),
            13 => reached.note("law: refused 13, a member's block"),
            _ => {
                reached.note("law: taken");
                reached.note_if(n == 4 && size > 4, "law: taken, n is 4 and S above 4");
                reached.note_if(n == 4 && size == 4, "law: taken, n is 4 and S is 4");
                reached.note_if(n == size && size < 4, "law: taken, n is S and S below 4");
                reached.note_if(boards == 1, "law: taken, P is 1");
                reached.note_if(boards == 2, "law: taken, P is 2");
                reached.note_if(boards == 16, "law: taken, P is 16");
            }
        }
    }
}

/// Whether the tags name two boards, neither of which is P - 1.
fn two_other_writers([first, last]: [u8; 2], shape: &Shape) -> bool {
    let another = |tag| tag != 0 && usize::from(tag) != shape.boards;
    first != last && another(first) && another(last)
}

/// An access over a border: whether a tag is above P or a member's, of the
/// first block and of the last one.
fn note_straddling(reached: &mut Reached, code: u8, above: [bool; 2], closed: [bool; 2]) {
    match (code, above, closed) {
        (11, [true, false], _) => {
            reached.note("law: refused 11 for the tag of the first block, straddling");
        }
        (11, [false, true], _) => {
            reached.note("law: refused 11 for the tag of the last block, straddling");
        }
        (13, _, [true, false]) => {
            reached.note("law: refused 13, the first block a member's, straddling");
        }
        (13, _, [false, true]) => {
            reached.note("law: refused 13, the last block a member's, straddling");
        }
        (DONE, ..) => reached.note("law: taken, straddling"),
        _ => {}
    }
}

/// Refused 2.
fn note_2(reached: &mut Reached, n: usize, size: usize) {
    reached.note(match (n > size, n > 4) {
        (true, true) => "law: refused 2, n above S and above 4",
        (true, false) => "law: refused 2, n above S and not above 4",
        (false, true) => "law: refused 2, n above 4 and within S",
        (false, false) if n == 0 => "law: refused 2, n is 0",
        (false, false) => "law: refused 2, n from 1 to 4 and within S",
    });
}
