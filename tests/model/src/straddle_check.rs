//! Accesses over a border between two blocks (Req 06 of document 02), at
//! random points of an event file: such an access comes to what its two parts
//! come to, and such a write, cut at every k and powered up, is undone with
//! all other pending writes.

use crate::module::{self, Answer, Record, Requester, Shape, CUT, DONE, TAGS, UNCUT};
use crate::places;
use crate::random::Random;
use crate::reached::Reached;
use crate::state::{self, State};

/// What a check over many files has to reach.
const SITUATIONS: &[&str] = &[
    "read: done",
    "read: done, by the port",
    "read: done, a link to one board",
    "read: done, links to two boards",
    "read: done, a member's block",
    "read: refused 11 for the tag",
    "read: refused 12",
    "read: refused 13",
    "write: done",
    "write: done, by the port",
    "write: done, links with one board",
    "write: done, links with two boards",
    "write: done, S cells, links",
    "write: refused 11 for the tag",
    "write: refused 12",
    "write: refused 13, the board is a member",
    "write: refused 13, the first block's writer is a member",
    "write: refused 13, the last block's writer is a member",
    "write: refused 13, both blocks' writers are members",
    "tag above P: in the first block only",
    "tag above P: in the last block only",
    "tag above P: in both blocks",
    "tag above P: and a reason for 13",
    "stores: no tag",
    "stores: the first block's tag",
    "stores: the last block's tag",
    "stores: both tags",
    "stores: cut between the tags",
    "stores: cut between the tags and the bytes",
    "stores: cut between the blocks' bytes",
    "undone: cut",
    "undone: not cut, then powered up",
    "undone: a power-up cut too",
    "undone: over one's own pending bytes",
    "undone: over another board's pending bytes",
    "undone: with other blocks tagged",
    "undone: with a commit open",
    "undone: by the port",
    "undone: S is 2",
    "undone: S is 64",
];

/// No situation reached yet.
pub fn reached() -> Reached {
    Reached::none_of(SITUATIONS)
}

/// Plays a whole file and checks; the first difference is an error.
pub fn file(input: &[u8], seed: u64, reached: &mut Reached) -> Result<(), String> {
    let random = Random::new(seed);
    let mut check = Check { random, reached };
    state::at_points(input, seed, 60, |state| check.point(&state))
}

/// An access over a border; the bytes are those of a write.
#[derive(Debug)]
struct Access {
    by: Requester,
    cell: usize,
    bytes: Vec<u8>,
}

impl Access {
    /// The blocks on either side of the border.
    fn blocks(&self, shape: &Shape) -> [usize; 2] {
        let first = self.cell / shape.size();
        [first, first + 1]
    }

    fn tags(&self, state: &State, shape: &Shape) -> [u8; 2] {
        self.blocks(shape).map(|block| state.image[TAGS + block])
    }

    fn board(&self, shape: &Shape) -> usize {
        match self.by {
            Requester::Board(board) => board,
            Requester::Port => shape.boards - 1,
        }
    }

    /// What lies before the border, and what lies after it.
    fn parts(&self, shape: &Shape) -> [Access; 2] {
        let [_, last] = self.blocks(shape);
        let border = last * shape.size();
        let (before, after) = self.bytes.split_at(border - self.cell);
        [(self.cell, before), (border, after)].map(|(cell, bytes)| Access {
            by: self.by,
            cell,
            bytes: bytes.to_vec(),
        })
    }

    fn read(&self, state: &State) -> (Answer, Record, Vec<u8>) {
        let n = self.bytes.len();
        let mut buffer = vec![0; n];
        let State { image, record } = state;
        let (answer, next) = module::read(image, *record, self.by, self.cell, n, &mut buffer);
        (answer, next, buffer)
    }

    fn write(&self, state: &State, k: u32) -> (Answer, State) {
        let mut image = state.image.clone();
        let (answer, record) =
            module::write(&mut image, state.record, self.by, self.cell, &self.bytes, k);
        (answer, State { image, record })
    }

    /// The stores of the write, by their places: the tags that differ, the
    /// first block's before the last one's, then all bytes.
    fn stores(&self, state: &State, shape: &Shape) -> Vec<(usize, u8)> {
        let tag = self.board(shape) as u8 + 1;
        let mut stores = Vec::new();
        for at in self.blocks(shape).map(|block| TAGS + block) {
            if state.image[at] != tag {
                stores.push((at, tag));
            }
        }
        let cells = shape.current() + self.cell..;
        stores.extend(cells.zip(self.bytes.iter().copied()));
        stores
    }
}

/// The refusal of an access by those of its parts: 11 for either tag comes
/// before 13 for either block; the refusals before these are alike.
fn refusal(parts: [u8; 2]) -> u8 {
    match parts {
        [11, _] | [_, 11] => 11,
        [DONE, last] => last,
        [first, _] => first,
    }
}

/// All pending writes undone: no tag, and in every block the recovery bytes.
fn all_undone(state: &State, shape: &Shape) -> Vec<u8> {
    let mut image = state.image.clone();
    image[TAGS..][..shape.blocks].fill(0);
    let recovery = shape.recovery();
    image.copy_within(recovery..recovery + shape.cells(), shape.current());
    image
}

/// An error that names the first part of the image that differs.
fn agree(got: &[u8], expected: &[u8], shape: &Shape) -> Result<(), String> {
    let recovery = shape.recovery();
    let parts = [
        ("header", 0..TAGS),
        ("tags", TAGS..shape.current()),
        ("current bank", shape.current()..recovery),
        ("recovery bank", recovery..recovery + shape.cells()),
        ("contexts", recovery + shape.cells()..shape.length()),
    ];
    for (name, part) in parts {
        if got[part.clone()] != expected[part] {
            return Err(format!("{name} not as expected"));
        }
    }
    Ok(())
}

struct Check<'a> {
    random: Random,
    reached: &'a mut Reached,
}

impl Check<'_> {
    /// The state of the list, where the cuts are undone too, and others that
    /// no list leaves.
    fn point(&mut self, state: &State) -> Result<(), String> {
        let Some(shape) = module::header(&state.image, 0) else {
            return Ok(());
        };
        self.accesses(state, &shape, true)?;
        let [scrambled, spoilt] = state.others(&mut self.random, &shape);
        self.accesses(&scrambled, &shape, false)
            .map_err(|what| format!("scrambled, {what}"))?;
        match module::header(&spoilt.image, 0) {
            Some(shape) => self
                .accesses(&spoilt, &shape, false)
                .map_err(|what| format!("spoilt, {what}")),
            None => Ok(()),
        }
    }

    /// A few accesses. In a state that a list leaves, writes are undone too:
    /// there an untagged block has its recovery bytes.
    fn accesses(&mut self, state: &State, shape: &Shape, of_a_list: bool) -> Result<(), String> {
        for _ in 0..3 {
            let Some(access) = self.access(state, shape) else {
                return Ok(());
            };
            let checked = self
                .read(&access, state, shape)
                .and_then(|()| self.write(&access, state, shape))
                .and_then(|stores| match stores {
                    Some(stores) if of_a_list => self.undone(&access, state, shape, stores),
                    _ => Ok(()),
                });
            checked.map_err(|what| format!("{access:02X?}: {what}"))?;
        }
        Ok(())
    }

    /// Mostly at a block with a tag; None where no access straddles.
    fn access(&mut self, state: &State, shape: &Shape) -> Option<Access> {
        let random = &mut self.random;
        let tagged: Vec<usize> = (0..shape.blocks)
            .filter(|block| state.image[TAGS + block] != 0)
            .collect();
        let block = if tagged.is_empty() || random.per_mille(200) {
            random.below(shape.blocks)
        } else {
            random.pick(&tagged)
        };
        let board = Requester::Board(random.below(shape.boards));
        let by = random.pick(&[board, board, board, Requester::Port]);
        let most = if by == Requester::Port { 4 } else { 64 };
        let (cell, n) = places::straddling(random, shape, block, most)?;
        let bytes = (0..n).map(|_| random.below(256) as u8).collect();
        Some(Access { by, cell, bytes })
    }

    /// The read answers the bytes of its parts and makes their links.
    fn read(&mut self, access: &Access, state: &State, shape: &Shape) -> Result<(), String> {
        let (answer, next, buffer) = access.read(state);
        let parts = access.parts(shape);
        let code = refusal([0, 1].map(|i| parts[i].read(state).0.code));
        if answer != Answer::refused(code) {
            return Err(format!("read answers {answer:?}, its parts {code}"));
        }
        if code != DONE {
            self.note_refused("read", access, code, state, shape);
            return Ok(());
        }
        let (_, between, first) = parts[0].read(state);
        let (_, after, last) = parts[1].read(&State {
            image: state.image.clone(),
            record: between,
        });
        if next != after || buffer != [first, last].concat() {
            return Err("read not like its parts".into());
        }
        let links = self.links(access, state, shape);
        let reached = &mut *self.reached;
        reached.note("read: done");
        reached.note_if(access.by == Requester::Port, "read: done, by the port");
        reached.note_if(links == 1, "read: done, a link to one board");
        reached.note_if(links == 2, "read: done, links to two boards");
        let member = writers(access, state, shape) & state.record.members != 0;
        reached.note_if(member, "read: done, a member's block");
        Ok(())
    }

    /// The write, at every k, makes its first k stores; done it comes to what
    /// its parts come to. Gives the number of stores where it is taken.
    fn write(
        &mut self,
        access: &Access,
        state: &State,
        shape: &Shape,
    ) -> Result<Option<u32>, String> {
        let (answer, after) = access.write(state, UNCUT);
        let parts = access.parts(shape);
        let code = refusal([0, 1].map(|i| parts[i].write(state, UNCUT).0.code));
        if answer.code != code {
            return Err(format!("write answers {}, its parts {code}", answer.code));
        }
        if code != DONE {
            self.note_refused("write", access, code, state, shape);
            return Ok(None);
        }
        let (_, between) = parts[0].write(state, UNCUT);
        let (_, by_parts) = parts[1].write(&between, UNCUT);
        if after.record != by_parts.record {
            return Err("record not as by the parts".into());
        }
        agree(&after.image, &by_parts.image, shape)
            .map_err(|what| format!("by the parts: {what}"))?;
        let stores = access.stores(state, shape);
        let all = stores.len() as u32;
        for k in 0..=all + 1 {
            let mut image = state.image.clone();
            for (at, byte) in stores.iter().take(k as usize) {
                image[*at] = *byte;
            }
            let (got, left) = access.write(state, k);
            let expected = Answer {
                code: if k < all { CUT } else { DONE },
                stores: k.min(all),
                ..Answer::default()
            };
            if got != expected {
                return Err(format!("k = {k}: answer {got:?}, expected {expected:?}"));
            }
            agree(&left.image, &image, shape).map_err(|what| format!("k = {k}: {what}"))?;
        }
        self.note_write(access, state, shape);
        Ok(Some(all))
    }

    /// After the write at every k and a power-up all pending writes are
    /// undone, as by a power-up in place of the write.
    fn undone(
        &mut self,
        access: &Access,
        state: &State,
        shape: &Shape,
        all: u32,
    ) -> Result<(), String> {
        let expected = all_undone(state, shape);
        let mut instead = state.image.clone();
        module::power_up(&mut instead, UNCUT);
        agree(&instead, &expected, shape)
            .map_err(|what| format!("a power-up in place of the write: {what}"))?;
        for k in 0..=all {
            let (_, mut left) = access.write(state, k);
            let again = self.power_up(&mut left.image);
            agree(&left.image, &expected, shape)
                .map_err(|what| format!("k = {k}, powered up: {what}"))?;
            self.reached.note_if(k < all, "undone: cut");
            self.reached
                .note_if(k == all, "undone: not cut, then powered up");
            self.reached.note_if(again, "undone: a power-up cut too");
        }
        self.note_undone(access, state, shape);
        Ok(())
    }

    /// Power-ups, the first ones perhaps cut, until one is done; whether one
    /// was cut.
    fn power_up(&mut self, image: &mut [u8]) -> bool {
        let mut cut = false;
        loop {
            let k = self.random.pick(&[0, 1, 2, 5, UNCUT, UNCUT, UNCUT]);
            if module::power_up(image, k).0.code != CUT {
                return cut;
            }
            cut = true;
        }
    }

    /// How many other boards the access comes to be linked with.
    fn links(&self, access: &Access, state: &State, shape: &Shape) -> u32 {
        let own = 1 << access.board(shape);
        (writers(access, state, shape) & !own).count_ones()
    }

    fn note_refused(
        &mut self,
        kind: &str,
        access: &Access,
        code: u8,
        state: &State,
        shape: &Shape,
    ) {
        let reached = &mut *self.reached;
        let members = state.record.members;
        let member = members >> access.board(shape) & 1 == 1;
        let tags = access.tags(state, shape);
        let closed = tags.map(|tag| module::tagged(tag, members));
        let above = tags.map(|tag| usize::from(tag) > shape.boards);
        match code {
            11 => {
                reached.note(&format!("{kind}: refused 11 for the tag"));
                reached.note(match above {
                    [_, false] => "tag above P: in the first block only",
                    [false, _] => "tag above P: in the last block only",
                    _ => "tag above P: in both blocks",
                });
                let reason = member || kind == "write" && closed.contains(&true);
                reached.note_if(reason, "tag above P: and a reason for 13");
            }
            13 if kind == "write" => reached.note(match closed {
                _ if member => "write: refused 13, the board is a member",
                [_, false] => "write: refused 13, the first block's writer is a member",
                [false, _] => "write: refused 13, the last block's writer is a member",
                _ => "write: refused 13, both blocks' writers are members",
            }),
            code => reached.note(&format!("{kind}: refused {code}")),
        }
    }

    fn note_write(&mut self, access: &Access, state: &State, shape: &Shape) {
        let links = self.links(access, state, shape);
        let reached = &mut *self.reached;
        reached.note("write: done");
        reached.note_if(access.by == Requester::Port, "write: done, by the port");
        reached.note_if(links == 1, "write: done, links with one board");
        reached.note_if(links == 2, "write: done, links with two boards");
        let full = access.bytes.len() == shape.size();
        reached.note_if(full && links > 0, "write: done, S cells, links");
        let own = access.board(shape) as u8 + 1;
        let differ = access.tags(state, shape).map(|tag| tag != own);
        reached.note(match differ {
            [false, false] => "stores: no tag",
            [true, false] => "stores: the first block's tag",
            [false, true] => "stores: the last block's tag",
            [true, true] => "stores: both tags",
        });
        reached.note_if(differ == [true; 2], "stores: cut between the tags");
        let some = differ.contains(&true);
        reached.note_if(some, "stores: cut between the tags and the bytes");
        reached.note("stores: cut between the blocks' bytes");
    }

    fn note_undone(&mut self, access: &Access, state: &State, shape: &Shape) {
        let reached = &mut *self.reached;
        let board = access.board(shape);
        // The boards whose pending bytes the write covers.
        let covered = (access.cell..access.cell + access.bytes.len()).filter_map(|cell| {
            let [current, recovery] = [shape.current(), shape.recovery()];
            let pending = state.image[current + cell] != state.image[recovery + cell];
            pending.then(|| usize::from(state.image[TAGS + (cell >> shape.power)]))
        });
        let covered: Vec<usize> = covered.collect();
        let own = covered.contains(&(board + 1));
        let another = covered.iter().any(|tag| *tag != board + 1);
        let blocks = access.blocks(shape);
        let others = (0..shape.blocks)
            .any(|block| !blocks.contains(&block) && state.image[TAGS + block] != 0);
        reached.note_if(own, "undone: over one's own pending bytes");
        reached.note_if(another, "undone: over another board's pending bytes");
        reached.note_if(others, "undone: with other blocks tagged");
        let open = state.record.members != 0;
        reached.note_if(open, "undone: with a commit open");
        reached.note_if(access.by == Requester::Port, "undone: by the port");
        reached.note_if(shape.size() == 2, "undone: S is 2");
        reached.note_if(shape.size() == 64, "undone: S is 64");
    }
}

/// The boards that the tags of the access's blocks name.
fn writers(access: &Access, state: &State, shape: &Shape) -> u16 {
    let tags = access.tags(state, shape).map(usize::from);
    (0..shape.boards)
        .filter(|board| tags.contains(&(board + 1)))
        .map(|board| 1 << board)
        .sum()
}
