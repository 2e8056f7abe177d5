//! The ledger of document 01, written apart from the protocol, with the
//! links of Req 01, the port accesses of Req 03 and the accesses to two
//! blocks of Req 06 of document 02. It is told the shape, each call with its
//! arguments and allowance, and of the answer only whether it was refused,
//! done or cut.

/// A call of the list.
#[derive(Clone, Copy, Debug)]
pub enum Call<'a> {
    Read {
        board: usize,
        cell: usize,
        n: usize,
    },
    Write {
        board: usize,
        cell: usize,
        bytes: &'a [u8],
    },
    PortRead {
        cell: usize,
        n: usize,
    },
    PortWrite {
        cell: usize,
        bytes: &'a [u8],
    },
    Start {
        board: usize,
        context: &'a [u8],
    },
    Acknowledge {
        board: usize,
        context: &'a [u8],
    },
    Fault {
        board: usize,
    },
    PowerUp,
}

#[derive(Clone, Copy, Debug, PartialEq, Eq)]
pub enum Told {
    Refused,
    Done,
    Cut,
}

/// What the ledger says that the call must have answered if done; `decided`
/// holds of cut calls too.
#[derive(Debug, Default, PartialEq, Eq)]
pub struct Verdict {
    pub group: u16,
    pub decided: bool,
    /// Of a commit that the call decided: the members, and the blocks whose
    /// last write it keeps. Cut calls too.
    pub saved: Option<(u16, usize)>,
    pub bytes: Vec<u8>,
}

#[derive(Clone, Copy, Debug, PartialEq, Eq)]
enum State {
    Pending,
    Kept,
    Undone,
}

struct Note {
    board: usize,
    state: State,
    access: Access,
}

enum Access {
    Read,
    /// With the notes of the reads that were noted with this write.
    Write {
        cell: usize,
        bytes: Vec<u8>,
        readers: Vec<usize>,
    },
}

struct Commit {
    members: u16,
    acknowledged: u16,
}

pub struct Ledger {
    size: usize,
    context: usize,
    notes: Vec<Note>,
    /// Numbers of the pending notes, in order.
    pending: Vec<usize>,
    /// For each block the last write noted there, undone ones included.
    last_in_block: Vec<Option<usize>>,
    /// For each cell its writes in order, without those undone that had
    /// nothing after them when last looked at.
    writes: Vec<Vec<usize>>,
    /// For each cell the byte of its last write not undone, or zero.
    bytes: Vec<u8>,
    /// links[i][j]: board i depends on board j.
    links: [[bool; 16]; 16],
    commits: Vec<Commit>,
    given: Vec<Vec<u8>>,
    kept: Vec<Vec<u8>>,
}

fn bit(board: usize) -> u16 {
    1 << board
}

impl Ledger {
    /// At a finished format of P boards, B blocks of S bytes, K context bytes.
    pub fn new(boards: usize, size: usize, blocks: usize, context: usize) -> Ledger {
        Ledger {
            size,
            context,
            notes: Vec::new(),
            pending: Vec::new(),
            last_in_block: vec![None; blocks],
            writes: vec![Vec::new(); blocks * size],
            bytes: vec![0; blocks * size],
            links: [[false; 16]; 16],
            commits: Vec::new(),
            given: vec![vec![0; context]; boards],
            kept: vec![vec![0; context]; boards],
        }
    }

    /// Each cell's byte where no cut awaits its power-up.
    pub fn cells(&self) -> &[u8] {
        &self.bytes
    }

    /// Each board's kept context.
    pub fn contexts(&self) -> &[Vec<u8>] {
        &self.kept
    }

    /// Notes a call. An error is a break of one of the ledger's own claims.
    pub fn tell(&mut self, call: Call, k: u32, told: Told) -> Result<Verdict, String> {
        if told == Told::Refused {
            return match call {
                Call::PowerUp => Err("a power-up was refused".into()),
                _ => Ok(Verdict::default()),
            };
        }
        let mut verdict = match self.by_board(call) {
            Call::Read { board, cell, n } if told == Told::Done => self.read(board, cell, n),
            Call::Write { board, cell, bytes } if told == Told::Done => {
                self.write(board, cell, bytes)
            }
            Call::Start { board, context } => {
                let members = self.commit_group(board);
                self.commits.push(Commit {
                    members,
                    acknowledged: 0,
                });
                self.acknowledge(board, context, k)?
            }
            Call::Acknowledge { board, context } => self.acknowledge(board, context, k)?,
            Call::Fault { board } if told == Told::Done => {
                let group = self.fault_group(board);
                self.settle(group, State::Undone)?;
                self.clear(group);
                Verdict {
                    group,
                    ..Verdict::default()
                }
            }
            // Cut accesses and faults; power-ups are treated below.
            _ => Verdict::default(),
        };
        if told == Told::Cut || matches!(call, Call::PowerUp) {
            self.settle(u16::MAX, State::Undone)?;
            self.clear(u16::MAX);
        }
        if told == Told::Cut {
            verdict.group = 0;
        }
        Ok(verdict)
    }

    /// A port access as the access of board P - 1 that it is; any other call
    /// as it stands.
    fn by_board<'a>(&self, call: Call<'a>) -> Call<'a> {
        let board = self.kept.len() - 1;
        match call {
            Call::PortRead { cell, n } => Call::Read { board, cell, n },
            Call::PortWrite { cell, bytes } => Call::Write { board, cell, bytes },
            call => call,
        }
    }

    /// The blocks in which n cells from `first` on lie, each once.
    fn blocks(&self, first: usize, n: usize) -> Vec<usize> {
        let mut blocks: Vec<usize> = (first..first + n).map(|cell| cell / self.size).collect();
        blocks.dedup();
        blocks
    }

    /// The writer of the last write noted in the block, if it is pending and
    /// by another board.
    fn other_writer(&self, board: usize, block: usize) -> Option<usize> {
        let note = &self.notes[self.last_in_block[block]?];
        (note.state == State::Pending && note.board != board).then_some(note.board)
    }

    /// How many cells of the block are not among n cells from `first` on;
    /// none of a block overwritten whole.
    fn left_over(&self, block: usize, first: usize, n: usize) -> usize {
        let overwritten = (first..first + n).filter(|cell| cell / self.size == block);
        self.size - overwritten.count()
    }

    fn read(&mut self, board: usize, cell: usize, n: usize) -> Verdict {
        for block in self.blocks(cell, n) {
            if let Some(j) = self.other_writer(board, block) {
                self.links[board][j] = true;
            }
        }
        let number = self.note(board, Access::Read);
        let mut answered = Vec::new();
        for cell in cell..cell + n {
            answered.push(self.bytes[cell]);
            if let Some(write) = self.last_write(cell) {
                if let Access::Write { readers, .. } = &mut self.notes[write].access {
                    readers.push(number);
                }
            }
        }
        Verdict {
            bytes: answered,
            ..Verdict::default()
        }
    }

    fn write(&mut self, board: usize, cell: usize, bytes: &[u8]) -> Verdict {
        let blocks = self.blocks(cell, bytes.len());
        for block in &blocks {
            if let Some(j) = self.other_writer(board, *block) {
                self.links[j][board] = true;
                // A cell that is not overwritten may still hold what j wrote.
                if self.left_over(*block, cell, bytes.len()) > 0 {
                    self.links[board][j] = true;
                }
            }
        }
        let access = Access::Write {
            cell,
            bytes: bytes.to_vec(),
            readers: Vec::new(),
        };
        let number = self.note(board, access);
        for block in blocks {
            self.last_in_block[block] = Some(number);
        }
        for (i, byte) in bytes.iter().enumerate() {
            self.writes[cell + i].push(number);
            self.bytes[cell + i] = *byte;
        }
        Verdict::default()
    }

    fn note(&mut self, board: usize, access: Access) -> usize {
        self.notes.push(Note {
            board,
            state: State::Pending,
            access,
        });
        let number = self.notes.len() - 1;
        self.pending.push(number);
        number
    }

    /// The cell's last write not undone. Undone is for ever, so an undone
    /// last write can be forgotten.
    fn last_write(&mut self, cell: usize) -> Option<usize> {
        let writes = &mut self.writes[cell];
        while let Some(last) = writes.last() {
            if self.notes[*last].state != State::Undone {
                return Some(*last);
            }
            writes.pop();
        }
        None
    }

    fn acknowledge(&mut self, board: usize, context: &[u8], k: u32) -> Result<Verdict, String> {
        self.given[board] = context.to_vec();
        let commit = self
            .commits
            .iter_mut()
            .find(|commit| commit.members & bit(board) != 0);
        let Some(commit) = commit else {
            return Err(format!(
                "board {board} acknowledged, but the ledger has no commit of it"
            ));
        };
        commit.acknowledged |= bit(board);
        let group = commit.members;
        let decided = commit.acknowledged == group && k as usize >= self.context + 3;
        let saved = decided.then(|| (group, self.blocks_of(group)));
        if decided {
            self.settle(group, State::Kept)?;
            for member in 0..self.kept.len() {
                if group & bit(member) != 0 {
                    self.kept[member] = self.given[member].clone();
                }
            }
            self.clear(group);
        }
        Ok(Verdict {
            group,
            decided,
            saved,
            bytes: Vec::new(),
        })
    }

    /// In how many blocks the last write noted is pending and by one of the
    /// boards.
    fn blocks_of(&self, boards: u16) -> usize {
        let last = self.last_in_block.iter().flatten();
        last.map(|number| &self.notes[*number])
            .filter(|note| note.state == State::Pending && boards & bit(note.board) != 0)
            .count()
    }

    /// Board and all that it depends on through any chain.
    fn commit_group(&self, board: usize) -> u16 {
        self.reach(board, |i, j| self.links[i][j])
    }

    /// Board and all that depend on it through any chain.
    fn fault_group(&self, board: usize) -> u16 {
        self.reach(board, |i, j| self.links[j][i])
    }

    fn reach(&self, board: usize, linked: impl Fn(usize, usize) -> bool) -> u16 {
        let mut group = bit(board);
        let mut to_visit = vec![board];
        while let Some(i) = to_visit.pop() {
            for j in 0..16 {
                if linked(i, j) && group & bit(j) == 0 {
                    group |= bit(j);
                    to_visit.push(j);
                }
            }
        }
        group
    }

    /// Drops all links from or to the boards and all open commits with one.
    fn clear(&mut self, boards: u16) {
        for i in 0..16 {
            for j in 0..16 {
                if (bit(i) | bit(j)) & boards != 0 {
                    self.links[i][j] = false;
                }
            }
        }
        self.commits.retain(|commit| commit.members & boards == 0);
    }

    /// The pending notes of the boards become kept or undone. Where writes
    /// are undone, no read noted with one may stay pending or kept.
    fn settle(&mut self, boards: u16, state: State) -> Result<(), String> {
        let (ours, others): (Vec<usize>, Vec<usize>) = self
            .pending
            .iter()
            .partition(|number| bit(self.notes[**number].board) & boards != 0);
        self.pending = others;
        for number in &ours {
            self.notes[*number].state = state;
        }
        if state == State::Undone {
            for number in &ours {
                self.check_readers(*number)?;
                self.restore_cells(*number);
            }
        }
        Ok(())
    }

    fn check_readers(&self, number: usize) -> Result<(), String> {
        let Access::Write { readers, .. } = &self.notes[number].access else {
            return Ok(());
        };
        match readers
            .iter()
            .find(|reader| self.notes[**reader].state != State::Undone)
        {
            None => Ok(()),
            Some(reader) => Err(format!(
                "a read of board {} is {:?} but noted with an undone write of board {}",
                self.notes[*reader].board, self.notes[*reader].state, self.notes[number].board
            )),
        }
    }

    /// The bytes of an undone write's cells go back to the last write that
    /// stands.
    fn restore_cells(&mut self, number: usize) {
        let Access::Write { cell, bytes, .. } = &self.notes[number].access else {
            return;
        };
        for cell in *cell..*cell + bytes.len() {
            let standing = self.last_write(cell);
            self.bytes[cell] = match standing.map(|number| &self.notes[number].access) {
                Some(Access::Write {
                    cell: first, bytes, ..
                }) => bytes[cell - first],
                _ => 0,
            };
        }
    }
}
