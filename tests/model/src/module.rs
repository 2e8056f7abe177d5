//! The memory module of document 01 over a lent image, with Req 01, 03 and
//! 06 of document 02.

use std::ops::RangeInclusive;

pub const MARK: [u8; 4] = [0x52, 0x53, 0x4D, 0x31];
pub const DONE: u8 = 0;
pub const CUT: u8 = 9;
/// More than any call stores: the allowance of a call that nothing cuts.
pub const UNCUT: u32 = u32::MAX;

const DECISION: usize = 9;
const GROUP: usize = 10;
pub(crate) const TAGS: usize = 12;
const ALL: u16 = 0xFFFF;
/// The most cells of a port access.
const PORT_CELLS: usize = 4;

/// The numbers that lay the image out.
#[derive(Clone, Copy, Debug, PartialEq, Eq)]
pub struct Shape {
    pub boards: usize,
    pub power: u8,
    pub blocks: usize,
    pub context: usize,
}

impl Shape {
    /// The numbers may be any.
    pub fn new(boards: usize, size: usize, blocks: usize, context: usize) -> Option<Shape> {
        let allowed = (1..=16).contains(&boards)
            && size.is_power_of_two()
            && size <= 64
            && (1..=1024).contains(&blocks)
            && blocks * size <= 16_384
            && context <= 64;
        allowed.then(|| Shape {
            boards,
            power: size.trailing_zeros() as u8,
            blocks,
            context,
        })
    }

    pub fn size(&self) -> usize {
        1 << self.power
    }
    pub fn cells(&self) -> usize {
        self.blocks << self.power
    }
    pub fn current(&self) -> usize {
        TAGS + self.blocks
    }
    pub fn recovery(&self) -> usize {
        self.current() + self.cells()
    }
    fn tentative_context(&self, board: usize) -> usize {
        self.recovery() + self.cells() + board * self.context
    }
    fn recovery_context(&self, board: usize) -> usize {
        self.tentative_context(self.boards + board)
    }
    pub fn length(&self) -> usize {
        self.recovery_context(self.boards)
    }
    /// The bits that stand for no board.
    fn beyond(&self) -> u16 {
        ((0xFFFF_u32 << self.boards) & 0xFFFF) as u16
    }
}

/// Who makes an access: a board, or the fitter's service port.
#[derive(Clone, Copy, Debug, PartialEq, Eq)]
pub enum Requester {
    Board(usize),
    Port,
}

impl Requester {
    /// The board whose access it is; the port uses the last board number.
    fn board(self, shape: &Shape) -> usize {
        match self {
            Requester::Board(board) => board,
            Requester::Port => shape.boards - 1,
        }
    }
}

/// The volatile record; the default is the off record.
#[derive(Clone, Copy, Debug, Default, PartialEq, Eq)]
pub struct Record {
    pub on: bool,
    pub rows: [u16; 16],
    pub starter: u16,
    pub members: u16,
    pub acknowledged: u16,
}

impl Record {
    pub fn off() -> Record {
        Record::default()
    }
    pub fn on() -> Record {
        Record {
            on: true,
            ..Record::default()
        }
    }

    /// Refusal 12 when this is false.
    pub(crate) fn sound(&self, shape: &Shape) -> bool {
        let beyond = shape.beyond();
        let mut seen = self.members | self.acknowledged;
        let mut own = 0;
        for (i, row) in self.rows.iter().enumerate() {
            seen |= row;
            own |= row & (1 << i);
        }
        let commit = if self.members == 0 {
            self.starter == 0 && self.acknowledged == 0
        } else {
            self.acknowledged & !self.members == 0
                && self.acknowledged != self.members
                && self.starter < 16
                && self.acknowledged >> self.starter & 1 == 1
        };
        self.on
            && seen & beyond == 0
            && own == 0
            && self.rows[shape.boards..].iter().all(|row| *row == 0)
            && commit
    }

    fn depend(mut self, board: usize, on: usize) -> Record {
        self.rows[board] |= 1 << on;
        self
    }

    pub(crate) fn commit_group(&self, board: usize) -> u16 {
        let mut group = 1_u16 << board;
        let mut open = group;
        while open != 0 {
            let next = self.rows[open.trailing_zeros() as usize] & !group;
            open &= open - 1;
            open |= next;
            group |= next;
        }
        group
    }

    pub(crate) fn fault_group(&self, board: usize) -> u16 {
        let mut group = 1_u16 << board;
        loop {
            let before = group;
            for (i, row) in self.rows.iter().enumerate() {
                if row & group != 0 {
                    group |= 1 << i;
                }
            }
            if group == before {
                return group;
            }
        }
    }

    /// Empties the group's rows and columns and drops an open commit with a
    /// member in the group.
    fn clear(mut self, group: u16) -> Record {
        for (i, row) in self.rows.iter_mut().enumerate() {
            *row = if group >> i & 1 == 1 {
                0
            } else {
                *row & !group
            };
        }
        if self.members & group != 0 {
            self.starter = 0;
            self.members = 0;
            self.acknowledged = 0;
        }
        self
    }
}

/// What a call answers, bytes read apart. `code` is DONE, CUT or the refusal.
#[derive(Clone, Copy, Debug, Default, PartialEq, Eq)]
pub struct Answer {
    pub code: u8,
    pub decided: bool,
    pub group: u16,
    pub stores: u32,
}

impl Answer {
    pub fn refused(code: u8) -> Answer {
        Answer {
            code,
            ..Answer::default()
        }
    }
}

struct Cut;

/// The one way to the image: each store tests and counts down the allowance.
struct Stores<'a> {
    image: &'a mut [u8],
    left: u32,
    made: u32,
    decided: bool,
}

impl<'a> Stores<'a> {
    fn new(image: &'a mut [u8], left: u32) -> Stores<'a> {
        Stores {
            image,
            left,
            made: 0,
            decided: false,
        }
    }

    fn put(&mut self, at: usize, byte: u8) -> Result<(), Cut> {
        if self.left == 0 {
            return Err(Cut);
        }
        self.left -= 1;
        self.made += 1;
        self.image[at] = byte;
        Ok(())
    }

    fn put_all(&mut self, at: usize, bytes: &[u8]) -> Result<(), Cut> {
        for (i, byte) in bytes.iter().enumerate() {
            self.put(at + i, *byte)?;
        }
        Ok(())
    }

    fn copy(&mut self, from: usize, to: usize, length: usize) -> Result<(), Cut> {
        for i in 0..length {
            let byte = self.image[from + i];
            self.put(to + i, byte)?;
        }
        Ok(())
    }

    /// Each block tagged in the group, ascending: S bytes from one bank to
    /// the other, then tag 0.
    fn copy_blocks(
        &mut self,
        shape: &Shape,
        group: u16,
        from: usize,
        to: usize,
    ) -> Result<(), Cut> {
        for block in 0..shape.blocks {
            if tagged(self.image[TAGS + block], group) {
                let at = block << shape.power;
                self.copy(from + at, to + at, shape.size())?;
                self.put(TAGS + block, 0)?;
            }
        }
        Ok(())
    }

    fn decide(&mut self, group: u16) -> Result<(), Cut> {
        self.put_all(GROUP, &group.to_le_bytes())?;
        self.put(DECISION, 1)?;
        self.decided = true;
        Ok(())
    }

    /// All that follows the deciding store.
    fn carry_out(&mut self, shape: &Shape, group: u16) -> Result<(), Cut> {
        self.copy_blocks(shape, group, shape.current(), shape.recovery())?;
        for board in (0..shape.boards).filter(|board| group >> board & 1 == 1) {
            self.copy(
                shape.tentative_context(board),
                shape.recovery_context(board),
                shape.context,
            )?;
        }
        self.put(DECISION, 0)
    }

    fn roll_back(&mut self, shape: &Shape, group: u16) -> Result<(), Cut> {
        self.copy_blocks(shape, group, shape.recovery(), shape.current())
    }

    /// Done with the group and the next record, or cut with the record off.
    fn answer(&self, result: Result<(), Cut>, group: u16, next: Record) -> (Answer, Record) {
        let (code, group, next) = match result {
            Ok(()) => (DONE, group, next),
            Err(Cut) => (CUT, 0, Record::off()),
        };
        (
            Answer {
                code,
                decided: self.decided,
                group,
                stores: self.made,
            },
            next,
        )
    }
}

/// Whether a tag names a board of the group; 0 and tags above 16 name none.
pub(crate) fn tagged(tag: u8, group: u16) -> bool {
    tag <= 16 && (u32::from(group) << 1) >> tag & 1 == 1
}

/// The shape of a sound image with byte 9 at most `decision`.
pub fn header(image: &[u8], decision: u8) -> Option<Shape> {
    let head = image.get(..TAGS)?;
    if head[..4] != MARK || head[5] > 6 || head[DECISION] > decision {
        return None;
    }
    let blocks = u16::from_le_bytes([head[6], head[7]]);
    let shape = Shape::new(head[4].into(), 1 << head[5], blocks.into(), head[8].into())?;
    (image.len() == shape.length()).then_some(shape)
}

/// The tests that begin every call by a board: 11, 12, 1.
pub(crate) fn begin(image: &[u8], record: &Record, board: usize) -> Result<Shape, u8> {
    let (shape, _) = begin_as(image, record, Requester::Board(board))?;
    Ok(shape)
}

/// The same tests by board or port; gives the board too.
fn begin_as(image: &[u8], record: &Record, requester: Requester) -> Result<(Shape, usize), u8> {
    let shape = header(image, 0).ok_or(11)?;
    if !record.sound(&shape) {
        return Err(12);
    }
    let board = requester.board(&shape);
    if board >= shape.boards {
        return Err(1);
    }
    Ok((shape, board))
}

/// The blocks that an access touches: one, or two neighbours.
#[derive(Clone, Copy, Debug, PartialEq, Eq)]
pub struct Touched {
    pub first: usize,
    pub last: usize,
}

impl Touched {
    /// Of n cells, at least one, from `cell` on.
    pub fn of(shape: &Shape, cell: usize, n: usize) -> Touched {
        Touched {
            first: cell >> shape.power,
            last: (cell + n - 1) >> shape.power,
        }
    }

    pub fn blocks(self) -> RangeInclusive<usize> {
        self.first..=self.last
    }

    /// Whether there is a border between the first cell and the last one.
    pub fn straddles(self) -> bool {
        self.first != self.last
    }
}

/// Refusal 2, else the first and the last block of the access.
fn place(shape: &Shape, cell: usize, n: usize) -> Result<Touched, u8> {
    let inside = n >= 1 && n <= shape.size() && cell < shape.cells() && cell + n <= shape.cells();
    if inside {
        Ok(Touched::of(shape, cell, n))
    } else {
        Err(2)
    }
}

/// The first tests of an access: 11, 12, 1, 2, and 17, for the port only.
/// Gives the shape, the board and the blocks.
fn enter(
    image: &[u8],
    record: &Record,
    requester: Requester,
    cell: usize,
    n: usize,
) -> Result<(Shape, usize, Touched), u8> {
    let (shape, board) = begin_as(image, record, requester)?;
    let touched = place(&shape, cell, n)?;
    if requester == Requester::Port && n > PORT_CELLS {
        return Err(17);
    }
    Ok((shape, board, touched))
}

/// Whether n cells from `cell` on overwrite the block whole. If not, it is a
/// short write: what the block then holds is not all the writer's. Each block
/// is judged by itself, so a straddling write overwrites neither whole.
fn whole(shape: &Shape, block: usize, cell: usize, n: usize) -> bool {
    let first = block << shape.power;
    cell <= first && first + shape.size() <= cell + n
}

/// The block's writer other than `board`; refuses 11 a tag above P.
fn other_writer(
    image: &[u8],
    shape: &Shape,
    board: usize,
    block: usize,
) -> Result<Option<usize>, u8> {
    let tag = usize::from(image[TAGS + block]);
    if tag > shape.boards {
        return Err(11);
    }
    Ok((tag != 0 && tag != board + 1).then(|| tag - 1))
}

pub fn read(
    image: &[u8],
    record: Record,
    requester: Requester,
    cell: usize,
    n: usize,
    answer: &mut [u8],
) -> (Answer, Record) {
    match try_read(image, record, requester, cell, n, answer) {
        Ok(next) => (Answer::default(), next),
        Err(code) => (Answer::refused(code), record),
    }
}

fn try_read(
    image: &[u8],
    record: Record,
    requester: Requester,
    cell: usize,
    n: usize,
    answer: &mut [u8],
) -> Result<Record, u8> {
    let (shape, board, touched) = enter(image, &record, requester, cell, n)?;
    let room = answer.get_mut(..n).ok_or(5)?;
    let mut next = record;
    for block in touched.blocks() {
        if let Some(j) = other_writer(image, &shape, board, block)? {
            next = next.depend(board, j);
        }
    }
    if record.members >> board & 1 == 1 {
        return Err(13);
    }
    let at = shape.current() + cell;
    room.copy_from_slice(&image[at..at + n]);
    Ok(next)
}

pub fn write(
    image: &mut [u8],
    record: Record,
    requester: Requester,
    cell: usize,
    bytes: &[u8],
    k: u32,
) -> (Answer, Record) {
    try_write(image, record, requester, cell, bytes, k)
        .unwrap_or_else(|code| (Answer::refused(code), record))
}

fn try_write(
    image: &mut [u8],
    record: Record,
    requester: Requester,
    cell: usize,
    bytes: &[u8],
    k: u32,
) -> Result<(Answer, Record), u8> {
    let (shape, board, touched) = enter(image, &record, requester, cell, bytes.len())?;
    let mut writers = 1_u16 << board;
    let mut next = record;
    for block in touched.blocks() {
        if let Some(j) = other_writer(image, &shape, board, block)? {
            writers |= 1 << j;
            next = next.depend(j, board);
            if !whole(&shape, block, cell, bytes.len()) {
                next = next.depend(board, j);
            }
        }
    }
    if record.members & writers != 0 {
        return Err(13);
    }
    let mut stores = Stores::new(image, k);
    let result = write_stores(&mut stores, &shape, board, cell, touched, bytes);
    Ok(stores.answer(result, 0, next))
}

/// The tags that differ, then the bytes. No store changes another block's
/// tag, so each is still as it was at entry when it is looked at.
fn write_stores(
    stores: &mut Stores,
    shape: &Shape,
    board: usize,
    cell: usize,
    touched: Touched,
    bytes: &[u8],
) -> Result<(), Cut> {
    let tag = board as u8 + 1;
    for block in touched.blocks() {
        if stores.image[TAGS + block] != tag {
            stores.put(TAGS + block, tag)?;
        }
    }
    stores.put_all(shape.current() + cell, bytes)
}

pub fn start(
    image: &mut [u8],
    record: Record,
    board: usize,
    context: &[u8],
    k: u32,
) -> (Answer, Record) {
    try_start(image, record, board, context, k)
        .unwrap_or_else(|code| (Answer::refused(code), record))
}

fn try_start(
    image: &mut [u8],
    record: Record,
    board: usize,
    context: &[u8],
    k: u32,
) -> Result<(Answer, Record), u8> {
    let shape = begin(image, &record, board)?;
    if context.len() != shape.context {
        return Err(3);
    }
    if record.members != 0 {
        return Err(14);
    }
    let opened = Record {
        starter: board as u16,
        members: record.commit_group(board),
        acknowledged: 1 << board,
        ..record
    };
    Ok(commit(image, opened, &shape, board, context, k))
}

pub fn acknowledge(
    image: &mut [u8],
    record: Record,
    board: usize,
    context: &[u8],
    k: u32,
) -> (Answer, Record) {
    try_acknowledge(image, record, board, context, k)
        .unwrap_or_else(|code| (Answer::refused(code), record))
}

fn try_acknowledge(
    image: &mut [u8],
    record: Record,
    board: usize,
    context: &[u8],
    k: u32,
) -> Result<(Answer, Record), u8> {
    let shape = begin(image, &record, board)?;
    if context.len() != shape.context {
        return Err(3);
    }
    if record.members >> board & 1 == 0 {
        return Err(15);
    }
    if record.acknowledged >> board & 1 == 1 {
        return Err(16);
    }
    let acknowledged = record.acknowledged | 1 << board;
    let opened = Record {
        acknowledged,
        ..record
    };
    Ok(commit(image, opened, &shape, board, context, k))
}

/// What start and acknowledgement share: the context, and all the rest once
/// every member has acknowledged.
fn commit(
    image: &mut [u8],
    opened: Record,
    shape: &Shape,
    board: usize,
    context: &[u8],
    k: u32,
) -> (Answer, Record) {
    let members = opened.members;
    let complete = opened.acknowledged == members;
    let next = if complete {
        opened.clear(members)
    } else {
        opened
    };
    let mut stores = Stores::new(image, k);
    let mut result = stores.put_all(shape.tentative_context(board), context);
    if complete {
        result = result
            .and_then(|()| stores.decide(members))
            .and_then(|()| stores.carry_out(shape, members));
    }
    stores.answer(result, members, next)
}

pub fn fault(image: &mut [u8], record: Record, board: usize, k: u32) -> (Answer, Record) {
    match begin(image, &record, board) {
        Err(code) => (Answer::refused(code), record),
        Ok(shape) => {
            let group = record.fault_group(board);
            let mut stores = Stores::new(image, k);
            let result = stores.roll_back(&shape, group);
            stores.answer(result, group, record.clear(group))
        }
    }
}

pub fn power_up(image: &mut [u8], k: u32) -> (Answer, Record) {
    try_power_up(image, k).unwrap_or_else(|code| (Answer::refused(code), Record::off()))
}

fn try_power_up(image: &mut [u8], k: u32) -> Result<(Answer, Record), u8> {
    let shape = header(image, 1).ok_or(11)?;
    let group = u16::from_le_bytes([image[GROUP], image[GROUP + 1]]);
    let decided = image[DECISION] == 1;
    if image[TAGS..TAGS + shape.blocks]
        .iter()
        .any(|tag| usize::from(*tag) > shape.boards)
    {
        return Err(11);
    }
    if decided && (group == 0 || group & shape.beyond() != 0) {
        return Err(11);
    }
    let mut stores = Stores::new(image, k);
    let mut result = Ok(());
    if decided {
        result = stores.carry_out(&shape, group);
    }
    result = result.and_then(|()| stores.roll_back(&shape, ALL));
    Ok(stores.answer(result, 0, Record::on()))
}

/// `numbers` are P, S, B and K.
pub fn format(image: &mut [u8], record: Record, numbers: [usize; 4], k: u32) -> (Answer, Record) {
    let [boards, size, blocks, context] = numbers;
    let Some(shape) = Shape::new(boards, size, blocks, context) else {
        return (Answer::refused(4), record);
    };
    if image.len() != shape.length() {
        return (Answer::refused(5), record);
    }
    let mut stores = Stores::new(image, k);
    let result = format_stores(&mut stores, &shape);
    stores.answer(result, 0, Record::on())
}

fn format_stores(stores: &mut Stores, shape: &Shape) -> Result<(), Cut> {
    let [low, high] = (shape.blocks as u16).to_le_bytes();
    let head = [
        shape.boards as u8,
        shape.power,
        low,
        high,
        shape.context as u8,
    ];
    stores.put(0, 0)?;
    stores.put_all(1, &MARK[1..])?;
    stores.put_all(4, &head)?;
    for at in DECISION..shape.length() {
        stores.put(at, 0)?;
    }
    stores.put(0, MARK[0])
}

/// A board's recovery context as the part of the image itself.
pub fn context(image: &[u8], board: usize) -> Result<&[u8], u8> {
    let shape = header(image, 0).ok_or(11)?;
    if board >= shape.boards {
        return Err(1);
    }
    let at = shape.recovery_context(board);
    Ok(&image[at..at + shape.context])
}

/// Whether two images have the same shape and recovery state.
pub fn same(first: &[u8], second: &[u8]) -> Result<bool, u8> {
    let shape = header(first, 0).ok_or(11)?;
    let other = header(second, 0).ok_or(11)?;
    let contexts = shape.recovery_context(0);
    Ok(shape == other
        && first[shape.recovery()..][..shape.cells()]
            == second[shape.recovery()..][..shape.cells()]
        && first[contexts..] == second[contexts..])
}
