//! The order of Req 07 of document 02: the strongly connected components of
//! the boards' dependences, which that document calls circles, in the order in
//! which the boards shall save.

use crate::lines::{self, Room, LONGEST};
use crate::module::{self, Record, DONE};
use crate::player::{Player, MOST_LINES};
use std::io::{self, BufRead, Write};

/// What the call answers; `code` is DONE or the refusal.
#[derive(Clone, Copy, Debug, Default, PartialEq, Eq)]
pub struct Taken {
    pub code: u8,
    pub count: usize,
}

/// Puts the components, in their order, into the first of the lent masks; the
/// others stay as they are. Refused 11, 12, 14; then all stay.
pub fn take(image: &[u8], record: &Record, masks: &mut [u16; 16]) -> Taken {
    match try_take(image, record) {
        Ok(order) => {
            masks[..order.len()].copy_from_slice(&order);
            Taken {
                code: DONE,
                count: order.len(),
            }
        }
        Err(code) => Taken {
            code,
            ..Taken::default()
        },
    }
}

fn try_take(image: &[u8], record: &Record) -> Result<Vec<u16>, u8> {
    let shape = module::header(image, 0).ok_or(11)?;
    if !record.sound(&shape) {
        return Err(12);
    }
    if record.members != 0 {
        return Err(14);
    }
    Ok(in_order(&record.rows, shape.boards))
}

/// Again and again the component of the lowest board left that depends on no
/// board left but those of its component.
fn in_order(rows: &[u16; 16], boards: usize) -> Vec<u16> {
    let chains = chains(rows);
    let mut left = mask(0..boards);
    let mut order = Vec::new();
    while left != 0 {
        let component = (0..boards)
            .filter(|i| left >> i & 1 == 1)
            .find_map(|i| {
                let needed = mask((0..boards).filter(|j| chains[i][*j]));
                let component = mask((0..boards).filter(|j| chains[i][*j] && chains[*j][i]));
                (needed & left & !component == 0).then_some(component)
            })
            .expect("some component depends on no other one");
        order.push(component);
        left &= !component;
    }
    order
}

/// `[i][j]`: i is j, or a chain of dependences leads from i to j.
fn chains(rows: &[u16; 16]) -> [[bool; 16]; 16] {
    let mut chains = [[false; 16]; 16];
    for (i, chains) in chains.iter_mut().enumerate() {
        for (j, chain) in chains.iter_mut().enumerate() {
            *chain = i == j || rows[i] >> j & 1 == 1;
        }
    }
    for through in 0..16 {
        for i in 0..16 {
            for j in 0..16 {
                chains[i][j] |= chains[i][through] && chains[through][j];
            }
        }
    }
    chains
}

fn mask(boards: impl Iterator<Item = usize>) -> u16 {
    boards.fold(0, |mask, board| mask | 1 << board)
}

/// The whole program `rsmorder`.
pub fn run(input: &mut impl BufRead, output: &mut impl Write) -> io::Result<()> {
    let mut player = Player::default();
    let mut line = Vec::with_capacity(2 * LONGEST);
    while player.number < MOST_LINES && lines::next_line(input, &mut line)? {
        let mut room: Room = [0; LONGEST / 2];
        player.play(lines::parse(&line, &mut room).as_ref());
    }
    let mut masks = [0; 16];
    let taken = take(&player.image, &player.record, &mut masks);
    if taken.code != DONE {
        writeln!(output, "{}", taken.code)?;
    }
    for component in &masks[..taken.count] {
        writeln!(output, "{component:04X}")?;
    }
    output.flush()
}

/// The order after a file held in memory.
pub fn order(mut input: &[u8]) -> Vec<u8> {
    let mut output = Vec::new();
    run(&mut input, &mut output).expect("memory can be read and written");
    output
}
