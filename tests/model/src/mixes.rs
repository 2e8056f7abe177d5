//! The event files of the benchmark: one format of P = 16, S = 16,
//! B = 1,024, K = 64, then lines that are nearly all taken.

use crate::lines::{self, Room, LONGEST};
use crate::player::Player;
use crate::random::Random;
use std::io::Write;

const BOARDS: usize = 16;
const SIZE: usize = 16;
const BLOCKS: usize = 1024;
const CONTEXT: usize = 64;

/// How often what happens while no commit is open, per mille; the rest are
/// starts. `away` is how often a board leaves its own blocks.
struct Mix {
    read: usize,
    write: usize,
    fault: usize,
    power_up: usize,
    cut: usize,
    away: usize,
}

fn mix(name: &str) -> Option<Mix> {
    Some(match name {
        "mixed" => Mix {
            read: 480,
            write: 430,
            fault: 30,
            power_up: 5,
            cut: 5,
            away: 150,
        },
        "commit" => Mix {
            read: 150,
            write: 650,
            fault: 0,
            power_up: 0,
            cut: 0,
            away: 300,
        },
        "fault" => Mix {
            read: 150,
            write: 550,
            fault: 230,
            power_up: 50,
            cut: 10,
            away: 150,
        },
        "read" => Mix {
            read: 950,
            write: 42,
            fault: 3,
            power_up: 1,
            cut: 0,
            away: 30,
        },
        _ => return None,
    })
}

/// An event file of so many lines, or None for a mix that is none.
pub fn events(seed: u64, lines: usize, name: &str) -> Option<Vec<u8>> {
    // The mix of long chains has no rates.
    let rates = match name {
        "chain" => None,
        _ => Some(mix(name)?),
    };
    let mut random = Random::new(seed);
    let mut player = Player::default();
    let mut out = Vec::new();
    let mut line = Vec::new();
    let mut after_z = false;
    for number in 0..lines {
        line.clear();
        if number == 0 {
            put(
                &mut line,
                format_args!("F,{BOARDS},{SIZE},{BLOCKS},{CONTEXT}"),
            );
        } else if let Some(mix) = &rates {
            if !after_z && random.per_mille(mix.cut) {
                put(&mut line, format_args!("Z,{}", random.below(80)));
            } else {
                next_call(&mut line, &mut random, &player, mix);
            }
        } else {
            chain_call(&mut line, &mut random, number - 1);
        }
        let mut room: Room = [0; LONGEST / 2];
        player.play(lines::parse(&line, &mut room).as_ref());
        after_z = line[0] == b'Z';
        out.extend_from_slice(&line);
        out.push(b'\n');
    }
    Some(out)
}

fn put(line: &mut Vec<u8>, text: std::fmt::Arguments) {
    line.write_fmt(text).expect("memory can be written");
}

fn put_bytes(line: &mut Vec<u8>, random: &mut Random, count: usize) {
    for _ in 0..count {
        put(line, format_args!("{:02X}", random.below(256)));
    }
}

/// A call that is taken.
fn next_call(line: &mut Vec<u8>, random: &mut Random, player: &Player, mix: &Mix) {
    let record = &player.record;
    let missing = record.members & !record.acknowledged;
    if missing != 0 {
        // An open commit is acknowledged to its end.
        put(line, format_args!("A,{},", missing.trailing_zeros()));
        return put_bytes(line, random, CONTEXT);
    }
    let board = random.below(BOARDS);
    let home = if random.per_mille(mix.away) {
        random.below(BOARDS)
    } else {
        board
    };
    // Most accesses meet in a few blocks, so that boards come to depend on
    // each other.
    let near = random.per_mille(600);
    let block = home + BOARDS * random.below(if near { 3 } else { BLOCKS / BOARDS });
    let n = random.within(1, SIZE);
    let cell = block * SIZE + random.below(SIZE - n + 1);
    let roll = random.below(1000);
    if roll < mix.read {
        put(line, format_args!("R,{board},{cell},{n}"));
    } else if roll < mix.read + mix.write {
        put(line, format_args!("W,{board},{cell},"));
        put_bytes(line, random, n);
    } else if roll < mix.read + mix.write + mix.fault {
        put(line, format_args!("X,{board}"));
    } else if roll < mix.read + mix.write + mix.fault + mix.power_up {
        line.push(b'U');
    } else {
        // Mostly by a board that depends on others, if there is one.
        let mut starter = board;
        if random.per_mille(700) {
            let next = (0..BOARDS)
                .map(|i| (board + i) % BOARDS)
                .find(|i| record.rows[*i] != 0);
            starter = next.unwrap_or(board);
        }
        put(line, format_args!("C,{starter},"));
        put_bytes(line, random, CONTEXT);
    }
}

/// The mix of long chains, in rounds of twenty lines: the boards, up or down,
/// write in turn to one block, by which each and the one before it come to
/// depend on each other; the last reads and starts a commit, the first
/// faults, which drops the commit, and some board reads. Both groups are all
/// sixteen boards.
fn chain_call(line: &mut Vec<u8>, random: &mut Random, since_format: usize) {
    let (round, turn) = (since_format / 20, since_format % 20);
    let along = |i: usize| {
        if round % 2 == 0 {
            i
        } else {
            BOARDS - 1 - i
        }
    };
    let (first, last) = (along(0), along(BOARDS - 1));
    // Less than a block: a write of all of it would not link both ways.
    let n = random.within(1, SIZE - 1);
    let cell = round % BLOCKS * SIZE + random.below(SIZE - n + 1);
    match turn {
        16 => put(line, format_args!("R,{last},{cell},{n}")),
        17 => {
            put(line, format_args!("C,{last},"));
            put_bytes(line, random, CONTEXT);
        }
        18 => put(line, format_args!("X,{first}")),
        19 => put(line, format_args!("R,{},{cell},{n}", random.below(BOARDS))),
        _ => {
            put(line, format_args!("W,{},{cell},", along(turn)));
            put_bytes(line, random, n);
        }
    }
}
