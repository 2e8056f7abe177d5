//! The page of Req 05 of document 02: a line for each decided commit of an
//! event file, and a line of totals.

use crate::lines::{self, Event, Room, LONGEST};
use crate::module::{self, TAGS};
use crate::player::{Player, MOST_LINES};
use std::io::{self, BufRead, Write};

/// So many commits are printed and summed; one more ends the reading.
pub const MOST_COMMITS: usize = 9_999;

/// A commit with what it saves.
#[derive(Clone, Copy, Debug, PartialEq, Eq)]
pub struct Commit {
    pub members: u16,
    pub blocks: usize,
    pub bytes: usize,
}

/// The commit that a start or an acknowledgement belongs to, by image and
/// record before the call: afterwards tags and members may be gone.
fn before(player: &Player, event: Option<&Event>) -> Option<Commit> {
    let shape = module::header(&player.image, 0)?;
    let members = match *event? {
        Event::Start { board, .. } if usize::from(board) < shape.boards => {
            player.record.commit_group(board.into())
        }
        Event::Acknowledge { .. } => player.record.members,
        _ => return None,
    };
    let tags = &player.image[TAGS..][..shape.blocks];
    let blocks = tags
        .iter()
        .filter(|tag| module::tagged(**tag, members))
        .count();
    let boards = members.count_ones() as usize;
    let bytes = blocks * shape.size() + boards * shape.context;
    Some(Commit {
        members,
        blocks,
        bytes,
    })
}

/// Plays a line; the commit that it decided, if it did, done or cut.
pub fn play(player: &mut Player, event: Option<&Event>) -> Option<Commit> {
    let commit = before(player, event);
    let played = player.play(event);
    commit.filter(|_| played.answer.decided)
}

/// The whole program.
pub fn run(input: &mut impl BufRead, output: &mut impl Write) -> io::Result<()> {
    let mut player = Player::default();
    let mut line = Vec::with_capacity(2 * LONGEST);
    let (mut count, mut blocks, mut bytes) = (0, 0, 0);
    while player.number < MOST_LINES && lines::next_line(input, &mut line)? {
        let mut room: Room = [0; LONGEST / 2];
        let event = lines::parse(&line, &mut room);
        let Some(commit) = play(&mut player, event.as_ref()) else {
            continue;
        };
        if count == MOST_COMMITS {
            break;
        }
        count += 1;
        blocks += commit.blocks;
        bytes += commit.bytes;
        writeln!(
            output,
            "{:6} {:04X} {:8} {:10}",
            count, commit.members, commit.blocks, commit.bytes
        )?;
    }
    writeln!(output, "TOTAL  ---- {blocks:8} {bytes:10}")?;
    output.flush()
}

/// The page of a file held in memory.
pub fn page(mut input: &[u8]) -> Vec<u8> {
    let mut output = Vec::new();
    run(&mut input, &mut output).expect("memory can be read and written");
    output
}
