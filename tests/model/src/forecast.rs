//! The forecasts of Req 02 of document 02: group and stores of a board's
//! whole commit, and of its fault, worked out without making the calls.

use crate::module::{self, Record, Shape};

/// What a forecast answers; `code` is DONE or the refusal.
#[derive(Clone, Copy, Debug, Default, PartialEq, Eq)]
pub struct Forecast {
    pub code: u8,
    pub group: u16,
    pub stores: u32,
}

impl Forecast {
    fn of(figures: Result<(u16, usize), u8>) -> Forecast {
        match figures {
            Ok((group, stores)) => Forecast {
                group,
                stores: stores as u32,
                ..Forecast::default()
            },
            Err(code) => Forecast {
                code,
                ..Forecast::default()
            },
        }
    }
}

/// The members of the commit that a start made next would open, and the
/// stores of that start and its acknowledgements. Refused 11, 12, 1, 14.
pub fn commit(image: &[u8], record: &Record, board: usize) -> Forecast {
    Forecast::of(try_commit(image, record, board))
}

fn try_commit(image: &[u8], record: &Record, board: usize) -> Result<(u16, usize), u8> {
    let shape = module::begin(image, record, board)?;
    if record.members != 0 {
        return Err(14);
    }
    let group = record.commit_group(board);
    // Every member's K bytes, once given and once kept.
    let contexts = group.count_ones() as usize * shape.context;
    // Bytes 10 and 11, and byte 9 twice.
    let decision = 4;
    let saved = blocks(image, &shape, group) * (shape.size() + 1);
    Ok((group, contexts + decision + saved + contexts))
}

/// The group and the stores of a fault made next. Refused 11, 12, 1.
pub fn fault(image: &[u8], record: &Record, board: usize) -> Forecast {
    Forecast::of(try_fault(image, record, board))
}

fn try_fault(image: &[u8], record: &Record, board: usize) -> Result<(u16, usize), u8> {
    let shape = module::begin(image, record, board)?;
    let group = record.fault_group(board);
    let restored = blocks(image, &shape, group) * (shape.size() + 1);
    Ok((group, restored))
}

/// How many blocks are tagged in the group. A tag above P is nobody's.
fn blocks(image: &[u8], shape: &Shape, group: u16) -> usize {
    let tags = &image[module::TAGS..][..shape.blocks];
    tags.iter()
        .filter(|tag| module::tagged(**tag, group))
        .count()
}
