//! The states that an event file goes through, and how to make others of them
//! that no list of calls leaves.

use crate::lines::{self, Room, LONGEST};
use crate::module::{Record, Shape, TAGS};
use crate::player::{Player, MOST_LINES};
use crate::random::Random;

#[derive(Clone)]
pub struct State {
    pub image: Vec<u8>,
    pub record: Record,
}

/// Plays a whole file; after so many of a thousand lines the check looks at
/// the state there. The first difference is an error.
pub fn at_points(
    mut input: &[u8],
    seed: u64,
    often: usize,
    mut check: impl FnMut(State) -> Result<(), String>,
) -> Result<(), String> {
    let mut random = Random::new(!seed);
    let mut player = Player::default();
    let mut line = Vec::new();
    while player.number < MOST_LINES && lines::next_line(&mut input, &mut line).unwrap_or(false) {
        let mut room: Room = [0; LONGEST / 2];
        player.play(lines::parse(&line, &mut room).as_ref());
        if random.per_mille(often) {
            let state = State {
                image: player.image.clone(),
                record: player.record,
            };
            check(state).map_err(|what| format!("after line {}: {what}", player.number))?;
        }
    }
    Ok(())
}

impl State {
    /// A scrambled copy, and a spoilt one of this state or of that copy.
    pub fn others(&self, random: &mut Random, shape: &Shape) -> [State; 2] {
        let mut scrambled = self.clone();
        scrambled.scramble(random, shape);
        let mut spoilt = random.pick(&[self, &scrambled]).clone();
        spoilt.spoil(random, shape);
        [scrambled, spoilt]
    }

    pub fn tags(&self, shape: &Shape) -> impl Iterator<Item = usize> + '_ {
        let tags = &self.image[TAGS..][..shape.blocks];
        tags.iter().map(|tag| usize::from(*tag))
    }

    pub fn tag_above(&self, shape: &Shape) -> bool {
        self.tags(shape).any(|tag| tag > shape.boards)
    }

    /// Random rows and tags, sometimes a commit open.
    fn scramble(&mut self, random: &mut Random, shape: &Shape) {
        let boards = shape.boards;
        let all = ((1_u32 << boards) - 1) as u16;
        let mut record = Record::on();
        let sparse = random.below(6);
        for (i, row) in record.rows[..boards].iter_mut().enumerate() {
            *row = all & !(1 << i);
            for _ in 0..sparse {
                *row &= random.below(65_536) as u16;
            }
        }
        if boards > 1 && random.per_mille(200) {
            let starter = random.below(boards);
            let other = (starter + random.within(1, boards - 1)) % boards;
            record.starter = starter as u16;
            record.acknowledged = 1 << starter;
            record.members = 1 << starter | 1 << other | all & random.below(65_536) as u16;
        }
        self.record = record;
        let written = random.pick(&[0, 100, 500, 1000]);
        for tag in &mut self.image[TAGS..][..shape.blocks] {
            *tag = 0;
            if random.per_mille(written) {
                *tag = random.within(1, boards) as u8;
            }
        }
    }

    /// Something of header, length, tags or record becomes another, one to
    /// three times.
    fn spoil(&mut self, random: &mut Random, shape: &Shape) {
        let State { image, record } = self;
        for _ in 0..random.pick(&[1, 1, 2, 3]) {
            let bit = 1 << random.below(16);
            let board = random.below(16);
            match random.below(12) {
                0 => image[random.below(12)] ^= 1 << random.below(8),
                1 => image[9] = random.pick(&[1, 2, 255]),
                2..=4 => {
                    let above = random.within(shape.boards + 1, 255);
                    image[TAGS + random.below(shape.blocks)] = above as u8;
                }
                5 => record.on = false,
                6 => record.rows[board] ^= bit,
                7 => record.rows[board] |= 1 << board,
                8 => record.members ^= bit,
                9 => record.acknowledged ^= bit,
                10 => record.acknowledged = record.members,
                _ => record.starter = random.pick(&[0, 1, board as u16, 16, 255]),
            }
        }
        if random.per_mille(100) {
            let length = image.len();
            image.resize(random.pick(&[0, 11, 12, length - 1, length + 1]), 0);
        }
    }
}
