//! The program `rsmrun`: plays event lines on one image and record.

use crate::lines::{self, Event, Room, LONGEST};
use crate::module::{self, Answer, Record, Requester, Shape, CUT, UNCUT};
use std::io::{self, BufRead, Write};

/// The program stops after so many lines.
pub const MOST_LINES: u32 = 99_999;

/// What one line led to.
#[derive(Clone, Copy, Debug)]
pub struct Played {
    pub answer: Answer,
    /// The allowance that the line had.
    pub k: u32,
    /// The power-up that followed a cut.
    pub power_up: Option<Answer>,
}

#[derive(Clone)]
pub struct Player {
    pub image: Vec<u8>,
    pub record: Record,
    /// Set by a Z line for the next line.
    allowance: Option<u16>,
    /// Number of the last line.
    pub number: u32,
    bytes: [u8; 64],
    count: usize,
}

impl Default for Player {
    fn default() -> Player {
        Player {
            image: Vec::new(),
            record: Record::off(),
            allowance: None,
            number: 0,
            bytes: [0; 64],
            count: 0,
        }
    }
}

impl Player {
    /// The bytes read by the last line.
    pub fn bytes(&self) -> &[u8] {
        &self.bytes[..self.count]
    }

    /// Plays a line that was taken apart, or could not be (None).
    pub fn play(&mut self, event: Option<&Event>) -> Played {
        self.number += 1;
        self.count = 0;
        let k = self.allowance.take().map_or(UNCUT, u32::from);
        let image = &mut self.image;
        let (answer, next) = match event {
            None => (Answer::refused(6), self.record),
            Some(Event::Allowance(allowance)) => {
                self.allowance = Some(*allowance);
                (Answer::default(), self.record)
            }
            Some(Event::Format(numbers)) => {
                let numbers = numbers.map(usize::from);
                let [boards, size, blocks, context] = numbers;
                if let Some(shape) = Shape::new(boards, size, blocks, context) {
                    image.clear();
                    image.resize(shape.length(), 0);
                }
                module::format(image, self.record, numbers, k)
            }
            Some(Event::Read { board, cell, n }) => {
                let [board, cell, n] = [*board, *cell, *n].map(usize::from);
                let who = Requester::Board(board);
                let (answer, next) =
                    module::read(image, self.record, who, cell, n, &mut self.bytes);
                if answer.code == module::DONE {
                    self.count = n;
                }
                (answer, next)
            }
            Some(Event::Write { board, cell, bytes }) => {
                let [board, cell] = [*board, *cell].map(usize::from);
                let who = Requester::Board(board);
                module::write(image, self.record, who, cell, bytes, k)
            }
            Some(Event::Start { board, bytes }) => {
                module::start(image, self.record, usize::from(*board), bytes, k)
            }
            Some(Event::Acknowledge { board, bytes }) => {
                module::acknowledge(image, self.record, usize::from(*board), bytes, k)
            }
            Some(Event::Fault { board }) => {
                module::fault(image, self.record, usize::from(*board), k)
            }
            Some(Event::PowerUp) => module::power_up(image, k),
        };
        self.record = next;
        let power_up = (answer.code == CUT).then(|| {
            let (answer, next) = module::power_up(&mut self.image, UNCUT);
            self.record = next;
            answer
        });
        Played {
            answer,
            k,
            power_up,
        }
    }

    /// Plays a line and prints its answers.
    pub fn line(&mut self, line: &[u8], out: &mut Vec<u8>) {
        let mut room: Room = [0; LONGEST / 2];
        let event = lines::parse(line, &mut room);
        let played = self.play(event.as_ref());
        let letter = event.as_ref().map_or(b'?', Event::letter);
        lines::print(out, self.number, letter, &played.answer, self.bytes());
        if let Some(answer) = &played.power_up {
            lines::print(out, self.number, b'U', answer, &[]);
        }
    }
}

/// The whole program.
pub fn run(input: &mut impl BufRead, output: &mut impl Write) -> io::Result<()> {
    const FULL: usize = 1 << 15;
    let mut player = Player::default();
    let mut line = Vec::with_capacity(2 * LONGEST);
    let mut out = Vec::with_capacity(2 * FULL);
    while player.number < MOST_LINES && lines::next_line(input, &mut line)? {
        player.line(&line, &mut out);
        if out.len() >= FULL {
            output.write_all(&out)?;
            out.clear();
        }
    }
    output.write_all(&out)?;
    output.flush()
}

/// The answers to a file held in memory.
pub fn answers(mut input: &[u8]) -> Vec<u8> {
    let mut output = Vec::new();
    run(&mut input, &mut output).expect("memory can be read and written");
    output
}
