//! Plays event files by the model and holds each call against the ledger.

use crate::ledger::{Call, Ledger, Told};
use crate::lines::{self, Event, Room, LONGEST};
use crate::module::{self, Answer, CUT, DONE, UNCUT};
use crate::player::{Player, MOST_LINES};

/// Checks one list of calls after another, each from a finished format on.
#[derive(Default)]
pub struct Checker {
    /// None before the first finished format and after a cut one.
    ledger: Option<Ledger>,
    /// A cut call awaits its power-up.
    awaiting: bool,
}

/// Plays a whole file; the number of lines, or the first difference.
pub fn file(mut input: &[u8]) -> Result<u32, String> {
    let mut player = Player::default();
    let mut checker = Checker::default();
    let mut line = Vec::new();
    while player.number < MOST_LINES && lines::next_line(&mut input, &mut line).unwrap_or(false) {
        let mut room: Room = [0; LONGEST / 2];
        let event = lines::parse(&line, &mut room);
        let played = player.play(event.as_ref());
        if let Some(event) = &event {
            checker
                .line(
                    event,
                    played.k,
                    &played.answer,
                    player.bytes(),
                    played.power_up.as_ref(),
                    &player.image,
                )
                .map_err(|what| format!("line {}: {what}", player.number))?;
        }
    }
    Ok(player.number)
}

/// The call of the list that an event is; formats and allowances are none.
pub(crate) fn call_of<'a>(event: &Event<'a>) -> Option<Call<'a>> {
    Some(match *event {
        Event::Allowance(_) | Event::Format(_) => return None,
        Event::Read { board, cell, n } => Call::Read {
            board: board.into(),
            cell: cell.into(),
            n: n.into(),
        },
        Event::Write { board, cell, bytes } => Call::Write {
            board: board.into(),
            cell: cell.into(),
            bytes,
        },
        Event::Start { board, bytes } => Call::Start {
            board: board.into(),
            context: bytes,
        },
        Event::Acknowledge { board, bytes } => Call::Acknowledge {
            board: board.into(),
            context: bytes,
        },
        Event::Fault { board } => Call::Fault {
            board: board.into(),
        },
        Event::PowerUp => Call::PowerUp,
    })
}

impl Checker {
    /// One line with its answer, the power-up that followed it, if any, and
    /// the image afterwards.
    pub fn line(
        &mut self,
        event: &Event,
        k: u32,
        answer: &Answer,
        bytes: &[u8],
        power_up: Option<&Answer>,
        image: &[u8],
    ) -> Result<(), String> {
        if let Event::Format(numbers) = *event {
            self.format(numbers, answer);
        }
        if let Some(call) = call_of(event) {
            self.tell(call, k, answer, bytes)?;
            if let Some(answer) = power_up {
                self.tell(Call::PowerUp, UNCUT, answer, &[])?;
            }
        }
        self.compare_image(image)
    }

    /// One call, which need not be a line's, and the image afterwards.
    pub fn call(
        &mut self,
        call: Call,
        k: u32,
        answer: &Answer,
        bytes: &[u8],
        image: &[u8],
    ) -> Result<(), String> {
        self.tell(call, k, answer, bytes)?;
        self.compare_image(image)
    }

    fn format(&mut self, numbers: [u16; 4], answer: &Answer) {
        let [boards, size, blocks, context] = numbers.map(usize::from);
        match answer.code {
            DONE => {
                self.ledger = Some(Ledger::new(boards, size, blocks, context));
                self.awaiting = false;
            }
            CUT => self.ledger = None,
            _ => {}
        }
    }

    /// Tells the ledger and holds the answer against its verdict.
    fn tell(&mut self, call: Call, k: u32, answer: &Answer, bytes: &[u8]) -> Result<(), String> {
        let Some(ledger) = &mut self.ledger else {
            return Ok(());
        };
        let told = match answer.code {
            DONE => Told::Done,
            CUT => Told::Cut,
            _ => Told::Refused,
        };
        let verdict = ledger.tell(call, k, told)?;
        if told == Told::Cut {
            self.awaiting = true;
        } else if told == Told::Done && matches!(call, Call::PowerUp) {
            self.awaiting = false;
        }
        if answer.group != verdict.group {
            return Err(format!(
                "{call:?}: group {:04X}, ledger {:04X}",
                answer.group, verdict.group
            ));
        }
        if answer.decided != verdict.decided {
            return Err(format!(
                "{call:?}: decided {}, ledger {}",
                answer.decided, verdict.decided
            ));
        }
        if bytes != verdict.bytes {
            return Err(format!(
                "{call:?}: read {bytes:02X?}, ledger {:02X?}",
                verdict.bytes
            ));
        }
        Ok(())
    }

    /// Cells and contexts, where no cut awaits its power-up.
    fn compare_image(&self, image: &[u8]) -> Result<(), String> {
        let Some(ledger) = &self.ledger else {
            return Ok(());
        };
        if self.awaiting {
            return Ok(());
        }
        let shape = module::header(image, 0).ok_or("the image has no sound header")?;
        let current = &image[shape.current()..shape.recovery()];
        if current != ledger.cells() {
            let cell = current
                .iter()
                .zip(ledger.cells())
                .position(|(a, b)| a != b)
                .unwrap_or(0);
            return Err(format!(
                "cell {cell} holds {:02X}, ledger {:02X}",
                current[cell],
                ledger.cells()[cell]
            ));
        }
        for (board, kept) in ledger.contexts().iter().enumerate() {
            let context =
                module::context(image, board).map_err(|n| format!("context refused {n}"))?;
            if context != kept {
                return Err(format!(
                    "context of board {board} is {context:02X?}, ledger {kept:02X?}"
                ));
            }
        }
        Ok(())
    }
}
