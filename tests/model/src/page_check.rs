//! Holds the page of an event file (Req 05 of document 02) against the
//! ledger, which tells members and blocks of a decided commit, and against
//! the stores of the deciding call, which tell the bytes.

use crate::check::call_of;
use crate::ledger::{Call, Ledger, Told};
use crate::lines::{self, Event, Room, LONGEST};
use crate::module::{self, Answer, Record, Touched, CUT, DONE, TAGS, UNCUT};
use crate::page;
use crate::player::{Played, Player, MOST_LINES};
use crate::reached::Reached;
use std::collections::BTreeSet;

/// What a check over many files has to reach.
const SITUATIONS: &[&str] = &[
    "decided: a start",
    "decided: an acknowledgement",
    "decided: one member",
    "decided: several members",
    "decided: sixteen members",
    "decided: no block",
    "decided: several blocks",
    "decided: a block of a board outside",
    "decided: both blocks of a straddling write",
    "decided: five digits of bytes",
    "decided: K is 0",
    "decided: the file's second shape, or a later one",
    "decided: the last line, without line feed",
    "decided and cut",
    "decided and cut: at the deciding store",
    "decided and cut: before the last store",
    "decided and cut: several members",
    "decided and cut: a block of a board outside",
    "decided and cut: both blocks of a straddling write",
    "not decided: cut one store before",
    "not decided: a commit dropped by a fault",
    "not decided: a commit dropped by a power-up",
    "not decided: a commit dropped by a cut",
    "not decided: a commit dropped by a format",
    "page: no line",
    "page: ten lines and more",
];

/// No situation reached yet.
pub fn reached() -> Reached {
    Reached::none_of(SITUATIONS)
}

/// The page that the ledger and the stores give.
#[derive(Default)]
struct Expected {
    text: String,
    count: u32,
    blocks: u32,
    bytes: u32,
}

/// Blanks, and then the text.
fn right(width: usize, text: impl ToString) -> String {
    let text = text.to_string();
    " ".repeat(width - text.len()) + &text
}

impl Expected {
    fn line(&mut self, members: u16, blocks: u32, bytes: u32) {
        self.count += 1;
        self.blocks += blocks;
        self.bytes += bytes;
        let digits = [12, 8, 4, 0].map(|at| b"0123456789ABCDEF"[usize::from(members >> at & 15)]);
        self.put([
            right(6, self.count),
            digits.map(char::from).iter().collect(),
            right(8, blocks),
            right(10, bytes),
        ]);
    }

    fn total(&mut self) {
        let [blocks, bytes] = [right(8, self.blocks), right(10, self.bytes)];
        self.put(["TOTAL ".into(), "----".into(), blocks, bytes]);
    }

    fn put(&mut self, columns: [String; 4]) {
        let line = columns.join(" ");
        assert_eq!(line.len(), 31);
        self.text += &(line + "\n");
    }
}

/// Plays a whole file and checks its page and how much of it was read; the
/// first difference is an error. Nothing here is random.
pub fn file(input: &[u8], _seed: u64, reached: &mut Reached) -> Result<(), String> {
    let (expected, left) = expected(input, reached)?;
    let mut rest = input;
    let mut got = Vec::new();
    page::run(&mut rest, &mut got).map_err(|error| error.to_string())?;
    let got = String::from_utf8_lossy(&got);
    if got != expected {
        let mut pairs = expected.split('\n').zip(got.split('\n')).zip(1..);
        let ((expected, got), number) = pairs.find(|((a, b), _)| a != b).unwrap_or_default();
        return Err(format!(
            "line {number} of the page: {got:?}, expected {expected:?}"
        ));
    }
    if rest.len() != left {
        let unread = rest.len();
        return Err(format!("{unread} bytes left unread, expected {left}"));
    }
    Ok(())
}

/// The page, and how many bytes of the file are left unread.
fn expected(input: &[u8], reached: &mut Reached) -> Result<(String, usize), String> {
    let mut rest = input;
    let mut player = Player::default();
    let mut ledger = None;
    let mut shapes = 0;
    let mut pairs = BTreeSet::new();
    let mut page = Expected::default();
    let mut line = Vec::new();
    while player.number < MOST_LINES && lines::next_line(&mut rest, &mut line).unwrap_or(false) {
        let mut room: Room = [0; LONGEST / 2];
        let Some(event) = lines::parse(&line, &mut room) else {
            player.play(None);
            continue;
        };
        let earlier = player.clone();
        let earlier_pairs = pairs.clone();
        let played = player.play(Some(&event));
        note_pairs(&mut pairs, &event, &played, &player.image);
        if matches!(event, Event::Format(_)) && played.answer.code == DONE {
            shapes += 1;
        }
        let saved = tell(&mut ledger, &event, &played)
            .map_err(|what| format!("line {}: {what}", player.number))?;
        let Some((members, blocks)) = saved else {
            let gone = earlier.record.members != 0 && player.record.members == 0;
            note_undecided(reached, &earlier, &event, &played, gone);
            continue;
        };
        if page.count == 9_999 {
            break;
        }
        let shape = module::header(&earlier.image, 0).ok_or("decided without a header")?;
        let (blocks, context) = (blocks as u32, shape.context as u32);
        let all = uncut(&earlier, &event);
        // All but the context given, bytes 10 and 11, byte 9 twice, and tags.
        let bytes = all - context - 4 - blocks;
        page.line(members, blocks, bytes);

        let tags = earlier.image[TAGS..][..shape.blocks].iter();
        let outside = tags.filter(|tag| **tag != 0).count() as u32 > blocks;
        let several = members.count_ones() > 1;
        let straddling = earlier_pairs
            .iter()
            .any(|(_, tag)| module::tagged(*tag, members));
        let last = rest.is_empty() && input.last() != Some(&b'\n');
        let mut note = |holds, what: &str| reached.note_if(holds, &format!("decided{what}"));
        note(event.letter() == b'C', ": a start");
        note(event.letter() == b'A', ": an acknowledgement");
        note(!several, ": one member");
        note(several, ": several members");
        note(members == 0xFFFF, ": sixteen members");
        note(blocks == 0, ": no block");
        note(blocks > 1, ": several blocks");
        note(outside, ": a block of a board outside");
        note(straddling, ": both blocks of a straddling write");
        note(bytes >= 10_000, ": five digits of bytes");
        note(context == 0, ": K is 0");
        note(shapes > 1, ": the file's second shape, or a later one");
        note(last, ": the last line, without line feed");
        if played.answer.code == CUT {
            note(true, " and cut");
            note(played.k == context + 3, " and cut: at the deciding store");
            note(played.k == all - 1, " and cut: before the last store");
            note(several, " and cut: several members");
            note(outside, " and cut: a block of a board outside");
            note(straddling, " and cut: both blocks of a straddling write");
        }
    }
    reached.note_if(page.count == 0, "page: no line");
    reached.note_if(page.count >= 10, "page: ten lines and more");
    page.total();
    Ok((page.text, rest.len()))
}

/// Keeps the first block and the tag of each straddling write whose blocks
/// both still have that tag.
fn note_pairs(pairs: &mut BTreeSet<(usize, u8)>, event: &Event, played: &Played, image: &[u8]) {
    let Some(shape) = module::header(image, 0) else {
        return pairs.clear();
    };
    if let (Event::Write { board, cell, bytes }, DONE) = (event, played.answer.code) {
        let touched = Touched::of(&shape, usize::from(*cell), bytes.len());
        if touched.straddles() {
            pairs.insert((touched.first, *board as u8 + 1));
        }
    }
    let tags = &image[TAGS..][..shape.blocks];
    pairs.retain(|(first, tag)| tags.get(*first..first + 2) == Some(&[*tag, *tag]));
}

/// Tells the ledger of a line and of the power-up that follows a cut; the
/// members and blocks of the commit that the line decided.
fn tell(
    ledger: &mut Option<Ledger>,
    event: &Event,
    played: &Played,
) -> Result<Option<(u16, usize)>, String> {
    let told = match played.answer.code {
        DONE => Told::Done,
        CUT => Told::Cut,
        _ => Told::Refused,
    };
    if let Event::Format(numbers) = event {
        let [boards, size, blocks, context] = numbers.map(usize::from);
        match told {
            Told::Done => *ledger = Some(Ledger::new(boards, size, blocks, context)),
            Told::Cut => *ledger = None,
            Told::Refused => {}
        }
    }
    let (Some(call), Some(ledger)) = (call_of(event), ledger) else {
        return Ok(None);
    };
    let saved = ledger.tell(call, played.k, told)?.saved;
    if told == Told::Cut {
        ledger.tell(Call::PowerUp, UNCUT, Told::Done)?;
    }
    Ok(saved)
}

/// Counts what ended a commit undecided; `gone` says that one was open.
fn note_undecided(
    reached: &mut Reached,
    earlier: &Player,
    event: &Event,
    played: &Played,
    gone: bool,
) {
    let done = played.answer.code == DONE;
    let cut = played.answer.code == CUT;
    let letter = event.letter();
    let mut note = |holds, what: &str| reached.note_if(holds, &format!("not decided: {what}"));
    note(
        gone && done && letter == b'X',
        "a commit dropped by a fault",
    );
    note(
        gone && done && letter == b'U',
        "a commit dropped by a power-up",
    );
    note(
        gone && done && letter == b'F',
        "a commit dropped by a format",
    );
    note(gone && cut, "a commit dropped by a cut");
    // The call would have decided with one store more.
    let context = module::header(&earlier.image, 0).map_or(0, |shape| shape.context);
    let more = || {
        let (image, k) = (&mut earlier.image.clone(), played.k + 1);
        call(image, earlier.record, event, k).decided
    };
    note(
        cut && played.k as usize == context + 2 && more(),
        "cut one store before",
    );
}

/// The stores of a start or an acknowledgement that nothing cuts.
fn uncut(earlier: &Player, event: &Event) -> u32 {
    call(&mut earlier.image.clone(), earlier.record, event, UNCUT).stores
}

/// A start or an acknowledgement; other events do nothing here.
fn call(image: &mut [u8], record: Record, event: &Event, k: u32) -> Answer {
    match *event {
        Event::Start { board, bytes } => module::start(image, record, board.into(), bytes, k).0,
        Event::Acknowledge { board, bytes } => {
            module::acknowledge(image, record, board.into(), bytes, k).0
        }
        _ => Answer::default(),
    }
}
