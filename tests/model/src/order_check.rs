//! Holds orders (Req 07 of document 02) against their definition and against
//! the commits that they promise: at random points of an event file, in the
//! state there, in copies with random rows and tags, in copies whose
//! components are known, and in spoilt copies; at its end, and at others, the
//! printed order too.

use crate::lines::{self, Room, LONGEST};
use crate::module::{self, Answer, Record, Shape, CUT, DONE, TAGS, UNCUT};
use crate::order;
use crate::player::{Player, MOST_LINES};
use crate::random::Random;
use crate::reached::Reached;
use crate::state::{self, State};
use std::fmt::Debug;

/// What a check over many files has to reach.
const SITUATIONS: &[&str] = &[
    "refused 11",
    "refused 11: the record is bad too",
    "refused 11: a commit is open too",
    "refused 12",
    "refused 12: a commit is open too",
    "refused 14",
    "order: P is 1",
    "order: one component of several boards",
    "order: one component of sixteen boards",
    "order: single boards, several",
    "order: sixteen single boards",
    "order: several components of several boards",
    "order: a component of several boards and one of one",
    "order: a component depends on several",
    "order: several components depend on one",
    "order: a component of several boards depends on another such",
    "order: not by lowest boards",
    "order: board 0 comes last",
    "order: one just set free before one free earlier",
    "order: one free earlier before one just set free",
    "order: a tag above P",
    "order of the file: several boards in a component",
    "order of the file: a component depends on another",
    "order of the file: not by lowest boards",
    "commit: one board",
    "commit: several boards",
    "commit: sixteen boards",
    "commit: started by another than the lowest board",
    "commit: no block",
    "commit: several blocks",
    "commit: a block of a board outside",
    "commit: K is 0",
    "commit: a tag above P",
    "commit: the deciding call has one store less",
    "commit: a context has one store less",
    "printed: an order",
    "printed: 11",
    "printed: 14",
];

/// No situation reached yet.
pub fn reached() -> Reached {
    Reached::none_of(SITUATIONS)
}

/// Plays a whole file and checks; the first difference is an error.
pub fn file(input: &[u8], seed: u64, reached: &mut Reached) -> Result<(), String> {
    let random = Random::new(seed);
    let mut check = Check { random, reached };
    state::at_points(input, seed, 70, |state| check.point(state))?;
    // The whole file, and two beginnings of it, ended anywhere.
    let few = input.len().min(40);
    let ends = [few, input.len()].map(|most| check.random.below(most + 1));
    for end in [input.len(), ends[0], ends[1]] {
        let printed = check.printed(&input[..end]);
        printed.map_err(|what| format!("after {end} bytes: {what}"))?;
    }
    Ok(())
}

struct Check<'a> {
    random: Random,
    reached: &'a mut Reached,
}

/// An error where the two differ.
fn agree<T: PartialEq + Debug>(what: &str, got: T, expected: T) -> Result<(), String> {
    if got == expected {
        Ok(())
    } else {
        Err(format!("{what}: {got:?}, expected {expected:?}"))
    }
}

/// The components in their order, none where it is refused; `code` is DONE or
/// the refusal.
struct Order {
    code: u8,
    components: Vec<u16>,
}

impl Check<'_> {
    fn point(&mut self, state: State) -> Result<(), String> {
        let order = self.state(&state, "")?;
        let Some(shape) = module::header(&state.image, 0) else {
            return Ok(());
        };
        if order.code == DONE {
            self.note_order_of_file(&state.record, &order.components);
        }
        let [scrambled, spoilt] = state.others(&mut self.random, &shape);
        self.state(&scrambled, "scrambled, ")?;
        let (woven, mut expected) = self.woven(&scrambled, &shape);
        let mut components = self.state(&woven, "woven, ")?.components;
        // The same components, in whatever order.
        components.sort_unstable();
        expected.sort_unstable();
        agree("woven, components", components, expected)?;
        let order = self.state(&spoilt, "spoilt, ")?;
        // What the record alone would be refused.
        let behind = self.as_start(&state.image, spoilt.record);
        let reached = &mut *self.reached;
        if order.code == 11 {
            reached.note_if(behind == 12, "refused 11: the record is bad too");
            reached.note_if(behind == 14, "refused 11: a commit is open too");
        }
        let open = order.code == 12 && spoilt.record.members != 0;
        reached.note_if(open, "refused 12: a commit is open too");
        Ok(())
    }

    /// The order printed after a file, and what is left unread.
    fn printed(&mut self, input: &[u8]) -> Result<(), String> {
        let mut rest = input;
        let mut player = Player::default();
        let mut line = Vec::new();
        while player.number < MOST_LINES && lines::next_line(&mut rest, &mut line).unwrap_or(false)
        {
            let mut room: Room = [0; LONGEST / 2];
            player.play(lines::parse(&line, &mut room).as_ref());
        }
        let state = State {
            image: player.image,
            record: player.record,
        };
        let order = self.state(&state, "")?;
        let (expected, what) = match order.code {
            DONE => (
                order.components.into_iter().map(digits).collect(),
                "an order".into(),
            ),
            code => (format!("{code}\n"), code.to_string()),
        };
        self.reached.note(&format!("printed: {what}"));
        let mut left = input;
        let mut got = Vec::new();
        order::run(&mut left, &mut got).map_err(|error| error.to_string())?;
        let got = String::from_utf8_lossy(&got);
        agree::<&str>("printed", &got, &expected)?;
        agree("bytes left unread", left.len(), rest.len())
    }

    /// Takes the order of a state and checks all that is promised of it.
    fn state(&mut self, state: &State, kind: &str) -> Result<Order, String> {
        let checked = self.try_state(state);
        checked.map_err(|what| format!("{kind}{what}"))
    }

    fn try_state(&mut self, state: &State) -> Result<Order, String> {
        let lent = [0; 16].map(|_: u16| self.random.below(65_536) as u16);
        let mut masks = lent;
        let taken = order::take(&state.image, &state.record, &mut masks);
        let code = self.as_start(&state.image, state.record);
        agree("status", taken.code, code)?;
        let stay = masks[taken.count..] == lent[taken.count..];
        agree("the other masks stay", stay, true)?;
        if taken.code != DONE {
            agree("count of a refusal", taken.count, 0)?;
            self.reached.note(&format!("refused {}", taken.code));
            return Ok(Order {
                code: taken.code,
                components: Vec::new(),
            });
        }
        let shape = module::header(&state.image, 0).ok_or("taken without a header")?;
        let order = &masks[..taken.count];
        defined(&state.record, &shape, order).map_err(|what| format!("{order:04X?}: {what}"))?;
        self.note_order(state, &shape, order);
        let commits = self.commits(state, &shape, order);
        commits.map_err(|what| format!("committing {order:04X?}: {what}"))?;
        Ok(Order {
            code: DONE,
            components: order.to_vec(),
        })
    }

    /// What a start of board 0 with K bytes is refused: 11, 12 and 14 are all
    /// that is left of its tests.
    fn as_start(&mut self, image: &[u8], record: Record) -> u8 {
        let shape = module::header(image, 0);
        let length = shape.map_or_else(|| self.random.below(65), |shape| shape.context);
        let context = self.bytes(length);
        let (answer, _) = module::start(&mut image.to_vec(), record, 0, &context, UNCUT);
        answer.code
    }

    /// A copy with components that are known: rings through some boards each,
    /// in any order, and links from rings to earlier ones.
    fn woven(&mut self, state: &State, shape: &Shape) -> (State, Vec<u16>) {
        let random = &mut self.random;
        let mut boards: Vec<usize> = (0..shape.boards).collect();
        random.shuffle(&mut boards);
        let mut rings: Vec<Vec<usize>> = Vec::new();
        let joined = random.pick(&[0, 200, 500, 900]);
        for board in boards {
            match rings.last_mut() {
                Some(ring) if random.per_mille(joined) => ring.push(board),
                _ => rings.push(vec![board]),
            }
        }
        let mut record = Record::on();
        let linked = random.pick(&[50, 200, 500]);
        for (at, ring) in rings.iter().enumerate() {
            for (board, next) in ring.iter().zip(ring.iter().cycle().skip(1)) {
                if board != next {
                    record.rows[*board] |= 1 << next;
                }
            }
            for earlier in &rings[..at] {
                if random.per_mille(linked) {
                    record.rows[random.pick(ring)] |= 1 << random.pick(earlier);
                }
            }
        }
        let mask = |ring: &Vec<usize>| ring.iter().map(|board| 1 << board).sum();
        let components = rings.iter().map(mask).collect();
        let image = state.image.clone();
        (State { image, record }, components)
    }

    /// All commits in this order, with the stores due as allowances, with more
    /// and without a limit; and one call with one store less.
    fn commits(&mut self, state: &State, shape: &Shape, order: &[u16]) -> Result<(), String> {
        let more = self.random.within(1, 200) as u32;
        for spare in [0, more, UNCUT] {
            let mut run = Run::new(state);
            for component in order {
                self.commit(&mut run, state, shape, *component, spare, None)?;
            }
            run.ended(state, shape)?;
        }
        let at = self.random.below(order.len());
        let mut run = Run::new(state);
        for component in &order[..at] {
            self.commit(&mut run, state, shape, *component, 0, None)?;
        }
        let boards = order[at].count_ones() as usize;
        let less = match shape.context {
            0 => boards - 1,
            _ => self.random.below(boards),
        };
        self.commit(&mut run, state, shape, order[at], 0, Some(less))
    }

    /// A start by any board of the component, then the acknowledgements of the
    /// others in any order. The call at `less`, if there is one, has one store
    /// less than it needs, and is the last one made.
    fn commit(
        &mut self,
        run: &mut Run,
        first: &State,
        shape: &Shape,
        component: u16,
        spare: u32,
        less: Option<usize>,
    ) -> Result<(), String> {
        let mut boards: Vec<usize> = (0..16).filter(|i| component >> i & 1 == 1).collect();
        let lowest = boards[0];
        self.random.shuffle(&mut boards);
        let tags = first
            .tags(shape)
            .filter(|tag| boards.iter().any(|board| board + 1 == *tag));
        let blocks = tags.count();
        let saved = 4 + blocks * (shape.size() + 1) + boards.len() * shape.context;
        for (at, board) in boards.iter().enumerate() {
            let call = if at == 0 {
                module::start
            } else {
                module::acknowledge
            };
            let decided = at + 1 == boards.len();
            let due = (shape.context + if decided { saved } else { 0 }) as u32;
            let cut = less == Some(at);
            let k = if cut {
                due - 1
            } else {
                due.saturating_add(spare)
            };
            let context = self.bytes(shape.context);
            let (answer, next) = call(&mut run.now.image, run.now.record, *board, &context, k);
            let expected = Answer {
                code: if cut { CUT } else { DONE },
                decided,
                group: if cut { 0 } else { component },
                stores: due.min(k),
            };
            agree(&format!("component {component:04X}"), answer, expected)?;
            run.now.record = next;
            run.given[*board] = context;
            if cut {
                let what = match decided {
                    true => "commit: the deciding call has one store less",
                    false => "commit: a context has one store less",
                };
                self.reached.note(what);
                return agree("record after a cut", next, Record::off());
            }
        }
        let outside = |tag: usize| tag != 0 && tag <= shape.boards && !boards.contains(&(tag - 1));
        let reached = &mut *self.reached;
        reached.note_if(boards.len() == 1, "commit: one board");
        reached.note_if(boards.len() > 1, "commit: several boards");
        reached.note_if(boards.len() == 16, "commit: sixteen boards");
        reached.note_if(
            boards[0] != lowest,
            "commit: started by another than the lowest board",
        );
        reached.note_if(blocks == 0, "commit: no block");
        reached.note_if(blocks > 1, "commit: several blocks");
        reached.note_if(
            first.tags(shape).any(outside),
            "commit: a block of a board outside",
        );
        reached.note_if(shape.context == 0, "commit: K is 0");
        reached.note_if(first.tag_above(shape), "commit: a tag above P");
        Ok(())
    }

    fn note_order(&mut self, state: &State, shape: &Shape, order: &[u16]) {
        let boards = shape.boards;
        let sizes: Vec<u32> = order.iter().map(|mask| mask.count_ones()).collect();
        let several = sizes.iter().filter(|size| **size > 1).count();
        let needs = needs(&state.record, order);
        // The place from which on a component may come.
        let free = |place: usize| needs[place].last().map_or(0, |last| last + 1);
        let later = |place: usize| place + 1..order.len();
        let places = || 0..order.len();
        let mut note = |holds, what: &str| self.reached.note_if(holds, &format!("order: {what}"));
        note(boards == 1, "P is 1");
        let one = order.len() == 1 && boards > 1;
        note(one, "one component of several boards");
        note(one && boards == 16, "one component of sixteen boards");
        let singles = order.len() == boards && boards > 1;
        note(singles, "single boards, several");
        note(singles && boards == 16, "sixteen single boards");
        note(several > 1, "several components of several boards");
        let mixed = several > 0 && several < order.len();
        note(mixed, "a component of several boards and one of one");
        let on_several = needs.iter().any(|needs| needs.len() > 1);
        note(on_several, "a component depends on several");
        let dependents = |on: usize| needs.iter().filter(|needs| needs.contains(&on)).count();
        let on_one = places().any(|on| dependents(on) > 1);
        note(on_one, "several components depend on one");
        let of_several = |place: usize| {
            let on = &needs[place];
            sizes[place] > 1 && on.iter().any(|on| sizes[*on] > 1)
        };
        note(
            places().any(of_several),
            "a component of several boards depends on another such",
        );
        note(!by_lowest(order), "not by lowest boards");
        let last = order.len() > 1 && order.last().is_some_and(|mask| mask & 1 == 1);
        note(last, "board 0 comes last");
        let freed = |place: usize| {
            place > 0 && free(place) == place && later(place).any(|other| free(other) < place)
        };
        note(
            places().any(freed),
            "one just set free before one free earlier",
        );
        let waited =
            |place: usize| free(place) < place && later(place).any(|other| free(other) == place);
        note(
            places().any(waited),
            "one free earlier before one just set free",
        );
        note(state.tag_above(shape), "a tag above P");
    }

    fn note_order_of_file(&mut self, record: &Record, order: &[u16]) {
        let needs = needs(record, order);
        let several = order.iter().any(|mask| mask.count_ones() > 1);
        let depends = needs.iter().any(|needs| !needs.is_empty());
        let mut note = |holds, what: &str| {
            self.reached
                .note_if(holds, &format!("order of the file: {what}"))
        };
        note(several, "several boards in a component");
        note(depends, "a component depends on another");
        note(!by_lowest(order), "not by lowest boards");
    }

    fn bytes(&mut self, count: usize) -> Vec<u8> {
        (0..count).map(|_| self.random.below(256) as u8).collect()
    }
}

/// The defining properties, chains sought board by board. They leave one
/// order only.
fn defined(record: &Record, shape: &Shape, order: &[u16]) -> Result<(), String> {
    // Each board below P in exactly one component, no component empty.
    let mut place = [usize::MAX; 16];
    for (board, place) in place.iter_mut().enumerate() {
        let mut places = (0..order.len()).filter(|at| order[*at] >> board & 1 == 1);
        *place = places.next().unwrap_or(usize::MAX);
        let times = usize::from(*place != usize::MAX) + places.count();
        let due = usize::from(board < shape.boards);
        agree(&format!("board {board}, times in the order"), times, due)?;
    }
    agree("an empty component", order.contains(&0), false)?;
    let reached = reached_by_chains(record);
    let boards = 0..shape.boards;
    for i in boards.clone() {
        for j in boards.clone() {
            // In one component exactly where chains lead both ways.
            let both = reached[i][j] && reached[j][i];
            let what = format!("boards {i} and {j} in one component");
            agree(&what, place[i] == place[j], both)?;
            // Not before one that it depends on.
            if reached[i][j] && place[i] < place[j] {
                return Err(format!("board {i} before board {j}, on which it depends"));
            }
        }
    }
    // None that might have come earlier, with a lower lowest board.
    for (at, component) in order.iter().enumerate() {
        for (later, next) in order.iter().enumerate().skip(at + 1) {
            let waits = boards.clone().any(|i| {
                let others = |j: &usize| place[*j] >= at && place[*j] != later;
                place[i] == later && boards.clone().filter(others).any(|j| reached[i][j])
            });
            if !waits && next.trailing_zeros() < component.trailing_zeros() {
                return Err(format!("{next:04X} might come before {component:04X}"));
            }
        }
    }
    Ok(())
}

/// For each board those that chains lead to, by a depth-first search; itself
/// too.
fn reached_by_chains(record: &Record) -> [[bool; 16]; 16] {
    fn visit(record: &Record, board: usize, seen: &mut [bool; 16]) {
        seen[board] = true;
        for next in 0..16 {
            if record.rows[board] >> next & 1 == 1 && !seen[next] {
                visit(record, next, seen);
            }
        }
    }
    let mut reached = [[false; 16]; 16];
    for (board, seen) in reached.iter_mut().enumerate() {
        visit(record, board, seen);
    }
    reached
}

/// For each component the places of those that it has links to, ascending.
fn needs(record: &Record, order: &[u16]) -> Vec<Vec<usize>> {
    let on = |mask: u16| {
        let rows = (0..16).filter(move |i| mask >> i & 1 == 1);
        rows.fold(0, |links, i| links | record.rows[i]) & !mask
    };
    let places = |links: u16| (0..order.len()).filter(move |at| order[*at] & links != 0);
    order
        .iter()
        .map(|mask| places(on(*mask)).collect())
        .collect()
}

fn by_lowest(order: &[u16]) -> bool {
    order.is_sorted_by_key(|mask| mask.trailing_zeros())
}

/// A line of the order.
fn digits(component: u16) -> String {
    let digit = |at: u32| char::from(b"0123456789ABCDEF"[usize::from(component >> at & 15)]);
    [digit(12), digit(8), digit(4), digit(0), '\n']
        .iter()
        .collect()
}

/// What the commits so far led to, and the contexts that were given.
struct Run {
    now: State,
    given: Vec<Vec<u8>>,
}

impl Run {
    fn new(state: &State) -> Run {
        Run {
            now: state.clone(),
            given: vec![Vec::new(); 16],
        }
    }

    /// After all commits: no links, no tag but those above P; the tagged
    /// blocks' bytes and the contexts given are kept, all else is as before.
    fn ended(&self, first: &State, shape: &Shape) -> Result<(), String> {
        agree("record at the end", self.now.record, Record::on())?;
        let mut expected = first.image.clone();
        for (block, tag) in first.tags(shape).enumerate() {
            if tag != 0 && tag <= shape.boards {
                expected[TAGS + block] = 0;
                let at = shape.current() + block * shape.size();
                let kept = shape.recovery() + block * shape.size();
                expected.copy_within(at..at + shape.size(), kept);
            }
        }
        let contexts = shape.recovery() + shape.cells();
        let given = self.given.concat();
        expected.truncate(contexts);
        expected.extend([&given[..], &given[..]].concat());
        // Bytes 10 and 11 may be any.
        expected[10..12].copy_from_slice(&self.now.image[10..12]);
        if self.now.image == expected {
            return Ok(());
        }
        let pairs = self.now.image.iter().zip(&expected);
        let same = pairs.take_while(|(now, expected)| now == expected).count();
        Err(format!("byte {same} of the image differs at the end"))
    }
}
