//! The order of Req 07 of document 02: by hand, and held against its
//! definition and against commits.
use model::cases;
use model::lines;
use model::order::{self, order, Taken};
use model::player::{answers, Player};
use model::{generate, order_check, replay};

/// What stands in the masks before the call.
const LENT: u16 = 0xEEEE;

/// The printed order after lines parted by blanks, each with its line feed;
/// the lines of the order are parted by blanks too.
fn of(text: &str) -> String {
    let mut events = String::new();
    for line in text.split_ascii_whitespace() {
        events += line;
        events.push('\n');
    }
    of_bytes(events.as_bytes())
}

fn of_bytes(events: &[u8]) -> String {
    let order = String::from_utf8(order(events)).unwrap();
    assert!(order.ends_with('\n'));
    order.trim_end().replace('\n', " ")
}

fn played(text: &str) -> Player {
    let mut player = Player::default();
    for line in text.split_ascii_whitespace() {
        let mut room = [0; 80];
        let event = lines::parse(line.as_bytes(), &mut room).unwrap();
        player.play(Some(&event));
    }
    player
}

/// Status, and all sixteen masks.
fn taken(player: &Player) -> (Taken, [u16; 16]) {
    let mut masks = [LENT; 16];
    let taken = order::take(&player.image, &player.record, &mut masks);
    (taken, masks)
}

/// The order of boards with such rows; the others are 0.
fn of_rows(boards: usize, rows: &[(usize, u16)]) -> Vec<u16> {
    let mut player = played(&format!("F,{boards},1,1,0"));
    for (board, row) in rows {
        player.record.rows[*board] = *row;
    }
    let (taken, masks) = taken(&player);
    assert_eq!(taken.code, 0);
    assert!(masks[taken.count..].iter().all(|mask| *mask == LENT));
    masks[..taken.count].to_vec()
}

fn refused(player: &Player, code: u8) {
    assert_eq!(taken(player), (Taken { code, count: 0 }, [LENT; 16]));
}

/// Document 01's example: board 1 depends on board 0 until both commit.
#[test]
fn worked_example() {
    let before = "F,2,4,4,0 W,0,5,0A0B R,1,6,1";
    assert_eq!(of(before), "0001 0002");
    assert_eq!(of(&format!("{before} C,1, W,0,0,01")), "14");
    let end = "C,1, W,0,0,01 A,0, W,1,5,FF Z,1 X,1 R,0,4,4";
    assert_eq!(of(&format!("{before} {end}")), "0001 0002");
}

#[test]
fn no_links() {
    assert_eq!(of("F,1,1,1,0"), "0001");
    assert_eq!(of("F,3,1,1,0"), "0001 0002 0004");
    let ascending: Vec<u16> = (0..16).map(|i| 1 << i).collect();
    assert_eq!(of_rows(16, &[]), ascending);
}

#[test]
fn two_boards() {
    assert_eq!(of_rows(2, &[(0, 2)]), [2, 1]);
    assert_eq!(of_rows(2, &[(1, 1)]), [1, 2]);
    assert_eq!(of_rows(2, &[(0, 2), (1, 1)]), [3]);
}

/// All orders of three boards with one or two links, by hand.
#[test]
fn three_boards() {
    for (rows, expected) in [
        (&[(0, 2)][..], &[2, 1, 4][..]),
        (&[(0, 4)], &[2, 4, 1]),
        (&[(1, 1)], &[1, 2, 4]),
        (&[(1, 4)], &[1, 4, 2]),
        (&[(2, 1)], &[1, 2, 4]),
        (&[(2, 2)], &[1, 2, 4]),
        (&[(0, 6)], &[2, 4, 1]),
        (&[(0, 2), (1, 4)], &[4, 2, 1]),
        (&[(0, 4), (2, 2)], &[2, 4, 1]),
        (&[(1, 1), (2, 2)], &[1, 2, 4]),
        (&[(0, 4), (1, 4)], &[4, 1, 2]),
        (&[(0, 2), (1, 1)], &[3, 4]),
        (&[(0, 4), (2, 1)], &[5, 2]),
        (&[(1, 4), (2, 2)], &[1, 6]),
        (&[(0, 2), (1, 4), (2, 1)], &[7]),
        (&[(0, 6), (1, 4), (2, 2)], &[6, 1]),
        (&[(0, 4), (1, 1), (2, 1)], &[5, 2]),
    ] {
        assert_eq!(of_rows(3, rows), expected, "{rows:?}");
    }
}

/// One just set free is before a higher one that was free all the time, and
/// after a lower one.
#[test]
fn set_free() {
    assert_eq!(of_rows(4, &[(0, 4)]), [2, 4, 1, 8]);
    assert_eq!(of_rows(4, &[(2, 1)]), [1, 2, 4, 8]);
    assert_eq!(of_rows(5, &[(0, 8), (3, 4)]), [2, 4, 8, 1, 16]);
    // The lowest board of a component counts: 1 with 4, and 2 with 3.
    let bound = [(1, 16), (4, 2), (2, 8), (3, 4)];
    assert_eq!(of_rows(5, &bound), [1, 0x12, 0x0C]);
    let joined = [(1, 16), (4, 2 | 4), (2, 8), (3, 4)];
    assert_eq!(of_rows(5, &joined), [1, 0x0C, 0x12]);
}

#[test]
fn sixteen_boards() {
    let up: Vec<(usize, u16)> = (1..16).map(|i| (i, 1 << (i - 1))).collect();
    let down: Vec<(usize, u16)> = (0..15).map(|i| (i, 2 << i)).collect();
    let ascending: Vec<u16> = (0..16).map(|i| 1 << i).collect();
    let descending: Vec<u16> = ascending.iter().rev().copied().collect();
    assert_eq!(of_rows(16, &up), ascending);
    assert_eq!(of_rows(16, &down), descending);
    let mut ring = down.clone();
    ring.push((15, 1));
    assert_eq!(of_rows(16, &ring), [0xFFFF]);
    let all: Vec<(usize, u16)> = (0..16).map(|i| (i, !(1 << i))).collect();
    assert_eq!(of_rows(16, &all), [0xFFFF]);
    // The halves, each bound by pairs of links.
    let lower = (0..8).map(|i| (i, 1 << ((i + 1) % 8)));
    let upper = (8..16).map(|i| (i, 1 << (8 + (i + 3) % 8)));
    let mut halves: Vec<(usize, u16)> = lower.chain(upper).collect();
    assert_eq!(of_rows(16, &halves), [0x00FF, 0xFF00]);
    halves[5].1 |= 1 << 12;
    assert_eq!(of_rows(16, &halves), [0xFF00, 0x00FF]);
}

/// Lines: reads, a short write, a whole overwrite, a straddling read.
#[test]
fn links_of_lines() {
    assert_eq!(of("F,3,2,2,0 W,2,0,01 R,0,0,1"), "0002 0004 0001");
    assert_eq!(of("F,3,2,2,0 W,0,0,0102 W,1,0,11"), "0003 0004");
    assert_eq!(of("F,3,2,2,0 W,0,0,0102 W,1,0,1112"), "0002 0001 0004");
    assert_eq!(
        of("F,4,2,2,0 W,2,0,01 W,3,2,02 R,1,1,2"),
        "0001 0004 0008 0002"
    );
    assert_eq!(of("F,4,2,2,0 W,2,0,01 W,3,2,02 W,1,1,0506"), "0001 000E");
    // Commits, faults and power-ups take the links of their boards.
    let chain = "F,4,2,4,0 W,1,2,01 W,2,4,02 W,3,6,03 R,0,2,1 R,1,4,1 R,2,6,1";
    assert_eq!(of(chain), "0008 0004 0002 0001");
    assert_eq!(of(&format!("{chain} C,3,")), "0004 0002 0001 0008");
    assert_eq!(of(&format!("{chain} C,2, A,3,")), "0002 0001 0004 0008");
    assert_eq!(of(&format!("{chain} C,2,")), "14");
    assert_eq!(of(&format!("{chain} X,1")), "0001 0002 0008 0004");
    assert_eq!(of(&format!("{chain} X,3")), "0001 0002 0004 0008");
    assert_eq!(of(&format!("{chain} U")), "0001 0002 0004 0008");
}

#[test]
fn refusals_of_files() {
    for events in [&b""[..], b"\n", b"?\nU\n", b"F,17,1,1,0\nW,0,0,01"] {
        assert_eq!(order(events), b"11\n");
    }
    assert_eq!(of("F,2,1,1,0 Z,3 F,2,1,1,0"), "11");
    assert_eq!(of("F,2,1,1,0 Z,3 F,2,1,1,0 F,1,1,1,0"), "0001");
    assert_eq!(order(b"F,2,1,1,0\nW,0,0,01\nR,1,0,1\nC,1,"), b"14\n");
    // Dropped or decided, it is taken again.
    let open = "F,3,1,1,0 W,2,0,01 R,0,0,1 C,0,";
    assert_eq!(of(open), "14");
    for end in ["X,0", "X,2", "A,2,", "U", "Z,0 A,2,", "F,3,1,1,0"] {
        assert_eq!(of(&format!("{open} {end}")), "0001 0002 0004", "{end}");
    }
    assert_eq!(of(&format!("{open} X,1")), "14");
}

/// The last link is made by line 99,999 and the next line would drop it.
#[test]
fn stops_after_99_999_lines() {
    let mut events = b"F,2,1,1,0\n".to_vec();
    events.extend(b"U\n".repeat(99_996));
    events.extend_from_slice(b"W,1,0,01\nR,0,0,1\nX,1\n");
    assert_eq!(of_bytes(&events), "0002 0001");
}

/// 11, 12 and 14, in this order; refused, all masks stay.
#[test]
fn refusals() {
    let mut player = played("F,3,1,2,0 W,2,0,01 R,0,0,1 C,0,");
    refused(&player, 14);
    player.record.rows[1] = 2;
    refused(&player, 12);
    player.image[9] = 1;
    refused(&player, 11);
    player.image[9] = 0;
    player.record.rows[1] = 0;
    player.image.push(0);
    refused(&player, 11);
    player.image.pop();
    player.image[0] = 0;
    refused(&player, 11);
    player.image[0] = 0x52;
    refused(&player, 14);
    player.record.on = false;
    refused(&player, 12);
    player.record.on = true;
    player.record.members = 0;
    refused(&player, 12);
    player.record.acknowledged = 0;
    let (done, masks) = taken(&player);
    assert_eq!(done, Taken { code: 0, count: 3 });
    assert_eq!(masks[..4], [2, 4, 1, LENT]);
    // Tags are not looked at.
    player.image[12] = 255;
    player.image[13] = 4;
    assert_eq!(taken(&player), (done, masks));
}

/// The request O of `cases`.
#[test]
fn requests() {
    let requests = "O,0\nF,99,2,1,1,0,15\nQ,0,2\nO,0\nQ,18,3\nQ,19,1\nO,0\n";
    let made = cases::answers(requests).unwrap();
    let orders: Vec<&str> = made.lines().filter(|line| line.starts_with('O')).collect();
    let stay = |count: usize| " eeee".repeat(count);
    let expected = [
        format!("O,0 : 11 0{}", stay(16)),
        format!("O,0 : 0 2 0002 0001{}", stay(14)),
        format!("O,0 : 14 0{}", stay(16)),
    ];
    assert_eq!(orders, expected);
}

/// Commits in the printed order answer its components: the answers to
/// `order_committed` that decide, against the order before them.
#[test]
fn committed() {
    let files = replay::all();
    let named = |name: &str| files.iter().find(|file| file.name == name).unwrap();
    let order = of_bytes(&named("order_several_components").events);
    assert_eq!(order, "0080 0100 2040 1208 8421 0002 0800 4000 0010 0004");
    let answers = String::from_utf8(answers(&named("order_committed").events)).unwrap();
    let fields = answers
        .lines()
        .map(|line| line.split(',').collect::<Vec<_>>());
    let decided: Vec<&str> = fields
        .filter(|fields| fields[3] == "1")
        .map(|fields| fields[4])
        .collect();
    assert_eq!(decided.join(" "), order);
}

/// Every situation of the check is reached.
#[test]
fn random_histories() {
    let mut reached = order_check::reached();
    for seed in 0..300 {
        let events = generate::file(seed);
        let checked = order_check::file(&events, seed, &mut reached);
        assert_eq!(checked, Ok(()), "{seed}");
    }
    for (situation, count) in reached.counts() {
        assert!(count > 0, "{situation}");
    }
}

/// The check holds for the replay files too, and none is too large for the
/// gate's program `replay`.
#[test]
fn replay_files() {
    let mut reached = order_check::reached();
    for file in replay::all() {
        let checked = order_check::file(&file.events, 0, &mut reached);
        assert_eq!(checked, Ok(()), "{}", file.name);
        assert!(file.events.len() <= 65_535, "{}", file.name);
        assert!(order(&file.events).len() <= 16 * 5, "{}", file.name);
    }
}
