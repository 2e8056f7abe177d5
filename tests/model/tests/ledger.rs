//! The ledger check can fail: each test plays a good history and then hands
//! the checker one wrong answer or one wrong byte.
use model::check::Checker;
use model::ledger::{Call, Ledger, Told};
use model::lines::{self, Event};
use model::module::{Answer, UNCUT};
use model::player::{Played, Player};

/// Plays the lines and hands all but the last to a checker; gives what is
/// needed to hand it the last one, perhaps spoilt.
fn history(text: &str) -> (Checker, Player, Played, Vec<u8>) {
    let mut player = Player::default();
    let mut checker = Checker::default();
    let lines: Vec<&str> = text.split_ascii_whitespace().collect();
    for (i, line) in lines.iter().enumerate() {
        let mut room = [0; 80];
        let event = lines::parse(line.as_bytes(), &mut room).unwrap();
        let played = player.play(Some(&event));
        if i + 1 == lines.len() {
            return (checker, player, played, line.as_bytes().to_vec());
        }
        let bytes = player.bytes().to_vec();
        checker
            .line(
                &event,
                played.k,
                &played.answer,
                &bytes,
                played.power_up.as_ref(),
                &player.image,
            )
            .unwrap();
    }
    panic!("no lines");
}

/// The checker's word on the last line after `spoil` had its way.
fn last(text: &str, spoil: impl Fn(&mut Player, &mut Played, &mut Vec<u8>)) -> Result<(), String> {
    let (mut checker, mut player, mut played, line) = history(text);
    let mut room = [0; 80];
    let event: Event = lines::parse(&line, &mut room).unwrap();
    let mut bytes = player.bytes().to_vec();
    spoil(&mut player, &mut played, &mut bytes);
    checker.line(
        &event,
        played.k,
        &played.answer,
        &bytes,
        played.power_up.as_ref(),
        &player.image,
    )
}

fn fails(text: &str, what: &str, spoil: impl Fn(&mut Player, &mut Played, &mut Vec<u8>)) {
    assert_eq!(last(text, |_, _, _| ()), Ok(()), "the history itself");
    let word = last(text, spoil).expect_err("the spoilt answer must be seen");
    assert!(word.contains(what), "{word}");
}

// Board 1 depends on 0, board 2 on 1.
const CHAIN: &str = "F,3,2,4,1 W,0,0,0102 R,1,0,1 W,1,2,0304 R,2,2,1 W,2,4,0506 ";

#[test]
fn wrong_group_of_a_fault() {
    fails(&format!("{CHAIN} X,1"), "group", |_, played, _| {
        played.answer.group = 0x0003
    });
}

#[test]
fn wrong_members_of_a_start() {
    fails(&format!("{CHAIN} C,1,AA"), "group", |_, played, _| {
        played.answer.group = 0x0006
    });
}

#[test]
fn wrong_decision() {
    fails(
        &format!("{CHAIN} C,1,AA A,0,BB"),
        "decided",
        |_, played, _| played.answer.decided = false,
    );
    fails(&format!("{CHAIN} C,1,AA"), "decided", |_, played, _| {
        played.answer.decided = true
    });
    fails(
        &format!("{CHAIN} C,1,AA Z,4 A,0,BB"),
        "decided",
        |_, played, _| played.answer.decided = false,
    );
}

#[test]
fn wrong_byte_read() {
    fails(&format!("{CHAIN} R,0,0,2"), "read", |_, _, bytes| {
        bytes[1] ^= 1
    });
}

#[test]
fn wrong_cell() {
    // The first current byte follows header and 4 tags.
    fails(&format!("{CHAIN} X,0"), "cell 0", |player, _, _| {
        player.image[16] = 1
    });
    fails(&format!("{CHAIN} U"), "cell 3", |player, _, _| {
        player.image[19] = 4
    });
}

#[test]
fn wrong_context() {
    // Recovery contexts: the last three bytes.
    fails(
        &format!("{CHAIN} C,0,AA"),
        "context of board 0",
        |player, _, _| {
            let at = player.image.len() - 3;
            player.image[at] = 0;
        },
    );
}

#[test]
fn refused_power_up() {
    fails(
        &format!("{CHAIN} U"),
        "power-up was refused",
        |_, played, _| played.answer = Answer::refused(11),
    );
    fails(
        &format!("{CHAIN} Z,1 X,0"),
        "power-up was refused",
        |_, played, _| {
            played.power_up = Some(Answer::refused(11));
        },
    );
}

#[test]
fn cut_told_as_done() {
    // A write said to be done whose bytes were rolled back.
    fails(
        &format!("{CHAIN} Z,1 W,0,6,AAAA"),
        "cell",
        |_, played, _| {
            played.answer.code = 0;
            played.power_up = None;
        },
    );
}

#[test]
fn read_that_outlives_its_write() {
    // What refusal 13 prevents: a member of an open commit reads a pending
    // write of board 0 and is kept, then board 0 faults.
    let mut ledger = Ledger::new(3, 1, 3, 0);
    let mut done = |call| ledger.tell(call, UNCUT, Told::Done);
    done(Call::Write {
        board: 2,
        cell: 2,
        bytes: &[5],
    })
    .unwrap();
    done(Call::Read {
        board: 1,
        cell: 2,
        n: 1,
    })
    .unwrap();
    assert_eq!(
        done(Call::Start {
            board: 1,
            context: &[]
        })
        .unwrap()
        .group,
        0b110
    );
    done(Call::Write {
        board: 0,
        cell: 0,
        bytes: &[7],
    })
    .unwrap();
    assert_eq!(
        done(Call::Read {
            board: 1,
            cell: 0,
            n: 1
        })
        .unwrap()
        .bytes,
        [7]
    );
    assert!(
        done(Call::Acknowledge {
            board: 2,
            context: &[]
        })
        .unwrap()
        .decided
    );
    let word = done(Call::Fault { board: 0 }).expect_err("the kept read must be seen");
    assert!(word.contains("a read of board 1 is Kept"), "{word}");
}

#[test]
fn wrong_group_after_an_overwrite() {
    let whole = "F,3,2,2,1 W,0,0,0102 W,1,0,1112";
    let spoilt = |group| {
        move |_: &mut Player, played: &mut Played, _: &mut Vec<u8>| played.answer.group = group
    };
    fails(&format!("{whole} X,0"), "group", spoilt(0x0003));
    fails(&format!("{whole} X,1"), "group", spoilt(0x0002));
    fails(&format!("{whole} C,0,AA"), "group", spoilt(0x0001));
    let short = "F,3,2,2,1 W,0,0,0102 W,1,1,12";
    fails(&format!("{short} X,0"), "group", spoilt(0x0001));
    fails(&format!("{short} X,1"), "group", spoilt(0x0002));
}

#[test]
fn wrong_group_after_a_straddling_access() {
    let two = "F,4,4,3,1 W,0,0,01020304 W,1,4,11121314";
    for (access, end, group) in [
        ("R,2,2,4", "X,0", 0x0001),
        ("R,2,2,4", "X,1", 0x0002),
        ("R,2,2,4", "C,2,AA", 0x0005),
        ("W,2,2,21222324", "X,0", 0x0005),
        ("W,2,2,21222324", "X,1", 0x0002),
        ("W,2,2,21222324 R,3,0,1", "X,2", 0x0007),
    ] {
        fails(&format!("{two} {access} {end}"), "group", |_, played, _| {
            played.answer.group = group;
        });
    }
}

#[test]
fn byte_left_by_a_cut_straddling_write() {
    // Cells 3 and 4, on either side of the border; 15 bytes come before them.
    let cut = "F,2,4,3,1 W,0,2,01020304 C,0,AA Z,5 W,1,2,11121314";
    for (cell, byte) in [(3, 0x12), (4, 0x13)] {
        fails(cut, &format!("cell {cell}"), |player, _, _| {
            player.image[15 + cell] = byte;
        });
    }
}

/// The ledger by itself, in blocks of four: who is rolled back after board 1
/// wrote over board 0's block.
#[test]
fn links_of_overwrites() {
    let bytes = [9; 4];
    for (cell, n, faulty, group) in [
        (4, 4, 0, 0b01),
        (4, 4, 1, 0b11),
        (4, 3, 0, 0b11),
        (4, 3, 1, 0b11),
        (5, 3, 0, 0b11),
        (5, 3, 1, 0b11),
        (6, 1, 0, 0b11),
        (6, 1, 1, 0b11),
    ] {
        let mut ledger = Ledger::new(2, 4, 2, 0);
        let mut done = |call| ledger.tell(call, UNCUT, Told::Done).unwrap();
        for (board, cell, n) in [(0, 7, 1), (1, cell, n)] {
            let bytes = &bytes[..n];
            done(Call::Write { board, cell, bytes });
        }
        let rolled_back = done(Call::Fault { board: faulty }).group;
        assert_eq!(rolled_back, group, "{n} from {cell} on, fault of {faulty}");
    }
}

#[test]
fn acknowledgement_without_a_commit() {
    let mut ledger = Ledger::new(2, 1, 2, 0);
    assert!(ledger
        .tell(
            Call::Acknowledge {
                board: 1,
                context: &[]
            },
            UNCUT,
            Told::Done
        )
        .is_err());
}

/// The ledger by itself: port accesses are noted as board 2's, the last one.
#[test]
fn port_accesses() {
    let mut ledger = Ledger::new(3, 4, 3, 0);
    let mut done = |call| ledger.tell(call, UNCUT, Told::Done).unwrap();
    let context = &[];
    done(Call::Write {
        board: 0,
        cell: 0,
        bytes: &[1, 2],
    });
    assert_eq!(done(Call::PortRead { cell: 1, n: 3 }).bytes, [2, 0, 0]);
    done(Call::PortWrite {
        cell: 4,
        bytes: &[3],
    });
    let board = 1;
    let read = done(Call::Read {
        board,
        cell: 4,
        n: 1,
    });
    assert_eq!(read.bytes, [3]);
    // 2 depends on 0 and 1 on 2.
    assert_eq!(done(Call::Start { board: 2, context }).group, 0b101);
    assert_eq!(done(Call::Fault { board: 0 }).group, 0b111);
    // 4 cells over 0's block: only 0 depends on 2; 3 cells bind both.
    for (n, group) in [(4, 0b001), (3, 0b101)] {
        let (board, bytes) = (0, &[9; 4]);
        done(Call::Write {
            board,
            cell: 8,
            bytes,
        });
        done(Call::PortWrite {
            cell: 8,
            bytes: &bytes[..n],
        });
        assert_eq!(done(Call::Fault { board }).group, group, "{n} cells");
        done(Call::PowerUp);
    }
    assert_eq!(ledger.cells(), [0; 12]);
}
