//! Accesses over a border between two blocks (Req 06 of document 02): by
//! hand, as event lines and as requests of `cases`, and in random histories.
mod tables;

use model::ledger::{Call, Ledger, Told};
use model::module::UNCUT;
use model::{generate, straddle_check};
use tables::{lines, requests};

/// Of two blocks of 4 cells every access of 1 to 4 cells is taken that does
/// not pass the last cell.
#[test]
fn taken_and_refused() {
    for cell in 0..=8 {
        for n in 0..=5_usize {
            let events = format!("F,1,4,2,0\nR,0,{cell},{n}\nW,0,{cell},{}\n", "00".repeat(n));
            let made = String::from_utf8(model::player::answers(events.as_bytes())).unwrap();
            let codes: Vec<&str> = made
                .lines()
                .map(|line| line.split(',').nth(2).unwrap())
                .collect();
            let taken = (1..=4).contains(&n) && cell + n <= 8;
            let code = if taken { "0" } else { "2" };
            assert_eq!(codes, ["0", code, code], "{n} from {cell} on");
        }
    }
}

/// Two tags, one or none, then the bytes.
#[test]
fn tags_that_differ() {
    lines(
        "
F,2,4,2,0         1,F,0,0,0000,31,
W,0,3,0102        2,W,0,0,0000,4,
W,0,2,01020304    3,W,0,0,0000,4,
X,0               4,X,0,0,0001,10,
W,0,0,01          5,W,0,0,0000,2,
W,0,3,0203        6,W,0,0,0000,3,
X,0               7,X,0,0,0001,10,
W,0,7,01          8,W,0,0,0000,2,
W,0,3,0203        9,W,0,0,0000,3,
W,0,3,0405        10,W,0,0,0000,2,
W,1,1,11121314    11,W,0,0,0000,6,
R,1,0,4           12,R,0,0,0000,0,00111213
R,1,4,4           13,R,0,0,0000,0,14000001
X,1               14,X,0,0,0003,10,
",
    );
}

/// 2 reads from the blocks of 0 and 1; its commit takes both along, a fault of
/// either takes it along, and its own nobody.
#[test]
fn read_of_two_writers() {
    lines(
        "
F,3,4,2,0         1,F,0,0,0000,31,
W,0,0,01020304    2,W,0,0,0000,5,
W,1,4,11121314    3,W,0,0,0000,5,
R,2,2,4           4,R,0,0,0000,0,03041112
X,2               5,X,0,0,0004,0,
R,2,2,4           6,R,0,0,0000,0,03041112
X,0               7,X,0,0,0005,5,
R,2,2,4           8,R,0,0,0000,0,00001112
X,1               9,X,0,0,0006,5,
W,0,0,01020304    10,W,0,0,0000,5,
W,1,4,11121314    11,W,0,0,0000,5,
R,2,3,2           12,R,0,0,0000,0,0411
C,2,              13,C,0,0,0007,0,
A,0,              14,A,0,0,0007,0,
A,1,              15,A,0,1,0007,14,
R,2,2,4           16,R,0,0,0000,0,03041112
",
    );
}

/// Four bytes over the border are whole in neither block: 2, 0 and 1 all go
/// together. A whole overwrite of the same length makes 0 depend on 2 alone.
#[test]
fn s_bytes_are_not_whole() {
    lines(
        "
F,3,4,2,0         1,F,0,0,0000,31,
W,0,0,01020304    2,W,0,0,0000,5,
W,1,4,11121314    3,W,0,0,0000,5,
W,2,1,21222324    4,W,0,0,0000,6,
X,0               5,X,0,0,0007,10,
W,0,0,01020304    6,W,0,0,0000,5,
W,1,4,11121314    7,W,0,0,0000,5,
W,2,3,21222324    8,W,0,0,0000,6,
C,1,              9,C,0,0,0007,0,
X,2               10,X,0,0,0007,10,
W,0,0,01020304    11,W,0,0,0000,5,
W,1,4,11121314    12,W,0,0,0000,5,
W,2,0,21222324    13,W,0,0,0000,5,
X,0               14,X,0,0,0001,0,
X,1               15,X,0,0,0002,5,
X,2               16,X,0,0,0004,5,
",
    );
}

/// The members are 0 and 1, and block 1 is 0's: 2 may not write over either of
/// its borders, but read; over the border of blocks 2 and 3 it may.
#[test]
fn member_on_one_side() {
    lines(
        "
F,3,2,4,0         1,F,0,0,0000,33,
W,0,2,01          2,W,0,0,0000,2,
R,1,2,1           3,R,0,0,0000,0,01
C,1,              4,C,0,0,0003,0,
W,2,1,2122        5,W,13,0,0000,0,
W,2,3,2122        6,W,13,0,0000,0,
W,2,5,2122        7,W,0,0,0000,4,
R,2,1,2           8,R,0,0,0000,0,0001
R,2,3,2           9,R,0,0,0000,0,0000
R,1,5,2           10,R,13,0,0000,0,
W,1,5,3132        11,W,13,0,0000,0,
A,0,              12,A,0,1,0003,7,
W,2,1,2122        13,W,0,0,0000,4,
R,0,0,4           14,R,2,0,0000,0,
R,0,1,2           15,R,0,0,0000,0,2122
",
    );
}

/// Kept bytes 01 to 04; a pending write of the cells to be written. Cut before
/// any store, between the tags, before the bytes, between the blocks' bytes:
/// each time the kept bytes come back.
#[test]
fn cut_at_every_k() {
    let mut number = 1;
    let mut text = String::from("F,2,2,2,0 1,F,0,0,0000,23,\n");
    let mut put = |event: &str, answer: &str| {
        number += usize::from(!event.is_empty());
        text += &format!("{event} {number},{answer}\n");
    };
    put("W,0,0,0102", "W,0,0,0000,3,");
    put("W,0,2,0304", "W,0,0,0000,3,");
    put("C,0,", "C,0,1,0001,10,");
    for k in 0..4 {
        put("W,0,1,1112", "W,0,0,0000,4,");
        put(&format!("Z,{k}"), "Z,0,0,0000,0,");
        put("W,1,1,2122", &format!("W,9,0,0000,{k},"));
        put("", "U,0,0,0000,6,");
        put("R,0,0,2", "R,0,0,0000,0,0102");
        put("R,0,2,2", "R,0,0,0000,0,0304");
    }
    put("Z,4", "Z,0,0,0000,0,");
    put("W,1,1,2122", "W,0,0,0000,4,");
    put("R,1,1,2", "R,0,0,0000,0,2122");
    lines(&text);
}

/// S = 1 and B = 1 have nothing to straddle.
#[test]
fn no_border() {
    lines(
        "
F,1,1,2,0         1,F,0,0,0000,19,
W,0,0,01          2,W,0,0,0000,2,
W,0,0,0102        3,W,2,0,0000,0,
R,0,0,2           4,R,2,0,0000,0,
R,0,1,1           5,R,0,0,0000,0,00
F,1,4,1,0         6,F,0,0,0000,22,
W,0,1,01020304    7,W,2,0,0000,0,
R,0,3,2           8,R,2,0,0000,0,
R,0,3,1           9,R,0,0,0000,0,00
",
    );
}

/// Tags 4 and 255 where P is 3: 11 for either block, after 5 and before 13;
/// the members are 0 and 1.
#[test]
fn tags_above_p() {
    requests(
        "
F,65535,3,4,2,0,30 : 0 0 0000 31 image changed, record changed, buffer same
P,12,4
R,0,2,3,2,80 : 11 0 0000 0 image same, record same, buffer same
W,65535,2,3,2,17 : 11 0 0000 0 image same, record same, buffer same
R,0,port,3,2,1 : 5 0 0000 0 image same, record same, buffer same
R,0,2,4,4,80 : 0 0 0000 0 image same, record same, buffer 00000000 and the rest same
P,12,0
P,13,255
R,0,2,3,2,80 : 11 0 0000 0 image same, record same, buffer same
W,65535,port,3,2,17 : 11 0 0000 0 image same, record same, buffer same
R,0,2,3,2,1 : 5 0 0000 0 image same, record same, buffer same
R,0,2,0,4,80 : 0 0 0000 0 image same, record same, buffer 00000000 and the rest same
W,65535,0,0,1,17 : 0 0 0000 2 image changed, record same, buffer same
R,0,1,0,1,80 : 0 0 0000 0 image same, record changed, buffer 11 and the rest same
C,65535,1,0,0 : 0 0 0003 0 image same, record changed, buffer same
W,65535,2,3,2,17 : 11 0 0000 0 image same, record same, buffer same
R,0,0,3,2,80 : 11 0 0000 0 image same, record same, buffer same
P,13,0
W,65535,2,3,2,17 : 13 0 0000 0 image same, record same, buffer same
R,0,0,3,2,80 : 13 0 0000 0 image same, record same, buffer same
R,0,2,3,2,80 : 0 0 0000 0 image same, record changed, buffer 0000 and the rest same
",
    );
}

/// The image after each store of a write by the port, board 1, over two blocks
/// of board 0: the first tag, the last tag, the bytes.
#[test]
fn order_of_stores() {
    requests(
        "
F,99,2,2,2,0,22 : 0 0 0000 23 image changed, record changed, buffer same
W,99,0,0,2,17 : 0 0 0000 3 image changed, record same, buffer same
W,99,0,2,2,19 : 0 0 0000 3 image changed, record same, buffer same
W,0,port,1,2,33 : 9 0 0000 0 image same, record off, buffer same
D,0 : 52534d31020102000000000001011112131400000000
Q,16,1
W,1,port,1,2,33 : 9 0 0000 1 image changed, record off, buffer same
D,0 : 52534d31020102000000000002011112131400000000
P,12,1
Q,16,1
W,2,port,1,2,33 : 9 0 0000 2 image changed, record off, buffer same
D,0 : 52534d31020102000000000002021112131400000000
Q,16,1
W,1,port,1,2,33 : 9 0 0000 1 image changed, record off, buffer same
D,0 : 52534d31020102000000000002021121131400000000
U,99 : 0 0 0000 6 image changed, record changed, buffer same
D,0 : 52534d31020102000000000000000000000000000000
",
    );
}

/// The ledger by itself: the write is noted in both blocks, so who reads
/// either depends on the writer, and a commit has both.
#[test]
fn noted_in_both_blocks() {
    for reader_cell in [0, 7] {
        let mut ledger = Ledger::new(2, 4, 3, 0);
        let mut done = |call| ledger.tell(call, UNCUT, Told::Done).unwrap();
        let bytes = &[1, 2];
        done(Call::PortWrite { cell: 3, bytes });
        let (board, cell, n) = (0, reader_cell, 1);
        done(Call::Read { board, cell, n });
        let context = &[];
        let start = done(Call::Start { board, context });
        assert_eq!(start.group, 0b11, "read of cell {cell}");
        let verdict = done(Call::Acknowledge { board: 1, context });
        assert_eq!(verdict.saved, Some((0b11, 2)));
        assert_eq!(ledger.cells()[3..5], [1, 2]);
    }
}

/// The ledger by itself: who is rolled back with board 0 after board 2 wrote
/// n cells, from `cell` on, over the blocks of 0 and 1.
#[test]
fn links_by_notes() {
    for (cell, n, group) in [(3, 2, 0b111), (1, 4, 0b111), (0, 4, 0b001), (4, 4, 0b001)] {
        let mut ledger = Ledger::new(3, 4, 2, 0);
        let mut done = |call| ledger.tell(call, UNCUT, Told::Done).unwrap();
        for (board, cell, n) in [(0, 0, 4), (1, 4, 4), (2, cell, n)] {
            let bytes = &[9; 4][..n];
            done(Call::Write { board, cell, bytes });
        }
        let rolled_back = done(Call::Fault { board: 0 }).group;
        assert_eq!(rolled_back, group, "{n} from {cell} on");
    }
}

/// Every situation of the check is reached.
#[test]
fn random_histories() {
    let mut reached = straddle_check::reached();
    for seed in 0..300 {
        let events = generate::events(seed, 200);
        let checked = straddle_check::file(&events, seed, &mut reached);
        assert_eq!(checked, Ok(()), "{seed}");
    }
    for (situation, count) in reached.counts() {
        assert!(count > 0, "{situation}");
    }
}
