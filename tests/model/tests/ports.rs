//! The service port of Req 03 of document 02: by hand, as requests of
//! `cases`, and in random histories.
mod tables;

use model::cases;
use model::generate;
use model::port_check;
use tables::requests as table;

/// The status of each request that has one.
fn statuses(requests: &str) -> Vec<u8> {
    let requests = requests.replace("; ", "\n");
    let made = cases::answers(&requests).unwrap();
    made.lines()
        .filter_map(|line| line.split_once(" : "))
        .map(|(_, answer)| answer.split(' ').next().unwrap().parse().unwrap())
        .collect()
}

/// n of 0, 1, 4, 5, S and S + 1 in the first block, by board P - 1 and by the
/// port.
#[test]
fn lengths() {
    for (size, length, n, board, port) in [
        (
            1,
            18,
            [0, 1, 4, 5, 1, 2],
            [2, 0, 2, 2, 0, 2],
            [2, 0, 2, 2, 0, 2],
        ),
        (
            2,
            22,
            [0, 1, 4, 5, 2, 3],
            [2, 0, 2, 2, 0, 2],
            [2, 0, 2, 2, 0, 2],
        ),
        (
            4,
            30,
            [0, 1, 4, 5, 4, 5],
            [2, 0, 0, 2, 0, 2],
            [2, 0, 0, 2, 0, 2],
        ),
        (
            8,
            46,
            [0, 1, 4, 5, 8, 9],
            [2, 0, 0, 0, 0, 2],
            [2, 0, 0, 17, 17, 2],
        ),
        (
            64,
            270,
            [0, 1, 4, 5, 64, 65],
            [2, 0, 0, 0, 0, 2],
            [2, 0, 0, 17, 17, 2],
        ),
    ] {
        for (by, expected) in [("2", board), ("port", port)] {
            for (n, status) in n.iter().zip(expected) {
                let format = format!("F,65535,3,{size},2,0,{length}");
                let made = statuses(&format!("{format}; W,99,{by},0,{n},17; R,0,{by},0,{n},80"));
                assert_eq!(made, [0, status, status], "S {size}, n {n}, by {by}");
            }
        }
    }
}

/// 5 cells and 4 within a block, over its border, past the last cell; S is 8.
#[test]
fn borders() {
    let format = "F,65535,3,8,2,0,46";
    for (cell, n, status) in [
        (3, 5, 17),
        (4, 5, 17),
        (4, 4, 0),
        (5, 4, 0),
        (7, 2, 0),
        (11, 5, 17),
        (12, 5, 2),
        (12, 4, 0),
        (13, 4, 2),
        (15, 2, 2),
        (16, 5, 2),
        (16, 1, 2),
    ] {
        let made = statuses(&format!(
            "{format}; W,99,port,{cell},{n},17; R,0,port,{cell},{n},80"
        ));
        assert_eq!(made, [0, status, status], "{n} from {cell} on");
    }
}

/// The order is 11 for the header, 12, 2, 17, 5, 11 for the tag, 13. The
/// commit open has P - 1, board 2, as a member; the tag of block 1 is above P.
#[test]
fn order_of_refusals() {
    let open = "F,65535,3,8,2,0,46; W,99,0,0,1,17; R,0,port,0,1,80; C,99,2,0,0; P,13,4";
    let all_hold = "W,99,port,8,9,17; R,0,port,8,9,0";
    let passes_2 = "W,99,port,8,5,17; R,0,port,8,5,0";
    let passes_17 = "R,0,port,8,4,0; W,99,port,8,4,17; R,0,port,8,4,80";
    let passes_tag = "W,99,port,0,4,17; R,0,port,0,4,80";
    let made = statuses(&format!(
        "{open}; P,9,1; Q,16,0; {all_hold}; P,9,0; {all_hold}; Q,16,1; {all_hold}; {passes_2}; \
         {passes_17}; {passes_tag}; A,99,0,0,0; {passes_tag}"
    ));
    let expected = [
        0, 0, 0, 0, 11, 11, 12, 12, 2, 2, 17, 17, 5, 11, 11, 13, 13, 0, 0, 0,
    ];
    assert_eq!(made, expected);
    // The same of board P - 1: never 17.
    let board = statuses(&format!(
        "{open}; R,0,2,8,5,0; W,99,2,8,5,17; W,99,2,0,5,17"
    ));
    assert_eq!(board[4..], [5, 11, 13]);
}

/// Board 2 is no member: the port may read a member's block, not write it.
#[test]
fn block_of_a_member() {
    let open = "F,65535,3,8,2,0,46; W,99,0,0,1,17; R,0,1,0,1,80; C,99,1,0,0";
    let made = statuses(&format!(
        "{open}; W,99,port,0,5,17; W,99,port,0,4,17; R,0,port,0,5,80; R,0,port,0,4,80; W,99,port,8,4,17"
    ));
    assert_eq!(made[4..], [17, 13, 17, 0, 0]);
}

/// The tag that the port stores is P, and a P that is not allowed is refused
/// 11; without contexts the length is the same for each P.
#[test]
fn last_board() {
    for (boards, tag) in [(1, "01"), (2, "02"), (3, "03"), (16, "10")] {
        let requests = format!("F,99,3,1,1,0,15\nP,4,{boards}\nW,99,port,0,1,7\nD,0\n");
        let made = cases::answers(&requests).unwrap();
        let image = format!("D,0 : 52534d31{boards:02x}00010000000000{tag}0700\n");
        assert!(made.ends_with(&image), "{made}");
    }
    for boards in [0, 17, 255] {
        let made = statuses(&format!(
            "F,99,3,1,1,0,15; P,4,{boards}; W,99,port,0,1,7; R,0,port,0,1,80; R,0,port,0,5,80"
        ));
        assert_eq!(made, [0, 11, 11, 11], "P {boards}");
    }
}

/// The port read what 0 wrote, 1 read what the port wrote: a fault of 0 takes
/// all three, one of 2 takes 1 along. The figures are 2 + 4 + 18 + 2, 18, 27.
#[test]
fn chain() {
    table(
        "
F,65535,3,8,3,1,69 : 0 0 0000 70 image changed, record changed, buffer same
W,65535,0,0,8,17 : 0 0 0000 9 image changed, record same, buffer same
R,0,port,4,4,80 : 0 0 0000 0 image same, record changed, buffer 15161718 and the rest same
W,65535,port,8,4,70 : 0 0 0000 5 image changed, record same, buffer same
R,0,1,8,8,80 : 0 0 0000 0 image same, record changed, buffer 4647484900000000 and the rest same
W,65535,1,16,8,27 : 0 0 0000 9 image changed, record same, buffer same
E,0,2 : 0 0005 26
G,0,2 : 0 0006 18
G,0,0 : 0 0007 27
X,27,0 : 0 0 0007 27 image changed, record changed, buffer same
R,0,port,8,4,80 : 0 0 0000 0 image same, record same, buffer 00000000 and the rest same
",
    );
}

/// The commit of board 2 takes the board along that the port read from; the
/// port's bytes are kept, and a fault of 2 then finds nothing.
#[test]
fn kept() {
    table(
        "
F,65535,3,8,3,1,69 : 0 0 0000 70 image changed, record changed, buffer same
W,65535,port,2,4,50 : 0 0 0000 5 image changed, record same, buffer same
W,65535,0,8,1,17 : 0 0 0000 2 image changed, record same, buffer same
R,0,port,8,1,80 : 0 0 0000 0 image same, record changed, buffer 11 and the rest same
C,26,2,1,35 : 0 0 0005 1 image changed, record changed, buffer same
W,65535,port,16,4,50 : 13 0 0000 0 image same, record same, buffer same
A,25,0,1,36 : 0 1 0005 25 image changed, record changed, buffer same
K,0,2 : 0 23
X,65535,2 : 0 0 0004 0 image same, record same, buffer same
R,0,1,0,8,80 : 0 0 0000 0 image same, record same, buffer 0000323334350000 and the rest same
",
    );
}

/// Over board 0's block: 4 cells are whole where S is 4, so only 0 depends on
/// 2; 3 cells bind both.
#[test]
fn overwrites() {
    table(
        "
F,65535,3,4,3,1,45 : 0 0 0000 46 image changed, record changed, buffer same
W,65535,0,0,4,17 : 0 0 0000 5 image changed, record same, buffer same
W,65535,port,0,4,70 : 0 0 0000 5 image changed, record changed, buffer same
E,0,0 : 0 0005 13
E,0,2 : 0 0004 11
G,0,0 : 0 0001 0
G,0,2 : 0 0005 5
X,5,2 : 0 0 0005 5 image changed, record changed, buffer same
W,65535,0,0,4,17 : 0 0 0000 5 image changed, record same, buffer same
W,65535,port,1,3,70 : 0 0 0000 4 image changed, record changed, buffer same
G,0,0 : 0 0005 5
X,4,0 : 9 0 0000 4 image changed, record off, buffer same
U,5 : 0 0 0000 5 image changed, record changed, buffer same
",
    );
}

/// A tag and two bytes: 3 stores. The power-up then rolls back S + 1.
#[test]
fn cuts() {
    table(
        "
F,65535,2,2,1,0,17 : 0 0 0000 18 image changed, record changed, buffer same
W,3,port,0,2,17 : 0 0 0000 3 image changed, record same, buffer same
W,2,port,0,2,27 : 0 0 0000 2 image changed, record same, buffer same
W,1,port,0,2,37 : 9 0 0000 1 image changed, record off, buffer same
U,65535 : 0 0 0000 3 image changed, record changed, buffer same
R,0,port,0,2,80 : 0 0 0000 0 image same, record same, buffer 0000 and the rest same
W,2,port,0,2,17 : 9 0 0000 2 image changed, record off, buffer same
R,0,port,0,2,80 : 12 0 0000 0 image same, record same, buffer same
U,65535 : 0 0 0000 3 image changed, record changed, buffer same
W,0,port,0,2,17 : 9 0 0000 0 image same, record off, buffer same
U,65535 : 0 0 0000 0 image same, record changed, buffer same
",
    );
}

/// The word `port` stands for the board of an access and nowhere else.
#[test]
fn words() {
    for wrong in [
        "X,0,port",
        "C,0,port,0,0",
        "G,0,port",
        "R,port,0,0,1,80",
        "W,0,0,port,1,7",
        "W,0,Port,0,1,7",
    ] {
        assert!(cases::answers(wrong).is_err(), "{wrong}");
    }
}

/// Every situation of the check is reached.
#[test]
fn random_histories() {
    let mut reached = port_check::reached();
    for seed in 0..300 {
        let events = generate::events(seed, 200);
        let checked = port_check::file(&events, seed, &mut reached);
        assert_eq!(checked, Ok(()), "{seed}");
    }
    for (situation, count) in reached.counts() {
        assert!(count > 0, "{situation}");
    }
}
