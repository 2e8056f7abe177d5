//! The forecasts of Req 02 of document 02: by hand, and held against the
//! calls that they foretell.
use model::cases;
use model::forecast::{self, Forecast};
use model::forecast_check;
use model::generate;
use model::lines;
use model::player::Player;

fn played(text: &str) -> Player {
    let mut player = Player::default();
    for line in text.split_ascii_whitespace() {
        let mut room = [0; 80];
        let event = lines::parse(line.as_bytes(), &mut room).unwrap();
        player.play(Some(&event));
    }
    player
}

fn commit(text: &str, board: usize) -> (u8, u16, u32) {
    let player = played(text);
    parts(forecast::commit(&player.image, &player.record, board))
}

fn fault(text: &str, board: usize) -> (u8, u16, u32) {
    let player = played(text);
    parts(forecast::fault(&player.image, &player.record, board))
}

fn parts(forecast: Forecast) -> (u8, u16, u32) {
    (forecast.code, forecast.group, forecast.stores)
}

/// Document 01's example: C,1 stores 0 and A,0 stores 9.
#[test]
fn worked_example() {
    let lines = "F,2,4,4,0 W,0,5,0A0B R,1,6,1";
    assert_eq!(commit(lines, 1), (0, 0x0003, 9));
    assert_eq!(commit(lines, 0), (0, 0x0001, 9));
    assert_eq!(fault(lines, 0), (0, 0x0003, 5));
    assert_eq!(fault(lines, 1), (0, 0x0002, 0));
    let open = format!("{lines} C,1,");
    assert_eq!(commit(&open, 0), (14, 0, 0));
    assert_eq!(fault(&open, 0), (0, 0x0003, 5));
    let end = format!("{open} A,0, W,1,5,FF");
    assert_eq!(fault(&end, 1), (0, 0x0002, 5));
}

/// Board 2 depends on 1 and 1 on 0; K is 3, S is 2.
#[test]
fn contexts_and_blocks() {
    let lines = "F,4,2,6,3 W,0,0,01 W,0,2,01 R,1,0,1 W,1,4,02 R,2,4,1 W,3,6,03";
    assert_eq!(commit(lines, 0), (0, 0x0001, 3 + 4 + 6 + 3));
    assert_eq!(commit(lines, 1), (0, 0x0003, 6 + 4 + 9 + 6));
    assert_eq!(commit(lines, 2), (0, 0x0007, 9 + 4 + 9 + 9));
    assert_eq!(commit(lines, 3), (0, 0x0008, 3 + 4 + 3 + 3));
    assert_eq!(fault(lines, 0), (0, 0x0007, 9));
    assert_eq!(fault(lines, 1), (0, 0x0006, 3));
    assert_eq!(fault(lines, 2), (0, 0x0004, 0));
    assert_eq!(fault(lines, 3), (0, 0x0008, 3));
}

#[test]
fn refusals() {
    assert_eq!(commit("", 0), (11, 0, 0));
    assert_eq!(fault("", 0), (11, 0, 0));
    for board in [2, 15, 16, usize::MAX] {
        assert_eq!(commit("F,2,1,1,0", board), (1, 0, 0));
        assert_eq!(fault("F,2,1,1,0", board), (1, 0, 0));
    }
    let mut player = played("F,2,1,1,0 W,0,0,01");
    player.record.on = false;
    let of = |player: &Player, board| {
        [forecast::commit, forecast::fault]
            .map(|call| parts(call(&player.image, &player.record, board)))
    };
    assert_eq!(of(&player, 2), [(12, 0, 0); 2]);
    player.image[9] = 1;
    assert_eq!(of(&player, 2), [(11, 0, 0); 2]);
}

/// The requests E and G of `cases`.
#[test]
fn requests() {
    let requests = "F,99,16,1,1,2,79\nW,9,15,0,1,7\nE,0,15\nG,0,15\nE,0,16\nG,0,65535\n";
    let made = cases::answers(requests).unwrap();
    let forecasts: Vec<&str> = made.lines().skip(2).collect();
    let expected = [
        "E,0,15 : 0 8000 10",
        "G,0,15 : 0 8000 2",
        "E,0,16 : 1 0000 0",
        "G,0,65535 : 1 0000 0",
    ];
    assert_eq!(forecasts, expected);
}

/// Every situation of the check is reached.
#[test]
fn random_histories() {
    let mut reached = forecast_check::reached();
    for seed in 0..100 {
        let events = generate::events(seed, 200);
        let checked = forecast_check::file(&events, seed, &mut reached);
        assert_eq!(checked, Ok(()), "{seed}");
    }
    for (situation, count) in reached.counts() {
        assert!(count > 0, "{situation}");
    }
}
