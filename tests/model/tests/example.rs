//! The worked example of document 01, and edges of the lines.
use model::player::answers;
use model::{check, generate, mixes, replay};

const EVENTS: &[u8] =
    b"F,2,4,4,0\nW,0,5,0A0B\nR,1,6,1\nC,1,\nW,0,0,01\nA,0,\nW,1,5,FF\nZ,1\nX,1\nR,0,4,4\n";
const ANSWERS: &[u8] = b"1,F,0,0,0000,49,\n2,W,0,0,0000,3,\n3,R,0,0,0000,0,0B\n4,C,0,0,0003,0,\n\
5,W,13,0,0000,0,\n6,A,0,1,0003,9,\n7,W,0,0,0000,2,\n8,Z,0,0,0000,0,\n9,X,9,0,0000,1,\n\
9,U,0,0,0000,5,\n10,R,0,0,0000,0,000A0B00\n";

fn text(events: &[u8]) -> String {
    String::from_utf8(answers(events)).unwrap()
}

#[test]
fn worked_example() {
    assert_eq!(answers(EVENTS), ANSWERS);
    // The same without the last line feed.
    assert_eq!(answers(&EVENTS[..EVENTS.len() - 1]), ANSWERS);
}

#[test]
fn lines_and_their_ends() {
    assert_eq!(text(b""), "");
    assert_eq!(text(b"\n"), "1,?,6,0,0000,0,\n");
    assert_eq!(text(b"U\n\0"), "1,U,11,0,0000,0,\n2,?,6,0,0000,0,\n");
    let longest = format!("W,0,0,{}", "0".repeat(154));
    assert_eq!(text(longest.as_bytes()), "1,W,11,0,0000,0,\n");
    assert_eq!(
        text(format!("{longest}0\nU").as_bytes()),
        "1,?,6,0,0000,0,\n2,U,11,0,0000,0,\n"
    );
    for length in [161, 162, 163, 164, 10_000] {
        let line = "U".repeat(length);
        assert_eq!(
            text(format!("{line}\nU").as_bytes()),
            "1,?,6,0,0000,0,\n2,U,11,0,0000,0,\n"
        );
        assert_eq!(text(line.as_bytes()), "1,?,6,0,0000,0,\n");
    }
}

#[test]
fn stops_after_99_999_lines() {
    let mut events = b"F,1,1,1,0\nW,0,0,01\n".to_vec();
    events.extend(b"\n".repeat(99_995));
    events.extend_from_slice(b"Z,0\nX,0\nU\nU\n");
    let answers = text(&events);
    assert!(answers.ends_with("99998,Z,0,0,0000,0,\n99999,X,9,0,0000,0,\n99999,U,0,0,0000,2,\n"));
}

#[test]
fn the_cases_run_by_program() {
    let case = |events: &str, last: &str| {
        let answers = text(events.as_bytes());
        assert!(answers.ends_with(last), "{events}: {answers}");
    };
    case("F,16,1,1,0", "1,F,0,0,0000,16,\n");
    case("F,17,1,1,0", "1,F,4,0,0000,0,\n");
    case("F,1,64,256,0", "1,F,0,0,0000,33037,\n");
    case("F,1,64,257,0", "1,F,4,0,0000,0,\n");
    case("F,1,2,2,0\nR,0,2,2", "2,R,0,0,0000,0,0000\n");
    // One cell on, by Req 06 of document 02: refused in the last block only.
    case("F,1,2,2,0\nR,0,1,2", "2,R,0,0,0000,0,0000\n");
    case("F,1,2,2,0\nR,0,3,2", "2,R,2,0,0000,0,\n");
    case("F,1,2,2,0\nZ,3\nW,0,0,0102", "3,W,0,0,0000,3,\n");
    case(
        "F,1,2,2,0\nZ,2\nW,0,0,0102",
        "3,W,9,0,0000,2,\n3,U,0,0,0000,3,\n",
    );
}

#[test]
fn ledger_agrees_on_replay_files_and_mixes() {
    for file in replay::all() {
        assert_eq!(
            check::file(&file.events).map(|_| ()),
            Ok(()),
            "{}",
            file.name
        );
    }
    for mix in ["mixed", "commit", "fault", "read"] {
        let events = mixes::events(1, 2000, mix).unwrap();
        assert_eq!(check::file(&events), Ok(2000), "{mix}");
    }
    for seed in 0..50 {
        assert_eq!(
            check::file(&generate::events(seed, 200)).map(|_| ()),
            Ok(()),
            "{seed}"
        );
    }
}

#[test]
fn replay_files_have_good_names() {
    let files = replay::all();
    let mut names: Vec<&str> = files.iter().map(|file| file.name).collect();
    assert!(names.len() >= 40);
    assert!(names.iter().all(|name| name
        .bytes()
        .all(|b| b.is_ascii_lowercase() || b.is_ascii_digit() || b == b'_')));
    names.sort_unstable();
    names.dedup();
    assert_eq!(names.len(), files.len());
}
