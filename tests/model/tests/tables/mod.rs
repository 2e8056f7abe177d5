//! Tables written by hand; not every file of tests has both kinds.
#![allow(dead_code)]
use model::{cases, check, player};

/// An event line and its answer a line; an answer by itself is the U that
/// follows a cut. The ledger must agree.
pub fn lines(text: &str) {
    let mut events = String::new();
    let mut expected = String::new();
    for line in text.lines().filter(|line| !line.is_empty()) {
        let mut fields = line.split_ascii_whitespace().rev();
        expected += &format!("{}\n", fields.next().unwrap());
        if let Some(event) = fields.next() {
            events += &format!("{event}\n");
        }
    }
    let made = String::from_utf8(player::answers(events.as_bytes())).unwrap();
    assert_eq!(made, expected);
    let lines = events.lines().count() as u32;
    assert_eq!(check::file(events.as_bytes()), Ok(lines), "the ledger");
}

/// Each line is a request of `cases` and its answer.
pub fn requests(text: &str) {
    let requests: String = text
        .lines()
        .skip(1)
        .map(|line| format!("{}\n", line.split(" : ").next().unwrap()))
        .collect();
    assert_eq!(cases::answers(&requests).unwrap(), text[1..]);
}
