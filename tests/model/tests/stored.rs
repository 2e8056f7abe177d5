//! What the gate's programs are held against is what the model makes; the
//! script tests/stored writes it anew.
use model::{cases, order, page, player, replay};
use std::collections::BTreeMap;
use std::fs;
use std::path::PathBuf;

fn crates(path: &str) -> PathBuf {
    PathBuf::from(env!("CARGO_MANIFEST_DIR"))
        .join("../../crates")
        .join(path)
}

fn text(path: &str) -> String {
    fs::read_to_string(crates(path)).unwrap()
}

#[test]
fn output_of_cases() {
    let made = cases::answers(&text("cases/stdin")).unwrap();
    let stored = text("cases/stdout");
    for (made, stored) in made.lines().zip(stored.lines()) {
        assert_eq!(made, stored);
    }
    assert_eq!(made.len(), stored.len());
}

#[test]
fn arguments_and_output_of_replay() {
    assert_eq!(replay::arguments(), text("replay/args"));
    assert_eq!(replay::report(), text("replay/stdout"));
}

#[test]
fn input_and_output_of_rsmrun() {
    let input = replay::long_run();
    assert!(input == fs::read(crates("rsmrun/stdin")).unwrap());
    assert!(player::answers(&input) == fs::read(crates("rsmrun/stdout")).unwrap());
}

#[test]
fn input_and_output_of_rsmpage() {
    let input = replay::page_run();
    assert!(input == fs::read(crates("rsmpage/stdin")).unwrap());
    assert!(page::page(&input) == fs::read(crates("rsmpage/stdout")).unwrap());
}

#[test]
fn input_and_output_of_rsmorder() {
    let input = replay::order_run();
    assert!(input == fs::read(crates("rsmorder/stdin")).unwrap());
    assert!(order::order(&input) == fs::read(crates("rsmorder/stdout")).unwrap());
}

#[test]
fn replay_files() {
    let mut stored = BTreeMap::new();
    for entry in fs::read_dir(crates("replay/data")).unwrap() {
        let entry = entry.unwrap();
        let name = entry.file_name().into_string().unwrap();
        stored.insert(name, fs::read(entry.path()).unwrap());
    }
    let mut made = BTreeMap::new();
    for file in replay::all() {
        let answers = player::answers(&file.events);
        let page = page::page(&file.events);
        let order = order::order(&file.events);
        made.insert(format!("{}.page", file.name), page);
        made.insert(format!("{}.order", file.name), order);
        made.insert(format!("{}.events", file.name), file.events);
        made.insert(format!("{}.answers", file.name), answers);
    }
    assert!(made.keys().eq(stored.keys()), "other files");
    for (name, bytes) in made {
        assert!(stored[&name] == bytes, "{name}");
    }
}

/// The requests that cut a call at every k, and those that show an image.
#[test]
fn requests_of_cases() {
    let requests =
        "F,99,1,1,1,0,15\nW,9,0,0,1,7\nI,1\nx,0,0\nI,0\nx,0,0\nf,0,1,1,1,0,15\nD,0\nL,2\nD,0\n";
    let answers = "F,99,1,1,1,0,15 : 0 0 0000 16 image changed, record changed, buffer same
W,9,0,0,1,7 : 0 0 0000 2 image changed, record same, buffer same
I,1
x,0,0
 : 9 0 0000 0, powered up: before 3, after 0, neither 0, image 52534d310100010000000000010700
 : 9 0 0000 1, powered up: before 3, after 0, neither 0, image 52534d310100010000000000010000
 : 0 0 0001 2, powered up: before 1, after 0, neither 0, image 52534d310100010000000000000000
I,0
x,0,0
 : 9 0 0000 0, powered up: before 3, after 0, neither 0
 : 9 0 0000 1, powered up: before 3, after 0, neither 0
 : 0 0 0001 2, powered up: before 1, after 0, neither 0
f,0,1,1,1,0,15
 : 9 0 0000 0, powered up: before 3, after 0, neither 0
";
    let made = cases::answers(requests).unwrap();
    assert!(made.starts_with(answers), "{made}");
    // A cut format is refused by power-up; a done one has nothing to recover.
    let cut = ", powered up: before 0, after 0, neither 1\n";
    assert_eq!(made.matches(cut).count(), 15);
    let end = "
 : 0 0 0000 16, powered up: before 1, after 0, neither 0
D,0 : 52534d310100010000000000010700
L,2
D,0 : 5253
";
    assert!(made.ends_with(end), "{made}");
    for wrong in [
        "B,0", "W0", "W 0", "W,0,,1", "W,0,", "W,0,x", "W,0,01", "W,65536", "Q,20,1",
    ] {
        assert!(cases::answers(wrong).is_err(), "{wrong}");
    }
}
