//! The page of Req 05 of document 02: by hand, and held against the ledger.
use model::page::page;
use model::player::answers;
use model::{generate, page_check, replay};

const ZEROS: &str = "TOTAL  ----        0          0\n";

/// The page of lines parted by blanks, each with its line feed.
fn of(text: &str) -> String {
    let mut events = String::new();
    for line in text.split_ascii_whitespace() {
        events += line;
        events.push('\n');
    }
    of_bytes(events.as_bytes())
}

fn of_bytes(events: &[u8]) -> String {
    let page = String::from_utf8(page(events)).unwrap();
    assert!(page.ends_with('\n'));
    assert!(page.lines().all(|line| line.len() == 31), "{page}");
    page
}

fn lines(lines: &[&str]) -> String {
    lines.join("\n") + "\n"
}

/// Document 01's example: board 1's commit with board 0, of one block of 4.
#[test]
fn worked_example() {
    let page = of("F,2,4,4,0 W,0,5,0A0B R,1,6,1 C,1, W,0,0,01 A,0, W,1,5,FF Z,1 X,1 R,0,4,4");
    let expected = lines(&[
        "     1 0003        1          4",
        "TOTAL  ----        1          4",
    ]);
    assert_eq!(page, expected);
}

#[test]
fn no_commit() {
    assert_eq!(of_bytes(b""), ZEROS);
    assert_eq!(of_bytes(b"\n"), ZEROS);
    assert_eq!(of("C,0, A,0, U"), ZEROS);
    // Open, but never decided.
    assert_eq!(
        of("F,2,2,2,1 W,0,0,01 R,1,0,1 X,0 W,0,0,02 R,1,0,1 C,1,A1"),
        ZEROS
    );
}

/// Two blocks of 4 and a context of 3; then nothing but the context.
#[test]
fn one_board() {
    let page = of("F,2,4,4,3 W,0,0,01 W,0,15,02 W,1,4,03 C,0,A1A2A3 C,0,B1B2B3");
    let expected = lines(&[
        "     1 0001        2         11",
        "     2 0001        0          3",
        "TOTAL  ----        2         14",
    ]);
    assert_eq!(page, expected);
}

#[test]
fn no_context() {
    let page = of("F,2,1,4,0 W,1,0,01 W,1,2,02 W,1,3,03 C,1, C,0,");
    let expected = lines(&[
        "     1 0002        3          3",
        "     2 0001        0          0",
        "TOTAL  ----        3          3",
    ]);
    assert_eq!(page, expected);
}

/// Sixteen boards in a chain with a block of 64 and a context of 64 each.
#[test]
fn sixteen_members() {
    let zeros = "00".repeat(64);
    let mut text = String::from("F,16,64,16,64 ");
    for i in 0..16 {
        text += &format!("W,{i},{},01 ", 64 * i);
        if i > 0 {
            text += &format!("R,{i},{},1 ", 64 * (i - 1));
        }
    }
    text += &format!("C,15,{zeros} ");
    (0..15).for_each(|i| text += &format!("A,{i},{zeros} "));
    let expected = lines(&[
        "     1 FFFF       16       2048",
        "TOTAL  ----       16       2048",
    ]);
    assert_eq!(of(&text), expected);
}

/// 1,024 blocks of 16: the most that one board can save.
#[test]
fn largest() {
    let mut text = String::from("F,16,16,1024,64 ");
    (0..1024).for_each(|block| text += &format!("W,10,{},01 ", 16 * block));
    text += &format!("C,10,{}", "00".repeat(64));
    let expected = lines(&[
        "     1 0400     1024      16448",
        "TOTAL  ----     1024      16448",
    ]);
    assert_eq!(of(&text), expected);
}

/// K = 2: the fifth store decides, and there are 2 + 4 + 2 x 3 + 2 = 14.
#[test]
fn a_start_cut() {
    let before = "F,2,2,3,2 W,0,0,01 W,0,2,02 W,1,4,03";
    let line = lines(&[
        "     1 0001        2          6",
        "TOTAL  ----        2          6",
    ]);
    for k in 0..=15 {
        let page = of(&format!("{before} Z,{k} C,0,A0A1 R,1,0,1"));
        assert_eq!(page, if k < 5 { ZEROS } else { &line }, "{k}");
    }
    assert_eq!(of(&format!("{before} C,0,A0A1")), line);
}

/// The answer of the cut call has the group 0000.
#[test]
fn an_acknowledgement_cut() {
    let before = "F,3,2,3,1 W,0,0,01 R,2,0,1 W,2,2,02 W,1,4,03 C,2,A2";
    let line = lines(&[
        "     1 0005        2          6",
        "TOTAL  ----        2          6",
    ]);
    // Byte 9 is the fourth store; there are 1 + 4 + 2 x 3 + 2 = 13.
    for k in 0..=14 {
        let text = format!("{before} Z,{k} A,0,A0 R,1,0,1");
        assert_eq!(of(&text), if k < 4 { ZEROS } else { &line }, "{k}");
    }
    let cut = format!("{before} Z,4 A,0,A0").replace(' ', "\n");
    let answers = String::from_utf8(answers(cut.as_bytes())).unwrap();
    assert!(
        answers.ends_with("8,A,9,1,0000,4,\n8,U,0,0,0000,12,\n"),
        "{answers}"
    );
    // The power-ups afterwards finish nothing more.
    assert_eq!(of(&format!("{before} Z,4 A,0,A0 U Z,0 U U")), line);
    // Cut before the last member: nothing is decided, however large k is.
    let two_missing = "F,3,2,3,1 W,0,0,01 R,1,0,1 W,1,2,02 R,2,2,1 C,2,A2";
    for k in [0, 1, 4, 9, 65_535] {
        assert_eq!(of(&format!("{two_missing} Z,{k} A,0,A0")), ZEROS, "{k}");
    }
}

/// Count and sums go on over formats, refused and cut ones too.
#[test]
fn several_formats() {
    let page = of(
        "F,2,4,4,1 W,0,0,01 C,0,A0 F,1,1,1,0 W,0,0,01 C,0, Z,3 F,2,2,2,1 C,0,A0 U \
         F,17,1,1,0 F,16,2,3,5 W,15,0,01 W,15,2,02 W,15,4,03 Z,8 C,15,0102030405",
    );
    let expected = lines(&[
        "     1 0001        1          5",
        "     2 0001        1          1",
        "     3 8000        3         11",
        "TOTAL  ----        5         17",
    ]);
    assert_eq!(page, expected);
}

#[test]
fn unreadable_lines_and_refusals() {
    let page = of(
        "F,2,2,2,1 C,0 c,0,A0 C,0,a0 C,2,A2 C,0, A,0,A0 W,0,0,01 R,1,0,1 C,1,A1 C,0,A0 \
         A,1,A1 A,2,A2 A,0, ? Z,9 ? A,0,A0 A,0,A0",
    );
    let expected = lines(&[
        "     1 0003        1          4",
        "TOTAL  ----        1          4",
    ]);
    assert_eq!(page, expected);
}

#[test]
fn no_last_line_feed() {
    let expected = lines(&[
        "     1 0002        0          1",
        "TOTAL  ----        0          1",
    ]);
    assert_eq!(of_bytes(b"F,2,2,2,1\nC,1,A1"), expected);
    assert_eq!(of_bytes(b"F,2,2,2,1\nC,1,A1\n"), expected);
    assert_eq!(of_bytes(b"F,2,2,2,1\nZ,4\nC,1,A1"), expected);
}

/// Dropped by a fault, a power-up, a cut and a format: no line.
#[test]
fn dropped_commits() {
    let open = "F,3,2,2,1 W,0,0,01 R,1,0,1 C,1,A1";
    for end in ["X,0", "X,1", "U", "Z,0 U", "Z,0 A,0,A0", "F,3,2,2,1"] {
        assert_eq!(of(&format!("{open} {end} A,0,A0")), ZEROS, "{end}");
    }
    // A fault outside leaves it open.
    let expected = lines(&[
        "     1 0003        1          4",
        "TOTAL  ----        1          4",
    ]);
    assert_eq!(of(&format!("{open} X,2 A,0,A0")), expected);
}

/// Board 1 depends on 0, whose block board 2 overwrote and saved.
#[test]
fn members_without_blocks() {
    let page = of("F,3,2,2,4 W,0,0,01 R,1,0,1 W,2,0,0102 C,2,01020304 C,1,01020304 A,0,01020304");
    let expected = lines(&[
        "     1 0004        1          6",
        "     2 0003        0          8",
        "TOTAL  ----        1         14",
    ]);
    assert_eq!(page, expected);
}

/// A format and so many commits of one block of 2 and a context of 1, every
/// second one cut at the deciding store.
fn commits(count: usize) -> Vec<u8> {
    let mut events = b"F,1,2,1,1\n".to_vec();
    for i in 0..count {
        events.extend_from_slice(b"W,0,0,01\n");
        if i % 2 == 1 {
            events.extend_from_slice(b"Z,4\n");
        }
        events.extend_from_slice(b"C,0,A0\n");
    }
    events
}

#[test]
fn at_most_9_999_lines() {
    let last = "  9999 0001        1          3\n";
    let full = "TOTAL  ----     9999      29997\n";
    let page_9998 = of_bytes(&commits(9_998));
    assert!(
        page_9998.ends_with("  9998 0001        1          3\nTOTAL  ----     9998      29994\n")
    );
    assert_eq!(page_9998.lines().count(), 9_999);
    let page_9999 = of_bytes(&commits(9_999));
    assert!(page_9999.ends_with(&format!("{last}{full}")));
    assert_eq!(page_9999.lines().count(), 10_000);
    for count in [10_000, 10_001, 10_500] {
        assert!(of_bytes(&commits(count)) == page_9999, "{count}");
    }
    // The 10,000th ends the reading, nothing else does.
    let mut reached = page_check::reached();
    for count in [9_998, 9_999, 10_000, 10_001] {
        let mut events = commits(count);
        events.extend_from_slice(b"F,2,1,1,0\n?\nU\n");
        assert_eq!(
            page_check::file(&events, 0, &mut reached),
            Ok(()),
            "{count}"
        );
    }
    let mut left: &[u8] = &commits(10_001);
    model::page::run(&mut left, &mut Vec::new()).unwrap();
    assert_eq!(left, b"W,0,0,01\nC,0,A0\n");
}

/// The 99,999 lines are the limit here too.
#[test]
fn stops_after_99_999_lines() {
    let mut events = b"F,1,1,1,0\n".to_vec();
    events.extend(b"\n".repeat(99_997));
    events.extend_from_slice(b"C,0,\nC,0,\nC,0,\n");
    let expected = lines(&[
        "     1 0001        0          0",
        "TOTAL  ----        0          0",
    ]);
    assert_eq!(of_bytes(&events), expected);
}

/// The replay files reach every situation of the check, and none is too
/// large for the gate's program `replay`.
#[test]
fn replay_files() {
    let mut reached = page_check::reached();
    for file in replay::all() {
        let checked = page_check::file(&file.events, 0, &mut reached);
        assert_eq!(checked, Ok(()), "{}", file.name);
        for bytes in [page(&file.events), answers(&file.events), file.events] {
            assert!(bytes.len() <= 65_535, "{}", file.name);
        }
    }
    for (situation, count) in reached.counts() {
        assert!(count > 0, "{situation}");
    }
}

/// The files of the comparison reach them too, but for a commit of so many
/// blocks.
#[test]
fn random_histories() {
    let mut reached = page_check::reached();
    for seed in 0..300 {
        let events = generate::file(seed);
        let checked = page_check::file(&events, seed, &mut reached);
        assert_eq!(checked, Ok(()), "{seed}");
    }
    for (situation, count) in reached.counts() {
        assert!(
            count > 0 || situation == "decided: five digits of bytes",
            "{situation}"
        );
    }
}
