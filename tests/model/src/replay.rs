//! The replay files: fixed event files that together reach every situation
//! of document 01 and of Req 01, 05, 06 and 07 of document 02 that lines can
//! reach.

mod orders;
mod pages;
mod straddles;

use crate::generate;
use crate::lines::{self, Room, LONGEST};
use crate::player::{Player, MOST_LINES};

/// Name, what the file reaches, the event lines.
pub struct Replay {
    pub name: &'static str,
    pub reaches: &'static str,
    pub events: Vec<u8>,
}

#[derive(Default)]
struct Script(Vec<u8>);

impl Script {
    /// One line as it stands.
    fn line(&mut self, line: impl AsRef<[u8]>) {
        self.0.extend_from_slice(line.as_ref());
        self.0.push(b'\n');
    }

    /// Lines parted by blanks, for lines that hold none.
    fn lines(&mut self, text: impl AsRef<str>) {
        for line in text.as_ref().split_ascii_whitespace() {
            self.line(line);
        }
    }

    /// The lines before, Z with k, the call, the lines after; for each k.
    fn cut_at(&mut self, ks: &[u32], before: &str, call: &str, after: &str) {
        for k in ks {
            self.lines(before);
            self.line(format!("Z,{k}"));
            self.line(call);
            self.lines(after);
        }
    }

    /// Cut before every store, and k = L and L + 1.
    fn cut_at_every(&mut self, before: &str, call: &str, after: &str) {
        let ks: Vec<u32> = (0..=stores(before, call) + 1).collect();
        self.cut_at(&ks, before, call, after);
    }

    /// Cut at the first, second, context, deciding and last stores, k = L
    /// and beyond.
    fn cut_at_marks(&mut self, context: u32, before: &str, call: &str, after: &str) {
        let all = stores(before, call);
        let mut ks = vec![
            0,
            1,
            context,
            context + 1,
            context + 2,
            context + 3,
            context + 4,
        ];
        ks.extend([
            all.saturating_sub(2),
            all.saturating_sub(1),
            all,
            all + 1,
            65_535,
        ]);
        ks.sort_unstable();
        ks.dedup();
        self.cut_at(&ks, before, call, after);
    }
}

/// The stores of a call after the lines before it, uncut.
fn stores(before: &str, call: &str) -> u32 {
    let mut player = Player::default();
    let mut made = 0;
    for line in before.split_ascii_whitespace().chain([call]) {
        let mut room: Room = [0; LONGEST / 2];
        made = player
            .play(lines::parse(line.as_bytes(), &mut room).as_ref())
            .answer
            .stores;
    }
    made
}

/// `count` bytes in hexadecimal, a run that begins with `first`.
fn run(first: usize, count: usize) -> String {
    (0..count)
        .map(|i| format!("{:02X}", (first + 7 * i) & 0xFF))
        .collect()
}

/// Reads of all cells, block by block.
fn read_all(board: usize, size: usize, blocks: usize) -> String {
    (0..blocks)
        .map(|block| format!("R,{board},{},{size} ", block * size))
        .collect()
}

/// Board i writes its own block i, then reads the block of i - 1, so that
/// every board depends on the one before it.
fn chain(boards: usize, size: usize) -> String {
    let mut text = String::new();
    for i in 0..boards {
        text += &format!("W,{i},{},{} ", i * size, run(16 * i + 1, size));
        if i > 0 {
            text += &format!("R,{i},{},1 ", (i - 1) * size);
        }
    }
    text
}

/// Acknowledgements of the boards given, with their contexts.
fn acknowledge(boards: impl Iterator<Item = usize>, context: usize) -> String {
    boards
        .map(|i| format!("A,{i},{} ", run(3 * i + 5, context)))
        .collect()
}

pub fn all() -> Vec<Replay> {
    let mut files = Vec::new();
    let mut add = |name, reaches, write: &dyn Fn(&mut Script)| {
        let mut script = Script::default();
        write(&mut script);
        files.push(Replay {
            name,
            reaches,
            events: script.0,
        });
    };
    whole_files(&mut add);
    allowances(&mut add);
    unreadable(&mut add);
    formats(&mut add);
    accesses(&mut add);
    answers(&mut add);
    cuts(&mut add);
    groups(&mut add);
    overwrites(&mut add);
    overwrite_chains(&mut add);
    open_commits(&mut add);
    slips(&mut add);
    large(&mut add);
    pages::add(&mut add);
    straddles::add(&mut add);
    orders::add(&mut add);
    generated(&mut add);
    files
}

/// The files in the order of their names, in which the gate plays them.
fn sorted() -> Vec<Replay> {
    let mut files = all();
    files.sort_by_key(|file| file.name);
    files
}

/// The arguments of the gate's program `replay`: a name a line.
pub fn arguments() -> String {
    sorted()
        .iter()
        .map(|file| format!("{}\n", file.name))
        .collect()
}

/// What the gate's program `replay` prints where no answer differs.
pub fn report() -> String {
    let files = sorted();
    let mut text = String::new();
    for file in &files {
        let lines = file.events.split_inclusive(|byte| *byte == b'\n').count();
        let played = lines.min(MOST_LINES as usize);
        text += &format!("{}: {played} lines, as expected\n", file.name);
    }
    text + &format!("{} files, 0 differ\n", files.len())
}

/// The standard input of the gate's own run of `rsmrun`: several times what
/// it reads at once, more answers to one piece than it holds, more than a
/// thousand lines, and no last line feed.
pub fn long_run() -> Vec<u8> {
    let mut script = Script::default();
    script.line("F,16,64,16,2");
    script.line(format!("W,0,0,{}", run(1, 64)));
    for _ in 0..150 {
        script.line("R,0,0,64");
    }
    for i in 0..900 {
        let board = i * 7 % 16;
        let cell = i * 13 % 1024;
        script.line(match i % 6 {
            0 | 3 => format!("W,{board},{cell},{:02X}", i % 256),
            1 | 4 => format!("R,{board},{cell},1"),
            2 => format!("C,{board},{}", run(i, 2)),
            _ => format!("X,{board}"),
        });
    }
    script.lines("W,3,128,0A0B0C0D R,3,128,4");
    script.0.pop();
    script.0
}

/// The standard input of the gate's own run of `rsmpage`: several times what
/// it reads at once, a page of several hundred lines, commits of one board
/// and of two, some cut, other formats between, and a last line that decides
/// and has no line feed.
pub fn page_run() -> Vec<u8> {
    let mut script = Script::default();
    for round in 0..400 {
        let (starter, other) = (round % 16, (round + 1 + round / 16) % 16);
        let context = round / 100;
        let size = 1 << (2 * context);
        if round % 100 == 0 {
            script.line(format!("F,16,{size},16,{context}"));
        }
        let cell = round % 16 * size;
        script.line(format!("W,{other},{cell},{}", run(round, 1)));
        script.line(format!("R,{starter},{cell},1"));
        if round % 3 == 0 {
            script.line(format!("W,{starter},{},01", (cell + size) % (16 * size)));
        }
        if round % 7 == 0 {
            script.line(format!("C,{starter}"));
        }
        script.line(format!("C,{starter},{}", run(round, context)));
        if round % 9 == 4 {
            script.line(format!("Z,{}", context + round / 9 % 8));
        }
        script.line(format!("A,{other},{}", run(round + 1, context)));
    }
    script.0.pop();
    script.0
}

/// The standard input of the gate's own run of `rsmorder`: links by reads, by
/// a short write and by a whole overwrite, components of three boards, of two
/// and of one that wait for higher ones; before them a cut format, a commit
/// and a fault; and no last line feed.
pub fn order_run() -> Vec<u8> {
    let mut script = Script::default();
    script.lines("Z,9 F,8,4,8,1 U F,8,4,8,1 W,0,0,01 R,3,0,1 C,3,A3 A,0,A0 W,6,24,02 R,7,27,1 X,6");
    // 1, 4 and 6 in a ring; 2 and 3 bound, and 2 depends on 1.
    script.lines("W,1,4,11 W,4,16,14 W,6,24,16 R,1,19,1 R,4,24,1 r,6,4,1 R,6,4,1");
    script.lines("W,3,12,13 W,2,13,12 R,2,4,4");
    // 7 depends on 5, 5 on 2 and on 4, 0 on 5.
    script.lines("W,7,28,17181920 W,5,28,15161718 R,5,14,4 R,0,30,1");
    script.0.pop();
    script.0
}

type Add<'a> = &'a mut dyn FnMut(&'static str, &'static str, &dyn Fn(&mut Script));

fn whole_files(add: Add) {
    add(
        "worked_example",
        "the worked example of the event lines",
        &|s| {
            s.lines("F,2,4,4,0 W,0,5,0A0B R,1,6,1 C,1, W,0,0,01 A,0, W,1,5,FF Z,1 X,1 R,0,4,4");
        },
    );
    add("empty_file", "no line, no answer", &|_| {});
    add("one_line_feed", "a file of one empty line", &|s| s.line(""));
    add(
        "no_last_line_feed",
        "the last line ended by the input's end",
        &|s| {
            s.lines("F,2,2,2,1 W,1,3,7E R,0,3,1");
            s.0.pop();
        },
    );
    add(
        "no_last_line_feed_cut",
        "a cut last line without line feed, with its U",
        &|s| {
            s.lines("F,2,2,2,1 W,1,2,7E7F Z,2 X,1");
            s.0.pop();
        },
    );
    add(
        "no_last_line_feed_unreadable",
        "an unreadable last line without line feed",
        &|s| {
            s.lines("F,2,2,2,1 U U,");
            s.0.pop();
        },
    );
    add(
        "nul_is_the_last_byte",
        "a NUL after the last line feed is a line",
        &|s| {
            s.lines("F,1,1,1,0 U");
            s.0.push(0);
        },
    );
    add(
        "before_the_first_format",
        "every letter on the empty image: 11, F refused 4 too",
        &|s| {
            s.lines(
                "R,0,0,1 W,0,0,01 C,0, A,0, X,0 U Z,3 U Z,0 W,0,0,01 R,16,0,0 W,99,0, C,9,0102",
            );
            s.lines("F,17,1,1,0 R,0,0,1 U X,0 F,1,1,1,0 R,0,0,1 W,0,0,01 C,0, X,0 U");
        },
    );
}

fn allowances(add: Add) {
    add(
        "z_before_everything",
        "Z as the first line: cuts the first format",
        &|s| {
            s.lines("Z,5 F,1,2,2,1 R,0,0,1 U Z,65535 F,1,2,2,1 R,0,0,1");
        },
    );
    add(
        "z_is_spent",
        "the line after a Z spends it, whatever that line is",
        &|s| {
            s.lines("F,2,2,2,1 Z,0 R,0,0,1 W,0,0,01 Z,0 W,2,0,01 W,0,1,02 Z,0 X,9 X,0");
            s.lines("Z,0 Z,7 W,0,0,0102 Z,7 Z,0 W,0,0,0304 Z,0 z,0 W,0,0,0506");
            s.lines("Z,0 Z,00 W,0,0,0708 Z,1 Z,65536 X,0 Z,0 ? W,1,2,0A0B Z,0");
            s.line("");
            s.lines(
                "X,1 Z,0 F,0,1,1,1 W,0,0,0C Z,0 A,0,11 C,0,22 Z,0 C,0, C,0,33 R,1,0,2 R,1,2,2 Z,1",
            );
        },
    );
    add(
        "z_zero_without_stores",
        "k = 0 with nothing to store is done",
        &|s| {
            s.lines("F,3,2,2,0 Z,0 U Z,0 X,1 Z,0 R,1,0,2 W,0,0,01 R,1,0,1 Z,0 C,1, Z,0 A,0, Z,0 U");
            s.lines("W,2,2,0102 Z,0 X,0 R,0,2,2 Z,0 X,2 R,0,2,2");
        },
    );
    add(
        "k_65535",
        "the largest allowance before every letter",
        &|s| {
            s.lines("Z,65535 F,16,64,256,64 Z,65535 W,3,64,01 Z,65535 R,4,64,1 Z,65535");
            s.lines(format!("C,4,{} Z,65535 A,3,{}", run(1, 64), run(2, 64)));
            s.lines("W,3,0,01 Z,65535 X,3 W,3,0,01 Z,65535 U Z,65535 Z,65535 W,3,0,01 R,3,0,2");
        },
    );
    add(
        "z_65534_and_exact",
        "k = L is done and k = L - 1 is cut, each storing call once",
        &|s| {
            s.cut_at(&[17, 18, 19, 65_534], "", "F,1,2,1,0", "R,0,0,1 U");
            s.cut_at(&[2, 3], "F,2,2,2,1", "W,0,0,0102", "R,1,0,2");
            s.cut_at(&[7, 8, 9], "F,2,2,2,1 W,0,0,0102", "C,0,AA", "R,1,0,2");
            s.cut_at(
                &[0, 1, 2],
                "F,2,2,2,1 W,0,0,0102 R,1,0,1",
                "C,1,AA",
                "R,1,0,2",
            );
            s.cut_at(
                &[8, 9, 10],
                "F,2,2,2,1 W,0,0,0102 R,1,0,1 C,1,AA",
                "A,0,BB",
                "R,1,0,2",
            );
            s.cut_at(&[2, 3], "F,2,2,2,1 W,0,0,0102", "X,0", "R,1,0,2");
            s.cut_at(&[2, 3], "F,2,2,2,1 W,0,0,0102", "U", "R,1,0,2");
        },
    );
}

fn unreadable(add: Add) {
    add(
        "unreadable_letters",
        "letters that are none, small letters, more than one",
        &|s| {
            s.lines(
                "F,2,4,4,2 f,2,4,4,2 r,0,0,1 w,0,0,01 c,0,0102 a,0,0102 x,0 u z,1 ? B,1 G H K S,1",
            );
            s.lines("FF,2,4,4,2 RR,0,0,1 WW,0,0,01 UU UX ZZ,1 XX,0 0 1,2 9,U ,U ,,, , # \"U\" \"R\",0,0,1");
            for byte in 0..=255_u8 {
                if !b"\nU".contains(&byte) {
                    s.line([byte]);
                }
            }
            s.lines("R,0,0,4 U");
        },
    );
    add(
        "unreadable_commas",
        "one comma too few, one too many, none, for each letter",
        &|s| {
            s.lines("F,2,4,4,2");
            let good = [
                "F,2,4,4,2",
                "R,0,0,1",
                "W,0,0,01",
                "C,0,0102",
                "A,0,0102",
                "X,0",
                "U",
                "Z,1",
            ];
            for line in good {
                s.line(format!("{line},"));
                s.line(format!("{line},0"));
                s.line(format!(",{line}"));
                s.line(line.replacen(',', ",,", 1));
                s.line(line.replace(',', ""));
                s.line(line.replace(',', ";"));
                s.line(line.rsplit_once(',').map_or("U,,", |(head, _)| head));
                s.line(&line[..1]);
            }
            s.lines("W,0,0 W,0, W,0,0, C,0 C,0, A,0 A, A,, R,0,0 R,,, F,,,, X, Z, R,0,0,4");
        },
    );
    add(
        "unreadable_numbers",
        "numbers with leading zeros, signs, blanks, above 65,535, none",
        &|s| {
            s.lines("F,2,4,4,0");
            let bad = [
                "00",
                "01",
                "007",
                "00000",
                "65536",
                "65540",
                "70000",
                "99999",
                "100000",
                "4294967296",
                "18446744073709551616",
                "+1",
                "-1",
                "-0",
                "1.",
                "1.0",
                "0x1",
                "1e1",
                "A",
                "a",
                "",
                "1_0",
                "'1'",
            ];
            for field in bad {
                s.lines(format!(
                    "F,{field},4,4,0 F,2,{field},4,0 F,2,4,{field},0 F,2,4,4,{field}"
                ));
                s.lines(format!(
                    "R,{field},0,1 R,0,{field},1 R,0,0,{field} W,{field},0,01"
                ));
                s.lines(format!(
                    "W,0,{field},01 C,{field}, A,{field}, X,{field} Z,{field}"
                ));
            }
            for field in [" 1", "1 ", "1\t", "1\r", "1\0", "\u{661}", "1\u{b2}"] {
                s.line(format!("R,{field},0,1"));
                s.line(format!("X,{field}"));
                s.line(format!("Z,{field}"));
            }
            s.lines("R,65535,0,1 R,0,65535,1 R,0,0,65535 X,65535 Z,65535 X,10000 R,0,0,1");
        },
    );
    add(
        "unreadable_bytes",
        "bytes with small letters, an odd digit, no digits",
        &|s| {
            s.lines("F,2,4,4,2");
            let bad = [
                "0", "1", "F", "012", "0A0", "0a", "a0", "ab", "aB", "Ab", "0G", "G0", "g0", "0x",
                "0X01", "-1", "+1", "1-", "/0", "0/", ":0", "0:", "@0", "0@", "`0", "0`", "..",
                "0102030",
            ];
            for field in bad {
                s.lines(format!("W,0,0,{field} C,0,{field} A,0,{field}"));
            }
            for field in [
                " ", "01 ", " 01", "01 02", "01\r", "0\x001", "\u{e9}", "\t\t",
            ] {
                s.line(format!("W,0,0,{field}"));
                s.line(format!("C,0,{field}"));
                s.line(format!("A,0,{field}"));
            }
            s.lines("R,0,0,4 W,0,0,0189ABEF R,0,0,4 C,0,CDEF");
        },
    );
    add(
        "unreadable_blanks",
        "blank, tab, CR, NUL, bytes above 127, at every place of a line",
        &|s| {
            s.lines("F,2,4,4,1");
            for extra in [" ", "\t", "\r", "\0", "\u{feff}", "\u{7f}"] {
                for good in ["U", "X,0", "Z,0", "W,0,0,01", "C,0,01"] {
                    for at in 0..=good.len() {
                        s.line(format!("{}{extra}{}", &good[..at], &good[at..]));
                    }
                }
            }
            s.line(b"\xFF\xFE\x80");
            s.line(b"U\xFF");
            s.line(b"W,0,0,\x80\x81");
            s.lines("R,0,0,4 U");
        },
    );
    add(
        "cr_lf_file",
        "every line ended by CR and line feed: all refused 6",
        &|s| {
            for line in [
                "F,2,4,4,0",
                "W,0,5,0A0B",
                "R,1,6,1",
                "C,1,",
                "A,0,",
                "X,1",
                "U",
                "Z,1",
                "",
            ] {
                s.line(format!("{line}\r"));
            }
        },
    );
    add("empty_lines", "empty lines count and are refused 6", &|s| {
        s.0.extend_from_slice(b"\n\nF,1,1,1,0\n\nW,0,0,05\n\n\nZ,0\n\nX,0\n\n");
    });
    add(
        "line_160_and_161",
        "160 characters taken apart, 161 and more not",
        &|s| {
            s.lines("F,2,64,4,64");
            // 77 bytes: readable, refused 2. One digit or comma more: refused 6.
            s.line(format!("W,0,0,{}", run(0, 77)));
            s.line(format!("W,0,0,{}0", run(0, 77)));
            s.line(format!("W,0,0,{}00", run(0, 77)));
            s.line(format!("W,10,0,{}", run(0, 77)));
            s.line(format!("W,10,0,{}", run(0, 76)));
            // 78 bytes need a short head: C,0, has 4 characters.
            s.line(format!("C,0,{}", run(0, 78)));
            s.line(format!("C,10,{}", run(0, 78)));
            s.line(format!("C,10,{}", run(0, 77)));
            s.line(format!("A,0,{}", run(0, 78)));
            s.line(format!("A,0,{},", run(0, 78)));
            s.line(format!("W,0,0,{}", run(0, 64)));
            for length in [159, 160, 161, 162, 163, 164, 320, 322] {
                s.line("Y".repeat(length));
                s.line(format!("R,0,0,{}", "0".repeat(length - 6)));
                s.line(format!("U{}", " ".repeat(length - 1)));
                s.line(format!("Z,{}1", "0".repeat(length - 3)));
            }
            // Around the sizes of usual input buffers.
            for length in [4095, 4097, 8200] {
                s.line("U".repeat(length));
            }
            // What follows an over-long line is a line of its own.
            s.line(format!("{}{}", "U".repeat(162), "R,0,0,1"));
            s.lines("R,0,0,64 Z,1");
            s.line("U".repeat(161));
            s.lines("X,0 R,0,0,64");
            s.0.extend_from_slice("W".repeat(500).as_bytes());
        },
    );
}

fn formats(add: Add) {
    add(
        "format_limits",
        "P, S, B, K and B x S at and beyond their limits",
        &|s| {
            s.lines("F,0,1,1,0 F,1,1,1,0 F,16,1,1,0 R,15,0,1 F,17,1,1,0 R,15,0,1 F,65535,1,1,0");
            for size in [
                0, 1, 2, 3, 4, 5, 6, 7, 8, 9, 15, 16, 17, 24, 31, 32, 33, 63, 64, 65, 128, 256,
                65535,
            ] {
                s.lines(format!(
                    "F,2,{size},3,1 R,1,0,1 R,1,0,{size} R,1,0,{}",
                    (size + 1) & 0xFFFF
                ));
            }
            for (size, most) in [
                (1, 1024),
                (2, 1024),
                (4, 1024),
                (8, 1024),
                (16, 1024),
                (32, 512),
                (64, 256),
            ] {
                let last = size * most - 1;
                s.lines(format!(
                    "F,1,{size},{most},0 R,0,{last},1 R,0,{},1",
                    last + 1
                ));
                s.lines(format!("F,1,{size},{},0 R,0,{last},1", most + 1));
            }
            s.lines(
                "F,1,1,0,0 F,1,64,0,0 F,1,1,65535,0 F,1,64,1024,0 F,1,32,1024,0 F,1,64,65535,64",
            );
            s.lines(
                "F,1,1,1,64 F,1,1,1,65 F,1,1,1,255 F,1,1,1,256 F,1,1,1,65535 F,17,3,0,65 F,0,0,0,0",
            );
            s.lines("F,16,64,256,64 F,16,64,257,64 R,15,16320,64 F,16,16,1024,64 F,16,16,1025,64");
        },
    );
    add(
        "format_refused_keeps_all",
        "a format refused 4 leaves image, record and open commit",
        &|s| {
            s.lines(
                "F,3,2,4,1 W,0,0,0102 R,1,0,2 C,1,AA F,17,2,4,1 W,0,0,01 C,0,01 F,3,3,4,1 A,0,BB",
            );
            s.lines("R,2,0,2 W,2,2,0304 Z,0 F,3,2,1025,1 Z,0 F,3,64,257,1 Z,1 F,3,2,4,65 R,0,2,2 X,2 R,0,2,2");
        },
    );
    add(
        "several_formats",
        "new formats of other shapes, also with a commit open",
        &|s| {
            s.lines("F,2,4,4,0 W,0,0,01020304 F,2,4,4,0 R,1,0,4 C,1, W,0,0,01 R,1,0,1 C,1, F,4,1,8,3 C,0,010203");
            s.lines("W,3,7,FF R,2,7,1 C,2,AABBCC F,1,64,2,64 R,0,64,64 W,0,127,01 R,0,128,1");
            s.lines(format!("C,0,{} U F,16,2,16,1 {}", run(9, 64), chain(16, 2)));
            s.lines(
                "F,16,2,16,1 X,0 C,15,01 F,1,1,1,0 W,0,0,01 C,0, U R,0,0,1 F,2,1,1,0 R,1,0,1 X,1",
            );
        },
    );
    add(
        "format_cut_every_k",
        "a small format cut before every store; then every letter",
        &|s| {
            let after = "R,0,0,1 W,0,0,01 U X,0";
            s.cut_at_every("", "F,1,1,1,0", after);
            s.cut_at_every("F,2,2,1,1 W,1,0,0102", "F,2,2,1,1", "R,0,0,2 C,0,AA A,0,AA");
        },
    );
    add(
        "format_cut_largest",
        "the largest formats cut at the first, header and last stores",
        &|s| {
            for shape in ["F,16,64,256,64", "F,16,16,1024,64", "F,16,1,1024,0"] {
                let all = stores("", shape);
                let ks = [
                    0,
                    1,
                    4,
                    5,
                    9,
                    10,
                    12,
                    13,
                    all / 2,
                    all - 2,
                    all - 1,
                    all,
                    all + 1,
                    65_535,
                ];
                s.cut_at(&ks, "", shape, "R,15,0,1 U");
            }
        },
    );
    add(
        "format_cut_then_refused_formats",
        "after a cut format only a finished one helps",
        &|s| {
            s.lines("F,2,2,2,1 W,0,0,0102 Z,3 F,2,2,2,1 R,0,0,1 F,17,1,1,0 U R,0,0,1 Z,0 F,2,2,2,1 X,0 Z,1 U");
            s.lines("Z,22 F,2,2,2,1 A,0,01 Z,26 F,2,2,2,1 R,0,0,2 Z,27 F,2,2,2,1 R,0,0,2 C,0,01");
        },
    );
}

fn accesses(add: Add) {
    add(
        "access_edges",
        "n = S at a block's start taken, one cell on too, refused 2 in the last block; each S",
        &|s| {
            for size in [1, 2, 4, 8, 16, 32, 64] {
                let end = 3 * size;
                s.lines(format!("F,2,{size},3,0"));
                for cell in [0, 1, size - 1, size, end - size, end - 1, end, 65_535] {
                    for n in [0, 1, size / 2, size - 1, size, size + 1] {
                        s.lines(format!("R,1,{cell},{n}"));
                    }
                    s.lines(format!(
                        "W,0,{cell},{} W,0,{cell},{}",
                        run(cell, 1),
                        run(cell, size)
                    ));
                }
                s.lines(format!(
                    "W,0,0,{} W,0,0, {}",
                    run(1, size + 1),
                    read_all(0, size, 3)
                ));
            }
        },
    );
    add("access_sum_does_not_wrap", "cell + n beyond 65,535", &|s| {
        s.lines("F,1,64,256,0 R,0,65535,1 R,0,65535,2 R,0,65535,64 R,0,65472,64 R,0,65535,65535 R,0,1,65535");
        s.lines("R,0,16384,1 R,0,16383,1 R,0,16383,2 R,0,16320,64 R,0,16321,64 W,0,65535,01 W,0,65535,0102");
        s.lines("W,0,16383,01 W,0,16383,0102 W,0,16384,01 R,0,16320,64");
    });
    add(
        "two_blocks_at_a_time",
        "an access over two blocks is taken, also for two writers; not by a member",
        &|s| {
            s.lines("F,2,4,2,0 W,0,3,0102 R,0,3,2 W,0,3,01 W,1,4,02 R,0,2,2 R,0,2,3 R,1,4,4 R,1,1,4 C,0, C,1, X,0");
            s.lines("W,0,0,01 W,1,4,02 X,0 X,1 W,0,0,01 W,1,4,02 R,0,3,2 R,1,3,2 C,1, R,1,3,2");
            s.lines("W,0,3,0304 A,0, R,0,0,4 R,0,4,4");
        },
    );
    add(
        "rewrites",
        "cells written again by the same and other boards, over kept and undone bytes",
        &|s| {
            s.lines("F,3,4,2,0 W,0,0,01020304 W,0,1,22 W,0,1,2233 R,0,0,4 C,0, W,0,2,44 R,1,0,4 X,0 R,1,0,4");
            s.lines("W,1,0,55 W,1,0,56 W,2,3,66 R,0,0,4 X,1 R,0,0,4 W,2,0,77 C,2, W,1,0,88 W,1,0,89 X,2 R,0,0,4 U R,0,0,4");
        },
    );
    add(
        "reads_store_nothing",
        "reads of clean, own and other's blocks; length of the answer",
        &|s| {
            s.lines("F,3,8,2,2 R,0,0,8 R,1,7,1 W,0,0,0102030405060708 R,0,0,8 R,1,0,3 R,2,5,3 R,2,8,8 X,0 R,2,0,8");
        },
    );
}

fn answers(add: Add) {
    add(
        "every_answer",
        "every letter with every answer that lines can produce",
        &|s| {
            // 11 and 6, 4.
            s.lines(
                "F,0,1,1,1 R,0,0,1 W,0,0,01 C,0,01 A,0,01 X,0 U Z,2 Z,1 F,3,2,4,1 f Z F R W C A X",
            );
            s.lines("F,3,2,4,1");
            // 1, 2, 3.
            s.lines(
                "R,3,0,1 W,3,0,01 C,3,01 A,3,01 X,3 R,0,7,2 W,0,7,0102 C,0, C,0,0102 A,0, A,0,0102",
            );
            // 15, done, 13, 14, 16, decided.
            s.lines("A,0,01 W,0,0,0102 R,1,0,2 C,1,A1 R,1,0,1 W,1,2,01 W,2,0,01 R,2,0,1 C,2,01 C,1,01 A,2,01 A,1,01");
            s.lines("A,0,A0 A,0,A0 C,2,A2 X,0 X,2 U");
            // Cuts of each.
            s.lines("Z,1 W,0,0,0102 Z,0 C,0,01 Z,4 C,0,01 W,0,0,01 R,1,0,1 C,1,01 Z,0 A,0,01");
            s.lines("W,0,0,01 R,1,0,1 C,1,01 Z,5 A,0,01 R,1,0,2 W,0,2,01 Z,1 X,0 W,0,2,01 Z,2 U Z,9 F,3,2,4,1 U");
        },
    );
    add(
        "refusal_order",
        "which refusal comes first where several hold",
        &|s| {
            // 11 before 1, 2, 3.
            s.lines("R,99,99,99 W,99,99, C,99,0102 A,99,01 X,99");
            // 1 before 2 and 3; 2 before 13; 3 before 14, 15, 16.
            s.lines("F,3,2,2,1 R,3,9,0 W,3,9, C,3, A,3,0102 A,0, A,0,01 W,0,0,01 R,1,0,1 C,1,AA");
            s.lines("R,1,3,2 W,1,3,0102 W,0,9, R,3,0,1 W,3,0,01 C,0, C,0,01 C,3,01 C,1,01 A,2, A,2,01 A,1, A,1,01 A,3,01");
            s.lines("R,0,0,1 W,0,0,01 W,2,0,01 W,2,3,0102 X,3 F,3,2,2,65 A,0,BB A,0,BB");
        },
    );
    add(
        "context_lengths",
        "contexts of K bytes and not, K of 0, 1 and 64",
        &|s| {
            s.lines("F,2,1,2,0 C,0, C,0,01 C,0,0102 A,0, A,0,01");
            s.lines("F,2,1,2,1 C,0, C,0,01 C,0,0102 W,0,0,01 R,1,0,1 C,1,01 A,0, A,0,0102 A,0,01");
            s.lines("F,2,1,2,64");
            for count in [0, 1, 63, 64, 65, 77] {
                s.lines(format!(
                    "C,1,{} A,1,{}",
                    run(count, count),
                    run(count, count)
                ));
            }
            s.lines(format!("W,0,0,01 R,1,0,1 C,1,{}", run(0, 64)));
            for count in [0, 1, 63, 65, 77, 64] {
                s.lines(format!(
                    "C,0,{} A,0,{}",
                    run(count, count),
                    run(count, count)
                ));
            }
        },
    );
    add(
        "smallest_shape",
        "one board, one block, one cell, no context",
        &|s| {
            s.lines("F,1,1,1,0 R,0,0,1 W,0,0,01 R,0,0,1 R,0,1,1 R,1,0,1 X,0 R,0,0,1 W,0,0,02 C,0, W,0,0,03 U R,0,0,1");
            s.lines("A,0, Z,0 C,0, Z,3 C,0, Z,4 C,0, R,0,0,1");
            s.cut_at_every("F,1,1,1,0 W,0,0,04", "C,0,", "R,0,0,1");
            s.cut_at_every("F,1,1,1,0 W,0,0,04 C,0,", "W,0,0,05", "R,0,0,1");
        },
    );
}

fn cuts(add: Add) {
    let see = read_all(2, 2, 3) + "X,0 C,1,0A0B";
    add(
        "write_cut_every_k",
        "a write cut before the tag, before each byte, k = L; with and without tag",
        &|s| {
            let fresh = "F,3,2,3,2 W,0,2,1112 C,0,0102";
            s.cut_at_every(fresh, "W,1,2,2122", &see);
            s.cut_at_every(&format!("{fresh} W,1,3,33"), "W,1,2,2122", &see);
            s.cut_at_every(&format!("{fresh} W,0,3,33"), "W,1,2,2122", &see);
            s.cut_at_every(&format!("{fresh} W,0,3,33 W,2,4,44"), "W,1,2,21", &see);
        },
    );
    add(
        "start_alone_cut_every_k",
        "a start that decides cut before every store, k = L",
        &|s| {
            s.cut_at_every(
                "F,3,2,3,2 W,0,0,0102 W,1,2,0304 W,0,4,0506",
                "C,0,AABB",
                &see,
            );
        },
    );
    add(
        "start_alone_cut_every_k_without_context",
        "the same with K = 0, and with nothing written",
        &|s| {
            let see = read_all(2, 2, 3) + "X,0";
            s.cut_at_every("F,3,2,3,0 W,0,0,0102 W,1,2,0304 W,0,4,0506", "C,0,", &see);
            s.cut_at_every("F,3,2,3,0", "C,0,", &see);
            s.cut_at_every("F,3,2,3,1", "C,0,77", &see);
        },
    );
    add(
        "start_cut_not_deciding",
        "a start with members missing cut in its context",
        &|s| {
            s.cut_at_every(
                "F,3,2,3,2 W,0,0,0102 R,1,0,1",
                "C,1,AABB",
                &(see.clone() + " A,0,0102"),
            );
            s.cut_at_every("F,3,2,3,0 W,0,0,0102 R,1,0,1", "C,1,", "A,0, R,2,0,2 A,1,");
        },
    );
    add(
        "acknowledge_cut_not_deciding",
        "an acknowledgement with another still missing, cut",
        &|s| {
            let before = "F,3,2,3,2 W,0,0,0102 W,1,2,0304 R,1,0,1 R,2,2,1 W,2,4,0506 C,2,AAAB";
            s.cut_at_every(
                before,
                "A,0,BABB",
                &(read_all(2, 2, 3) + "A,1,CACB C,2,0102"),
            );
        },
    );
    add(
        "acknowledge_cut_deciding",
        "the deciding acknowledgement cut before every store, k = L",
        &|s| {
            let before =
                "F,3,2,3,2 W,0,0,0102 W,1,2,0304 R,1,0,1 R,2,2,1 W,2,4,0506 C,2,AAAB A,0,BABB";
            s.cut_at_every(before, "A,1,CACB", &see);
        },
    );
    add(
        "commit_cut_small_shape",
        "two boards commit, every call from write to decision cut at every k",
        &|s| {
            let calls = [
                "W,0,0,11", "W,1,1,12", "R,1,0,1", "C,1,C1", "A,0,C0", "W,0,0,21", "X,0",
            ];
            for i in 0..calls.len() {
                let before = format!("F,2,1,2,1 {}", calls[..i].join(" "));
                let after = calls[i + 1..].join(" ") + " R,0,0,1 R,0,1,1 U R,1,0,1 R,1,1,1";
                s.cut_at_every(&before, calls[i], &after);
            }
        },
    );
    add(
        "fault_cut_every_k",
        "a fault of two boards with three blocks cut before every store",
        &|s| {
            let before =
                "F,4,2,4,1 W,0,0,0102 C,0,01 W,0,0,1112 R,1,0,1 W,1,4,0506 W,0,6,0708 W,2,2,0304";
            s.cut_at_every(before, "X,0", &(read_all(3, 2, 4) + "X,0 C,2,02"));
        },
    );
    add(
        "power_up_cut_every_k",
        "a power-up with three tagged blocks cut before every store",
        &|s| {
            let before = "F,4,2,4,1 W,0,0,0102 C,0,01 W,0,0,1112 W,1,4,0506 W,2,6,0708 R,3,6,1";
            s.cut_at_every(before, "U", &(read_all(3, 2, 4) + "X,0 C,3,02"));
        },
    );
    add(
        "power_up_cut_again",
        "power-ups cut one after another, with writes between",
        &|s| {
            s.lines("F,2,2,3,1 W,0,0,0102 C,0,01 Z,0 U W,0,0,11 W,1,2,12 Z,1 U R,0,0,2 W,1,2,13 Z,2 U W,0,0,14 Z,3 U");
            s.lines("W,0,0,15 Z,4 U W,0,0,16 W,0,2,17 W,0,4,18 Z,8 U W,0,0,16 W,0,2,17 W,0,4,18 Z,9 U R,1,0,2 Z,0 U U");
        },
    );
    add(
        "power_up_cut_after_decision",
        "a cut after the deciding store, then writes and cut power-ups",
        &|s| {
            let before = "F,3,2,3,2 W,0,0,0102 R,1,0,1 W,1,2,0304 C,1,AAAB";
            let after = "Z,0 U W,2,0,31 R,0,0,2 W,0,4,32 Z,2 U R,0,0,2 R,0,2,2 R,0,4,2 W,1,2,41 Z,3 U R,0,2,2";
            s.cut_at_every(before, "A,0,BABB", after);
        },
    );
    add(
        "decided_then_cut_keeps_others_undone",
        "a cut decided commit rolls back boards outside the group",
        &|s| {
            let before =
                "F,4,2,4,1 W,0,0,0102 W,1,2,0304 W,2,4,0506 R,3,4,1 W,3,6,0708 R,1,0,1 C,1,AA";
            s.cut_at_marks(1, before, "A,0,BB", &(read_all(0, 2, 4) + "X,2 X,3 C,3,CC"));
        },
    );
    add(
        "cut_after_cut",
        "histories in which most calls are cut",
        &|s| {
            s.lines("F,2,2,2,1 Z,1 W,0,0,0102 Z,2 W,0,0,0102 Z,3 W,0,0,0102 Z,4 C,0,A0 Z,3 C,0,A1 W,0,0,0304 Z,5 C,0,A2");
            s.lines("R,0,0,2 W,1,0,0506 Z,1 C,1,A3 W,1,0,0506 Z,2 C,1,A3 W,1,0,0506 Z,3 C,1,A3 R,0,0,2 W,1,0,0506 Z,4 C,1,A3");
            s.lines("R,0,0,2 W,0,0,0708 R,1,0,1 Z,0 C,1,A4 C,1,A4 W,0,0,0708 R,1,0,1 C,1,A5 Z,0 A,0,A6 R,0,0,2 U U");
        },
    );
}

fn groups(add: Add) {
    add(
        "read_links_one_way",
        "a read makes the reader depend on the writer only",
        &|s| {
            s.lines("F,3,1,3,0 W,0,0,01 R,1,0,1 C,0, R,1,0,1 X,1 W,0,0,02 R,1,0,1 X,1 R,2,0,1 X,0 R,2,0,1");
            s.lines("W,0,0,03 R,1,0,1 W,1,1,04 C,1, A,0, X,0 X,1 R,2,0,1 R,2,1,1");
        },
    );
    add(
        "write_links_both_ways",
        "a short write over another's block links both",
        &|s| {
            s.lines("F,3,2,2,0 W,0,0,01 W,1,1,02 X,1 R,2,0,2 W,0,0,03 W,1,1,04 X,0 R,2,0,2 W,0,0,05 W,1,1,06 C,0, A,1, R,2,0,2");
            s.lines(
                "W,0,0,05 W,1,1,06 C,1, A,0, R,2,0,2 W,0,0,07 W,1,0,08 W,0,0,09 X,2 X,1 R,2,0,2",
            );
        },
    );
    add(
        "own_blocks_link_nothing",
        "accesses to clean blocks and to own ones make no link",
        &|s| {
            s.lines("F,3,2,2,0 R,0,0,2 R,1,0,2 W,0,0,01 R,0,0,2 W,0,1,02 X,1 X,2 C,0, R,1,0,2 W,1,0,03 X,0 C,1, R,0,0,2");
        },
    );
    add(
        "chain16_commit",
        "sixteen boards in a chain: the last one commits all",
        &|s| {
            s.lines(format!("F,16,2,16,1 {}", chain(16, 2)));
            s.lines(format!("C,15,AA {}", acknowledge(0..15, 1)));
            s.lines(read_all(0, 2, 16) + "X,7 X,15 U");
            s.lines(format!(
                "{} C,15,AA {}",
                chain(16, 2),
                acknowledge((0..15).rev(), 1)
            ));
            s.lines("X,0 C,0,01 R,1,0,2");
        },
    );
    add(
        "chain16_commit_in_parts",
        "commits from the first, the middle and the last of a chain",
        &|s| {
            s.lines(format!("F,16,2,16,1 {}", chain(16, 2)));
            s.lines(format!(
                "C,0,01 C,7,02 {} A,1,09 X,1 X,7",
                acknowledge((1..7).rev(), 1)
            ));
            s.lines(format!(
                "C,15,03 {} {}",
                acknowledge(8..15, 1),
                read_all(3, 2, 16)
            ));
        },
    );
    add(
        "chain16_fault",
        "a fault of the first, the middle and the last of a chain of sixteen",
        &|s| {
            for board in [15, 8, 1, 0] {
                s.lines(format!(
                    "F,16,2,16,1 {} X,{board} X,0 X,{board}",
                    chain(16, 2)
                ));
                s.lines(read_all(0, 2, 16));
            }
        },
    );
    add(
        "chain16_backwards",
        "a chain against the order of the boards, committed and rolled back",
        &|s| {
            let mut text = String::new();
            for i in (0..16).rev() {
                text += &format!("W,{i},{},{} ", 15 - i, run(i + 1, 1));
                if i < 15 {
                    text += &format!("R,{i},{},1 ", 14 - i);
                }
            }
            s.lines(format!(
                "F,16,1,16,0 {text} X,8 X,15 {}",
                read_all(0, 1, 16)
            ));
            s.lines(format!(
                "F,16,1,16,0 {text} C,8, {} C,0, {}",
                acknowledge(9..16, 0),
                acknowledge(1..8, 0)
            ));
            s.lines(read_all(0, 1, 16));
        },
    );
    add(
        "ring16",
        "a ring of sixteen boards: every group is all",
        &|s| {
            for end in ["X,0", "X,9", "X,15", "U"] {
                s.lines(format!(
                    "F,16,1,16,0 {} R,0,15,1 {end} X,3 {}",
                    chain(16, 1),
                    read_all(2, 1, 16)
                ));
            }
            s.lines(format!(
                "F,16,1,16,0 {} R,0,15,1 C,5, {}",
                chain(16, 1),
                acknowledge(0..5, 0)
            ));
            s.lines(acknowledge(6..16, 0) + &read_all(2, 1, 16));
        },
    );
    add(
        "chain16_cut",
        "a commit of sixteen boards cut at its marked stores",
        &|s| {
            let before = format!(
                "F,16,2,16,1 {} C,15,AA {}",
                chain(16, 2),
                acknowledge(1..15, 1)
            );
            s.cut_at_marks(1, &before, "A,0,BB", "R,15,0,2 R,0,30,2 X,0");
            let before = format!("F,16,2,16,1 {}", chain(16, 2));
            s.cut_at_marks(1, &before, "X,0", "R,15,0,2 R,0,30,2 X,0");
        },
    );
    add(
        "star16",
        "fifteen readers of one writer, and one reader of fifteen writers",
        &|s| {
            let mut text = String::from("F,16,1,16,0 W,0,0,01 ");
            (1..16).for_each(|i| text += &format!("R,{i},0,1 "));
            s.lines(format!("{text} C,9, A,0, X,0 X,9"));
            s.lines(format!("{text} X,9 X,0 R,1,0,1"));
            let mut text = String::from("F,16,1,16,0 ");
            (1..16).for_each(|i| text += &format!("W,{i},{i},{} R,0,{i},1 ", run(i, 1)));
            s.lines(format!("{text} X,4 X,0 C,5,"));
            s.lines(format!(
                "{text} C,0, {} R,3,15,1 R,3,1,1",
                acknowledge(1..16, 0)
            ));
        },
    );
}

/// Board 0 writes two blocks, board 1 writes n cells of the first one, from
/// `first` on; then a fault and a commit of either.
fn each_side(s: &mut Script, size: usize, first: usize, n: usize) {
    let see = format!("R,2,0,{size}");
    s.lines(format!("F,3,{size},2,1"));
    for end in [
        format!("X,1 {see}"),
        format!("X,0 {see} X,1"),
        format!("C,1,A1 A,0,A0 {see} X,0"),
        format!("C,0,A0 A,1,A1 {see} X,1"),
    ] {
        s.lines(format!("W,0,0,{} W,0,{size},{}", run(1, size), run(2, 1)));
        s.lines(format!("W,1,{first},{} {end}", run(101, n)));
    }
}

/// Each end after the same lines, with a look at the block; a power-up parts
/// them.
fn each_end(s: &mut Script, before: &str, ends: &[&str]) {
    each_end_seen(s, "R,3,0,2", before, ends);
}

/// The same with another look.
fn each_end_seen(s: &mut Script, look: &str, before: &str, ends: &[&str]) {
    for end in ends {
        s.lines(format!("{before} {end} {look} U"));
    }
}

fn overwrites(add: Add) {
    add(
        "whole_overwrite_each_size",
        "a whole overwrite: a fault and a commit of writer and old writer; each S",
        &|s| {
            for size in [1, 2, 4, 8, 16, 32, 64] {
                each_side(s, size, 0, size);
            }
        },
    );
    add(
        "short_by_one_cell",
        "the same for S - 1 bytes from the block's start and up to its end: both are bound",
        &|s| {
            for size in [2, 8, 64] {
                each_side(s, size, 0, size - 1);
                each_side(s, size, 1, size - 1);
            }
        },
    );
    add(
        "blocks_of_one_cell",
        "S = 1: every write is whole, over one, two and three boards, back and forth",
        &|s| {
            let over = "W,0,0,01 W,1,0,02 W,2,0,03";
            s.lines("F,4,1,2,0");
            for end in [
                "X,0 X,1 X,2",
                "X,1 X,2",
                "X,2 X,0",
                "C,2, X,0 X,1",
                "C,1, A,2, X,0",
            ] {
                s.lines(format!("{over} {end} R,3,0,1 U"));
            }
            s.lines(format!("{over} C,0, A,2, A,0, A,1, R,3,0,1"));
            s.lines("W,0,0,04 W,1,0,05 W,0,0,06 X,1 R,3,0,1 W,0,0,07 W,0,1,08 W,1,1,09 W,1,0,0A X,0 R,3,1,1 X,1");
        },
    );
    add(
        "whole_overwrite_of_own_and_clean_blocks",
        "no link by a whole overwrite of a block that is one's own, never written, committed or rolled back",
        &|s| {
            s.lines("F,3,2,2,1 W,0,0,0102 W,0,0,0304 W,1,2,0506 X,1 X,2 C,0,A0");
            s.lines("W,1,0,1112 X,0 R,2,0,2 X,1 W,0,0,0506 X,0 W,1,0,1516 X,0 C,1,A1 X,0");
            s.lines("W,0,0,0708 U W,1,0,1718 X,0 X,1 W,0,0,0708 Z,1 U W,1,0,1718 C,1,A1 X,0");
            // The writer's commit frees the old writer and the block.
            s.lines("W,0,0,2122 W,0,2,2324 W,1,0,3132 C,1,A1 W,1,0,3334 X,1 W,2,0,4142 X,1 X,0 C,2,A2 R,0,0,2 R,0,2,2");
            // So does the writer's rollback; that of the old writer leaves
            // the block to the writer.
            s.lines("W,0,0,5152 W,1,0,6162 X,1 W,2,0,7172 X,0 X,1 X,2 W,0,0,5354 W,1,0,6364 X,0 W,0,2,5556 X,1 X,0");
            s.lines("W,0,0,5758 W,1,0,6768 X,0 W,2,0,7778 W,0,2,595A X,1 X,2 X,0 R,0,0,2 R,0,2,2");
        },
    );
    add(
        "whole_overwrite_and_reads",
        "reads of the old bytes and of the new ones; a writer that read before; an old writer that reads after",
        &|s| {
            s.line("F,4,2,2,0");
            each_end(
                s,
                "W,0,0,0102 W,1,0,1112 R,2,0,1",
                &["X,1", "X,0 X,1", "X,2 X,1", "C,2, A,1, X,0", "C,0, A,1, X,2"],
            );
            each_end(
                s,
                "W,0,0,0102 R,2,0,1 W,1,0,1112",
                &["X,1", "X,0 X,1", "C,2, A,0, A,1,", "C,0, A,1, X,2", "C,1, X,0"],
            );
            each_end(
                s,
                "W,0,0,0102 R,1,0,1 W,1,0,1112",
                &["X,1", "X,0", "C,1, A,0,", "C,0, A,1,"],
            );
            each_end(
                s,
                "W,0,0,0102 W,0,2,0304 R,1,2,1 W,1,0,1112",
                &["X,0", "C,1, A,0,"],
            );
            each_end(
                s,
                "W,0,0,0102 W,1,0,1112 R,0,0,2",
                &["X,0 X,1", "C,1, X,0"],
            );
        },
    );
    add(
        "whole_and_short_overwrites",
        "whole overwrites and short writes of the same boards and blocks, in both orders",
        &|s| {
            s.line("F,4,2,2,0");
            // Whole back and forth, and crosswise: both are bound.
            each_end(
                s,
                "W,0,0,0102 W,1,0,1112 W,0,0,0304",
                &["X,0", "X,1", "C,0, A,1,"],
            );
            each_end(
                s,
                "W,0,0,0102 W,1,2,1314 W,1,0,1112 W,0,2,0304",
                &["X,0", "C,1, A,0,"],
            );
            // Whole, then short into what is one's own by now; and turned.
            each_end(
                s,
                "W,0,0,0102 W,1,0,1112 W,1,1,13",
                &["X,0 X,1", "C,1, X,0"],
            );
            each_end(s, "W,0,0,0102 W,1,1,12 W,1,0,1314", &["X,0", "C,1, A,0,"]);
            // Two short writes that make a whole block.
            each_end(s, "W,0,0,0102 W,1,0,11 W,1,1,12", &["X,0", "C,1, A,0,"]);
            // One block whole, the other short.
            each_end(
                s,
                "W,0,0,0102 W,0,2,0304 W,1,0,1112 W,1,3,14",
                &["X,0", "C,1, A,0,"],
            );
            // Over a short write.
            each_end(s, "W,0,1,02 W,1,0,1112", &["X,0 X,1", "X,1", "C,1, X,0"]);
            // A third board, short over whole and whole over short.
            let third = ["X,0 X,1", "X,1", "X,2", "C,2, A,1,", "C,0, A,1, A,2,"];
            each_end(s, "W,0,0,0102 W,1,0,1112 W,2,1,22", &third);
            each_end(s, "W,0,0,0102 W,1,1,12 W,2,0,2122", &third);
        },
    );
    add(
        "whole_overwrite_cut",
        "a whole overwrite cut at every k; so are commit and fault of the writer after one",
        &|s| {
            s.cut_at_every(
                "F,3,4,2,1 W,0,0,01020304 C,0,A0 W,0,0,11121314 W,0,4,15",
                "W,1,0,21222324",
                "R,2,0,4 R,2,4,1 X,0 C,1,A1",
            );
            s.cut_at_every(
                "F,3,1,1,0 W,0,0,01 C,0, W,0,0,02",
                "W,1,0,03",
                "R,2,0,1 X,0 C,1,",
            );
            let before = "F,3,1,2,0 W,0,0,01 W,0,1,02 W,1,0,11";
            s.cut_at_every(before, "C,1,", "R,2,0,1 R,2,1,1 X,0");
            s.cut_at_every(before, "X,1", "R,2,0,1 R,2,1,1 X,0");
        },
    );
    add(
        "whole_overwrite_open_commit",
        "an open commit without the old writer and with it; whole overwrites while it is open",
        &|s| {
            // 0 depends on 1 and 1 on 3: the members are 1 and 3.
            let open = "F,5,2,5,1 W,3,2,3132 W,0,0,0102 W,0,4,0304 W,1,0,1112 R,1,2,1 C,1,A1";
            let refused = "W,0,0,2122 W,2,0,2122 W,2,0,21 W,4,2,4142 W,1,8,1718 A,0,A0";
            let see = "R,4,0,2 R,4,2,2 R,4,4,2 R,4,6,2";
            s.lines(format!("{open} {refused} X,0 A,3,A3 X,1 {see}"));
            s.lines(format!(
                "{open} W,0,6,0708 W,2,6,2728 R,0,0,2 C,2,A2 A,3,A3 C,0,A0 X,1 A,2,A2 {see}"
            ));
            s.lines(format!("{open} X,1 A,3,A3 C,3,A3 {see}"));
            s.lines(format!("{open} X,3 A,3,A3 {see}"));
            // The old writer starts: the writer is a member.
            let open = "F,3,2,2,1 W,0,0,0102 W,1,0,1112 C,0,A0";
            s.lines(format!(
                "{open} W,2,0,2122 W,2,1,22 R,2,0,2 X,2 A,1,A1 W,2,0,2122 X,1 X,2"
            ));
            s.lines(format!("{open} X,1 A,1,A1 {open} X,0 A,1,A1 X,1 R,2,0,2"));
        },
    );
}

fn overwrite_chains(add: Add) {
    // Each board in turn overwrites block 0 whole, and has a block of its own.
    let through = |boards: &mut dyn Iterator<Item = usize>, size: usize| -> String {
        boards
            .map(|i| {
                let own = (i + 1) * size;
                format!(
                    "W,{i},0,{} W,{i},{own},{} ",
                    run(i + 1, size),
                    run(i + 65, 1)
                )
            })
            .collect()
    };
    add(
        "overwrite_chain16_fault",
        "sixteen boards, each over the one before it: a fault of the first, the middle and the last",
        &|s| {
            let forth = through(&mut (0..16), 1);
            let back = through(&mut (0..16).rev(), 1);
            for (chain, ends) in [
                (&forth, ["X,0 X,8 R,8,0,1 X,15", "X,15 X,0"]),
                (&back, ["X,15 X,7 R,7,0,1 X,0", "X,0 X,15"]),
            ] {
                for end in ends {
                    s.lines(format!("F,16,1,17,0 {chain} {end} R,3,0,1 R,3,1,1 R,3,16,1"));
                }
            }
        },
    );
    add(
        "overwrite_chain16_commit",
        "sixteen boards, each over the one before it: commits from the last, the middle and the first",
        &|s| {
            let chain = through(&mut (0..16), 2);
            let see = "R,3,0,2 R,3,2,2 R,3,18,2 R,3,32,2";
            s.lines(format!("F,16,2,17,1 {chain} C,15,AA X,3"));
            s.lines(format!("C,8,AA {} C,0,AA {see}", acknowledge(9..15, 1)));
            s.lines(format!("{chain} C,0,AA {} {see}", acknowledge((1..16).rev(), 1)));
            s.lines(format!("{chain} C,8,AA {} X,7 A,15,AB {see}", acknowledge(9..15, 1)));
        },
    );
    add(
        "overwrite_chain_kinds",
        "a chain of whole overwrites and short writes in turn: a fault and a commit of each board",
        &|s| {
            // 0 depends on 1, 2 on 3, 4 on 5; 1 and 2, 3 and 4 on each other.
            let chain = "W,0,0,0102 W,1,0,1112 W,2,1,22 W,3,0,3132 W,4,0,41 W,5,0,5152";
            s.line("F,7,2,2,0");
            for board in 0..6 {
                s.lines(format!("{chain} X,{board} R,6,0,2 U {chain} C,{board}, "));
                s.lines(acknowledge((0..6).filter(|i| *i != board), 0) + "R,6,0,2 U");
            }
        },
    );
}

fn open_commits(add: Add) {
    add(
        "open_commit_refusals",
        "13, 14, 15 and 16 while a commit is open",
        &|s| {
            s.lines("F,4,2,4,1 W,0,0,0102 R,1,0,1 W,1,2,0304 W,2,4,0506 A,0,01 C,1,A1 A,1,A1 A,2,A2 A,3,A3 C,0,A0 C,2,A2 C,3,A3");
            s.lines("R,0,0,1 R,1,6,1 W,0,6,01 W,1,0,01 W,2,0,01 W,3,2,01 R,2,0,1 R,3,2,1 W,3,6,07 W,2,6,08 A,0,A0 A,0,A0 R,0,0,2");
            s.lines("X,0 X,2 R,0,0,2 R,0,2,2 R,0,4,2 R,0,6,2");
        },
    );
    add(
        "open_commit_missing_acknowledgements",
        "commits that stay open with some acknowledgements missing",
        &|s| {
            s.lines(format!(
                "F,16,1,16,1 {} C,15,FF {} C,15,01",
                chain(16, 1),
                acknowledge(3..15, 1)
            ));
            s.lines("A,15,01 R,0,0,1 A,2,02 A,2,02 X,0 A,1,01 A,0,00 R,0,0,1 R,0,15,1");
            s.lines(format!(
                "{} C,9,FF {} U A,0,00 R,0,9,1",
                chain(16, 1),
                acknowledge(1..9, 1)
            ));
            s.lines(format!(
                "{} C,9,FF {} Z,0 A,0,00 A,0,00 R,0,9,1",
                chain(16, 1),
                acknowledge(1..9, 1)
            ));
        },
    );
    add(
        "open_commit_fault_inside",
        "a fault with a member in its group drops the open commit",
        &|s| {
            let open = "F,4,1,4,1 W,0,0,01 R,1,0,1 W,1,1,02 R,2,1,1 W,2,2,03 C,1,A1";
            for call in ["X,0", "X,1"] {
                s.lines(format!(
                    "{open} {call} A,0,A0 C,3,A3 R,3,0,1 R,3,1,1 R,3,2,1"
                ));
            }
            // The fault group of 3 has no member but 3 depends on a member.
            s.lines(format!(
                "{open} R,3,1,1 W,3,3,04 X,3 A,0,A0 R,3,0,1 R,3,1,1 R,3,2,1 R,3,3,1"
            ));
        },
    );
    add(
        "open_commit_fault_outside",
        "a fault without a member leaves the open commit",
        &|s| {
            let open = "F,4,1,4,1 W,0,0,01 R,1,0,1 W,1,1,02 R,2,1,1 W,2,2,03 C,1,A1 W,3,3,04";
            s.lines(format!(
                "{open} X,2 A,2,A2 C,3,A3 A,0,A0 X,2 X,1 R,3,0,1 R,3,1,1 R,3,2,1 R,3,3,1"
            ));
            s.lines(format!(
                "{open} X,3 X,2 R,3,3,1 A,0,A0 R,3,0,1 R,3,1,1 R,3,2,1"
            ));
            s.cut_at_every(open, "X,2", "A,0,A0 R,3,0,1");
        },
    );
    add(
        "open_commit_power_up",
        "a power-up with a commit open ends it undecided",
        &|s| {
            s.lines("F,3,1,3,1 W,0,0,01 R,1,0,1 C,1,A1 U A,0,A0 R,0,0,1 C,2,A2 W,0,0,01 R,1,0,1 C,1,A1 Z,1 U C,0,A0 A,1,A1");
        },
    );
    add(
        "open_commit_outsiders",
        "boards outside the commit go on reading and writing",
        &|s| {
            s.lines("F,4,2,4,1 W,0,0,0102 R,1,0,1 C,1,A1 R,2,0,2 W,2,2,03 W,3,3,04 R,3,2,2 X,3 W,3,2,05 R,2,0,1 A,0,A0 X,0 C,3,A3");
            s.lines("X,2 R,0,2,2 R,0,0,2 C,3,A3 W,1,4,06 R,2,4,1 C,2,A2 R,0,4,1 W,0,4,07 W,0,6,08 A,1,A1 R,0,4,2 X,0 R,1,6,2");
        },
    );
    add(
        "members_fixed_at_the_start",
        "links made after the start do not change the members",
        &|s| {
            s.lines("F,4,1,4,0 W,0,0,01 R,1,0,1 C,1, W,2,1,02 R,3,1,1 R,2,0,1 A,2, A,0, X,3 X,2 X,1 R,0,1,1 R,0,0,1");
        },
    );
}

fn slips(add: Add) {
    add(
        "tag_before_bytes",
        "a cut write leaves no byte of its own",
        &|s| {
            s.lines("F,2,4,2,0 W,0,0,01020304 C,0, Z,1 W,1,0,FFFFFFFF R,0,0,4 Z,2 W,1,0,FFFFFFFF R,0,0,4 Z,4 W,1,0,FFFFFFFF R,0,0,4");
        },
    );
    add(
        "byte_9_after_contexts",
        "a cut between the contexts and the end of a commit; stores of the U",
        &|s| {
            s.cut_at_every("F,2,1,1,3 W,0,0,01", "C,0,A1A2A3", "R,1,0,1");
            s.cut_at_every(
                "F,2,1,2,2 W,0,0,01 R,1,0,1 W,1,1,02 C,1,A1A2",
                "A,0,B1B2",
                "R,1,0,1 R,1,1,1",
            );
        },
    );
    add(
        "fault_along_columns",
        "fault groups by who depends on the board, and many links deep",
        &|s| {
            s.lines("F,5,1,5,0 W,0,0,01 R,1,0,1 W,1,1,02 R,2,1,1 W,2,2,03 R,3,2,1 W,3,3,04 W,4,4,05 X,2 R,4,0,1 R,4,3,1 X,1 X,0");
            s.lines("W,0,0,01 R,1,0,1 W,1,1,02 R,2,1,1 W,2,2,03 R,3,2,1 W,3,3,04 X,0 R,4,0,1 R,4,3,1 X,3");
        },
    );
    add(
        "commit_empties_rows_and_columns",
        "after a commit nobody depends on its members",
        &|s| {
            s.lines("F,4,1,4,0 W,0,0,01 R,1,0,1 R,2,0,1 W,1,1,02 W,2,2,03 C,0, X,0 R,3,1,1 R,3,2,1 C,1, C,2, R,3,1,1");
            s.lines("W,0,0,04 R,1,0,1 W,1,1,05 R,2,1,1 W,2,2,06 C,1, A,0, X,0 X,1 C,2, R,3,2,1");
        },
    );
    add(
        "highest_board_commits",
        "board P - 1 commits while board 0 depends on it: no later group has both",
        &|s| {
            for boards in 2..=16 {
                let high = boards - 1;
                // Alone; then a fault of P - 1, or a commit of 0.
                let alone = format!("F,{boards},1,3,1 W,{high},0,01 R,0,0,1 C,{high},A1");
                s.lines(format!("{alone} W,0,1,02 W,{high},2,03 X,{high} R,0,1,1"));
                s.lines(format!("{alone} W,0,1,02 W,{high},2,03 C,0,A0 X,{high}"));
                if boards == 2 {
                    continue;
                }
                // With board 1, which acknowledges; 0 reads before the start
                // or while the commit is open.
                let both = format!("F,{boards},1,3,1 W,1,1,01 R,{high},1,1 W,{high},0,02");
                for open in [
                    format!("{both} R,0,0,1 C,{high},A2 A,1,A1"),
                    format!("{both} C,{high},A2 R,0,0,1 A,1,A1"),
                ] {
                    s.lines(format!("{open} W,{high},2,03 X,{high} X,1 X,0"));
                    s.lines(format!("{open} W,0,2,03 C,0,A0 R,{high},2,1 X,0"));
                }
            }
        },
    );
    add(
        "fault_empties_rows_and_columns",
        "after a fault its boards depend on nobody",
        &|s| {
            s.lines("F,4,1,4,0 W,0,0,01 R,1,0,1 W,1,1,02 R,2,1,1 X,1 X,0 X,2 W,0,0,03 R,1,0,1 X,1 W,1,1,04 C,1, X,0 R,3,1,1");
        },
    );
    add(
        "power_up_many_blocks",
        "a power-up restores every tagged block, of several boards",
        &|s| {
            let mut text = String::from("F,3,2,8,0 ");
            (0..8).for_each(|b| text += &format!("W,{},{},{} ", b % 3, 2 * b, run(b + 1, 2)));
            text += "C,0, C,1, C,2, ";
            (0..8)
                .for_each(|b| text += &format!("W,{},{},{} ", (b + 1) % 3, 2 * b, run(b + 100, 2)));
            s.lines(format!("{text} U {}", read_all(0, 2, 8)));
            s.cut_at_marks(0, &text, "U", &read_all(0, 2, 8));
        },
    );
    add(
        "commit_many_blocks",
        "a commit saves each block of its members and no other",
        &|s| {
            let mut text = String::from("F,3,2,8,1 ");
            (0..8).for_each(|b| text += &format!("W,{},{},{} ", b % 3, 2 * b, run(b + 1, 2)));
            s.lines(format!("{text} C,1,A1 U {}", read_all(0, 2, 8)));
            s.cut_at_every(&text, "C,1,A1", &read_all(0, 2, 8));
        },
    );
}

fn large(add: Add) {
    let large = |s: &mut Script, size: usize, blocks: usize, context: usize| {
        let last = size * blocks - size;
        s.lines(format!(
            "F,16,{size},{blocks},{context} R,15,{last},{size} R,15,{},1",
            last + size
        ));
        for i in 0..16 {
            let block = i * (blocks - 1) / 15;
            s.lines(format!("W,{i},{},{}", block * size, run(i + 1, size)));
            if i > 0 {
                let before = (i - 1) * (blocks - 1) / 15;
                s.lines(format!("R,{i},{},{size}", before * size));
            }
        }
        s.lines(format!(
            "C,15,{} {}",
            run(15, context),
            acknowledge(0..15, context)
        ));
        s.lines(format!(
            "R,0,{last},{size} W,3,{last},{} W,4,0,{}",
            run(200, 1),
            run(201, 1)
        ));
        s.lines(format!(
            "R,5,0,1 X,4 R,0,{last},{size} U R,0,{last},{size} W,7,0,01"
        ));
        for k in [
            0,
            1,
            context + 2,
            context + 3,
            context + 3 + size,
            2 * context + size + 4,
        ] {
            s.lines(format!(
                "Z,{k} C,7,{} R,8,0,{size} W,7,0,{}",
                run(k, context),
                run(k + 1, 1)
            ));
        }
        s.lines(format!(
            "R,16,0,1 R,15,{last},{} W,15,{last},01 Z,{size} U",
            size + 1
        ));
    };
    add(
        "largest_s64_b256_k64",
        "16 boards, 256 blocks of 64, contexts of 64",
        &|s| large(s, 64, 256, 64),
    );
    add(
        "largest_s16_b1024_k64",
        "16 boards, 1,024 blocks of 16, contexts of 64",
        &|s| large(s, 16, 1024, 64),
    );
    add(
        "largest_s1_b1024_k0",
        "16 boards, 1,024 blocks of 1, no contexts",
        &|s| large(s, 1, 1024, 0),
    );
    add(
        "largest_commit_cut",
        "a commit of many blocks on the largest shape cut at its marks",
        &|s| {
            let mut before = String::from("F,16,16,1024,64 ");
            (0..20).for_each(|b| before += &format!("W,9,{},{} ", 16 * 51 * b, run(b + 1, 16)));
            s.cut_at_marks(
                64,
                &before,
                &format!("C,9,{}", run(77, 64)),
                "R,0,0,16 R,0,15504,16 X,9",
            );
        },
    );
    add(
        "largest_power_up",
        "all 1,024 blocks of one cell written and rolled back",
        &|s| {
            s.line("F,16,1,1024,0");
            (0..1024).for_each(|b| s.line(format!("W,{},{b},{}", b % 16, run(b + 1, 1))));
            s.lines("Z,2047 U R,0,1023,1 R,0,0,1 U");
        },
    );
}

fn generated(add: Add) {
    for (seed, name) in [
        (3, "generated_1"),
        (6, "generated_2"),
        (7, "generated_3"),
        (8, "generated_4"),
        (13, "generated_5"),
        (17, "generated_6"),
    ] {
        add(
            name,
            "a generated history, all letters, cuts and unreadable lines mixed",
            &|s| {
                s.0 = generate::events(9_000 + seed, 200);
            },
        );
    }
}
