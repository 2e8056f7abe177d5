//! The replay files for the page of Req 05 of document 02.

use super::{acknowledge, chain, read_all, run, stores, Add, Script};

/// Writes of one cell to so many blocks from `first` on, by the boards in
/// turn.
fn write_blocks(boards: &[usize], size: usize, first: usize, count: usize) -> String {
    (first..first + count)
        .map(|block| {
            let board = boards[block % boards.len()];
            format!("W,{board},{},{} ", block * size, run(block + 1, 1))
        })
        .collect()
}

/// Boards other than the first each write a block and the first reads them
/// all, so that its commit has every one as member. The first one starts.
fn open(boards: &[usize], size: usize, context: usize) -> String {
    let mut text = String::new();
    for (block, board) in boards[1..].iter().enumerate() {
        let cell = block * size;
        text += &format!(
            "W,{board},{cell},{} R,{},{cell},1 ",
            run(*board + 1, 1),
            boards[0]
        );
    }
    text + &format!("C,{},{} ", boards[0], run(boards[0], context))
}

/// A commit of these boards to its end.
fn whole(boards: &[usize], size: usize, context: usize) -> String {
    open(boards, size, context) + &acknowledge(boards[1..].iter().copied(), context)
}

pub fn add(add: Add) {
    few(add);
    cut(add);
    shapes(add);
    refused(add);
    ended(add);
    many(add);
}

fn few(add: Add) {
    add(
        "page_no_commit",
        "accesses, faults, power-ups and a commit that stays open: zeros",
        &|s| {
            s.lines("F,2,2,2,1 W,0,0,0102 R,1,0,1 X,0 W,1,2,03 U Z,1 W,0,0,04 W,0,0,05 R,1,0,2 C,1,A1 R,0,2,2");
        },
    );
    add(
        "page_one_commit",
        "one commit of one board, one block and a context",
        &|s| s.lines("F,2,4,4,3 W,0,4,01020304 C,0,A1A2A3 W,1,0,05 X,1"),
    );
    add(
        "page_two_commits",
        "two commits one after another; the second has the first one's reader",
        &|s| s.lines("F,3,2,4,1 W,0,0,01 R,1,0,1 W,1,2,02 C,0,A0 W,2,4,03 R,1,4,1 C,1,A1 A,2,A2"),
    );
    add(
        "page_no_block",
        "members that tagged no block: 0 blocks, their contexts are bytes",
        &|s| {
            // 1 depends on 0, whose block 2 overwrote and saved.
            s.lines("F,3,2,2,5 C,2,0102030405 W,0,0,01 R,1,0,1 W,2,0,0A0B C,2,0102030405");
            s.lines("C,1,0102030405 A,0,0102030405 C,1,0102030405 U C,0,0102030405");
            s.lines("F,2,2,2,0 C,0, C,1, W,0,0,01 X,0 C,0, R,1,0,1 C,1,");
        },
    );
    add(
        "page_written_again",
        "a block written again counts once, an overwritten one for its last writer",
        &|s| {
            s.lines("F,3,2,4,1 W,0,0,01 W,0,1,02 W,0,0,0304 W,0,2,05 C,0,A0");
            s.lines("W,0,0,0102 W,0,2,0304 W,1,0,1112 C,1,A1 C,0,A0");
            s.lines("W,0,0,0102 W,0,2,0304 W,1,0,1112 C,0,A0 A,1,A1");
            s.lines("W,0,0,0102 W,1,1,12 W,2,0,22 C,0,A0 A,1,A1 A,2,A2");
        },
    );
    add(
        "page_boards_outside",
        "blocks of boards outside the commit do not count, also if these depend on members",
        &|s| {
            let before = "W,0,0,01 W,0,2,02 R,1,0,1 W,1,4,03 R,2,4,1 W,2,6,04 W,3,8,05";
            s.lines(format!("F,4,2,5,1 {before} C,0,A0 C,3,A3 C,2,A2 A,1,A1"));
            s.lines(format!("U {before} C,1,A1 W,3,8,06 X,2 X,3 A,0,A0"));
            s.lines(format!("U {before} C,1,A1 R,3,0,1 A,0,A0 C,3,A3"));
        },
    );
    add(
        "page_members",
        "groups with every hexadecimal digit, the first board and the last",
        &|s| {
            s.line("F,16,1,16,2");
            let groups: [&[usize]; 8] = [
                &[0],
                &[15],
                &[15, 0],
                // 0123 and 4567
                &[0, 1, 5, 8],
                &[14, 0, 1, 2, 5, 6, 8, 10],
                // 89AB and CDEF
                &[3, 0, 1, 5, 7, 8, 11, 15],
                &[15, 14, 11, 10, 8, 7, 6, 5, 3, 2, 1, 0],
                &[7, 0, 1, 2, 3, 4, 5, 6, 8, 9, 10, 11, 12, 13, 14, 15],
            ];
            for boards in groups {
                s.lines(whole(boards, 1, 2));
            }
        },
    );
}

fn cut(add: Add) {
    let alone = "F,3,2,4,2 W,0,0,0102 W,1,2,0304 W,0,4,0506";
    let several = "F,4,2,4,2 W,0,0,01 R,1,0,1 W,1,2,02 W,3,6,03 R,2,2,1 W,2,4,04 C,2,AAAB A,0,BABB";
    // The stores up to the deciding one: K bytes, bytes 10 and 11, byte 9.
    let deciding = 2 + 3;
    add(
        "page_start_cut_decided",
        "a start that decides cut at each k from the deciding store to the last; then a commit again",
        &|s| {
            let all = stores(alone, "C,0,C0C1");
            let ks: Vec<u32> = (deciding..=all).collect();
            s.cut_at(&ks, alone, "C,0,C0C1", "R,2,0,2 R,2,2,2 W,0,0,07 C,0,D0D1");
        },
    );
    add(
        "page_start_cut_undecided",
        "the same start cut at each k before the deciding store: no line",
        &|s| {
            let ks: Vec<u32> = (0..deciding).collect();
            s.cut_at(&ks, alone, "C,0,C0C1", "R,2,0,2 C,1,D0D1");
        },
    );
    add(
        "page_acknowledgement_cut_decided",
        "three members, the last acknowledgement cut at each k from the deciding store on",
        &|s| {
            let all = stores(several, "A,1,C0C1");
            let ks: Vec<u32> = (deciding..=all + 1).collect();
            s.cut_at(&ks, several, "A,1,C0C1", "A,1,C0C1 R,3,4,2");
        },
    );
    add(
        "page_acknowledgement_cut_undecided",
        "the same acknowledgement cut before the deciding store, and one that is not the last",
        &|s| {
            let ks: Vec<u32> = (0..deciding).collect();
            s.cut_at(&ks, several, "A,1,C0C1", "A,1,C0C1 R,3,4,2");
            let open = several.replace(" A,0,BABB", "");
            s.cut_at(&[0, 1], &open, "A,0,BABB", "A,1,C0C1 R,3,4,2");
            s.cut_at(&[2, 3, 5, 9], &open, "A,0,BABB", "A,1,C0C1 R,3,4,2");
        },
    );
    add(
        "page_cut_then_power_ups",
        "power-ups after a cut commit, done and cut: no line of their own, no line again",
        &|s| {
            for k in [deciding - 1, deciding, deciding + 1, deciding + 6] {
                s.cut_at(
                    &[k],
                    several,
                    "A,1,C0C1",
                    "U U Z,0 U W,3,6,05 Z,1 U U C,3,D0D1 U",
                );
            }
        },
    );
    add(
        "page_cut_without_context",
        "K = 0: the third store decides; cut at every k",
        &|s| {
            s.cut_at_every("F,2,1,2,0 W,0,0,01 W,1,1,02", "C,0,", "R,1,0,1");
            s.cut_at_every("F,2,1,2,0 W,0,0,01 R,1,0,1 C,1,", "A,0,", "R,1,0,1");
            s.cut_at_every("F,2,1,2,0", "C,1,", "R,1,0,1");
        },
    );
    add(
        "page_sixteen_members_cut",
        "sixteen members, the last acknowledgement cut at its marked stores",
        &|s| {
            let before = format!(
                "F,16,2,16,1 {} C,15,FF {}",
                chain(16, 2),
                acknowledge(1..15, 1)
            );
            s.cut_at_marks(1, &before, "A,0,EE", "R,0,30,2");
        },
    );
}

fn shapes(add: Add) {
    add(
        "page_sixteen_members",
        "sixteen members in a chain, with contexts and without",
        &|s| {
            for context in [0, 1, 64] {
                s.lines(format!("F,16,1,16,{context} {}", chain(16, 1)));
                s.lines(format!("C,15,{}", run(9, context)));
                s.lines(acknowledge((0..15).rev(), context));
            }
        },
    );
    add(
        "page_each_size",
        "each S from 1 to 64 with K of 0 and 3: one and three blocks, one and two members",
        &|s| {
            for size in [1, 2, 4, 8, 16, 32, 64] {
                for context in [0, 3] {
                    s.line(format!("F,3,{size},5,{context}"));
                    s.lines(write_blocks(&[2], size, 4, 1));
                    s.lines(format!("C,2,{}", run(7, context)));
                    s.lines(write_blocks(&[0, 1], size, 0, 3));
                    s.lines(format!("R,0,{size},1 C,0,{}", run(8, context)));
                    s.lines(acknowledge(1..2, context));
                }
            }
        },
    );
    add(
        "page_several_formats",
        "formats of other shapes, done, refused and cut: count and sums go on",
        &|s| {
            s.lines("F,2,4,4,0 W,0,0,01 C,0, F,3,2,2,1 W,1,0,02 W,1,2,03 C,1,A1 F,0,1,1,0 W,2,0,04 C,2,A2");
            s.lines("Z,9 F,1,1,1,1 C,0,A0 U F,1,64,1,64");
            s.lines(format!("W,0,63,05 C,0,{} F,2,1,1,0", run(1, 64)));
            s.lines("W,0,0,06 R,1,0,1 C,1, F,2,1,2,0 A,0, W,0,1,07 R,1,1,1 C,1, A,0,");
            s.lines("F,2,1,2,0 F,2,1,2,0 C,0, Z,3 C,1, F,16,1,1,0 C,15,");
        },
    );
    let all_boards: Vec<usize> = (0..16).collect();
    add(
        "page_largest_s16_b1024",
        "all 1,024 blocks of 16 saved by sixteen boards, then by one, which is cut",
        &|s| {
            s.line("F,16,16,1024,64");
            s.lines(write_blocks(&all_boards, 16, 0, 1024));
            s.lines(
                (1..16)
                    .map(|i| format!("R,0,{},1 ", 16 * i))
                    .collect::<String>(),
            );
            s.lines(format!("C,0,{} {}", run(1, 64), acknowledge(1..16, 64)));
            s.lines(write_blocks(&[3], 16, 0, 1024));
            s.lines(format!("Z,9000 C,3,{} C,3,{}", run(2, 64), run(3, 64)));
        },
    );
    add(
        "page_largest_s64_b256",
        "all 256 blocks of 64 saved by one board, by two, and cut at the deciding store",
        &|s| {
            s.line("F,16,64,256,64");
            for boards in [&[15][..], &[4, 5], &[0]] {
                s.lines(write_blocks(boards, 64, 0, 256));
                if boards.len() == 2 {
                    s.lines("R,4,64,1");
                }
                if boards[0] == 0 {
                    s.line("Z,67");
                }
                s.line(format!("C,{},{}", boards[0], run(1, 64)));
                s.lines(acknowledge(boards[1..].iter().copied(), 64));
            }
            s.lines(read_all(1, 64, 2));
        },
    );
    add(
        "page_largest_s1_b1024",
        "1,024 blocks of 1: blocks of four digits, bytes as many",
        &|s| {
            s.line("F,16,1,1024,0");
            s.lines(write_blocks(&[15], 1, 0, 1024));
            s.line("C,15,");
            s.lines(write_blocks(&[0], 1, 24, 1000));
            s.lines("Z,4 C,0,");
        },
    );
}

fn refused(add: Add) {
    add(
        "page_unreadable_lines",
        "unreadable lines between and after a Z: no line of the page",
        &|s| {
            s.lines("c,0, C,0 F,2,2,2,1 ? W,0,0,01 C,0,A C,0 C,0,a0 C,00,A0 C,0,A0, C,0,A0 A,0");
            s.line("");
            s.line("C,1,A1 ");
            s.line(" C,1,A1");
            s.lines("W,0,0,01 Z,4 C,0,A C,0,A0 Z,4");
            s.line(format!("C,0,{}", "0".repeat(157)));
            s.lines("W,1,2,02 C,1,A1 C C,0,A0 TOTAL");
        },
    );
    add(
        "page_starts_refused",
        "starts refused 11, 1, 3 and 14, also with an allowance: no line; then one that is taken",
        &|s| {
            s.lines("C,0, A,0, F,17,1,1,0 C,0, F,3,2,3,1 C,3,A3 C,16,A0 C,65535,A0 C,0, C,0,A0A1");
            s.lines("W,0,0,01 R,1,0,1 C,1,A1 C,0,A0 C,1,A1 C,2,A2 Z,9 C,2,A2 C,2, C,3,A3 A,0,A0");
            s.lines("C,2,A2 Z,3 C,0, Z,0 C,3,A3 C,0,A0");
        },
    );
    add(
        "page_acknowledgements_refused",
        "acknowledgements refused 1, 3, 15 and 16: no line; then the one that decides",
        &|s| {
            s.lines(
                "F,4,2,3,1 A,0,A0 W,0,0,01 R,1,0,1 W,1,2,02 R,2,2,1 C,2,A2 A,2,A2 A,3,A3 A,4,A4",
            );
            s.lines(
                "A,0,A0 A,0,A0 A,2,A2 A,1, A,1,A1A2 Z,4 A,0,A0 Z,65535 A,3,A3 A,1,A1 A,1,A1 A,0,A0",
            );
            s.lines("C,3,A3 A,3,A3");
        },
    );
    add(
        "page_commit_dropped",
        "open commits ended by a fault, a power-up, a cut and a format: no line",
        &|s| {
            let open = "W,0,0,01 R,1,0,1 W,1,2,02 W,2,4,03 C,1,A1";
            s.line("F,3,2,3,1");
            for end in ["X,0", "X,1", "U", "Z,0 U", "Z,0 W,2,4,04", "F,3,2,3,1"] {
                s.lines(format!("{open} {end} A,0,A0 C,2,A2"));
            }
            // A fault outside leaves it open.
            s.lines(format!("U {open} X,2 A,0,A0"));
        },
    );
}

fn ended(add: Add) {
    add(
        "page_no_last_line_feed",
        "the last line decides and has no line feed",
        &|s| {
            s.lines("F,2,2,2,1 W,0,0,01 R,1,0,1 C,1,A1 A,0,A0 C,0,A0");
            s.0.pop();
        },
    );
    add(
        "page_no_last_line_feed_cut",
        "the last line decides, is cut and has no line feed",
        &|s| {
            s.lines("F,2,2,2,1 W,0,0,01 R,1,0,1 C,1,A1 Z,4 A,0,A0");
            s.0.pop();
        },
    );
    add(
        "page_no_last_line_feed_refused",
        "a refused last line without line feed after a commit",
        &|s| {
            s.lines("F,2,2,2,1 W,0,0,01 C,0,A0 W,0,0,02 C,0,");
            s.0.pop();
        },
    );
}

fn many(add: Add) {
    let mixed = |s: &mut Script, count: usize| {
        for i in 0..count {
            let board = i * 5 % 4;
            s.lines(write_blocks(&[board], 4, i % 5, 1 + i % 3));
            if i % 7 == 3 {
                s.line(format!("Z,{}", 5 + i % 11));
            }
            s.line(format!("C,{board},{}", run(i, 2)));
        }
    };
    add(
        "page_nine_and_ten_lines",
        "nine commits, and one of two members that makes ten",
        &|s| {
            s.line("F,4,4,8,2");
            mixed(s, 9);
            s.lines(whole(&[3, 1], 4, 2));
        },
    );
    add(
        "page_hundred_lines",
        "104 commits of one to three blocks, some cut; sums of three and four digits",
        &|s| {
            s.line("F,4,4,8,2");
            mixed(s, 104);
        },
    );
    add(
        "page_thousand_lines",
        "1,003 commits of a block of 64 and a context of 1; sums of four and five digits",
        &|s| {
            s.line("F,1,64,1,1");
            for i in 0..1003 {
                s.lines(format!("W,0,0,01 C,0,{}", run(i, 1)));
            }
        },
    );
}
