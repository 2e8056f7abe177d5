//! The replay files for accesses over a border between two blocks, Req 06 of
//! document 02.

use super::{acknowledge, each_end_seen, read_all, run, Add, Script};

/// Two or three blocks of four, read by a board that does nothing else.
const LOOK: &str = "R,4,0,4 R,4,4,4 R,4,8,4";

pub fn add(add: Add) {
    places(add);
    ends(add);
    links(add);
    whole(add);
    open_commits(add);
    cuts(add);
    commits_and_faults(add);
    chains(add);
}

/// n bytes from `cell` on written by board 0 and read by board 1, then rolled
/// back with the block or blocks that they lie in.
fn write_and_read(s: &mut Script, cell: usize, n: usize) {
    s.lines(format!(
        "W,0,{cell},{} R,1,{cell},{n} X,0",
        run(cell + n, n)
    ));
}

/// Accesses that begin one cell before the borders after so many blocks, or
/// S - 1 cells before them.
fn about_borders(s: &mut Script, size: usize, blocks: [usize; 2]) {
    for border in blocks.map(|blocks| blocks * size) {
        for cell in [border - 1, border - size + 1] {
            for n in [2, size - 1, size, size + 1] {
                write_and_read(s, cell, n);
            }
        }
    }
}

fn places(add: Add) {
    add(
        "straddle_each_place_s2_s4",
        "S = 2 and S = 4: every first cell and every n, written, read and rolled back",
        &|s| {
            for size in [2, 4] {
                s.line(format!("F,2,{size},3,0"));
                for cell in 0..=3 * size {
                    (0..=size + 1).for_each(|n| write_and_read(s, cell, n));
                }
            }
        },
    );
    add(
        "straddle_each_size",
        "S from 8 to 64: one cell before each border and S - 1 before it, n about 2 and S; largest shapes",
        &|s| {
            for size in [8, 16, 32, 64] {
                s.line(format!("F,2,{size},3,0"));
                about_borders(s, size, [1, 2]);
            }
            // The last border, and the end.
            for (size, blocks) in [(16, 1024), (64, 256)] {
                s.line(format!("F,16,{size},{blocks},64"));
                about_borders(s, size, [blocks - 1, blocks]);
            }
        },
    );
}

fn ends(add: Add) {
    add(
        "straddle_last_block",
        "one cell past the end is refused 2, with n = S, n = 2 and n = 1; up to the end taken; each S",
        &|s| {
            for size in [1, 2, 4, 8, 16, 32, 64] {
                let end = 3 * size;
                s.line(format!("F,2,{size},3,0"));
                for (cell, n) in [
                    (end - size, size),
                    (end - size + 1, size),
                    (end - 1, 1),
                    (end - 1, 2),
                    (end, 1),
                    (end, size),
                    (end - size - 1, size),
                ] {
                    write_and_read(s, cell, n);
                }
            }
        },
    );
    add(
        "straddle_no_border",
        "B = 1: past the block is past the end; S = 1: every n = 1 is taken and none straddles",
        &|s| {
            for size in [1, 4, 64] {
                s.line(format!("F,2,{size},1,0"));
                for (cell, n) in [
                    (0, size),
                    (size - 1, 1),
                    (size - 1, 2),
                    (1, size),
                    (size, 1),
                ] {
                    write_and_read(s, cell, n);
                }
            }
            // Each cell is a block: board 1 over board 0's is bound to none.
            s.line("F,3,1,4,0");
            for cell in 0..=4 {
                s.lines(format!(
                    "W,0,{cell},01 W,1,{cell},11 W,1,{cell},1213 R,2,{cell},2 X,0"
                ));
            }
            s.lines(read_all(2, 1, 4) + "X,1 C,2,");
        },
    );
}

fn links(add: Add) {
    let each_end = |s: &mut Script, before: &str, ends: &[&str]| {
        each_end_seen(s, LOOK, before, ends);
    };
    add(
        "straddle_read_links",
        "a read depends on both blocks' writers; on one where the other block is its own or clean",
        &|s| {
            s.line("F,5,4,4,1");
            let two = "W,0,0,01020304 W,1,4,11121314";
            each_end(
                s,
                &format!("{two} R,2,2,4"),
                &[
                    "X,0",
                    "X,1",
                    "X,2 X,0",
                    "C,2,A2 A,0,A0 A,1,A1",
                    "C,0,A0 X,1",
                    "C,1,A1 X,0",
                ],
            );
            let one = ["X,0", "X,1", "C,0,A0 A,1,A1", "C,1,A1 A,0,A0"];
            each_end(s, &format!("{two} R,0,3,2"), &one);
            each_end(s, &format!("{two} R,1,1,4"), &one);
            // The same board wrote both, or one of them.
            each_end(
                s,
                "W,0,0,01 W,0,4,02 R,1,3,2",
                &["X,0", "X,1 X,0", "C,1,A1 A,0,A0"],
            );
            each_end(s, "W,0,4,02 R,1,3,2", &["X,0", "C,1,A1 A,0,A0"]);
            each_end(s, "W,0,3,02 R,1,3,2", &["X,0", "C,1,A1 A,0,A0"]);
            // Kept and undone writes link nobody.
            each_end(
                s,
                "W,0,0,01 C,0,A0 W,1,4,11 X,1 R,2,1,4",
                &["X,0", "X,1", "C,2,A2"],
            );
        },
    );
    add(
        "straddle_write_links",
        "a write and both blocks' writers are bound; one of them where the other block is its own or clean",
        &|s| {
            s.line("F,5,4,4,1");
            let two = "W,0,0,01020304 W,1,4,11121314";
            let three = ["X,0", "X,1", "X,2", "C,0,A0 A,1,A1 A,2,A2", "C,2,A2 A,1,A1 A,0,A0"];
            each_end(s, &format!("{two} W,2,3,2122"), &three);
            // After it the blocks are the writer's, and it reads no more links.
            each_end(s, &format!("{two} W,2,3,2122 W,2,2,23242526 R,3,4,1"), &["X,0", "X,3"]);
            let both = ["X,0", "X,1", "C,0,A0 A,1,A1", "C,1,A1 A,0,A0"];
            each_end(s, &format!("{two} W,0,3,2122"), &both);
            each_end(s, &format!("{two} W,1,3,2122"), &both);
            each_end(s, "W,0,4,02 W,1,3,1112", &both);
            each_end(s, "W,0,3,02 W,1,3,1112", &both);
            each_end(s, "W,0,3,0102 W,1,3,1112", &both);
            // Of a straddling write only one block is written again.
            each_end(s, "W,0,3,0102 W,1,0,11121314", &["X,0 X,1", "X,1", "C,1,A1 X,0"]);
            each_end(s, "W,0,3,0102 W,1,7,1112", &both);
            // Kept and undone writes link nobody.
            each_end(s, "W,0,0,01 C,0,A0 W,1,4,11 X,1 W,2,3,2122", &["X,0", "X,1", "C,2,A2"]);
        },
    );
    add(
        "straddle_tags_stored",
        "none, one or two tags: each block clean, one's own, another's; n of 2 and of S",
        &|s| {
            s.line("F,3,4,2,0");
            for first in ["", "W,0,0,01", "W,1,0,11"] {
                for last in ["", "W,0,7,02", "W,2,7,22"] {
                    for call in ["W,0,3,3132", "W,0,1,31323334"] {
                        s.lines(format!("{first} {last} {call} R,0,0,4 R,0,4,4 U"));
                    }
                }
            }
        },
    );
}

fn whole(add: Add) {
    add(
        "straddle_s_bytes_not_whole",
        "S bytes over a border are whole in neither block: both writers are bound both ways; each S above 1",
        &|s| {
            for size in [2, 4, 8, 16, 32, 64] {
                s.line(format!("F,4,{size},2,0"));
                let mut offsets = vec![1, size / 2, size - 1];
                offsets.dedup();
                for offset in offsets {
                    for end in ["X,0", "X,1", "C,0, A,1, A,2,", "C,1, A,2, A,0,"] {
                        s.lines(format!("W,0,0,{} W,1,{size},{}", run(1, size), run(2, size)));
                        s.lines(format!("W,2,{offset},{} {end} R,3,0,1 U", run(3, size)));
                    }
                }
            }
        },
    );
    add(
        "straddle_next_to_whole",
        "a whole overwrite of a block and a straddling write over its borders, in both orders",
        &|s| {
            s.line("F,5,4,3,0");
            let blocks = "W,0,0,01020304 W,1,4,11121314 W,2,8,21222324";
            let ends = [
                "X,0",
                "X,1",
                "X,2",
                "X,3",
                "C,3, A,0, A,1, A,2,",
                "C,1, A,3, A,0, A,2,",
            ];
            for calls in [
                "W,3,4,31323334",
                "W,3,0,31323334 W,3,7,3536",
                "W,3,7,3536 W,3,0,31323334",
                "W,3,4,31323334 W,3,3,3536",
                "W,3,3,3536 W,3,4,31323334",
                "W,3,4,31323334 W,4,6,41424344",
            ] {
                each_end_seen(s, LOOK, &format!("{blocks} {calls}"), &ends);
            }
        },
    );
}

fn open_commits(add: Add) {
    add(
        "straddle_open_commit",
        "a write is refused 13 for a member's first block, last block, both, or by a member; a read by a member only",
        &|s| {
            // The members are 0 and 1, which is yet to acknowledge; block 0 is
            // 2's, block 1 is 0's, block 2 is 1's, block 3 is 2's.
            let open = "F,5,4,5,1 W,2,0,21 W,0,4,01 W,1,8,11 W,2,12,22 R,0,8,1 C,0,A0";
            let calls = "W,3,3,3132 W,3,1,31323334 W,3,7,3132 W,3,11,3132 W,3,15,3132 W,2,3,2324";
            let reads = "R,3,3,2 R,3,7,2 R,3,11,2 R,3,15,2 R,2,1,4";
            let members = "R,0,15,2 W,0,15,0102 R,1,3,2 W,1,3,1112 W,0,7,0304";
            let look = "R,4,0,4 R,4,4,4 R,4,8,4 R,4,12,4 R,4,16,4";
            s.lines(format!("{open} {calls} {reads} {members} A,1,A1 {calls} X,2 {look}"));
            s.lines(format!("{open} {calls} A,1,A1 {look} X,3 {look}"));
            // Rolled back instead, the blocks are free too.
            s.lines(format!("{open} {reads} X,1 {calls} {members} X,3 {look}"));
            // A cut of a refused write cuts nothing.
            s.cut_at(&[0, 1, 2], open, "W,3,3,3132", "A,1,A1 R,4,0,4 R,4,4,4");
        },
    );
}

fn cuts(add: Add) {
    // All cells of the three blocks have kept bytes.
    let kept = "F,5,4,3,1 W,0,0,01020304 W,0,4,05060708 W,0,8,090A0B0C C,0,A0";
    let look = format!("{LOOK} X,0 C,1,A1");
    add(
        "straddle_write_cut_every_k",
        "a write over a border cut at every k, with no tag to store, with either one and with both",
        &|s| {
            for before in ["", "W,1,0,31", "W,1,5,32", "W,1,0,31 W,1,5,32"] {
                s.cut_at_every(&format!("{kept} {before}"), "W,1,2,21222324", &look);
            }
            // Over two other boards' blocks; each side of the border once.
            for call in ["W,1,3,212223", "W,1,2,212223"] {
                s.cut_at_every(&format!("{kept} W,2,1,41 W,3,6,42"), call, &look);
            }
            s.cut_at_every(
                "F,5,2,2,0 W,0,0,0102 W,0,2,0304 C,0,",
                "W,1,1,2122",
                "R,4,0,2 R,4,2,2 X,1",
            );
        },
    );
    add(
        "straddle_cut_undoes_all",
        "earlier pending writes of the same cells, by the same board and by others, are undone with the cut one",
        &|s| {
            for before in [
                "W,1,2,31323334",
                "W,0,2,31323334",
                "W,1,2,31323334 W,1,3,3536",
                "W,1,2,31323334 W,2,7,4142 W,2,0,43",
            ] {
                s.cut_at_every(&format!("{kept} {before}"), "W,1,2,21222324", LOOK);
            }
            // Then power-ups, cut again and again.
            let again = format!("W,1,3,5152 Z,1 U {LOOK} W,1,3,5152 Z,6 U Z,2 U {LOOK}");
            s.cut_at(&[1, 4], kept, "W,1,2,21222324", &again);
            s.cut_at_every(&format!("{kept} W,1,2,21222324"), "U", LOOK);
        },
    );
}

fn commits_and_faults(add: Add) {
    // Board 0 has block 0, board 1 blocks 1 and 2.
    let two = "F,5,4,4,1 W,0,2,01020304 W,1,6,11121314";
    add(
        "straddle_commit",
        "a commit saves both blocks of a straddling write: stores counted, cut at every k",
        &|s| {
            s.cut_at_every("F,5,4,3,1 W,0,2,01020304", "C,0,A0", LOOK);
            s.lines(format!("{two} C,0,A0 A,1,A1 {LOOK}"));
            s.cut_at_every(&format!("{two} C,1,A1"), "A,0,A0", LOOK);
        },
    );
    add(
        "straddle_fault",
        "a fault rolls both blocks of a straddling write back: stores counted, cut at every k",
        &|s| {
            let kept = "F,5,4,3,1 W,0,0,41424344 W,0,4,45464748 C,0,A0";
            s.cut_at_every(&format!("{kept} W,0,2,01020304"), "X,0", LOOK);
            s.lines(format!("{two} X,1 {LOOK}"));
            s.cut_at_every(two, "X,0", LOOK);
            // The reader of one block goes along.
            s.lines(format!("{kept} W,0,2,01020304 R,1,7,1 W,1,8,11 X,0 {LOOK}"));
        },
    );
    add(
        "straddle_pages",
        "pages of commits with straddling writes: two blocks for one write, counted once, cut ones too",
        &|s| {
            for size in [2, 8, 64] {
                s.line(format!("F,4,{size},5,1"));
                let over = |board: usize, border: usize| {
                    let cell = border * size - 1;
                    format!("W,{board},{cell},{} ", run(board + border, 2))
                };
                // Two blocks; three of two writes; both of another's write.
                s.lines(over(0, 1) + "C,0,A0");
                s.lines(over(0, 1) + &over(0, 2) + "C,0,A0");
                s.lines(over(0, 1) + &over(1, 2) + "C,0,A0 A,1,A1");
                s.lines(over(0, 1) + &over(1, 4) + "C,1,A1 C,0,A0");
                // One of the two overwritten whole: it is the other board's.
                s.lines(over(0, 1) + &format!("W,1,{size},{} C,1,A1 C,0,A0", run(9, size)));
                for k in [3, 4, 5, size + 5] {
                    s.lines(format!("{} {} Z,{k} C,2,A2", over(2, 3), over(3, 1)));
                }
            }
        },
    );
}

fn chains(add: Add) {
    let look = |board: usize| read_all(board, 2, 16);
    // Each board writes its own block, then over the border to the one before.
    let written = |boards: &mut dyn Iterator<Item = usize>| -> String {
        boards
            .map(|i| {
                let over = format!("W,{i},{},{} ", 2 * i.max(1) - 1, run(i + 65, 2));
                format!("W,{i},{},{} ", 2 * i, run(i + 1, 2)) + if i > 0 { &over } else { "" }
            })
            .collect()
    };
    add(
        "straddle_chain16_writes",
        "sixteen boards, each over the border to its neighbour's block: committed and rolled back from either end",
        &|s| {
            let [forth, back] = [written(&mut (0..16)), written(&mut (0..16).rev())];
            for chain in [&forth, &back] {
                s.line("F,16,2,16,1");
                for end in ["X,0", "X,15", "X,8"] {
                    s.lines(format!("{chain} {end} {}", look(3)));
                }
                s.lines(format!("{chain} C,0,AA {} {}", acknowledge(1..16, 1), look(3)));
                s.lines(format!("{chain} C,15,AA {} {}", acknowledge((0..15).rev(), 1), look(3)));
            }
        },
    );
    add(
        "straddle_chain16_reads",
        "sixteen boards, each reads over the border between the blocks of the two before it",
        &|s| {
            let chain: String = (0..16)
                .map(|i: usize| {
                    let own = format!("W,{i},{},{} ", 2 * i, run(i + 1, 2));
                    let before = format!("R,{i},{},2 ", 2 * i.max(2) - 3);
                    own + if i > 1 { &before } else { "" }
                })
                .collect();
            for end in ["X,0", "X,1", "X,14", "X,15"] {
                s.lines(format!("F,16,2,16,1 {chain} {end} {}", look(3)));
            }
            s.lines(format!(
                "F,16,2,16,1 {chain} C,15,AA {} {}",
                acknowledge(0..15, 1),
                look(3)
            ));
            s.lines(format!(
                "{chain} C,7,AA {} X,8 {}",
                acknowledge(0..7, 1),
                look(3)
            ));
        },
    );
}
