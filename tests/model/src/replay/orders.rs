//! The replay files for the order of Req 07 of document 02. Each file has one
//! order, that after its last line.

use super::{acknowledge, run, Add, Script};

/// First a board, then one that it depends on.
type Link = (usize, usize);

/// These boards write their own blocks of two cells.
fn written(boards: impl Iterator<Item = usize>) -> String {
    boards
        .map(|i| format!("W,{i},{},{} ", 2 * i, run(i + 1, 1)))
        .collect()
}

/// Reads of the blocks of the boards depended on.
fn depend(links: &[Link]) -> String {
    links
        .iter()
        .map(|(i, j)| format!("R,{i},{},1 ", 2 * j))
        .collect()
}

/// A format for so many boards, all blocks written, and the links.
fn linked(boards: usize, links: &[Link]) -> String {
    let format = format!("F,{boards},2,{boards},1 ");
    format + &written(0..boards) + &depend(links)
}

/// Each board depends on the next one and the last one on the first.
fn ring(boards: &[usize]) -> Vec<Link> {
    let next = boards.iter().cycle().skip(1);
    boards.iter().copied().zip(next.copied()).collect()
}

/// Components of 4, 3, 2 and 1 boards: 1 waits for 0, 5, 10 and 15, these for
/// 3, 9 and 12, these for 6 and 13, and these for 8; 2 waits for 4, which
/// waits for 14; 11 waits for 7.
fn several() -> Vec<Link> {
    let mut links = ring(&[0, 5, 10, 15]);
    links.extend(ring(&[3, 12, 9]));
    links.extend(ring(&[6, 13]));
    links.extend([(15, 9), (10, 3), (3, 13), (6, 8), (1, 0), (1, 8)]);
    links.extend([(4, 14), (2, 4), (11, 7)]);
    links
}

pub fn add(add: Add) {
    alone(add);
    refused(add);
    chains(add);
    rings(add);
    waiting(add);
    accesses(add);
    commits_and_faults(add);
    formats(add);
}

fn alone(add: Add) {
    add(
        "order_no_links",
        "no board depends on another, with own and clean blocks only: five lines, ascending",
        &|s| s.lines("F,5,2,6,1 W,3,6,01 R,3,6,2 W,3,7,02 R,1,0,1 R,4,10,2 W,0,0,0102 R,0,0,2"),
    );
    add(
        "order_sixteen_singles",
        "sixteen boards, all with blocks of their own: sixteen lines",
        &|s| s.lines(linked(16, &[])),
    );
    add(
        "order_one_board",
        "P = 1: one line, also with a block written",
        &|s| s.lines("F,1,2,2,1 W,0,0,01 C,0,A0 W,0,1,0203"),
    );
    add(
        "order_two_boards",
        "P = 2: board 0 read what board 1 wrote, so board 1 is first",
        &|s| s.lines("F,2,1,2,0 W,1,0,01 R,0,0,1"),
    );
}

fn refused(add: Add) {
    add(
        "order_unreadable_lines_only",
        "11: nothing but unreadable lines",
        &|s| s.lines("F,2,2,2 f,2,2,2,1 F,02,2,2,1 ? W,0,0,0 F,2,2,2,1,"),
    );
    add(
        "order_formats_refused_only",
        "11: every format refused 4",
        &|s| s.lines("F,17,2,2,1 F,2,3,2,1 W,0,0,01 R,1,0,1 F,2,2,0,1 U"),
    );
    add(
        "order_format_cut",
        "11: the last format is cut, after links and after a finished one",
        &|s| s.lines(linked(4, &[(0, 3)]) + "Z,20 F,4,2,4,1 W,3,6,01 R,0,6,1 U"),
    );
    add(
        "order_commit_open",
        "14: a commit of boards 0 and 2 waits for board 2",
        &|s| s.lines(linked(4, &[(0, 2), (1, 3)]) + "C,0,A0"),
    );
    add(
        "order_commit_open_outsiders",
        "14 after calls of boards outside, a fault without a member and refused calls",
        &|s| {
            s.lines(linked(5, &[(4, 3)]) + "C,4,A4 R,0,2,1 W,1,9,05 X,0 Z,0 R,2,0,1 C,0,A0 A,4,A4")
        },
    );
    add(
        "order_commit_open_no_last_line_feed",
        "14: the start is the last line and has no line feed",
        &|s| {
            s.lines(linked(3, &[(2, 1)]) + "C,2,A2");
            s.0.pop();
        },
    );
}

fn chains(add: Add) {
    let up: Vec<Link> = (1..16).map(|i| (i, i - 1)).collect();
    let down: Vec<Link> = (1..16).map(|i| (i - 1, i)).collect();
    add(
        "order_chain16_up",
        "each board depends on the one below it: ascending",
        &|s| s.lines(linked(16, &up)),
    );
    add(
        "order_chain16_down",
        "each board depends on the one above it: descending",
        &|s| s.lines(linked(16, &down)),
    );
    add(
        "order_chain16_both_ways",
        "each board depends on both neighbours: one component of sixteen boards",
        &|s| s.lines(linked(16, &[&up[..], &down[..]].concat())),
    );
    add(
        "order_chain16_zigzag",
        "one chain through all boards, from either end in turn: 0, 15, 1, 14, ..",
        &|s| {
            let boards: Vec<usize> = (0..8).flat_map(|i| [i, 15 - i]).collect();
            let links: Vec<Link> = boards.windows(2).map(|pair| (pair[0], pair[1])).collect();
            s.lines(linked(16, &links));
        },
    );
    add(
        "order_star_inward",
        "all others depend on board 15: it is first, then they ascend",
        &|s| s.lines(linked(16, &(0..15).map(|i| (i, 15)).collect::<Vec<_>>())),
    );
    add(
        "order_star_outward",
        "board 0 depends on all others: it is last",
        &|s| s.lines(linked(16, &(1..16).map(|i| (0, i)).collect::<Vec<_>>())),
    );
    add(
        "order_star_middle",
        "boards below 8 depend on board 8, and board 8 on those above it",
        &|s| {
            let below = (0..8).map(|i| (i, 8));
            let above = (9..16).map(|i| (8, i));
            s.lines(linked(16, &below.chain(above).collect::<Vec<_>>()));
        },
    );
}

fn rings(add: Add) {
    let two = || [ring(&[0, 1, 2]), ring(&[5, 4, 3])].concat();
    add(
        "order_ring16",
        "a ring through all sixteen boards: one line",
        &|s| s.lines(linked(16, &ring(&(0..16).collect::<Vec<_>>()))),
    );
    add(
        "order_ring16_open",
        "the same ring without its last link: sixteen lines",
        &|s| {
            let mut links = ring(&(0..16).collect::<Vec<_>>());
            links.pop();
            s.lines(linked(16, &links));
        },
    );
    add(
        "order_rings_apart",
        "two rings of three boards without a link between them, and boards alone",
        &|s| s.lines(linked(8, &two())),
    );
    add(
        "order_rings_joined_upward",
        "a link from the lower ring to the higher one: the higher one is first",
        &|s| s.lines(linked(8, &[two(), vec![(1, 4)]].concat())),
    );
    add(
        "order_rings_joined_downward",
        "a link from the higher ring to the lower one: the lower one is first",
        &|s| s.lines(linked(8, &[two(), vec![(4, 1)]].concat())),
    );
    add(
        "order_rings_joined_both_ways",
        "links both ways between two rings, at other boards: one component",
        &|s| s.lines(linked(8, &[two(), vec![(1, 4), (3, 0)]].concat())),
    );
    add(
        "order_rings_over_a_board",
        "two rings joined by a board alone: it stands between them",
        &|s| s.lines(linked(8, &[two(), vec![(2, 7), (7, 3)]].concat())),
    );
    add(
        "order_rings_interleaved",
        "rings of every fourth board; each depends on the next one",
        &|s| {
            let rings = (0..4).map(|i| ring(&[i, i + 4, i + 8, i + 12]));
            let links = [(8, 13), (1, 6), (14, 3)];
            s.lines(linked(
                16,
                &[rings.flatten().collect(), links.to_vec()].concat(),
            ));
        },
    );
    add(
        "order_several_components",
        "components of four, three, two boards and of one, most of which wait for higher boards",
        &|s| s.lines(linked(16, &several())),
    );
}

fn waiting(add: Add) {
    add(
        "order_lowest_waits",
        "board 0 depends on board 7: 1 to 7 come first, ascending",
        &|s| s.lines(linked(8, &[(0, 7)])),
    );
    add(
        "order_set_free_by_a_higher_board",
        "board 1 depends on board 6: it comes right after it, before board 7",
        &|s| s.lines(linked(8, &[(1, 6)])),
    );
    add(
        "order_set_free_one_by_one",
        "boards 0, 1 and 2 wait for 5, 4 and 6, board 0 for 2 too: each comes as soon as it may",
        &|s| s.lines(linked(8, &[(0, 5), (1, 4), (2, 6), (0, 2)])),
    );
    add(
        "order_waits_for_the_last_of_several",
        "board 0 depends on 3, 5 and 9, at once and by chains: it waits for the last of them",
        &|s| {
            s.lines(linked(
                12,
                &[(0, 3), (0, 5), (3, 9), (5, 3), (9, 10), (0, 9), (4, 11)],
            ))
        },
    );
}

fn accesses(add: Add) {
    add(
        "order_whole_overwrite",
        "a whole overwrite makes the old writer depend on the writer: board 1 before board 0",
        &|s| s.lines("F,3,2,2,0 W,0,0,0102 W,1,0,1112"),
    );
    add(
        "order_short_write",
        "a short write binds both: one component",
        &|s| s.lines("F,3,2,2,0 W,0,0,0102 W,1,0,11"),
    );
    add(
        "order_overwrites16",
        "sixteen boards write one block whole, one after another: descending",
        &|s| s.lines(over_one_block(2)),
    );
    add(
        "order_short_writes16",
        "sixteen boards write one cell of one block, one after another: one component",
        &|s| s.lines(over_one_block(1)),
    );
    add(
        "order_overwrite_kinds",
        "whole overwrites and short writes in turn over one block: components of two boards and of one",
        &|s| s.lines("F,7,2,2,0 W,0,0,0102 W,1,0,1112 W,2,1,22 W,3,0,3132 W,4,0,41 W,5,0,5152"),
    );
    add(
        "order_overwrite_and_read",
        "a whole overwrite by a board that read before binds both; a read after one makes no other link",
        &|s| s.lines("F,4,2,3,0 W,2,0,0102 R,3,0,1 W,3,0,1112 W,0,2,01 W,1,2,1112 R,0,2,1"),
    );
    add(
        "order_straddling_read",
        "a read over a border: board 0 waits for both blocks' writers",
        &|s| s.lines("F,5,4,3,0 W,2,0,01020304 W,4,4,11121314 R,0,2,4"),
    );
    add(
        "order_straddling_write",
        "a write of S bytes over a border binds three boards in one component",
        &|s| s.lines("F,5,4,3,0 W,2,0,01020304 W,4,4,11121314 W,0,2,21222324"),
    );
    add(
        "order_straddle_next_to_whole",
        "a whole overwrite of the first block, then a straddling write of a third board over both",
        &|s| s.lines("F,5,4,3,0 W,0,0,01020304 W,1,0,11121314 W,4,4,41 W,3,3,3132"),
    );
    add(
        "order_refused_accesses",
        "accesses refused 1, 2 and 13, and unreadable ones, make no link, also not with a block of no member",
        &|s| {
            // The members are 2 and 3; blocks 0 to 2 are of 3, 2 and 4.
            s.lines("F,5,2,4,0 W,3,0,01 W,2,2,02 W,4,4,03 R,3,2,1 C,3,");
            s.lines("W,0,3,0102 W,1,2,05 R,2,4,1 W,3,5,06 R,5,4,1 W,5,4,01");
            s.lines("R,0,4,3 R,0,4,0 W,0,4,010203 R,1,7,2 W,1,8,01 r,1,4,1 R,1,4 W,1,4,1 A,2,");
        },
    );
}

/// Each of sixteen boards writes so many bytes to block 0.
fn over_one_block(count: usize) -> String {
    let write = |i: usize| format!("W,{i},0,{} ", run(i + 1, count));
    "F,16,2,2,0 ".to_string() + &(0..16).map(write).collect::<String>()
}

/// The commit of boards in any order, the first one starts.
fn commit(boards: &[usize]) -> String {
    let others = acknowledge(boards[1..].iter().copied(), 1);
    format!("C,{},{} {others}", boards[0], run(boards[0], 1))
}

fn commits_and_faults(add: Add) {
    let down: Vec<Link> = (1..6).map(|i| (i - 1, i)).collect();
    add(
        "order_after_commits",
        "two commits from a chain: the links of the boards left stay",
        &|s| {
            s.lines(linked(8, &[&down[..], &[(6, 0)]].concat()));
            s.lines(commit(&[4, 5]) + &commit(&[7]));
        },
    );
    add(
        "order_after_a_commit_of_all",
        "a commit of the whole chain: no links left",
        &|s| s.lines(linked(6, &down) + &commit(&[0, 3, 1, 5, 4, 2])),
    );
    add(
        "order_after_a_fault",
        "a fault in the middle of a chain takes those that depend on it: the other links stay",
        &|s| s.lines(linked(8, &[&down[..], &[(6, 5), (5, 7)]].concat()) + "X,3"),
    );
    add(
        "order_after_a_commit_and_a_fault",
        "links before, between and after a commit and a fault; blocks kept and undone link nobody",
        &|s| {
            s.lines(linked(6, &[(0, 1), (2, 3)]) + &commit(&[1]) + "X,3");
            s.lines("R,4,2,1 R,4,4,1 R,5,6,2 R,1,0,1 W,3,6,01 R,0,6,1 W,5,10,02 R,3,10,1");
        },
    );
    add(
        "order_after_a_cut_commit",
        "a commit cut after its decision, and the power-up after it: no links left, not of others either",
        &|s| s.lines(linked(4, &[(0, 3), (1, 2)]) + "C,0,A0 Z,4 A,3,A3"),
    );
    add(
        "order_after_a_cut_write",
        "a write over another's block cut at its tag: no links left; then one more",
        &|s| s.lines(linked(4, &[(0, 3), (1, 2)]) + "Z,1 W,1,0,0506 W,2,2,01 R,1,2,1"),
    );
    add(
        "order_after_a_power_up",
        "a power-up: no links left",
        &|s| s.lines(linked(5, &[(0, 4), (1, 0), (4, 1), (2, 3)]) + "U"),
    );
    add(
        "order_after_a_dropped_commit",
        "an open commit dropped by a fault: the order is taken again, links outside stay",
        &|s| s.lines(linked(6, &[(1, 2), (0, 5), (3, 1)]) + "C,1,A1 X,2 W,2,4,01 R,1,4,1"),
    );
    add(
        "order_after_a_decided_commit",
        "taken again once the last member has acknowledged",
        &|s| s.lines(linked(6, &[(1, 2), (0, 5)]) + "C,1,A1 C,0,A0 A,2,A2"),
    );
    add(
        "order_committed",
        "the components of `order_several_components` commit in that order: each group is its component",
        &|s| {
            s.lines(linked(16, &several()));
            by_order(s, 10);
        },
    );
    add(
        "order_committed_halfway",
        "the same up to the sixth commit: the boards left keep their order",
        &|s| {
            s.lines(linked(16, &several()));
            by_order(s, 6);
        },
    );
}

/// So many of the commits in the order of `several`, started by other boards
/// than the lowest ones.
fn by_order(s: &mut Script, count: usize) {
    let order: [&[usize]; 10] = [
        &[7],
        &[8],
        &[13, 6],
        &[9, 12, 3],
        &[10, 0, 15, 5],
        &[1],
        &[11],
        &[14],
        &[4],
        &[2],
    ];
    for boards in &order[..count] {
        s.lines(commit(boards));
    }
}

fn formats(add: Add) {
    add(
        "order_second_format",
        "a second format of another P after links: none left",
        &|s| s.lines(linked(6, &[(0, 5), (1, 4)]) + "F,3,2,4,0"),
    );
    add(
        "order_second_format_refused",
        "a second format refused 4 leaves the links",
        &|s| s.lines(linked(6, &[(0, 5), (1, 4)]) + "F,17,2,4,0 F,3,2,4,65"),
    );
    add(
        "order_second_format_with_a_commit_open",
        "a format with a commit open ends it: the order is taken, with the links made since",
        &|s| s.lines(linked(6, &[(0, 5), (1, 4)]) + "C,0,A0 F,4,4,2,1 W,2,0,01 R,0,0,1"),
    );
    add(
        "order_largest",
        "16 boards, 256 blocks of 64, contexts of 64: three components of several boards",
        &|s| {
            s.line("F,16,64,256,64");
            for i in 0..16 {
                s.line(format!("W,{i},{},{}", 1088 * i, run(i + 1, 64)));
            }
            let links = [ring(&[15, 2, 8]), ring(&[1, 9]), ring(&[0, 3, 5, 7])].concat();
            for (i, j) in [&links[..], &[(2, 9), (1, 7), (4, 15), (6, 0)]].concat() {
                s.line(format!("R,{i},{},64", 1088 * j));
            }
        },
    );
    add(
        "order_no_last_line_feed",
        "the last line makes a link and has no line feed",
        &|s| {
            s.lines(linked(4, &[(1, 2), (0, 3)]));
            s.0.pop();
        },
    );
}
