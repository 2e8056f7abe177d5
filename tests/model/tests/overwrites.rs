//! Whole overwrites and short writes (Req 01 of document 02). Each table is
//! written by hand from documents 01 and 02, an event line and its answer a
//! line; an answer by itself is the U that follows a cut.
mod tables;

use tables::lines as table;

/// The old writer is rolled back alone, the writer's bytes stay; its other
/// block goes back. Afterwards nothing binds it to the writer.
#[test]
fn whole_fault_of_the_old_writer() {
    table(
        "
F,3,4,2,0         1,F,0,0,0000,31,
W,0,0,01020304    2,W,0,0,0000,5,
W,0,4,05          3,W,0,0,0000,2,
W,1,0,11121314    4,W,0,0,0000,5,
X,0               5,X,0,0,0001,5,
R,2,0,4           6,R,0,0,0000,0,11121314
R,2,4,1           7,R,0,0,0000,0,00
W,0,4,06          8,W,0,0,0000,2,
X,1               9,X,0,0,0006,5,
R,2,0,4           10,R,0,0,0000,0,00000000
R,2,4,1           11,R,0,0,0000,0,06
",
    );
}

/// The writer takes the old writer with it.
#[test]
fn whole_fault_of_the_writer() {
    table(
        "
F,3,4,2,0         1,F,0,0,0000,31,
W,0,0,01020304    2,W,0,0,0000,5,
W,0,4,05          3,W,0,0,0000,2,
W,1,0,11121314    4,W,0,0,0000,5,
X,1               5,X,0,0,0003,10,
R,2,0,4           6,R,0,0,0000,0,00000000
R,2,4,1           7,R,0,0,0000,0,00
",
    );
}

/// The writer commits alone, the old writer takes the writer along. A block
/// of a member stays closed to writes, whole ones too.
#[test]
fn whole_commit_of_each() {
    table(
        "
F,3,4,2,0         1,F,0,0,0000,31,
W,0,0,01020304    2,W,0,0,0000,5,
W,0,4,05          3,W,0,0,0000,2,
W,1,0,11121314    4,W,0,0,0000,5,
C,1,              5,C,0,1,0002,9,
X,0               6,X,0,0,0001,5,
R,2,0,4           7,R,0,0,0000,0,11121314
R,2,4,1           8,R,0,0,0000,0,00
W,0,0,21222324    9,W,0,0,0000,5,
W,1,0,31323334    10,W,0,0,0000,5,
C,0,              11,C,0,0,0003,0,
W,2,0,41424344    12,W,13,0,0000,0,
W,2,0,41          13,W,13,0,0000,0,
W,0,0,41424344    14,W,13,0,0000,0,
A,1,              15,A,0,1,0003,9,
X,0               16,X,0,0,0001,0,
R,2,0,4           17,R,0,0,0000,0,31323334
",
    );
}

/// S - 1 bytes, from the block's start or up to its end, bind both.
#[test]
fn one_cell_short() {
    table(
        "
F,3,4,1,0         1,F,0,0,0000,22,
W,0,0,01020304    2,W,0,0,0000,5,
W,1,0,111213      3,W,0,0,0000,4,
X,0               4,X,0,0,0003,5,
W,0,0,01020304    5,W,0,0,0000,5,
W,1,1,121314      6,W,0,0,0000,4,
X,0               7,X,0,0,0003,5,
W,0,0,01020304    8,W,0,0,0000,5,
W,1,0,111213      9,W,0,0,0000,4,
X,1               10,X,0,0,0003,5,
W,0,0,01020304    11,W,0,0,0000,5,
W,1,1,121314      12,W,0,0,0000,4,
X,1               13,X,0,0,0003,5,
W,0,0,01020304    14,W,0,0,0000,5,
W,1,0,111213      15,W,0,0,0000,4,
C,1,              16,C,0,0,0003,0,
A,0,              17,A,0,1,0003,9,
R,2,0,4           18,R,0,0,0000,0,11121304
W,0,0,21222324    19,W,0,0,0000,5,
W,1,1,323334      20,W,0,0,0000,4,
C,0,              21,C,0,0,0003,0,
A,1,              22,A,0,1,0003,9,
R,2,0,4           23,R,0,0,0000,0,21323334
",
    );
}

/// With S = 1 every write is whole.
#[test]
fn blocks_of_one_cell() {
    table(
        "
F,3,1,2,0         1,F,0,0,0000,19,
W,0,0,01          2,W,0,0,0000,2,
W,1,0,02          3,W,0,0,0000,2,
W,2,0,03          4,W,0,0,0000,2,
X,1               5,X,0,0,0003,0,
R,0,0,1           6,R,0,0,0000,0,03
X,2               7,X,0,0,0005,2,
R,0,0,1           8,R,0,0,0000,0,00
W,0,0,01          9,W,0,0,0000,2,
W,1,0,02          10,W,0,0,0000,2,
C,1,              11,C,0,1,0002,6,
X,0               12,X,0,0,0001,0,
R,2,0,1           13,R,0,0,0000,0,02
W,0,0,04          14,W,0,0,0000,2,
W,1,0,05          15,W,0,0,0000,2,
C,0,              16,C,0,0,0003,0,
A,1,              17,A,0,1,0003,6,
R,2,0,1           18,R,0,0,0000,0,05
",
    );
}

/// 2 over 1 over 0: 0 depends on 1 and 1 on 2. The commit of 1 has 2 and not
/// 0, so the fault of 0 leaves it open.
#[test]
fn chain_of_three() {
    table(
        "
F,4,2,4,0         1,F,0,0,0000,33,
W,0,0,0102        2,W,0,0,0000,3,
W,0,2,0304        3,W,0,0,0000,3,
W,1,0,1112        4,W,0,0,0000,3,
W,1,4,1314        5,W,0,0,0000,3,
W,2,0,2122        6,W,0,0,0000,3,
C,1,              7,C,0,0,0006,0,
X,0               8,X,0,0,0001,3,
A,2,              9,A,0,1,0006,10,
R,3,0,2           10,R,0,0,0000,0,2122
R,3,2,2           11,R,0,0,0000,0,0000
R,3,4,2           12,R,0,0,0000,0,1314
",
    );
}

/// Board i over board i - 1, through all sixteen.
#[test]
fn chain_of_sixteen() {
    let mut number = 1;
    let mut text = String::from("F,16,1,1,0 1,F,0,0,0000,16,\n");
    let mut put = |event: &str, answer: &str| {
        number += 1;
        text += &format!("{event} {number},{answer}\n");
    };
    for end in ["fault", "commit"] {
        for i in 0..16 {
            put(&format!("W,{i},0,{i:02X}"), "W,0,0,0000,2,");
        }
        if end == "fault" {
            put("X,0", "X,0,0,0001,0,");
            put("X,8", "X,0,0,01FE,0,");
            put("R,0,0,1", "R,0,0,0000,0,0F");
            put("X,15", "X,0,0,FE01,2,");
            put("R,0,0,1", "R,0,0,0000,0,00");
        } else {
            put("C,8,", "C,0,0,FF00,0,");
            put("X,3", "X,0,0,000F,0,");
            for i in 9..15 {
                put(&format!("A,{i},"), "A,0,0,FF00,0,");
            }
            put("A,15,", "A,0,1,FF00,6,");
            put("X,7", "X,0,0,00F0,0,");
            put("R,0,0,1", "R,0,0,0000,0,0F");
        }
    }
    table(&text);
}

/// A writer that read before depends on the old writer by that read; who reads
/// the new bytes depends on the writer, who read the old ones on the old
/// writer.
#[test]
fn reads_before_and_after() {
    table(
        "
F,3,2,2,0         1,F,0,0,0000,23,
W,0,0,0102        2,W,0,0,0000,3,
R,1,0,1           3,R,0,0,0000,0,01
W,1,0,1112        4,W,0,0,0000,3,
X,0               5,X,0,0,0003,3,
W,0,0,0102        6,W,0,0,0000,3,
W,1,0,1112        7,W,0,0,0000,3,
R,2,0,2           8,R,0,0,0000,0,1112
X,1               9,X,0,0,0007,3,
W,0,0,0102        10,W,0,0,0000,3,
R,2,0,2           11,R,0,0,0000,0,0102
W,1,0,1112        12,W,0,0,0000,3,
X,0               13,X,0,0,0005,0,
R,2,0,2           14,R,0,0,0000,0,1112
C,2,              15,C,0,0,0006,0,
A,1,              16,A,0,1,0006,7,
",
    );
}

/// Both directions come together by two whole overwrites, or by a whole and a
/// short one.
#[test]
fn both_ways_by_two_overwrites() {
    table(
        "
F,3,2,2,0         1,F,0,0,0000,23,
W,0,0,0102        2,W,0,0,0000,3,
W,1,0,1112        3,W,0,0,0000,3,
W,0,0,0304        4,W,0,0,0000,3,
X,1               5,X,0,0,0003,3,
W,0,0,0102        6,W,0,0,0000,3,
W,1,2,1112        7,W,0,0,0000,3,
W,1,0,1314        8,W,0,0,0000,3,
W,0,3,04          9,W,0,0,0000,2,
X,0               10,X,0,0,0003,6,
",
    );
}

/// A cut whole overwrite leaves neither its own bytes nor pending ones; the
/// uncut one has S + 1 stores.
#[test]
fn cut_whole_overwrite() {
    table(
        "
F,2,2,1,0         1,F,0,0,0000,18,
W,0,0,0102        2,W,0,0,0000,3,
C,0,              3,C,0,1,0001,7,
W,0,0,0304        4,W,0,0,0000,3,
Z,0               5,Z,0,0,0000,0,
W,1,0,1112        6,W,9,0,0000,0,
                  6,U,0,0,0000,3,
R,0,0,2           7,R,0,0,0000,0,0102
W,0,0,0304        8,W,0,0,0000,3,
Z,1               9,Z,0,0,0000,0,
W,1,0,1112        10,W,9,0,0000,1,
                  10,U,0,0,0000,3,
R,0,0,2           11,R,0,0,0000,0,0102
W,0,0,0304        12,W,0,0,0000,3,
Z,2               13,Z,0,0,0000,0,
W,1,0,1112        14,W,9,0,0000,2,
                  14,U,0,0,0000,3,
R,0,0,2           15,R,0,0,0000,0,0102
W,0,0,0304        16,W,0,0,0000,3,
Z,3               17,Z,0,0,0000,0,
W,1,0,1112        18,W,0,0,0000,3,
X,0               19,X,0,0,0001,0,
X,1               20,X,0,0,0002,3,
R,0,0,2           21,R,0,0,0000,0,0102
",
    );
}

/// Own blocks and clean ones (never written, committed, rolled back) make no
/// link when they are overwritten whole.
#[test]
fn own_and_clean_blocks() {
    table(
        "
F,2,2,2,0         1,F,0,0,0000,23,
W,0,0,0102        2,W,0,0,0000,3,
W,0,0,0304        3,W,0,0,0000,2,
W,1,2,0506        4,W,0,0,0000,3,
X,1               5,X,0,0,0002,3,
C,0,              6,C,0,1,0001,7,
W,1,0,0708        7,W,0,0,0000,3,
X,0               8,X,0,0,0001,0,
X,1               9,X,0,0,0002,3,
W,0,0,090A        10,W,0,0,0000,3,
X,0               11,X,0,0,0001,3,
W,1,0,0B0C        12,W,0,0,0000,3,
X,0               13,X,0,0,0001,0,
C,1,              14,C,0,1,0002,7,
R,0,0,2           15,R,0,0,0000,0,0B0C
",
    );
}
