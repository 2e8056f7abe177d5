//! Seeded event files for the comparison with the model. The model plays
//! each line as it is made, so that histories get deep.

use crate::lines::{self, Room, LONGEST};
use crate::module::{self, Shape};
use crate::places;
use crate::player::Player;
use crate::random::Random;

/// A file of the comparison, of 1 to 400 lines.
pub fn file(seed: u64) -> Vec<u8> {
    events(seed, Random::new(!seed).within(1, 400))
}

/// An event file of so many lines.
pub fn events(seed: u64, lines: usize) -> Vec<u8> {
    let mut random = Random::new(seed);
    let habits = Habits::choose(&mut random);
    let mut maker = Maker {
        random,
        habits,
        player: Player::default(),
        out: Vec::new(),
        goal: lines,
        hot: Vec::new(),
    };
    while maker.wanting() {
        maker.step();
    }
    // Sometimes no last line feed; an empty last line needs it to be a line.
    if maker.random.per_mille(250) && !maker.out.ends_with(b"\n\n") && maker.out.len() > 1 {
        maker.out.pop();
    }
    maker.out
}

/// How often what happens in a file, per mille.
struct Habits {
    garbage: usize,
    wrong: usize,
    cut: usize,
    format: usize,
    scene: usize,
    /// Accesses over a border, where blocks have one.
    straddle: usize,
    most_blocks: usize,
}

impl Habits {
    fn choose(random: &mut Random) -> Habits {
        Habits {
            garbage: random.pick(&[0, 5, 20, 20, 60, 300]),
            wrong: random.pick(&[0, 10, 40, 40, 100, 400]),
            cut: random.pick(&[0, 10, 40, 80, 200, 500]),
            format: random.pick(&[2, 5, 10, 30]),
            scene: random.pick(&[10, 30, 100]),
            straddle: random.pick(&[0, 200, 300, 300, 400, 800]),
            most_blocks: random.pick(&[2, 4, 8, 20]),
        }
    }
}

struct Maker {
    random: Random,
    habits: Habits,
    player: Player,
    out: Vec<u8>,
    goal: usize,
    /// The blocks that accesses choose from.
    hot: Vec<usize>,
}

impl Maker {
    fn wanting(&self) -> bool {
        (self.player.number as usize) < self.goal
    }

    /// Puts a line out and plays it.
    fn put(&mut self, line: impl AsRef<[u8]>) {
        if !self.wanting() {
            return;
        }
        let line = line.as_ref();
        self.out.extend_from_slice(line);
        self.out.push(b'\n');
        let mut room: Room = [0; LONGEST / 2];
        let event = lines::parse(line, &mut room);
        self.player.play(event.as_ref());
        if matches!(event, Some(lines::Event::Format(_))) {
            self.choose_hot();
        }
    }

    fn choose_hot(&mut self) {
        let blocks = self.shape().map_or(1, |shape| shape.blocks);
        let count = self.random.within(1, self.habits.most_blocks.min(blocks));
        self.hot = (0..count).map(|_| self.random.below(blocks)).collect();
        self.hot[0] = self.random.pick(&[0, blocks - 1]);
    }

    fn shape(&self) -> Option<Shape> {
        module::header(&self.player.image, 0)
    }

    fn step(&mut self) {
        let Some(shape) = self.shape() else {
            // Nothing is taken but a format.
            let line = match self.random.below(5) {
                0 => self.garbage(),
                1 => self
                    .wrong(&Shape {
                        boards: 2,
                        power: 1,
                        blocks: 2,
                        context: 1,
                    })
                    .into(),
                _ => self.format().into(),
            };
            let cut = self.random.per_mille(self.habits.cut / 3);
            return if cut { self.cut(&line) } else { self.put(line) };
        };
        if self.random.per_mille(self.habits.garbage) {
            let line = self.garbage();
            self.put(line);
        } else if self.random.per_mille(self.habits.format) {
            let line = self.format();
            self.put_or_cut(line);
        } else if self.random.per_mille(self.habits.scene) {
            match self.random.below(3) {
                0 => self.commit_scene(),
                _ => self.chain_scene(&shape),
            }
        } else if self.random.per_mille(self.habits.wrong) {
            let line = self.wrong(&shape);
            self.put_or_cut(line);
        } else {
            let line = self.good(&shape);
            self.put_or_cut(line);
        }
    }

    fn put_or_cut(&mut self, line: String) {
        if self.random.per_mille(self.habits.cut) {
            self.cut(line.as_bytes());
        } else {
            self.put(line);
        }
    }

    /// A Z before the line, mostly at a store that matters.
    fn cut(&mut self, line: &[u8]) {
        let mut room: Room = [0; LONGEST / 2];
        let event = lines::parse(line, &mut room);
        let all = self.player.clone().play(event.as_ref()).answer.stores as usize;
        let context = self.shape().map_or(6, |shape| shape.context);
        let k = match self.random.below(14) {
            0 => 0,
            1 => 1,
            2 => 2,
            3 => context,
            4 => context + 1,
            5 => context + 2,
            6 => context + 3,
            7 => context + 4,
            8 => all.saturating_sub(2),
            9 => all.saturating_sub(1),
            10 => all,
            11 => all + 1,
            12 => self.random.below(all + 1),
            _ => self.random.pick(&[3, 9, 10, 11, 100, 1000, 65_534, 65_535]),
        };
        if self.random.per_mille(30) {
            // A Z that another one spends.
            let spent = self.random.below(5);
            self.put(format!("Z,{spent}"));
        }
        self.put(format!("Z,{k}"));
        if self.random.per_mille(30) {
            let garbage = self.garbage();
            self.put(garbage);
        }
        self.put(line);
    }

    fn hex(&mut self, count: usize) -> String {
        (0..count)
            .map(|_| format!("{:02X}", self.random.below(256)))
            .collect()
    }

    /// A format within the limits, seldom beyond.
    fn format(&mut self) -> String {
        let random = &mut self.random;
        let kind = random.below(100);
        let [boards, size, blocks, context] = if kind < 4 {
            random.pick(&[
                [16, 64, 256, 64],
                [16, 16, 1024, 64],
                [16, 1, 1024, 0],
                [16, 32, 512, 64],
                [3, 16, 1024, 1],
                [16, 2, 1024, 64],
            ])
        } else if kind < 10 {
            random.pick(&[
                [0, 1, 1, 0],
                [17, 1, 1, 0],
                [65_535, 2, 2, 2],
                [2, 0, 2, 0],
                [2, 3, 2, 0],
                [2, 48, 2, 0],
                [2, 128, 2, 0],
                [2, 65_535, 1, 0],
                [2, 4, 0, 0],
                [2, 4, 1025, 0],
                [2, 4, 65_535, 0],
                [2, 64, 257, 0],
                [2, 32, 513, 0],
                [2, 64, 1024, 0],
                [2, 4, 4, 65],
                [2, 4, 4, 256],
            ])
        } else {
            [
                random.pick(&[1, 2, 2, 3, 3, 4, 5, 7, 8, 15, 16, 16]),
                random.pick(&[1, 1, 2, 2, 2, 4, 4, 8, 16, 32, 64]),
                random.pick(&[1, 2, 3, 4, 5, 8, 12, 16, 17, 40]),
                random.pick(&[0, 0, 1, 1, 1, 2, 2, 3, 5, 16, 64]),
            ]
        };
        format!("F,{boards},{size},{blocks},{context}")
    }

    /// A board of the mask, or any board where it is empty.
    fn board_of(&mut self, mask: u16, shape: &Shape) -> usize {
        let boards: Vec<usize> = (0..16).filter(|i| mask >> i & 1 == 1).collect();
        if boards.is_empty() {
            self.random.below(shape.boards)
        } else {
            self.random.pick(&boards)
        }
    }

    fn members(&self) -> u16 {
        self.player.record.members
    }

    fn missing(&self) -> u16 {
        self.members() & !self.player.record.acknowledged
    }

    fn outsiders(&self, shape: &Shape) -> u16 {
        ((1_u32 << shape.boards) - 1) as u16 & !self.members()
    }

    /// A hot block, if possible one that the commit's members did not write.
    fn block(&mut self, shape: &Shape, spare_members: bool) -> usize {
        for _ in 0..6 {
            let block = self.random.pick(&self.hot);
            let tag = self.player.image[shape.current() - shape.blocks + block];
            if !spare_members || tag == 0 || self.members() >> (tag - 1) & 1 == 0 {
                return block;
            }
        }
        self.random.below(shape.blocks)
    }

    /// First cell and length within the block, or over one of its borders.
    fn part(&mut self, shape: &Shape, block: usize) -> (usize, usize) {
        if self.random.per_mille(self.habits.straddle) {
            self.over_border(shape, block)
        } else {
            self.inside(shape, block)
        }
    }

    /// Over a border of the block; within it where no access straddles.
    fn over_border(&mut self, shape: &Shape, block: usize) -> (usize, usize) {
        let most = self.random.pick(&[6, shape.size()]);
        places::straddling(&mut self.random, shape, block, most)
            .unwrap_or_else(|| self.inside(shape, block))
    }

    fn inside(&mut self, shape: &Shape, block: usize) -> (usize, usize) {
        let size = shape.size();
        let n = match self.random.below(8) {
            0 | 1 => size,
            2 => 1,
            // One cell short, at either end.
            3 => (size - 1).max(1),
            _ => self.random.within(1, size.min(6)),
        };
        (block * size + self.random.below(size - n + 1), n)
    }

    fn write(&mut self, shape: &Shape, board: usize, block: usize) -> String {
        let place = self.part(shape, block);
        self.write_at(board, place)
    }

    fn write_at(&mut self, board: usize, (cell, n): (usize, usize)) -> String {
        format!("W,{board},{cell},{}", self.hex(n))
    }

    fn overwrite(&mut self, shape: &Shape, board: usize, block: usize) -> String {
        let size = shape.size();
        self.write_at(board, (block * size, size))
    }

    /// A read or a write over a border of the block.
    fn straddle(&mut self, shape: &Shape, board: usize, block: usize) -> String {
        let (cell, n) = self.over_border(shape, block);
        if self.random.per_mille(500) {
            format!("R,{board},{cell},{n}")
        } else {
            self.write_at(board, (cell, n))
        }
    }

    fn read(&mut self, shape: &Shape, board: usize, block: usize) -> String {
        let (cell, n) = self.part(shape, block);
        format!("R,{board},{cell},{n}")
    }

    fn start(&mut self, shape: &Shape, board: usize) -> String {
        format!("C,{board},{}", self.hex(shape.context))
    }

    fn acknowledge(&mut self, shape: &Shape, board: usize) -> String {
        format!("A,{board},{}", self.hex(shape.context))
    }

    /// A call that is taken, as far as the state allows one.
    fn good(&mut self, shape: &Shape) -> String {
        let outsiders = self.outsiders(shape);
        let roll = self.random.below(100);
        if self.members() != 0 && (roll < 45 || (outsiders == 0 && roll < 92)) {
            let board = self.board_of(self.missing(), shape);
            return self.acknowledge(shape, board);
        }
        let board = self.board_of(outsiders, shape);
        match self.random.below(100) {
            0..=44 => {
                let block = self.block(shape, true);
                self.write(shape, board, block)
            }
            45..=74 => {
                let block = self.block(shape, false);
                self.read(shape, board, block)
            }
            75..=88 if self.members() == 0 => self.start(shape, board),
            89..=96 => format!("X,{}", self.random.below(shape.boards)),
            97..=98 => "U".into(),
            _ => {
                let block = self.random.below(shape.blocks);
                self.read(shape, board, block)
            }
        }
    }

    /// A readable call that is mostly refused.
    fn wrong(&mut self, shape: &Shape) -> String {
        let (size, cells) = (shape.size(), shape.cells());
        let board = self.random.below(shape.boards);
        // From here on S cells pass the last one.
        let too_late = cells - self.random.below(size);
        let beyond = self
            .random
            .pick(&[shape.boards, shape.boards + 1, 16, 17, 255, 256, 65_535]);
        let context = match self.random.below(6) {
            0 => 0,
            1 => shape.context + 1,
            2 => shape.context.saturating_sub(1),
            3 => 77,
            4 => shape.context,
            _ => self.random.below(78),
        };
        if self.missing() != 0 && self.random.per_mille(120) {
            let board = self.board_of(self.player.record.acknowledged, shape);
            return self.acknowledge(shape, board);
        }
        match self.random.below(16) {
            0 => format!("R,{beyond},0,1"),
            1 => format!("W,{beyond},0,{}", self.hex(1)),
            2 => format!("C,{beyond},{}", self.hex(context)),
            3 => format!("A,{beyond},{}", self.hex(context)),
            4 => format!("X,{beyond}"),
            5 => {
                let n = self.random.pick(&[0, size + 1, size, 65_535]);
                let cell = self.random.below(cells);
                let cell = self.random.pick(&[cell, too_late]);
                format!("R,{board},{cell},{n}")
            }
            6 => {
                let cell = self
                    .random
                    .pick(&[cells, cells - 1, cells + 1, 65_535, 65_536 - size]);
                format!(
                    "R,{board},{},{}",
                    cell.min(65_535),
                    self.random.within(1, size + 1)
                )
            }
            7 => {
                let n = self.random.pick(&[0, 1, size, size + 1]);
                let cell = self.random.below(cells + 2);
                let cell = self.random.pick(&[cell, too_late]);
                self.write_at(board, (cell, n))
            }
            8 => format!("C,{board},{}", self.hex(context)),
            9 => format!("A,{board},{}", self.hex(context)),
            10 => self.start(shape, board),
            11 => self.acknowledge(shape, board),
            12 => {
                // By a member, or to a member's block.
                let member = self.board_of(self.members(), shape);
                let block = self.random.below(shape.blocks);
                self.write(shape, member, block)
            }
            13 => {
                let member = self.board_of(self.members(), shape);
                self.read(shape, member, 0)
            }
            14 => {
                let outsider = self.board_of(self.outsiders(shape), shape);
                let block = self.random.below(shape.blocks);
                self.write(shape, outsider, block)
            }
            _ => {
                let outsider = self.board_of(self.outsiders(shape), shape);
                self.acknowledge(shape, outsider)
            }
        }
    }

    /// A commit with its acknowledgements in any order, some left out,
    /// other calls and faults between.
    fn commit_scene(&mut self) {
        let Some(shape) = self.shape() else { return };
        if self.members() == 0 {
            let board = self.random.below(shape.boards);
            let line = self.start(&shape, board);
            self.put_or_cut(line);
        }
        let leave_out = self.random.pick(&[0, 0, 0, 1, 2]);
        while self.wanting()
            && self.shape() == Some(shape)
            && self.missing().count_ones() > leave_out
        {
            let line = match self.random.below(12) {
                0 => self.good(&shape),
                1 => self.wrong(&shape),
                _ => {
                    let board = self.board_of(self.missing(), &shape);
                    let line = self.acknowledge(&shape, board);
                    if self.missing().count_ones() == 1 && self.random.per_mille(self.habits.cut) {
                        // The deciding acknowledgement is cut more often.
                        self.cut(line.as_bytes());
                        continue;
                    }
                    line
                }
            };
            self.put_or_cut(line);
        }
    }

    /// Boards in any order, each reading, writing or overwriting whole what
    /// the one before it wrote, or reaching over a border into it; then a
    /// commit or a fault along the chain.
    fn chain_scene(&mut self, shape: &Shape) {
        let mut order: Vec<usize> = (0..shape.boards).collect();
        self.random.shuffle(&mut order);
        let some = self.random.within(2, 16);
        order.truncate(self.random.pick(&[some, some, 16]));
        let written = self.random.pick(&[0, 0, 10, 100, 500]);
        let overwritten = self.random.pick(&[0, 0, 100, 500, 1000]);
        let straddled = self.random.pick(&[0, 0, 200, 500, 1000]);
        for (i, board) in order.iter().enumerate() {
            if i > 0 {
                let block = (i - 1) % shape.blocks;
                let line = if self.random.per_mille(straddled) {
                    self.straddle(shape, *board, block)
                } else if self.random.per_mille(overwritten) {
                    self.overwrite(shape, *board, block)
                } else if self.random.per_mille(written) {
                    self.write(shape, *board, block)
                } else {
                    self.read(shape, *board, block)
                };
                self.put(line);
            }
            let line = self.write(shape, *board, i % shape.blocks);
            self.put(line);
            if self.random.per_mille(60) && self.shape() == Some(*shape) {
                let line = self.good(shape);
                self.put(line);
            }
            if self.shape() != Some(*shape) {
                return;
            }
        }
        let board = self.random.pick(&order);
        // Reads bind the last to the first, whole overwrites the first to the
        // last.
        let end = self.random.pick(&[order[0], order[order.len() - 1]]);
        match self.random.below(6) {
            0 | 1 => self.put_or_cut(format!("X,{board}")),
            2 => self.put_or_cut(format!("X,{end}")),
            3 => {
                let line = self.start(shape, end);
                self.put(line);
                self.commit_scene();
            }
            4 => {
                let line = self.start(shape, board);
                self.put(line);
                self.commit_scene();
            }
            _ => {}
        }
    }

    /// A line that is (nearly always) refused 6.
    fn garbage(&mut self) -> Vec<u8> {
        let shape = self.shape().unwrap_or(Shape {
            boards: 3,
            power: 2,
            blocks: 4,
            context: 2,
        });
        let board = self.random.below(shape.boards);
        let good = match self.random.below(8) {
            0 => self.format(),
            1 => self.read(&shape, board, 0),
            2 => self.write(&shape, board, 0),
            3 => self.start(&shape, board),
            4 => self.acknowledge(&shape, board),
            5 => format!("X,{board}"),
            6 => "U".to_string(),
            _ => format!("Z,{}", self.random.below(12)),
        };
        let mut line = good.clone().into_bytes();
        let at = self.random.below(line.len());
        match self.random.below(22) {
            0 => line.clear(),
            1 => line.insert(at, b' '),
            2 => line.push(b'\r'),
            3 => line.insert(at, 0),
            4 => line.push(b' '),
            5 => line.insert(0, b' '),
            6 => line.push(b','),
            7 => line.insert(at, b','),
            8 => line = good.replacen(',', "", 1).into_bytes(),
            9 => line = good.replacen(',', ",0", 1).into_bytes(),
            10 => line = good.to_lowercase().into_bytes(),
            11 => line.push(b'A'),
            12 => {
                line.pop();
            }
            13 => line[at] = (self.random.below(256) as u8).max(11),
            14 => line[0] = self.random.pick(b"BDEGHIJKLMNOPQSTVYfrwcaxuz?0129#"),
            15 => line = good.replacen(',', ",65536,", 1).into_bytes(),
            16 => {
                let number = self.random.pick(&[
                    "65536", "65537", "70000", "99999", "100000", "007", "+1", "-1", "0x1", "",
                ]);
                let letter = self
                    .random
                    .pick(&["X", "Z", "R,0,0", "R,0", "F,1,1,1", "F"]);
                let rest = if letter == "R,0" {
                    ",1"
                } else if letter == "F" {
                    ",1,1,1"
                } else {
                    ""
                };
                line = format!("{letter},{number}{rest}").into_bytes();
            }
            17 => {
                // 159 to 163 characters, at most 160 of them readable.
                let count = self.random.within(159, 163);
                line = format!("W,{board},0,").into_bytes();
                while line.len() < count {
                    line.push(self.random.pick(b"0123456789ABCDEF"));
                }
            }
            18 => {
                let count = self
                    .random
                    .pick(&[161, 162, 163, 320, 1000, 8191, 8192, 8193, 20_000]);
                line.resize(count, b'0');
            }
            19 => {
                let digit = self.random.pick(b"abcdefGg :/@`");
                line = format!("W,{board},0,0{}", char::from(digit)).into_bytes();
            }
            20 => {
                let count = self.random.below(30);
                line = (0..count)
                    .map(|_| (self.random.below(256) as u8).max(11))
                    .collect();
            }
            _ => line.truncate(at),
        }
        line
    }
}
