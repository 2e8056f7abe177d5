//! The program `cases` of the gate: plays a file of requests on the module
//! and prints each with its answer. What a request looks like stands at the
//! head of crates/cases/src/main.rt; what is answered is document 01's, with
//! Req 01, 02, 03, 06 and 07 of document 02.

use crate::forecast::{self, Forecast};
use crate::lines;
use crate::module::{self, Answer, Record, Requester, CUT, DONE, UNCUT};
use crate::order;
use std::fmt::Write;

/// The bytes that stand ready; the image lent is the first part of them.
const ROOM: usize = 36_000;
/// The length of the longest answer buffer, and what it is filled with.
const BUFFER: usize = 80;
const FILL: u8 = 238;
/// What every mask lent for an order holds.
const MASK: u16 = 0xEEEE;
/// The board's place among the numbers.
const BOARD: usize = 1;

/// A letter and six numbers, 0 where the line has fewer, parted by commas. A
/// number is one of event lines. In an access the word `port` may stand for
/// the board, the second number.
struct Request {
    letter: u8,
    numbers: [usize; 6],
    port: bool,
}

impl Request {
    fn of(line: &str) -> Option<Request> {
        let mut fields = line.split(',');
        let &[letter] = fields.next()?.as_bytes() else {
            return None;
        };
        let mut numbers = [0; 6];
        let mut port = false;
        for (i, field) in fields.enumerate() {
            if field == "port" && i == BOARD && b"RWw".contains(&letter) {
                port = true;
                continue;
            }
            let number = lines::number(field.as_bytes())?;
            *numbers.get_mut(i)? = number.into();
        }
        Some(Request {
            letter,
            numbers,
            port,
        })
    }

    /// Who makes the access.
    fn requester(&self) -> Requester {
        if self.port {
            Requester::Port
        } else {
            Requester::Board(self.numbers[BOARD])
        }
    }
}

/// The printed lines, or what is wrong with the requests.
pub fn answers(requests: &str) -> Result<String, String> {
    let mut bench = Bench {
        area: vec![0; ROOM],
        remembered: vec![0; ROOM],
        length: 0,
        record: Record::off(),
        show_images: false,
        out: String::new(),
    };
    for (i, line) in requests.split_terminator('\n').enumerate() {
        bench.out += line;
        if !line.is_empty() && !line.starts_with('#') {
            let played = Request::of(line).and_then(|request| bench.play(&request));
            played.ok_or_else(|| format!("line {}: no request: {line}", i + 1))?;
        }
        bench.out += "\n";
    }
    Ok(bench.out)
}

/// What stands between two requests, and what was printed.
struct Bench {
    area: Vec<u8>,
    remembered: Vec<u8>,
    /// The length of the image that is lent.
    length: usize,
    record: Record,
    /// Whether the lines of a call cut at every k show the image.
    show_images: bool,
    out: String,
}

impl Bench {
    fn lent(&self) -> usize {
        self.length.min(ROOM)
    }

    fn image(&self) -> &[u8] {
        &self.area[..self.lent()]
    }

    /// Prints what follows the request; None where its letter is none.
    fn play(&mut self, request: &Request) -> Option<()> {
        let [first, second, .., last] = request.numbers;
        match request.letter {
            b'F' | b'f' => self.length = last,
            b'L' => self.length = first,
            _ => {}
        }
        match request.letter {
            b'F' | b'R' | b'W' | b'C' | b'A' | b'X' | b'U' => self.call(request),
            b'f' | b'w' | b'c' | b'a' | b'x' => self.every_cut(request),
            b'K' => {
                let (code, part) = match module::context(self.image(), second) {
                    Ok(part) => (DONE, hex(part)),
                    Err(code) => (code, String::new()),
                };
                self.put(format_args!(" : {code} {part}"));
            }
            b'S' => {
                let other = &self.remembered[..self.lent()];
                let (code, same) = match module::same(self.image(), other) {
                    Ok(same) => (DONE, u8::from(same)),
                    Err(code) => (code, 0),
                };
                self.put(format_args!(" : {code} {same}"));
            }
            b'E' => self.put_forecast(forecast::commit(self.image(), &self.record, second)),
            b'G' => self.put_forecast(forecast::fault(self.image(), &self.record, second)),
            b'O' => {
                let mut masks = [MASK; 16];
                let taken = order::take(self.image(), &self.record, &mut masks);
                self.put(format_args!(" : {} {}", taken.code, taken.count));
                for mask in masks {
                    self.put(format_args!(" {mask:04x}"));
                }
            }
            b'D' => {
                let image = hex(self.image());
                self.put(format_args!(" : {image}"));
            }
            b'M' => self.remembered = self.area.clone(),
            b'I' => self.show_images = first == 1,
            b'P' => *self.area.get_mut(first)? = second as u8,
            b'Q' => self.change_record(first, second as u16)?,
            b'L' => {}
            _ => return None,
        }
        Some(())
    }

    fn put(&mut self, text: std::fmt::Arguments) {
        self.out.write_fmt(text).expect("memory can be written");
    }

    /// Status, decided, group, stores.
    fn put_answer(&mut self, answer: &Answer) {
        self.put(format_args!(
            " : {} {} {:04x} {}",
            answer.code,
            u8::from(answer.decided),
            answer.group,
            answer.stores
        ));
    }

    /// Status, group, stores.
    fn put_forecast(&mut self, forecast: Forecast) {
        self.put(format_args!(
            " : {} {:04x} {}",
            forecast.code, forecast.group, forecast.stores
        ));
    }

    /// A call, its answer, and what changed.
    fn call(&mut self, request: &Request) {
        let lent = self.lent();
        let before = self.area.clone();
        let mut buffer = [FILL; BUFFER];
        let k = request.numbers[0] as u32;
        let image = &mut self.area[..lent];
        let (answer, next) = call(image, self.record, request, k, &mut buffer);
        self.put_answer(&answer);
        let image = if self.area == before {
            "same"
        } else {
            "changed"
        };
        let record = if next == self.record {
            "same"
        } else if next.on {
            "changed"
        } else {
            "off"
        };
        self.record = next;
        let buffer = told_buffer(&buffer, request.numbers[3]);
        self.put(format_args!(
            " image {image}, record {record}, buffer {buffer}"
        ));
    }

    /// The call cut at 0, 1, .. until it is not cut, each powered up. Image
    /// and record stay as they were.
    fn every_cut(&mut self, request: &Request) {
        let record = self.record;
        let before = self.image().to_vec();
        let cut_at = |k| {
            let mut image = before.clone();
            let (answer, _) = call(&mut image, record, request, k, &mut []);
            (answer, image)
        };
        let (_, mut after) = cut_at(UNCUT);
        module::power_up(&mut after, UNCUT);
        for k in 0.. {
            let (answer, image) = cut_at(k);
            let tally = Tally::of(&image, &before, &after);
            self.out += "\n";
            self.put_answer(&answer);
            self.put(format_args!(
                ", powered up: before {}, after {}, neither {}",
                tally.before, tally.after, tally.neither
            ));
            if self.show_images {
                self.put(format_args!(", image {}", hex(&image)));
            }
            if answer.code != CUT {
                return;
            }
        }
    }

    /// 0 to 15: that row; 16 on, 17 starter (a byte), 18 members, 19
    /// acknowledged.
    fn change_record(&mut self, place: usize, number: u16) -> Option<()> {
        let record = &mut self.record;
        match place {
            16 => record.on = number == 1,
            17 => record.starter = number & 0xFF,
            18 => record.members = number,
            19 => record.acknowledged = number,
            _ => *record.rows.get_mut(place)? = number,
        }
        Some(())
    }
}

/// The call that a letter, capital or small, asks for. The bytes of a read go
/// into the buffer.
fn call(
    image: &mut [u8],
    record: Record,
    request: &Request,
    k: u32,
    buffer: &mut [u8],
) -> (Answer, Record) {
    let [_, a, b, c, d, _] = request.numbers;
    let by = request.requester();
    match request.letter.to_ascii_uppercase() {
        b'F' => module::format(image, record, [a, b, c, d], k),
        b'W' => module::write(image, record, by, b, &run(d, c), k),
        b'C' => module::start(image, record, a, &run(c, b), k),
        b'A' => module::acknowledge(image, record, a, &run(c, b), k),
        b'X' => module::fault(image, record, a, k),
        b'U' => module::power_up(image, k),
        _ => {
            let room = d.min(buffer.len());
            module::read(image, record, by, b, c, &mut buffer[..room])
        }
    }
}

/// The bytes first, first + 1, .., so many of them or up to 255.
fn run(first: usize, count: usize) -> Vec<u8> {
    (first..256).take(count).map(|byte| byte as u8).collect()
}

fn hex(bytes: &[u8]) -> String {
    bytes.iter().map(|byte| format!("{byte:02x}")).collect()
}

/// The first n bytes, and whether all others are as they were.
fn told_buffer(buffer: &[u8], n: usize) -> String {
    let untouched = |part: &[u8]| part.iter().all(|byte| *byte == FILL);
    let (read, rest) = buffer.split_at(n.min(buffer.len()));
    if untouched(buffer) {
        "same".into()
    } else if untouched(rest) {
        format!("{} and the rest same", hex(read))
    } else {
        format!("{} and the rest changed", hex(read))
    }
}

/// How often the image came out like the one before the call, like the one
/// after it, or like neither.
#[derive(Default)]
struct Tally {
    before: u32,
    after: u32,
    neither: u32,
}

impl Tally {
    /// Power-ups of the image cut at 0, 1, .. and made again, until one is
    /// not cut. One that is refused leaves the image like neither.
    fn of(cut: &[u8], before: &[u8], after: &[u8]) -> Tally {
        let mut tally = Tally::default();
        for k in 0.. {
            let mut image = cut.to_vec();
            let (answer, _) = module::power_up(&mut image, k);
            if answer.code == CUT {
                module::power_up(&mut image, UNCUT);
            }
            if recovered(&mut image, before) {
                tally.before += 1;
            } else if recovered(&mut image, after) {
                tally.after += 1;
            } else {
                tally.neither += 1;
            }
            if answer.code != CUT {
                break;
            }
        }
        tally
    }
}

/// Whether the image has the recovery state of the other, nothing is left to
/// recover, and its current bank is its recovery bank.
fn recovered(image: &mut [u8], other: &[u8]) -> bool {
    let (again, _) = module::power_up(image, 0);
    let Some(shape) = module::header(image, 0) else {
        return false;
    };
    let bank = |at: usize| &image[at..at + shape.cells()];
    again.code == DONE
        && module::same(image, other) == Ok(true)
        && bank(shape.current()) == bank(shape.recovery())
}
