//! `fuzz RSMRUN RSMPAGE RSMORDER COUNT SEED` compares the programs with the
//! model on generated files and runs the ledger check, the forecast check, the
//! port check, the page check, the straddling check and the order check on
//! each. Half of the files go through a pipe, in random pieces. The script
//! `tests/fuzz` calls it.
use model::{check, forecast_check, generate, order, order_check, page, page_check, pieces};
use model::{page::MOST_COMMITS, player, port_check, random::Random, straddle_check};
use std::fs::{self, File};
use std::io::{self, Read, Write};
use std::path::Path;
use std::process::{ChildStdin, Command, ExitCode, Stdio};
use std::sync::mpsc;
use std::time::Duration;
use std::{env, thread};

/// No file may take the program longer.
const PATIENCE: Duration = Duration::from_secs(30);

fn main() -> ExitCode {
    let arguments: Vec<String> = env::args().skip(1).collect();
    let (programs, count, seed): ([&str; 3], u64, u64) = match &arguments[..] {
        [rsmrun, rsmpage, rsmorder, count, seed] => match (count.parse(), seed.parse()) {
            (Ok(count), Ok(seed)) if count > 0 => ([rsmrun, rsmpage, rsmorder], count, seed),
            _ => return usage(),
        },
        _ => return usage(),
    };
    let folder = env::temp_dir().join(format!("rsm_fuzz_{}", std::process::id()));
    match compare(programs, count, seed, &folder) {
        Ok(Played {
            lines,
            commits,
            cut,
        }) => {
            let _ = fs::remove_dir_all(&folder);
            println!(
                "{count} files, {lines} lines, {commits} commits, {cut} of them cut: no difference"
            );
            ExitCode::SUCCESS
        }
        Err(difference) => {
            println!("{difference}");
            ExitCode::FAILURE
        }
    }
}

fn usage() -> ExitCode {
    eprintln!("use: fuzz RSMRUN RSMPAGE RSMORDER COUNT SEED, COUNT from 1");
    ExitCode::from(2)
}

/// What was played: lines, and the commits of the pages.
struct Played {
    lines: u64,
    commits: u32,
    cut: u32,
}

/// What was played, or the first difference.
fn compare(programs: [&str; 3], count: u64, seed: u64, folder: &Path) -> Result<Played, String> {
    let failed = |error: io::Error| format!("{}: {error}", folder.display());
    fs::create_dir_all(folder).map_err(failed)?;
    let mut lines = 0;
    let mut forecasts_reached = forecast_check::reached();
    let mut ports_reached = port_check::reached();
    let mut pages_reached = page_check::reached();
    let mut straddles_reached = straddle_check::reached();
    let mut orders_reached = order_check::reached();
    for i in 0..count {
        let file_seed = seed.wrapping_mul(1_000_003).wrapping_add(i);
        let events = match i {
            // Once: more lines than the program may play, the last one cut.
            0 => too_many_lines(),
            // As many commits as a page has, and more: by a pipe and not.
            1 => many_commits(MOST_COMMITS),
            2 | 3 => many_commits(MOST_COMMITS + 1),
            // The last line that is played makes the last link.
            4 => last_link(),
            _ => generate::file(file_seed),
        };
        let pieces = match i % 2 {
            0 => None,
            _ => Some(pieces::choose(&mut Random::new(file_seed), events.len())),
        };
        let answers = player::answers(&events);
        let page = page::page(&events);
        let order = order::order(&events);
        let ledger = check::file(&events);
        let forecasts = forecast_check::file(&events, file_seed, &mut forecasts_reached);
        let ports = port_check::file(&events, file_seed, &mut ports_reached);
        let pages = page_check::file(&events, file_seed, &mut pages_reached);
        let straddles = straddle_check::file(&events, file_seed, &mut straddles_reached);
        let orders = order_check::file(&events, file_seed, &mut orders_reached);
        let keep = |name: &str, bytes: &[u8]| fs::write(folder.join(name), bytes).map_err(failed);
        let (given, lengths) = match &pieces {
            None => ("", String::new()),
            Some(pieces) => (" given in pieces,", format!("{pieces:?}\n")),
        };
        let kept = format!("file {i},{given} kept in {}", folder.display());
        keep("file.events", &events)?;
        keep("file.pieces", lengths.as_bytes())?;
        let kinds = [Kind::Answers, Kind::Page, Kind::Order];
        let expected = [&answers, &page, &order];
        for ((program, kind), expected) in programs.iter().zip(kinds).zip(expected) {
            let input = match &pieces {
                None => Input::File(&folder.join("file.events")),
                Some(pieces) => Input::Pipe(events.clone(), pieces.clone()),
            };
            let got = output_of(program, input);
            let got = got.map_err(|what| format!("{kept}\n{program} {what}"))?;
            if got != *expected {
                keep("file.expected", expected)?;
                keep("file.got", &got)?;
                let difference = first_difference(&events, &answers, kind, expected, &got);
                return Err(format!("{kept}\n{program} differs\n{difference}"));
            }
        }
        lines += u64::from(ledger.map_err(|what| format!("{kept}\nledger: {what}"))?);
        forecasts.map_err(|what| format!("{kept}\nforecasts: {what}"))?;
        ports.map_err(|what| format!("{kept}\nports: {what}"))?;
        pages.map_err(|what| format!("{kept}\npages: {what}"))?;
        straddles.map_err(|what| format!("{kept}\nstraddling: {what}"))?;
        orders.map_err(|what| format!("{kept}\norders: {what}"))?;
    }
    // So many files reach every situation of these two checks.
    for (name, reached) in [
        ("straddling", straddles_reached),
        ("orders", orders_reached),
    ] {
        let never = reached.counts().find(|(_, count)| *count == 0);
        if let (Some((situation, _)), 1000..) = (never, count) {
            return Err(format!("{name}: never reached: {situation}"));
        }
    }
    let reached = |names: &[&str]| {
        let counts = pages_reached.counts();
        let named = counts.filter(|(name, _)| names.contains(name));
        named.map(|(_, count)| count).sum()
    };
    Ok(Played {
        lines,
        commits: reached(&["decided: a start", "decided: an acknowledgement"]),
        cut: reached(&["decided and cut"]),
    })
}

/// 100,001 lines; the fault, line 99,999, is cut.
fn too_many_lines() -> Vec<u8> {
    let mut events = b"F,2,1,2,1\nW,0,0,07\n".to_vec();
    events.extend(b"U\nW,0,1,01\n".repeat(49_996));
    events.extend(b"U\nW,0,1,05\nC,1,06\nZ,1\nX,0\nC,0,07\nR,0,0,1\n");
    events
}

/// 100,000 lines; the last one would drop the link of line 99,999.
fn last_link() -> Vec<u8> {
    let mut events = b"F,2,1,1,0\n".to_vec();
    events.extend(b"\n".repeat(99_996));
    events.extend(b"W,1,0,01\nR,0,0,1\nX,1\n");
    events
}

/// So many commits, one in five cut, and lines after them.
fn many_commits(count: usize) -> Vec<u8> {
    let mut events = b"F,3,2,2,1\n".to_vec();
    for i in 0..count {
        events.extend_from_slice(match i % 5 {
            0 => b"W,1,0,01\nZ,4\nC,1,A1\n".as_slice(),
            1 => b"W,0,2,02\nR,2,2,1\nC,2,A2\nA,0,A0\n",
            _ => b"C,0,A0\n",
        });
    }
    events.extend_from_slice(b"W,0,0,07\nR,1,0,1\nF,1,1,1,0\nU\n");
    events
}

/// What the program's standard input is.
enum Input<'a> {
    File(&'a Path),
    /// The bytes, and the lengths of the pieces in which they are written.
    Pipe(Vec<u8>, Vec<usize>),
}

/// Plays a file by the program. Its input is written and its output read in
/// threads, so that a program that does not end can be given up.
fn output_of(program: &str, input: Input) -> Result<Vec<u8>, String> {
    let failed = |error: io::Error| error.to_string();
    let stdin = match input {
        Input::File(name) => Stdio::from(File::open(name).map_err(failed)?),
        Input::Pipe(..) => Stdio::piped(),
    };
    let mut child = Command::new(program)
        .stdin(stdin)
        .stdout(Stdio::piped())
        .spawn()
        .map_err(failed)?;
    if let (Input::Pipe(bytes, pieces), Some(pipe)) = (input, child.stdin.take()) {
        let number = child.id();
        thread::spawn(move || feed(pipe, &bytes, &pieces, number));
    }
    let mut output = child.stdout.take().ok_or("has no output")?;
    let (sender, receiver) = mpsc::channel();
    thread::spawn(move || {
        let mut bytes = Vec::new();
        let result = output.read_to_end(&mut bytes).map(|_| bytes);
        let _ = sender.send(result);
    });
    let Ok(result) = receiver.recv_timeout(PATIENCE) else {
        child.kill().map_err(failed)?;
        child.wait().map_err(failed)?;
        return Err(format!("did not end within {PATIENCE:?}"));
    };
    let status = child.wait().map_err(failed)?;
    if !status.success() {
        return Err(format!("ended with {status}"));
    }
    result.map_err(failed)
}

/// Writes the bytes piece by piece and closes the pipe. A program that reads
/// no more is no error here: its answers tell.
fn feed(mut pipe: ChildStdin, bytes: &[u8], pieces: &[usize], reader: u32) {
    let mut rest = bytes;
    for length in pieces {
        let (piece, after) = rest.split_at(*length);
        if pipe.write_all(piece).is_err() {
            return;
        }
        until_asleep(reader);
        rest = after;
    }
}

/// Waits, but not for long, until the process sleeps: then it has read what
/// was written and its next read ends with the next piece. Where the system
/// does not tell (in /proc), a read may take several pieces at once.
fn until_asleep(process: u32) {
    let name = format!("/proc/{process}/stat");
    for _ in 0..1000 {
        // The state is the letter after the name in parentheses.
        match fs::read_to_string(&name) {
            Ok(text) if !text.contains(") S ") => thread::yield_now(),
            _ => return,
        }
    }
}

/// What a program prints.
#[derive(Clone, Copy)]
enum Kind {
    Answers,
    Page,
    Order,
}

/// The first lines that differ and the event line that they belong to.
fn first_difference(
    events: &[u8],
    answers: &[u8],
    kind: Kind,
    expected: &[u8],
    got: &[u8],
) -> String {
    let mut expected_lines = expected.split_inclusive(|byte| *byte == b'\n');
    let mut got_lines = got.split_inclusive(|byte| *byte == b'\n');
    for place in 0.. {
        let (expected, got) = (expected_lines.next(), got_lines.next());
        if expected == got && expected.is_some() {
            continue;
        }
        let answer = match kind {
            Kind::Answers => expected.or(got),
            Kind::Page => decisions(answers).nth(place),
            Kind::Order => None,
        };
        let event = match answer.and_then(line_number) {
            None => "no event line".into(),
            Some(number) => {
                let mut lines = events.split(|byte| *byte == b'\n');
                let line = lines.nth(number.max(1) - 1).unwrap_or(&[]);
                format!("line {number}: {}", line.escape_ascii())
            }
        };
        let show = |line: Option<&[u8]>| {
            line.map_or("(nothing)".into(), |line| line.escape_ascii().to_string())
        };
        return format!(
            "{event}\nexpected {}\ngot      {}",
            show(expected),
            show(got)
        );
    }
    String::new()
}

/// The answers that say "decided", in which the page's lines have their order.
fn decisions(answers: &[u8]) -> impl Iterator<Item = &[u8]> {
    let lines = answers.split(|byte| *byte == b'\n');
    lines.filter(|line| line.split(|byte| *byte == b',').nth(3) == Some(b"1"))
}

fn line_number(answer: &[u8]) -> Option<usize> {
    let digits = answer.split(|byte| *byte == b',').next()?;
    std::str::from_utf8(digits).ok()?.parse().ok()
}
