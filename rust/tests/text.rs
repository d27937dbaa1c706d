//! Holds the count program to an independent answer: each text is given to the built program on its standard input, and
//! all that it writes is compared.
//!
//! The program is the one that COUNT_TEXT_BIN names, or else target/bin/count_text.

mod common;

use common::draw::Draw;
use common::group::long_run;
use common::notation;
use common::sheets::{self, Absent, Rectangle, Relief, Sheet, GOOD_CODES};
use common::text::{self, Reply};
use std::env;
use std::fs::File;
use std::io::{ErrorKind, Read, Write};
use std::path::{Path, PathBuf};
use std::process::{ChildStdin, Command, Stdio};
use std::sync::atomic::{AtomicU64, Ordering};
use std::sync::{mpsc, Mutex, OnceLock};
use std::thread;
use std::time::{Duration, Instant};

/// How many programs one group of texts runs at a time.
const AT_A_TIME: usize = 2;

/// How long a program may take for one text before it is ended.
const PATIENCE: Duration = Duration::from_secs(20);

/// The length of the longest proper text: 64 by 64 codes of four digits.
const LONGEST: usize = 20_486;

/// How a text comes to the program.
#[derive(Clone, Copy, Debug)]
enum Coming {
    /// In one piece, after which the pipe is closed.
    AtOnce,
    /// In pieces of 1 to so many bytes with a pause after each, also after the last, before the pipe is closed.
    InPieces(usize),
    /// In pieces that end at these two places.
    CutAt(usize, usize),
    /// With bytes after it that have no end: the pipe is never closed while the program runs.
    WithoutEnd,
}

/// What comes after a text: bytes of all kinds, some of which a text can have.
const RUBBISH: &[u8; 17] = b"1 64\n0 255 77\n\0x\r";

fn give(mut pipe: ChildStdin, text: &[u8], coming: Coming, seed: u64) -> std::io::Result<()> {
    let mut piece = |piece: &[u8], pause: u64| {
        pipe.write_all(piece)?;
        pipe.flush()?;
        thread::sleep(Duration::from_millis(pause));
        Ok(())
    };
    match coming {
        Coming::AtOnce => pipe.write_all(text),
        Coming::InPieces(longest) => {
            let mut draw = Draw::new(seed);
            let mut rest = text;
            while !rest.is_empty() {
                let (now, later) = rest.split_at(draw.within(1, longest.min(rest.len())));
                piece(now, 1)?;
                rest = later;
            }
            piece(&[], 20)
        }
        Coming::CutAt(first, second) => {
            piece(&text[..first], 5)?;
            piece(&text[first..second], 5)?;
            piece(&text[second..], 5)
        }
        Coming::WithoutEnd => {
            pipe.write_all(text)?;
            let block = RUBBISH.repeat(1000);
            loop {
                pipe.write_all(&block)?;
            }
        }
    }
}

/// The program's path, or how to get one.
fn program() -> Result<PathBuf, String> {
    let manifest = Path::new(env!("CARGO_MANIFEST_DIR"));
    let path = match env::var_os("COUNT_TEXT_BIN") {
        Some(chosen) if !chosen.is_empty() => manifest.join(chosen),
        _ => manifest.join("../target/bin/count_text"),
    };
    if path.is_file() {
        Ok(path)
    } else {
        Err(format!(
            "{} is missing; build it, in the top folder of the repository, with: tools/build program",
            path.display()
        ))
    }
}

/// Runs the program on a text; all that it writes.
fn run(program: &Path, text: &[u8], coming: Coming, seed: u64) -> Result<Vec<u8>, String> {
    let mut child = Command::new(program)
        .stdin(Stdio::piped())
        .stdout(Stdio::piped())
        .spawn()
        .map_err(|error| format!("{} does not start: {error}", program.display()))?;
    let input = child.stdin.take().expect("its standard input is a pipe");
    let mut output = child.stdout.take().expect("its standard output is a pipe");
    let (tell, told) = mpsc::channel();
    thread::scope(|scope| {
        let giver = scope.spawn(move || give(input, text, coming, seed));
        scope.spawn(move || {
            let mut written = Vec::new();
            let read = output.read_to_end(&mut written);
            // Nobody listens any more when the time is over.
            let _ = tell.send(read.map(|_| written));
        });
        let written = match told.recv_timeout(PATIENCE) {
            Ok(written) => written.map_err(|error| format!("its output cannot be read: {error}")),
            Err(_) => {
                // It may have ended by itself meanwhile.
                let _ = child.kill();
                Err(format!("it has not ended after {PATIENCE:?}"))
            }
        };
        let status = child.wait().map_err(|error| error.to_string())?;
        let given = giver.join().expect("the giver of the text does not panic");
        let written = written?;
        if !status.success() {
            return Err(format!("it ends with {status}"));
        }
        match given {
            // The program need not read on when the answer is clear.
            Err(error) if error.kind() != ErrorKind::BrokenPipe => {
                Err(format!("the text cannot be given: {error}"))
            }
            _ => Ok(written),
        }
    })
}

/// A text to compare.
struct Case {
    /// What it is, for the message when something differs.
    what: String,
    seed: u64,
    text: Vec<u8>,
    coming: Coming,
    /// The replies that it was made for, any one of them; empty where any reply may be right.
    made_for: &'static [Reply],
}

impl Case {
    fn new(what: impl Into<String>, text: impl Into<Vec<u8>>) -> Case {
        Case {
            what: what.into(),
            seed: 0,
            text: text.into(),
            coming: Coming::AtOnce,
            made_for: &[],
        }
    }

    fn seed(self, seed: u64) -> Case {
        Case { seed, ..self }
    }

    fn coming(self, coming: Coming) -> Case {
        Case { coming, ..self }
    }

    fn made_for(self, made_for: &'static [Reply]) -> Case {
        Case { made_for, ..self }
    }

    /// Runs the program and compares; the reply.
    fn compare(&self, program: &Path) -> Result<Reply, String> {
        let expected = text::answer(&self.text);
        let tell = |difference: String| {
            format!(
                "{}, seed {:#x}, {:?}: {difference}\n  {}",
                self.what,
                self.seed,
                self.coming,
                legible("text", &self.text)
            )
        };
        if !self.made_for.is_empty() && !self.made_for.contains(&expected.reply) {
            return Err(tell(format!(
                "made for {:?}, but the independent answer is {:?}",
                self.made_for, expected.reply
            )));
        }
        let found = run(program, &self.text, self.coming, self.seed).map_err(tell)?;
        if found == expected.output.as_bytes() {
            return Ok(expected.reply);
        }
        Err(tell(format!(
            "another output than expected\n  {}\n  {}",
            legible("expected", expected.output.as_bytes()),
            legible("found", &found)
        )))
    }
}

/// Bytes on one line, those in the middle left out where there are many; the seed gives them again.
fn legible(name: &str, bytes: &[u8]) -> String {
    let length = bytes.len();
    if length <= 1200 {
        return format!("{name}, {length} bytes: \"{}\"", bytes.escape_ascii());
    }
    let (first, last) = (&bytes[..600], &bytes[length - 600..]);
    format!(
        "{name}, {length} bytes: \"{}\" ... \"{}\"",
        first.escape_ascii(),
        last.escape_ascii()
    )
}

#[derive(Clone, Copy, Default)]
struct Tally {
    texts: u64,
    replies: [u64; Reply::ALL.len()],
}

impl Tally {
    fn add(&mut self, other: &Tally) {
        self.texts += other.texts;
        for (sum, more) in self.replies.iter_mut().zip(other.replies) {
            *sum += more;
        }
    }
}

/// Compares so many texts, a few at a time.
fn compare_all(texts: u64, make: impl Fn(u64) -> Case + Sync) -> Result<Tally, String> {
    let program = program()?;
    let next = AtomicU64::new(0);
    let whole = Mutex::new(Ok(Tally::default()));
    thread::scope(|scope| {
        for _ in 0..AT_A_TIME {
            scope.spawn(|| loop {
                let number = next.fetch_add(1, Ordering::Relaxed);
                if number >= texts {
                    break;
                }
                let compared = make(number).compare(&program);
                let mut whole = whole.lock().expect("no other thread has panicked");
                match (whole.as_mut(), compared) {
                    (Ok(tally), Ok(reply)) => {
                        tally.texts += 1;
                        tally.replies[reply as usize] += 1;
                    }
                    (Ok(_), Err(difference)) => {
                        *whole = Err(difference);
                        break;
                    }
                    (Err(_), _) => break,
                }
            });
        }
    });
    whole.into_inner().expect("no thread has panicked")
}

fn compare_list(cases: Vec<Case>) -> Result<Tally, String> {
    compare_all(cases.len() as u64, |number| {
        let case = &cases[number as usize];
        Case {
            what: case.what.clone(),
            text: case.text.clone(),
            ..*case
        }
    })
}

/// Texts that are compared once, whichever test asks first, so that a last test can add up what all of them reached.
struct Group {
    name: &'static str,
    work: fn() -> Result<Tally, String>,
    found: OnceLock<Result<Tally, String>>,
}

impl Group {
    const fn new(name: &'static str, work: fn() -> Result<Tally, String>) -> Group {
        Group {
            name,
            work,
            found: OnceLock::new(),
        }
    }

    fn found(&self) -> &Result<Tally, String> {
        self.found.get_or_init(|| {
            let start = Instant::now();
            let tally = (self.work)()?;
            println!(
                "{}: {} texts, {:.1} s",
                self.name,
                tally.texts,
                start.elapsed().as_secs_f64()
            );
            Ok(tally)
        })
    }

    fn passes(&self) {
        if let Err(difference) = self.found() {
            panic!("{}: {difference}", self.name);
        }
    }
}

/// How many texts a group draws: ten times as many in the longer run.
fn many(ordinarily: u64) -> u64 {
    if long_run() {
        10 * ordinarily
    } else {
        ordinarily
    }
}

/// Case H of paper 01.
const H: &str = "3 3\n2 4 8\n1 4 16\n128 4 32\n";

/// Paper 01, "Sheets small enough to work by hand", those that are counted whole: the sheet and the whole output.
const HAND_SHEETS: [(&str, &str, &str); 13] = [
    ("A", "1", "rows 1 cols 1\n1\nland 1 outlets 1 greatest 1\n"),
    (
        "B",
        "255",
        "rows 1 cols 1\n0\nland 0 outlets 0 greatest 0\n",
    ),
    (
        "C",
        "1 1 1",
        "rows 1 cols 3\n1 2 3\nland 3 outlets 1 greatest 3\n",
    ),
    (
        "D",
        "1 255 16",
        "rows 1 cols 3\n1 0 1\nland 2 outlets 2 greatest 1\n",
    ),
    ("E", "1 16", "refused 4 at 0 length 2\n"),
    ("F", "1 1 1 16", "refused 4 at 2 length 2\n"),
    ("G", "1 16 3", "refused 3 at 2\n"),
    (
        "H",
        "2 4 8 / 1 4 16 / 128 4 32",
        "rows 3 cols 3\n1 1 1\n1 8 1\n1 9 1\nland 9 outlets 1 greatest 9\n",
    ),
    (
        "I, H changed",
        "1 4 8 / 1 4 16 / 128 4 32",
        "rows 3 cols 3\n1 2 1\n1 8 1\n1 9 1\nland 9 outlets 1 greatest 9\n",
    ),
    (
        "J, H changed",
        "2 4 8 / 1 64 16 / 128 4 32",
        "refused 4 at 1 length 2\n",
    ),
    (
        "K, H changed",
        "2 4 8 / 1 255 16 / 128 4 32",
        "rows 3 cols 3\n1 1 1\n1 0 1\n1 1 1\nland 8 outlets 8 greatest 1\n",
    ),
    (
        "L whole",
        "4 1 / 1 64",
        "rows 2 cols 2\n1 4\n2 3\nland 4 outlets 1 greatest 4\n",
    ),
    (
        "N whole",
        "2 255 / 255 2",
        "rows 2 cols 2\n1 0\n0 2\nland 2 outlets 1 greatest 2\n",
    ),
];

/// What the program writes for a sheet of one absent cell.
const ONE_ABSENT: &str = "rows 1 cols 1\n0\nland 0 outlets 0 greatest 0\n";

/// Texts judged by hand from paper 01, "The count program", with the whole output.
const HAND_TEXTS: &[(&str, &str)] = &[
    // It stops early.
    ("", "refused 11 at 0\n"),
    ("1", "refused 11 at 1\n"),
    ("1 ", "refused 11 at 2\n"),
    ("1 1", "refused 11 at 3\n"),
    ("1 1\n", "refused 11 at 4\n"),
    ("1 1\n1", "refused 11 at 5\n"),
    ("2 1\n1\n", "refused 11 at 6\n"),
    ("2 1\n1\n1", "refused 11 at 7\n"),
    ("1 2\n1 ", "refused 11 at 6\n"),
    ("1 2\n1 9999", "refused 11 at 10\n"),
    ("64 64", "refused 11 at 5\n"),
    ("64 64\n", "refused 11 at 6\n"),
    // A first line that is malformed, also where its sides would be refused.
    ("\n", "refused 11 at 0\n"),
    (" ", "refused 11 at 0\n"),
    ("\0", "refused 11 at 0\n"),
    ("x", "refused 11 at 0\n"),
    (" 1 1\n1\n", "refused 11 at 0\n"),
    ("\n1 1\n1\n", "refused 11 at 0\n"),
    ("-1 1\n1\n", "refused 11 at 0\n"),
    ("+1 1\n1\n", "refused 11 at 0\n"),
    ("\u{feff}1 1\n1\n", "refused 11 at 0\n"),
    ("1\n", "refused 11 at 1\n"),
    ("1\t1\n1\n", "refused 11 at 1\n"),
    ("1,1\n1\n", "refused 11 at 1\n"),
    ("1  1\n1\n", "refused 11 at 2\n"),
    ("1 \n1\n1\n", "refused 11 at 2\n"),
    ("1 1 \n1\n", "refused 11 at 3\n"),
    ("1 1 1\n1\n", "refused 11 at 3\n"),
    ("1 1\r\n1\r\n", "refused 11 at 3\n"),
    ("1 1\0\n1\n", "refused 11 at 3\n"),
    ("01 1\n1\n", "refused 11 at 1\n"),
    ("03 1\n1\n", "refused 11 at 1\n"),
    ("00 1\n1\n", "refused 11 at 1\n"),
    ("1 01\n1\n", "refused 11 at 3\n"),
    ("1 00\n1\n", "refused 11 at 3\n"),
    ("12345 1\n1\n", "refused 11 at 4\n"),
    ("1 10000\n1\n", "refused 11 at 6\n"),
    ("65537 1\n1\n", "refused 11 at 4\n"),
    ("1 65537\n1\n", "refused 11 at 6\n"),
    ("0", "refused 11 at 1\n"),
    ("0 0", "refused 11 at 3\n"),
    ("65 1", "refused 11 at 4\n"),
    ("65 x", "refused 11 at 3\n"),
    ("65 1 \n", "refused 11 at 4\n"),
    ("65 1\r\n", "refused 11 at 4\n"),
    ("9999 01\n", "refused 11 at 6\n"),
    ("0\n", "refused 11 at 1\n"),
    // Sides outside the bounds, whatever follows.
    ("0 0\n", "refused 1\n"),
    ("0 1\n", "refused 1\n"),
    ("1 0\n", "refused 1\n"),
    ("0 1\n1\n", "refused 1\n"),
    ("1 0\n\n", "refused 1\n"),
    ("65 1\n", "refused 1\n"),
    ("1 65\n", "refused 1\n"),
    ("65 1\nrubbish", "refused 1\n"),
    ("1 65\n\n\n\0", "refused 1\n"),
    ("257 1\n1\n", "refused 1\n"),
    ("1 257\n1\n", "refused 1\n"),
    ("256 256\n", "refused 1\n"),
    ("320 1\n", "refused 1\n"),
    ("4096 4096\n", "refused 1\n"),
    ("9999 9999\n", "refused 1\n"),
    // A malformed row.
    ("1 1\n\n", "refused 11 at 4\n"),
    ("1 1\n 1\n", "refused 11 at 4\n"),
    ("1 1\n1 \n", "refused 11 at 5\n"),
    ("1 1\n1 1\n", "refused 11 at 5\n"),
    ("1 1\n1\r\n", "refused 11 at 5\n"),
    ("1 2\n1\n", "refused 11 at 5\n"),
    ("1 2\n1\t1\n", "refused 11 at 5\n"),
    ("1 2\n1  1\n", "refused 11 at 6\n"),
    ("1 2\n1 1 1\n", "refused 11 at 7\n"),
    ("2 1\n1 1\n", "refused 11 at 5\n"),
    ("2 1\n1\n\n1\n", "refused 11 at 6\n"),
    ("1 1\n03\n", "refused 11 at 5\n"),
    ("1 1\n00\n", "refused 11 at 5\n"),
    ("1 1\n0001\n", "refused 11 at 5\n"),
    ("1 1\n10000\n", "refused 11 at 8\n"),
    ("1 1\n-1\n", "refused 11 at 4\n"),
    // Bytes after the last line, before a bad code and before a loop.
    ("1 1\n1\n\n", "refused 11 at 6\n"),
    ("1 1\n1\n1", "refused 11 at 6\n"),
    ("1 1\n1\n\0", "refused 11 at 6\n"),
    ("1 1\n3\n ", "refused 11 at 6\n"),
    ("1 1\n256\nx", "refused 11 at 8\n"),
    ("1 2\n1 16\n\r", "refused 11 at 9\n"),
    ("2 1\n3\n1 \n", "refused 11 at 7\n"),
    // Bad codes in order of place, those above 255 among them, and before a loop.
    ("1 1\n256\n", "refused 3 at 0\n"),
    ("1 1\n257\n", "refused 3 at 0\n"),
    ("1 1\n511\n", "refused 3 at 0\n"),
    ("1 1\n9999\n", "refused 3 at 0\n"),
    ("1 2\n3 256\n", "refused 3 at 0\n"),
    ("1 2\n257 3\n", "refused 3 at 0\n"),
    ("2 2\n1 16\n1 1025\n", "refused 3 at 3\n"),
    // A loop over two rows, and a code that is 0.
    ("2 1\n4\n64\n", "refused 4 at 0 length 2\n"),
    ("1 1\n0\n", ONE_ABSENT),
    ("1 1\n255\n", ONE_ABSENT),
];

/// All that was worked by hand: what it is, the text and the whole output.
fn worked_by_hand() -> Vec<(String, Vec<u8>, &'static str)> {
    let sheets = HAND_SHEETS.iter().map(|&(name, sheet, output)| {
        let (rows, cols, codes) = notation::read::<usize>(sheet);
        (
            format!("case {name}"),
            text::write(rows, cols, &codes),
            output,
        )
    });
    let texts = HAND_TEXTS.iter().map(|&(text, output)| {
        let what = format!("text worked by hand, right output {output:?}");
        (what, text.as_bytes().to_vec(), output)
    });
    sheets.chain(texts).collect()
}

fn run_worked_by_hand() -> Result<Tally, String> {
    let cases = worked_by_hand()
        .into_iter()
        .map(|(what, text, _)| Case::new(what, text));
    compare_list(cases.collect())
}

/// Bytes that tell readers apart: what a text is made of, what stands beside that, and what other readers pass over.
const TELLING: [u8; 22] = [
    b'0', b'1', b'2', b'6', b'9', b' ', b'\n', b'\r', b'\t', 0, 1, 0x0B, 0x1A, b'+', b'-', b'.',
    b'/', b':', b'x', 0x80, 0xB0, 0xFF,
];

/// Every damage of one byte: another in its place, one too many before it, one left out, one doubled, and the text cut
/// off there.
fn damages(text: &[u8], bytes: &[u8]) -> Vec<(String, Vec<u8>)> {
    let mut damages = Vec::new();
    for place in 0..=text.len() {
        let (before, after) = text.split_at(place);
        damages.push((format!("cut off at {place}"), before.to_vec()));
        for byte in bytes {
            let more = [before, &[*byte], after].concat();
            damages.push((format!("byte {byte} before {place}"), more));
        }
        let Some((first, rest)) = after.split_first() else {
            continue;
        };
        damages.push((format!("without byte {place}"), [before, rest].concat()));
        let doubled = [before, &[*first], after].concat();
        damages.push((format!("byte {place} doubled"), doubled));
        for byte in bytes.iter().filter(|&byte| byte != first) {
            let other = [before, &[*byte], rest].concat();
            damages.push((format!("byte {byte} at {place}"), other));
        }
    }
    damages
}

/// Small proper texts, one of each reply that a proper text can have.
const SMALL_TEXTS: [&str; 7] = [
    "1 1\n1\n",
    "1 1\n9999\n",
    "1 2\n1 16\n",
    "1 2\n3 256\n",
    "2 2\n4 1\n1 64\n",
    "3 3\n0 255 1\n16 257 3\n4 10 2\n",
    H,
];

fn run_one_byte_damage() -> Result<Tally, String> {
    let every_byte: Vec<u8> = (0..=255).collect();
    let bytes = if long_run() {
        &every_byte
    } else {
        &TELLING[..]
    };
    let mut cases = Vec::new();
    for text in SMALL_TEXTS {
        for (what, damaged) in damages(text.as_bytes(), bytes) {
            cases.push(Case::new(what, damaged));
        }
    }
    compare_list(cases)
}

/// Every shape up to 64 by 64: mostly small ones, with the limits more often than chance would give them.
fn any_shape(draw: &mut Draw) -> (usize, usize) {
    let most = draw.pick(&[4, 12, 12, 30, 64]);
    let mut side = || match draw.below(12) {
        0 => 1,
        1 if most == 64 => 64,
        _ => draw.within(1, most),
    };
    (side(), side())
}

fn any_loop_free(draw: &mut Draw, rows: usize, cols: usize) -> Sheet {
    let absent = draw.pick(&[Absent(0), Absent(0), Absent(1), Absent(4), Absent(8)]);
    match draw.below(3) {
        0 => sheets::downhill(draw, rows, cols, absent, Relief::Rough),
        1 => sheets::downhill(draw, rows, cols, absent, Relief::Slope),
        _ => sheets::winding(draw, rows, cols, absent),
    }
}

fn codes(sheet: &Sheet) -> Vec<usize> {
    sheet.grid.iter().map(|&code| code.into()).collect()
}

/// The codes of a sheet, some of them made bad: bytes, and numbers above 255 that would be good as bytes.
fn spoilt(draw: &mut Draw, sheet: &Sheet) -> Vec<usize> {
    let mut codes = codes(sheet);
    for _ in 0..draw.within(1, 4) {
        let good: usize = draw.pick(&GOOD_CODES).into();
        let place = draw.below(codes.len());
        codes[place] = match draw.below(4) {
            0 => draw.pick(&[3, 5, 127, 129, 254]),
            1 => good + 256 * draw.within(1, 38),
            2 => draw.within(256, 9999),
            _ => draw.pick(&[256, 257, 511, 512, 999, 1000, 1024, 4096, 8192, 9999]),
        };
    }
    codes
}

/// A proper text of any shape, with the replies that it was made for.
fn any_proper_text(draw: &mut Draw) -> (Vec<u8>, &'static [Reply]) {
    let (rows, cols) = any_shape(draw);
    let (codes, made_for): (Vec<usize>, &[Reply]) = match draw.below(8) {
        0..=2 => (codes(&any_loop_free(draw, rows, cols)), &[Reply::Done]),
        3 => {
            let sheet = sheets::arbitrary(draw, rows, cols, Absent(8), &GOOD_CODES[..8]);
            (codes(&sheet), &[Reply::Done, Reply::Loop])
        }
        4 => {
            let absent = Absent(draw.below(16));
            let sheet = sheets::arbitrary(draw, rows, cols, absent, &GOOD_CODES);
            (codes(&sheet), &[Reply::Done, Reply::Loop])
        }
        5 => {
            let mut sheet = any_loop_free(draw, rows, cols);
            let mut closed = sheets::close_a_loop(draw, &mut sheet);
            if rows >= 2 && cols >= 2 && draw.one_in(2) {
                let (height, width) = (draw.within(2, rows), draw.within(2, cols));
                let ring = Rectangle {
                    top: draw.within(0, rows - height),
                    left: draw.within(0, cols - width),
                    height,
                    width,
                };
                sheets::lay_a_ring(&mut sheet, ring, draw.one_in(2));
                closed = true;
            }
            // A sheet on which no cell was found that could close a loop is still without one.
            let made_for: &[Reply] = if closed {
                &[Reply::Loop]
            } else {
                &[Reply::Done]
            };
            (codes(&sheet), made_for)
        }
        kind => {
            let sheet = if kind == 6 {
                any_loop_free(draw, rows, cols)
            } else {
                sheets::arbitrary(draw, rows, cols, Absent(2), &GOOD_CODES)
            };
            let codes = spoilt(draw, &sheet);
            (codes, &[Reply::BadByte, Reply::Above255])
        }
    };
    (text::write(rows, cols, &codes), made_for)
}

fn run_proper_texts() -> Result<Tally, String> {
    compare_all(many(2_000), |number| {
        let seed = (0x71 << 40) + number;
        let (text, made_for) = any_proper_text(&mut Draw::new(seed));
        Case::new("proper text", text).seed(seed).made_for(made_for)
    })
}

/// A proper text of any shape, damaged at one or two places.
fn run_damaged_texts() -> Result<Tally, String> {
    compare_all(many(1_500), |number| {
        let seed = (0x72 << 40) + number;
        let mut draw = Draw::new(seed);
        let mut text = any_proper_text(&mut draw).0;
        for _ in 0..draw.within(1, 2) {
            let place = draw.below(text.len());
            let byte = draw.pick(&TELLING);
            match draw.below(6) {
                0 | 1 => text[place] = byte,
                2 => text.insert(place, byte),
                3 => drop(text.remove(place)),
                4 => text.push(byte),
                _ => text.truncate(place + 1),
            }
        }
        Case::new("damaged text", text).seed(seed)
    })
}

/// Every text of up to four of these bytes, by itself and after the first line of a sheet of one cell.
fn run_every_short_text() -> Result<Tally, String> {
    let mut ends = vec![Vec::new()];
    let mut longest: Vec<Vec<u8>> = ends.clone();
    for _ in 0..4 {
        let longer = |end: &Vec<u8>| b"01 \n".map(|byte| [&end[..], &[byte]].concat());
        longest = longest.iter().flat_map(longer).collect();
        ends.extend_from_slice(&longest);
    }
    let mut cases = Vec::new();
    for line in ["", "1 1\n"] {
        for end in &ends {
            cases.push(Case::new("short text", [line.as_bytes(), end].concat()));
        }
    }
    compare_list(cases)
}

/// Bytes at random, also after a first line, and of kinds among which much goes on for a while.
fn run_random_bytes() -> Result<Tally, String> {
    compare_all(many(1_000), |number| {
        let seed = (0x73 << 40) + number;
        let mut draw = Draw::new(seed);
        let small = |draw: &mut Draw| format!("{} {}\n", draw.within(1, 4), draw.within(1, 3));
        let mut text = match draw.below(5) {
            0 | 1 => String::new(),
            2 => format!("{} {}\n", draw.below(70), draw.below(70)),
            _ => small(&mut draw),
        }
        .into_bytes();
        let alphabet: &[u8] = match draw.below(6) {
            0 => b"",
            1 => b"0123456789 \n",
            2 => b"0123456789 \n\r\t",
            3 => b"11 \n",
            4 => b"01  \n\n",
            _ => b"1248 16 32 64 128 255\n\n\n",
        };
        let length = draw.pick(&[3, 8, 20, 60, 400]);
        for _ in 0..draw.below(length) {
            text.push(if alphabet.is_empty() {
                draw.word() as u8
            } else {
                draw.pick(alphabet)
            });
        }
        Case::new("random bytes", text).seed(seed)
    })
}

/// All pairs of some sides, as they are written, each with a body of its shape where it has one and with rubbish.
fn run_sides() -> Result<Tally, String> {
    let sides = [
        "0", "1", "2", "9", "10", "63", "64", "65", "66", "99", "100", "128", "255", "256", "257",
        "320", "999", "1000", "4096", "9999", "10000", "65536", "65537", "00", "01", "064", "0064",
        "",
    ];
    let mut cases = Vec::new();
    for rows in sides {
        for cols in sides {
            let what = format!("sides {rows} and {cols}");
            let line = format!("{rows} {cols}\n");
            let row = vec!["4"; cols.parse().unwrap_or(3).min(66)].join(" ") + "\n";
            let body = row.repeat(rows.parse().unwrap_or(3).min(66));
            cases.push(Case::new(&what, line.clone() + &body));
            cases.push(Case::new(&what, line + "rubbish"));
        }
    }
    compare_list(cases)
}

/// One river of 64 by 64 cells, to the east along the first row, to the west along the second, and so on: the counts
/// that take the most bytes. Or the same led back along the first column: the longest loop.
fn one_river(closed: bool) -> Vec<u8> {
    let code = |row: usize, col: usize| match (row % 2, row, col) {
        (_, 1.., 0) if closed => 64,
        (1, ..=62, 1) if closed => 4,
        (0, _, 63) | (1, _, 0) => 4,
        (0, _, _) => 1,
        _ => 16,
    };
    let codes: Vec<usize> = (0..4096)
        .map(|place| code(place / 64, place % 64))
        .collect();
    text::write(64, 64, &codes)
}

fn run_great_sheets() -> Result<Tally, String> {
    let mut cases = vec![
        Case::new("one river", one_river(false)).made_for(&[Reply::Done]),
        Case::new("one round", one_river(true)).made_for(&[Reply::Loop]),
    ];
    for number in 0..many(20) {
        let seed = (0x77 << 40) + number;
        let mut draw = Draw::new(seed);
        let sheet = sheets::winding(&mut draw, 64, 64, Absent(0));
        let rivers = Case::new("winding rivers", text::write(64, 64, &codes(&sheet)));
        cases.push(rivers.seed(seed).made_for(&[Reply::Done]));
    }
    compare_list(cases)
}

/// 64 by 64 codes of four digits, all of them bad.
fn longest_text() -> Vec<u8> {
    let codes: Vec<usize> = (0..4096).map(|place| 1000 + place * 2).collect();
    text::write(64, 64, &codes)
}

fn run_long_texts() -> Result<Tally, String> {
    let seed = 0x74 << 40;
    let mut draw = Draw::new(seed);
    let longest = longest_text();
    if longest.len() != LONGEST {
        return Err(format!(
            "the longest text has {LONGEST} bytes, not {}",
            longest.len()
        ));
    }
    let mut cases = vec![Case::new("longest text", longest.clone()).made_for(&[Reply::Above255])];
    let mut last_bad = text::write(64, 64, &[4; 4096]);
    last_bad.truncate(last_bad.len() - 2);
    cases.push(
        Case::new(
            "a bad code at the last place",
            [&last_bad[..], b"9999\n"].concat(),
        )
        .made_for(&[Reply::Above255]),
    );

    // Cut off and changed about its end.
    for back in 0..12 {
        let place = LONGEST - 1 - back;
        cases.push(Case::new("longest text cut off", &longest[..place]));
        for byte in TELLING {
            let mut text = longest.clone();
            text[place] = byte;
            cases.push(Case::new(format!("longest text, {byte} at {place}"), text));
        }
    }
    // More after it: a little, much, another such text, and what would be good in a greater sheet.
    for byte in TELLING {
        let text = [&longest[..], &[byte]].concat();
        cases.push(
            Case::new(format!("longest text and {byte}"), text).made_for(&[Reply::AfterLastLine]),
        );
    }
    let rest = &longest[6..];
    for (what, more) in [
        ("another", &longest[..]),
        ("its rows", rest),
        ("two bytes", b"\n\n"),
        ("rubbish", &RUBBISH.repeat(2_000)),
        ("a megabyte of zeros", &vec![0; 1 << 20]),
        ("a megabyte of spaces", &vec![b' '; 1 << 20]),
    ] {
        let text = [&longest[..], more].concat();
        cases.push(Case::new(format!("longest text and {what}"), text));
        let sheet = any_loop_free(&mut draw, 64, 64);
        let text = [&text::write(64, 64, &codes(&sheet)), more].concat();
        cases.push(Case::new(format!("64 by 64 and {what}"), text).seed(seed));
        let text = [H.as_bytes(), more].concat();
        cases.push(Case::new(format!("case H and {what}"), text));
        let text = [b"64 65\n", more].concat();
        cases.push(Case::new(format!("64 65 and {what}"), text).made_for(&[Reply::Shape]));
        let text = [b"0 1\n", more].concat();
        cases.push(Case::new(format!("0 1 and {what}"), text).made_for(&[Reply::Shape]));
        cases.push(Case::new(what, more));
    }
    // Bytes of all kinds to the length of the text that can be read, a little less and a little more.
    for length in LONGEST - 3..LONGEST + 6 {
        for line in ["", "64 64\n", "64 1\n", "65 65\n", "1 1\n0\n", "64 64"] {
            for fill in ["1", "9 ", "\n", "0", "1 255\n", " ", "\0"] {
                let mut text = line.to_string();
                while text.len() < length {
                    text += fill;
                }
                text.truncate(length);
                cases.push(Case::new(format!("{line:?} and {fill:?}"), text));
            }
        }
    }
    // Megabytes after a first line.
    for line in ["65 64\n", "9999 0\n", "1 0\n", "64 64\n", "65 65"] {
        let text = [line.as_bytes(), &RUBBISH.repeat(200_000)].concat();
        cases.push(Case::new(format!("{line:?} and megabytes"), text));
    }
    compare_list(cases)
}

fn run_pieces() -> Result<Tally, String> {
    let seed = 0x75 << 40;
    let mut draw = Draw::new(seed);
    let mut cases = Vec::new();
    // Every cut of small texts, some with a byte too many that comes late.
    for text in [
        H,
        "1 1\n1\nx",
        "1 2\n1 16\n\n",
        "65 1\n1\n",
        "1 1\n257\n",
        "1 1\n1",
    ] {
        for first in 0..=text.len() {
            let second = draw.within(first, text.len());
            cases.push(Case::new("cut text", text).coming(Coming::CutAt(first, second)));
        }
    }
    for number in 0..many(60) {
        let seed = seed + 1 + number;
        let mut draw = Draw::new(seed);
        let mut text = any_proper_text(&mut draw).0;
        if draw.one_in(4) {
            text.push(draw.pick(&TELLING));
        }
        let longest = draw.pick(&[1, 3, 7, 40]).max(text.len() / 30);
        let coming = Coming::InPieces(longest);
        cases.push(Case::new("text in pieces", text).seed(seed).coming(coming));
    }
    // The longest text, its end and what comes after it in pieces of their own.
    let longest = longest_text();
    for (first, second) in [(4_096, 8_192), (20_480, 20_486), (20_485, 20_486)] {
        let coming = Coming::CutAt(first, second);
        cases.push(Case::new("longest text", longest.clone()).coming(coming));
        let text = [&longest[..], b"\n"].concat();
        cases.push(Case::new("longest text and a newline", text).coming(coming));
    }
    compare_list(cases)
}

/// A text whose answer is clear is answered also if more comes after it for ever.
fn run_without_end() -> Result<Tally, String> {
    let longest = longest_text();
    let cases = [
        ("65 1\n".as_bytes(), &[Reply::Shape]),
        (b"1 0\n", &[Reply::Shape]),
        (&[&longest[..], b"1"].concat(), &[Reply::AfterLastLine]),
        (b"x", &[Reply::InFirstLine]),
        (b"64 64\n1 1\n", &[Reply::InRows]),
        (&[H.as_bytes(), b"\n"].concat(), &[Reply::AfterLastLine]),
    ]
    .map(|(text, made_for)| {
        Case::new("input without end", text)
            .coming(Coming::WithoutEnd)
            .made_for(made_for)
    });
    compare_list(cases.into())
}

static WORKED_BY_HAND: Group = Group::new("texts worked by hand", run_worked_by_hand);
static ONE_BYTE_DAMAGE: Group = Group::new("one-byte damage", run_one_byte_damage);
static PROPER: Group = Group::new("proper texts", run_proper_texts);
static DAMAGED: Group = Group::new("damaged texts", run_damaged_texts);
static RANDOM_BYTES: Group = Group::new("random bytes", run_random_bytes);
static EVERY_SHORT: Group = Group::new("every short text", run_every_short_text);
static GREAT: Group = Group::new("great sheets", run_great_sheets);
static SIDES: Group = Group::new("sides", run_sides);
static LONG: Group = Group::new("long texts", run_long_texts);
static PIECES: Group = Group::new("texts in pieces", run_pieces);
static WITHOUT_END: Group = Group::new("input without end", run_without_end);

#[test]
fn texts_worked_by_hand() {
    WORKED_BY_HAND.passes();
}

#[test]
fn one_byte_damage() {
    ONE_BYTE_DAMAGE.passes();
}

#[test]
fn proper_texts() {
    PROPER.passes();
}

#[test]
fn damaged_texts() {
    DAMAGED.passes();
}

#[test]
fn random_bytes() {
    RANDOM_BYTES.passes();
}

#[test]
fn every_short_text() {
    EVERY_SHORT.passes();
}

#[test]
fn great_sheets() {
    GREAT.passes();
}

#[test]
fn sides() {
    SIDES.passes();
}

#[test]
fn long_texts() {
    LONG.passes();
}

#[test]
fn texts_in_pieces() {
    PIECES.passes();
}

#[test]
fn input_without_end() {
    WITHOUT_END.passes();
}

/// Runs the program with this input and output, and gives what it wrote to its output, where that is a pipe, and to
/// standard error.
fn run_with(input: File, output: Stdio) -> (String, String) {
    let program = program().unwrap_or_else(|missing| panic!("{missing}"));
    let done = Command::new(program)
        .stdin(input)
        .stdout(output)
        .stderr(Stdio::piped())
        .spawn()
        .and_then(|child| child.wait_with_output())
        .expect("the program runs");
    let text = |bytes| String::from_utf8(bytes).expect("it writes text");
    (text(done.stdout), text(done.stderr))
}

#[test]
fn a_read_that_fails_is_not_the_end_of_a_text() {
    // A folder can be opened, and every read of it fails.
    let folder = File::open(env!("CARGO_MANIFEST_DIR")).expect("the folder is there");
    let (output, error) = run_with(folder, Stdio::piped());
    assert_eq!(output, "");
    assert_eq!(
        error,
        "count_text: standard input cannot be read; nothing is answered\n"
    );
}

#[test]
fn an_answer_that_is_lost_is_told() {
    let sheet = Path::new(env!("CARGO_MANIFEST_DIR")).join("../examples/sheet_h.txt");
    let full = File::options()
        .write(true)
        .open("/dev/full")
        .expect("there is a device that is always full");
    let (_, error) = run_with(File::open(sheet).expect("the sheet"), full.into());
    assert_eq!(
        error,
        "count_text: the answer was not written, or not all of it\n"
    );
}

#[test]
fn every_reply_is_reached() {
    let groups = [
        &WORKED_BY_HAND,
        &ONE_BYTE_DAMAGE,
        &PROPER,
        &DAMAGED,
        &RANDOM_BYTES,
        &EVERY_SHORT,
        &GREAT,
        &SIDES,
        &LONG,
        &PIECES,
        &WITHOUT_END,
    ];
    let mut whole = Tally::default();
    for group in groups {
        match group.found() {
            Ok(tally) => whole.add(tally),
            Err(_) => panic!("no whole tally, as this group fails: {}", group.name),
        }
    }
    println!("count program: {} texts compared", whole.texts);
    for reply in Reply::ALL {
        let (name, times) = (reply.name(), whole.replies[reply as usize]);
        println!("count program: reply {name} {times} times");
        assert!(times > 0, "reply {name} was not reached");
    }
}

/// The independent answer is itself held to what was worked by hand, and to what is known of the greatest sheets.
#[test]
fn the_independent_answer_is_right_by_hand() {
    let round = text::answer(&one_river(true)).output;
    assert_eq!(round, "refused 4 at 0 length 4096\n");
    let river = text::answer(&one_river(false)).output;
    assert!(river.ends_with("\nland 4096 outlets 1 greatest 4096\n"));
    for (what, text, output) in worked_by_hand() {
        let found = text::answer(&text).output;
        assert_eq!(found, output, "{what}, {}", legible("text", &text));
    }
}

/// A beginning that can go on is led to a proper text, or to sides outside the bounds, byte by byte; its length then.
fn led_on(beginning: &[u8]) -> Option<usize> {
    let mut text = beginning.to_vec();
    loop {
        let refused = text::sides(&text).is_some_and(|(rows, cols)| {
            let outside = |side| !(1..=64).contains(&side);
            outside(rows) || outside(cols)
        });
        if refused || text::proper(&text).is_some() {
            return Some(text.len());
        }
        let next = b"\n 1".iter().find(|&&byte| {
            text.push(byte);
            let can = text::can_go_on(&text);
            text.pop();
            can
        })?;
        text.push(*next);
    }
}

/// The place of reply 11 rests on what a proper text can begin with: that is so for all that one does begin with, and
/// what can go on does come to a proper text. No halving of lengths is used here.
#[test]
fn the_independent_beginnings_are_right() {
    for number in 0..many(100) {
        let seed = (0x76 << 40) + number;
        let text = any_proper_text(&mut Draw::new(seed)).0;
        let first = text.len().saturating_sub(400);
        for length in (0..text.len().min(400)).chain(first..=text.len()) {
            assert!(text::can_go_on(&text[..length]), "{length}, seed {seed:#x}");
        }
    }
    for text in SMALL_TEXTS {
        for (what, damaged) in damages(text.as_bytes(), &TELLING) {
            let mut longest = 0;
            for length in 0..=damaged.len() {
                let beginning = &damaged[..length];
                let tell = || format!("{what}, {}", legible("beginning", beginning));
                if text::can_go_on(beginning) {
                    assert!(led_on(beginning).is_some(), "{}", tell());
                    assert_eq!(longest, length.saturating_sub(1), "{}", tell());
                    longest = length;
                }
            }
            assert_eq!(text::longest_beginning(&damaged), longest, "{what}");
        }
    }
}
