//! An independent answer of the count program, written from paper 01, "The count program", alone: a text is split into
//! lines and a line into numbers, and the place of reply 11 is found by asking how a proper text can begin.

use super::independent;

/// The replies of the program, those that have several causes by cause.
#[derive(Clone, Copy, Debug, PartialEq)]
pub enum Reply {
    Done,
    Shape,
    BadByte,
    Above255,
    Loop,
    InFirstLine,
    InRows,
    AfterLastLine,
    StopsEarly,
}

impl Reply {
    pub const ALL: [Reply; 9] = [
        Reply::Done,
        Reply::Shape,
        Reply::BadByte,
        Reply::Above255,
        Reply::Loop,
        Reply::InFirstLine,
        Reply::InRows,
        Reply::AfterLastLine,
        Reply::StopsEarly,
    ];

    /// Its number in the paper, with its name.
    pub fn name(self) -> &'static str {
        match self {
            Reply::Done => "0 done",
            Reply::Shape => "1 shape",
            Reply::BadByte => "3 code, up to 255",
            Reply::Above255 => "3 code, above 255",
            Reply::Loop => "4 loop",
            Reply::InFirstLine => "11 text, in the first line",
            Reply::InRows => "11 text, in a row",
            Reply::AfterLastLine => "11 text, after the last line",
            Reply::StopsEarly => "11 text, stopping early",
        }
    }
}

pub struct Answer {
    pub reply: Reply,
    /// All that the program writes.
    pub output: String,
}

/// "A number has 1 to 4 digits, no needless leading zero": it is at most 9999 and reads as it would be written.
fn number(digits: &[u8]) -> Option<usize> {
    let number: usize = std::str::from_utf8(digits).ok()?.parse().ok()?;
    (number <= 9999 && number.to_string().as_bytes() == digits).then_some(number)
}

/// The numbers of a line without its newline, if there are so many, with one space between them and nothing else.
fn numbers(line: &[u8], many: usize) -> Option<Vec<usize>> {
    let numbers: Option<Vec<usize>> = line.split(|&byte| byte == b' ').map(number).collect();
    numbers.filter(|numbers| numbers.len() == many)
}

/// Whether a line of so many numbers can begin like this. What a number begins with is nothing or itself a number.
fn begins_line(begin: &[u8], many: usize) -> bool {
    let pieces: Vec<&[u8]> = begin.split(|&byte| byte == b' ').collect();
    let (last, before) = pieces.split_last().expect("a split has a piece");
    pieces.len() <= many
        && before.iter().all(|piece| number(piece).is_some())
        && (last.is_empty() || number(last).is_some())
}

/// What stands before each newline, and what stands after the last of them.
fn lines(text: &[u8]) -> (Vec<&[u8]>, &[u8]) {
    let mut lines: Vec<&[u8]> = text.split(|&byte| byte == b'\n').collect();
    let rest = lines.pop().expect("a split has a piece");
    (lines, rest)
}

/// The sides, if the first line is there with its newline and is proper.
pub fn sides(text: &[u8]) -> Option<(usize, usize)> {
    let end = text.iter().position(|&byte| byte == b'\n')?;
    let sides = numbers(&text[..end], 2)?;
    Some((sides[0], sides[1]))
}

fn within_bounds((rows, cols): (usize, usize)) -> bool {
    (1..=64).contains(&rows) && (1..=64).contains(&cols)
}

/// The shape and the codes of a proper text: its first line with sides within bounds, and one line per row.
pub fn proper(text: &[u8]) -> Option<(usize, usize, Vec<usize>)> {
    let (rows, cols) = sides(text).filter(|&sides| within_bounds(sides))?;
    let (lines, rest) = lines(text);
    if lines.len() != 1 + rows || !rest.is_empty() {
        return None;
    }
    let mut codes = Vec::with_capacity(rows * cols);
    for line in &lines[1..] {
        codes.extend(numbers(line, cols)?);
    }
    Some((rows, cols, codes))
}

/// Whether the text is the beginning of a proper one. After a first line with sides outside the bounds anything may
/// follow, as the answer has been given.
pub fn can_go_on(text: &[u8]) -> bool {
    let (lines, rest) = lines(text);
    if lines.is_empty() {
        return begins_line(rest, 2);
    }
    let Some((rows, cols)) = sides(text) else {
        return false;
    };
    if !within_bounds((rows, cols)) {
        return true;
    }
    let done = lines.len() - 1;
    done <= rows
        && lines[1..].iter().all(|line| numbers(line, cols).is_some())
        && (rest.is_empty() || done < rows && begins_line(rest, cols))
}

/// The length of the longest beginning of the text that can go on. With the byte after it, if there is one, no proper
/// text can. A beginning of one that can go on can itself, so that the lengths may be halved again and again.
pub fn longest_beginning(text: &[u8]) -> usize {
    let (mut can, mut cannot) = (0, text.len() + 1);
    while can + 1 < cannot {
        let middle = can + (cannot - can) / 2;
        if can_go_on(&text[..middle]) {
            can = middle;
        } else {
            cannot = middle;
        }
    }
    can
}

fn malformed(text: &[u8]) -> Answer {
    let place = longest_beginning(text);
    let before = &text[..place];
    let reply = if place == text.len() {
        Reply::StopsEarly
    } else if proper(before).is_some() {
        Reply::AfterLastLine
    } else if before.contains(&b'\n') {
        Reply::InRows
    } else {
        Reply::InFirstLine
    };
    Answer {
        reply,
        output: format!("refused 11 at {place}\n"),
    }
}

/// The numbers of one line of the output.
fn line(numbers: &[u32]) -> String {
    let numbers: Vec<String> = numbers.iter().map(u32::to_string).collect();
    numbers.join(" ") + "\n"
}

/// What the program answers to these bytes on its standard input.
pub fn answer(text: &[u8]) -> Answer {
    if sides(text).is_some_and(|sides| !within_bounds(sides)) {
        return Answer {
            reply: Reply::Shape,
            output: "refused 1\n".to_string(),
        };
    }
    let Some((rows, cols, codes)) = proper(text) else {
        return malformed(text);
    };
    // A code above 255 is bad; the counter, which takes bytes, is given a bad byte in its stead.
    let grid: Vec<u8> = codes
        .iter()
        .map(|&code| u8::try_from(code).unwrap_or(3))
        .collect();
    let outcome = independent::count(rows, cols, &grid, grid.len());
    let [first, second, third, ..] = outcome.value;
    let (reply, output) = match outcome.number {
        0 => {
            let mut output = format!("rows {rows} cols {cols}\n");
            let counts = outcome.counts.given(&[]);
            output.extend(counts.chunks(cols).map(line));
            output += &format!("land {first} outlets {second} greatest {third}\n");
            (Reply::Done, output)
        }
        3 if codes[first as usize] > 255 => (Reply::Above255, format!("refused 3 at {first}\n")),
        3 => (Reply::BadByte, format!("refused 3 at {first}\n")),
        4 => (
            Reply::Loop,
            format!("refused 4 at {first} length {second}\n"),
        ),
        other => panic!("the independent counter gives {other} for a text's grid"),
    };
    Answer { reply, output }
}

/// The text of a sheet.
pub fn write(rows: usize, cols: usize, codes: &[usize]) -> Vec<u8> {
    let mut text = format!("{rows} {cols}\n");
    for row in codes.chunks(cols) {
        let row: Vec<String> = row.iter().map(usize::to_string).collect();
        text += &(row.join(" ") + "\n");
    }
    text.into_bytes()
}
