//! What crosses the boundary, asked through the boundary itself, and held to answers that are none
//! of ours.
//!
//! cases/questions has a question a line, and the same line of cases/answers what is owed for it,
//! byte for byte. A line that begins with `#` is a heading, the same in both: the headings say what
//! is asked, and what is answered. The answers are document 01's tables, laid out by hand and by
//! arithmetic; the part after `# the seller's crate` is from compare/oracle (compare/list).
//!
//! A question is a letter, decimal numbers, a slash and bytes by their hexadecimal digits. `*N K`
//! after the numbers makes N bytes of those given, the last K of them over and over. An output was
//! all ee; of more than 1,024 bytes its runs are shown, as `ff*2.61*65535.`. A refusal of a text has
//! its place after it, as `refused 5.13`: where the longest well-formed start ends, or the first zero
//! byte.

#[path = "cases/frames.rs"]
mod frames;
#[path = "cases/others.rs"]
mod others;

use sheafsledge_sys::Outcome;

const QUESTIONS: &str = include_str!("cases/questions");
const ANSWERS: &str = include_str!("cases/answers");

/// What lent values hold before, so that one that is not written is seen.
const BEFORE: u64 = 238;

/// As many bytes, and as much room, as a question may want.
const MOST: u64 = 170_000;

fn spelt(hex: &str) -> Option<Vec<u8>> {
    let digit = |c: u8| char::from(c).to_digit(16);
    let byte = |pair: &[u8]| match *pair {
        [upper, lower] => Some((digit(upper)? * 16 + digit(lower)?) as u8),
        _ => None,
    };
    hex.as_bytes().chunks(2).map(byte).collect()
}

/// What `*N K` makes of the bytes.
fn repeated(mut bytes: Vec<u8>, star: &str) -> Option<Vec<u8>> {
    let (most, back) = star.split_once(' ')?;
    let (most, back): (u64, usize) = (most.parse().ok()?, back.parse().ok()?);
    while bytes.len() < most.min(MOST) as usize {
        bytes.push(*bytes.get(bytes.len().checked_sub(back)?)?);
    }
    Some(bytes)
}

/// A question's letter, numbers and bytes.
fn parsed(line: &str) -> Option<(&str, Vec<u64>, Vec<u8>)> {
    let (front, hex) = line.split_once('/').unwrap_or((line, ""));
    let (front, star) = front.split_once(" *").unwrap_or((front, "0 0"));
    let (kind, numbers) = front.split_once(' ')?;
    let numbers: Result<_, _> = numbers.split(' ').map(str::parse).collect();
    Some((kind, numbers.ok()?, repeated(spelt(hex)?, star)?))
}

fn listed(values: &[u64]) -> String {
    let values: Vec<String> = values.iter().map(u64::to_string).collect();
    values.join(" ")
}

fn ended(wrote: Outcome) -> String {
    match wrote.refusal {
        0 => format!("at {}", wrote.place),
        _ => refused(wrote),
    }
}

/// What has no place must not have one, but for a stretch, which tells it in words of its own.
fn refused(told: Outcome) -> String {
    match (told.refusal, told.place) {
        (k @ (5 | 6), place) => format!("refused {k}.{place}"),
        (k @ (12 | 13), _) | (k, 0) => format!("refused {k}"),
        (k, place) => format!("refused {k}.{place}"),
    }
}

fn shown(bytes: &[u8]) -> String {
    let run = |run: &[u8]| match run.len() {
        1 => format!("{:02x}", run[0]),
        len => format!("{:02x}*{len}.", run[0]),
    };
    match bytes.len() {
        ..=1024 => bytes.chunks(1).map(run).collect(),
        _ => bytes.chunk_by(u8::eq).map(run).collect(),
    }
}

/// A heading is said again. `None` if the question is malformed.
fn answer(line: &str) -> Option<String> {
    if line.starts_with('#') {
        return Some(line.to_string());
    }
    let (kind, numbers, bytes) = parsed(line)?;
    let room = match (kind, &numbers[..]) {
        ("t" | "r", &[room]) | ("w" | "d" | "m" | "k", &[_, room, ..]) => room,
        ("T" | "R", &[_, _, room]) => room,
        ("S" | "W", &[_]) => MOST,
        ("N" | "Q" | "f" | "a", _) => 0,
        _ => return None,
    };
    let mut out = (room <= MOST).then(|| vec![0xee; room as usize])?;
    let said = match (kind, &numbers[..]) {
        ("t", _) => frames::request(&mut out, &bytes),
        ("r", _) => frames::reply(&mut out, &bytes),
        ("T", &[ty, at, _]) => frames::request_at(&mut out, ty as u8, at as usize, &bytes),
        ("R", &[ty, at, _]) => frames::reply_at(&mut out, ty as u8, at as usize, &bytes),
        ("w", &[ty, _, tag, ref given @ ..]) => frames::frame(&mut out, ty, tag, given, &bytes)?,
        ("S", &[count]) => frames::letters(&mut out, count)?,
        ("d", &[at, _]) => others::entry(&mut out, at as usize, &bytes),
        ("m" | "W", &[count, ref given @ ..]) => others::names(&mut out, count, given, &bytes),
        ("k", &[count, _, ref given @ ..]) => others::qids(&mut out, count, given),
        ("N" | "Q", &[i, count, start, len]) => {
            others::element(kind, i, count, (start, len), &bytes)
        }
        ("f", &[at]) => others::step(at as usize, &bytes),
        ("a", &[asked, asked_tag, given, given_tag]) => {
            others::pairs((asked, asked_tag), (given, given_tag))
        }
        _ => return None,
    };
    let shown = match kind {
        "S" | "W" => String::new(),
        _ => shown(&out),
    };
    let all = format!("{kind} {said} {shown}");
    Some(all.trim_end().to_string())
}

fn difference(at: usize, question: &str, owed: &str) -> Option<String> {
    let said = answer(question);
    let told = said.as_deref().unwrap_or("nothing: it is malformed");
    let line = format!("line {at}: {question}\n  answered {told}\n  owed     {owed}");
    (said.as_deref() != Some(owed)).then_some(line)
}

fn lines(text: &'static str) -> impl Iterator<Item = &'static str> {
    text.split_terminator('\n')
}

#[test]
fn every_question_is_answered_as_is_owed() {
    let both = lines(QUESTIONS).zip(lines(ANSWERS)).enumerate();
    let differ = both.filter_map(|(at, (question, owed))| difference(at + 1, question, owed));
    let differ: Vec<String> = differ.collect();
    let first = differ[..differ.len().min(10)].join("\n");
    assert!(differ.is_empty(), "{} differ:\n{first}", differ.len());
}

#[test]
fn questions_and_answers_stand_side_by_side() {
    let (asked, owed) = (lines(QUESTIONS).count(), lines(ANSWERS).count());
    assert_eq!(asked, owed, "lines of questions, and of answers");
    let questions = lines(QUESTIONS).filter(|line| !line.starts_with('#'));
    let count = questions.count();
    assert!(count > 2200, "only {count} questions");
}
