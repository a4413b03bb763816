//! Reads what caladan_sim reads (docs/FORMATS.md): a task table, a line `---`, and signals or a history. What it refuses is
//! what caladan_sim refuses, by tools/audits. The programs `decide` and `audit` use it.

use caladan::{Action, Look, Machine, Policy, Scheduler, MOST_ACTIONS, WORDS};

const MOST_TEXT: usize = 1 << 26;
const MOST_PASSES: u64 = 1 << 20;
const MOST_CORES: u64 = 128;
const WORDS_OF_VERSION_1: usize = 7;

/// Why an input is refused.
pub type Why = &'static str;

fn must(is_so: bool, why: Why) -> Result<(), Why> {
    if is_so { Ok(()) } else { Err(why) }
}

/// The policy that `--policy NAME` at the front of the words asks for, Caladan's without it; and the words behind.
pub fn policy_asked(words: &[String]) -> Result<(Policy, &[String]), Why> {
    match words {
        [flag, name, rest @ ..] if flag == "--policy" => Ok((Policy::named(name).ok_or("no such policy")?, rest)),
        _ => Ok((Policy::Caladan, words)),
    }
}

/// The table and the trace of an input: the first line that is exactly `---` is between them.
pub fn parts(text: &[u8]) -> Result<(&[u8], &[u8]), Why> {
    must(text.len() <= MOST_TEXT, "too long")?;
    let mut line = 0;
    for (at, _) in text.iter().enumerate().filter(|(_, byte)| **byte == b'\n') {
        if matches!(&text[line..at], b"---" | b"---\r") {
            return Ok((&text[..line], &text[at + 1..]));
        }
        line = at + 1;
    }
    Err("no separator")
}

/// The machine of a table.
pub fn machine_of(table: &[u8]) -> Result<(&str, Machine), Why> {
    let text = std::str::from_utf8(table).map_err(|_| "the table")?;
    let mut scheduler = Scheduler::open(text).map_err(|_| "the table")?;
    Ok((text, scheduler.machine()))
}

/// The rows of a trace, as CSV: blank lines are none.
struct Rows<'a> {
    rest: &'a [u8],
}

fn is_line_end(byte: u8) -> bool {
    byte == b'\n' || byte == b'\r'
}

impl Iterator for Rows<'_> {
    type Item = Vec<Vec<u8>>;

    fn next(&mut self) -> Option<Vec<Vec<u8>>> {
        #[derive(PartialEq)]
        enum State {
            First,
            Plain,
            Quoted,
            Closed,
        }
        let blank = self.rest.iter().position(|byte| !is_line_end(*byte))?;
        self.rest = &self.rest[blank..];
        let (mut row, mut state) = (vec![Vec::new()], State::First);
        while let Some((byte, rest)) = self.rest.split_first() {
            if state != State::Quoted && is_line_end(*byte) {
                break;
            }
            self.rest = rest;
            let keeps = match (&state, byte) {
                (State::First | State::Plain | State::Closed, b',') => {
                    row.push(Vec::new());
                    state = State::First;
                    continue;
                }
                (State::First, b'"') => State::Quoted,
                (State::Quoted, b'"') => State::Closed,
                (State::Closed, b'"') | (State::Quoted, _) => {
                    row.last_mut()?.push(*byte);
                    State::Quoted
                }
                _ => {
                    row.last_mut()?.push(*byte);
                    State::Plain
                }
            };
            state = keeps;
        }
        Some(row)
    }
}

/// A field as a number: `0`, or digits with no zero in front, up to the most that it may be.
fn number(field: &[u8], most: u64) -> Result<u64, Why> {
    must(field == b"0" || field.first() != Some(&b'0'), "a number with a zero in front")?;
    must(!field.is_empty() && field.iter().all(u8::is_ascii_digit), "a field is no number")?;
    let text = std::str::from_utf8(field).map_err(|_| "a field is no number")?;
    let number = text.parse().map_err(|_| "a number is too great")?;
    must(number <= most, "a number is out of range")?;
    Ok(number)
}

fn byte(field: &[u8], most: u64) -> Result<u8, Why> {
    u8::try_from(number(field, most)?).map_err(|_| "a number is out of range")
}

/// Which of these words a field is, from 1 on.
fn place_of(words: &[&str], field: &[u8]) -> Option<u8> {
    words.iter().position(|it| it.as_bytes() == field).map(|k| k as u8 + 1)
}

/// A pass as it stands in a trace; of signals without actions.
#[derive(Default)]
pub struct Recorded {
    pub now: u64,
    pub bandwidth: u64,
    pub looks: Vec<Look>,
    pub judged: Vec<u8>,
    pub actions: Vec<Action>,
}

/// The passes of a trace. Each is given out as it was read, so that only after the last one it is known that nothing is refused.
pub struct Trace<'a> {
    rows: Rows<'a>,
    row: Vec<Vec<u8>>,
    machine: Machine,
    is_history: bool,
    words: usize,
    passes: u64,
}

impl<'a> Trace<'a> {
    /// Begins to read a history or signals for this machine.
    pub fn begin(trace: &'a [u8], machine: Machine, is_history: bool) -> Result<Trace<'a>, Why> {
        let mut rows = Rows { rest: trace.strip_prefix(b"\xef\xbb\xbf").unwrap_or(trace) };
        let header = rows.next().ok_or("no header")?;
        let name: &[u8] = if is_history { b"caladan-history" } else { b"caladan-signals" };
        must(header.len() == 2 && header[0] == name && (header[1] == b"1" || header[1] == b"2"), "no header")?;
        let words = if header[1] == b"1" { WORDS_OF_VERSION_1 } else { WORDS.len() };
        let row = rows.next().ok_or("no end")?;
        Ok(Trace { rows, row, machine, is_history, words, passes: 0 })
    }

    /// The next pass; None where the trace has ended as it should.
    pub fn next_pass(&mut self) -> Result<Option<Recorded>, Why> {
        if self.row[0] != b"pass" {
            must(self.row[0] == b"end" && self.row.len() == 2, "a row is none")?;
            must(number(&self.row[1], u64::MAX)? == self.passes && self.rows.next().is_none(), "the end")?;
            return Ok(None);
        }
        must(self.row.len() == 3 && self.passes < MOST_PASSES, "a pass")?;
        self.passes += 1;
        let mut pass = Recorded { now: number(&self.row[1], u64::MAX)?, bandwidth: number(&self.row[2], u64::MAX)?, ..Recorded::default() };
        for thread in 0..u64::from(self.machine.threads) {
            let (look, judged) = self.look(thread)?;
            pass.looks.push(look);
            pass.judged.push(judged);
        }
        self.row = self.rows.next().ok_or("no end")?;
        while let (true, Some(kind)) = (self.is_history, place_of(&["free", "unban", "ban", "revoke", "cap", "grant"], &self.row[0])) {
            must(pass.actions.len() < MOST_ACTIONS, "too many actions")?;
            pass.actions.push(self.action(kind)?);
            self.row = self.rows.next().ok_or("no end")?;
        }
        Ok(Some(pass))
    }

    /// The look of the next row, which is to be of this thread, and what was judged of it.
    fn look(&mut self, thread: u64) -> Result<(Look, u8), Why> {
        let row = self.rows.next().ok_or("a look is missing")?;
        let kinds = &["whole", "busy", "ahead", "foreign"][..if self.is_history { 4 } else { 2 }];
        let judged = place_of(kinds, &row[0]).ok_or("no look")?;
        let is_busy = judged == 2;
        must(row.len() == if is_busy { 5 } else { 4 + self.words }, "a look's fields")?;
        must(number(&row[1], u64::MAX)? == thread, "the look of another thread")?;
        let mut look = Look { busy: u8::from(is_busy), room: byte(&row[2], 1)?, number: number(&row[3], u64::MAX)?, ..Look::default() };
        if is_busy {
            look.second = number(&row[4], u64::MAX)?;
            must(if look.number % 2 == 1 { look.second == look.number } else { look.second > look.number }, "no busy pair")?;
            return Ok((look, judged));
        }
        for (k, field) in row[4..].iter().enumerate() {
            let most = match WORDS[k] {
                "running" => MOST_CORES,
                "misses" => 1 << 56,
                _ => u64::MAX,
            };
            look.words[k] = number(field, most)?;
        }
        Ok((look, judged))
    }

    /// The action of the row.
    fn action(&self, kind: u8) -> Result<Action, Why> {
        let Machine { cores, tasks, threads, .. } = self.machine;
        let (cores, tasks, threads) = (u64::from(cores) - 1, u64::from(tasks) - 1, u64::from(threads) - 1);
        let row = &self.row;
        let mut action = Action { kind, ..Action::default() };
        match (kind, row.len()) {
            (5, 3) => (action.task, action.cap) = (byte(&row[1], tasks)?, byte(&row[2], 16)?),
            (1 | 2, 2) | (4, 3 | 4) | (3 | 6, 4) => action.core = byte(&row[1], cores)?,
            _ => return Err("an action's fields"),
        }
        match kind {
            3 => (action.thread, action.started) = (byte(&row[2], threads)?, number(&row[3], u64::MAX)?),
            4 => {
                action.cause = place_of(&["ban", "bandwidth", "preempt"], &row[2]).ok_or("no cause")?;
                must(row.len() == if action.cause == 2 { 3 } else { 4 }, "a revocation's fields")?;
                match action.cause {
                    1 => action.by = byte(&row[3], cores)?,
                    3 => action.task = byte(&row[3], tasks)?,
                    _ => {}
                }
            }
            6 => {
                (action.thread, action.core_class) = (byte(&row[2], threads)?, byte(&row[3], 5)?);
                must(action.core_class > 0, "no class")?;
            }
            _ => {}
        }
        Ok(action)
    }
}
