//! Calls and answers as framed bytes, the high byte first.

use crate::house::{Call, House, Job, Reply, Rules, State};
use crate::text::read_plan;

pub const TELL: u8 = 2;
const TIME: u8 = 9;

/// The bytes of a call that are not read yet.
struct Bytes<'a>(&'a [u8]);

impl<'a> Bytes<'a> {
    fn take(&mut self, count: usize) -> Option<&'a [u8]> {
        let (taken, rest) = self.0.split_at_checked(count)?;
        self.0 = rest;
        Some(taken)
    }

    fn number(&mut self, width: usize) -> Option<u64> {
        Some(self.take(width)?.iter().fold(0, |n, b| n << 8 | *b as u64))
    }

    /// Bytes behind their length.
    fn counted(&mut self, width: usize) -> Option<Vec<u8>> {
        let count = self.number(width)? as usize;
        self.take(count).map(<[u8]>::to_vec)
    }

    /// Numbers behind how many they are.
    fn numbers(&mut self, width: usize) -> Option<Vec<u64>> {
        let count = self.number(1)?;
        (0..count).map(|_| self.number(width)).collect()
    }
}

/// The call that bytes are, its kind first.
pub fn read_call(bytes: &[u8]) -> Option<Call> {
    let mut rest = Bytes(bytes);
    let call = match rest.number(1)? {
        1 => {
            let key = rest.counted(1)?;
            let text = rest.counted(4)?;
            Call::Start { key, plan: read_plan(&text), words: rest.numbers(8)? }
        }
        2 => Call::Tell { key: rest.counted(1)?, name: rest.counted(1)?, value: rest.number(8)? },
        3 => Call::Cancel { key: rest.counted(1)? },
        4 => Call::Take { kinds: rest.numbers(4)?, ms: rest.number(4)? },
        5 => Call::Longer { flow: rest.number(8)?, step: rest.number(8)?, attempt: rest.number(2)?, ms: rest.number(4)? },
        6 => {
            let (flow, step, attempt) = (rest.number(8)?, rest.number(8)?, rest.number(2)?);
            let well = rest.number(1).filter(|w| *w <= 1)? == 1;
            let value = rest.number(8)?;
            Call::Report { flow, step, attempt, well: well.then_some(value) }
        }
        7 => Call::Show { key: rest.counted(1)? },
        8 => Call::Forget { key: rest.counted(1)? },
        9 => Call::Time(rest.number(8)?),
        _ => return None,
    };
    rest.0.is_empty().then_some(call)
}

fn put(bytes: &mut Vec<u8>, width: usize, number: u64) {
    bytes.extend_from_slice(&number.to_be_bytes()[8 - width..]);
}

fn put_counted(bytes: &mut Vec<u8>, width: usize, what: &[u8]) {
    put(bytes, width, what.len() as u64);
    bytes.extend_from_slice(what);
}

/// The bytes of a call; `text` is that of a plan to be started.
pub fn write_call(call: &Call, text: &[u8]) -> Vec<u8> {
    let mut bytes = Vec::new();
    match call {
        Call::Start { key, words, .. } => {
            bytes.push(1);
            put_counted(&mut bytes, 1, key);
            put_counted(&mut bytes, 4, text);
            bytes.push(words.len() as u8);
            words.iter().for_each(|w| put(&mut bytes, 8, *w));
        }
        Call::Tell { key, name, value } => {
            bytes.push(2);
            put_counted(&mut bytes, 1, key);
            put_counted(&mut bytes, 1, name);
            put(&mut bytes, 8, *value);
        }
        Call::Cancel { key } => {
            bytes.push(3);
            put_counted(&mut bytes, 1, key);
        }
        Call::Take { kinds, ms } => {
            bytes.extend([4, kinds.len() as u8]);
            kinds.iter().for_each(|k| put(&mut bytes, 4, *k));
            put(&mut bytes, 4, *ms);
        }
        Call::Longer { flow, step, attempt, ms } => {
            bytes.push(5);
            put(&mut bytes, 8, *flow);
            put(&mut bytes, 8, *step);
            put(&mut bytes, 2, *attempt);
            put(&mut bytes, 4, *ms);
        }
        Call::Report { flow, step, attempt, well } => {
            bytes.push(6);
            put(&mut bytes, 8, *flow);
            put(&mut bytes, 8, *step);
            put(&mut bytes, 2, *attempt);
            bytes.push(well.is_some() as u8);
            put(&mut bytes, 8, well.unwrap_or(0));
        }
        Call::Show { key } => {
            bytes.push(7);
            put_counted(&mut bytes, 1, key);
        }
        Call::Forget { key } => {
            bytes.push(8);
            put_counted(&mut bytes, 1, key);
        }
        Call::Time(time) => {
            bytes.push(9);
            put(&mut bytes, 8, *time);
        }
    }
    bytes
}

fn write_reply(reply: &Reply) -> Vec<u8> {
    let mut bytes = Vec::new();
    match reply {
        Reply::No(number) => bytes.extend([0, *number]),
        Reply::Yes => bytes.push(1),
        Reply::Flow(id) => {
            bytes.push(2);
            put(&mut bytes, 8, *id);
        }
        Reply::Task(Job { flow, step, attempt, kind, words }) => {
            bytes.push(3);
            put(&mut bytes, 8, *flow);
            put(&mut bytes, 8, *step);
            put(&mut bytes, 2, *attempt);
            put(&mut bytes, 4, *kind as u64);
            bytes.push(words.len() as u8);
            words.iter().for_each(|w| put(&mut bytes, 8, *w));
        }
        Reply::Nothing => bytes.push(4),
        Reply::State(state) => {
            bytes.push(5);
            match state {
                State::Busy => bytes.push(0),
                State::Waits => bytes.push(1),
                State::Sleeps => bytes.push(2),
                State::Listens => bytes.push(3),
                State::Ended(value) => {
                    bytes.push(4);
                    put(&mut bytes, 8, *value);
                }
                State::Failed => bytes.push(5),
            }
        }
        Reply::Full => bytes.push(6),
    }
    bytes
}

/// A tag and what is said, behind their length.
pub fn framed(tag: u32, said: &[u8]) -> Vec<u8> {
    let mut bytes = Vec::new();
    put(&mut bytes, 4, said.len() as u64 + 4);
    put(&mut bytes, 4, tag as u64);
    bytes.extend_from_slice(said);
    bytes
}

fn four(bytes: &[u8]) -> u32 {
    u32::from_be_bytes(bytes[..4].try_into().expect("four bytes"))
}

/// The call in a line, if its length is right; its first byte is its kind.
pub fn unframed(line: &[u8]) -> Option<&[u8]> {
    (line.len() >= 9 && four(line) as usize == line.len() - 4).then(|| &line[8..])
}

/// What the house answers to a line of bytes.
pub fn answer(house: &mut House, line: &[u8], rules: Rules) -> Vec<u8> {
    let tag = if line.len() >= 8 { four(&line[4..]) } else { 0 };
    let untimed = house.now == 0;
    let reply = match unframed(line) {
        Some(said) if rules.no_tell && said[0] == TELL => Reply::No(12),
        Some(said) if untimed && said[0] != TIME => Reply::No(10),
        None if untimed => Reply::No(10),
        None => Reply::No(1),
        Some(said) => match read_call(said) {
            None => Reply::No(1),
            Some(call) => house.call(&call, rules),
        },
    };
    framed(tag, &write_reply(&reply))
}

pub fn to_hex(bytes: &[u8]) -> String {
    bytes.iter().map(|b| format!("{b:02x}")).collect()
}

pub fn from_hex(text: &str) -> Option<Vec<u8>> {
    let digits: Vec<u32> = text.chars().map(|c| c.to_digit(16)).collect::<Option<_>>()?;
    let (pairs, odd) = digits.as_chunks::<2>();
    odd.is_empty().then(|| pairs.iter().map(|[h, l]| (h * 16 + l) as u8).collect())
}
