//! Scripts: one thing a line; and how answers are printed.

use crate::house::{Call, House, Job, Reply, State};
use crate::plan::Expr;
use crate::text::{read_expr, read_plan};
use crate::wire::from_hex;

/// A worker that takes tasks until there is nothing.
#[derive(Debug, Clone)]
pub struct Work {
    pub kinds: Vec<u64>,
    pub ms: u64,
    pub seed: u64,
    pub bad: u64,
}

#[derive(Debug)]
pub enum Thing {
    Lines(u64),
    Call(Call),
    In(Vec<u8>),
    /// Power fails after so many things done to lines; what reached them is for the seed to say.
    Fail {
        after: u64,
    },
    Table(u64, Expr),
    Work(Work),
    Flows,
}

fn number(word: &str) -> Result<u64, String> {
    word.parse().map_err(|_| format!("`{word}` is no number"))
}

fn numbers(words: &[&str]) -> Result<Vec<u64>, String> {
    words.iter().map(|w| number(w)).collect()
}

/// `K K .. for MS`, and what follows.
fn kinds_for<'a, 'b>(words: &'a [&'b str]) -> Result<(Vec<u64>, u64, &'a [&'b str]), String> {
    let at = words.iter().position(|w| *w == "for").ok_or("no `for`")?;
    let ms = words.get(at + 1).ok_or("no ms")?;
    Ok((numbers(&words[..at])?, number(ms)?, &words[at + 2..]))
}

/// `start KEY W W .. : PLAN`, behind its first word.
fn start(rest: &str) -> Result<Call, String> {
    let rest = rest.trim_start();
    let (key, mut rest) = rest.split_once(char::is_whitespace).ok_or("no key")?;
    let mut words = Vec::new();
    loop {
        rest = rest.trim_start();
        if let Some(text) = rest.strip_prefix(':') {
            return Ok(Call::Start { key: key.into(), plan: read_plan(text.as_bytes()), words });
        }
        let end = rest.find([' ', '\t', ':']).ok_or("no `:`")?;
        words.push(number(&rest[..end])?);
        rest = &rest[end..];
    }
}

/// A call as it stands in a script or behind `> `.
fn read_call(name: &str, words: &[&str], rest: &str) -> Result<Option<Call>, String> {
    Ok(Some(match (name, words) {
        ("time", [t]) => Call::Time(number(t)?),
        ("start", _) => start(rest)?,
        ("tell", [key, name, value]) => Call::Tell { key: (*key).into(), name: (*name).into(), value: number(value)? },
        ("cancel", [key]) => Call::Cancel { key: (*key).into() },
        ("take", _) => {
            let (kinds, ms, rest) = kinds_for(words)?;
            if !rest.is_empty() {
                return Err("more than a take".into());
            }
            Call::Take { kinds, ms }
        }
        ("longer", [flow, step, attempt, ms]) => {
            Call::Longer { flow: number(flow)?, step: number(step)?, attempt: number(attempt)?, ms: number(ms)? }
        }
        ("report", [flow, step, attempt, how @ ..]) => {
            let well = match how {
                ["well", value] => Some(number(value)?),
                ["bad"] => None,
                _ => return Err("a report is `well V` or `bad`".into()),
            };
            Call::Report { flow: number(flow)?, step: number(step)?, attempt: number(attempt)?, well }
        }
        ("show", [key]) => Call::Show { key: (*key).into() },
        ("forget", [key]) => Call::Forget { key: (*key).into() },
        _ => return Ok(None),
    }))
}

/// What a line says; None for one that is passed over.
pub fn read_line(line: &str) -> Result<Option<Thing>, String> {
    let line = line.split('#').next().unwrap_or("").trim();
    let Some(name) = line.split_whitespace().next() else { return Ok(None) };
    let rest = &line[name.len()..];
    let words: Vec<&str> = rest.split_whitespace().collect();
    if let Some(call) = read_call(name, &words, rest)? {
        return Ok(Some(Thing::Call(call)));
    }
    let thing = match (name, &words[..]) {
        ("lines", [n]) => Thing::Lines(number(n)?),
        ("in", [hex]) => Thing::In(from_hex(hex).ok_or("no hexadecimal")?),
        ("fail", [after, seed]) => {
            number(seed)?;
            Thing::Fail { after: number(after)? }
        }
        ("table", [kind, ..]) => {
            let text = &rest.trim_start().as_bytes()[kind.len()..];
            Thing::Table(number(kind)?, read_expr(text).ok_or("no expression")?)
        }
        ("work", _) => {
            let (kinds, ms, rest) = kinds_for(&words)?;
            let ["seed", seed, "bad", bad] = rest else { return Err("`seed S bad P` is missing".into()) };
            Thing::Work(Work { kinds, ms, seed: number(seed)?, bad: number(bad)? })
        }
        ("flows", []) => Thing::Flows,
        _ => return Err("no such line".into()),
    };
    Ok(Some(thing))
}

/// A line of a script with its number, from 1.
pub struct Numbered {
    pub line: usize,
    pub text: String,
    pub thing: Thing,
}

pub fn read_script(text: &str) -> Result<Vec<Numbered>, String> {
    let mut found = Vec::new();
    for (i, line) in text.lines().enumerate() {
        match read_line(line) {
            Ok(None) => {}
            Ok(Some(thing)) => found.push(Numbered { line: i + 1, text: line.to_string(), thing }),
            Err(why) => return Err(format!("line {} of the script: {why}: {line}", i + 1)),
        }
    }
    Ok(found)
}

pub fn state_line(state: &State) -> String {
    match state {
        State::Busy => "busy".into(),
        State::Waits => "waits".into(),
        State::Sleeps => "sleeps".into(),
        State::Listens => "listens".into(),
        State::Ended(value) => format!("ended {value}"),
        State::Failed => "failed".into(),
    }
}

pub fn reply_line(reply: &Reply) -> String {
    match reply {
        Reply::No(n) => format!("no {n}"),
        Reply::Yes => "yes".into(),
        Reply::Flow(id) => format!("flow {id}"),
        Reply::Task(Job { flow, step, attempt, kind, words }) => {
            let words: String = words.iter().map(|w| format!(" {w}")).collect();
            format!("task {flow} {step} {attempt} {kind}{words}")
        }
        Reply::Nothing => "nothing".into(),
        Reply::State(state) => state_line(state),
        Reply::Full => "full".into(),
    }
}

/// The lines of `flows`, as bytes, since a key may be any.
pub fn flow_lines(house: &House) -> Vec<Vec<u8>> {
    house
        .flows
        .iter()
        .map(|x| {
            let mut line = x.key.clone();
            line.extend(format!(" {} {}", x.id, state_line(&State::of(&x.phase))).bytes());
            line
        })
        .collect()
}

pub fn take_line(work: &Work) -> String {
    let kinds: String = work.kinds.iter().map(|k| format!(" {k}")).collect();
    format!("> take{kinds} for {}", work.ms)
}

pub fn report_line(job: &Job, well: Option<u64>) -> String {
    let how = well.map_or("bad".into(), |v| format!("well {v}"));
    format!("> report {} {} {} {how}", job.flow, job.step, job.attempt)
}
