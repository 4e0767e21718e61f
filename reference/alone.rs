//! Plans run by themselves, without a house; and how fast that is.

use crate::plan::{Flow, Part, Phase};
use crate::text::read_plan;
use std::fmt;
use std::time::Instant;

pub const MOVES_LIMIT: u64 = 10_000_000;

#[derive(Debug, PartialEq)]
pub enum Outcome {
    Ended(u64),
    Failed,
    Busy,
}

#[derive(Debug, PartialEq)]
pub struct Alone {
    pub outcome: Outcome,
    pub moves: u64,
}

impl fmt::Display for Alone {
    fn fmt(&self, f: &mut fmt::Formatter) -> fmt::Result {
        match self.outcome {
            Outcome::Ended(value) => write!(f, "ended {value}")?,
            Outcome::Failed => write!(f, "failed")?,
            Outcome::Busy => write!(f, "busy")?,
        }
        write!(f, " after {} moves", self.moves)
    }
}

/// Every task is answered well by the sum of its words plus its kind; nothing is heard, and waits are over at once.
pub fn run_alone(plan: &Part, words: &[u64], limit: u64) -> Alone {
    let mut flow = Flow::new(1, Vec::new(), plan, words);
    let mut moves = 0;
    loop {
        let (made, wish) = flow.run(1, limit - moves);
        moves += made;
        if let Some(wish) = wish {
            flow.take_result(wish.words.iter().fold(wish.kind as u64, |sum, w| sum.wrapping_add(*w)));
            continue;
        }
        let outcome = match flow.phase {
            Phase::Busy => Outcome::Busy,
            Phase::Ended(value) => Outcome::Ended(value),
            Phase::Failed => Outcome::Failed,
            Phase::Asleep { .. } => {
                flow.phase = Phase::Busy;
                continue;
            }
            Phase::Listens { value, came, .. } => {
                flow.hear(value, came, 0, 0);
                continue;
            }
            Phase::Tasked { .. } => unreachable!("a task is answered at once"),
        };
        return Alone { outcome, moves };
    }
}

/// One line `W W .. | PLAN`.
pub fn plan_line(line: &str) -> String {
    let Some((words, text)) = line.split_once('|') else { return "no plan".into() };
    let words: Result<Vec<u64>, _> = words.split_whitespace().map(str::parse).collect();
    match (words, read_plan(text.as_bytes())) {
        (Ok(words), Some(plan)) if words.len() <= crate::text::WORDS_LIMIT => run_alone(&plan, &words, MOVES_LIMIT).to_string(),
        _ => "no plan".into(),
    }
}

fn timed(name: &str, plan: &Part, times: u64) {
    let began = Instant::now();
    let mut moves = 0;
    for _ in 0..times {
        moves += run_alone(plan, &[], MOVES_LIMIT).moves;
    }
    let seconds = began.elapsed().as_secs_f64();
    println!("{name}: {moves} moves in {:.1} ms, {:.1} million moves a second", seconds * 1e3, moves as f64 / seconds / 1e6);
}

pub fn bench() {
    let counting = read_plan(b"while v1 < 1000000 { set v1 = v1 + 1 } return v1").expect("a plan");
    timed("a loop that counts to a million", &counting, 1);
    let sets = "set v1 = not v1 ".repeat(1300);
    let straight = read_plan(sets.as_bytes()).expect("a plan");
    timed("1,300 sets, run 1,000 times", &straight, 1000);
}
