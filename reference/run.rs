//! Runs a script on the model and prints what the house would.

use crate::house::{Call, House, Job, Reply, Rules};
use crate::plan::{Expr, VARS};
use crate::script::{Numbered, Thing, Work, flow_lines, reply_line, report_line, take_line};
use crate::wire;
use std::collections::HashMap;

/// Numbers from a seed.
#[derive(Debug, Clone)]
pub struct Shift(u64);

impl Shift {
    pub fn new(seed: u64) -> Shift {
        Shift(seed.max(1))
    }

    pub fn draw(&mut self) -> u64 {
        self.0 ^= self.0 << 13;
        self.0 ^= self.0 >> 7;
        self.0 ^= self.0 << 17;
        self.0
    }
}

/// What tasks give, by their kinds; a kind that has no line gives 0.
#[derive(Default)]
pub struct Table(HashMap<u64, Expr>);

impl Table {
    pub fn set(&mut self, kind: u64, expr: Expr) {
        self.0.insert(kind, expr);
    }

    pub fn result(&self, job: &Job) -> u64 {
        let mut vars = [0; VARS];
        vars[..job.words.len()].copy_from_slice(&job.words);
        self.0.get(&(job.kind as u64)).map_or(0, |e| e.value(&vars))
    }
}

/// Where power fails in a run that is made up: at random, before or after what was called is done.
pub struct Falls {
    pub waiting: usize,
    pub draws: Shift,
}

impl Falls {
    fn falls(&mut self, chance: u64) -> bool {
        let fallen = self.waiting > 0 && self.draws.draw() % 100 < chance;
        self.waiting -= fallen as usize;
        fallen
    }
}

pub struct Runner {
    pub house: House,
    pub rules: Rules,
    pub table: Table,
    pub falls: Option<Falls>,
    pub out: Vec<Vec<u8>>,
}

impl Runner {
    pub fn new(rules: Rules) -> Runner {
        Runner { house: House::new(), rules, table: Table::default(), falls: None, out: Vec::new() }
    }

    fn say(&mut self, line: impl Into<Vec<u8>>) {
        self.out.push(line.into());
    }

    /// The house has fallen, and may fall again while it rises.
    fn fall(&mut self) {
        self.house.fall();
        self.say("fell");
        while let Some(falls) = &mut self.falls
            && falls.falls(30)
        {
            self.say("fell");
        }
    }

    /// Does a thing to the house; None where power failed.
    fn answered<R>(&mut self, act: impl FnOnce(&mut House) -> R) -> Option<R> {
        if let Some(falls) = &mut self.falls
            && falls.falls(25)
        {
            if falls.draws.draw().is_multiple_of(2) {
                act(&mut self.house);
            }
            self.fall();
            return None;
        }
        Some(act(&mut self.house))
    }

    fn call(&mut self, call: &Call) -> Option<Reply> {
        let rules = self.rules;
        let reply = self.answered(|house| house.call(call, rules));
        if let Some(reply) = &reply {
            self.say(reply_line(reply));
        }
        reply
    }

    fn work(&mut self, work: &Work) {
        let mut draws = Shift::new(work.seed);
        loop {
            self.say(take_line(work));
            let taken = self.call(&Call::Take { kinds: work.kinds.clone(), ms: work.ms });
            let Some(Reply::Task(job)) = taken else { return };
            let well = (draws.draw() % 100 >= work.bad).then(|| self.table.result(&job));
            self.say(report_line(&job, well));
            let report = Call::Report { flow: job.flow, step: job.step, attempt: job.attempt, well };
            if self.call(&report) != Some(Reply::Yes) {
                return;
            }
        }
    }

    pub fn flows(&mut self) {
        self.out.extend(flow_lines(&self.house));
    }

    pub fn thing(&mut self, thing: Thing) -> Result<(), String> {
        match thing {
            Thing::Lines(n) => self.rules.lines = n,
            Thing::Call(call) => {
                self.call(&call);
            }
            Thing::In(line) => {
                let rules = self.rules;
                if let Some(bytes) = self.answered(|house| wire::answer(house, &line, rules)) {
                    self.say(format!("out {}", wire::to_hex(&bytes)));
                }
            }
            Thing::Fail { after } => match &mut self.falls {
                None => return Err("power fails in this script".into()),
                Some(falls) if after == 0 && falls.waiting == 0 => self.fall(),
                Some(falls) => falls.waiting += 1,
            },
            Thing::Table(kind, expr) => self.table.set(kind, expr),
            Thing::Work(work) => self.work(&work),
            Thing::Flows => self.flows(),
        }
        Ok(())
    }
}

/// All that is printed for a script; with a seed for falls, power may fail in it.
pub fn run(script: Vec<Numbered>, no_tell: bool, falls: Option<u64>) -> Result<Vec<Vec<u8>>, String> {
    let mut runner = Runner::new(Rules::new(no_tell));
    runner.falls = falls.map(|seed| Falls { waiting: 0, draws: Shift::new(seed) });
    for Numbered { line, thing, .. } in script {
        runner.thing(thing).map_err(|why| format!("line {line} of the script: {why}"))?;
    }
    runner.flows();
    Ok(runner.out)
}
