//! Follows a script beside what was printed for it, and finds the first difference.
//!
//! When power fails in a call, the call was done or it was not. Both houses are kept from there on, each with the place
//! in what was printed that it has come to, and those that later lines contradict are given up.

use crate::house::{Call, House, Job, Reply, Rules};
use crate::run::Table;
use crate::script::{Numbered, Thing, Work, flow_lines, reply_line, report_line, take_line};
use crate::wire;
use std::collections::BTreeSet;

const FELL: &[u8] = b"fell";
/// More houses than these at once are given up as undecided.
const CASES: usize = 20_000;

/// A house that there may be.
#[derive(Debug, Clone, PartialEq)]
struct Case {
    house: House,
    /// The next line of what was printed.
    at: usize,
    /// How many failures wait.
    waiting: usize,
}

/// What a worker is about to do.
#[derive(Debug, Clone, PartialEq)]
enum Hand {
    Takes,
    Reports(Job),
    /// Something went wrong: it stops, takes again, or reports what it has.
    Unsure(Option<Job>),
    Stops,
}

struct Checker<'a> {
    rules: Rules,
    table: Table,
    printed: &'a [Vec<u8>],
    /// What would have been right, with the places, for the line that is at hand.
    expected: BTreeSet<(usize, String)>,
}

fn add<T: PartialEq>(to: &mut Vec<T>, new: T) {
    if !to.contains(&new) {
        to.push(new);
    }
}

impl Checker<'_> {
    fn line(&self, at: usize) -> Option<&[u8]> {
        self.printed.get(at).map(Vec::as_slice)
    }

    fn is_line(&mut self, at: usize, right: &[u8]) -> bool {
        self.expected.insert((at, String::from_utf8_lossy(right).into_owned()));
        self.line(at) == Some(right)
    }

    /// The next line says that power failed, and it may have.
    fn falls(&self, case: &Case) -> bool {
        case.waiting > 0 && self.line(case.at) == Some(FELL)
    }

    fn fallen(&self, case: &Case) -> Case {
        let mut next = case.clone();
        next.house.fall();
        next.at += 1;
        next.waiting -= 1;
        next
    }

    /// One answer: the one that is right, or power failed in the call. Which houses there may be, and whether it was answered.
    fn answered(&mut self, case: &Case, after: House, answer: &[u8]) -> Vec<(Case, bool)> {
        let mut found = Vec::new();
        let done = Case { house: after, ..case.clone() };
        if self.is_line(case.at, answer) {
            found.push((Case { at: case.at + 1, ..done }, true));
        } else if self.falls(case) {
            add(&mut found, (self.fallen(case), false));
            add(&mut found, (self.fallen(&done), false));
        }
        found
    }

    fn call(&mut self, case: &Case, call: &Call) -> (Reply, Vec<(Case, bool)>) {
        let mut after = case.house.clone();
        let reply = after.call(call, self.rules);
        let line = reply_line(&reply);
        (reply, self.answered(case, after, line.as_bytes()))
    }

    /// A failure on a line of its own, any number of times, and then the thing.
    fn with_falls(&mut self, cases: Vec<Case>, act: &mut dyn FnMut(&mut Self, &Case) -> Vec<Case>) -> Vec<Case> {
        let mut found = Vec::new();
        for mut case in cases {
            loop {
                for next in act(self, &case) {
                    add(&mut found, next);
                }
                if !self.falls(&case) {
                    break;
                }
                case = self.fallen(&case);
            }
        }
        found
    }

    fn flows(&mut self, case: &Case) -> Vec<Case> {
        let mut found = Vec::new();
        let mut case = case.clone();
        for line in flow_lines(&case.house) {
            // power may fail in the midst, and the rest be printed or not
            while self.falls(&case) {
                case = self.fallen(&case);
                add(&mut found, case.clone());
            }
            if !self.is_line(case.at, &line) {
                return found;
            }
            case.at += 1;
        }
        add(&mut found, case);
        found
    }

    fn work(&mut self, case: &Case, work: &Work) -> Vec<Case> {
        let mut found = Vec::new();
        let mut open = vec![(case.clone(), Hand::Takes)];
        while let Some((case, hand)) = open.pop() {
            if matches!(hand, Hand::Stops | Hand::Unsure(_)) {
                add(&mut found, case.clone());
            }
            if hand == Hand::Stops {
                continue;
            }
            if self.falls(&case) {
                add(&mut open, (self.fallen(&case), hand.clone()));
                let job = if let Hand::Reports(job) = &hand { Some(job.clone()) } else { None };
                add(&mut open, (self.fallen(&case), Hand::Unsure(job)));
                continue;
            }
            let (takes, job) = match hand {
                Hand::Takes => (true, None),
                Hand::Reports(job) => (false, Some(job)),
                Hand::Unsure(job) => (true, job),
                Hand::Stops => continue,
            };
            if takes && self.is_line(case.at, take_line(work).as_bytes()) {
                let case = Case { at: case.at + 1, ..case.clone() };
                let (reply, nexts) = self.call(&case, &Call::Take { kinds: work.kinds.clone(), ms: work.ms });
                for (next, answered) in nexts {
                    let hand = match &reply {
                        _ if !answered => Hand::Unsure(None),
                        Reply::Task(job) => Hand::Reports(job.clone()),
                        Reply::Nothing => Hand::Stops,
                        _ => Hand::Unsure(None),
                    };
                    add(&mut open, (next, hand));
                }
            }
            let Some(job) = job else { continue };
            let mut ways = Vec::new();
            if work.bad < 100 {
                ways.push(Some(self.table.result(&job)));
            }
            if work.bad > 0 {
                ways.push(None);
            }
            for well in ways {
                if !self.is_line(case.at, report_line(&job, well).as_bytes()) {
                    continue;
                }
                let case = Case { at: case.at + 1, ..case.clone() };
                let report = Call::Report { flow: job.flow, step: job.step, attempt: job.attempt, well };
                let (reply, nexts) = self.call(&case, &report);
                for (next, answered) in nexts {
                    let hand = match &reply {
                        _ if !answered => Hand::Unsure(Some(job.clone())),
                        Reply::Yes => Hand::Takes,
                        _ => Hand::Unsure(None),
                    };
                    add(&mut open, (next, hand));
                }
            }
        }
        found
    }

    fn thing(&mut self, cases: Vec<Case>, thing: Thing) -> Vec<Case> {
        match thing {
            Thing::Lines(n) => {
                self.rules.lines = n;
                cases
            }
            Thing::Table(kind, expr) => {
                self.table.set(kind, expr);
                cases
            }
            Thing::Fail { after } => {
                let mut found = Vec::new();
                for mut case in cases {
                    let at_once = after == 0 && case.waiting == 0;
                    case.waiting += 1;
                    if !at_once {
                        add(&mut found, case);
                    } else if self.is_line(case.at, FELL) {
                        add(&mut found, self.fallen(&case));
                    }
                }
                found
            }
            Thing::Call(call) => self.with_falls(cases, &mut |checker, case| {
                let (_, nexts) = checker.call(case, &call);
                nexts.into_iter().map(|(next, _)| next).collect()
            }),
            Thing::In(line) => self.with_falls(cases, &mut |checker, case| {
                let mut after = case.house.clone();
                let answer = format!("out {}", wire::to_hex(&wire::answer(&mut after, &line, checker.rules)));
                checker.answered(case, after, answer.as_bytes()).into_iter().map(|(next, _)| next).collect()
            }),
            Thing::Work(work) => self.with_falls(cases, &mut |checker, case| checker.work(case, &work)),
            Thing::Flows => self.with_falls(cases, &mut |checker, case| checker.flows(case)),
        }
    }

    fn difference(&self, place: &str) -> String {
        let mut told = place.to_string();
        let last = self.expected.iter().map(|(at, _)| *at).max();
        for (at, right) in &self.expected {
            let got = self.line(*at).map_or("the end".into(), String::from_utf8_lossy);
            let mark = if Some(*at) == last { "" } else { " (earlier)" };
            told += &format!("\n  line {} printed{mark}: expected `{}`, got `{}`", at + 1, shortened(right), shortened(&got));
        }
        told
    }
}

/// Lines may be of many thousand bytes.
fn shortened(text: &str) -> String {
    let most = 300;
    if text.chars().count() <= most { text.into() } else { text.chars().take(most).collect::<String>() + " .." }
}

/// The first difference, if there is one.
pub fn check(script: Vec<Numbered>, printed: &[Vec<u8>], no_tell: bool) -> Result<(), String> {
    let mut checker = Checker { rules: Rules::new(no_tell), table: Table::default(), printed, expected: BTreeSet::new() };
    let mut cases = vec![Case { house: House::new(), at: 0, waiting: 0 }];
    for Numbered { line, text, thing } in script {
        checker.expected.clear();
        cases = checker.thing(cases, thing);
        let place = format!("line {line} of the script: {}", shortened(&text));
        if cases.is_empty() {
            return Err(checker.difference(&place));
        }
        if cases.len() > CASES {
            return Err(format!("{place}\n  too many houses are possible here"));
        }
    }
    checker.expected.clear();
    cases = checker.thing(cases, Thing::Flows);
    if cases.is_empty() {
        return Err(checker.difference("the flows at the end of the script"));
    }
    let furthest = cases.iter().map(|case| case.at).max().unwrap_or(0);
    if furthest < printed.len() {
        let more = String::from_utf8_lossy(&printed[furthest]);
        return Err(format!("the end of the script\n  line {} printed: expected the end, got `{more}`", furthest + 1));
    }
    Ok(())
}
