//! The language of plans, and what one flow does by itself.

use std::rc::Rc;

/// A flow that waits longer than this many ms waits just so long; also the bound of steps and of times.
pub const FAR: u64 = 1 << 62;
/// More frames than these at once are a failure of the whole flow.
pub const FRAMES: usize = 64;
pub const VARS: usize = 64;
pub const SIZE_LIMIT: u64 = 4096;

pub type Vars = [u64; VARS];
pub type Part = Rc<Vec<Stmt>>;

#[derive(Debug, Clone, Copy, PartialEq, Eq)]
pub enum Joint {
    Plus,
    Minus,
    Times,
    Less,
    Same,
}

#[derive(Debug, PartialEq)]
pub enum Expr {
    Lit(u64),
    Var(u8),
    Joined(Joint, Box<Expr>, Box<Expr>),
    Not(Box<Expr>),
}

#[derive(Debug, PartialEq)]
pub enum Stmt {
    Set { var: u8, to: Expr },
    Do { var: u8, kind: u32, words: Vec<Expr>, tries: u32, pause: u64 },
    Sleep(Expr),
    Hear { value: u8, came: u8, name: Rc<Vec<u8>>, ms: Expr },
    If { test: Expr, yes: Part, no: Part },
    While { test: Expr, body: Part },
    Guard { body: Part, rescue: Part },
    Return(Expr),
    Fail,
}

impl Expr {
    pub fn value(&self, vars: &Vars) -> u64 {
        match self {
            Expr::Lit(n) => *n,
            Expr::Var(v) => vars[*v as usize],
            Expr::Not(a) => (a.value(vars) == 0) as u64,
            Expr::Joined(joint, a, b) => {
                let (a, b) = (a.value(vars), b.value(vars));
                match joint {
                    Joint::Plus => a.wrapping_add(b),
                    Joint::Minus => a.wrapping_sub(b),
                    Joint::Times => a.wrapping_mul(b),
                    Joint::Less => (a < b) as u64,
                    Joint::Same => (a == b) as u64,
                }
            }
        }
    }

    pub fn size(&self) -> u64 {
        match self {
            Expr::Lit(_) | Expr::Var(_) => 1,
            Expr::Not(a) => 1 + a.size(),
            Expr::Joined(_, a, b) => 1 + a.size() + b.size(),
        }
    }
}

impl Stmt {
    fn size(&self) -> u64 {
        match self {
            Stmt::Set { to, .. } => 1 + to.size(),
            Stmt::Do { words, .. } => 4 + words.iter().map(Expr::size).sum::<u64>(),
            Stmt::Sleep(e) | Stmt::Return(e) => 1 + e.size(),
            Stmt::Hear { ms, .. } => 17 + ms.size(),
            Stmt::If { test, yes, no } => 1 + test.size() + size_of(yes) + size_of(no),
            Stmt::While { test, body } => 1 + test.size() + size_of(body),
            Stmt::Guard { body, rescue } => 1 + size_of(body) + size_of(rescue),
            Stmt::Fail => 1,
        }
    }
}

/// How large a plan is; the end of each part counts as well.
pub fn size_of(part: &[Stmt]) -> u64 {
    1 + part.iter().map(Stmt::size).sum::<u64>()
}

/// Statements `from` up to `to` of a part.
#[derive(Debug, Clone)]
pub struct Span {
    pub part: Part,
    pub from: usize,
    pub to: usize,
}

impl Span {
    pub fn whole(part: &Part) -> Span {
        Span { part: part.clone(), from: 0, to: part.len() }
    }
}

/// Two spans are taken to be the same only if they are of the same part in memory.
impl PartialEq for Span {
    fn eq(&self, other: &Span) -> bool {
        Rc::ptr_eq(&self.part, &other.part) && self.from == other.from && self.to == other.to
    }
}

/// What is still to be done. The innermost frame is the last of a flow's list.
#[derive(Debug, Clone, PartialEq)]
pub enum Frame {
    Rest(Span),
    /// Here a guarded part ends; a failure inside goes on with this span.
    Catch(Span),
}

#[derive(Debug, Clone, PartialEq)]
pub enum Phase {
    Busy,
    Tasked { step: u64 },
    Asleep { until: u64 },
    Listens { value: u8, came: u8, name: Rc<Vec<u8>>, until: u64 },
    Ended(u64),
    Failed,
}

impl Phase {
    pub fn is_over(&self) -> bool {
        matches!(self, Phase::Ended(_) | Phase::Failed)
    }
}

#[derive(Debug, Clone, PartialEq)]
pub struct Word {
    pub name: Vec<u8>,
    pub value: u64,
}

/// A task that a flow asks for.
#[derive(Debug, PartialEq)]
pub struct Wish {
    pub kind: u32,
    pub words: Vec<u64>,
    pub tries: u32,
    pub pause: u64,
}

#[derive(Debug, Clone, PartialEq)]
pub struct Flow {
    pub id: u64,
    pub key: Vec<u8>,
    pub phase: Phase,
    pub frames: Vec<Frame>,
    pub vars: Vars,
    /// How many tasks, sleeps and hearings it has begun.
    pub steps: u64,
    /// The variable that a task's result goes to.
    pub into: u8,
    pub letters: Vec<Word>,
    pub size: u64,
}

impl Flow {
    pub fn new(id: u64, key: Vec<u8>, plan: &Part, words: &[u64]) -> Flow {
        let mut vars = [0; VARS];
        vars[..words.len()].copy_from_slice(words);
        Flow {
            id,
            key,
            phase: Phase::Busy,
            frames: vec![Frame::Rest(Span::whole(plan))],
            vars,
            steps: 0,
            into: 0,
            letters: Vec::new(),
            size: size_of(plan),
        }
    }

    pub fn is_busy(&self) -> bool {
        self.phase == Phase::Busy
    }

    pub fn end(&mut self, phase: Phase) {
        self.phase = phase;
        self.frames.clear();
    }

    /// A failure goes to the nearest guard around it, else the flow has failed.
    pub fn break_off(&mut self) {
        loop {
            match self.frames.pop() {
                None => return self.end(Phase::Failed),
                Some(Frame::Rest(_)) => {}
                Some(Frame::Catch(rescue)) => {
                    self.frames.push(Frame::Rest(rescue));
                    self.phase = Phase::Busy;
                    return;
                }
            }
        }
    }

    /// A task's result has come.
    pub fn take_result(&mut self, value: u64) {
        self.vars[self.into as usize] = value;
        self.phase = Phase::Busy;
    }

    /// A hearing is over, with a word or without.
    pub fn hear(&mut self, value_to: u8, came_to: u8, value: u64, came: u64) {
        self.vars[value_to as usize] = value;
        self.vars[came_to as usize] = came;
        self.phase = Phase::Busy;
    }

    /// One move of a busy flow.
    pub fn go_on(&mut self, now: u64) -> Option<Wish> {
        if self.frames.len() > FRAMES || self.steps >= FAR {
            self.end(Phase::Failed);
            return None;
        }
        match self.frames.pop() {
            None => {
                self.end(Phase::Ended(0));
                None
            }
            Some(Frame::Catch(_)) => None,
            Some(Frame::Rest(Span { part, from, to })) => {
                if from == to {
                    return None;
                }
                // nothing is kept of a part of which nothing is left
                if from + 1 < to {
                    self.frames.push(Frame::Rest(Span { part: part.clone(), from: from + 1, to }));
                }
                self.carry_out(now, &part, from)
            }
        }
    }

    fn carry_out(&mut self, now: u64, part: &Part, at: usize) -> Option<Wish> {
        match &part[at] {
            Stmt::Set { var, to } => self.vars[*var as usize] = to.value(&self.vars),
            Stmt::Do { var, kind, words, tries, pause } => {
                self.phase = Phase::Tasked { step: self.steps };
                self.steps += 1;
                self.into = *var;
                let words = words.iter().map(|e| e.value(&self.vars)).collect();
                return Some(Wish { kind: *kind, words, tries: *tries, pause: *pause });
            }
            Stmt::Sleep(e) => {
                self.phase = Phase::Asleep { until: now + e.value(&self.vars).min(FAR) };
                self.steps += 1;
            }
            Stmt::Hear { value, came, name, ms } => {
                self.steps += 1;
                match self.letters.iter().position(|w| w.name == **name) {
                    Some(i) => {
                        let word = self.letters.remove(i);
                        self.hear(*value, *came, word.value, 1);
                    }
                    None => {
                        let until = now + ms.value(&self.vars).min(FAR);
                        self.phase = Phase::Listens { value: *value, came: *came, name: name.clone(), until };
                    }
                }
            }
            Stmt::If { test, yes, no } => {
                let branch = if test.value(&self.vars) == 0 { no } else { yes };
                self.frames.push(Frame::Rest(Span::whole(branch)));
            }
            Stmt::While { test, body } => {
                if test.value(&self.vars) != 0 {
                    self.frames.push(Frame::Rest(Span { part: part.clone(), from: at, to: at + 1 }));
                    self.frames.push(Frame::Rest(Span::whole(body)));
                }
            }
            Stmt::Guard { body, rescue } => {
                self.frames.push(Frame::Catch(Span::whole(rescue)));
                self.frames.push(Frame::Rest(Span::whole(body)));
            }
            Stmt::Return(e) => {
                let value = e.value(&self.vars);
                self.end(Phase::Ended(value));
            }
            Stmt::Fail => self.break_off(),
        }
        None
    }

    /// Up to `limit` moves; how many were made, and the task that it asks for.
    pub fn run(&mut self, now: u64, limit: u64) -> (u64, Option<Wish>) {
        let mut made = 0;
        while made < limit && self.is_busy() {
            made += 1;
            let wish = self.go_on(now);
            if wish.is_some() {
                return (made, wish);
            }
        }
        (made, None)
    }
}
