//! Makes random scripts. It carries the model along, so that many of the calls hit something.

use crate::alone::run_alone;
use crate::house::{Call, House, Reply, Rules, Standing};
use crate::plan::{FAR, Part, Phase, Stmt};
use crate::run::Shift;
use crate::script::{Thing, read_line};
use crate::text::{TEXT_LIMIT, read_plan};
use crate::wire;

const KINDS: [u64; 5] = [1, 2, 3, 7, 4294967295];
const KEYS: [&str; 8] = ["a", "b", "c", "inn", "ferry", "k-1", "X!y", "zz"];
const NAMES: [&str; 4] = ["n", "word", "yes", "go"];
/// The variables from here on count loops, and nothing else sets them.
const COUNTERS: u64 = 56;

/// Random choices.
struct Dice(Shift);

impl Dice {
    fn new(seed: u64) -> Dice {
        let mut shift = Shift::new(seed.wrapping_add(1).wrapping_mul(0x9E37_79B9_7F4A_7C15));
        for _ in 0..8 {
            shift.draw();
        }
        Dice(shift)
    }

    fn below(&mut self, n: u64) -> u64 {
        (self.0.draw() >> 11) % n
    }

    fn chance(&mut self, percent: u64) -> bool {
        self.below(100) < percent
    }

    fn among(&mut self, from: u64, to: u64) -> u64 {
        from + self.below(to - from + 1)
    }

    fn one<T: Copy>(&mut self, of: &[T]) -> T {
        of[self.below(of.len() as u64) as usize]
    }

    fn value(&mut self) -> u64 {
        match self.below(12) {
            0 => u64::MAX - self.below(3),
            1 => 1 << self.below(64),
            2 => self.0.draw(),
            _ => self.below(12),
        }
    }
}

/// Where a statement stands: how deep, and whether a task may be asked for there.
#[derive(Clone, Copy)]
struct Spot {
    depth: u64,
    loops: u64,
    tasks: bool,
}

/// The words and signs of a plan.
struct Plans<'a> {
    dice: &'a mut Dice,
    said: Vec<String>,
}

impl Plans<'_> {
    fn say(&mut self, words: &str) {
        self.said.extend(words.split_whitespace().map(String::from));
    }

    fn var(&mut self) -> String {
        format!("v{}", self.dice.below(8))
    }

    fn expr(&mut self, depth: u64) {
        match self.dice.below(if depth == 0 { 4 } else { 9 }) {
            0 | 1 => {
                let n = self.dice.value();
                self.say(&n.to_string());
            }
            2 | 3 => {
                let v = self.var();
                self.say(&v);
            }
            4 => {
                self.say("not");
                self.expr(depth - 1);
            }
            5 => {
                self.say("(");
                self.expr(depth - 1);
                self.say(")");
            }
            _ => {
                self.expr(depth - 1);
                let sign = self.dice.one(&["+", "-", "*", "<", "=", "+", "-"]);
                self.say(sign);
                self.expr(depth - 1);
            }
        }
    }

    fn wait(&mut self) {
        match self.dice.below(6) {
            0 => self.expr(2),
            1 => self.say("v0 * 10"),
            _ => {
                let ms = self.dice.below(150);
                self.say(&ms.to_string());
            }
        }
    }

    fn task(&mut self) {
        let (var, kind) = (self.var(), self.dice.one(&KINDS));
        self.say(&format!("{var} = do {kind} ("));
        let most = if self.dice.chance(5) { 16 } else { 3 };
        for i in 0..self.dice.below(most + 1) {
            if i > 0 {
                self.say(",");
            }
            self.expr(1);
        }
        let tries = if self.dice.chance(5) { 32 } else { self.dice.among(1, 4) };
        let pause = if self.dice.chance(5) { 86_400_000 } else { self.dice.below(4) * 10 };
        self.say(&format!(") tries {tries} pause {pause}"));
    }

    fn counted(&mut self, spot: Spot) {
        let counter = COUNTERS + spot.loops;
        let times = if spot.tasks { self.dice.below(4) } else { self.dice.below(700) };
        self.say(&format!("set v{counter} = {times} while"));
        let test = self.dice.one(&["", "0 <", "not not"]);
        self.say(&format!("{test} v{counter} {{ set v{counter} = v{counter} - 1"));
        self.part(Spot { depth: spot.depth - 1, loops: spot.loops + 1, ..spot });
        self.say("}");
    }

    /// A loop that may go on for ever: a task in it stands behind a sleep.
    fn endless(&mut self, spot: Spot) {
        self.say("while");
        if self.dice.chance(50) {
            self.say("1");
        } else {
            self.expr(2);
        }
        self.say("{");
        let sleeps = self.dice.chance(60);
        if sleeps {
            self.say("sleep");
            self.wait();
        }
        self.part(Spot { depth: spot.depth - 1, loops: spot.loops + 1, tasks: spot.tasks && sleeps });
        self.say("}");
    }

    fn statement(&mut self, spot: Spot) {
        let flat = spot.depth == 0;
        match self.dice.below(if flat { 12 } else { 20 }) {
            0 | 1 => {
                let var = self.var();
                self.say(&format!("set {var} ="));
                self.expr(3);
            }
            2..=6 if spot.tasks => self.task(),
            3 | 7 => {
                self.say("sleep");
                self.wait();
            }
            4 | 8 => {
                let v = self.dice.below(8);
                let w = (v + self.dice.among(1, 7)) % 8;
                let name = self.dice.one(&NAMES);
                self.say(&format!("v{v}, v{w} = hear {name} for"));
                self.wait();
            }
            9 => self.say("fail"),
            5 | 10 if self.dice.chance(60) => {
                self.say("return");
                self.expr(3);
            }
            12..=14 => {
                self.say("if");
                self.expr(2);
                self.say("{");
                let inner = Spot { depth: spot.depth - 1, ..spot };
                self.part(inner);
                self.say("} else {");
                self.part(inner);
                self.say("}");
            }
            15 | 16 => {
                self.say("guard {");
                let inner = Spot { depth: spot.depth - 1, ..spot };
                self.part(inner);
                self.say("} else {");
                self.part(inner);
                self.say("}");
            }
            17 | 18 => self.counted(spot),
            19 => self.endless(spot),
            _ => {
                let var = self.var();
                self.say(&format!("set {var} = {var} + 1"));
            }
        }
    }

    fn part(&mut self, spot: Spot) {
        for _ in 0..self.dice.below(4) {
            self.statement(spot);
        }
    }

    fn whole(&mut self) {
        let summed = self.dice.chance(50);
        if summed {
            for v in 0..8 {
                if self.dice.chance(60) {
                    let n = self.dice.value();
                    self.say(&format!("set v{v} = {n}"));
                }
            }
        }
        for _ in 0..self.dice.among(1, 5) {
            let depth = self.dice.below(4);
            self.statement(Spot { depth, loops: 0, tasks: true });
        }
        if summed {
            self.say("return v0 + v1 * 3 + v2 * 7 + v3 * 11 + v4 * 13 + v5 * 17 + v6 * 19 + v7 * 23");
        } else if self.dice.chance(50) {
            self.say("return");
            self.expr(3);
        }
    }

    /// Damages the plan, or goes past one of the limits.
    fn spoil(&mut self) {
        if self.said.is_empty() || self.dice.chance(40) {
            let long = format!("v1, v2 = hear {} for 1", "n".repeat(65));
            let deep = format!("set v1 = {}1{}", "( ".repeat(257), " )".repeat(257));
            let many = format!("v1 = do 1 (1{}) tries 1 pause 0", " , 1".repeat(16));
            let past = self.dice.one(&[
                "set v64 = 1",
                "set v01 = 1",
                "v1 = do 1 () tries 0 pause 0",
                "v1 = do 1 () tries 33 pause 0",
                "v1 = do 1 () tries 1 pause 86400001",
                "v1 = do 4294967296 () tries 1 pause 0",
                "return 18446744073709551616",
                "v1, v1 = hear n for 1",
                "v1, v2 = hear for for 1",
                "v1, v2 = hear N for 1",
                "if 1 { }",
                "while { }",
                "set v1 = 1 +",
                "return ; 1",
                &long,
                &deep,
                &many,
            ]);
            self.say(past);
            return;
        }
        let at = self.dice.below(self.said.len() as u64) as usize;
        let other = self.dice.below(self.said.len() as u64) as usize;
        match self.dice.below(4) {
            0 => {
                self.said.remove(at);
            }
            1 => self.said.insert(at, self.said[other].clone()),
            2 => self.said.swap(at, other),
            _ => {
                let sign = self.dice.one(&["(", ")", "{", "}", ",", "=", "<", "not", "else", "v7", "0", "x", "$", "v64", "do"]);
                self.said[at] = sign.into();
            }
        }
    }

    /// Parts in parts, near the number of frames that a flow may have.
    fn deep(&mut self) {
        let most = self.dice.among(61, 67);
        let (mut frames, mut ends) = (1, Vec::new());
        while frames < most {
            let tail = if self.dice.chance(85) { "set v2 = v2 + 1" } else { "" };
            frames += !tail.is_empty() as u64;
            match self.dice.below(4) {
                0 => {
                    frames += 1;
                    self.say("guard {");
                    ends.push(format!("}} else {{ set v3 = v3 + 1 }} {tail}"));
                }
                1 => {
                    frames += 1;
                    self.say("while v4 < 1 {");
                    ends.push(format!("}} {tail}"));
                }
                _ => {
                    self.say("if 1 {");
                    ends.push(format!("}} else {{ }} {tail}"));
                }
            }
        }
        let inner = self.dice.one(&["set v1 = 5", "fail", "return 5", "sleep 1", "v1 = do 1 () tries 1 pause 0"]);
        // first, so that no loop goes on after a failure
        self.say(&format!("set v4 = 1 {inner} set v5 = 1"));
        while let Some(end) = ends.pop() {
            self.say(&end);
        }
        self.say("return v1 + v2 * 100 + v3 * 10000");
    }

    /// Near a thousand moves, however they come about.
    fn long(&mut self) {
        let body = self.said.len();
        for _ in 0..self.dice.among(1, 4) {
            let v = self.dice.below(4);
            match self.dice.below(6) {
                0 => self.say(&format!("set v{v} = v1 + {v}")),
                1 => self.say(&format!("if v{v} {{ set v{v} = 0 }} else {{ }}")),
                2 => self.say(&format!("guard {{ set v{v} = 3 }} else {{ }}")),
                3 => self.say(&format!("guard {{ if v{v} {{ fail }} else {{ }} }} else {{ set v{v} = 0 }}")),
                4 => self.say("guard { } else { fail } while 0 { }"),
                _ => self.say(&format!("set v9 = 2 while v9 {{ set v9 = v9 - 1 set v{v} = v9 }}")),
            }
        }
        let body = self.said.split_off(body).join(" ");
        let moves = |times: u64, more: usize| {
            let text = format!("while v8 < {times} {{ {body} set v8 = v8 + 1 }} {}return v0", "set v7 = 1 ".repeat(more));
            let moves = read_plan(text.as_bytes()).map_or(0, |plan| run_alone(&plan, &[], 5000).moves);
            (text, moves)
        };
        let wanted = self.dice.among(998, 1002);
        let times = (1..500).take_while(|n| moves(*n, 0).1 <= wanted).last().unwrap_or(1);
        let more = wanted.saturating_sub(moves(times, 0).1);
        self.say(&moves(times, more as usize).0);
    }

    /// Some plans at the limits, or just past them.
    fn at_limit(&mut self) {
        match self.dice.below(8) {
            0 | 1 => self.deep(),
            2..=4 => self.long(),
            5 => self.say(&format!("return {}v0{}", "( ".repeat(256), " )".repeat(256))),
            6 => {
                let size = self.dice.among(4094, 4098);
                self.say(&sized(size));
            }
            _ => {
                let name = "n".repeat(64);
                self.say(&format!("v1, v2 = hear {name} for 18446744073709551615 return v1"));
            }
        }
    }

    /// One text, on one line if it must be.
    fn text(&mut self, one_line: bool) -> String {
        let tight = self.dice.chance(20);
        let mut text = String::new();
        for word in &self.said {
            let sign = |c: Option<char>| c.is_some_and(|c| !c.is_ascii_alphanumeric());
            if !(tight && (sign(text.chars().last()) || sign(word.chars().next()))) {
                text.push_str(match self.dice.below(30) {
                    0 => "  ",
                    1 => "\t",
                    2 if !one_line => "\n",
                    3 if !one_line => " # so it is\n",
                    4 if !one_line => "\r\n",
                    _ => " ",
                });
            }
            text.push_str(word);
        }
        text.trim().to_string()
    }
}

/// A plan of just this size, at least 4.
fn sized(size: u64) -> String {
    let odd = size % 2 == 1;
    let sets = "set v0=1 ".repeat(((size - if odd { 1 } else { 4 }) / 2) as usize);
    sets + if odd { "" } else { "set v0=not 1" }
}

/// A plan in which a worker might never come to an end.
fn is_risky(part: &Part) -> bool {
    fn asks(part: &Part) -> bool {
        part.iter().any(|s| match s {
            Stmt::Do { .. } => true,
            Stmt::If { yes, no, .. } => asks(yes) || asks(no),
            Stmt::Guard { body, rescue } => asks(body) || asks(rescue),
            Stmt::While { body, .. } => asks(body),
            _ => false,
        })
    }
    part.iter().any(|s| match s {
        Stmt::If { yes, no, .. } => is_risky(yes) || is_risky(no),
        Stmt::Guard { body, rescue } => is_risky(body) || is_risky(rescue),
        Stmt::While { body, .. } => asks(body),
        _ => false,
    })
}

fn plan_text(dice: &mut Dice, one_line: bool) -> String {
    let mut plans = Plans { dice, said: Vec::new() };
    match plans.dice.below(40) {
        0 => plans.say("while 1 { }"),
        1 => plans.say("while 1 { set v1 = v1 + 1 }"),
        2 => plans.say("guard { v1 = do 7 () tries 1 pause 0 fail } else { return 3 }"),
        3 => plans.say("v1, v2 = hear n for 100 return v1 + v2"),
        4..=6 => plans.at_limit(),
        7 => {}
        _ => plans.whole(),
    }
    if plans.dice.chance(12) {
        plans.spoil();
        let text = plans.text(one_line);
        // what was spoilt may be a plan still, but not one that a worker never ends
        return if read_plan(text.as_bytes()).is_some_and(|p| is_risky(&p)) { "fail fail {".into() } else { text };
    }
    plans.text(one_line)
}

struct Maker {
    dice: Dice,
    no_tell: bool,
    rules: Rules,
    house: House,
    /// Tries that were handed out at some time.
    handed: Vec<(u64, u64, u64)>,
    /// The time that was told last, as far as the model knows.
    clock: u64,
    /// Power has failed or may have.
    shaken: bool,
    /// How many lines of a hundred are failures.
    failing: u64,
    lines: Vec<String>,
}

impl Maker {
    fn push(&mut self, mut line: String) {
        match self.dice.below(60) {
            0 => self.lines.push(String::new()),
            1 => self.lines.push("# and now".into()),
            2 => line += " # so",
            _ => {}
        }
        self.lines.push(line);
    }

    fn key(&mut self) -> String {
        if self.dice.chance(80) && !self.house.flows.is_empty() {
            let at = self.dice.below(self.house.flows.len() as u64) as usize;
            return String::from_utf8_lossy(&self.house.flows[at].key).into_owned();
        }
        match self.dice.below(60) {
            0 => "k".repeat(64),
            1 => "k".repeat(65),
            _ => self.dice.one(&KEYS).into(),
        }
    }

    fn kinds(&mut self) -> Vec<u64> {
        match self.dice.below(40) {
            0 => (0..64).collect(),
            1 => (0..65).collect(),
            2..=20 => KINDS.to_vec(),
            _ => (0..self.dice.among(1, 4)).map(|_| self.dice.one(&KINDS)).collect(),
        }
    }

    fn ms(&mut self) -> u64 {
        match self.dice.below(30) {
            0 => 86_400_000,
            1 => 86_400_001,
            2 => 0,
            _ => self.dice.below(150),
        }
    }

    fn is_any_out(&self) -> bool {
        self.house.tasks.iter().any(|t| matches!(t.standing, Standing::Out(_)))
    }

    /// The key of a flow that is over or is not, if there is one.
    fn key_of(&mut self, over: bool) -> String {
        let keys: Vec<&[u8]> = self.house.flows.iter().filter(|x| x.phase.is_over() == over).map(|x| &x.key[..]).collect();
        if keys.is_empty() || self.dice.chance(30) {
            return self.key();
        }
        String::from_utf8_lossy(self.dice.one(&keys)).into_owned()
    }

    /// A try, mostly one that is out.
    fn attempt(&mut self) -> (u64, u64, u64) {
        let out: Vec<_> = self
            .house
            .tasks
            .iter()
            .filter(|t| matches!(t.standing, Standing::Out(_)))
            .map(|t| (t.job.flow, t.job.step, t.job.attempt))
            .collect();
        let (flow, step, attempt) = if !out.is_empty() && self.dice.chance(80) {
            self.dice.one(&out)
        } else if !self.handed.is_empty() && self.dice.chance(80) {
            self.dice.one(&self.handed)
        } else {
            (self.dice.below(6), self.dice.below(3), self.dice.below(3))
        };
        match self.dice.below(20) {
            0 => (flow, step, attempt + 1),
            1 => (flow, step + 1, attempt),
            2 => (flow + 1, step, attempt),
            _ => (flow, step, attempt),
        }
    }

    /// When something will be over or due.
    fn events(&self) -> Vec<u64> {
        let tasks = self.house.tasks.iter().map(|t| match t.standing {
            Standing::Due(at) => at,
            Standing::Out(until) => until,
        });
        let waits = self.house.flows.iter().filter_map(|x| match x.phase {
            Phase::Asleep { until } | Phase::Listens { until, .. } => Some(until),
            _ => None,
        });
        let now = self.clock;
        tasks.chain(waits).filter(|at| (now + 1..now + 100_000_000).contains(at)).collect()
    }

    fn time(&mut self) -> u64 {
        let now = self.clock;
        if self.shaken {
            self.shaken = false;
            match self.dice.below(10) {
                0..=2 => return self.dice.among(1, now),
                3..=5 => return now,
                _ => {}
            }
        }
        let events = self.events();
        if !events.is_empty() && self.dice.chance(50) {
            let event = self.dice.one(&events);
            return self.dice.one(&[event - 1, event, event, event + 1]).max(1);
        }
        match self.dice.below(40) {
            0 => 0,
            1 if self.dice.chance(20) => self.dice.one(&[FAR, FAR - 1, FAR / 2]),
            2 | 3 => now,
            4 => self.dice.among(1, now),
            5 => now + 86_400_000,
            6 => now + 1_000_000,
            _ => now + self.dice.among(1, 120),
        }
    }

    /// A call, and the text of a plan to be started.
    fn call(&mut self, one_line: bool) -> (Call, String) {
        let mut text = String::new();
        let call = match self.dice.below(100) {
            0..=23 => {
                text = plan_text(&mut self.dice, one_line);
                let key = match self.dice.below(10) {
                    0 => self.key(),
                    1..=3 => self.dice.one(&KEYS).to_string(),
                    _ => format!("f{}", self.dice.below(40)),
                };
                let most = if self.dice.chance(4) { 17 } else { 3 };
                let words = (0..self.dice.below(most + 1)).map(|_| self.dice.value()).collect();
                Call::Start { key: key.into(), plan: read_plan(text.as_bytes()), words }
            }
            24..=37 => {
                let (kinds, ms) = (self.kinds(), self.ms());
                Call::Take { kinds, ms }
            }
            38..=51 if !self.is_any_out() && self.dice.chance(75) => Call::Take { kinds: KINDS.to_vec(), ms: self.ms() },
            38..=51 => {
                let (flow, step, attempt) = self.attempt();
                let well = self.dice.chance(65).then(|| self.dice.value());
                Call::Report { flow, step, attempt, well }
            }
            52..=59 => Call::Show { key: if self.dice.chance(40) { self.key_of(false) } else { self.key() }.into() },
            60..=64 => Call::Forget { key: self.key_of(true).into() },
            65..=68 => Call::Cancel { key: self.key_of(false).into() },
            69..=72 => {
                let (flow, step, attempt) = self.attempt();
                Call::Longer { flow, step, attempt, ms: self.ms() }
            }
            73..=82 if !self.no_tell => {
                let name = match self.dice.below(30) {
                    0 => "N1".into(),
                    1 => "n".repeat(65),
                    2 => "n".repeat(64),
                    _ => self.dice.one(&NAMES).to_string(),
                };
                Call::Tell { key: self.key_of(false).into(), name: name.into(), value: self.dice.value() }
            }
            _ => Call::Time(self.time()),
        };
        (call, text)
    }

    /// Carries the model along.
    fn follow(&mut self, call: &Call) {
        if let Reply::Task(job) = self.house.call(call, self.rules) {
            self.handed.push((job.flow, job.step, job.attempt));
        }
        if self.house.now > 0 {
            self.clock = self.house.now;
        }
    }

    fn call_line(&mut self) {
        let (call, text) = self.call(true);
        self.follow(&call);
        self.push(call_text(&call, &text));
    }

    fn bytes_line(&mut self) {
        let (mut call, mut text) = self.call(false);
        if let Call::Start { plan, .. } = &mut call
            && self.dice.chance(2)
        {
            // as long as a text may be, or one byte longer
            let blanks = TEXT_LIMIT + self.dice.below(2) as usize - text.len();
            text.insert_str(0, &" ".repeat(blanks));
            *plan = read_plan(text.as_bytes());
        }
        let mut line = wire::framed(self.dice.value() as u32, &wire::write_call(&call, text.as_bytes()));
        let damaged = self.dice.chance(35);
        if damaged {
            for _ in 0..self.dice.among(1, 2) {
                self.damage(&mut line);
            }
            if self.dice.chance(50) && line.len() >= 9 {
                let length = (line.len() as u32 - 4).to_be_bytes();
                line[..4].copy_from_slice(&length);
            }
        }
        if line.is_empty() || !self.is_harmless(&line, damaged) {
            return;
        }
        if let Some(call) = wire::unframed(&line).and_then(wire::read_call) {
            self.follow(&call);
        }
        let hex = wire::to_hex(&line);
        let hex = if self.dice.chance(10) { hex.to_uppercase() } else { hex };
        self.push(format!("in {hex}"));
    }

    fn damage(&mut self, line: &mut Vec<u8>) {
        if line.is_empty() {
            return;
        }
        let at = self.dice.below(line.len() as u64) as usize;
        match self.dice.below(8) {
            0 => line.truncate(at),
            1 => line.push(self.dice.below(256) as u8),
            2 => line[at] ^= 1 << self.dice.below(8),
            3 => {
                line.remove(at);
            }
            4 => line.insert(at, self.dice.below(256) as u8),
            5 if line.get(8) == Some(&6) && line.len() > 27 => line[27] = self.dice.one(&[0, 1, 2, 128, 255]),
            6 if line.len() > 9 => line[9] = self.dice.one(&[0, 1, 2, 64, 65, 66, 255]),
            _ if line.len() > 8 => line[8] = self.dice.one(&[0, 1, 3, 4, 5, 6, 7, 8, 9, 10, 255]),
            _ => {}
        }
    }

    /// Damaged bytes may be another call; keys stay printable, and workers come to an end.
    fn is_harmless(&self, line: &[u8], damaged: bool) -> bool {
        if line.get(8) == Some(&wire::TELL) && self.no_tell {
            return false;
        }
        let Some(Call::Start { key, plan, .. }) = wire::unframed(line).and_then(wire::read_call) else { return true };
        let printable = key.iter().all(|b| b.is_ascii_graphic() && *b != b'#' && *b != b':');
        printable && !(damaged && plan.is_some_and(|p| is_risky(&p)))
    }

    fn work_line(&mut self) {
        let kinds: String = if self.dice.chance(70) {
            KINDS.iter().map(|k| format!(" {k}")).collect()
        } else {
            format!(" {}", self.dice.one(&KINDS))
        };
        let (ms, seed) = (self.dice.below(100), self.dice.below(1000));
        let bad = self.dice.one(&[0, 0, 0, 10, 30, 50, 100]);
        let line = format!("work{kinds} for {ms} seed {seed} bad {bad}");
        // the model only has to come somewhere near
        if let Ok(Some(Thing::Work(work))) = read_line(&line) {
            let mut draws = Shift::new(seed);
            for _ in 0..200 {
                let take = Call::Take { kinds: work.kinds.clone(), ms };
                let Reply::Task(job) = self.house.call(&take, self.rules) else { break };
                let well = (draws.draw() % 100 >= bad).then_some(1);
                self.house.call(&Call::Report { flow: job.flow, step: job.step, attempt: job.attempt, well }, self.rules);
            }
        }
        self.push(line);
    }

    fn fail(&mut self, after: u64, seed: u64) {
        self.push(format!("fail {after} {seed}"));
        self.shaken = true;
        if after == 0 {
            self.house.fall();
        }
    }

    fn fail_line(&mut self) {
        let after = match self.dice.below(8) {
            0 => 0,
            1 => self.dice.below(4),
            2 | 3 => self.dice.below(40),
            4 | 5 => self.dice.below(400),
            _ => self.dice.below(4000),
        };
        let seed = self.dice.below(1_000_000);
        self.fail(after, seed);
        if self.dice.chance(25) {
            let after = self.dice.below(60);
            self.push(format!("fail {after} {seed}"));
        }
    }

    fn start(&mut self, key: &str, words: Vec<u64>, text: &str) {
        let call = Call::Start { key: key.into(), plan: read_plan(text.as_bytes()), words };
        self.follow(&call);
        self.push(call_text(&call, text));
    }

    /// Power may fail soon.
    fn shake(&mut self, percent: u64) {
        if self.failing > 0 && self.dice.chance(percent) {
            let after = self.dice.one(&[0, 5, 30, 100, 300, 1000]);
            let (after, seed) = (self.dice.below(after + 1), self.dice.below(1_000_000));
            self.fail(after, seed);
        }
    }

    /// Many flows at once, until it is full.
    fn crowd(&mut self) {
        for i in 0..self.dice.among(31, 36) {
            let text = if self.dice.chance(30) {
                plan_text(&mut self.dice, true)
            } else {
                self.dice.one(&["return v0", "sleep 50 return 1", "v1 = do 1 (v0) tries 2 pause 10 return v1", ""]).to_string()
            };
            self.start(&format!("f{i}"), vec![i], &text);
        }
    }

    /// Large flows, and the last of just the size that there is room for, or one more.
    fn brim(&mut self) {
        let room = (32 * self.rules.lines - 524_288) / 16;
        let count = self.dice.among(room / 5120 + 1, 25);
        let mut left = room - 1024 * count;
        for i in 1..count {
            let others = count - i;
            let least = left.saturating_sub(others * 4096).max(4);
            let most = (left - others * 4).min(4096);
            let size = self.dice.among(least, most.max(least));
            left -= size;
            self.start(&format!("f{i}"), vec![], &sized(size));
        }
        if self.dice.chance(60) {
            self.start("more", vec![], &sized(left + 1));
        }
        self.start("last", vec![], &sized(left));
        self.start("late", vec![], "");
    }

    /// Flows of many sizes come and go.
    fn churn(&mut self) {
        for _ in 0..self.dice.among(8, 20) {
            let key = format!("c{}", self.dice.below(6));
            let size = if self.dice.chance(50) { self.dice.among(4, 60) } else { self.dice.among(60, 4096) };
            let text = if self.dice.chance(70) { sized(size) } else { plan_text(&mut self.dice, true) };
            self.start(&key, vec![], &text);
            self.shake(10);
            if self.house.now == 0 {
                self.does(Call::Time(self.clock));
            }
            if self.dice.chance(70) {
                let key = format!("c{}", self.dice.below(6));
                self.does(Call::Cancel { key: key.clone().into() });
                self.does(Call::Forget { key: key.into() });
            }
        }
    }

    /// Some words come before they are heard.
    fn letters(&mut self) {
        let (near, long) = ("n".repeat(63), "n".repeat(64));
        let names: [&str; 2] = if self.dice.chance(80) { ["n", "word"] } else { [&near, &long] };
        let mut text = "sleep 20 ".to_string();
        for i in 0..self.dice.among(2, 4) {
            let name = self.dice.one(&names);
            text += &format!("v{}, v{} = hear {name} for 30 ", 2 * i, 2 * i + 1);
        }
        text += "return v0 + v2 * 100 + v4 * 10000 + v6 * 1000000 + (v1 + v3 + v5 + v7) * 100000000";
        let key = format!("l{}", self.dice.below(100));
        self.start(&key, vec![], &text);
        for _ in 0..self.dice.among(2, 6) {
            let name = self.dice.one(&names);
            let value = self.dice.below(100);
            self.shake(15);
            self.does(Call::Tell { key: key.clone().into(), name: name.into(), value });
            if self.shaken && self.dice.chance(60) {
                self.does(Call::Time(self.clock));
            }
        }
        self.shake(30);
        let time = self.clock + self.dice.among(20, 40);
        self.does(Call::Time(time));
        if self.shaken {
            self.does(Call::Time(time));
        }
        self.push(format!("show {key}"));
    }

    fn does(&mut self, call: Call) {
        self.follow(&call);
        self.push(call_text(&call, ""));
    }

    /// A task that goes wrong again and again; its kind is of no other plan.
    fn retries(&mut self) {
        let key = format!("r{}", self.dice.below(100));
        let (tries, pause) = (self.dice.among(3, 6), self.dice.among(1, 20));
        self.start(&key, vec![], &format!("v1 = do 5 () tries {tries} pause {pause} return v1"));
        for _ in 0..tries {
            self.shake(20);
            if self.house.now == 0 {
                self.does(Call::Time(self.clock));
            }
            self.does(Call::Take { kinds: vec![5], ms: 15 });
            let Some(task) = self.house.tasks.iter().find(|t| t.job.kind == 5 && matches!(t.standing, Standing::Out(_))) else {
                return;
            };
            let job = task.job.clone();
            if self.dice.chance(70) {
                self.does(Call::Report { flow: job.flow, step: job.step, attempt: job.attempt, well: None });
            } else {
                self.does(Call::Time(self.clock + 16));
            }
            let Some(task) = self.house.tasks.iter().find(|t| t.job.flow == job.flow) else { break };
            let Standing::Due(due) = task.standing else { return };
            if self.dice.chance(30) {
                self.does(Call::Time(due - 1));
                self.does(Call::Take { kinds: vec![5], ms: 15 });
            }
            self.does(Call::Time(due));
        }
        self.does(Call::Show { key: key.into() });
    }

    /// A plan of just about a thousand moves, looked at when it was begun.
    fn long(&mut self) {
        let mut plans = Plans { dice: &mut self.dice, said: Vec::new() };
        plans.long();
        let text = plans.text(true);
        let key = format!("m{}", self.dice.below(100));
        self.start(&key, vec![], &text);
        self.push(format!("show {key}"));
    }

    /// More words than a box holds.
    fn post(&mut self) {
        self.start(
            "post",
            vec![],
            "sleep 500 while v1 < 70 { v2, v3 = hear n for 20 set v1 = v1 + 1 set v4 = v4 * 3 + v2 } return v4",
        );
        for i in 0..self.dice.among(63, 67) {
            let name = if self.dice.chance(80) { "n" } else { "word" };
            self.does(Call::Tell { key: "post".into(), name: name.into(), value: i });
        }
    }
}

fn call_text(call: &Call, text: &str) -> String {
    let joined = |words: &[u64]| words.iter().map(|w| format!(" {w}")).collect::<String>();
    let plain = |bytes: &[u8]| String::from_utf8_lossy(bytes).into_owned();
    match call {
        Call::Start { key, words, .. } => format!("start {}{} : {text}", plain(key), joined(words)),
        Call::Tell { key, name, value } => format!("tell {} {} {value}", plain(key), plain(name)),
        Call::Cancel { key } => format!("cancel {}", plain(key)),
        Call::Take { kinds, ms } => format!("take{} for {ms}", joined(kinds)),
        Call::Longer { flow, step, attempt, ms } => format!("longer {flow} {step} {attempt} {ms}"),
        Call::Report { flow, step, attempt, well: Some(value) } => format!("report {flow} {step} {attempt} well {value}"),
        Call::Report { flow, step, attempt, well: None } => format!("report {flow} {step} {attempt} bad"),
        Call::Show { key } => format!("show {}", plain(key)),
        Call::Forget { key } => format!("forget {}", plain(key)),
        Call::Time(time) => format!("time {time}"),
    }
}

/// More flows than a house may have, whatever room there is.
pub fn make_many(seed: u64) -> Vec<String> {
    let mut dice = Dice::new(seed);
    let mut lines = vec!["lines 600000".to_string(), "time 1".into()];
    let plans = ["return v0", "sleep 5 return 1", "v1 = do 1 (v0) tries 2 pause 10 return v1"];
    for i in 0..1100 {
        lines.push(format!("start f{i} {i} : {}", dice.one(&plans)));
        if dice.chance(1) {
            lines.push(format!("fail {} {i}", dice.below(3000)));
        }
        if dice.chance(20) {
            lines.push("time 2".into());
        }
        if dice.chance(1) {
            lines.push(format!("forget f{}", dice.below(i + 1)));
        }
    }
    for i in 1090..1140 {
        lines.push(format!("time {}", dice.among(1, 20)));
        lines.push(format!("cancel f{}", dice.below(1000)));
        lines.push(format!("forget f{}", dice.below(1000)));
        lines.push(format!("start f{i} : {}", dice.one(&plans)));
        lines.push("take 1 for 5".into());
    }
    lines
}

/// A random script; without failures where `calm`.
pub fn make(seed: u64, no_tell: bool, calm: bool) -> Vec<String> {
    let mut maker = Maker {
        dice: Dice::new(seed),
        no_tell,
        rules: Rules::new(no_tell),
        house: House::new(),
        handed: Vec::new(),
        clock: 1,
        shaken: false,
        failing: 0,
        lines: Vec::new(),
    };
    if maker.dice.chance(15) {
        maker.rules.lines += maker.dice.below(8000);
        maker.push(format!("lines {}", maker.rules.lines));
    }
    for kind in KINDS {
        let mut plans = Plans { dice: &mut maker.dice, said: Vec::new() };
        plans.expr(2);
        let text = plans.text(true);
        maker.push(format!("table {kind} {text}"));
    }
    if maker.dice.chance(85) {
        let time = maker.dice.among(1, 100);
        maker.follow(&Call::Time(time));
        maker.push(format!("time {time}"));
    }
    let length = maker.dice.among(50, 120) as usize;
    maker.failing = if calm { 0 } else { maker.dice.one(&[0, 3, 5, 8]) };
    match maker.dice.below(25) {
        0 => maker.crowd(),
        1 => maker.brim(),
        2 if !no_tell => maker.post(),
        3 => maker.churn(),
        _ => {}
    }
    while maker.lines.len() < length {
        match maker.dice.below(100) {
            0..=3 => {
                maker.shake(30);
                maker.work_line();
            }
            4 => maker.push("flows".into()),
            5 if !no_tell => maker.letters(),
            6 if maker.dice.chance(50) => maker.long(),
            6 if maker.house.now > 0 => maker.retries(),
            7..=14 => maker.bytes_line(),
            n if n >= 100 - maker.failing => maker.fail_line(),
            15..=20 if maker.house.now == 0 || maker.shaken => {
                let time = maker.time();
                maker.does(Call::Time(time));
            }
            _ => maker.call_line(),
        }
    }
    maker.lines.truncate(120);
    maker.lines
}
