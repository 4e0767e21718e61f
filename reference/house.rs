//! The house: flows, tasks that workers take, words that come, time.

use crate::plan::{FAR, Flow, Part, Phase, Wish, Word, size_of};
use crate::text::{WORDS_LIMIT, is_word_name};

pub const FLOWS_LIMIT: usize = 1024;
const MOVES: u64 = 1000;
const MS_LIMIT: u64 = 86_400_000;
const KINDS_LIMIT: usize = 64;
const LETTERS_LIMIT: usize = 64;
pub const USUAL_LINES: u64 = 32_768;

/// What differs from one house to another.
#[derive(Debug, Clone, Copy)]
pub struct Rules {
    pub lines: u64,
    /// Telling words is not built.
    pub no_tell: bool,
}

impl Rules {
    pub fn new(no_tell: bool) -> Rules {
        Rules { lines: USUAL_LINES, no_tell }
    }
}

#[derive(Debug, Clone)]
pub enum Call {
    /// No plan: the text was none.
    Start {
        key: Vec<u8>,
        plan: Option<Part>,
        words: Vec<u64>,
    },
    Tell {
        key: Vec<u8>,
        name: Vec<u8>,
        value: u64,
    },
    Cancel {
        key: Vec<u8>,
    },
    Take {
        kinds: Vec<u64>,
        ms: u64,
    },
    Longer {
        flow: u64,
        step: u64,
        attempt: u64,
        ms: u64,
    },
    Report {
        flow: u64,
        step: u64,
        attempt: u64,
        well: Option<u64>,
    },
    Show {
        key: Vec<u8>,
    },
    Forget {
        key: Vec<u8>,
    },
    Time(u64),
}

#[derive(Debug, Clone, PartialEq)]
pub enum State {
    Busy,
    Waits,
    Sleeps,
    Listens,
    Ended(u64),
    Failed,
}

impl State {
    pub fn of(phase: &Phase) -> State {
        match phase {
            Phase::Busy => State::Busy,
            Phase::Tasked { .. } => State::Waits,
            Phase::Asleep { .. } => State::Sleeps,
            Phase::Listens { .. } => State::Listens,
            Phase::Ended(v) => State::Ended(*v),
            Phase::Failed => State::Failed,
        }
    }
}

#[derive(Debug, Clone, PartialEq)]
pub struct Job {
    pub flow: u64,
    pub step: u64,
    pub attempt: u64,
    pub kind: u32,
    pub words: Vec<u64>,
}

#[derive(Debug, Clone, PartialEq)]
pub enum Reply {
    No(u8),
    Yes,
    Flow(u64),
    Task(Job),
    Nothing,
    State(State),
    Full,
}

#[derive(Debug, Clone, Copy, PartialEq)]
pub enum Standing {
    Due(u64),
    Out(u64),
}

#[derive(Debug, Clone, PartialEq)]
pub struct Task {
    pub job: Job,
    pub tries: u64,
    pub pause: u64,
    pub standing: Standing,
}

#[derive(Debug, Clone, PartialEq)]
pub struct House {
    /// 0 where no time was told.
    pub now: u64,
    pub next: u64,
    /// By number.
    pub flows: Vec<Flow>,
    /// A flow has one at most.
    pub tasks: Vec<Task>,
}

fn is_key(key: &[u8]) -> bool {
    (1..=64).contains(&key.len())
}

impl House {
    pub fn new() -> House {
        House { now: 0, next: 1, flows: Vec::new(), tasks: Vec::new() }
    }

    /// What is left when power fails: all but the time.
    pub fn fall(&mut self) {
        self.now = 0;
    }

    pub fn call(&mut self, call: &Call, rules: Rules) -> Reply {
        if rules.no_tell && matches!(call, Call::Tell { .. }) {
            return Reply::No(12);
        }
        if self.now == 0 && !matches!(call, Call::Time(_)) {
            return Reply::No(10);
        }
        self.act(call, rules).unwrap_or_else(Reply::No)
    }

    /// An error is the number of a refusal.
    fn act(&mut self, call: &Call, rules: Rules) -> Result<Reply, u8> {
        match call {
            Call::Start { key, plan, words } => {
                let plan = plan.as_ref().ok_or(1)?;
                if !is_key(key) || words.len() > WORDS_LIMIT {
                    return Err(1);
                }
                self.start(key, plan, words, rules)
            }
            Call::Tell { key, name, value } => {
                if !is_key(key) || !is_word_name(name) {
                    return Err(1);
                }
                let at = self.by_key(key)?;
                self.tell(at, Word { name: name.clone(), value: *value })
            }
            Call::Cancel { key } => {
                let at = self.by_key(key)?;
                let flow = &mut self.flows[at];
                if flow.phase.is_over() {
                    return Err(3);
                }
                flow.end(Phase::Failed);
                let id = flow.id;
                self.tasks.retain(|t| t.job.flow != id);
                Ok(Reply::Yes)
            }
            Call::Take { kinds, ms } => {
                if kinds.len() > KINDS_LIMIT || *ms > MS_LIMIT || kinds.iter().any(|k| *k > u32::MAX as u64) {
                    return Err(1);
                }
                Ok(self.hand_out(kinds, *ms))
            }
            Call::Longer { flow, step, attempt, ms } => {
                if *ms > MS_LIMIT || *attempt > u16::MAX as u64 {
                    return Err(1);
                }
                let until = self.now + ms;
                let at = self.task_out(*flow, *step, *attempt)?;
                self.tasks[at].standing = Standing::Out(until);
                Ok(Reply::Yes)
            }
            Call::Report { flow, step, attempt, well } => {
                if *attempt > u16::MAX as u64 {
                    return Err(1);
                }
                let at = self.task_out(*flow, *step, *attempt)?;
                match well {
                    Some(value) => {
                        self.tasks.remove(at);
                        let at = self.by_number(*flow);
                        self.flows[at].take_result(*value);
                        self.run(at);
                    }
                    None => self.went_wrong(at),
                }
                Ok(Reply::Yes)
            }
            Call::Show { key } => {
                let at = self.by_key(key)?;
                Ok(Reply::State(State::of(&self.flows[at].phase)))
            }
            Call::Forget { key } => {
                let at = self.by_key(key)?;
                if !self.flows[at].phase.is_over() {
                    return Err(3);
                }
                self.flows.remove(at);
                Ok(Reply::Yes)
            }
            Call::Time(time) => {
                if !(1..FAR).contains(time) {
                    return Err(1);
                }
                self.now = self.now.max(*time);
                self.tick();
                Ok(Reply::Yes)
            }
        }
    }

    fn by_key(&self, key: &[u8]) -> Result<usize, u8> {
        if !is_key(key) {
            return Err(1);
        }
        self.flows.iter().position(|x| x.key == key).ok_or(2)
    }

    fn by_number(&self, id: u64) -> usize {
        self.flows.iter().position(|x| x.id == id).expect("a task is of a flow")
    }

    /// The task of which just this try is out.
    fn task_out(&self, flow: u64, step: u64, attempt: u64) -> Result<usize, u8> {
        let at = self.tasks.iter().position(|t| t.job.flow == flow && t.job.step == step).ok_or(2)?;
        let task = &self.tasks[at];
        if task.job.attempt == attempt && matches!(task.standing, Standing::Out(_)) { Ok(at) } else { Err(5) }
    }

    /// A flow goes on by itself; what it asks for becomes a task that is due.
    fn run(&mut self, at: usize) {
        let now = self.now;
        let flow = &mut self.flows[at];
        let (_, wish) = flow.run(now, MOVES);
        let Some(Wish { kind, words, tries, pause }) = wish else { return };
        let Phase::Tasked { step } = flow.phase else { unreachable!("who asks for a task waits for it") };
        let job = Job { flow: flow.id, step, attempt: 1, kind, words };
        self.tasks.push(Task { job, tries: tries as u64, pause, standing: Standing::Due(now) });
    }

    fn weight(size: u64) -> u64 {
        16_384 + 16 * size
    }

    fn start(&mut self, key: &[u8], plan: &Part, words: &[u64], rules: Rules) -> Result<Reply, u8> {
        if let Some(flow) = self.flows.iter().find(|x| x.key == key) {
            return Ok(Reply::Flow(flow.id));
        }
        if self.flows.len() >= FLOWS_LIMIT || self.next >= FAR {
            return Err(8);
        }
        let there: u64 = self.flows.iter().map(|x| House::weight(x.size)).sum();
        let all = there + House::weight(size_of(plan));
        if 64 * rules.lines < 1_048_576 + 2 * all {
            return Ok(Reply::Full);
        }
        let id = self.next;
        self.next += 1;
        self.flows.push(Flow::new(id, key.to_vec(), plan, words));
        self.run(self.flows.len() - 1);
        Ok(Reply::Flow(id))
    }

    fn tell(&mut self, at: usize, word: Word) -> Result<Reply, u8> {
        let flow = &mut self.flows[at];
        if flow.phase.is_over() {
            return Err(3);
        }
        if let Phase::Listens { value, came, name, .. } = &flow.phase
            && **name == word.name
        {
            let (value, came) = (*value, *came);
            flow.hear(value, came, word.value, 1);
            self.run(at);
            return Ok(Reply::Yes);
        }
        if flow.letters.len() >= LETTERS_LIMIT {
            return Err(8);
        }
        flow.letters.push(word);
        Ok(Reply::Yes)
    }

    /// The task that was due first, then that of the lower flow.
    fn hand_out(&mut self, kinds: &[u64], ms: u64) -> Reply {
        let now = self.now;
        let due = |t: &Task| match t.standing {
            Standing::Due(at) if at <= now && kinds.contains(&(t.job.kind as u64)) => Some((at, t.job.flow)),
            _ => None,
        };
        let first = self.tasks.iter_mut().filter(|t| due(t).is_some()).min_by_key(|t| due(t));
        match first {
            None => Reply::Nothing,
            Some(task) => {
                task.standing = Standing::Out(now + ms);
                Reply::Task(task.job.clone())
            }
        }
    }

    /// A try went wrong: the next one after a pause that doubles, or its flow has a failure.
    fn went_wrong(&mut self, at: usize) {
        let now = self.now;
        let task = &mut self.tasks[at];
        if task.job.attempt < task.tries {
            task.standing = Standing::Due(now + (task.pause << (task.job.attempt - 1)));
            task.job.attempt += 1;
            return;
        }
        let id = task.job.flow;
        self.tasks.remove(at);
        let at = self.by_number(id);
        self.flows[at].break_off();
        self.run(at);
    }

    /// Time was told: first tries that are out for too long, then flows, each once.
    fn tick(&mut self) {
        let now = self.now;
        let late: Vec<(u64, u64)> = self
            .tasks
            .iter()
            .filter(|t| matches!(t.standing, Standing::Out(until) if until < now))
            .map(|t| (t.job.flow, t.job.step))
            .collect();
        for (flow, step) in late {
            let at = self.tasks.iter().position(|t| t.job.flow == flow && t.job.step == step);
            self.went_wrong(at.expect("only its own flow ends a task"));
        }
        for at in 0..self.flows.len() {
            let flow = &mut self.flows[at];
            match &flow.phase {
                Phase::Busy => {}
                Phase::Asleep { until } if *until <= now => flow.phase = Phase::Busy,
                Phase::Listens { value, came, until, .. } if *until <= now => {
                    let (value, came) = (*value, *came);
                    flow.hear(value, came, 0, 0);
                }
                _ => continue,
            }
            self.run(at);
        }
    }
}
