//! A task on a cache, with interruptions: docs/BENCH.md.

use crate::analysis;
use crate::caches::{lru_step, Cache};
use crate::task::Task;

pub enum Call {
    Step(u64),
    Finish,
    Interrupt,
    Touch(u32),
    Resume,
}

#[derive(PartialEq)]
enum State {
    Walking,
    Interrupted,
    Ended,
}

#[derive(Default)]
pub struct Counts {
    pub steps: u32,
    pub interruptions: u32,
    pub loads: u32,
    pub plain: u32,
    pub charge: usize,
}

pub struct Bench {
    task: Task,
    cache: Box<dyn Cache>,
    resilient: Vec<usize>,
    barred: Option<u8>,
    point: usize,
    state: State,
    pub counts: Counts,
    /// The lists of the undisturbed run.
    plain: Vec<Vec<u32>>,
}

impl Bench {
    pub fn new(task: Task, cache: Box<dyn Cache>) -> Bench {
        let barred = if cache.sets() != task.sets {
            Some(14)
        } else if cache.life() != task.ways {
            Some(15)
        } else {
            None
        };
        Bench {
            resilient: analysis::sheet(&task).iter().map(|n| n.resilient).collect(),
            plain: vec![vec![]; task.sets],
            barred,
            cache,
            task,
            point: 0,
            state: State::Walking,
            counts: Counts::default(),
        }
    }

    /// The first cause that the call is refused for.
    fn cause(&self, call: &Call) -> Option<u8> {
        use Call::*;
        let successors = &self.task.points[self.point].successors;
        let walks = matches!(call, Step(_) | Finish | Interrupt);
        let causes = [
            (self.state == State::Ended, 23),
            (walks && self.state == State::Interrupted, 16),
            (!walks && self.state == State::Walking, 17),
            (matches!(call, Step(_) | Finish) && self.counts.steps >= 60_000, 21),
            (matches!(call, Interrupt) && self.counts.interruptions >= 1_000, 22),
            (matches!(call, Step(q) if !successors.iter().any(|s| *s as u64 == *q)), 18),
            (matches!(call, Finish) && !successors.is_empty(), 19),
            (matches!(call, Touch(b) if !self.task.evicting.contains(b)), 20),
        ];
        let first = causes.into_iter().find(|(applies, _)| *applies);
        self.barred.or(first.map(|(_, number)| number))
    }

    /// Performs the point's access, and says what became of it.
    fn walk(&mut self) -> &'static str {
        self.counts.steps += 1;
        let Some(block) = self.task.points[self.point].access else { return "none" };
        let plain = &mut self.plain[block as usize % self.task.sets];
        self.counts.plain += !lru_step(plain, block, self.task.ways) as u32;
        let hit = self.cache.access(block);
        self.counts.loads += !hit as u32;
        said(hit)
    }

    /// What the bench says to a call, or the number of its refusal.
    pub fn call(&mut self, call: &Call) -> Result<&'static str, u8> {
        if let Some(number) = self.cause(call) {
            return Err(number);
        }
        Ok(match *call {
            Call::Step(q) => {
                let said = self.walk();
                self.point = q as usize;
                said
            }
            Call::Finish => {
                self.state = State::Ended;
                self.walk()
            }
            Call::Interrupt => {
                self.state = State::Interrupted;
                self.counts.interruptions += 1;
                self.counts.charge += self.resilient[self.point];
                "ok"
            }
            Call::Touch(block) => said(self.cache.access(block)),
            Call::Resume => {
                self.state = State::Walking;
                "ok"
            }
        })
    }
}

fn said(hit: bool) -> &'static str {
    if hit { "hit" } else { "miss" }
}
