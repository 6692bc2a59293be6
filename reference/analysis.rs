//! The four tables of a task and the four numbers of its points: docs/METHOD.md.

use crate::task::{Task, MOST_BLOCKS};
use std::collections::VecDeque;

pub struct Numbers {
    pub useful: usize,
    pub evicting: usize,
    pub combined: usize,
    pub resilient: usize,
}

/// A cell for each block, by its index among the task's blocks.
type Row<C> = [C; MOST_BLOCKS];

/// What the tables need of a task: blocks by index, and edges both ways.
struct View {
    ways: usize,
    blocks: usize,
    access: Vec<Option<usize>>,
    /// The cache set of each block.
    set: Vec<usize>,
    successors: Vec<Vec<usize>>,
    predecessors: Vec<Vec<usize>>,
}

impl View {
    fn new(task: &Task) -> View {
        let blocks = task.blocks();
        let index = |b: u32| blocks.binary_search(&b).unwrap();
        let mut predecessors = vec![vec![]; task.points.len()];
        for (p, point) in task.points.iter().enumerate() {
            for q in &point.successors {
                predecessors[*q].push(p);
            }
        }
        View {
            ways: task.ways,
            blocks: blocks.len(),
            access: task.points.iter().map(|p| p.access.map(index)).collect(),
            set: blocks.iter().map(|b| *b as usize % task.sets).collect(),
            successors: task.points.iter().map(|p| p.successors.clone()).collect(),
            predecessors,
        }
    }

    fn rivals(&self, b: usize) -> impl Iterator<Item = usize> + '_ {
        (0..self.blocks).filter(move |x| *x != b && self.set[*x] == self.set[b])
    }

    fn age(&self, p: usize, row: &Row<u8>) -> Row<u8> {
        let mut next = *row;
        if let Some(b) = self.access[p] {
            for x in self.rivals(b) {
                if row[x] <= row[b] && (row[x] as usize) < self.ways {
                    next[x] += 1;
                }
            }
            next[b] = 0;
        }
        next
    }

    fn conflict(&self, p: usize, row: &Row<Option<u64>>) -> Row<Option<u64>> {
        let mut next = *row;
        if let Some(b) = self.access[p] {
            for x in self.rivals(b) {
                next[x] = row[x].map(|set| set | 1 << b);
            }
            next[b] = Some(0);
        }
        next
    }

    fn widen(&self, p: usize, row: &Row<Option<u32>>, c: &[Row<Option<u64>>]) -> Row<Option<u32>> {
        let mut next = *row;
        if let Some(b) = self.access[p] {
            next[b] = c[p][b].map(u64::count_ones);
        }
        next
    }
}

/// The least table where each row is at or beyond what its inputs send along `edges`.
/// A point sends again whenever its row has changed.
fn settle<C: Copy + PartialEq>(
    edges: &[Vec<usize>],
    start: C,
    advance: impl Fn(usize, &Row<C>) -> Row<C>,
    merge: impl Fn(C, C) -> C,
) -> Vec<Row<C>> {
    let mut table = vec![[start; MOST_BLOCKS]; edges.len()];
    let mut queue: VecDeque<usize> = (0..edges.len()).collect();
    let mut queued = vec![true; edges.len()];
    while let Some(p) = queue.pop_front() {
        queued[p] = false;
        let sent = advance(p, &table[p]);
        for q in &edges[p] {
            let mut changed = false;
            for (cell, other) in table[*q].iter_mut().zip(sent) {
                let merged = merge(*cell, other);
                changed |= merged != *cell;
                *cell = merged;
            }
            if changed && !queued[*q] {
                queued[*q] = true;
                queue.push_back(*q);
            }
        }
    }
    table
}

fn union(a: Option<u64>, b: Option<u64>) -> Option<u64> {
    match (a, b) {
        (Some(a), Some(b)) => Some(a | b),
        _ => a.or(b),
    }
}

/// The numbers of each point.
pub fn sheet(task: &Task) -> Vec<Numbers> {
    let view = View::new(task);
    let ways = view.ways as u8;
    let (ahead, back) = (&view.successors, &view.predecessors);
    let ages = settle(ahead, ways, |p, row| view.age(p, row), u8::min);
    let reuses = settle(back, ways, |p, row| view.age(p, row), u8::min);
    let conflicts = settle(ahead, None, |p, row| view.conflict(p, row), union);
    let widest = settle(back, None, |p, row| view.widen(p, row, &conflicts), Option::max);

    let mut evicting = vec![0; task.sets];
    for b in &task.evicting {
        evicting[*b as usize % task.sets] += 1;
    }
    let numbers = |p: usize| {
        let reuse = view.age(p, &reuses[p]);
        let wide = view.widen(p, &widest[p], &conflicts);
        let mut useful = vec![0; task.sets];
        let mut lost = vec![0; task.sets];
        for b in 0..view.blocks {
            if ages[p][b] < ways && reuse[b] < ways {
                let set = view.set[b];
                useful[set] += 1;
                lost[set] += wide[b].is_some_and(|w| w as usize + evicting[set] >= view.ways) as usize;
            }
        }
        let hit = |set: &usize| evicting[*set] > 0;
        let least = |counts: &[usize], set: usize| counts[set].min(view.ways);
        Numbers {
            useful: (0..task.sets).map(|s| least(&useful, s)).sum(),
            evicting: (0..task.sets).filter(hit).count() * view.ways,
            combined: (0..task.sets).filter(hit).map(|s| least(&useful, s)).sum(),
            resilient: (0..task.sets).filter(hit).map(|s| least(&lost, s)).sum(),
        }
    };
    (0..task.points.len()).map(numbers).collect()
}
