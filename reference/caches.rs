//! The three caches: docs/CACHES.md.

pub trait Cache {
    fn sets(&self) -> usize;
    fn life(&self) -> usize;
    /// Whether the access is a hit.
    fn access(&mut self, block: u32) -> bool;
}

/// An LRU step on a list, newest first; whether the block was there.
pub fn lru_step(list: &mut Vec<u32>, block: u32, ways: usize) -> bool {
    let found = list.iter().position(|b| *b == block);
    match found {
        Some(i) => list[..=i].rotate_right(1),
        None => {
            list.insert(0, block);
            list.truncate(ways);
        }
    }
    found.is_some()
}

struct Lru {
    ways: usize,
    lists: Vec<Vec<u32>>,
}

impl Cache for Lru {
    fn sets(&self) -> usize {
        self.lists.len()
    }
    fn life(&self) -> usize {
        self.ways
    }
    fn access(&mut self, block: u32) -> bool {
        let set = block as usize % self.lists.len();
        lru_step(&mut self.lists[set], block, self.ways)
    }
}

struct Fifo {
    ways: usize,
    lists: Vec<Vec<u32>>,
}

impl Cache for Fifo {
    fn sets(&self) -> usize {
        self.lists.len()
    }
    fn life(&self) -> usize {
        1
    }
    fn access(&mut self, block: u32) -> bool {
        let set = block as usize % self.lists.len();
        self.lists[set].contains(&block) || lru_step(&mut self.lists[set], block, self.ways)
    }
}

/// A set of a tree cache: what its ways hold, and the bits by their places, from 1.
#[derive(Clone)]
struct Tree {
    held: Vec<Option<u32>>,
    right: Vec<bool>,
}

impl Tree {
    fn victim(&self) -> usize {
        let ways = self.held.len();
        let mut place = 1;
        while place < ways {
            place = 2 * place + self.right[place] as usize;
        }
        place - ways
    }

    fn access(&mut self, block: u32) -> bool {
        let find = |what| self.held.iter().position(|h| *h == what);
        let found = find(Some(block));
        let way = found.or(find(None)).unwrap_or_else(|| self.victim());
        self.held[way] = Some(block);
        let mut place = self.held.len() + way;
        while place > 1 {
            self.right[place / 2] = place % 2 == 0;
            place /= 2;
        }
        found.is_some()
    }
}

struct Trees(Vec<Tree>);

impl Cache for Trees {
    fn sets(&self) -> usize {
        self.0.len()
    }
    fn life(&self) -> usize {
        match self.0[0].held.len() {
            2 => 2,
            4 => 3,
            _ => 4,
        }
    }
    fn access(&mut self, block: u32) -> bool {
        let set = block as usize % self.0.len();
        self.0[set].access(block)
    }
}

#[derive(Clone, Copy)]
pub enum Policy {
    Lru,
    Fifo,
    Tree,
}

/// A new cache, or the number of its refusal.
pub fn make(policy: Policy, sets: u32, ways: u32) -> Result<Box<dyn Cache>, u8> {
    if !(1..=64).contains(&sets) {
        return Err(12);
    }
    let fits = match policy {
        Policy::Tree => matches!(ways, 2 | 4 | 8),
        _ => (1..=8).contains(&ways),
    };
    if !fits {
        return Err(13);
    }
    let (sets, ways) = (sets as usize, ways as usize);
    let lists = vec![vec![]; sets];
    Ok(match policy {
        Policy::Lru => Box::new(Lru { ways, lists }),
        Policy::Fifo => Box::new(Fifo { ways, lists }),
        Policy::Tree => {
            let tree = Tree { held: vec![None; ways], right: vec![false; ways] };
            Box::new(Trees(vec![tree; sets]))
        }
    })
}
