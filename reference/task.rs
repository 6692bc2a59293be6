//! A task, and its file: docs/FILE_FORMAT.md and docs/REFUSALS.md.

use std::collections::BTreeSet;
use std::fmt;

pub const MOST_BLOCKS: usize = 64;

pub struct Point {
    pub access: Option<u32>,
    pub successors: Vec<usize>,
    place: usize,
}

pub struct Task {
    pub sets: usize,
    pub ways: usize,
    pub reload: u32,
    pub points: Vec<Point>,
    pub evicting: Vec<u32>,
}

pub struct Refusal {
    number: u8,
    place: usize,
}

impl fmt::Display for Refusal {
    fn fmt(&self, f: &mut fmt::Formatter) -> fmt::Result {
        let layer = if matches!(self.number, 1 | 2 | 4) { "fields" } else { "task" };
        write!(f, "refused {layer} {} at {}", self.number, self.place)
    }
}

fn number(bytes: &[u8]) -> u32 {
    bytes.iter().fold(0, |n, b| n << 8 | *b as u32)
}

fn rises<T: PartialOrd>(list: &[T]) -> bool {
    list.windows(2).all(|pair| pair[0] < pair[1])
}

/// The tag and the body of the field at `place`, or the number of its fault.
fn field(file: &[u8], place: usize) -> Result<(u8, &[u8]), u8> {
    let head = file.get(place..place + 3).ok_or(1)?;
    let length = number(&head[1..]) as usize;
    let fits = match head[0] {
        1 => length == 6,
        2 => (1..=9).contains(&length),
        3 => length == 4,
        4 => length == 0,
        _ => return Err(2),
    };
    if !fits {
        return Err(4);
    }
    let body = file.get(place + 3..place + 3 + length).ok_or(1)?;
    Ok((head[0], body))
}

fn block(bytes: &[u8]) -> Result<u32, u8> {
    let block = number(bytes);
    if block < 1 << 24 { Ok(block) } else { Err(5) }
}

fn header(body: &[u8]) -> Result<Task, u8> {
    let (sets, ways, reload) = (body[0] as usize, body[1] as usize, number(&body[2..]));
    if !(1..=64).contains(&sets) || !(1..=8).contains(&ways) || reload > 1_000_000 {
        return Err(5);
    }
    Ok(Task { sets, ways, reload, points: vec![], evicting: vec![] })
}

fn point(body: &[u8], place: usize) -> Result<Point, u8> {
    let (access, rest) = match body[0] {
        0 => (None, &body[1..]),
        1 if body.len() >= 5 => (Some(block(&body[1..5])?), &body[5..]),
        _ => return Err(5),
    };
    if rest.len() > 4 || !rises(rest) {
        return Err(5);
    }
    let successors = rest.iter().map(|b| *b as usize).collect();
    Ok(Point { access, successors, place })
}

impl Task {
    /// The distinct blocks that the points access, rising.
    pub fn blocks(&self) -> Vec<u32> {
        let blocks: BTreeSet<u32> = self.points.iter().filter_map(|p| p.access).collect();
        blocks.into_iter().collect()
    }

    fn add_point(&mut self, body: &[u8], place: usize) -> Result<(), u8> {
        if !self.evicting.is_empty() {
            return Err(3);
        }
        self.points.push(point(body, place)?);
        if self.points.len() > 128 || self.blocks().len() > MOST_BLOCKS {
            return Err(6);
        }
        Ok(())
    }

    fn add_evicting(&mut self, body: &[u8]) -> Result<(), u8> {
        if self.points.is_empty() {
            return Err(3);
        }
        self.evicting.push(block(body)?);
        if !rises(&self.evicting) {
            return Err(5);
        }
        if self.evicting.len() > 64 { Err(6) } else { Ok(()) }
    }

    pub fn read(file: &[u8]) -> Result<Task, Refusal> {
        let mut place = 0;
        let at = |place| move |number| Refusal { number, place };
        let mut task = None;
        loop {
            let (tag, body) = field(file, place).map_err(at(place))?;
            match (tag, &mut task) {
                (1, None) => task = Some(header(body).map_err(at(place))?),
                (2, Some(task)) => task.add_point(body, place).map_err(at(place))?,
                (3, Some(task)) => task.add_evicting(body).map_err(at(place))?,
                (4, Some(task)) if !task.points.is_empty() => break,
                _ => return Err(at(place)(3)),
            }
            place += 3 + body.len();
        }
        if place + 3 < file.len() {
            return Err(at(place + 3)(8));
        }
        let task = task.unwrap();
        let lacking = |p: &&Point| p.successors.iter().any(|q| *q >= task.points.len());
        match task.points.iter().find(lacking) {
            Some(p) => Err(at(p.place)(7)),
            None => Ok(task),
        }
    }
}
