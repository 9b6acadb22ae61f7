//! Time rows: times that meet every row, or rows that cannot be met together.
//!
//! Times are fractions of a minute. Lengths have two parts: the c, and how many
//! rows are strict, the more the less. A time is minus a distance, part by part:
//! minutes, and how often a small amount is added.
//!
//! Renders "Time rows" of docs/RULES.md. Which bad cycle is named is free, so
//! there is also a judge that says whether an output is an allowed one.

use std::collections::HashSet;
use std::ops::RangeInclusive;

const VERTICES: RangeInclusive<i32> = 1..=64;
const ROWS: RangeInclusive<i32> = 0..=256;
const LENGTHS: RangeInclusive<i32> = -30_000..=30_000;

/// The c, and minus the number of strict rows; the c is compared first.
type Length = (i64, i64);

/// A time row as an edge.
#[derive(Debug, Clone, Copy, PartialEq, Eq)]
pub struct Edge {
    pub from: usize,
    pub to: usize,
    pub c: i64,
    pub is_strict: bool,
}

#[derive(Debug, Clone, PartialEq, Eq)]
pub struct Graph {
    pub vertices: usize,
    pub edges: Vec<Edge>,
}

/// Writes times or a cycle and returns 0, or returns the number of the
/// refusal and writes nothing. Words past 2 + 2n are not touched.
pub fn times(rows: &[i32], out: &mut [i64]) -> u32 {
    let graph = match Graph::read(rows) {
        Ok(graph) => graph,
        Err(refusal) => return refusal,
    };
    let length = 2 + 2 * graph.vertices;
    if out.len() < length {
        return 17;
    }
    let mut answer = match graph.distances() {
        Some(distances) => {
            let words = times_words(&distances);
            assert!(graph.holds(&words), "a small amount of 1 / (n + 1) meets every row");
            words
        }
        None => cycle_words(&graph.cycle()),
    };
    answer.resize(length, 0);
    out[..length].copy_from_slice(&answer);
    0
}

fn times_words(distances: &[Length]) -> Vec<i64> {
    let mut words = vec![1, distances.len() as i64];
    words.extend(distances.iter().map(|(minutes, _)| -minutes));
    words.extend(distances.iter().map(|(_, strict)| -strict));
    words
}

fn cycle_words(cycle: &[usize]) -> Vec<i64> {
    let mut words = vec![2, cycle.len() as i64];
    words.extend(cycle.iter().map(|&row| row as i64));
    words
}

/// Whether a time solver that was lent `before`, left `after` and returned
/// `returned` did what the rules allow.
pub fn times_is_right(rows: &[i32], before: &[i64], after: &[i64], returned: u32) -> bool {
    let graph = match Graph::read(rows) {
        Ok(graph) => graph,
        Err(refusal) => return returned == refusal && after == before,
    };
    let length = 2 + 2 * graph.vertices;
    if before.len() < length {
        return returned == 17 && after == before;
    }
    returned == 0
        && after.len() == before.len()
        && after[length..] == before[length..]
        && graph.allows(&after[..length])
}

impl Graph {
    /// The edges of the rows, or the number that refuses them.
    pub fn read(words: &[i32]) -> Result<Graph, u32> {
        if words.len() < 2 {
            return Err(11);
        }
        if !VERTICES.contains(&words[0]) || !ROWS.contains(&words[1]) {
            return Err(12);
        }
        if words.len() != 2 + 4 * words[1] as usize {
            return Err(13);
        }
        let rows: Vec<&[i32]> = words[2..].chunks(4).collect();
        let vertices = 0..words[0];
        if rows.iter().any(|row| !vertices.contains(&row[0]) || !vertices.contains(&row[1])) {
            return Err(14);
        }
        if rows.iter().any(|row| row[2] != 0 && row[2] != 1) {
            return Err(15);
        }
        if rows.iter().any(|row| !LENGTHS.contains(&row[3])) {
            return Err(16);
        }
        Ok(Graph {
            vertices: words[0] as usize,
            edges: rows.iter().map(|row| Edge::of(row)).collect(),
        })
    }

    /// The shortest distance to each vertex from a vertex outside, which leads
    /// to each by length 0, or `None` if there is no shortest one.
    ///
    /// After k rounds each number is the least length of a walk of at most k
    /// edges. Where no walk closes below 0, walks of n edges are not needed.
    fn distances(&self) -> Option<Vec<Length>> {
        let mut distances = vec![(0, 0); self.vertices];
        for _ in 0..self.vertices {
            let next = self.round(&distances).0;
            if next == distances {
                return Some(distances);
            }
            distances = next;
        }
        None
    }

    /// One round: the least lengths with one more edge, and the row that
    /// bettered each vertex, if one did.
    fn round(&self, distances: &[Length]) -> (Vec<Length>, Vec<Option<usize>>) {
        let mut next = distances.to_vec();
        let mut bettered = vec![None; self.vertices];
        for (row, edge) in self.edges.iter().enumerate() {
            let length = sum([distances[edge.from], edge.length()]);
            if length < next[edge.to] {
                next[edge.to] = length;
                bettered[edge.to] = Some(row);
            }
        }
        (next, bettered)
    }

    /// A bad cycle, where there is one.
    ///
    /// A vertex that round n bettered was reached by a walk of n edges that is
    /// shorter than every walk of fewer edges. Walked back, it meets a vertex
    /// twice; the part between closes below 0, since without it the walk
    /// would be as short with fewer edges.
    fn cycle(&self) -> Vec<usize> {
        let mut distances = vec![(0, 0); self.vertices];
        let mut rounds = Vec::new();
        for _ in 0..self.vertices {
            let (next, bettered) = self.round(&distances);
            distances = next;
            rounds.push(bettered);
        }
        let last = rounds.last().expect("a graph has a vertex");
        let mut vertex = last.iter().position(Option::is_some).expect("round n bettered one");
        let mut back = Vec::new();
        let mut met = vec![vertex];
        for bettered in rounds.iter().rev() {
            let row = bettered[vertex].expect("what was bettered came from what was bettered");
            back.push(row);
            vertex = self.edges[row].from;
            if let Some(first) = met.iter().position(|&earlier| earlier == vertex) {
                return back[first..].iter().rev().copied().collect();
            }
            met.push(vertex);
        }
        unreachable!("n + 1 vertices of n, so one was met twice")
    }

    /// Whether these times meet every row, a strict one strictly, where
    /// 1 / (n + 1) is put for the small amount. All is taken n + 1 times.
    fn holds(&self, words: &[i64]) -> bool {
        let (minutes, small) = words[2..].split_at(self.vertices);
        let over = self.vertices as i64 + 1;
        let time = |vertex: usize| over * minutes[vertex] + small[vertex];
        self.edges.iter().all(|edge| {
            let apart = time(edge.from) - time(edge.to);
            apart < over * edge.c || (!edge.is_strict && apart == over * edge.c)
        })
    }

    /// Whether these 2 + 2n words are an allowed answer.
    fn allows(&self, words: &[i64]) -> bool {
        match words[0] {
            1 => {
                let right = self.distances().map(|distances| times_words(&distances));
                right.is_some_and(|right| words == right) && self.holds(words)
            }
            2 => self.allows_cycle(words[1], &words[2..]),
            _ => false,
        }
    }

    /// Whether so many of these words are the rows of a bad cycle, and the others 0.
    pub fn allows_cycle(&self, count: i64, words: &[i64]) -> bool {
        let Ok(count) = usize::try_from(count) else {
            return false;
        };
        if count > words.len() {
            return false;
        }
        let (listed, rest) = words.split_at(count);
        let edges: Option<Vec<Edge>> = listed.iter().map(|&row| self.edge(row)).collect();
        edges.is_some_and(|edges| is_bad_cycle(&edges)) && rest.iter().all(|&word| word == 0)
    }

    fn edge(&self, row: i64) -> Option<Edge> {
        self.edges.get(usize::try_from(row).ok()?).copied()
    }
}

impl Edge {
    fn of(row: &[i32]) -> Edge {
        Edge {
            from: row[0] as usize,
            to: row[1] as usize,
            c: row[3].into(),
            is_strict: row[2] == 1,
        }
    }

    fn length(&self) -> Length {
        (self.c, if self.is_strict { -1 } else { 0 })
    }
}

fn sum(lengths: impl IntoIterator<Item = Length>) -> Length {
    lengths.into_iter().fold((0, 0), |sum, length| (sum.0 + length.0, sum.1 + length.1))
}

/// Each edge ends where the next starts, the last where the first does, no
/// two start at one vertex, and the sum of c is below 0, or 0 with a strict row
/// among them. No edges sum to 0.
fn is_bad_cycle(edges: &[Edge]) -> bool {
    let nexts = edges.iter().cycle().skip(1);
    let starts: HashSet<usize> = edges.iter().map(|edge| edge.from).collect();
    edges.iter().zip(nexts).all(|(edge, next)| edge.to == next.from)
        && starts.len() == edges.len()
        && match edges.iter().map(|edge| edge.c).sum::<i64>() {
            0 => edges.iter().any(|edge| edge.is_strict),
            sum => sum < 0,
        }
}
