//! The checker of evidence about time rows: anybody's times, or a bad cycle.
//!
//! Renders "Evidence about time rows" of docs/RULES.md. Differences are taken in
//! 128 bits, so no word of 64 bits is too large.

use crate::times::Graph;

/// 11 to 16 by the rows, 17 for an answer that is too short, 8 for an accepted
/// answer and 9 for any other.
pub fn check_times(rows: &[i32], answer: &[i64]) -> u32 {
    let graph = match Graph::read(rows) {
        Ok(graph) => graph,
        Err(refusal) => return refusal,
    };
    let Some(needed) = answer.get(..2 + 2 * graph.vertices) else {
        return 17;
    };
    let is_accepted = match needed[0] {
        1 => needed[1] == graph.vertices as i64 && meet(&graph, &needed[2..]),
        2 => {
            (1..=graph.vertices as i64).contains(&needed[1])
                && graph.allows_cycle(needed[1], &needed[2..])
        }
        _ => false,
    };
    if is_accepted {
        8
    } else {
        9
    }
}

/// Whether the differences of these times, as pairs, are no more than the rows
/// say: the c, and of a strict row a small amount less.
fn meet(graph: &Graph, words: &[i64]) -> bool {
    let (minutes, small) = words.split_at(graph.vertices);
    graph.edges.iter().all(|edge| {
        let apart = |times: &[i64]| i128::from(times[edge.from]) - i128::from(times[edge.to]);
        let most = (i128::from(edge.c), -i128::from(edge.is_strict));
        (apart(minutes), apart(small)) <= most
    })
}
