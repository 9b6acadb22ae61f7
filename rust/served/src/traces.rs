//! Traces over the pipe: their words go as words of the output.

use crate::{reply, Function};

/// What [`replay`] hands back.
#[derive(Debug)]
pub struct Replayed {
    /// 0, a refusal, or 52 to 54.
    pub number: u32,
    /// Of a wrong step, which word.
    pub word: u32,
    /// Which step is wrong.
    pub step: usize,
}

/// What [`trace`] hands back.
#[derive(Debug)]
pub struct Traced {
    /// 0, or the number of a refusal.
    pub refused: u32,
    /// How many words were written.
    pub count: usize,
}

/// Holds a trace against the run of a problem.
pub fn replay(words: &[i32], trace: &[u32]) -> Replayed {
    let mut trace: Vec<i64> = trace.iter().map(|&word| word.into()).collect();
    let reply = reply(Function::Replay, words, &mut trace, [0; 4]);
    Replayed { number: reply.number, word: reply.kept as u32, step: reply.count }
}

/// Writes the trace of a problem's own run.
pub fn trace(words: &[i32], room: &mut [u32]) -> Traced {
    let mut wide: Vec<i64> = room.iter().map(|&word| word.into()).collect();
    let reply = reply(Function::Trace, words, &mut wide, [0; 4]);
    for (word, wide) in room.iter_mut().zip(wide) {
        *word = wide as u32;
    }
    Traced { refused: reply.number, count: reply.count }
}
