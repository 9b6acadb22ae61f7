//! The archive in a program of its own, `served.c`, that is asked over a pipe:
//! for tests of the archive's code for x86-64 on another machine, where it runs
//! under an emulator. Each thread starts one program and keeps it; when the
//! thread ends, the program's input does, and the thread waits for its end.
//!
//! The functions are those of `scatterflock::raw`.

mod bundle;
mod traces;
mod violation;

pub use bundle::{bundle_read, bundle_write, day, sheet, Contents};
pub use traces::{replay, trace, Replayed, Traced};
pub use violation::{first_violation, session_violation, Violation};

use std::cell::RefCell;
use std::io::{Read, Result, Write};
use std::process::{Child, ChildStdin, ChildStdout, Command, Stdio};

/// The emulator, found along PATH: Debian's qemu-user. x86-64 needs none.
const EMULATOR: Option<&str> =
    if cfg!(target_arch = "x86_64") { None } else { Some("qemu-x86_64") };
/// The program, built by this crate's build script.
const PROGRAM: &str = env!("SCATTERFLOCK_SERVED");

/// The function that a request asks for.
#[derive(Clone, Copy)]
enum Function {
    Solve = 0,
    Check = 1,
    Times = 2,
    SliceStart = 3,
    SliceContinue = 4,
    SessionOpen = 5,
    SessionSwitch = 6,
    SessionCheck = 7,
    SolveWithin = 11,
    Replay = 13,
    Trace = 14,
    SmtlibWrite = 15,
    CheckWide = 16,
    CheckTimes = 17,
    SmtlibRead = 18,
    FirstViolation = 19,
    SessionViolation = 20,
}

/// A run at some point, that the program keeps.
pub struct Slice {
    /// By this number.
    number: u64,
    count: usize,
}

impl Slice {
    /// How many pivots are completed.
    pub fn count(&self) -> usize {
        self.count
    }
}

/// What [`slice_start`] hands back.
pub struct Begun {
    /// 0, or the number of a refusal.
    pub refused: u32,
    /// The first state of the run.
    pub slice: Slice,
}

/// What [`slice_continue`] hands back.
pub struct Continued {
    /// 0, or 7.
    pub refused: u32,
    /// Whether the answer stands in the output.
    pub answered: bool,
    /// The state to go on with.
    pub slice: Slice,
}

/// A session that the program keeps.
#[derive(Clone)]
pub struct Session {
    /// By this number.
    number: u64,
}

/// What [`session_open`] hands back.
pub struct Opened {
    /// 0, or the number of a refusal.
    pub refused: u32,
    /// The session with every limit off.
    pub session: Session,
}

/// What [`session_switch`] hands back.
pub struct Switched {
    /// 0, or 41 to 44.
    pub refused: u32,
    /// The session after the switch.
    pub session: Session,
}

/// What [`session_check`] hands back.
pub struct Checked {
    /// 0, or 7.
    pub refused: u32,
    /// The session after the check.
    pub session: Session,
}

/// What [`smtlib_write`] and [`smtlib_read`] hand back.
pub struct Exchanged {
    /// 0, or the number of a refusal.
    pub refused: u32,
    /// How many bytes the text has, or how many words were read; the place with 60.
    pub count: usize,
}

/// What the program says: what the function returned; of slices and sessions
/// whether it answered, by which number the one that came back is kept, and its
/// count; of a replay the word and the step, of a trace how many words, of a text
/// how many bytes, of what is read how many words or the place.
struct Reply {
    number: u32,
    answered: bool,
    kept: u64,
    count: usize,
}

impl Reply {
    fn slice(&self) -> Slice {
        Slice { number: self.kept, count: self.count }
    }

    fn session(&self) -> Session {
        Session { number: self.kept }
    }
}

thread_local! {
    static SERVER: RefCell<Server> = RefCell::new(Server::start());
}

/// Answers a limit problem.
pub fn solve(words: &[i32], out: &mut [i64]) -> u32 {
    ask(Function::Solve, words, out)
}

/// The same where a problem may have only so many rows.
pub fn solve_within(most_rows: u32, words: &[i32], out: &mut [i64]) -> u32 {
    reply(Function::SolveWithin, words, out, [most_rows.into(), 0, 0, 0]).number
}

/// Judges an answer to a limit problem.
pub fn check(words: &[i32], answer: &[i64]) -> u32 {
    ask(Function::Check, words, &mut answer.to_vec())
}

/// Judges wide evidence for a limit problem.
pub fn check_wide(words: &[i32], answer: &[i64]) -> u32 {
    ask(Function::CheckWide, words, &mut answer.to_vec())
}

/// Judges evidence about time rows.
pub fn check_times(rows: &[i32], answer: &[i64]) -> u32 {
    ask(Function::CheckTimes, rows, &mut answer.to_vec())
}

/// Answers time rows.
pub fn times(rows: &[i32], out: &mut [i64]) -> u32 {
    ask(Function::Times, rows, out)
}

/// Starts a run that is made in slices.
pub fn slice_start(words: &[i32]) -> Begun {
    let reply = reply(Function::SliceStart, words, &mut [], [0; 4]);
    Begun { refused: reply.number, slice: reply.slice() }
}

/// Goes on with one, so many pivots.
pub fn slice_continue(slice: Slice, pivots: usize, out: &mut [i64]) -> Continued {
    let reply = reply(Function::SliceContinue, &[], out, [slice.number, pivots as u64, 0, 0]);
    Continued { refused: reply.number, answered: reply.answered, slice: reply.slice() }
}

/// Opens a session of a problem.
pub fn session_open(words: &[i32]) -> Opened {
    let reply = reply(Function::SessionOpen, words, &mut [], [0; 4]);
    Opened { refused: reply.number, session: reply.session() }
}

/// Switches the lower or the upper limit of a variable on or off.
pub fn session_switch(session: Session, variable: u32, upper: bool, on: bool) -> Switched {
    let more = [session.number, variable.into(), upper.into(), on.into()];
    let reply = reply(Function::SessionSwitch, &[], &mut [], more);
    Switched { refused: reply.number, session: reply.session() }
}

/// Answers the problem with the limits that are on.
pub fn session_check(session: Session, out: &mut [i64]) -> Checked {
    let reply = reply(Function::SessionCheck, &[], out, [session.number, 0, 0, 0]);
    Checked { refused: reply.number, session: reply.session() }
}

/// Writes a limit problem as SMT-LIB text.
pub fn smtlib_write(words: &[i32], text: &mut [u8]) -> Exchanged {
    // The bytes go in words, the last of which may have some more.
    let mut out: Vec<i64> = text.chunks(8).map(word_of).collect();
    let past = out.last().copied();
    let reply = reply(Function::SmtlibWrite, words, &mut out, [text.len() as u64, 0, 0, 0]);
    let bytes: Vec<u8> = out.iter().flat_map(|word| word.to_le_bytes()).collect();
    let past: Vec<u8> = past.into_iter().flat_map(i64::to_le_bytes).collect();
    let more = bytes.len() - text.len();
    assert_eq!(bytes[text.len()..], past[past.len() - more..], "bytes past the text have changed");
    text.copy_from_slice(&bytes[..text.len()]);
    Exchanged { refused: reply.number, count: reply.count }
}

/// Reads the words of a limit problem from SMT-LIB text.
pub fn smtlib_read(text: &[u8], words: &mut [i32]) -> Exchanged {
    // The bytes go in words, the last of which may have some more.
    let read: Vec<i32> = text.chunks(4).map(|bytes| word_of(bytes) as i32).collect();
    let mut out: Vec<i64> = words.iter().map(|&word| word.into()).collect();
    let reply = reply(Function::SmtlibRead, &read, &mut out, [text.len() as u64, 0, 0, 0]);
    words.iter_mut().zip(out).for_each(|(word, out)| *word = out as i32);
    Exchanged { refused: reply.number, count: reply.count }
}

/// Eight bytes as a word; fewer have others behind them.
fn word_of(bytes: &[u8]) -> i64 {
    let mut eight = [0xa5; 8];
    eight[..bytes.len()].copy_from_slice(bytes);
    i64::from_le_bytes(eight)
}

fn ask(function: Function, words: &[i32], out: &mut [i64]) -> u32 {
    reply(function, words, out, [0; 4]).number
}

fn reply(function: Function, words: &[i32], out: &mut [i64], more: [u64; 4]) -> Reply {
    with_server(|server| server.ask(function, words, out, more))
}

fn with_server<T>(asked: impl FnOnce(&mut Server) -> Result<T>) -> T {
    SERVER.with_borrow_mut(|server| {
        asked(server).unwrap_or_else(|error| {
            panic!("the archive's program has ended: {error}; its message stands above")
        })
    })
}

struct Server {
    child: Child,
    /// There until the end.
    requests: Option<ChildStdin>,
    replies: ChildStdout,
}

impl Drop for Server {
    fn drop(&mut self) {
        drop(self.requests.take());
        let _ = self.child.wait();
    }
}

impl Server {
    fn start() -> Server {
        let mut command = match EMULATOR {
            Some(emulator) => {
                let mut command = Command::new(emulator);
                command.arg(PROGRAM);
                command
            }
            None => Command::new(PROGRAM),
        };
        let mut child = command
            .stdin(Stdio::piped())
            .stdout(Stdio::piped())
            .spawn()
            .unwrap_or_else(|error| panic!("{command:?} does not start: {error}"));
        let requests = child.stdin.take();
        let replies = child.stdout.take().expect("it is piped");
        Server { child, requests, replies }
    }

    /// Sends a request and reads what comes back into `reply`.
    fn send(&mut self, request: &[u8], reply: &mut [u8]) -> Result<()> {
        self.requests.as_mut().expect("it is piped").write_all(request)?;
        self.replies.read_exact(reply)
    }

    fn ask(
        &mut self,
        function: Function,
        words: &[i32],
        out: &mut [i64],
        more: [u64; 4],
    ) -> Result<Reply> {
        let head = [function as u64, words.len() as u64, out.len() as u64];
        let mut request: Vec<u8> = Vec::with_capacity(56 + 4 * words.len() + 8 * out.len());
        request.extend(head.iter().chain(&more).flat_map(|number| number.to_le_bytes()));
        request.extend(words.iter().flat_map(|word| word.to_le_bytes()));
        request.extend(out.iter().flat_map(|word| word.to_le_bytes()));
        let mut reply = vec![0; 32 + 8 * out.len()];
        self.send(&request, &mut reply)?;
        let mut numbers = reply
            .chunks_exact(8)
            .map(|bytes| i64::from_le_bytes(bytes.try_into().expect("a chunk has eight bytes")));
        let mut next = || numbers.next().expect("a reply has four numbers");
        let (number, answered) = (next() as u32, next() != 0);
        let (kept, count) = (next() as u64, next() as usize);
        out.iter_mut().zip(numbers).for_each(|(word, reply)| *word = reply);
        Ok(Reply { number, answered, kept, count })
    }
}
