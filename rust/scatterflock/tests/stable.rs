//! What stays of this crate in every version 1, as docs/STABLE.md says: each
//! public name with its type. More may come; what is listed here and is not there,
//! or is another, does not compile. The numbers are those of the header, and the
//! other tests hold what the functions do.

use scatterflock::*;
use std::collections::BTreeSet;
use std::error::Error;
use std::fmt::{Debug, Display};
use std::hash::Hash;
use std::ops::RangeInclusive;

/// Each function takes the type that is listed.
macro_rules! functions {
    ($($function:expr => $type:ty;)*) => { $(let _: $type = $function;)* };
}

/// Each record has these public fields, with these types, and no others.
macro_rules! records {
    ($($record:path { $($field:ident: $type:ty),* })*) => {
        $(let _ = |$record { $($field),* }| { $(let _: $type = $field;)* };)*
    };
}

#[test]
fn functions_of_words() {
    functions! {
        solve => fn(&[i32]) -> Result<Answer, Refusal>;
        solve_within => fn(usize, &[i32]) -> Result<Answer, Refusal>;
        check => fn(&[i32], &[i64]) -> Result<Judgement, Refusal>;
        check_wide => fn(&[i32], &[i64]) -> Result<Judgement, Refusal>;
        widened => fn(&[i64]) -> Vec<i64>;
        times => fn(&[i32]) -> Result<Schedule, TimesRefusal>;
        check_times => fn(&[i32], &[i64]) -> Result<Judgement, TimesRefusal>;
        replay => fn(&[i32], &[u32]) -> Result<Replayed, Refusal>;
        trace => fn(&[i32]) -> Result<Vec<u32>, Refusal>;
        first_violation => fn(&[i32]) -> Result<Option<Violation>, Refusal>;
        day => fn(&[u8]) -> String;
        sheet => fn(&[u8]) -> String;
        number_text => fn(u32) -> Option<String>;
    }
}

#[test]
fn problems() {
    type Built = Result<Problem, BuildError>;
    type Limited = Result<usize, BuildError>;
    type Sum<'a> = &'a [(&'a str, i32)];
    functions! {
        Problem::new => fn(usize) -> Built;
        Problem::named => fn(&[&str]) -> Built;
        Problem::from_words => fn(&[i32]) -> Result<Problem, Refusal>;
        Problem::from_words_within => fn(usize, &[i32]) -> Result<Problem, Refusal>;
        |text| Problem::from_smtlib(text) => fn(&str) -> Result<Problem, SmtlibRefusal>;
        Problem::from_smtlib => fn(Vec<u8>) -> Result<Problem, SmtlibRefusal>;
        Problem::row => fn(Problem, &[i32]) -> Built;
        Problem::add_row => fn(&mut Problem, &[i32]) -> Limited;
        Problem::at_least => fn(Problem, usize, i32) -> Built;
        Problem::above => fn(Problem, usize, i32) -> Built;
        Problem::at_most => fn(Problem, usize, i32) -> Built;
        Problem::below => fn(Problem, usize, i32) -> Built;
        Problem::between => fn(Problem, usize, i32, i32) -> Built;
        Problem::exactly => fn(Problem, usize, i32) -> Built;
        Problem::limit => fn(&mut Problem, Sum, RangeInclusive<i32>) -> Limited;
        Problem::names => fn(&Problem) -> &[String];
        Problem::number => fn(&Problem, &str) -> Option<usize>;
        Problem::variables => fn(&Problem) -> usize;
        Problem::rows => fn(&Problem) -> &[Vec<i32>];
        Problem::limits => fn(&Problem, usize) -> [Option<Limit>; 2];
        Problem::words => fn(&Problem) -> Vec<i32>;
        Problem::to_smtlib => fn(&Problem) -> String;
        Problem::solve => fn(&Problem) -> Answer;
        Problem::solve_within => fn(&Problem, usize) -> Result<Answer, Refusal>;
        Problem::decide => fn(&Problem) -> Option<WideAnswer>;
        Problem::check => fn(&Problem, &[i64]) -> Result<Judgement, Refusal>;
        Problem::check_wide => fn(&Problem, &[i64]) -> Result<Judgement, Refusal>;
        Problem::without => fn(&Problem, &Answer, usize, Side) -> Option<Answer>;
        Problem::first_violation => fn(&Problem) -> Option<Violation>;
        Problem::replay => fn(&Problem, &[u32]) -> Replayed;
        Problem::trace => fn(&Problem) -> Vec<u32>;
        Problem::session => fn(&Problem) -> Session;
        Problem::slice => fn(&Problem) -> Slice;
    }
}

#[test]
fn sessions_slices_time_rows_and_files() {
    type Switch = fn(&mut Session, usize, Side) -> Result<(), SwitchRefusal>;
    type Added = fn(TimeRows, usize, usize, i32) -> Result<TimeRows, BuildError>;
    functions! {
        Session::open => fn(&[i32]) -> Result<Session, Refusal>;
        Session::switch_on => Switch;
        Session::switch_off => Switch;
        Session::switch_all_on => fn(&mut Session);
        Session::is_on => fn(&Session, usize, Side) -> bool;
        Session::check => fn(&mut Session) -> Answer;
        Session::live_words => fn(&Session) -> Vec<i32>;
        Session::violation => fn(&Session) -> Option<Violation>;
        Slice::start => fn(&[i32]) -> Result<Slice, Refusal>;
        Slice::go_on => fn(&mut Slice, usize) -> Option<Answer>;
        Slice::pivots => fn(&Slice) -> u64;
        TimeRows::new => fn(usize) -> Result<TimeRows, BuildError>;
        TimeRows::at_most => Added;
        TimeRows::below => Added;
        TimeRows::words => fn(&TimeRows) -> Vec<i32>;
        TimeRows::solve => fn(&TimeRows) -> Schedule;
        TimeRows::check => fn(&TimeRows, &[i64]) -> Result<Judgement, TimesRefusal>;
        Bundle::of::<Vec<i32>> => fn(&[Vec<i32>]) -> Result<Bundle, BundleRefusal>;
        Bundle::of_edition::<[i32; 5]> => fn(u32, &[[i32; 5]]) -> Result<Bundle, BundleRefusal>;
        Bundle::read => fn(&[u8]) -> Result<Bundle, BundleRefusal>;
        Bundle::write => fn(&Bundle) -> Vec<u8>;
        Bundle::edition => fn(&Bundle) -> u32;
        Bundle::most_rows => fn(&Bundle) -> usize;
        |bundle| bundle.bodies().map(<[i32]>::to_vec).collect() => fn(&Bundle) -> Vec<Vec<i32>>;
        |bundle| bundle.problems().collect() => fn(&Bundle) -> Result<Vec<Problem>, Refusal>;
        Bundle::day => fn(&Bundle) -> String;
        Bundle::sheet => fn(&Bundle) -> Sheet;
    }
}

#[test]
fn answers() {
    functions! {
        Answer::evidence => fn(&Answer) -> Option<Vec<i64>>;
        Answer::fractions => fn(&Answer) -> Option<Fractions<i128>>;
        Answer::clash => fn(&Answer) -> Option<String>;
        Verdict::number => fn(&Verdict) -> u32;
        WideAnswer::evidence => fn(&WideAnswer) -> Vec<i64>;
        WideAnswer::fractions => fn(&WideAnswer) -> Option<Fractions<String>>;
        WideVerdict::number => fn(&WideVerdict) -> u32;
        Schedule::evidence => fn(&Schedule, usize) -> Vec<i64>;
        Schedule::fractions => fn(&Schedule) -> Option<Fractions<i64>>;
        Replayed::number => fn(Replayed) -> u32;
        Refusal::number => fn(Refusal) -> u32;
        TimesRefusal::number => fn(TimesRefusal) -> u32;
        SwitchRefusal::number => fn(SwitchRefusal) -> u32;
        BundleRefusal::number => fn(BundleRefusal) -> u32;
    }
    records! {
        Answer { pivots: u64, verdict: Verdict }
        WideAnswer { pivots: u64, verdict: WideVerdict }
        Fractions::<i64> { numerators: Vec<i64>, over: i64 }
        Limit { number: i32, is_strict: bool }
        Time { minutes: i64, small: i64 }
        Violation { variable: usize, side: Side, over: i64, shortfall: i64, small: i64 }
        Named { lower: u64, upper: u64 }
        SmtlibRefusal { place: usize }
        Sheet {
            bodies: u64, can: u64, cannot: u64, range: u64, refused: Vec<(Refusal, u64)>, pivots: u64,
            largest: u64, reached: Option<u64>, named: Vec<Named>
        }
    }
}

/// Those without a last case `_` may not get another.
#[test]
fn cases() {
    let _ = |verdict| match verdict {
        Verdict::Can { over, numerators, small } => (over, [numerators, small]),
        Verdict::Cannot { lower, upper } => (0_i64, [lower, upper]),
        Verdict::OutOfRange | _ => (0, [Vec::<i64>::new(), Vec::new()]),
    };
    let _ = |verdict| match verdict {
        WideVerdict::Can { over, numerators, small } => (over, [numerators, small]),
        WideVerdict::Cannot { lower, upper } => (0_i128, [lower, upper]),
    };
    let _ = |schedule| match schedule {
        Schedule::Times(times) => (times, Vec::new()),
        Schedule::Cycle(rows) => (Vec::<Time>::new(), rows),
        _ => (Vec::new(), Vec::<usize>::new()),
    };
    let _ = |replayed| match replayed {
        Replayed::Wrong { step, word } => Some::<(usize, TraceWord)>((step, word)),
        Replayed::Accepted | Replayed::LeftOver | Replayed::Early | Replayed::Past => None,
    };
    let _ = |word| match word {
        TraceWord::Leaving | TraceWord::Entering | TraceWord::Mask => word as u32,
    };
    let _ = |side, judgement| match (side, judgement) {
        (Side::Lower | Side::Upper, Judgement::Accepted | Judgement::Rejected) => {}
    };
    use BuildError as Error;
    let _: [Error; 4] = [Error::Rows, Error::BlankRow, Error::Unlimited, Error::TimeRows];
    let _: [fn(usize) -> Error; 3] = [Error::Variables, Error::NoVariable, Error::LimitTwice];
    let _: [fn(usize) -> Error; 2] = [Error::Vertices, Error::NoVertex];
    let _: [fn(i32) -> Error; 3] = [Error::Coefficient, Error::Limit, Error::Length];
    let _: [fn(String) -> Error; 2] = [Error::NoName, Error::NameTwice];
    let _: fn(usize, usize) -> Error = |given, variables| Error::RowLength { given, variables };
}

/// Each refusal by its name, and all of them in one list.
#[test]
fn refusals() {
    use {BundleRefusal as B, Refusal as R, SwitchRefusal as S, TimesRefusal as T};
    let limits = [R::FewWords, R::Sizes, R::Length, R::Coefficient, R::Kind, R::Limit, R::BlankRow];
    let times = [T::FewWords, T::Sizes, T::Length, T::Vertex, T::Strict, T::Bound, T::Short];
    let files = [B::Size, B::Edition, B::Bodies, B::Table, B::Pair, B::Total, B::Short];
    let switches = [S::NoVariable, S::NoLimit, S::AlreadyOn, S::AlreadyOff];
    assert!(limits.iter().chain(&[R::Short]).all(|one| R::ALL.contains(one)));
    assert!(times.iter().all(|one| T::ALL.contains(one)));
    assert!(files.iter().all(|one| B::ALL.contains(one)));
    assert!(switches.iter().all(|one| S::ALL.contains(one)));
    functions! {
        R::try_from => fn(u32) -> Result<R, u32>;
        T::try_from => fn(u32) -> Result<T, u32>;
        B::try_from => fn(u32) -> Result<B, u32>;
        S::try_from => fn(u32) -> Result<S, u32>;
        TraceWord::ALL => [TraceWord; 3];
        SmtlibRefusal::NUMBER => u32;
    }
}

/// What can be done with values.
#[test]
fn traits() {
    fn is_plain<T: Debug + Clone + PartialEq + Eq + Hash + Send + Sync>() {}
    fn is_copied<T: Copy + Debug + Eq + Hash + Send + Sync>() {}
    fn is_error<T: Error + Clone + Eq + Hash + Send + Sync + 'static>() {}
    fn is_shown<T: Display>() {}
    fn is_kept<T: Debug + Clone + Send + Sync>() {}
    let _ = [is_kept::<Session>, is_kept::<Slice>, is_copied::<Limit>, is_copied::<Side>];
    let _ = [is_plain::<Problem>, is_plain::<TimeRows>, is_plain::<Bundle>, is_plain::<Sheet>];
    let _ = [is_plain::<Answer>, is_plain::<Verdict>, is_plain::<Schedule>, is_plain::<Fractions>];
    let _ = [is_plain::<WideAnswer>, is_plain::<WideVerdict>, is_copied::<Violation>];
    let _ = [is_copied::<Judgement>, is_copied::<Replayed>, is_copied::<TraceWord>];
    let _ = [is_copied::<Time>, is_copied::<Named>, is_copied::<Refusal>];
    let _ = [is_error::<Refusal>, is_error::<TimesRefusal>, is_error::<SwitchRefusal>];
    let _ = [is_error::<BundleRefusal>, is_error::<SmtlibRefusal>, is_error::<BuildError>];
    let _ = [is_shown::<Answer>, is_shown::<WideAnswer>, is_shown::<Schedule>, is_shown::<Time>];
    let _ = [is_shown::<Judgement>, is_shown::<Replayed>, is_shown::<TraceWord>];
    let _ = [is_shown::<Sheet>, is_shown::<Violation>];
    let _: BTreeSet<Time> = BTreeSet::new();
}

/// The functions of the header, over lent words, and what they hand back.
#[test]
fn raw_functions() {
    functions! {
        raw::solve => fn(&[i32], &mut [i64]) -> u32;
        raw::solve_within => fn(u32, &[i32], &mut [i64]) -> u32;
        raw::check => fn(&[i32], &[i64]) -> u32;
        raw::check_wide => fn(&[i32], &[i64]) -> u32;
        raw::times => fn(&[i32], &mut [i64]) -> u32;
        raw::check_times => fn(&[i32], &[i64]) -> u32;
        raw::slice_start => fn(&[i32]) -> raw::Begun;
        raw::slice_continue => fn(raw::Slice, usize, &mut [i64]) -> raw::Continued;
        raw::Slice::count => fn(&raw::Slice) -> usize;
        raw::session_open => fn(&[i32]) -> raw::Opened;
        raw::session_switch => fn(raw::Session, u32, bool, bool) -> raw::Switched;
        raw::session_check => fn(raw::Session, &mut [i64]) -> raw::Checked;
        raw::first_violation => fn(&[i32]) -> raw::Violation;
        raw::session_violation => fn(raw::Session) -> raw::Violation;
        raw::replay => fn(&[i32], &[u32]) -> raw::Replayed;
        raw::trace => fn(&[i32], &mut [u32]) -> raw::Traced;
        raw::smtlib_write => fn(&[i32], &mut [u8]) -> raw::Exchanged;
        raw::smtlib_read => fn(&[u8], &mut [i32]) -> raw::Exchanged;
        raw::bundle_read => fn(&[u8], &mut [i32], &mut [i32]) -> raw::Contents;
        raw::bundle_write => fn(u32, &[i32], &[i32], &mut [u8]) -> u32;
        raw::day => fn(&[u8], &mut [u8]) -> usize;
        raw::sheet => fn(&[u8], &mut [u8]) -> usize;
    }
    records! {
        raw::Begun { refused: u32, slice: raw::Slice }
        raw::Continued { refused: u32, answered: bool, slice: raw::Slice }
        raw::Opened { refused: u32, session: raw::Session }
        raw::Switched { refused: u32, session: raw::Session }
        raw::Checked { refused: u32, session: raw::Session }
        raw::Replayed { number: u32, word: u32, step: usize }
        raw::Traced { refused: u32, count: usize }
        raw::Exchanged { refused: u32, count: usize }
        raw::Contents { refused: u32, edition: u32, bodies: usize }
        raw::Violation {
            refused: u32, variable: u32, violated: bool, rises: bool, denominator: i64, shortfall: i64, small: i64
        }
    }
}

#[test]
fn sizes() {
    use scatterflock::sizes::*;
    let _: [usize; 5] = [MOST_VARIABLES, MOST_ROWS, MOST_WORDS, MOST_ANSWER, MOST_WIDE];
    let _: [usize; 4] = [MOST_SMTLIB, MOST_VERTICES, MOST_TIME_ROWS, MOST_TIMES];
    let _: [usize; 4] = [FIRST_BODIES, FIRST_ROWS, SECOND_BODIES, MOST_BODIES];
    let _: [usize; 3] = [MOST_FILE_WORDS, MOST_DAY_TEXT, MOST_SHEET];
    let _: [i32; 3] = [LARGEST_COEFFICIENT, LARGEST_LIMIT, LARGEST_LENGTH];
    let _: [i64; 2] = [LARGEST_NUMBER, LARGEST_SMALL];
}
