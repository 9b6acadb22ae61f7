//! What stays of this library in every version 1, as docs/STABLE.md says: how texts
//! are read into words, and words shown as texts. What is listed here and is not
//! there, or is another, does not compile. Its other public names serve the command.

use text::limits::{self, Limits, Side};
use text::times::{self, Row, Times};
use text::{answer, numbers, Fault, Holds};

#[test]
fn functions() {
    let _: fn(&str) -> Result<Limits, Fault> = limits::read;
    let _: fn(&str) -> Result<Times, Fault> = times::read;
    let _: fn(&str, &Limits) -> Result<Vec<i64>, Fault> = answer::read;
    let _: fn(&str, &Times) -> Result<answer::TimesAnswer, Fault> = answer::read_times;
    let _: fn(&str) -> Result<Vec<i32>, Fault> = numbers::read;
    let _: fn(&str) -> bool = numbers::are_bare;
    let _: fn(&str) -> Option<Holds> = Holds::of;
    let _: fn(&str) -> Vec<usize> = text::left_out;

    let _: fn(&[i32]) -> Option<Limits> = Limits::from_words;
    let _: fn(&Limits) -> Vec<i32> = Limits::words;
    let _: fn(&Limits) -> String = Limits::text;
    let _: fn(&Limits, usize, Side) -> Option<String> = Limits::limit_text;
    let _: fn(&[i32]) -> Option<Times> = Times::from_words;
    let _: fn(&Times) -> Vec<i32> = Times::words;
    let _: fn(&Times) -> String = Times::text;
    let _: fn(&Times, &Row) -> String = Times::row_text;
}

#[test]
fn fields_and_cases() {
    let _: fn(Fault) -> (usize, usize, String) = |fault| (fault.line, fault.column, fault.what);
    let _: fn(Limits) -> (Vec<String>, i32) = |limits| (limits.names, limits.parts);
    let _: fn(Times) -> (Vec<String>, i32) = |times| (times.names, times.parts);
    let _: fn(Times) -> Vec<Row> = |times| times.rows;
    let _: fn(answer::TimesAnswer) -> Vec<i64> = |answer| answer.words;
    let _ = [Side::Lower, Side::Upper];
    let _ = [Holds::Limits, Holds::Times];
    fn is_error<T: std::error::Error>() {}
    is_error::<Fault>();
}
