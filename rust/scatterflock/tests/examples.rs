//! The examples run to their end.

#[path = "../examples/editor.rs"]
mod editor;
#[path = "../examples/oven.rs"]
mod oven;
#[path = "../examples/starts.rs"]
mod starts;

#[test]
fn editor_runs() {
    assert_eq!(editor::main(), Ok(()));
}

#[test]
fn oven_runs() {
    assert_eq!(oven::main(), Ok(()));
}

#[test]
fn starts_run() {
    assert_eq!(starts::main(), Ok(()));
}
