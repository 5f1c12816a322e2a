//! The driver of call lists: one process for many lists, a line for each call and each answer.

use crate::calls::Call;
use crate::coverage::Coverage;
use crate::work::Model;
use std::io::{Error, Read, Write};
use std::process::{Command, Stdio};

/// The answers to all calls of some lists, as far as they came.
pub fn run(driver: &str, lists: &[Vec<Call>]) -> Result<Vec<String>, Error> {
    let mut child = Command::new(driver).stdin(Stdio::piped()).stdout(Stdio::piped()).spawn()?;
    let mut input = child.stdin.take().expect("piped");
    let mut output = child.stdout.take().expect("piped");
    let mut text = String::new();
    std::thread::scope(|scope| -> Result<(), Error> {
        let commands: String = lists.iter().flatten().map(|call| format!("{call}\n")).collect();
        scope.spawn(move || {
            // a driver that ended early is seen by its missing answers
            let _ = input.write_all(commands.as_bytes());
        });
        output.read_to_string(&mut text)?;
        Ok(())
    })?;
    child.wait()?;
    Ok(text.lines().map(str::to_string).collect())
}

/// Where a list's answers are not right: the number of the call, and why.
pub fn judge(calls: &[Call], answers: &[String], coverage: &mut Coverage) -> Result<(), String> {
    let mut model = Model::default();
    let mut judged = Ok(());
    for (number, call) in calls.iter().enumerate() {
        let Some(answer) = answers.get(number) else {
            judged = Err(format!("call {number}, `{call}`: no answer"));
            break;
        };
        judged = model.judge(call, answer).map_err(|why| format!("call {number}, `{call}`: came `{answer}`: {why}"));
        if judged.is_err() {
            break;
        }
    }
    coverage.merge(model.coverage);
    judged
}
