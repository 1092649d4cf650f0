//! Traces: the calls on one state with the answers of another engine, one to a line, made anew here. `tests/traces/README.md`
//! has the format.

mod call;

pub use call::{refusal, report_answer, turn_answer, Call, TracedOpening};

use crate::engine::Engine;

/// What stands against a line.
#[derive(Clone, Debug, PartialEq, Eq)]
pub enum Mismatch {
    /// The line has not the form of one.
    Form,
    /// The engine here answers otherwise: its answer.
    Answer(String),
}

/// Makes the calls from an unopened state on. Answers their number, or the first line, from 1, whose answer is another. A text
/// without a call has none that fits: its line 1 is missing.
pub fn replay<E: Engine>(engine: &E, text: &str) -> Result<u64, (u64, Mismatch)> {
    let mut state = engine.blank();
    let mut calls = 0;
    for line in text.lines() {
        calls += 1;
        let fields: Vec<&str> = line.split('\t').collect();
        let (call, given) = Call::read(&fields).ok_or((calls, Mismatch::Form))?;
        let given = compared(&call, given).ok_or((calls, Mismatch::Form))?;
        let answer = call.make(engine, &mut state);
        if answer != given {
            return Err((calls, Mismatch::Answer(answer)));
        }
    }
    if calls == 0 {
        return Err((1, Mismatch::Form));
    }
    Ok(calls)
}

/// The fields of an answer that are compared. A longer form of a turn's has rule, exit and mark before the message, which are
/// not.
fn compared(call: &Call, given: &[&str]) -> Option<String> {
    let fields = match (call, given) {
        (Call::Opening(_) | Call::Delivery { .. }, [_]) => given.to_vec(),
        (Call::Turn { .. }, [_, _, _]) | (Call::Report { .. }, [_, _, _, _, _]) => given.to_vec(),
        (Call::Turn { .. }, [refusal, outcome, _, _, _, message]) => {
            vec![*refusal, *outcome, *message]
        }
        _ => return None,
    };
    Some(fields.join("\t"))
}

/// The calls of a text, whatever answers it has, with those of the engine; or the first line that is no call.
pub fn answered<E: Engine>(engine: &E, text: &str) -> Result<String, u64> {
    let mut state = engine.blank();
    let mut trace = String::new();
    for (number, line) in (1_u64..).zip(text.lines()) {
        let fields: Vec<&str> = line.split('\t').collect();
        let (call, _) = Call::read(&fields).ok_or(number)?;
        trace += &format!("{call}\t{}\n", call.make(engine, &mut state));
    }
    Ok(trace)
}
