//! Traces: the forms that are read, what is compared, and the traces of `tests/traces`.

use pack_reference::engine::Reference;
use pack_reference::traces::{answered, replay, Mismatch};

const OPENING: &str = "O\t2\t1\t0\t0\t1\t7\t0000000000000005\t00000000\t0\n";
const SENT: &str = "0201010100010000000000070000000000000005";

fn run(text: &str) -> Result<u64, (u64, Mismatch)> {
    replay(&Reference::default(), text)
}

fn answer(line: u64, answer: &str) -> Result<u64, (u64, Mismatch)> {
    Err((line, Mismatch::Answer(answer.to_string())))
}

#[test]
fn a_session_of_one() {
    let lines = [
        OPENING,
        &format!("T\t140\t0\t1\t{SENT}\n"),
        &format!("D\t1\t{SENT}\t0\n"),
        &format!("D\t1\t{SENT}\t11\n"),
        "R\t16\t16\t0\t0\t-\t-\t1\n",
        "R\t15\t16\t8\t0\t-\t-\t0\n",
        "T\t139\t8\t0\t-\n",
    ];
    assert_eq!(run(&lines.concat()), Ok(7));
}

#[test]
fn rule_exit_and_mark_are_not_compared() {
    assert_eq!(run(&format!("{OPENING}T\t140\t0\t1\t9\t9\t9\t{SENT}\n")), Ok(2));
    let wrong = run(&format!("{OPENING}T\t140\t0\t2\t3\t0\t0\t{SENT}\n"));
    assert_eq!(wrong, answer(2, &format!("0\t1\t{SENT}")));
}

#[test]
fn calls_before_an_opening() {
    assert_eq!(
        run("T\t140\t9\t0\t-\nD\t1\t-\t9\nR\t16\t16\t9\t0\t-\t-\t0\nT\t0\t9\t0\t-\n"),
        Ok(4)
    );
}

#[test]
fn the_first_line_that_differs() {
    assert_eq!(run(&OPENING.replace("\t0\n", "\t1\n")), answer(1, "0"));
    assert_eq!(run(&format!("{OPENING}T\t140\t0\t0\t-\n")), answer(2, &format!("0\t1\t{SENT}")));
    let report = format!("{OPENING}R\t16\t16\t0\t0\t-\t0000000000000005\t0\n");
    assert_eq!(run(&report), answer(2, "0\t0\t-\t-\t0"));
}

#[test]
fn other_forms_are_not_taken() {
    let wrong = [
        "",
        "\n",
        "X\t1\t0\n",
        "T\t140\n",
        "T\t140\t9\t0\t0\t-\n",
        "T\t-1\t9\t0\t-\n",
        "D\t1\t0\t9\n",
        "D\t1\t0g\t9\n",
        "D\t18446744073709551616\t-\t9\n",
        "R\t16\t9\t0\t-\t-\t0\n",
        "O\t1\t0\t0\t1\t7\t0000000000000005\t00000000\t0\n",
        "O\t2\t1\t0\t0\t1\t7\t5\t00000000\t0\n",
        "O\t2\t1\t0\t0\t1\t7\t0000000000000005\t0\t0\n",
        "O\t2\t1\t0\t0\t1\t4294967296\t0000000000000005\t00000000\t1\n",
    ];
    for text in wrong {
        assert_eq!(run(text), Err((1, Mismatch::Form)), "{text:?}");
    }
}

#[test]
fn answers_are_filled_in() {
    let calls = "T\t140\nO\t2\t1\t0\t0\t1\t7\t0000000000000005\t00000000\nT\t140\tany\n";
    let trace = answered(&Reference::default(), calls).unwrap();
    assert_eq!(trace, format!("T\t140\t9\t0\t-\n{OPENING}T\t140\t0\t1\t{SENT}\n"));
    assert_eq!(answered(&Reference::default(), "T\t140\nno call\n"), Err(2));
}

#[test]
fn the_traces_of_this_repository() {
    let directory = concat!(env!("CARGO_MANIFEST_DIR"), "/../traces");
    let names = std::fs::read_dir(directory).unwrap().map(|entry| entry.unwrap().path());
    let traces: Vec<_> =
        names.filter(|name| name.extension().is_some_and(|e| e == "calls")).collect();
    assert!(!traces.is_empty());
    for name in traces {
        let result = run(&std::fs::read_to_string(&name).unwrap());
        assert!(result.is_ok(), "{}: {result:?}", name.display());
    }
}
