//! The worked runs of document 01, the form of lines, and all cases of a directory.

use std::fs;
use std::path::Path;

use pack_reference::drill::drill_bytes;

fn run(input: &str) -> String {
    String::from_utf8(drill_bytes(input.replace(' ', "\t").as_bytes())).unwrap()
}

#[test]
fn one_concentrator() {
    let output = run("N 1 0 0 7\nP 1 0000000000000005\nR\n");
    assert_eq!(output, "1\t1\t1\t5\t0000000000000005\nsent\t4\n");
}

#[test]
fn four_inputs_of_five() {
    let inputs: String = (1..=4).map(|p| format!("P {p} 0000000000000005\n")).collect();
    let lines: String = (1..=4).map(|p| format!("{p}\t1\t1\t11\t0000000000000005\n")).collect();
    assert_eq!(run(&format!("N 4 1 1 7\n{inputs}R\n")), format!("{lines}sent\t40\n"));
}

#[test]
fn lines_that_are_bad() {
    let one = "N 1 0 0 7\nP 1 0000000000000005\n";
    let cases = [
        ("", 1),
        ("\n", 1),
        ("R\n", 1),
        ("N 5 0 0 7\n", 1),
        ("N 4 1 0 7\n", 1),
        ("N 4 1 1 4294967296\n", 1),
        ("N 18446744073709551617 0 0 7\n", 1),
        ("N 1 0 0 7\nC 1 0000000A\n", 2),
        ("N 1 0 0 7\nC 1 00000000\nC 1 00000000\n", 3),
        ("N 1 0 0 7\nT 1\n", 2),
        ("N 1 0 0 7\nL 1 1 1 1 0 5\n", 2),
    ];
    for (input, number) in cases {
        assert_eq!(run(input), format!("bad\t{number}\n"), "{input:?}");
    }
    for line in ["", "R ", " R", "RR", "T 2", "T -1", "D 0 1", "D 1 1", "P 1 0000000000000005"] {
        assert_eq!(run(&format!("{one}{line}\nR\n")), "bad\t3\n", "{line:?}");
    }
}

#[test]
fn lines_of_any_length() {
    let one = "N 1 0 0 7\nP 1 0000000000000005\n";
    let zeros = "0".repeat(100_000);
    assert_eq!(run(&format!("{one}T {zeros}1")), "1\t0\t0\t1\t-\nsent\t1\n");
    assert_eq!(run(&format!("{one}T 1{zeros}1")), "bad\t3\n");
    assert_eq!(run(&format!("{one}T{}", " 1".repeat(100_000))), "bad\t3\n");
}

/// The output of a case: where requests changed it, theirs.
const WANTED: [&str; 4] = ["case.n2n8.out", "case.n2.out", "case.n8.out", "case.out"];

/// Runs the cases of the directories named in PACK_VECTORS, parted by colons; none if it is not set.
#[test]
fn cases_of_directories() {
    let Ok(directories) = std::env::var("PACK_VECTORS") else { return };
    for directory in directories.split(':') {
        let mut count = 0;
        for entry in fs::read_dir(directory).unwrap() {
            count += usize::from(check_case(&entry.unwrap().path()));
        }
        assert!(count > 0, "no case in {directory}");
    }
}

fn check_case(case: &Path) -> bool {
    let Ok(input) = fs::read(case.join("case.in")) else { return false };
    let wanted = WANTED.into_iter().find_map(|name| fs::read(case.join(name)).ok());
    assert!(wanted == Some(drill_bytes(&input)), "{}", case.display());
    true
}
