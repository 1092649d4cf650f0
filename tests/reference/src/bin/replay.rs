//! Makes the calls of traces anew, on the reference and, where they are linked, on the C functions, and compares the answers.
//! Arguments: files, and directories whose `*.calls` are meant. It fails if a file differs.

use std::path::{Path, PathBuf};
use std::process::ExitCode;

#[cfg(feature = "c-engine")]
use pack_reference::c_engine::CEngine;
use pack_reference::engine::Reference;
use pack_reference::traces::{replay, Mismatch};

fn main() -> ExitCode {
    let names: Vec<PathBuf> = std::env::args_os().skip(1).map(PathBuf::from).collect();
    if names.is_empty() {
        eprintln!("usage: replay FILE|DIRECTORY...");
        return ExitCode::from(2);
    }
    let mut differing = 0;
    let mut files = 0;
    for name in &names {
        let traces = match traces_of(name) {
            Ok(traces) => traces,
            Err(error) => {
                eprintln!("{}: {error}", name.display());
                return ExitCode::from(2);
            }
        };
        for (name, text) in traces {
            files += 1;
            differing += u64::from(!answers_agree(&name, &text));
        }
    }
    println!("{files} files, {differing} differ");
    if differing == 0 && files > 0 {
        ExitCode::SUCCESS
    } else {
        ExitCode::FAILURE
    }
}

/// The file itself, or the traces in a directory, by name.
fn traces_of(name: &Path) -> std::io::Result<Vec<(PathBuf, String)>> {
    let mut names = vec![name.to_path_buf()];
    if name.is_dir() {
        let entries = std::fs::read_dir(name)?.collect::<Result<Vec<_>, _>>()?;
        let is_trace = |path: &PathBuf| path.extension().is_some_and(|end| end == "calls");
        names = entries.iter().map(|entry| entry.path()).filter(is_trace).collect();
        names.sort();
    }
    let read = |name: PathBuf| std::fs::read_to_string(&name).map(|text| (name, text));
    names.into_iter().map(read).collect()
}

fn answers_agree(name: &Path, text: &str) -> bool {
    let reference = report(name, "the reference", replay(&Reference::default(), text));
    #[cfg(feature = "c-engine")]
    let reference = report(name, "the C functions", replay(&CEngine, text)) && reference;
    reference
}

fn report(name: &Path, engine: &str, result: Result<u64, (u64, Mismatch)>) -> bool {
    let name = name.display();
    match &result {
        Ok(calls) => println!("{name}: {engine}: {calls} calls, no difference"),
        Err((line, Mismatch::Form)) => eprintln!("{name}: line {line} is no call with its answer"),
        Err((line, Mismatch::Answer(answer))) => {
            eprintln!("{name}: line {line}: the answer of {engine} is {answer}");
        }
    }
    result.is_ok()
}
