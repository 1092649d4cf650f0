//! 01, "the drill": lines in, a summary or one `bad` line out.

mod line;
mod run;
mod setup;

use std::io::{self, BufRead, Write};

use line::{Field, Line};
use run::Run;
use setup::Setup;

/// A line that the drill cannot take.
#[derive(Debug)]
pub struct Bad;

/// Where in its input the drill stands.
enum Stage {
    First,
    Setup(Setup),
    Run(Run),
}

impl Stage {
    fn take(self, line: &Line) -> Result<Stage, Bad> {
        let (letter, fields) = line.parts().ok_or(Bad)?;
        match self {
            Stage::First => Ok(Stage::Setup(Setup::new(letter, fields)?)),
            Stage::Setup(mut setup) if matches!(letter, b'C' | b'P') => {
                setup.take(letter, fields)?;
                Ok(Stage::Setup(setup))
            }
            Stage::Setup(setup) => Stage::Run(Run::new(setup)).take(line),
            Stage::Run(mut run) => {
                run.take(letter, fields)?;
                Ok(Stage::Run(run))
            }
        }
    }

    /// What is printed at the end of input.
    fn end(self) -> Result<String, Bad> {
        match self {
            Stage::First => Err(Bad),
            Stage::Setup(setup) => Ok(Run::new(setup).summary()),
            Stage::Run(run) => Ok(run.summary()),
        }
    }
}

/// Runs the drill from `input` to `output`. It reads no further than the first bad line.
pub fn drill(mut input: impl BufRead, mut output: impl Write) -> io::Result<()> {
    let mut number: u64 = 1;
    let mut stage = Stage::First;
    while let Some(line) = Line::read(&mut input)? {
        match stage.take(&line) {
            Ok(next) => stage = next,
            Err(Bad) => return writeln!(output, "bad\t{number}"),
        }
        number += 1;
    }
    match stage.end() {
        Ok(summary) => output.write_all(summary.as_bytes()),
        Err(Bad) => writeln!(output, "bad\t{number}"),
    }
}

/// The drill's output for an input held in memory.
pub fn drill_bytes(input: &[u8]) -> Vec<u8> {
    let mut output = Vec::new();
    drill(input, &mut output).expect("memory can be read and written");
    output
}
