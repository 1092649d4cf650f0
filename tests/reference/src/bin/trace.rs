//! Writes a trace to standard output, with the answers of the reference: of the calls in a file, whatever answers stand there;
//! or of one honest concentrator of a feeder of the attack.

use std::process::ExitCode;

use pack_reference::attack::feeder_trace;
use pack_reference::engine::Reference;
use pack_reference::traces::answered;
use pack_reference::{Settings, Version};

const USAGE: &str = "usage: trace calls FILE\n       trace feeder SEED VERSION N TA TS OWN";

fn main() -> ExitCode {
    let arguments: Vec<String> = std::env::args().skip(1).collect();
    match trace(&arguments) {
        Ok(trace) => {
            print!("{trace}");
            ExitCode::SUCCESS
        }
        Err(reason) => {
            eprintln!("{reason}");
            ExitCode::from(2)
        }
    }
}

fn trace(arguments: &[String]) -> Result<String, String> {
    match arguments {
        [mode, name] if mode == "calls" => {
            let text = std::fs::read_to_string(name).map_err(|error| format!("{name}: {error}"))?;
            let wrong = |line| format!("{name}: line {line} is no call");
            answered(&Reference::default(), &text).map_err(wrong)
        }
        [mode, numbers @ ..] if mode == "feeder" => {
            let numbers: Vec<u64> = numbers.iter().filter_map(|text| text.parse().ok()).collect();
            let [seed, version, n, ta, ts, own] = numbers[..] else { return Err(USAGE.into()) };
            let version = Version::given(version).map_err(|refusal| refusal.to_string())?;
            let settings =
                Settings::unweighted(n, ta, ts).map_err(|refusal| refusal.to_string())?;
            let own = settings.number(own).ok_or(USAGE)?;
            let trace = feeder_trace(settings.with_version(version), seed, own);
            trace.ok_or(format!("{own} lies"))
        }
        _ => Err(USAGE.into()),
    }
}
