//! Attacks the reference engine, sound, with each fault, and sound with lost lines of the journals or with recorded bits
//! that differ. Arguments: seed, number of feeders, and optionally one of these. It succeeds if the sound engine holds and
//! everything else is found. With `versions` as the third argument it runs each feeder in both versions, and prints what the
//! honest ones did in each; with `packs` it runs each with the AUX of 01 and with that of N2, and prints the packs in the sets.

use std::process::ExitCode;

use pack_reference::attack::{attack, packs, versions, Conditions};
use pack_reference::engine::Reference;
use pack_reference::Fault;

/// What is attacked.
#[derive(Clone, Copy)]
struct Target {
    name: &'static str,
    fault: Fault,
    conditions: Conditions,
}

fn targets() -> Vec<Target> {
    let faulty = |fault: Fault| Target { name: fault.name(), fault, conditions: Conditions::Met };
    let unmet = [("lost-lines", Conditions::LostLines), ("other-bits", Conditions::OtherBits)];
    let sound = unmet.map(|(name, conditions)| Target { name, fault: Fault::None, conditions });
    Fault::ALL.into_iter().map(faulty).chain(sound).collect()
}

fn main() -> ExitCode {
    let arguments: Vec<String> = std::env::args().skip(1).collect();
    if let [seed, feeders, mode] = &arguments[..] {
        match (mode.as_str(), seed.parse(), feeders.parse()) {
            ("versions", Ok(seed), Ok(feeders)) => return print_versions(seed, feeders),
            ("packs", Ok(seed), Ok(feeders)) => return print_packs(seed, feeders),
            _ => {}
        }
    }
    let Some((seed, feeders, targets)) = read_arguments(&arguments) else {
        eprintln!("usage: attack SEED FEEDERS [FAULT | versions | packs]");
        targets().iter().for_each(|target| eprintln!("  fault {}", target.name));
        return ExitCode::from(2);
    };
    let as_wanted = targets.iter().filter(|target| run(seed, feeders, target)).count();
    if as_wanted == targets.len() {
        ExitCode::SUCCESS
    } else {
        ExitCode::FAILURE
    }
}

fn print_versions(seed: u64, feeders: u64) -> ExitCode {
    match versions(&Reference::default(), seed, feeders) {
        Ok(tallies) => {
            for (version, tallies) in tallies {
                println!("version {}, no liars: {}", version.number(), tallies.honest);
                println!("version {}, liars: {}", version.number(), tallies.lying);
            }
            ExitCode::SUCCESS
        }
        Err(violation) => {
            println!("violation: {violation}");
            ExitCode::FAILURE
        }
    }
}

fn print_packs(seed: u64, feeders: u64) -> ExitCode {
    match packs(seed, feeders) {
        Ok(packs) => {
            println!("no liars: {}", packs.honest);
            println!("liars: {}", packs.lying);
            println!("busy hosts: {}", packs.busy);
            ExitCode::SUCCESS
        }
        Err(violation) => {
            println!("violation: {violation}");
            ExitCode::FAILURE
        }
    }
}

fn read_arguments(arguments: &[String]) -> Option<(u64, u64, Vec<Target>)> {
    let (seed, feeders, targets) = match arguments {
        [seed, feeders] => (seed, feeders, targets()),
        [seed, feeders, name] => {
            (seed, feeders, vec![targets().into_iter().find(|target| target.name == name)?])
        }
        _ => return None,
    };
    Some((seed.parse().ok()?, feeders.parse().ok()?, targets))
}

/// Answers whether the run ended as it should: with a finding exactly if there is a fault or a condition is not met.
fn run(seed: u64, feeders: u64, target: &Target) -> bool {
    let Target { name, fault, conditions } = *target;
    let (statistics, finding) = attack(&Reference { fault }, conditions, seed, feeders);
    println!("fault {name}: {statistics}");
    match &finding {
        Some(finding) => println!("  violation in {finding}"),
        None => println!("  no violation"),
    }
    finding.is_some() == (fault != Fault::None || conditions != Conditions::Met)
}
