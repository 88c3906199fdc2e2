//! A plain implementation of the validator and the display unit, held against the proved one.
//!
//! Without arguments: compares both on random input, stops with the first difference, then times
//! both side by side. The proved side takes part if the feature `proved` is on.

mod compare;
mod console;
mod device;
mod drawing;
mod orders;
mod pen;
mod proved;
mod random;
mod records;
mod step;
mod timing;
mod typing;
mod validator;
mod vectors;

use std::io::{Read, Write};
use std::process::ExitCode;

const SEED: u64 = 2250;

fn main() -> ExitCode {
    let args: Vec<String> = std::env::args().skip(1).collect();
    let args: Vec<&str> = args.iter().map(String::as_str).collect();
    match args[..] {
        [] => bench(),
        ["--vectors", folder] => match vectors::check(folder.as_ref()) {
            Ok(true) => ExitCode::SUCCESS,
            Ok(false) => ExitCode::FAILURE,
            Err(error) => {
                eprintln!("{folder}: {error}");
                ExitCode::FAILURE
            }
        },
        ["--verdict"] => filter(records::verdicts),
        ["--console"] => filter(console::answers),
        _ => {
            eprintln!("usage: khaonuat-bench [--vectors DIR | --verdict | --console]");
            ExitCode::FAILURE
        }
    }
}

fn bench() -> ExitCode {
    let proved = proved::Proved::linked();
    match &proved {
        Some(proved) => {
            if let Err(difference) = compare::all(proved, SEED) {
                println!("DIFFERENCE: {difference}");
                return ExitCode::FAILURE;
            }
        }
        None => println!("the proved library is not linked: nothing is compared"),
    }
    timing::all(proved.as_ref());
    ExitCode::SUCCESS
}

/// Standard input through a program of this package to standard output.
fn filter(program: fn(&[u8]) -> Vec<u8>) -> ExitCode {
    let mut input = Vec::new();
    let done = std::io::stdin().read_to_end(&mut input).and_then(|_| std::io::stdout().write_all(&program(&input)));
    match done {
        Ok(()) => ExitCode::SUCCESS,
        Err(error) => {
            eprintln!("{error}");
            ExitCode::FAILURE
        }
    }
}
