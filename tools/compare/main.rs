//! Holds the proved engine, linked as a C host links it, to a second engine in plain Rust, and times both side by side.
//! tools/compare/run builds and runs it.

mod calls;
mod compare;
mod engine;
#[path = "../../include/gorsepick.rs"]
mod gorsepick;
mod linked;
mod plan;
mod random;
mod time;

use std::process::ExitCode;

const USAGE: &str = "usage: compare [--lists N] [--seed S]
       time [--csv FILE]";

/// The value of an option, of which each may be given once. What is left over is no option.
fn take_option(arguments: &mut Vec<String>, name: &str) -> Result<Option<String>, String> {
    let Some(place) = arguments.iter().position(|argument| argument == name) else { return Ok(None) };
    if place + 1 == arguments.len() {
        return Err(format!("{name} needs a value"));
    }
    arguments.remove(place);
    Ok(Some(arguments.remove(place)))
}

fn take_number(arguments: &mut Vec<String>, name: &str, default: u64) -> Result<u64, String> {
    let Some(text) = take_option(arguments, name)? else { return Ok(default) };
    text.parse().map_err(|_| format!("{name} needs a number, not {text}"))
}

fn expect_none(arguments: &[String]) -> Result<(), String> {
    match arguments.first() {
        Some(argument) => Err(format!("{argument} is no option\n{USAGE}")),
        None => Ok(()),
    }
}

/// Whether all went well.
fn run(mut arguments: Vec<String>) -> Result<bool, String> {
    gorsepick::check_version()?;
    if arguments.is_empty() {
        return Err(USAGE.to_string());
    }
    match arguments.remove(0).as_str() {
        "compare" => {
            let lists = take_number(&mut arguments, "--lists", 20_000)?;
            let seed = take_number(&mut arguments, "--seed", 1)?;
            expect_none(&arguments)?;
            Ok(compare::run(lists, seed))
        }
        "time" => {
            let csv = take_option(&mut arguments, "--csv")?;
            expect_none(&arguments)?;
            time::run(csv.as_deref()).map(|()| true)
        }
        mode => Err(format!("{mode} is no mode\n{USAGE}")),
    }
}

fn main() -> ExitCode {
    match run(std::env::args().skip(1).collect()) {
        Ok(true) => ExitCode::SUCCESS,
        Ok(false) => ExitCode::FAILURE,
        Err(message) => {
            eprintln!("compare: {message}");
            ExitCode::FAILURE
        }
    }
}
