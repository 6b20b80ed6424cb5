//! Asks the original, and prints its answers.

use std::process::ExitCode;
use std::str::FromStr;

#[cfg(feature = "port")]
use differential::port::{self, bench};
use differential::{answers, cells, meaning, settings, stats};

const USAGE: &str = "usage: settings | stats | small | lists | answers | print | pass | port | sample | bench | count, with \
                     --seed N, --cases N, and count with --family NAME; the last four need the feature port";

/// The exit status of bad usage; 1 is that of a run that found a difference.
const BAD_USAGE: u8 = 2;

fn main() -> ExitCode {
    let arguments: Vec<String> = std::env::args().skip(1).collect();
    match passes(&arguments) {
        Ok(true) => ExitCode::SUCCESS,
        Ok(false) => ExitCode::FAILURE,
        Err(message) => {
            eprintln!("{message}");
            ExitCode::from(BAD_USAGE)
        }
    }
}

fn passes(arguments: &[String]) -> Result<bool, String> {
    let seed = number(arguments, "--seed")?.unwrap_or(1);
    let given = number(arguments, "--cases")?;
    let cases = |otherwise: usize| given.unwrap_or(otherwise);
    Ok(match arguments.first().map(String::as_str) {
        Some("settings") => settings::run(),
        Some("stats") => stats::run(seed, cases(20_000)),
        Some("small") => stats::run_small(seed),
        Some("lists") => meaning::run(seed, cases(20_000)),
        Some("answers") => shown(|| print!("{}", answers::answers(seed))),
        Some("print") => shown(|| answers::print(seed, cases(10))),
        Some("pass") => shown(|| cells::print(seed, cases(10))),
        #[cfg(feature = "port")]
        Some("port") => port::run(seed, cases(20_000)),
        #[cfg(feature = "port")]
        Some("sample") => port::sample(seed, cases(10_000)),
        #[cfg(feature = "port")]
        Some("bench") => bench::run(seed),
        #[cfg(feature = "port")]
        Some("count") => bench::count(seed, option(arguments, "--family")?),
        _ => return Err(USAGE.into()),
    })
}

fn shown(print: impl FnOnce()) -> bool {
    print();
    true
}

/// What stands after the option, if the option is there.
fn option<'a>(arguments: &'a [String], name: &str) -> Result<Option<&'a str>, String> {
    let Some(place) = arguments.iter().position(|argument| argument == name) else { return Ok(None) };
    let value = arguments.get(place + 1).ok_or_else(|| format!("{name} has no value after it"))?;
    Ok(Some(value))
}

/// The number after the option, if the option is there.
fn number<T: FromStr>(arguments: &[String], name: &str) -> Result<Option<T>, String> {
    let Some(text) = option(arguments, name)? else { return Ok(None) };
    let number = text.parse().map_err(|_| format!("{name} wants a whole number from 0 on, and got {text:?}"))?;
    Ok(Some(number))
}
