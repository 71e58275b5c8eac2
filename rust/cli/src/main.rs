//! Stores in files. See `cikolaro --help`.

mod args;
mod commands;
mod failure;
mod files;
mod help;
mod picture;

use std::process::ExitCode;

use failure::Failure;

fn main() -> ExitCode {
    let words: Vec<String> = match std::env::args_os().skip(1).map(|word| word.into_string()).collect() {
        Ok(words) => words,
        Err(word) => return Failure::Usage(format!("{word:?} is not UTF-8")).told(),
    };
    match run(&words) {
        Ok(()) => ExitCode::SUCCESS,
        Err(failure) => failure.told(),
    }
}

fn run(words: &[String]) -> Result<(), Failure> {
    let Some((command, rest)) = words.split_first() else {
        return Err(Failure::Usage("no command".into()));
    };
    if matches!(command.as_str(), "--help" | "-h" | "help") {
        let text = rest.first().map_or(Some(help::ALL), |name| help::of(name));
        let text = text.ok_or_else(|| Failure::Usage(format!("no command {:?}", rest[0])))?;
        print!("{text}");
        return Ok(());
    }
    let Some(text) = help::of(command) else {
        return Err(Failure::Usage(format!("no command {command:?}")));
    };
    if rest.iter().any(|word| word == "--help" || word == "-h") {
        print!("{text}");
        return Ok(());
    }
    match command.as_str() {
        "format" => commands::format(rest),
        "audit" => commands::audit(rest),
        "apply" => commands::apply(rest),
        "get" => commands::get(rest),
        "scan" => commands::scan(rest),
        "stat" => commands::stat(rest),
        "node" => commands::node(rest),
        _ => commands::picture(rest),
    }
}
