//! The command `deepchalk`: sets, runs, tables and models from a shell.

mod answer;
mod arguments;
mod choices;
mod commands;
mod confirm;
mod draw;
mod failure;
mod files;
mod find;
mod json;
mod progress;
mod run;
mod search;
mod set;
mod steps;
mod usage;
mod verdict;
mod z3;

use answer::Answer;
use arguments::{shown, Arguments, Form};
use failure::{status, Failure};
use std::any::Any;
use std::ffi::OsString;
use std::io::{self, Write};
use std::panic;
use std::process::ExitCode;

type Command = fn(&Arguments) -> Result<Answer, Failure>;

const COMMANDS: [(Form, Command); 10] = [
    (form("read", &["FILE"], &[]), commands::read),
    (form("list", &["FILE"], &[]), commands::list),
    (
        Form {
            many: true,
            ..form("simulate", &["FILE", "CHOICES"], &["-o", "--map"])
        },
        commands::simulate,
    ),
    (
        form("replay", &["FILE", "TRACE"], &["--map"]),
        commands::replay,
    ),
    (form("encode", &["FILE", "K"], &["-o"]), commands::encode),
    (form("check", &["FILE", "K", "MODEL"], &[]), commands::check),
    (
        form("decode", &["FILE", "K", "MODEL"], &["-o", "-m"]),
        commands::decode,
    ),
    (form("show", &["TRACE"], &[]), commands::show),
    (form("draw", &["TRACE"], &["-o"]), commands::draw),
    (
        form(
            "find",
            &["FILE", "K"],
            &["-o", "-m", "--svg", "--solver", "--search"],
        ),
        find::find,
    ),
];

const fn form(
    name: &'static str,
    inputs: &'static [&'static str],
    options: &'static [&'static str],
) -> Form {
    Form {
        name,
        inputs,
        many: false,
        options,
    }
}

fn main() -> ExitCode {
    // A panic is a fault of ours; it gets its one line below.
    panic::set_hook(Box::new(|_| {}));
    let words: Vec<OsString> = std::env::args_os().skip(1).collect();
    let ended = panic::catch_unwind(|| start(&words));
    let ended = ended.unwrap_or_else(|cause| Err(fault(&*cause)));
    ExitCode::from(ended.unwrap_or_else(|failure| {
        // Where standard error is closed there is nobody to tell.
        let _ = writeln!(io::stderr(), "deepchalk: {}", failure.line);
        failure.status
    }))
}

fn fault(cause: &(dyn Any + Send)) -> Failure {
    let text = cause.downcast_ref::<&str>().copied();
    let text = text.or(cause.downcast_ref::<String>().map(String::as_str));
    let text = text.unwrap_or("a panic").escape_debug();
    let line = format!("a fault of deepchalk itself: {text}");
    Failure::new(status::FAULT, line)
}

fn start(words: &[OsString]) -> Result<u8, Failure> {
    let Some((name, rest)) = words.split_first() else {
        let line = "no command; deepchalk help shows the commands";
        return Err(Failure::bad_input(line));
    };
    let asks = |word: &OsString| word == "--help" || word == "-h";
    let up_to_dashes = words.iter().take_while(|word| *word != "--");
    if name == "help" || up_to_dashes.clone().any(asks) {
        return files::print(usage::USAGE.as_bytes()).map(|()| status::DONE);
    }
    if name == "--version" {
        let line = concat!("deepchalk ", env!("CARGO_PKG_VERSION"), "\n");
        return files::print(line.as_bytes()).map(|()| status::DONE);
    }
    let Some((form, command)) = COMMANDS.iter().find(|(form, _)| name == form.name) else {
        let line = format!("no command {}; deepchalk help shows them", shown(name));
        return Err(Failure::bad_input(line));
    };
    let arguments = Arguments::parse(form, rest)?;
    let json = arguments.json();
    match command(&arguments) {
        Ok(answer) => answer.deliver(json),
        Err(failure) => {
            let shown = failure.json.as_ref().filter(|_| json);
            answer::print(&failure.text, shown)?;
            Err(failure)
        }
    }
}
