//! vantorel: one command over the proved library. File names, options, exit status and words are here; every answer comes from the library.

#![deny(missing_docs)]

mod args;
mod block;
mod board;
mod check;
mod families;
mod figures;
mod files;
mod hex;
mod jobs;
mod join;
mod json;
mod load;
mod make;
mod mark;
mod memory;
mod missing;
mod names;
mod number;
mod out;
pub mod pages;
mod progress;
mod reason;
mod replay;
mod settings;
mod state;
mod system;
mod table;
mod tags;
mod traces;
mod why;

use args::{Args, Opt};
use out::Out;
use std::ffi::OsString;
use std::process::ExitCode;

/// How a command ends: exit status 0 or 1.
enum End {
    /// The job is whole.
    Whole,
    /// It is not, and what is missing was said.
    Short,
}

/// A wrong command line, or a file that cannot be read or written: exit status 2, with one sentence.
struct Trouble(String);

/// What a command comes to.
type Outcome = Result<End, Trouble>;

/// A command: its name, what it does in a line, how many of its first words are no files, its page of help, its options, and the function.
struct Command {
    name: &'static str,
    does: &'static str,
    verbs: usize,
    help: &'static [&'static str],
    options: &'static [&'static [Opt]],
    run: fn(&Args, &mut Out) -> Outcome,
}

const COMMANDS: &[Command] = &[
    Command {
        name: "load",
        does: "plays a UF2 file into a board and says what came of it",
        verbs: 0,
        help: &[load::HELP, board::HELP],
        options: &[load::OPTIONS, board::OPTIONS],
        run: load::run,
    },
    Command {
        name: "check",
        does: "says what is in a UF2 file, and whether it is valid for a board",
        verbs: 0,
        help: &[check::HELP, board::HELP],
        options: &[check::OPTIONS, board::OPTIONS],
        run: check::run,
    },
    Command {
        name: "why",
        does: "says why an arrival was not taken, or a family has a place or none",
        verbs: 0,
        help: &[why::HELP, board::HELP],
        options: &[why::OPTIONS, board::OPTIONS],
        run: why::run,
    },
    Command {
        name: "make",
        does: "makes a UF2 file of an image",
        verbs: 0,
        help: &[make::HELP],
        options: &[make::OPTIONS],
        run: make::run,
    },
    Command {
        name: "replay",
        does: "replays a trace and says where its answers differ from ours",
        verbs: 0,
        help: &[replay::HELP, board::HELP],
        options: &[replay::OPTIONS, board::OPTIONS],
        run: replay::run,
    },
    Command {
        name: "figures",
        does: "replays traces and counts our answers over all of them",
        verbs: 0,
        help: &[figures::HELP, board::HELP],
        options: &[figures::OPTIONS, board::OPTIONS],
        run: figures::run,
    },
    Command {
        name: "tags",
        does: "lists the extension tags of a UF2 file, and its version",
        verbs: 0,
        help: &[tags::HELP],
        options: &[tags::OPTIONS],
        run: tags::run,
    },
    Command {
        name: "hex",
        does: "reads a Universal Hex file for one board",
        verbs: 0,
        help: &[hex::HELP],
        options: &[hex::OPTIONS],
        run: hex::run,
    },
    Command {
        name: "join",
        does: "writes one Universal Hex file from two Intel Hex files",
        verbs: 0,
        help: &[join::HELP],
        options: &[join::OPTIONS],
        run: join::run,
    },
    Command {
        name: "mark",
        does: "marks a student's receiver beside the proved one",
        verbs: 1,
        help: &[mark::HELP],
        options: &[mark::OPTIONS],
        run: mark::run,
    },
    Command {
        name: "settings",
        does: "shows a board's stored settings, and packs a store from a text",
        verbs: 1,
        help: &[settings::command::HELP],
        options: &[settings::command::OPTIONS],
        run: settings::command::run,
    },
];

fn help(out: &mut Out) {
    out.text(
        "vantorel: UF2 and Universal Hex files, by a library that is proved to do what\n\
         its specification says\n\n",
    );
    for command in COMMANDS {
        out.line(format_args!("  {:10}{}", command.name, command.does));
    }
    out.text(HELP_END);
}

const HELP_END: &str = "
`vantorel COMMAND --help` says more, with an example. Numbers are decimal (4096,
64K, 2M) or hex (0x1000); families have names: rp2040, absolute, data, arm-s,
riscv, arm-ns. The name - is standard input. With --json each command prints one
JSON object instead of words. Colours are shown on a terminal, where NO_COLOR is
not set. `vantorel --version` prints the version.

Exit status: 0 the job is whole, 1 it is not, 2 a wrong command line or a file
that cannot be read or written.

    vantorel load blink.uf2 --drop 17
";

fn command(name: &str) -> Result<&'static Command, Trouble> {
    let found = COMMANDS.iter().find(|command| command.name == name);
    found.ok_or_else(|| Trouble(format!("no command '{name}'; `vantorel --help` lists them")))
}

fn is_version(word: &String) -> bool {
    word == "--version" || word == "-V"
}

/// The version, which is that of the library and of the headers, and the commit that a release was made from.
fn version() -> String {
    let version = env!("CARGO_PKG_VERSION");
    match option_env!("VANTOREL_COMMIT") {
        Some(commit) => format!("vantorel {version} ({commit})"),
        None => format!("vantorel {version}"),
    }
}

fn is_help(word: &String) -> bool {
    word == "--help" || word == "-h"
}

fn run(words: Vec<String>, out: &mut Out) -> Outcome {
    mark::serve(&words);
    let mut words = words.into_iter();
    let Some(name) = words.next() else {
        help(out);
        return Err(Trouble("say a command".into()));
    };
    let words: Vec<String> = words.collect();
    if is_help(&name) || (name == "help" && words.is_empty()) {
        help(out);
        return Ok(End::Whole);
    }
    if is_version(&name) && words.is_empty() {
        out.line(version());
        return Ok(End::Whole);
    }
    let (name, asked) = match words.first() {
        Some(of) if name == "help" => (of.clone(), true),
        _ => (
            name,
            words.iter().take_while(|word| *word != "--").any(is_help),
        ),
    };
    let command = command(&name)?;
    if asked {
        out.text(command.help.concat());
        return Ok(End::Whole);
    }
    let args = Args::parse(command.name, command.options, words)?;
    args.apart(command.options, command.verbs)?;
    (command.run)(&args, out)
}

/// Runs the words of a command line.
pub fn main(words: impl Iterator<Item = OsString>) -> ExitCode {
    ExitCode::from(status(words))
}

/// The same; the exit status as a number.
pub fn status(words: impl Iterator<Item = OsString>) -> u8 {
    let mut out = Out::new();
    let words: Result<Vec<String>, OsString> = words.map(OsString::into_string).collect();
    let outcome = match words {
        Ok(words) => run(words, &mut out),
        Err(word) => Err(Trouble(format!("{word:?} is not text in UTF-8"))),
    };
    let status = match outcome {
        Ok(End::Whole) => 0,
        Ok(End::Short) => 1,
        Err(Trouble(why)) => {
            out.note(why);
            2
        }
    };
    match out.end() {
        Ok(()) => status,
        Err(why) => {
            eprintln!(
                "vantorel: cannot write to standard output: {}",
                system::reason(&why)
            );
            2
        }
    }
}
