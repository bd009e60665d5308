//! The command line.
use crate::failure::Failure;
use crate::files::{Source, Target};
use crate::help;
use crate::lines::{number, shown};
use std::ffi::OsString;
use std::os::unix::ffi::{OsStrExt, OsStringExt};
use std::path::PathBuf;

/// What is asked of the program.
pub enum Request {
    Help(Option<&'static Command>),
    Version,
    Check { file: Source },
    List { file: Source },
    Build { file: Target, lines: Source, force: bool },
    Set { file: PathBuf, score: u32, name: Vec<u8> },
    Withdraw { file: PathBuf, name: Vec<u8> },
    Top { file: Source, count: usize, prefix: Vec<u8> },
    Page { file: Source },
    Convert { file: PathBuf },
    ConvertInto { file: Source, out: Target, force: bool },
    Merge { file: PathBuf, other: Source },
    MergeInto { file: Source, other: Source, out: Target, force: bool },
    Trie { file: Source, out: Target, force: bool },
}

/// A command: its operands, of which those past `needed` may be left out, and its options besides
/// `--help`.
pub struct Command {
    pub word: &'static str,
    pub help: &'static str,
    operands: &'static [&'static str],
    needed: usize,
    takes_out: bool,
    takes_force: bool,
    request: fn(Given) -> Result<Request, String>,
}

pub static COMMANDS: [Command; 10] = [
    command("check", help::CHECK, &["FILE"], check),
    command("list", help::LIST, &["FILE"], list),
    Command {
        needed: 1,
        takes_force: true,
        ..command("build", help::BUILD, &["FILE", "LINES"], build)
    },
    command("set", help::SET, &["FILE", "SCORE", "NAME"], set),
    command("withdraw", help::WITHDRAW, &["FILE", "NAME"], withdraw),
    Command { needed: 2, ..command("top", help::TOP, &["FILE", "K", "PREFIX"], top) },
    command("page", help::PAGE, &["FILE"], page),
    Command {
        takes_out: true,
        takes_force: true,
        ..command("merge", help::MERGE, &["FILE", "OTHER"], merge)
    },
    Command { takes_force: true, ..command("trie", help::TRIE, &["FILE", "OUT"], trie) },
    Command {
        takes_out: true,
        takes_force: true,
        ..command("convert", help::CONVERT, &["FILE"], convert)
    },
];

/// A command that needs all its operands and has no options.
const fn command(
    word: &'static str,
    help: &'static str,
    operands: &'static [&'static str],
    request: fn(Given) -> Result<Request, String>,
) -> Command {
    let needed = operands.len();
    Command { word, help, operands, needed, takes_out: false, takes_force: false, request }
}

/// What stands behind a command's word, taken apart. The operands are as many as the command asks.
#[derive(Default)]
struct Given {
    operands: std::vec::IntoIter<OsString>,
    out: Option<OsString>,
    force: bool,
    help: bool,
}

impl Given {
    /// The next operand; nothing where it was left out.
    fn next(&mut self) -> OsString {
        self.operands.next().unwrap_or_default()
    }

    fn next_bytes(&mut self) -> Vec<u8> {
        self.next().into_vec()
    }

    fn next_source(&mut self) -> Source {
        Source::named(self.next())
    }

    /// Declines --force where FILE is changed in place, which needs none.
    fn no_force(&self) -> Result<(), String> {
        if self.force {
            return Err("--force goes with -o OUT; FILE is changed in place".to_string());
        }
        Ok(())
    }

    /// A file that is changed in place.
    fn next_path(&mut self) -> Result<PathBuf, String> {
        let path = self.next();
        if path == "-" {
            return Err("FILE is changed in place, so it cannot be `-`".to_string());
        }
        Ok(path.into())
    }
}

pub fn read(mut arguments: impl Iterator<Item = OsString>) -> Result<Request, Failure> {
    let usage = |words: String| Failure::Usage { words, command: None };
    let Some(word) = arguments.next() else {
        return Err(usage("a command is missing".to_string()));
    };
    match word.as_bytes() {
        b"help" | b"-h" | b"--help" => {
            let topic = arguments.next();
            no_more(arguments)?;
            topic.map(|topic| named(&topic)).transpose().map(Request::Help)
        }
        b"-V" | b"--version" => no_more(arguments).map(|()| Request::Version),
        _ => {
            let command = named(&word)?;
            request(command, arguments)
                .map_err(|words| Failure::Usage { words, command: Some(command.word) })
        }
    }
}

fn no_more(mut arguments: impl Iterator<Item = OsString>) -> Result<(), Failure> {
    let Some(extra) = arguments.next() else {
        return Ok(());
    };
    let words = format!("{} is too much", quoted(extra.as_bytes()));
    Err(Failure::Usage { words, command: None })
}

fn named(word: &OsString) -> Result<&'static Command, Failure> {
    COMMANDS.iter().find(|command| *word == *command.word).ok_or_else(|| Failure::Usage {
        words: format!("there is no command {}", quoted(word.as_bytes())),
        command: None,
    })
}

fn request(
    command: &'static Command,
    arguments: impl Iterator<Item = OsString>,
) -> Result<Request, String> {
    let given = take_apart(command, arguments)?;
    if given.help {
        return Ok(Request::Help(Some(command)));
    }
    let count = given.operands.len();
    if count < command.needed {
        return Err(format!("{} is missing", command.operands[count]));
    }
    if count > command.operands.len() {
        let extra = &given.operands.as_slice()[command.operands.len()];
        let extra = quoted(extra.as_bytes());
        return Err(format!("{extra} is too much; a name with spaces stands in quotes"));
    }
    (command.request)(given)
}

fn take_apart(
    command: &Command,
    mut arguments: impl Iterator<Item = OsString>,
) -> Result<Given, String> {
    let mut given = Given::default();
    let mut operands = Vec::new();
    while let Some(argument) = arguments.next() {
        match argument.as_bytes() {
            b"--" => operands.extend(arguments.by_ref()),
            b"-h" | b"--help" => given.help = true,
            b"--force" if command.takes_force => given.force = true,
            b"-o" if command.takes_out => {
                given.out = Some(arguments.next().ok_or("OUT is missing behind -o")?);
            }
            [b'-', _, ..] => {
                let option = quoted(argument.as_bytes());
                let hint = "what begins with - and is no option stands behind --";
                return Err(format!("there is no option {option}; {hint}"));
            }
            _ => operands.push(argument),
        }
    }
    given.operands = operands.into_iter();
    Ok(given)
}

fn check(mut given: Given) -> Result<Request, String> {
    Ok(Request::Check { file: given.next_source() })
}

fn list(mut given: Given) -> Result<Request, String> {
    Ok(Request::List { file: given.next_source() })
}

fn build(mut given: Given) -> Result<Request, String> {
    let file = Target::named(given.next());
    let lines = given.operands.next().map_or(Source::Standard, Source::named);
    Ok(Request::Build { file, lines, force: given.force })
}

fn set(mut given: Given) -> Result<Request, String> {
    let file = given.next_path()?;
    let text = given.next_bytes();
    let score = number(&text).ok_or_else(|| {
        format!("SCORE is a whole number from 0 to {}, not {}", u32::MAX, quoted(&text))
    })?;
    Ok(Request::Set { file, score, name: given.next_bytes() })
}

fn withdraw(mut given: Given) -> Result<Request, String> {
    let file = given.next_path()?;
    Ok(Request::Withdraw { file, name: given.next_bytes() })
}

fn top(mut given: Given) -> Result<Request, String> {
    let file = given.next_source();
    let text = given.next_bytes();
    let count = number(&text).and_then(|count| usize::try_from(count).ok());
    let count = count.ok_or_else(|| {
        format!("K is a whole number from 1 to {}, not {}", label_book::COUNT_MAX, quoted(&text))
    })?;
    Ok(Request::Top { file, count, prefix: given.next_bytes() })
}

fn page(mut given: Given) -> Result<Request, String> {
    Ok(Request::Page { file: given.next_source() })
}

fn merge(mut given: Given) -> Result<Request, String> {
    let Some(out) = given.out.take() else {
        given.no_force()?;
        let file = given.next_path()?;
        return Ok(Request::Merge { file, other: given.next_source() });
    };
    let (file, other) = (given.next_source(), given.next_source());
    if let (Source::Standard, Source::Standard) = (&file, &other) {
        return Err("FILE and OTHER cannot both be `-`".to_string());
    }
    Ok(Request::MergeInto { file, other, out: Target::named(out), force: given.force })
}

fn trie(mut given: Given) -> Result<Request, String> {
    let (file, out) = (given.next_source(), Target::named(given.next()));
    Ok(Request::Trie { file, out, force: given.force })
}

fn convert(mut given: Given) -> Result<Request, String> {
    let Some(out) = given.out.take() else {
        given.no_force()?;
        return Ok(Request::Convert { file: given.next_path()? });
    };
    let (file, out) = (given.next_source(), Target::named(out));
    Ok(Request::ConvertInto { file, out, force: given.force })
}

/// An argument as a message shows it.
fn quoted(argument: &[u8]) -> String {
    format!("`{}`", shown(argument))
}
