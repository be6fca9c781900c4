//! The arguments, by hand: no crate of a registry is used.

use crate::input::{Form, Source};

pub const HELP: &str = "\
rimonakh: looks at references, snapshots and recordings of a DCOM resolver

  rimonakh objref [FILE]            prints the fields of a reference
  rimonakh snapshot [FILE]          prints what a snapshot holds
  rimonakh replay [FILE]            replays a recorded shift
  rimonakh status [FILE] [-o PAGE]  writes a snapshot as a page in HTML
  rimonakh answer N                 says what an answer number means

FILE is standard input where it is left out or '-'. Text is read as hex (plain,
parted by spaces, colons or commas, with 0x, or a dump of xxd, hexdump -C or
Wireshark), everything else as bytes: nothing that is accepted is text.

  --hex, --raw     the input is hex; the input is bytes
  --find           objref: begins where the signature MEOW stands
  --json           objref, snapshot, replay, answer: prints JSON
  -o, --output F   writes to the file F
  --title TEXT     status: the page's title
  -h, --help       prints this
  -V, --version    prints the version

Exit status: 0 done; 1 refused, or a replay that differs; 2 wrong use, or a
read or write that failed.
";

#[derive(Clone, Copy, Debug, PartialEq, Eq)]
pub enum Command {
    Objref,
    Snapshot,
    Replay,
    Status,
    Answer,
    Help,
    Version,
}

/// What is asked.
#[derive(Clone, Debug, PartialEq, Eq)]
pub struct Request {
    pub command: Command,
    pub source: Source,
    pub find: bool,
    pub json: bool,
    pub output: Option<String>,
    pub title: Option<String>,
    /// The number after `answer`.
    pub number: u32,
}

/// The options and what else stands on the line.
#[derive(Default)]
struct Line {
    words: Vec<String>,
    form: Form,
    find: bool,
    json: bool,
    output: Option<String>,
    title: Option<String>,
    asked: Option<Command>,
}

impl Line {
    fn read(args: impl IntoIterator<Item = String>) -> Result<Line, String> {
        let mut line = Line::default();
        let mut args = args.into_iter();
        let mut options = true;
        while let Some(arg) = args.next() {
            if !options || arg == "-" || !arg.starts_with('-') {
                line.words.push(arg);
            } else if arg == "--" {
                options = false;
            } else {
                line.option(&arg, &mut args)?;
            }
        }
        Ok(line)
    }

    fn option(&mut self, arg: &str, rest: &mut dyn Iterator<Item = String>) -> Result<(), String> {
        let (name, given) = match arg.split_once('=') {
            Some((name, value)) if name.starts_with("--") => (name, Some(value.to_string())),
            _ => (arg, None),
        };
        let with_value = ["-o", "--output", "--title"].contains(&name);
        if given.is_some() && !with_value {
            return Err(format!("{name} takes no value"));
        }
        let mut value = || given.clone().or_else(|| rest.next());
        let wants = |v: Option<String>| v.ok_or(format!("{name} wants a value"));
        match name {
            "--hex" if self.form != Form::Raw => self.form = Form::Hex,
            "--raw" if self.form != Form::Hex => self.form = Form::Raw,
            "--hex" | "--raw" => return Err("--hex and --raw exclude each other".into()),
            "--find" => self.find = true,
            "--json" => self.json = true,
            "-o" | "--output" => self.output = Some(wants(value())?),
            "--title" => self.title = Some(wants(value())?),
            "-h" | "--help" => self.asked = Some(Command::Help),
            "-V" | "--version" => self.asked = self.asked.or(Some(Command::Version)),
            _ => return Err(format!("{arg}: no such option")),
        }
        Ok(())
    }

    /// An option that a command does not have is wrong use.
    fn fits(&self, command: Command) -> Result<(), String> {
        use Command::{Answer, Objref, Status};
        let reads = command != Answer;
        let given = [
            ("--find", self.find, command == Objref),
            ("--json", self.json, command != Status),
            ("--title", self.title.is_some(), command == Status),
            ("--hex", self.form == Form::Hex, reads),
            ("--raw", self.form == Form::Raw, reads),
        ];
        match given.into_iter().find(|(_, is, may)| *is && !may) {
            Some((name, ..)) => Err(format!("{} has no {name}", self.words[0])),
            None => Ok(()),
        }
    }
}

/// What the arguments ask for, or what is wrong with them.
pub fn parse(args: impl IntoIterator<Item = String>) -> Result<Request, String> {
    let mut line = Line::read(args)?;
    let command = match (line.asked, line.words.first().map(String::as_str)) {
        (Some(asked), _) => asked,
        (None, Some("objref")) => Command::Objref,
        (None, Some("snapshot")) => Command::Snapshot,
        (None, Some("replay")) => Command::Replay,
        (None, Some("status")) => Command::Status,
        (None, Some("answer")) => Command::Answer,
        (None, Some(other)) => return Err(format!("{other}: no such command")),
        (None, None) => return Err("no command".into()),
    };
    let mut operand = None;
    if line.asked.is_none() {
        line.fits(command)?;
        if line.words.len() > 2 {
            return Err(format!("{} is one word too many", line.words[2]));
        }
        operand = line.words.pop().filter(|_| !line.words.is_empty());
    }
    let number = match (command, &operand) {
        (Command::Answer, None) => return Err("answer wants a number".into()),
        (Command::Answer, Some(n)) => n.parse().map_err(|_| format!("{n}: no number"))?,
        _ => 0,
    };
    Ok(Request {
        command,
        source: Source {
            file: operand.filter(|name| name != "-"),
            form: line.form,
        },
        find: line.find,
        json: line.json,
        output: line.output,
        title: line.title,
        number,
    })
}
