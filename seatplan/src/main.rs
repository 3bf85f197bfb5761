use std::env;
use std::ffi::OsString;
use std::fs;
use std::io::{self, Write};
use std::path::{Path, PathBuf};
use std::process::ExitCode;

use feedercoil::BlockedDecks;
use seatplan::{notes, place_seats, svg, table, write_whole, Error, Placing, Plan, SeatList};

const USAGE: &str = "\
seatplan PLAN SEATS [OPTION]..: the place of every seat of a list on the decks of a plan, as a table in metres.

  --svg FILE       draws the decks with their seats
  --ship FILE      writes the ship file
  --seats FILE     writes the seat list, 20 bytes a seat
  --records FILE   writes the records, 36 bytes a seat
  --seatlist FILE  writes what the program seatlist reads: ship file, blocked set and seats
  --blocked DECK   leaves a deck out of every search; may be given more than once
  --help           prints this

PLAN and SEATS are CSV; docs/PLANS.md says what stands in them. The exit status is 0 where the seats were judged, also where some are unplaced;
1 where the input is wrong or refused, and 2 where the command is. A file is written whole or not at all.
";

/// What an option has the program write.
type Content = fn(&Plan, &SeatList, &Placing) -> Vec<u8>;

const OUTPUTS: [(&str, Content); 5] = [
    ("--svg", |plan, seats, placing| svg(plan, seats, placing).into_bytes()),
    ("--ship", |_, _, placing| placing.ship.clone()),
    ("--seats", |_, _, placing| placing.seats.clone()),
    ("--records", |_, _, placing| placing.bytes.clone()),
    ("--seatlist", |_, _, placing| placing.seatlist_input()),
];

#[derive(Default)]
struct Command {
    inputs: Vec<PathBuf>,
    outputs: Vec<(PathBuf, Content)>,
    blocked: Vec<String>,
    help: bool,
}

fn main() -> ExitCode {
    let command = match command(env::args_os().skip(1)) {
        Ok(command) => command,
        Err(what) => {
            eprintln!("seatplan: {what}; 'seatplan --help' says how it is called");
            return ExitCode::from(2);
        }
    };
    let text = if command.help { Ok(USAGE.to_string()) } else { run(&command) };
    match text.map_err(|error| error.to_string()).and_then(|text| print(&text).map_err(|error| format!("standard output: {error}"))) {
        Ok(()) => ExitCode::SUCCESS,
        Err(what) => {
            eprintln!("seatplan: {what}");
            ExitCode::FAILURE
        }
    }
}

fn print(text: &str) -> io::Result<()> {
    let mut out = io::stdout().lock();
    out.write_all(text.as_bytes())?;
    out.flush()
}

fn command(mut arguments: impl Iterator<Item = OsString>) -> Result<Command, String> {
    let mut command = Command::default();
    while let Some(argument) = arguments.next() {
        let option = match argument.to_str() {
            Some("-h" | "--help") => return Ok(Command { help: true, ..command }),
            Some(option) if option.starts_with('-') => option,
            _ => {
                command.inputs.push(argument.into());
                continue;
            }
        };
        let output = OUTPUTS.iter().find(|output| output.0 == option);
        if output.is_none() && option != "--blocked" {
            return Err(format!("there is no option '{option}'"));
        }
        let value = arguments.next().ok_or(format!("'{option}' wants a name after it"))?;
        match output {
            Some(&(_, content)) => command.outputs.push((value.into(), content)),
            None => command.blocked.push(value.to_string_lossy().into_owned()),
        }
    }
    match command.inputs.len() {
        2 => apart(&command).map(|()| command),
        n => Err(format!("a plan and a seat list are wanted, and the files named are {n}")),
    }
}

/// No file is written twice, and none that is read.
fn apart(command: &Command) -> Result<(), String> {
    let mut seen: Vec<PathBuf> = command.inputs.iter().map(|path| real(path)).collect();
    for (path, _) in &command.outputs {
        if seen.contains(&real(path)) {
            return Err(format!("'{}' is named twice", path.display()));
        }
        seen.push(real(path));
    }
    Ok(())
}

/// The file that a path leads to, whether or not it is there already.
fn real(path: &Path) -> PathBuf {
    let folder = match path.parent() {
        Some(folder) if folder != Path::new("") => folder,
        _ => Path::new("."),
    };
    let beside = || Some(fs::canonicalize(folder).ok()?.join(path.file_name()?));
    fs::canonicalize(path).ok().or_else(beside).unwrap_or(path.to_path_buf())
}

/// Nor is a mesh file written over that the plan names.
fn meshes_apart(plan: &Plan, command: &Command) -> Result<(), Error> {
    let meshes: Vec<PathBuf> =
        plan.decks.iter().filter_map(|deck| deck.vertices.first()).map(|place| real(Path::new(&*place.file))).collect();
    match command.outputs.iter().find(|(path, _)| meshes.contains(&real(path))) {
        Some((path, _)) => {
            Err(Error::file(&path.display().to_string(), "the plan takes a deck from this file, and it is not written over"))
        }
        None => Ok(()),
    }
}

fn run(command: &Command) -> Result<String, Error> {
    let plan = Plan::read(&command.inputs[0])?;
    meshes_apart(&plan, command)?;
    let seats = SeatList::read(&command.inputs[1], &plan)?;
    let placing = place_seats(&plan, &seats, &blocked(&plan, command)?)?;
    let files: Vec<(PathBuf, Vec<u8>)> =
        command.outputs.iter().map(|(path, content)| (path.clone(), content(&plan, &seats, &placing))).collect();
    write_whole(&files)?;
    notes(&plan).iter().for_each(|note| eprintln!("seatplan: {note}"));
    Ok(table(&plan, &seats, &placing))
}

fn blocked(plan: &Plan, command: &Command) -> Result<BlockedDecks, Error> {
    let mut blocked = BlockedDecks::new();
    for name in &command.blocked {
        let absent = || Error::file("--blocked", format!("the plan has no deck '{name}': {}", plan.deck_names()));
        // A deck past the 256th is refused with the plan.
        if let Ok(deck) = u8::try_from(plan.deck_number(name).ok_or_else(absent)?) {
            blocked.insert(deck);
        }
    }
    Ok(blocked)
}
