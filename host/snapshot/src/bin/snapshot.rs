//! Shows the page that recorded register accesses draw, in the terminal and as a PNG.

use std::env;
use std::fs;
use std::io::{self, ErrorKind, Read, Write};
use std::path::Path;
use std::process::ExitCode;

use binturamis::{Board, Panel, Part, Width};
use snapshot::access::Access;
use snapshot::arguments::{parse, Arguments, Command, Source, HELP};
use snapshot::panel::{play_in_steps, width, Played};
use snapshot::raster::Raster;
use snapshot::{access, png, shown, terminal};

/// Why nothing is shown, and what the program ends with.
struct Failure {
    exit: u8,
    message: String,
}

fn main() -> ExitCode {
    let done = match parse(env::args_os().skip(1)) {
        Ok(Command::Help) => printed(HELP),
        Ok(Command::Show(arguments)) => show(&arguments),
        Err(wrong) => Err(Failure {
            exit: 2,
            message: format!("{wrong}; `snapshot --help` says how it is used"),
        }),
    };
    match done {
        Ok(()) => ExitCode::SUCCESS,
        Err(failure) => {
            eprintln!("snapshot: {}", failure.message);
            ExitCode::from(failure.exit)
        }
    }
}

fn show(arguments: &Arguments) -> Result<(), Failure> {
    let raster = drawn(arguments)?;
    if let Some(file) = &arguments.png {
        fs::write(file, png::png(&raster)).map_err(|error| {
            let file = file.display();
            of_file(format!("{file} cannot be written: {error}"))
        })?;
    }
    let has_colour = terminal::has_colour(arguments.asked);
    let (text, note) = shown::shown(&raster, terminal::width(), has_colour);
    printed(&text)?;
    eprintln!("{note}");
    Ok(())
}

/// The picture of the accesses; what was refused on the way is told.
fn drawn(arguments: &Arguments) -> Result<Raster, Failure> {
    let bytes = recorded(&arguments.accesses)?;
    let accesses = access::of_bytes(&bytes);
    let rom = match &arguments.rom {
        Some(file) => read_rom(arguments.board, file)?,
        None => demonstration_rom(arguments, &accesses)?,
    };
    let panel = Panel::with_board(arguments.board, &rom);
    let mut panel = panel.map_err(|refusal| of_file(refusal.to_string()))?;
    let played = play_in_steps(&mut panel, &accesses, arguments.steps);
    if bytes.len() % 2 == 1 {
        eprintln!("snapshot: the last byte has no partner and is ignored");
    }
    tell(&played);
    let turned = panel.turn(arguments.phase);
    turned
        .and_then(|()| panel.draw())
        .map_err(|refusal| Failure {
            exit: 3,
            message: format!("the page cannot be drawn: {refusal}"),
        })?;
    Ok(Raster::of_panel(&panel))
}

/// What was refused, and what has not ended.
fn tell(played: &Played) {
    if let Some(first) = played.first {
        let (refused, accesses) = (played.refused, played.accesses);
        eprintln!("snapshot: {refused} of {accesses} accesses refused, the first of them {first}");
    }
    if let Some(running) = played.running {
        eprintln!("snapshot: {running} and still runs");
    }
}

/// The demonstration ROM for the part and the width of the page.
fn demonstration_rom(arguments: &Arguments, accesses: &[Access]) -> Result<Vec<u8>, Failure> {
    let board = arguments.board;
    let built = match (board.part(), width(board, accesses, arguments.steps)) {
        (Part::Ts9347, _) => rom::ts9347::demonstration().map(|(rom, _)| rom.to_vec()),
        (Part::Ef9345, Width::Forty) => rom::demonstration().map(|(rom, _)| rom.to_vec()),
        (Part::Ef9345, Width::Eighty) => rom::narrow().map(|(rom, _)| rom.to_vec()),
    };
    built.map_err(|fault| of_file(fault.to_string()))
}

/// A ROM that is as long as the part has it.
fn read_rom(board: Board, file: &Path) -> Result<Vec<u8>, Failure> {
    let rom = read(file)?;
    if rom.len() == board.rom_bytes() {
        return Ok(rom);
    }
    let whose = match board.part() {
        Part::Ef9345 => "an EF9345",
        Part::Ts9347 => "a TS9347",
    };
    Err(of_file(format!(
        "{} has {} bytes, and the ROM of {whose} has {}",
        file.display(),
        rom.len(),
        board.rom_bytes()
    )))
}

fn recorded(source: &Source) -> Result<Vec<u8>, Failure> {
    match source {
        Source::File(file) => read(file),
        Source::StandardInput => {
            let mut bytes = Vec::new();
            let read = io::stdin().read_to_end(&mut bytes);
            read.map_err(|error| of_file(format!("standard input cannot be read: {error}")))?;
            Ok(bytes)
        }
    }
}

fn read(file: &Path) -> Result<Vec<u8>, Failure> {
    fs::read(file).map_err(|error| of_file(format!("{} cannot be read: {error}", file.display())))
}

/// A reader that has seen enough, such as `head`, may close standard output.
fn printed(text: &str) -> Result<(), Failure> {
    let mut out = io::stdout().lock();
    let printed = out.write_all(text.as_bytes()).and_then(|()| out.flush());
    match printed {
        Err(error) if error.kind() != ErrorKind::BrokenPipe => Err(of_file(format!(
            "standard output cannot be written: {error}"
        ))),
        _ => Ok(()),
    }
}

fn of_file(message: String) -> Failure {
    Failure { exit: 1, message }
}
