//! The child process that carries out calls: how it is started, asked and ended.

use std::env;
use std::io::{self, BufReader, Read, Write};
use std::path::Path;
use std::process::{self, ChildStdout, Command, Stdio};

use super::known::{Change, Known};
use crate::operation::Processor;
use crate::size::{PROCESSOR_BYTES, STATE_BYTES};

/// Where `make library` leaves the bridge and the emulator.
const DIRECTORY: &str = env!("BINTURAMIS_LIBRARY");

/// The bridge's first line. A bridge that greets with another one is of another version.
const GREETING: &[u8] = b"binturamis bridge 5\n";

#[derive(Clone, Copy)]
pub enum Call {
    PowerUp = b'P' as isize,
    PowerUpBoard = b'B' as isize,
    Write = b'W' as isize,
    Read = b'R' as isize,
    Step = b'M' as isize,
    Turn = b'T' as isize,
    Draw = b'D' as isize,
    State = b'S' as isize,
}

/// What a call has left and answered, with the changes of each buffer that it was lent.
pub struct Done<const LENT: usize> {
    pub processor: Processor,
    pub answered: u32,
    pub changes: [Change; LENT],
}

pub struct Child {
    process: process::Child,
    output: BufReader<ChildStdout>,
    /// The memory, the ROM and the picture, as the child has them.
    known: [Known; 3],
    /// The processor that the last call left, and its state: it is often asked for next.
    told: Option<(Processor, [u8; STATE_BYTES])>,
}

impl Child {
    pub fn start() -> Result<Child, String> {
        let mut process = command()?
            .stdin(Stdio::piped())
            .stdout(Stdio::piped())
            .spawn()
            .map_err(|error| format!("{DIRECTORY}/bridge cannot be started: {error}"))?;
        let output = process.stdout.take().expect("standard output is a pipe");
        let mut child = Child {
            process,
            output: BufReader::new(output),
            known: Default::default(),
            told: None,
        };
        child.hear_greeting()?;
        Ok(child)
    }

    fn hear_greeting(&mut self) -> Result<(), String> {
        let mut heard = [0; GREETING.len()];
        match self.output.read_exact(&mut heard) {
            Err(error) => Err(format!("{DIRECTORY}/bridge did not greet: {error}")),
            Ok(()) if heard != GREETING => Err(format!(
                "{DIRECTORY}/bridge is of another version: run `make library`"
            )),
            Ok(()) => Ok(()),
        }
    }

    /// One call, with the buffers in the order memory, ROM, picture.
    pub fn ask<const LENT: usize>(
        &mut self,
        call: Call,
        operands: [u8; 2],
        processor: &Processor,
        lent: [&[u8]; LENT],
    ) -> Result<Done<LENT>, String> {
        let mut request = vec![call as u8, operands[0], operands[1]];
        request.extend(processor.bytes());
        for (known, lent) in self.known.iter_mut().zip(lent) {
            known.catch_up(lent, &mut request);
        }
        self.send(&request)
            .and_then(|()| self.receive())
            .map_err(|error| format!("{DIRECTORY}/bridge did not carry out a call: {error}"))
    }

    pub fn state(&mut self, processor: &Processor) -> Result<[u8; STATE_BYTES], String> {
        match &self.told {
            Some((left, state)) if left == processor => return Ok(*state),
            _ => {}
        }
        self.ask(Call::State, [0, 0], processor, [])?;
        let told = self.told.as_ref().expect("every answer tells a state");
        Ok(told.1)
    }

    fn send(&mut self, request: &[u8]) -> io::Result<()> {
        let input = self.process.stdin.as_mut();
        input.expect("standard input is a pipe").write_all(request)
    }

    fn receive<const LENT: usize>(&mut self) -> io::Result<Done<LENT>> {
        let processor = Processor::of_bytes(bytes::<PROCESSOR_BYTES>(&mut self.output)?);
        let answered = u32::from_le_bytes(bytes(&mut self.output)?);
        let state = bytes(&mut self.output)?;
        self.told = Some((processor.clone(), state));
        let mut changes = Vec::new();
        for known in &mut self.known[..LENT] {
            changes.push(known.change(&mut self.output)?);
        }
        let changes = changes.try_into().map_err(|_| ()).expect("one for each");
        Ok(Done {
            processor,
            answered,
            changes,
        })
    }
}

/// Between calls the child only waits, so there is nothing that it could lose.
impl Drop for Child {
    fn drop(&mut self) {
        let _ = self.process.kill();
        let _ = self.process.wait();
    }
}

fn bytes<const N: usize>(from: &mut impl Read) -> io::Result<[u8; N]> {
    let mut bytes = [0; N];
    from.read_exact(&mut bytes)?;
    Ok(bytes)
}

fn command() -> Result<Command, String> {
    let directory = Path::new(DIRECTORY);
    let (emulator, bridge) = (directory.join("emulator"), directory.join("bridge"));
    for file in [&emulator, &bridge] {
        if !file.is_file() {
            return Err(format!(
                "{} is missing: run `make library` at the top of the repository",
                file.display()
            ));
        }
    }
    let mut command = Command::new(emulator);
    command.arg(bridge);
    // No setting from outside may change how the emulator runs.
    for (name, _) in env::vars_os() {
        if name.to_string_lossy().starts_with("QEMU_") {
            command.env_remove(name);
        }
    }
    Ok(command)
}
