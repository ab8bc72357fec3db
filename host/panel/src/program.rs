//! A built program of the repository, which can be run.

use std::io::{Read, Write};
use std::path::{Path, PathBuf};
use std::process::{Child, Stdio};
use std::thread;

use crate::kit::Kit;

pub struct Program {
    pub name: String,
    path: PathBuf,
    kit: Kit,
}

impl Program {
    /// The program that `make target/bin/panel` has built.
    pub fn built(name: &str) -> Result<Program, String> {
        let path = Path::new(env!("CARGO_MANIFEST_DIR"))
            .join("../../target/bin")
            .join(name);
        if !path.is_file() {
            return Err(format!(
                "target/bin/{name} is not built: run `make target/bin/{name}` first"
            ));
        }
        Ok(Program {
            name: name.to_string(),
            path,
            kit: Kit::found()?,
        })
    }

    /// All that the program writes when it is given these bytes and no more. A thread hands them
    /// over, since the program may wait for what it writes to be read before it reads on.
    pub fn written(&self, bytes: Vec<u8>) -> Result<Vec<u8>, String> {
        let mut child = self.start()?;
        let mut input = child.stdin.take().ok_or("standard input is no pipe")?;
        let mut output = child.stdout.take().ok_or("standard output is no pipe")?;
        let writer = thread::spawn(move || input.write_all(&bytes));
        let mut written = Vec::new();
        let read = output.read_to_end(&mut written);
        read.map_err(|error| format!("what the program wrote cannot be read: {error}"))?;
        let status = child.wait().map_err(|error| error.to_string())?;
        let all_read = writer.join().is_ok_and(|result| result.is_ok());
        if status.success() && all_read {
            Ok(written)
        } else {
            Err(format!("the program ended with {status}"))
        }
    }

    fn start(&self) -> Result<Child, String> {
        self.kit
            .command(&self.path)
            .stdin(Stdio::piped())
            .stdout(Stdio::piped())
            .spawn()
            .map_err(|error| format!("target/bin/{} cannot be started: {error}", self.name))
    }
}
