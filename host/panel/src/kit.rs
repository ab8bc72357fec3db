//! How a built program is run: it is an executable for x86-64 Linux, which the machine's own loader starts.

use std::env::{self, consts::ARCH};
use std::path::{Path, PathBuf};
use std::process::Command;

/// What runs programs for x86-64 on this machine: nothing where it is one, and else the kit's emulator.
pub struct Kit {
    emulator: Option<PathBuf>,
}

impl Kit {
    /// The guide that `rt doc` names stands in the kit's own folder.
    pub fn found() -> Result<Kit, String> {
        if ARCH == "x86_64" {
            return Ok(Kit { emulator: None });
        }
        let told = Command::new("rt")
            .arg("doc")
            .output()
            .map_err(|error| format!("`rt doc` cannot be run: {error}"))?;
        let guide = String::from_utf8_lossy(&told.stdout).trim().to_string();
        let Some(home) = Path::new(&guide).parent() else {
            return Err(format!("`rt doc` names no guide, but `{guide}`"));
        };
        let emulator = home.join("on").join(ARCH).join("toolchain/bin/qemu-x86_64");
        if !emulator.is_file() {
            return Err(format!("the kit has no emulator for this machine, {ARCH}"));
        }
        Ok(Kit {
            emulator: Some(emulator),
        })
    }

    /// The command that runs a program for x86-64.
    pub fn command(&self, program: &Path) -> Command {
        let Some(emulator) = &self.emulator else {
            return Command::new(program);
        };
        let mut command = Command::new(emulator);
        command.arg(program);
        // Like `rt`, lets no setting from outside change how the emulator runs.
        for (name, _) in env::vars_os() {
            if name.to_string_lossy().starts_with("QEMU_") {
                command.env_remove(name);
            }
        }
        command
    }
}
