//! A program, started once for each sheet.

use std::io::{Error, Write};
use std::process::{Command, Output, Stdio};

pub struct Program {
    pub path: String,
}

impl Program {
    /// The last part of its path.
    pub fn name(&self) -> &str {
        self.path.rsplit_once('/').map_or(&self.path, |(_, name)| name)
    }

    fn run(&self, sheet: &[u8]) -> Result<Output, Error> {
        let mut command = Command::new(&self.path);
        let mut child = command.stdin(Stdio::piped()).stdout(Stdio::piped()).stderr(Stdio::piped()).spawn()?;
        // Of an input that is too long it leaves a part, and the pipe is closed; what it prints then says so.
        drop(child.stdin.take().expect("stdin is piped").write_all(sheet));
        child.wait_with_output()
    }

    /// What it prints for a sheet, or what else it does: it has to end by itself and to say nothing elsewhere.
    pub fn listing(&self, sheet: &[u8]) -> Result<String, String> {
        let output = self.run(sheet).map_err(|error| format!("{}: {error}", self.path))?;
        if !output.status.success() || !output.stderr.is_empty() {
            return Err(format!("{}: {output:?}", self.path));
        }
        String::from_utf8(output.stdout).map_err(|error| error.to_string())
    }
}
