//! The oracle: the real crate's code behind lines. Each call starts one, sends all lines, and reads the answers in another thread.
use std::io::{BufRead, BufReader, BufWriter, Write};
use std::path::{Path, PathBuf};
use std::process::{Command, Stdio};

#[derive(Clone)]
pub struct Oracle {
    program: PathBuf,
}

impl Oracle {
    pub fn new(program: &Path) -> Oracle {
        Oracle { program: program.into() }
    }

    /// One answer for each line, in order.
    pub fn ask(&self, lines: &[String]) -> Result<Vec<String>, String> {
        if lines.is_empty() {
            return Ok(vec![]);
        }
        let failed = |e: std::io::Error| format!("{}: {e}", self.program.display());
        let mut child = Command::new(&self.program).stdin(Stdio::piped()).stdout(Stdio::piped()).spawn().map_err(failed)?;
        let input = child.stdin.take().unwrap();
        let output = BufReader::with_capacity(1 << 18, child.stdout.take().unwrap());
        let answers: Vec<String> = std::thread::scope(|scope| {
            scope.spawn(move || {
                let mut input = BufWriter::with_capacity(1 << 18, input);
                for line in lines {
                    if writeln!(input, "{line}").is_err() {
                        return;
                    }
                }
                let _ = input.flush();
            });
            output.lines().collect::<Result<_, _>>().map_err(failed)
        })?;
        let status = child.wait().map_err(failed)?;
        if !status.success() || answers.len() != lines.len() {
            return Err(format!("the oracle ended with {status} after {} of {} answers", answers.len(), lines.len()));
        }
        Ok(answers)
    }
}
