//! One run of a program: its input through a pipe, its output into a file.

use rateio_reference::program::PROGRAM_INPUT;
use std::fs::{File, OpenOptions};
use std::io::{ErrorKind, Read, Seek, SeekFrom, Write};
use std::path::Path;
use std::process::{Command, Stdio};
use std::sync::atomic::{AtomicU32, AtomicU64, Ordering};
use std::time::Duration;

/// A program and its arguments.
pub type Program = Vec<String>;

/// Where one worker's programs write. Output into files, so that a program which writes before it has read all of its
/// input is never waited for by the one that feeds it.
pub struct Runner {
    stdout: File,
    stderr: File,
}

/// What a worker is at, for whoever ends a program that takes too long: the input's number and the process, 0 for none.
#[derive(Default)]
pub struct Desk {
    pub number: AtomicU64,
    pub process: AtomicU32,
}

impl Runner {
    pub fn new(folder: &Path, worker: usize) -> std::io::Result<Runner> {
        let open = |name: &str| {
            let path = folder.join(format!("{}-{}", name, worker));
            OpenOptions::new().read(true).write(true).create(true).truncate(true).open(path)
        };
        Ok(Runner { stdout: open("stdout")?, stderr: open("stderr")? })
    }

    /// What the program writes for this input, which comes in so many pieces with a pause between them.
    pub fn run(&mut self, program: &Program, input: &[u8], pieces: usize, desk: &Desk) -> Result<Vec<u8>, String> {
        let name = Path::new(&program[0]).file_name().map(|name| name.to_string_lossy().into_owned());
        self.start(program, input, pieces, desk).map_err(|why| format!("{}: {}", name.unwrap_or_default(), why))
    }

    fn start(&mut self, program: &Program, input: &[u8], pieces: usize, desk: &Desk) -> Result<Vec<u8>, String> {
        let text = |why: std::io::Error| why.to_string();
        for file in [&mut self.stdout, &mut self.stderr] {
            file.set_len(0).and_then(|()| file.seek(SeekFrom::Start(0))).map_err(text)?;
        }
        let mut child = Command::new(&program[0])
            .args(&program[1..])
            .stdin(Stdio::piped())
            .stdout(self.stdout.try_clone().map_err(text)?)
            .stderr(self.stderr.try_clone().map_err(text)?)
            .spawn()
            .map_err(text)?;
        desk.process.store(child.id(), Ordering::SeqCst);
        let mut pipe = child.stdin.take().expect("the pipe was asked for");
        let fed = feed(&mut pipe, input, pieces);
        drop(pipe);
        let status = child.wait().map_err(text)?;
        desk.process.store(0, Ordering::SeqCst);
        match fed {
            // A program may leave an input that is too long unread.
            Err(why) if why.kind() != ErrorKind::BrokenPipe || input.len() <= PROGRAM_INPUT => {
                return Err(format!("its input: {}", why));
            }
            _ => {}
        }
        let said = whole(&mut self.stderr).map_err(text)?;
        if !status.success() || !said.is_empty() {
            return Err(format!("{}, saying {:?}", status, String::from_utf8_lossy(&said)));
        }
        whole(&mut self.stdout).map_err(text)
    }
}

fn feed(pipe: &mut impl Write, input: &[u8], pieces: usize) -> std::io::Result<()> {
    let size = input.len() / pieces + 1;
    for (k, piece) in input.chunks(size).enumerate() {
        if k > 0 {
            std::thread::sleep(Duration::from_millis(2));
        }
        pipe.write_all(piece)?;
    }
    Ok(())
}

fn whole(file: &mut File) -> std::io::Result<Vec<u8>> {
    let mut text = Vec::new();
    file.seek(SeekFrom::Start(0))?;
    file.read_to_end(&mut text)?;
    Ok(text)
}
