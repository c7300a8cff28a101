//! The C programs of `build-client.sh`: how they are started, and calls of the exported recovery.

use std::fmt;
use std::io::{Read, Write};
use std::path::{Path, PathBuf};
use std::process::{Child, ChildStdin, ChildStdout, Command, Stdio};
use std::time::SystemTime;

/// A program of `build-client.sh`, not yet started. The archive that it was linked with must be
/// there and no younger. It is for x86-64, and run by an emulator elsewhere.
pub fn program(name: &str) -> Command {
    let root = Path::new(env!("CARGO_MANIFEST_DIR")).join("..");
    let path = root.join("target/client").join(name);
    let (archive, built) = (age(root.join("crates/host/out/libhost.a")), age(path.clone()));
    assert!(archive <= built, "{} is older than the archive: build it again", path.display());
    if cfg!(target_arch = "x86_64") {
        return Command::new(path);
    }
    let mut command = Command::new("qemu-x86_64");
    command.arg(path);
    command
}

/// When the file was made, which must be there.
fn age(file: PathBuf) -> SystemTime {
    let time = std::fs::metadata(&file).and_then(|known| known.modified());
    time.unwrap_or_else(|error| {
        let name = file.display();
        panic!("{name}: {error}; 'rt lib' in crates/host and tests/build-client.sh make it")
    })
}

/// A call of the exported recovery.
#[derive(Clone, Debug, PartialEq, Eq)]
pub struct Call {
    pub cells: u32,
    pub threads: u32,
    pub tries: u32,
    pub events: u32,
    pub kept: Vec<u8>,
    /// How many bytes stand in front of the image: this gives every alignment.
    pub offset: usize,
}

/// What stands in front of the image and after it. Nothing may touch it.
const AROUND: u8 = 0xa5;
const AFTER: usize = 16;

/// A running client.
pub struct Client {
    child: Child,
    input: Option<ChildStdin>,
    output: ChildStdout,
}

impl Client {
    pub fn start() -> Client {
        let mut command = program("client");
        command.stdin(Stdio::piped()).stdout(Stdio::piped());
        let mut child = command.spawn().unwrap_or_else(|error| panic!("{command:?}: {error}"));
        let (input, output) = (child.stdin.take(), child.stdout.take().unwrap());
        Client { child, input, output }
    }

    /// The number that the call returned, and the image's bytes as it left them.
    pub fn recover(&mut self, call: &Call) -> Result<(u32, Vec<u8>), String> {
        let (start, end) = (call.offset, call.offset + call.kept.len());
        let mut bytes = vec![AROUND; end + AFTER];
        bytes[start..end].copy_from_slice(&call.kept);
        let returned = self.exchange(call, &mut bytes).map_err(|error| error.to_string())?;
        let image = bytes[start..end].to_vec();
        bytes[start..end].fill(AROUND);
        if bytes.iter().any(|&byte| byte != AROUND) {
            return Err("a byte outside the image was written".to_string());
        }
        Ok((returned, image))
    }

    fn exchange(&mut self, call: &Call, bytes: &mut [u8]) -> std::io::Result<u32> {
        let Call { cells, threads, tries, events, .. } = *call;
        let part = [call.offset as u32, call.kept.len() as u32, bytes.len() as u32];
        let header = [&[cells, threads, tries, events], &part[..]].concat();
        let mut request: Vec<u8> = header.iter().flat_map(|number| number.to_le_bytes()).collect();
        request.extend(&*bytes);
        let input = self.input.as_mut().unwrap();
        input.write_all(&request)?;
        input.flush()?;
        let mut returned = [0; 4];
        self.output.read_exact(&mut returned)?;
        self.output.read_exact(bytes)?;
        Ok(u32::from_le_bytes(returned))
    }

    /// Ends the client, which must have nothing more to say and end well.
    pub fn finish(mut self) {
        self.input = None;
        let mut rest = Vec::new();
        self.output.read_to_end(&mut rest).unwrap();
        assert!(rest.is_empty(), "the client wrote {} bytes too many", rest.len());
        let status = self.child.wait().unwrap();
        assert!(status.success(), "the client ended with {status}");
    }
}

impl Drop for Client {
    fn drop(&mut self) {
        let _ = self.child.kill();
        let _ = self.child.wait();
    }
}

impl fmt::Display for Call {
    /// R, n, S and the event count, then the image: a cell on a line, then the other numbers, then
    /// the bytes that are left over.
    fn fmt(&self, f: &mut fmt::Formatter) -> fmt::Result {
        let Call { cells, threads, tries, events, .. } = self;
        writeln!(f, "cells {cells}, threads {threads}, tries {tries}, events {events}")?;
        writeln!(f, "{} bytes, {} in front of them:", self.kept.len(), self.offset)?;
        let fours = self.kept.chunks_exact(4);
        let rest = fours.remainder();
        let numbers: Vec<u32> =
            fours.map(|four| u32::from_le_bytes([four[0], four[1], four[2], four[3]])).collect();
        let of_cells = numbers.len().min(4 * (*cells).min(64) as usize);
        for cell in numbers[..of_cells].chunks(4) {
            writeln!(f, "  cell {cell:?}")?;
        }
        write!(f, "  then {:?} and the bytes {rest:?}", &numbers[of_cells..])
    }
}
