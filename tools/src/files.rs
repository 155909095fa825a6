//! Files that are read, and files that are written.

use crate::failure::{by_system, failed, Failure};
use crate::streams;
use std::ffi::OsStr;
use std::fs::{self, File, Metadata};
use std::io::{self, Read};
use std::os::fd::AsFd;
use std::os::unix::fs::MetadataExt;

/// A file that is open for reading.
pub struct Source {
    pub name: String,
    file: File,
    identity: Identity,
}

/// What tells files apart, whatever they are called.
#[derive(Clone, Copy, PartialEq, Eq)]
pub struct Identity {
    device: u64,
    inode: u64,
}

impl Identity {
    fn of(file: &Metadata) -> Identity {
        Identity {
            device: file.dev(),
            inode: file.ino(),
        }
    }
}

/// A file that was read.
pub struct Input {
    pub name: String,
    pub bytes: Vec<u8>,
    pub identity: Identity,
}

impl Source {
    /// A file by its name.
    pub fn named(path: &OsStr) -> Result<Source, Failure> {
        let name = path.display().to_string();
        File::open(path)
            .and_then(|file| Source::new(&name, file))
            .map_err(|error| by_system(name, error))
    }

    /// A file by its name, or standard input where that is `-`.
    pub fn open(path: &OsStr) -> Result<Source, Failure> {
        if path != "-" {
            return Source::named(path);
        }
        let name = "standard input";
        if streams::input_is_closed() {
            return failed(format!("{name}: it is closed"));
        }
        io::stdin()
            .as_fd()
            .try_clone_to_owned()
            .and_then(|stream| Source::new(name, File::from(stream)))
            .map_err(|error| by_system(name, error))
    }

    fn new(name: &str, file: File) -> io::Result<Source> {
        let identity = Identity::of(&file.metadata()?);
        Ok(Source {
            name: name.to_string(),
            file,
            identity,
        })
    }

    pub fn identity(&self) -> Identity {
        self.identity
    }

    /// The whole file; of one that has more than `most` bytes, one byte more than that.
    pub fn read(self, most: usize) -> Result<Input, Failure> {
        let mut bytes = Vec::new();
        let limit = most as u64 + 1;
        match self.file.take(limit).read_to_end(&mut bytes) {
            Ok(_) => Ok(Input {
                name: self.name,
                bytes,
                identity: self.identity,
            }),
            Err(error) => Err(by_system(self.name, error)),
        }
    }

    /// Whatever has come, in the front of the buffer: how many bytes, 0 at the end.
    pub fn some(&mut self, buffer: &mut [u8]) -> Result<usize, Failure> {
        loop {
            match self.file.read(buffer) {
                Err(error) if error.kind() == io::ErrorKind::Interrupted => {}
                Err(error) => return Err(by_system(&self.name, error)),
                Ok(came) => return Ok(came),
            }
        }
    }
}

/// Whether a file may be written: it is none of those that are read.
pub fn judge_output(path: &OsStr, inputs: &[Identity]) -> Result<(), Failure> {
    if path == "-" {
        return failed("an output is a file, not '-'");
    }
    let name = path.display();
    match fs::metadata(path) {
        Ok(file) if inputs.contains(&Identity::of(&file)) => {
            failed(format!("{name}: it is read too, and would be written over"))
        }
        _ => Ok(()),
    }
}

pub fn write(path: &OsStr, bytes: &[u8]) -> Result<(), Failure> {
    fs::write(path, bytes).map_err(|error| by_system(path.display(), error))
}
