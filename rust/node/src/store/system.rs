//! The system calls that a store makes, and their real side. Tests have a simulated disk beneath
//! the same trait.

use std::ffi::OsStr;
use std::fs::{self, DirBuilder, File, Metadata, OpenOptions, TryLockError};
use std::io::{self, Read, Write};
use std::os::fd::AsRawFd;
use std::os::unix::fs::{DirBuilderExt, MetadataExt, OpenOptionsExt};
use std::path::{Path, PathBuf};

/// Which file it is, under whatever name. It stays the same for as long as the file is open.
#[derive(Debug, Clone, Copy, PartialEq, Eq)]
pub(crate) struct Identity {
    pub device: u64,
    pub inode: u64,
}

/// What stands at a name. A link is not followed.
#[derive(Debug, Clone, Copy)]
pub(crate) struct Status {
    pub identity: Identity,
    /// Neither a folder nor a link, a pipe or a device.
    pub is_file: bool,
    pub len: u64,
}

/// How a file is opened.
#[derive(Debug, Clone, Copy, PartialEq, Eq)]
pub(crate) enum Mode {
    Read,
    ReadWrite,
    /// Made, for the owner alone; an error where anything stands.
    New,
}

pub(crate) trait System {
    /// A directory that is kept open: what is done in it is done there, wherever its path leads.
    type Directory;
    type File;

    /// Makes one directory, for the owner alone.
    fn make_directory(&self, path: &Path) -> io::Result<()>;
    fn open_directory(&self, path: &Path) -> io::Result<Self::Directory>;
    fn sync_directory(&self, directory: &Self::Directory) -> io::Result<()>;
    fn status_at(&self, path: &Path) -> io::Result<Status>;
    fn status_in(&self, directory: &Self::Directory, name: &OsStr) -> io::Result<Status>;
    fn status_of(&self, file: &Self::File) -> io::Result<Status>;
    fn open(&self, directory: &Self::Directory, name: &OsStr, mode: Mode)
        -> io::Result<Self::File>;
    fn try_lock(&self, file: &Self::File) -> Result<(), TryLockError>;
    /// Gives up the lock, whoever else has the file open.
    fn unlock(&self, file: &Self::File);
    fn read(&self, file: &mut Self::File, into: &mut [u8]) -> io::Result<usize>;
    fn write(&self, file: &mut Self::File, bytes: &[u8]) -> io::Result<usize>;
    fn sync(&self, file: &Self::File) -> io::Result<()>;
    fn rename(&self, directory: &Self::Directory, from: &OsStr, to: &OsStr) -> io::Result<()>;
    fn remove(&self, directory: &Self::Directory, name: &OsStr) -> io::Result<()>;
}

/// The operating system.
#[derive(Debug, Clone, Copy)]
pub(crate) struct Os;

/// Where the system lists a process's open files, each as a link to the file itself.
const OPEN_FILES: &str = "/proc/self/fd";

#[derive(Debug)]
pub(crate) struct OsDirectory {
    file: File,
    /// A path that leads to the open directory; its own path where the system lists no open files.
    path: PathBuf,
}

impl OsDirectory {
    fn open(path: &Path, open_files: &Path) -> io::Result<OsDirectory> {
        let file = File::open(path)?;
        let status = file.metadata()?;
        if !status.is_dir() {
            return Err(io::ErrorKind::NotADirectory.into());
        }
        let listed = open_files.join(file.as_raw_fd().to_string());
        let is_listed =
            fs::metadata(&listed).is_ok_and(|other| identity(&other) == identity(&status));
        let path = if is_listed { listed } else { path.into() };
        Ok(OsDirectory { file, path })
    }
}

fn identity(metadata: &Metadata) -> Identity {
    Identity {
        device: metadata.dev(),
        inode: metadata.ino(),
    }
}

fn status(metadata: Metadata) -> Status {
    Status {
        identity: identity(&metadata),
        is_file: metadata.is_file(),
        len: metadata.len(),
    }
}

impl System for Os {
    type Directory = OsDirectory;
    type File = File;

    fn make_directory(&self, path: &Path) -> io::Result<()> {
        DirBuilder::new().mode(0o700).create(path)
    }

    fn open_directory(&self, path: &Path) -> io::Result<OsDirectory> {
        OsDirectory::open(path, Path::new(OPEN_FILES))
    }

    fn sync_directory(&self, directory: &OsDirectory) -> io::Result<()> {
        directory.file.sync_all()
    }

    fn status_at(&self, path: &Path) -> io::Result<Status> {
        fs::symlink_metadata(path).map(status)
    }

    fn status_in(&self, directory: &OsDirectory, name: &OsStr) -> io::Result<Status> {
        self.status_at(&directory.path.join(name))
    }

    fn status_of(&self, file: &File) -> io::Result<Status> {
        file.metadata().map(status)
    }

    fn open(&self, directory: &OsDirectory, name: &OsStr, mode: Mode) -> io::Result<File> {
        let mut options = OpenOptions::new();
        match mode {
            Mode::Read => options.read(true),
            Mode::ReadWrite => options.read(true).write(true),
            Mode::New => options.read(true).write(true).create_new(true).mode(0o600),
        };
        options.open(directory.path.join(name))
    }

    fn try_lock(&self, file: &File) -> Result<(), TryLockError> {
        file.try_lock()
    }

    fn unlock(&self, file: &File) {
        let _ = file.unlock();
    }

    fn read(&self, file: &mut File, into: &mut [u8]) -> io::Result<usize> {
        file.read(into)
    }

    fn write(&self, file: &mut File, bytes: &[u8]) -> io::Result<usize> {
        file.write(bytes)
    }

    fn sync(&self, file: &File) -> io::Result<()> {
        file.sync_all()
    }

    fn rename(&self, directory: &OsDirectory, from: &OsStr, to: &OsStr) -> io::Result<()> {
        fs::rename(directory.path.join(from), directory.path.join(to))
    }

    fn remove(&self, directory: &OsDirectory, name: &OsStr) -> io::Result<()> {
        fs::remove_file(directory.path.join(name))
    }
}

#[cfg(test)]
mod tests {
    use super::*;

    /// What is done in an open directory is done there, also when its path leads elsewhere; where
    /// the system lists no open files, the path has to do.
    #[test]
    fn an_open_directory_is_kept() {
        let folder = std::env::temp_dir().join(format!("pokerbox-kept-{}", std::process::id()));
        let (first, moved) = (folder.join("first"), folder.join("moved"));
        for (open_files, expected) in [(OPEN_FILES, &moved), ("/nowhere", &first)] {
            fs::create_dir_all(&first).unwrap();
            let directory = OsDirectory::open(&first, Path::new(open_files)).unwrap();
            fs::rename(&first, &moved).unwrap();
            fs::create_dir(&first).unwrap();
            Os.open(&directory, OsStr::new("file"), Mode::New).unwrap();
            assert!(expected.join("file").exists(), "{open_files}");
            fs::remove_dir_all(&folder).unwrap();
        }
    }
}
