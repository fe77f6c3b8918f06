//! The files of a store, and what is done with them: the image, the second file that a write fills,
//! and the lock file, which is also the mark that a store was made here.

use std::ffi::{OsStr, OsString};
use std::fs::TryLockError;
use std::io;
use std::mem::{self, discriminant};
use std::path::{Path, PathBuf};

use super::system::{Identity, Mode, Status, System};
use super::{StoreError, Warning};
use crate::error::Error;
use crate::queue::{Change, Outcome, Queue};
use crate::types::Limits;

/// What the names of the second file and of the lock file have behind the image's.
const SECOND_END: &str = ".new";
const LOCK_END: &str = ".lock";

/// The names of a store's files, and their directory, absolute.
#[derive(Debug, Clone)]
pub(crate) struct Place {
    directory: PathBuf,
    image: OsString,
    second: OsString,
    lock: OsString,
}

impl Place {
    fn new(path: &Path) -> Result<Place, StoreError> {
        let unusable = |error| StoreError::Unusable(path.into(), error);
        let absolute = std::path::absolute(path).map_err(unusable)?;
        let (Some(directory), Some(image)) = (absolute.parent(), absolute.file_name()) else {
            return Err(unusable(io::ErrorKind::InvalidFilename.into()));
        };
        let named = |end: &str| {
            let mut name = image.to_os_string();
            name.push(end);
            name
        };
        Ok(Place {
            directory: directory.into(),
            image: image.into(),
            second: named(SECOND_END),
            lock: named(LOCK_END),
        })
    }

    pub fn image(&self) -> PathBuf {
        self.directory.join(&self.image)
    }

    fn unusable(&self, name: &OsStr) -> impl Fn(io::Error) -> StoreError {
        let path = self.directory.join(name);
        move |error| StoreError::Unusable(path.clone(), error)
    }
}

fn is_missing(error: &io::Error) -> bool {
    error.kind() == io::ErrorKind::NotFound
}

/// What stands at a name; nothing where nothing does.
fn found(status: io::Result<Status>) -> io::Result<Option<Status>> {
    match status {
        Err(error) if is_missing(&error) => Ok(None),
        other => other.map(Some),
    }
}

fn not_a_file() -> io::Error {
    io::Error::other("it is not a regular file: move it away")
}

/// The regular file that stands there; an error where anything else does.
fn found_file(status: io::Result<Status>) -> io::Result<Option<Status>> {
    match found(status)? {
        Some(status) if !status.is_file => Err(not_a_file()),
        status => Ok(status),
    }
}

/// A directory that is kept open.
struct Folder<S: System> {
    system: S,
    place: Place,
    directory: S::Directory,
}

impl<S: System> Folder<S> {
    /// An error where no directory is.
    fn open(system: S, place: Place) -> Result<Folder<S>, StoreError> {
        match system.open_directory(&place.directory) {
            Ok(directory) => Ok(Folder {
                system,
                place,
                directory,
            }),
            Err(error) if is_missing(&error) || error.kind() == io::ErrorKind::NotADirectory => {
                Err(StoreError::NoStore(place.image()))
            }
            Err(error) => Err(StoreError::Unusable(place.directory, error)),
        }
    }

    fn no_store(&self) -> StoreError {
        StoreError::NoStore(self.place.image())
    }

    fn file_at(&self, name: &OsStr) -> Result<Option<Status>, StoreError> {
        found_file(self.system.status_in(&self.directory, name)).map_err(self.place.unusable(name))
    }

    fn has(&self, name: &OsStr) -> Result<bool, StoreError> {
        Ok(self.file_at(name)?.is_some())
    }

    /// The stored image, all of it, and its file; nothing where there is none. What can be no
    /// image is not read.
    fn read_image(&self) -> Result<Option<(S::File, Vec<u8>)>, StoreError> {
        let name = &self.place.image;
        if !self.has(name)? {
            return Ok(None);
        }
        self.read_file(name)
            .map(Some)
            .map_err(self.place.unusable(name))
    }

    fn read_file(&self, name: &OsStr) -> io::Result<(S::File, Vec<u8>)> {
        let mut file = self.system.open(&self.directory, name, Mode::Read)?;
        let status = self.system.status_of(&file)?;
        if !status.is_file {
            return Err(not_a_file());
        }
        if status.len > Limits::MAX.max_image_len() as u64 {
            return Err(io::ErrorKind::FileTooLarge.into());
        }
        let mut text = vec![0; status.len as usize];
        let mut length = 0;
        while length < text.len() {
            match self.system.read(&mut file, &mut text[length..]) {
                Ok(0) => break,
                Ok(count) => length += count,
                Err(error) if error.kind() == io::ErrorKind::Interrupted => {}
                Err(error) => return Err(error),
            }
        }
        text.truncate(length);
        Ok((file, text))
    }

    fn write_all(&self, file: &mut S::File, mut bytes: &[u8]) -> io::Result<()> {
        while !bytes.is_empty() {
            match self.system.write(file, bytes) {
                Ok(0) => return Err(io::ErrorKind::WriteZero.into()),
                Ok(count) => bytes = &bytes[count..],
                Err(error) if error.kind() == io::ErrorKind::Interrupted => {}
                Err(error) => return Err(error),
            }
        }
        Ok(())
    }

    /// Made anew, so that no link can lead the signed bytes elsewhere.
    fn create_second(&self) -> io::Result<S::File> {
        let create = || {
            self.system
                .open(&self.directory, &self.place.second, Mode::New)
        };
        match create() {
            Err(error) if error.kind() == io::ErrorKind::AlreadyExists => {
                self.remove_second()?;
                create()
            }
            made => made,
        }
    }

    fn remove_second(&self) -> io::Result<()> {
        self.system.remove(&self.directory, &self.place.second)
    }
}

/// What was read becomes a queue here, for openings and for looks. A check against damage of the
/// card itself belongs here.
fn queue_of(image: &[u8], place: &Place) -> Result<Queue, StoreError> {
    Queue::open(image).map_err(|error| match error {
        Error::NotAnImage => StoreError::Damaged(place.image()),
        other => StoreError::Refused(other),
    })
}

/// What became of a write.
enum Written {
    Kept,
    Failed(io::Error),
    /// Kept or failed.
    Unknown(io::Error),
}

/// The files of a store, held by this process.
struct Files<S: System> {
    folder: Folder<S>,
    lock: S::File,
    /// Of the lock file.
    mark: Identity,
    warnings: Vec<Warning>,
    /// Since a write whose outcome is not known.
    is_unknown: bool,
}

/// The lock is given up at once, also where a child process that is about to start still has the
/// file.
impl<S: System> Drop for Files<S> {
    fn drop(&mut self) {
        self.folder.system.unlock(&self.lock);
    }
}

impl<S: System> Files<S> {
    /// Takes the lock.
    fn hold(
        folder: Folder<S>,
        lock: S::File,
        mut warnings: Vec<Warning>,
    ) -> Result<Files<S>, StoreError> {
        let in_use = || StoreError::InUse(folder.place.image());
        match folder.system.try_lock(&lock) {
            Ok(()) => {}
            Err(TryLockError::WouldBlock) => return Err(in_use()),
            Err(TryLockError::Error(error)) => {
                let path = folder.place.directory.join(&folder.place.lock);
                warnings.push(Warning::NotLocked(path, error));
            }
        }
        // A lock file that was removed meanwhile locks nothing.
        let name = &folder.place.lock;
        let status = folder.system.status_of(&lock);
        let mark = status.map_err(folder.place.unusable(name))?.identity;
        let stands = folder.file_at(name)?;
        if stands.map(|status| status.identity) != Some(mark) {
            return Err(in_use());
        }
        Ok(Files {
            folder,
            lock,
            mark,
            warnings,
            is_unknown: false,
        })
    }

    /// Holds a store that stands there.
    fn hold_found(folder: Folder<S>) -> Result<Files<S>, StoreError> {
        let (system, name) = (&folder.system, &folder.place.lock);
        let has_image = folder.has(&folder.place.image)?;
        let lock = if folder.has(name)? {
            system.open(&folder.directory, name, Mode::ReadWrite)
        } else if has_image {
            system.open(&folder.directory, name, Mode::New)
        } else {
            return Err(folder.no_store());
        };
        let lock = lock.map_err(folder.place.unusable(name))?;
        Files::hold(folder, lock, Vec::new())
    }

    /// Makes the lock file, which is the mark of a store; an error where a store stands.
    fn make(folder: Folder<S>, warnings: Vec<Warning>) -> Result<Files<S>, StoreError> {
        let stands = || StoreError::StoreStands(folder.place.image());
        if folder.has(&folder.place.image)? || folder.has(&folder.place.lock)? {
            return Err(stands());
        }
        let (system, name) = (&folder.system, &folder.place.lock);
        let lock = match system.open(&folder.directory, name, Mode::New) {
            Err(error) if error.kind() == io::ErrorKind::AlreadyExists => return Err(stands()),
            made => made.map_err(folder.place.unusable(name))?,
        };
        let mut files = Files::hold(folder, lock, warnings)?;
        if let Err(error) = files.make_ready(None) {
            let folder = &files.folder;
            let _ = folder.system.remove(&folder.directory, &folder.place.lock);
            return Err(error);
        }
        Ok(files)
    }

    /// Before a queue is handed out: what was read and the mark are made durable, what an
    /// interrupted write left is removed, and a second file can be made.
    fn make_ready(&mut self, image: Option<&S::File>) -> Result<(), StoreError> {
        let folder = &self.folder;
        let (system, place) = (&folder.system, &folder.place);
        if let Some(image) = image {
            system.sync(image).map_err(place.unusable(&place.image))?;
        }
        system
            .sync(&self.lock)
            .map_err(place.unusable(&place.lock))?;
        match folder.create_second().and_then(|_| folder.remove_second()) {
            // A full card can be read, and its writes fail one by one.
            Err(error) if error.kind() == io::ErrorKind::StorageFull => {}
            made => made.map_err(place.unusable(&place.second))?,
        }
        self.sync_directory();
        Ok(())
    }

    fn warn(&mut self, warning: Warning) {
        put_latest(&mut self.warnings, warning);
    }

    fn sync_directory(&mut self) {
        if let Err(error) = self.folder.system.sync_directory(&self.folder.directory) {
            let path = self.folder.place.directory.clone();
            self.warn(Warning::DirectoryNotSynced(path, error));
        }
    }

    /// Puts an image in place of the stored one: the second file is filled, synced and renamed over
    /// the first, and the directory is synced.
    fn replace(&mut self, image: &[u8]) -> Written {
        if let Err(error) = self.check_place() {
            // What stands there now may be another store's.
            return Written::Failed(error);
        }
        let second = match self.fill_second(image) {
            Ok(second) => second,
            Err(error) => return self.failed(error),
        };
        let Folder {
            system,
            place,
            directory,
        } = &self.folder;
        if let Err(error) = system.rename(directory, &place.second, &place.image) {
            match self.is_renamed(&second) {
                Ok(true) => self.warn(Warning::RenameReported(error)),
                Ok(false) => return self.failed(error),
                Err(_) => {
                    self.is_unknown = true;
                    return Written::Unknown(error);
                }
            }
        }
        self.sync_directory();
        Written::Kept
    }

    fn failed(&self, error: io::Error) -> Written {
        let _ = self.folder.remove_second();
        Written::Failed(error)
    }

    fn fill_second(&self, image: &[u8]) -> io::Result<S::File> {
        let mut second = self.folder.create_second()?;
        self.folder.write_all(&mut second, image)?;
        self.folder.system.sync(&second)?;
        Ok(second)
    }

    /// The store's path still leads to its mark, and nothing but a file stands in the image's
    /// place.
    fn check_place(&self) -> io::Result<()> {
        let place = &self.folder.place;
        let path = place.directory.join(&place.lock);
        match found(self.folder.system.status_at(&path))? {
            Some(status) if status.identity == self.mark => {}
            _ => {
                let path = path.display();
                let text = format!("{path} is no longer this store's: open the store again");
                return Err(io::Error::other(text));
            }
        }
        // By the path, too, which is the shorter way.
        found_file(self.folder.system.status_at(&place.image())).map(drop)
    }

    /// After a rename that reported an error: whether it happened.
    fn is_renamed(&self, second: &S::File) -> io::Result<bool> {
        let folder = &self.folder;
        let written = folder.system.status_of(second)?.identity;
        let stands = |name: &OsStr| -> io::Result<bool> {
            let status = found(folder.system.status_in(&folder.directory, name))?;
            Ok(status.is_some_and(|status| status.identity == written))
        };
        if stands(&folder.place.image)? {
            return Ok(true);
        }
        if stands(&folder.place.second)? {
            return Ok(false);
        }
        Err(io::ErrorKind::NotFound.into())
    }
}

/// Opens a directory, and makes it and those above it where they are missing. Each is durable
/// before anything is made in it; of those that were found only the lowest may not be, where an
/// earlier making was cut short.
fn make_directories<S: System>(
    system: &S,
    path: &Path,
    warnings: &mut Vec<Warning>,
) -> Result<S::Directory, StoreError> {
    let unusable = |error| StoreError::Unusable(path.into(), error);
    let found = system.open_directory(path);
    let Some(above) = path.parent() else {
        return found.map_err(unusable);
    };
    let parent = match &found {
        Ok(_) => system.open_directory(above),
        Err(error) if is_missing(error) => {
            let parent = make_directories(system, above, warnings)?;
            system.make_directory(path).map_err(unusable)?;
            Ok(parent)
        }
        Err(_) => return found.map_err(unusable),
    };
    if let Err(error) = parent.and_then(|parent| system.sync_directory(&parent)) {
        put_latest(warnings, Warning::DirectoryNotSynced(above.into(), error));
    }
    match found {
        Ok(directory) => Ok(directory),
        Err(_) => system.open_directory(path).map_err(unusable),
    }
}

/// One warning of each kind is kept, the latest.
fn put_latest(warnings: &mut Vec<Warning>, warning: Warning) {
    warnings.retain(|other| discriminant(other) != discriminant(&warning));
    warnings.push(warning);
}

/// A queue and its files.
pub(crate) struct Store<S: System> {
    files: Files<S>,
    queue: Queue,
}

impl<S: System> Store<S> {
    pub fn create(system: S, path: &Path, limits: Limits) -> Result<Store<S>, StoreError> {
        let queue = Queue::fresh(limits)?;
        let place = Place::new(path)?;
        let mut warnings = Vec::new();
        let directory = make_directories(&system, &place.directory, &mut warnings)?;
        let folder = Folder {
            system,
            place,
            directory,
        };
        let files = Files::make(folder, warnings)?;
        Ok(Store { files, queue })
    }

    pub fn open(system: S, path: &Path, limits: Limits) -> Result<Store<S>, StoreError> {
        let folder = Folder::open(system, Place::new(path)?)?;
        let mut files = Files::hold_found(folder)?;
        let (image, queue) = match files.folder.read_image()? {
            Some((file, text)) => (Some(file), queue_of(&text, &files.folder.place)?),
            None => (None, Queue::fresh(limits)?),
        };
        files.make_ready(image.as_ref())?;
        Ok(Store { files, queue })
    }

    /// What is stored; nothing where a store stands without an image.
    pub fn look(system: S, path: &Path) -> Result<Option<Queue>, StoreError> {
        let folder = Folder::open(system, Place::new(path)?)?;
        match folder.read_image()? {
            Some((_, text)) => queue_of(&text, &folder.place).map(Some),
            None if folder.has(&folder.place.lock)? => Ok(None),
            None => Err(folder.no_store()),
        }
    }

    pub fn place(&self) -> &Place {
        &self.files.folder.place
    }

    pub fn queue(&self) -> &Queue {
        &self.queue
    }

    pub fn take_warnings(&mut self) -> Vec<Warning> {
        mem::take(&mut self.files.warnings)
    }

    /// Makes a changing call, writes what is due and settles with the outcome.
    pub fn commit<T>(
        &mut self,
        call: impl FnOnce(&mut Queue) -> Result<Change<'_, T>, Error>,
    ) -> Result<T, StoreError> {
        if self.files.is_unknown {
            let cause = "an earlier write's outcome is not known";
            return Err(StoreError::OutcomeUnknown(io::Error::other(cause)));
        }
        let change = call(&mut self.queue)?;
        if !change.write_is_due() {
            return Ok(change.settle(Outcome::Kept)?);
        }
        let image = change.image()?;
        match self.files.replace(&image) {
            Written::Kept => Ok(change.settle(Outcome::Kept)?),
            Written::Failed(cause) => match change.settle(Outcome::Failed) {
                Err(Error::WriteFailed) => Err(StoreError::WriteFailed(cause)),
                Err(other) => Err(StoreError::Refused(other)),
                Ok(_) => unreachable!("a failed write is never settled as kept"),
            },
            Written::Unknown(cause) => Err(StoreError::OutcomeUnknown(cause)),
        }
    }
}

#[cfg(test)]
impl<S: System<Directory: Clone, File: Clone>> Store<S> {
    /// The same store, without its warnings, over another disk.
    pub fn over(&self, system: S) -> Store<S> {
        let files = &self.files;
        Store {
            files: Files {
                folder: Folder {
                    system,
                    place: files.folder.place.clone(),
                    directory: files.folder.directory.clone(),
                },
                lock: files.lock.clone(),
                mark: files.mark,
                warnings: Vec::new(),
                is_unknown: files.is_unknown,
            },
            queue: self.queue.clone(),
        }
    }
}

#[cfg(test)]
mod tests {
    use super::super::system::Os;
    use super::*;

    #[test]
    fn a_lock_is_given_up_though_a_child_has_the_file() {
        let folder = std::env::temp_dir().join(format!("pokerbox-lock-{}", std::process::id()));
        let limits = Limits::new(1, 1, 1, 1).expect("limits in range");
        let store = Store::create(Os, &folder.join("image"), limits).expect("it can be made");
        // A child has it like this until it has started.
        let childs = store.files.lock.try_clone().expect("another handle");
        drop(store);
        Store::open(Os, &folder.join("image"), limits).expect("it opens");
        drop(childs);
        std::fs::remove_dir_all(folder).expect("removed");
    }
}
