//! A disk in memory: what the system shows, and what a power cut may leave of it. Each call on it
//! can be made to fail.
//!
//! Of a file that was written since its last sync, a cut may leave what was synced, what was
//! written, half of it, or nothing; of a name that was changed since the last sync of its
//! directory, any of its values since then, whatever becomes of the others. What was never synced
//! itself may be gone. After a sync that failed, what was to be synced is never durable, though
//! later syncs succeed.

use std::cell::RefCell;
use std::cmp::Ordering;
use std::collections::{BTreeMap, BTreeSet};
use std::ffi::{OsStr, OsString};
use std::fs::TryLockError;
use std::io;
use std::path::{Component, Path};
use std::rc::Rc;

use super::system::{Identity, Mode, Status, System};

type Inode = usize;
const ROOT: Inode = 0;

/// What a test makes of a call.
#[derive(Debug, Clone, Copy, PartialEq, Eq)]
pub enum Fault {
    /// It has no effect and reports an error.
    Fail,
    /// The same, since the disk is full.
    Full,
    /// It has its effect, and yet reports an error.
    FailAfter,
    /// Half of the bytes are written or read, without an error.
    Short,
    /// Half of the bytes are written, and it reports an error.
    Half,
    /// Nothing happens and errors are reported from this call on; or the process ends before it.
    Stop,
    /// The same from the next call on; or the process ends after this one.
    StopAfter,
    /// The same, with half of the bytes written.
    StopHalf,
}

impl Fault {
    pub const ALL: [Fault; 8] = [
        Fault::Fail,
        Fault::Full,
        Fault::FailAfter,
        Fault::Short,
        Fault::Half,
        Fault::Stop,
        Fault::StopAfter,
        Fault::StopHalf,
    ];

    /// Whether it is a fault of its own at this call.
    pub fn fits(self, call: &str) -> bool {
        match self {
            Fault::Full => matches!(call, "open" | "write" | "make_directory"),
            Fault::Short => matches!(call, "read" | "write"),
            Fault::Half | Fault::StopHalf => call == "write",
            _ => true,
        }
    }

    /// Whether the process may as well have ended there.
    pub fn is_stop(self) -> bool {
        matches!(self, Fault::Stop | Fault::StopAfter | Fault::StopHalf)
    }
}

#[derive(Debug, Clone)]
enum Node {
    File(File),
    Directory(Directory),
}

#[derive(Debug, Clone, Default)]
struct File {
    text: Vec<u8>,
    /// What a cut may leave; one value where all is synced.
    durable: Vec<Vec<u8>>,
    was_synced: bool,
    sync_failed: bool,
}

#[derive(Debug, Clone, Default)]
struct Directory {
    entries: BTreeMap<OsString, Inode>,
    /// All values of the names that were changed since the last sync.
    since: BTreeMap<OsString, Vec<Option<Inode>>>,
    was_synced: bool,
}

impl Directory {
    fn set(&mut self, name: &OsStr, value: Option<Inode>) {
        let old = match value {
            Some(inode) => self.entries.insert(name.into(), inode),
            None => self.entries.remove(name),
        };
        let values = self.since.entry(name.into()).or_insert(vec![old]);
        if !values.contains(&value) {
            values.push(value);
        }
    }
}

#[derive(Debug, Clone)]
struct State {
    nodes: Vec<Node>,
    locked: BTreeSet<Inode>,
    calls: Vec<&'static str>,
    faults: Vec<(usize, Fault)>,
}

/// Clones share the disk.
#[derive(Debug, Clone)]
pub struct Disk(Rc<RefCell<State>>);

#[derive(Debug, Clone)]
pub struct Handle {
    inode: Inode,
    at: usize,
}

fn fault() -> io::Error {
    io::Error::other("a fault of the test")
}

impl Disk {
    pub fn new() -> Disk {
        let root = Directory {
            was_synced: true,
            ..Directory::default()
        };
        Disk::of(vec![Node::Directory(root)])
    }

    fn of(nodes: Vec<Node>) -> Disk {
        Disk(Rc::new(RefCell::new(State {
            nodes,
            locked: BTreeSet::new(),
            calls: Vec::new(),
            faults: Vec::new(),
        })))
    }

    /// The same disk, apart; the process that held its locks has ended.
    pub fn copy(&self) -> Disk {
        Disk::of(self.0.borrow().nodes.clone())
    }

    /// The same disk, apart, in the same process.
    pub fn copy_locked(&self) -> Disk {
        let copy = self.copy();
        copy.0.borrow_mut().locked = self.0.borrow().locked.clone();
        copy
    }

    /// Makes the calls with these numbers fail, counted from now on, and no others.
    pub fn set_faults(&self, faults: &[(usize, Fault)]) {
        let mut state = self.0.borrow_mut();
        state.calls.clear();
        state.faults = faults.to_vec();
    }

    /// The calls since faults were set last.
    pub fn calls(&self) -> Vec<&'static str> {
        self.0.borrow().calls.clone()
    }

    /// What the system shows at a path.
    pub fn text(&self, path: &Path) -> Option<Vec<u8>> {
        let state = self.0.borrow();
        match &state.nodes[state.find(path).ok()?] {
            Node::File(file) => Some(file.text.clone()),
            Node::Directory(_) => None,
        }
    }

    /// Puts a file there that is not synced.
    pub fn copy_to(&self, path: &Path, text: &[u8]) {
        let mut state = self.0.borrow_mut();
        let directory = state.find(path.parent().expect("a folder")).expect("it is");
        let name = path.file_name().expect("a name");
        let inode = state.add(directory, name, Node::File(File::default()));
        state.write(&mut Handle { inode, at: 0 }, text);
    }

    /// All disks that a power cut may leave.
    pub fn cuts(&self) -> Vec<Disk> {
        let mut left = Vec::new();
        let mut nodes = self.0.borrow().nodes.clone();
        State::cut_from(&mut nodes, 0, &mut left);
        left.into_iter().map(Disk::of).collect()
    }

    /// Counts a call and gives its fault.
    fn fault(&self, name: &'static str) -> Option<Fault> {
        let mut state = self.0.borrow_mut();
        let call = state.calls.len();
        state.calls.push(name);
        let set = |(at, fault): &(usize, Fault)| match at.cmp(&call) {
            Ordering::Equal => Some(*fault),
            Ordering::Less if fault.is_stop() => Some(Fault::Stop),
            _ => None,
        };
        state.faults.iter().find_map(set)
    }

    /// A call with an effect that is whole or none.
    fn call<T>(
        &self,
        name: &'static str,
        effect: impl FnOnce(&mut State) -> io::Result<T>,
    ) -> io::Result<T> {
        match self.fault(name) {
            None | Some(Fault::Short | Fault::Half | Fault::StopHalf) => {
                effect(&mut self.0.borrow_mut())
            }
            Some(Fault::Fail | Fault::Stop) => Err(fault()),
            Some(Fault::Full) => Err(io::ErrorKind::StorageFull.into()),
            Some(Fault::FailAfter | Fault::StopAfter) => {
                let _ = effect(&mut self.0.borrow_mut());
                Err(fault())
            }
        }
    }
}

impl State {
    fn directory(&mut self, inode: Inode) -> &mut Directory {
        match &mut self.nodes[inode] {
            Node::Directory(directory) => directory,
            Node::File(_) => panic!("{inode} is a file"),
        }
    }

    fn file(&mut self, inode: Inode) -> &mut File {
        match &mut self.nodes[inode] {
            Node::File(file) => file,
            Node::Directory(_) => panic!("{inode} is a directory"),
        }
    }

    fn entry(&self, directory: Inode, name: &OsStr) -> io::Result<Inode> {
        match &self.nodes[directory] {
            Node::Directory(directory) => directory.entries.get(name).copied(),
            Node::File(_) => return Err(io::ErrorKind::NotADirectory.into()),
        }
        .ok_or(io::ErrorKind::NotFound.into())
    }

    fn find(&self, path: &Path) -> io::Result<Inode> {
        path.components()
            .try_fold(ROOT, |inode, component| match component {
                Component::Normal(name) => self.entry(inode, name),
                _ => Ok(inode),
            })
    }

    fn status(&self, inode: Inode) -> Status {
        let (is_file, len) = match &self.nodes[inode] {
            Node::File(file) => (true, file.text.len() as u64),
            Node::Directory(_) => (false, 0),
        };
        Status {
            identity: Identity {
                device: 1,
                inode: inode as u64,
            },
            is_file,
            len,
        }
    }

    fn add(&mut self, directory: Inode, name: &OsStr, node: Node) -> Inode {
        let inode = self.nodes.len();
        self.nodes.push(node);
        self.directory(directory).set(name, Some(inode));
        inode
    }

    fn write(&mut self, handle: &mut Handle, bytes: &[u8]) {
        let file = self.file(handle.inode);
        file.text.truncate(handle.at);
        file.text.extend(bytes);
        handle.at = file.text.len();
        let half = file.text[..file.text.len() / 2].to_vec();
        file.durable.extend([Vec::new(), half, file.text.clone()]);
        file.durable.sort();
        file.durable.dedup();
    }

    /// Goes on with the node at `at`: puts every choice for it in and goes to the next.
    fn cut_from(nodes: &mut Vec<Node>, at: Inode, left: &mut Vec<Vec<Node>>) {
        if at == nodes.len() {
            return left.push(nodes.clone());
        }
        let before = nodes[at].clone();
        if matches!(before, Node::File(_)) && !State::is_named(nodes, at) {
            return State::cut_from(nodes, at + 1, left);
        }
        for choice in State::choices(&before, nodes) {
            nodes[at] = choice;
            State::cut_from(nodes, at + 1, left);
        }
        nodes[at] = before;
    }

    /// Directories stand before what is made in them.
    fn is_named(nodes: &[Node], inode: Inode) -> bool {
        nodes.iter().any(|node| match node {
            Node::Directory(directory) => directory.entries.values().any(|named| *named == inode),
            Node::File(_) => false,
        })
    }

    fn choices(node: &Node, nodes: &[Node]) -> Vec<Node> {
        match node {
            Node::File(file) if file.durable.is_empty() => vec![node.clone()],
            Node::File(file) => {
                let synced = |text: &Vec<u8>| {
                    Node::File(File {
                        text: text.clone(),
                        was_synced: true,
                        ..File::default()
                    })
                };
                file.durable.iter().map(synced).collect()
            }
            Node::Directory(directory) => {
                let mut all = vec![directory.entries.clone()];
                for (name, values) in State::open_names(directory, nodes) {
                    all = State::with_each(&all, &name, &values);
                }
                let synced = |entries| {
                    Node::Directory(Directory {
                        entries,
                        since: BTreeMap::new(),
                        was_synced: true,
                    })
                };
                all.into_iter().map(synced).collect()
            }
        }
    }

    /// The names whose value after a cut is open, with their values: those changed since the last
    /// sync, and those of nodes that were never synced.
    fn open_names(directory: &Directory, nodes: &[Node]) -> BTreeMap<OsString, Vec<Option<Inode>>> {
        let mut open = directory.since.clone();
        for (name, inode) in &directory.entries {
            let was_synced = match &nodes[*inode] {
                Node::File(file) => file.was_synced,
                Node::Directory(directory) => directory.was_synced,
            };
            let values = open.entry(name.clone()).or_insert(vec![Some(*inode)]);
            if !was_synced && !values.contains(&None) {
                values.push(None);
            }
        }
        open
    }

    fn with_each(
        all: &[BTreeMap<OsString, Inode>],
        name: &OsStr,
        values: &[Option<Inode>],
    ) -> Vec<BTreeMap<OsString, Inode>> {
        let mut with = Vec::new();
        for entries in all {
            for value in values {
                let mut entries = entries.clone();
                match value {
                    Some(inode) => entries.insert(name.into(), *inode),
                    None => entries.remove(name),
                };
                with.push(entries);
            }
        }
        with
    }
}

impl System for Disk {
    type Directory = Inode;
    type File = Handle;

    fn make_directory(&self, path: &Path) -> io::Result<()> {
        self.call("make_directory", |state| {
            let parent = state.find(path.parent().expect("not the root"))?;
            let name = path.file_name().expect("a name");
            if state.entry(parent, name).is_ok() {
                return Err(io::ErrorKind::AlreadyExists.into());
            }
            state.add(parent, name, Node::Directory(Directory::default()));
            Ok(())
        })
    }

    fn open_directory(&self, path: &Path) -> io::Result<Inode> {
        self.call("open_directory", |state| {
            let inode = state.find(path)?;
            match &state.nodes[inode] {
                Node::Directory(_) => Ok(inode),
                Node::File(_) => Err(io::ErrorKind::NotADirectory.into()),
            }
        })
    }

    fn sync_directory(&self, directory: &Inode) -> io::Result<()> {
        self.call("sync_directory", |state| {
            let directory = state.directory(*directory);
            directory.was_synced = true;
            let since = std::mem::take(&mut directory.since);
            let named: Vec<Inode> = directory.entries.values().copied().collect();
            // What has lost its name is emptied, for speed.
            for inode in since.into_values().flatten().flatten() {
                if !named.contains(&inode) {
                    state.nodes[inode] = Node::File(File::default());
                }
            }
            Ok(())
        })
    }

    fn status_at(&self, path: &Path) -> io::Result<Status> {
        self.call("status_at", |state| Ok(state.status(state.find(path)?)))
    }

    fn status_in(&self, directory: &Inode, name: &OsStr) -> io::Result<Status> {
        self.call("status_in", |state| {
            Ok(state.status(state.entry(*directory, name)?))
        })
    }

    fn status_of(&self, file: &Handle) -> io::Result<Status> {
        self.call("status_of", |state| Ok(state.status(file.inode)))
    }

    fn open(&self, directory: &Inode, name: &OsStr, mode: Mode) -> io::Result<Handle> {
        self.call("open", |state| {
            let inode = match (state.entry(*directory, name), mode) {
                (Err(_), Mode::New) => state.add(*directory, name, Node::File(File::default())),
                (Ok(_), Mode::New) => return Err(io::ErrorKind::AlreadyExists.into()),
                (found, _) => found?,
            };
            Ok(Handle { inode, at: 0 })
        })
    }

    fn try_lock(&self, file: &Handle) -> Result<(), TryLockError> {
        self.call("try_lock", |state| match state.locked.insert(file.inode) {
            true => Ok(()),
            false => Err(io::ErrorKind::WouldBlock.into()),
        })
        .map_err(|error| match error.kind() {
            io::ErrorKind::WouldBlock => TryLockError::WouldBlock,
            _ => TryLockError::Error(error),
        })
    }

    fn unlock(&self, file: &Handle) {
        self.0.borrow_mut().locked.remove(&file.inode);
    }

    fn read(&self, file: &mut Handle, into: &mut [u8]) -> io::Result<usize> {
        let length = match self.fault("read") {
            None | Some(Fault::Half | Fault::StopHalf) => into.len(),
            Some(Fault::Short) => into.len().div_ceil(2),
            Some(_) => return Err(fault()),
        };
        let mut state = self.0.borrow_mut();
        let rest = &state.file(file.inode).text[file.at..];
        let length = length.min(rest.len());
        into[..length].copy_from_slice(&rest[..length]);
        file.at += length;
        Ok(length)
    }

    fn write(&self, file: &mut Handle, bytes: &[u8]) -> io::Result<usize> {
        let happened = self.fault("write");
        let length = match happened {
            None | Some(Fault::FailAfter | Fault::StopAfter) => bytes.len(),
            Some(Fault::Short | Fault::Half | Fault::StopHalf) => bytes.len().div_ceil(2),
            Some(Fault::Fail | Fault::Full | Fault::Stop) => return Err(fault()),
        };
        self.0.borrow_mut().write(file, &bytes[..length]);
        match happened {
            None | Some(Fault::Short) => Ok(length),
            Some(_) => Err(fault()),
        }
    }

    fn sync(&self, file: &Handle) -> io::Result<()> {
        let happened = self.fault("sync");
        let mut state = self.0.borrow_mut();
        let file = state.file(file.inode);
        match happened {
            Some(Fault::Fail | Fault::Stop) => {
                file.sync_failed = !file.durable.is_empty();
                return Err(fault());
            }
            _ if file.sync_failed => {}
            _ => {
                file.durable.clear();
                file.was_synced = true;
            }
        }
        match happened {
            Some(Fault::FailAfter | Fault::StopAfter) => Err(fault()),
            _ => Ok(()),
        }
    }

    fn rename(&self, directory: &Inode, from: &OsStr, to: &OsStr) -> io::Result<()> {
        self.call("rename", |state| {
            let inode = state.entry(*directory, from)?;
            state.directory(*directory).set(to, Some(inode));
            state.directory(*directory).set(from, None);
            Ok(())
        })
    }

    fn remove(&self, directory: &Inode, name: &OsStr) -> io::Result<()> {
        self.call("remove", |state| {
            state.entry(*directory, name)?;
            state.directory(*directory).set(name, None);
            Ok(())
        })
    }
}
