//! The file in which a server keeps its table. It is never written in place: a new one is written
//! beside it and takes its name, so it is whole at every moment.

use nt2::{LONGEST_SAVED, Refusal, ServerTable};
use std::fmt;
use std::fs::{self, File, OpenOptions, TryLockError};
use std::io::{self, ErrorKind, Read, Write};
use std::path::{Path, PathBuf};

/// A table that is kept in a file.
pub struct KeptTable {
    pub file: TableFile,
    /// The table that the file has; none where there is no file.
    pub loaded: Option<ServerTable>,
}

impl KeptTable {
    /// Takes a file for this server alone, and loads it.
    pub fn open(path: &Path) -> Result<Self, NotKept> {
        let file = TableFile::take(path)?;
        Ok(KeptTable { loaded: file.load()?, file })
    }
}

/// A table's file, which no other server has.
pub struct TableFile {
    path: PathBuf,
    folder: PathBuf,
    /// The new file, until it takes the name. One that a killed server has left is replaced.
    beside: PathBuf,
    /// The lock ends with the program, however that ends. The file itself is replaced by each save,
    /// so a lock of it would not last.
    _lock: File,
}

impl TableFile {
    fn take(path: &Path) -> Result<Self, NotKept> {
        let path = behind_links(path).map_err(at(path))?;
        let is_file = match fs::metadata(&path) {
            Ok(found) => found.is_file(),
            Err(error) if error.kind() == ErrorKind::NotFound => path.file_name().is_some(),
            Err(error) => return Err(at(&path)(error)),
        };
        if !is_file {
            return Err(NotKept::NoFile(path));
        }
        let folder = path.parent().filter(|folder| *folder != Path::new(""));
        let folder = folder.unwrap_or(Path::new(".")).to_path_buf();
        let (beside, lock) = (with_ending(&path, ".new"), with_ending(&path, ".lock"));
        Ok(TableFile { _lock: lock_beside(&path, &lock)?, path, folder, beside })
    }

    pub fn path(&self) -> &Path {
        &self.path
    }

    /// Whether there is a file; false where that is not known.
    pub fn exists(&self) -> bool {
        self.path.exists()
    }

    fn load(&self) -> Result<Option<ServerTable>, NotKept> {
        let saved = match read(&self.path) {
            Err(error) if error.kind() == ErrorKind::NotFound => return Ok(None),
            read => read.map_err(at(&self.path))?,
        };
        let mut table = ServerTable::new();
        match table.load(&saved) {
            Ok(()) => Ok(Some(table)),
            Err(refusal) => Err(NotKept::Refused(self.path.clone(), refusal)),
        }
    }

    /// Puts a saved table in the place of the one that the file has. Both are on the disk whole
    /// before the name goes from one to the other.
    pub fn replace(&self, saved: &[u8]) -> io::Result<()> {
        match fs::remove_file(&self.beside) {
            Err(error) if error.kind() != ErrorKind::NotFound => return Err(error),
            _ => {}
        }
        let mut new = File::create_new(&self.beside)?;
        if let Ok(held) = fs::metadata(&self.path) {
            new.set_permissions(held.permissions())?;
        }
        new.write_all(saved)?;
        new.sync_all()?;
        fs::rename(&self.beside, &self.path)?;
        File::open(&self.folder)?.sync_all()
    }
}

/// The file that a link leads to, so that this is replaced and not the link.
fn behind_links(path: &Path) -> io::Result<PathBuf> {
    if path.is_symlink() { fs::canonicalize(path) } else { Ok(path.to_path_buf()) }
}

fn with_ending(path: &Path, ending: &str) -> PathBuf {
    let mut path = path.as_os_str().to_os_string();
    path.push(ending);
    path.into()
}

/// Takes the lock of a table's file.
fn lock_beside(path: &Path, lock: &Path) -> Result<File, NotKept> {
    let mut options = OpenOptions::new();
    let file = options.write(true).create(true).truncate(false).open(lock).map_err(at(lock))?;
    match file.try_lock() {
        Ok(()) => Ok(file),
        Err(TryLockError::WouldBlock) => Err(NotKept::InUse(path.to_path_buf())),
        Err(TryLockError::Error(error)) => Err(at(lock)(error)),
    }
}

/// A file's bytes. Of one that is longer than any saved table, as many as show that.
fn read(path: &Path) -> io::Result<Vec<u8>> {
    let mut saved = Vec::new();
    File::open(path)?.take(LONGEST_SAVED as u64 + 1).read_to_end(&mut saved)?;
    Ok(saved)
}

/// Why a table is not kept in a file.
#[derive(Debug)]
pub enum NotKept {
    /// Another server has it.
    InUse(PathBuf),
    /// A folder, a device or the like.
    NoFile(PathBuf),
    /// It is no saved table.
    Refused(PathBuf, Refusal),
    Failed(PathBuf, io::Error),
}

fn at(path: &Path) -> impl Fn(io::Error) -> NotKept {
    move |error| NotKept::Failed(path.to_path_buf(), error)
}

impl fmt::Display for NotKept {
    fn fmt(&self, f: &mut fmt::Formatter<'_>) -> fmt::Result {
        match self {
            NotKept::InUse(path) => {
                write!(f, "{}: another server keeps its table there", path.display())
            }
            NotKept::NoFile(path) => write!(f, "{}: not a file", path.display()),
            NotKept::Refused(path, refusal) => {
                write!(f, "{}: refused with {}, {refusal}", path.display(), refusal.number())
            }
            NotKept::Failed(path, error) => write!(f, "{}: {error}", path.display()),
        }
    }
}
