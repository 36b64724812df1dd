//! Files that are written whole or not at all.

use crate::names;
use std::fs::{self, File};
use std::io::{self, ErrorKind, Write};
use std::path::{MAIN_SEPARATOR, Path, PathBuf};

/// A file that is whole on the disk, and has yet to take its name from the one that was there. Until then, or if the process is
/// killed, the name still has what it had.
pub struct Written<'a> {
    draft: Draft,
    name: &'a Path,
}

impl Written<'_> {
    pub fn new<'a>(name: &'a Path, bytes: &[u8]) -> io::Result<Written<'a>> {
        let mut draft = Draft::beside(name)?;
        draft.file.write_all(bytes)?;
        draft.file.sync_all()?;
        Ok(Written { draft, name })
    }

    pub fn rename(self) -> io::Result<()> {
        self.draft.rename(self.name)
    }
}

/// Removes a file, if there is one.
pub fn remove(path: &Path) -> io::Result<()> {
    match fs::remove_file(path) {
        // The name is gone from the disk once the folder is written.
        Ok(()) => File::open(folder(path))?.sync_all(),
        Err(why) if why.kind() == ErrorKind::NotFound => Ok(()),
        Err(why) => Err(why),
    }
}

/// Whether a file can be put under that name: makes a draft there, and removes it.
pub fn test(name: &Path) -> io::Result<()> {
    Draft::beside(name).map(drop)
}

/// Whether files can be put into that folder.
pub fn test_folder(path: &Path) -> io::Result<()> {
    Draft::in_folder(path).map(drop)
}

/// The file that a name stands for: where it leads, if it is a link.
pub fn behind(name: &Path) -> PathBuf {
    let led = if name.is_symlink() { fs::canonicalize(name).ok() } else { None };
    led.unwrap_or_else(|| name.to_path_buf())
}

/// Whether a file may take that name, from another or from a link. A folder or a device must not give way, nor what someone made
/// read-only.
fn may_take(name: &Path) -> io::Result<()> {
    match fs::symlink_metadata(name) {
        Ok(there) if there.is_dir() => Err(ErrorKind::IsADirectory.into()),
        Ok(there) if there.is_symlink() => Ok(()),
        Ok(there) if !there.is_file() => Err(io::Error::other("it is no plain file")),
        Ok(there) if there.permissions().readonly() => Err(io::Error::other("it is read-only")),
        Ok(_) => Ok(()),
        Err(why) if why.kind() != ErrorKind::NotFound => Err(why),
        Err(_) if name.to_string_lossy().ends_with(MAIN_SEPARATOR) => Err(ErrorKind::IsADirectory.into()),
        Err(_) => Ok(()),
    }
}

fn folder(path: &Path) -> &Path {
    match path.parent() {
        Some(folder) if !folder.as_os_str().is_empty() => folder,
        _ => Path::new("."),
    }
}

/// A new file with a name of its own, which is removed unless it gets another.
struct Draft {
    file: File,
    path: PathBuf,
    folder: File,
    renamed: bool,
}

impl Draft {
    /// One that may take that name.
    fn beside(name: &Path) -> io::Result<Draft> {
        may_take(name)?;
        Draft::in_folder(folder(name))
    }

    fn in_folder(name: &Path) -> io::Result<Draft> {
        let folder = File::open(name)?;
        let mut number = 0;
        loop {
            let path = name.join(names::draft(number));
            match File::create_new(&path) {
                Ok(file) => return Ok(Draft { file, path, folder, renamed: false }),
                // That of a killed process which had the same id.
                Err(why) if why.kind() == ErrorKind::AlreadyExists => number += 1,
                Err(why) => return Err(why),
            }
        }
    }

    fn rename(mut self, target: &Path) -> io::Result<()> {
        fs::rename(&self.path, target)?;
        self.renamed = true;
        // The new name is on the disk once the folder is.
        self.folder.sync_all()
    }
}

impl Drop for Draft {
    fn drop(&mut self) {
        if !self.renamed {
            // Why the file was not written is said; a draft that cannot be removed is the lesser trouble.
            let _ = fs::remove_file(&self.path);
        }
    }
}
