//! Writing a whole file or none.
use std::fs::{self, File, OpenOptions, Permissions};
use std::io::{self, ErrorKind, IsTerminal, Write};
use std::path::{Path, PathBuf};

/// What became of the bytes.
#[derive(Clone, Copy, Debug, PartialEq, Eq)]
pub enum Put {
    Written,
    /// Nothing was written: a terminal gets no bytes.
    Terminal,
}

/// Puts the bytes into a file of this name. What is there and no regular file, such as a device, is written to directly.
pub fn write(path: &Path, bytes: &[u8]) -> io::Result<Put> {
    match OpenOptions::new().write(true).open(path) {
        Ok(there) if there.is_terminal() => Ok(Put::Terminal),
        Ok(mut there) => {
            let known = there.metadata()?;
            match known.is_file() {
                true => replace(&fs::canonicalize(path)?, bytes, Some(known.permissions())),
                false => there.write_all(bytes).map(|()| Put::Written),
            }
        }
        Err(_) if path.is_symlink() && !path.exists() => Err(io::Error::new(ErrorKind::NotFound, "a link that leads nowhere")),
        Err(error) if error.kind() == ErrorKind::NotFound => replace(path, bytes, None),
        Err(error) => Err(error),
    }
}

/// Writes beside the file and renames, so that the name stands for the old file or the whole new one at every moment.
fn replace(path: &Path, bytes: &[u8], permissions: Option<Permissions>) -> io::Result<Put> {
    let (beside, file) = create_beside(path)?;
    let done = fill(file, bytes, permissions).and_then(|()| fs::rename(&beside, path));
    if done.is_err() {
        let _ = fs::remove_file(&beside);
    }
    done.map(|()| Put::Written)
}

/// A new file in the same folder, under a name that nothing has, and short: the file's own may be as long as names can be.
fn create_beside(path: &Path) -> io::Result<(PathBuf, File)> {
    path.file_name().ok_or_else(|| io::Error::new(ErrorKind::InvalidInput, "no name of a file"))?;
    let mut tries = 0;
    loop {
        let beside = path.with_file_name(format!(".burrbeech-{}-{tries}.part", std::process::id()));
        match OpenOptions::new().write(true).create_new(true).open(&beside) {
            Err(error) if error.kind() == ErrorKind::AlreadyExists && tries < 100 => tries += 1,
            opened => return opened.map(|file| (beside, file)),
        }
    }
}

fn fill(mut file: File, bytes: &[u8], permissions: Option<Permissions>) -> io::Result<()> {
    file.write_all(bytes)?;
    if let Some(permissions) = permissions {
        file.set_permissions(permissions)?;
    }
    file.sync_all()
}

#[cfg(test)]
mod tests {
    use super::*;

    /// A rename that fails leaves nothing beside.
    #[test]
    fn nothing_is_left_behind() {
        let folder = std::env::temp_dir().join(format!("burrbeech-whole-file-{}", std::process::id()));
        let taken = folder.join("taken");
        fs::create_dir_all(taken.join("inside")).expect("a folder");
        assert!(replace(&taken, b"bytes", None).is_err());
        let names = fs::read_dir(&folder).expect("the folder").count();
        fs::remove_dir_all(&folder).expect("the folder can go");
        assert_eq!(names, 1);
    }
}
