//! A file for its owner alone that is written beside its place, and put there whole or not at all.

use std::fs::{self, File, OpenOptions};
use std::io::{self, ErrorKind};
use std::os::unix::fs::OpenOptionsExt;
use std::path::{Path, PathBuf};
use std::process;

/// It is removed, unless it is kept.
pub struct Draft {
    pub file: File,
    path: PathBuf,
    place: PathBuf,
    is_kept: bool,
}

impl Draft {
    /// Starts a file for a place where nothing stands.
    pub fn create(place: &Path) -> io::Result<Draft> {
        check_free(place)?;
        let (path, file) = create_in(folder_of(place))?;
        Ok(Draft {
            file,
            path,
            place: place.to_path_buf(),
            is_kept: false,
        })
    }

    /// Puts the file in its place, once all of it is on the disk. What has come there meanwhile stays.
    pub fn keep(mut self) -> io::Result<()> {
        self.file.sync_all()?;
        check_free(&self.place)?;
        fs::rename(&self.path, &self.place)?;
        self.is_kept = true;
        // The file has its name, also where its folder cannot be read and so not be flushed.
        let _ = File::open(folder_of(&self.place)).and_then(|folder| folder.sync_all());
        Ok(())
    }
}

impl Drop for Draft {
    fn drop(&mut self) {
        if !self.is_kept {
            let _ = fs::remove_file(&self.path);
        }
    }
}

/// A link stands there too, wherever it leads.
fn check_free(place: &Path) -> io::Result<()> {
    match fs::symlink_metadata(place) {
        Err(error) if error.kind() == ErrorKind::NotFound => Ok(()),
        Err(error) => Err(error),
        Ok(_) => Err(io::Error::new(
            ErrorKind::AlreadyExists,
            "it is there already",
        )),
    }
}

fn folder_of(place: &Path) -> &Path {
    match place.parent() {
        Some(folder) if folder != Path::new("") => folder,
        _ => Path::new("."),
    }
}

/// Where a run that was killed has left a file of this name, the next number is taken.
fn create_in(folder: &Path) -> io::Result<(PathBuf, File)> {
    let mut options = OpenOptions::new();
    options.write(true).create_new(true).mode(0o600);
    let mut number = process::id();
    loop {
        let path = folder.join(format!(".udgornwy-{number}"));
        match options.open(&path) {
            Err(error) if error.kind() == ErrorKind::AlreadyExists => {
                number = number.wrapping_add(1);
            }
            created => return created.map(|file| (path, file)),
        }
    }
}
