//! Where things are: the repository, its built archive, and folders for a test alone.

use std::path::{Path, PathBuf};
use std::sync::atomic::{AtomicU32, Ordering};
use std::{env, fs, process};

/// The root of the repository.
pub fn root() -> PathBuf {
    Path::new(env!("CARGO_MANIFEST_DIR")).join("../..")
}

/// The folder with `libdelkuthi.a`, the same archive that the wrapper is linked with.
pub fn archive_folder() -> &'static Path {
    Path::new(env!("DELKUTHI_FOLDER"))
}

/// A file of `examples/`.
pub fn example(name: &str) -> PathBuf {
    root().join("examples").join(name)
}

/// The bytes of a file of `examples/`.
pub fn example_bytes(name: &str) -> Vec<u8> {
    fs::read(example(name)).unwrap_or_else(|error| panic!("examples/{name}: {error}"))
}

/// A folder for one test, removed with all that is in it when the test lets go of it.
pub struct Folder {
    path: PathBuf,
}

impl Default for Folder {
    fn default() -> Folder {
        Folder::new()
    }
}

impl Folder {
    /// An empty folder that nobody else has.
    pub fn new() -> Folder {
        static NUMBER: AtomicU32 = AtomicU32::new(0);
        let number = NUMBER.fetch_add(1, Ordering::Relaxed);
        let path = env::temp_dir().join(format!("delkuthi-{}-{number}", process::id()));
        fs::create_dir_all(&path).expect("a temporary folder can be made");
        Folder { path }
    }

    pub fn path(&self) -> &Path {
        &self.path
    }

    /// Writes a file, with the folders that it stands in, and gives its path.
    pub fn write(&self, name: &str, bytes: &[u8]) -> PathBuf {
        let file = self.path.join(name);
        fs::create_dir_all(file.parent().expect("a folder")).expect("a folder can be made");
        fs::write(&file, bytes).expect("a temporary file can be written");
        file
    }
}

impl Folder {
    /// A folder with a program of the repository in it, at its place, and with these files. Gives the program's path too.
    pub fn around(program: &str, files: &[(&str, &str)]) -> (Folder, PathBuf) {
        let folder = Folder::new();
        for (name, text) in files {
            folder.write(name, text.as_bytes());
        }
        let copied = folder.write(program, &fs::read(root().join(program)).expect("a program of the repository"));
        (folder, copied)
    }
}

impl Drop for Folder {
    fn drop(&mut self) {
        let _ = fs::remove_dir_all(&self.path);
    }
}
