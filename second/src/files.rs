//! Files that this program writes into a folder.

use std::fs;
use std::io;
use std::path::Path;

/// The name of a file and its bytes.
pub struct File {
    pub name: String,
    pub bytes: Vec<u8>,
}

impl File {
    /// Makes a file with a name and an extension.
    pub fn new(name: &str, ending: &str, bytes: &[u8]) -> File {
        File {
            name: format!("{name}.{ending}"),
            bytes: bytes.to_vec(),
        }
    }
}

/// Writes files into a folder, which is created if it does not exist.
pub fn write(folder: &str, files: &[File]) -> io::Result<()> {
    let folder = Path::new(folder);
    fs::create_dir_all(folder)?;
    files
        .iter()
        .try_for_each(|file| fs::write(folder.join(&file.name), &file.bytes))
}
