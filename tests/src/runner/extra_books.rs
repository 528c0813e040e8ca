//! Further books from a directory that `PIER_BOOKS` names: its files that
//! end in `.book`.

use std::fs;

pub fn all() -> Vec<(String, Vec<u8>)> {
    let Some(directory) = std::env::var_os("PIER_BOOKS").filter(|path| !path.is_empty()) else { return Vec::new() };
    let entries = fs::read_dir(&directory).expect("PIER_BOOKS names a directory");
    let mut books: Vec<(String, Vec<u8>)> = entries
        .map(|entry| entry.expect("a directory entry can be read").path())
        .filter(|path| path.extension().is_some_and(|extension| extension == "book"))
        .map(|path| {
            let name = path.file_name().unwrap_or_default().to_string_lossy().into_owned();
            (name, fs::read(&path).expect("a book can be read"))
        })
        .collect();
    books.sort();
    books
}
