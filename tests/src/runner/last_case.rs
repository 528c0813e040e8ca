//! Keeps the case under way in a file, so that a crash of the product can be
//! told from outside. `PIER_LAST_CASE` names the file.

use std::fs::File;
use std::io::{Seek, SeekFrom, Write};
use std::sync::{Mutex, OnceLock};

static FILE: OnceLock<Option<Mutex<File>>> = OnceLock::new();

fn file() -> &'static Option<Mutex<File>> {
    FILE.get_or_init(|| {
        let path = std::env::var_os("PIER_LAST_CASE").filter(|path| !path.is_empty())?;
        File::create(path).ok().map(Mutex::new)
    })
}

/// Called just before the product is.
pub fn note(describe: impl FnOnce() -> String) {
    let Some(file) = file() else { return };
    let Ok(mut file) = file.lock() else { return };
    // Without the file only the report of a crash is poorer.
    let _ = file
        .set_len(0)
        .and_then(|()| file.seek(SeekFrom::Start(0)))
        .and_then(|_| file.write_all(describe().as_bytes()));
}
