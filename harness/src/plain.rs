//! The usual errors of files and outputs in plain words.

use std::io::{self, ErrorKind};

/// What is wrong with a file or an output. What is not usual stands as the system says it.
pub fn plain(error: &io::Error) -> String {
    let words = match error.kind() {
        ErrorKind::NotFound => "there is no such file",
        ErrorKind::PermissionDenied => "you have no permission for it",
        ErrorKind::IsADirectory => "this is a folder, and a file is wanted",
        ErrorKind::StorageFull => "there is no room left",
        ErrorKind::BrokenPipe => "nobody reads on",
        _ => return error.to_string(),
    };
    words.to_string()
}
