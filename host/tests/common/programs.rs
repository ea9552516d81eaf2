//! Programs run to their end, and files for them.

use std::{
    fs,
    io::Write,
    path::{Path, PathBuf},
    process::{Command, Output, Stdio},
};

/// The repository's folder.
pub const ROOT: &str = concat!(env!("CARGO_MANIFEST_DIR"), "/..");
/// The places that `sheetsat` has.
pub const SHEETSAT: usize = 4096;

/// Runs a command on this standard input.
pub fn run(command: &mut Command, input: &[u8]) -> Output {
    let mut child = command
        .stdin(Stdio::piped())
        .stdout(Stdio::piped())
        .stderr(Stdio::piped())
        .spawn()
        .expect("the program starts");
    let mut stdin = child.stdin.take().expect("a pipe");
    // A program that was given files leaves its input unread.
    drop(stdin.write_all(input));
    drop(stdin);
    child.wait_with_output().expect("the program ends")
}

/// A text in a file of its own, which goes when the test ends.
pub struct TextFile {
    path: PathBuf,
}

impl TextFile {
    pub fn new(name: &str, text: &[u8]) -> TextFile {
        let path = Path::new(env!("CARGO_TARGET_TMPDIR")).join(name);
        fs::write(&path, text).expect("a file can be written");
        TextFile { path }
    }

    pub fn path(&self) -> &str {
        self.path.to_str().expect("a path is text")
    }
}

impl Drop for TextFile {
    fn drop(&mut self) {
        // Nothing hangs on the file's going.
        drop(fs::remove_file(&self.path));
    }
}
