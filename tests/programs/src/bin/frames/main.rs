//! Runs the program that writes the frames of a compiler's report into a table: with files whose outcomes were worked
//! out by hand, with what GCC wrote, and with inputs and outputs that fail. Prints how many runs it was held to, or the
//! first that went wrong, and then ends with status 1.
//! Arguments: the program; a name list; and a folder with the reports control.su and dynamic.su, of functions that the
//! list has and some more, and of functions one of which has no fixed frame. Files for the other runs are written there.

mod by_hand;
mod failing;
mod reports;

use programs::conclude;
use programs::failures::run;
use programs::input::Input;
use std::path::{Path, PathBuf};
use std::process::Output;

/// The program, and the folder for the files that it is handed.
struct Frames<'a> {
    program: &'a str,
    folder: &'a Path,
}

impl Frames<'_> {
    /// A file of this name and text.
    fn file(&self, name: &str, bytes: &[u8]) -> Result<String, String> {
        let path: PathBuf = self.folder.join(name);
        std::fs::write(&path, bytes).map_err(|error| format!("{}: {error}", path.display()))?;
        Ok(path.display().to_string())
    }

    /// How the program ends with a table and these two files.
    fn of_files(&self, table: &[u8], names: &[u8], report: &[u8]) -> Result<Output, String> {
        let (names, report) = (self.file("names", names)?, self.file("report", report)?);
        run(&[self.program, &names, &report], "", Input::Whole(table))
    }
}

fn hold(words: &[String]) -> Result<usize, String> {
    let [program, names, folder] = words else { return Err("wanted: a program, a name list and a folder".to_string()) };
    let frames = Frames { program, folder: Path::new(folder) };
    Ok(reports::hold(&frames, names)? + by_hand::hold(&frames)? + failing::hold(&frames)?)
}

fn main() {
    let words: Vec<String> = std::env::args().skip(1).collect();
    conclude(&words, hold(&words));
}
