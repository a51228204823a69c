//! The fonts that a program is given to measure.

use oracle::fonts::{self, Font};
use std::path::PathBuf;
use std::process::ExitCode;

/// Prints an introduction, and then what is to be said of the fonts.
pub fn report(
    introduction: &str,
    of_fonts: impl FnOnce(Vec<Font>) -> Result<(), String>,
) -> ExitCode {
    println!("{introduction}");
    match fonts_asked_for().and_then(of_fonts) {
        Ok(()) => ExitCode::SUCCESS,
        Err(why) => {
            eprintln!("{why}");
            ExitCode::FAILURE
        }
    }
}

/// The CFF fonts in the folders that the words name, else in Debian's.
fn fonts_asked_for() -> Result<Vec<Font>, String> {
    let folders: Vec<PathBuf> = std::env::args_os().skip(1).map(PathBuf::from).collect();
    let mut found = Vec::new();
    for path in fonts::files(&folders) {
        found.extend(fonts::read(&path).map_err(|e| format!("{}: {e}", path.display()))?);
    }
    if found.is_empty() {
        return Err(format!(
            "there are no CFF fonts here; name a folder, or install some: apt-get install {}",
            fonts::PACKAGES
        ));
    }
    Ok(found)
}
