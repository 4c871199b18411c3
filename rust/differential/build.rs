//! Makes a repacker out of the original's own text.
//!
//! `compile_song_v2` compiles a song into a version 1 file and repacks that. Only the second half is of use here, and it is
//! not a function of its own. So its text is cut out of the unchanged file and put under a name.

use std::path::Path;
use std::{env, fs};

const ORIGINAL: &str = "original/stream.rs";
const BEFORE: &str = "
pub fn compile_song_v2(song: &Song, project_dir: &Path) -> Result<Vec<u8>, MusicError> {
    let v1 = compile_song(song, project_dir)?;
";
const AFTER: &str = "\n}\n";

fn main() {
    println!("cargo::rerun-if-changed={ORIGINAL}");
    println!("cargo::rerun-if-changed=build.rs");
    let text = fs::read_to_string(ORIGINAL).expect("the original is in the package");
    let function = format!(
        "pub(crate) fn repack(v1: Vec<u8>) -> Result<Vec<u8>, MusicError> {{\n{}{AFTER}",
        body(&text)
    );
    let directory = env::var_os("OUT_DIR").expect("cargo sets OUT_DIR");
    fs::write(Path::new(&directory).join("repack.rs"), function).expect("OUT_DIR can be written");
}

/// What stands between the call of `compile_song` and the end of the function.
fn body(text: &str) -> &str {
    let mut parts = text.split(BEFORE);
    let (Some(_), Some(rest), None) = (parts.next(), parts.next(), parts.next()) else {
        panic!("{ORIGINAL} does not hold the head of compile_song_v2 exactly once:{BEFORE}");
    };
    let Some((body, _)) = rest.split_once(AFTER) else {
        panic!("{ORIGINAL}: compile_song_v2 has no end");
    };
    body
}
