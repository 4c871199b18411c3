//! Files that are written into a directory: drawn ones, large ones, and the examples.

use crate::Answer;
use differential::examples::{self, Example};
use differential::generators::shapes::{LARGE_MIN, Large, large};
use differential::generators::{Choice, Generator};
use differential::model::MAX_SIZE;
use std::fs;
use std::path::Path;

/// Writes the first files of a seed, named by seed and number.
pub fn write_drawn(seed: u64, count: usize, directory: &str) -> Answer {
    fs::create_dir_all(directory)?;
    let mut generator = Generator::new(seed, Choice::ANY);
    for number in 0..count {
        let name = format!("{seed}-{number:06}.sgub");
        fs::write(Path::new(directory).join(name), generator.next_file())?;
    }
    Ok(true)
}

/// Writes a large file of each shape, named by it.
pub fn write_large(bytes: usize, directory: &str) -> Answer {
    if !(LARGE_MIN..=MAX_SIZE).contains(&bytes) {
        return Err(format!("a large file has {LARGE_MIN} to {MAX_SIZE} bytes").into());
    }
    fs::create_dir_all(directory)?;
    for shape in Large::ALL {
        let name = format!("{shape:?}.sgub");
        fs::write(Path::new(directory).join(name), large(shape, bytes))?;
    }
    Ok(true)
}

/// Writes the files of `examples/`.
pub fn write_examples(directory: &str) -> Answer {
    fs::create_dir_all(directory)?;
    for (ending, examples) in [
        ("sgub", examples::all()),
        ("index", examples::all_indexes()),
    ] {
        for Example { name, file } in examples {
            fs::write(Path::new(directory).join(format!("{name}.{ending}")), file)?;
        }
    }
    Ok(true)
}
