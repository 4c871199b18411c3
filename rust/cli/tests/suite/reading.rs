//! The proved code fetches the bytes of an operation in the format sheet's order, as a technician reads them beside it: opcode, target,
//! address, then what follows. A contract cannot say that, because what is fetched is the same in any order; the text can. Only the calls of
//! the reader's functions are seen, not a byte that is taken by its index.

use crate::root;
use std::fs;
use std::path::PathBuf;

/// The functions that fetch a number of an operation, in the order of the numbers in a file.
const ORDER: [&[&str]; 7] = [
    &["opcode_in"],
    &["target_in"],
    &["address_in"],
    &["pool_in", "pool_by", "copy_pool_in"],
    &["source_in", "source_by", "copy_source_in"],
    &["length_in", "length_by", "fill_length_in", "copy_length_in"],
    &["value_in", "value_by", "fill_value_in", "write_value_in"],
];

/// The sources of all crates.
fn sources() -> Vec<(PathBuf, String)> {
    let crates = fs::read_dir(root().join("crates")).unwrap();
    let folders = crates.map(|entry| entry.unwrap().path().join("src"));
    let files = folders.flat_map(|folder| fs::read_dir(folder).unwrap());
    let paths = files.map(|entry| entry.unwrap().path());
    paths
        .map(|path| (path.clone(), fs::read_to_string(path).unwrap()))
        .collect()
}

/// The functions of a source: the name of each, and its body. Behind a contract the body's bracket stands on a line of its own.
fn functions(source: &str) -> impl Iterator<Item = (&str, &str)> {
    let parts = source.split("fn ").skip(1);
    parts.filter_map(|part| {
        let name = part.split('(').next()?;
        let head = part
            .split_once("\n{\n")
            .or_else(|| part.split_once(" {\n"))?;
        let body = head.1.split("\n}\n").next()?;
        Some((name, body))
    })
}

/// The functions that a body calls, in the order of its text.
fn calls(body: &str) -> impl Iterator<Item = &str> {
    let heads = body.split('(');
    heads.map(|head| {
        let is_name = |letter: char| letter.is_alphanumeric() || letter == '_';
        head.rsplit(|letter| !is_name(letter)).next().unwrap_or("")
    })
}

#[test]
fn numbers_are_fetched_in_the_order_of_the_file() {
    let mut readers = 0;
    for (path, source) in sources() {
        for (name, body) in functions(&source) {
            let rank = |call: &str| ORDER.iter().position(|names| names.contains(&call));
            let ranks: Vec<usize> = calls(body).filter_map(rank).collect();
            assert!(ranks.is_sorted(), "{name} in {}", path.display());
            readers += usize::from(ranks.len() > 1);
        }
    }
    // The whole reader, the five numbers that ask for the opcode first, and the paths that take the numbers one by one.
    assert!(readers >= 14, "{readers} functions fetch several numbers");
}

#[test]
fn an_address_is_read_by_one_function() {
    let mut callers = Vec::new();
    for (path, source) in sources() {
        let names =
            functions(&source).filter(|(_, body)| calls(body).any(|call| call == "read_u24"));
        callers.extend(names.map(|(name, _)| (name.to_owned(), path.clone())));
    }
    let names: Vec<&str> = callers.iter().map(|(name, _)| name.as_str()).collect();
    assert_eq!(names, ["read_address"], "{callers:?}");
}

/// The table of docs/ARCHITECTURE.md: each row names a call and its place, and a place is further down than the one before.
#[test]
fn the_table_beside_the_sheet_names_the_readers_lines() {
    let text = fs::read_to_string(root().join("docs/ARCHITECTURE.md")).unwrap();
    let section = text
        .split("\n## Reading an operation beside the sheet\n")
        .nth(1)
        .unwrap();
    let section = section.split("\n## ").next().unwrap();
    let rows: Vec<&str> = section
        .lines()
        .filter(|line| line.contains("| `"))
        .collect();
    assert_eq!(rows.len(), 8);
    let mut last = 0;
    for row in rows {
        let mut cell = row
            .split('|')
            .nth_back(1)
            .unwrap()
            .split('`')
            .skip(1)
            .step_by(2);
        let (call, place) = (cell.next().unwrap(), cell.next().unwrap());
        let (file, line) = place.split_once(':').unwrap();
        let line: usize = line.parse().unwrap();
        let path = root().join("crates/bytes_operation/src").join(file);
        let source = fs::read_to_string(path).unwrap();
        let there = source.lines().nth(line - 1).unwrap();
        assert!(there.contains(&format!("{call}(")), "{row}: {there}");
        assert!(last < line, "{row}");
        last = line;
    }
}
