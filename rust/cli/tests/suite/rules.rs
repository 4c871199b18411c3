//! The rows of docs/RULES.md name what is there: definitions, functions, edits and examples.

use crate::root;
use std::fs;

#[test]
fn what_a_row_names_is_there() {
    let table = fs::read_to_string(root().join("docs/RULES.md")).unwrap();
    let is_row = |line: &&str| line.starts_with("| ") && !line.starts_with("| number");
    let rows: Vec<&str> = table.lines().filter(is_row).collect();
    for (row, number) in rows.iter().zip(1..) {
        let cells: Vec<&str> = row.trim_matches('|').split('|').map(str::trim).collect();
        let [found, _, _, definitions, functions, edit, example] = cells[..] else {
            panic!("{row}");
        };
        assert_eq!(found, number.to_string());
        hold_definitions(definitions);
        hold_functions(functions);
        let (owner, name) = edit.split_once('/').unwrap();
        assert!(
            exists(&format!("crates/{owner}/must-fail/{name}.edit")),
            "{edit}"
        );
        for path in example
            .split([' ', ',', '`'])
            .filter(|word| word.contains('/'))
        {
            assert!(exists(path), "{path}");
        }
    }
    assert_eq!(rows.len(), 30);
}

fn exists(path: &str) -> bool {
    root().join(path).exists()
}

/// The words in backquotes.
fn quoted(text: &str) -> impl Iterator<Item = &str> {
    text.split('`').skip(1).step_by(2)
}

/// Groups such as `` `first`, `second` (File) ``: the file of base_format's definitions has each of the names. A file of another
/// crate's is named with it, `(crate/File)`.
#[track_caller]
fn hold_definitions(cell: &str) {
    for group in cell.split_terminator(')') {
        let (names, file) = group.split_once('(').unwrap();
        let (owner, file) = file.split_once('/').unwrap_or(("base_format", file));
        let path = format!("crates/{owner}/specs/{file}.antt");
        let text = fs::read_to_string(root().join(&path)).unwrap();
        for name in quoted(names) {
            assert!(text.contains(&format!("pub {name} :")), "{name} in {path}");
        }
    }
}

/// Names such as `` `crate::function` ``: a source of the crate has the function.
#[track_caller]
fn hold_functions(cell: &str) {
    for path in quoted(cell) {
        let (owner, name) = path.split_once("::").unwrap();
        let sources = fs::read_dir(root().join(format!("crates/{owner}/src"))).unwrap();
        let has = |text: String| text.contains(&format!("fn {name}("));
        let mut texts = sources.map(|entry| fs::read_to_string(entry.unwrap().path()).unwrap());
        assert!(texts.any(has), "{path}");
    }
}
