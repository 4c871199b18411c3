//! `sgub explain`

use crate::{P3, directory, expect, root, run, sgub, with_input};
use std::fs;
use std::io::Write;
use std::process::Stdio;

/// Each file of tests/expected is the whole output for the example of its name.
#[test]
fn the_examples_are_explained() {
    let expected = root().join("rust/cli/tests/expected");
    let mut count = 0;
    for entry in fs::read_dir(expected).unwrap() {
        let path = entry.unwrap().path();
        let text = fs::read_to_string(&path).unwrap();
        let name = path.file_stem().unwrap().to_str().unwrap();
        let status = i32::from(text.starts_with("refused"));
        run(
            &["explain", &format!("examples/{name}.sgub")],
            status,
            &text,
            "",
        );
        count += 1;
    }
    assert_eq!(count, 7);
}

#[test]
fn a_place_at_the_end_is_marked_there() {
    let mut file = P3.to_vec();
    file[11] = 2;
    let output = with_input(&mut sgub(["explain", "-"]), &file);
    let text = String::from_utf8(output.stdout).unwrap();
    assert!(text.starts_with("refused 14 22\n\nRefusal 14: "), "{text}");
    let row = "  0x000010  00 00 00 16 00 00[--]                            ......\n";
    assert!(text.ends_with(row), "{text}");
}

#[test]
fn an_empty_file_has_no_bytes_to_show() {
    let text = format!("refused 1 0\n\n{}\nThe file is empty.\n", rule(1).0);
    run(&["explain", "-"], 1, &text, "");
}

/// What `sgub explain NUMBER` prints: the rule, and the two lines behind it.
#[track_caller]
fn rule(number: u32) -> (String, String) {
    let output = sgub(["explain", &number.to_string()]).output().unwrap();
    let text = String::from_utf8(output.stdout).unwrap();
    let (rule, lines) = text.split_once("\nPlace: ").unwrap();
    assert!(rule.starts_with(&format!("Refusal {number}: ")), "{text}");
    assert_eq!((output.status.code(), output.stderr.len()), (Some(0), 0));
    (rule.to_owned(), lines.to_owned())
}

#[test]
fn each_number_has_a_rule_a_place_and_commands() {
    for number in 1..=30 {
        let (_, lines) = rule(number);
        let (place, commands) = lines.split_once(".\nPrinted by: ").unwrap();
        match number {
            7 | 10 | 11 | 13..=19 => {
                assert!(place.starts_with("the first byte of the "), "{place}")
            }
            20 => assert_eq!(place, "the byte where reading stopped"),
            _ => assert_eq!(place, "0"),
        }
        match number {
            1..=20 => assert_eq!(
                commands,
                "check, explain, play, index, repack, compare, join.\n"
            ),
            21 => assert_eq!(commands, "repack, compare, join.\n"),
            22 => assert_eq!(commands, "repack.\n"),
            23 => assert_eq!(commands, "repack, join.\n"),
            26 => assert_eq!(commands, "play --from with --index.\n"),
            27 => assert_eq!(commands, "play --from.\n"),
            28 => assert_eq!(commands, "pitch.\n"),
            29 | 30 => assert_eq!(commands, "join.\n"),
            _ => assert!(commands.starts_with("no command, "), "{commands}"),
        }
    }
}

/// `explain FILE` has the line of `check FILE` and the words of `explain NUMBER`.
#[test]
fn a_refused_file_has_the_words_of_its_number() {
    for number in 1..=20 {
        let file = format!("examples/refused-{number}.sgub");
        let [line, text] = ["check", "explain"].map(|command| {
            let output = sgub([command, &file]).output().unwrap();
            String::from_utf8(output.stdout).unwrap()
        });
        assert!(line.starts_with(&format!("refused {number} ")), "{line}");
        let head = format!("{line}\n{}\n", rule(number).0);
        assert!(text.starts_with(&head), "{text}");
    }
}

#[test]
fn other_numbers_are_a_wrong_call() {
    for number in ["0", "31", "00", "18446744073709551616"] {
        let message = format!(
            "sgub: no refusal {number}, only 1 to 30 (a file of that name is ./{number}); \
             'sgub help' lists the commands\n"
        );
        run(&["explain", number], 2, "", &message);
    }
    let message = "sgub: --all is for a file, not for a number; 'sgub help' lists the commands\n";
    run(&["explain", "--all", "16"], 2, "", message);
}

/// A number is a rule even where a file has it for a name.
#[test]
fn a_file_whose_name_is_a_number_is_given_by_its_folder() {
    let folder = directory("explain-number");
    fs::write(folder.join("16"), P3).unwrap();
    let explain = |arguments: &[&str]| {
        let mut command = sgub(["explain"]);
        let output = command.args(arguments).current_dir(&folder).output();
        String::from_utf8(output.unwrap().stdout).unwrap()
    };
    assert!(explain(&["16"]).starts_with("Refusal 16: "));
    for arguments in [&["./16"][..], &["--", "16"], &["--all", "./16"]] {
        assert!(explain(arguments).starts_with("accepted 1 1 0\n"));
    }
}

/// Version 2 with one empty frame and pools of one byte.
fn with_pools(count: u32) -> Vec<u8> {
    let directory = 40;
    let payloads = directory + 16 * count;
    let opening = payloads + count;
    let header = [1, count, 0, directory, opening, opening, opening + 2];
    let mut file = b"SGUB\x02\x10\0\0".to_vec();
    file.extend(header.iter().flat_map(|field| field.to_be_bytes()));
    file.extend([0, 40, 0, 0]);
    for id in 0..count {
        file.extend((id as u16).to_be_bytes());
        file.extend([2, 0]);
        file.extend(
            [1, 1, payloads + id]
                .iter()
                .flat_map(|field| field.to_be_bytes()),
        );
    }
    file.resize(opening as usize + 2, 0);
    file
}

/// The table of pools.
fn pools(arguments: &[&str], count: u32) -> String {
    let output = with_input(&mut sgub(arguments), &with_pools(count));
    assert_eq!(output.status.code(), Some(0));
    let text = String::from_utf8(output.stdout).unwrap();
    let (_, table) = text.split_once("\nPools\n").unwrap();
    table.to_owned()
}

#[test]
fn a_long_list_of_pools_is_shortened() {
    let all = pools(&["explain", "--all", "-"], 1000);
    assert_eq!(all.lines().count(), 1001);
    let rows: Vec<&str> = all.lines().collect();
    assert_eq!(rows[0], "     id  kind      size    offset");
    assert_eq!(rows[1000], "    999  PCM          1     17039");
    let short = pools(&["explain", "-"], 1000);
    let expected = [
        &rows[..9],
        &["    ...  984 more; --all lists every pool"],
        &rows[993..],
    ];
    assert_eq!(short.lines().collect::<Vec<_>>(), expected.concat());
}

/// The output is longer than a pipe holds, so that the command notices.
#[test]
fn a_reader_that_goes_away_is_told_nothing() {
    let mut child = sgub(["explain", "--all", "-"])
        .stdin(Stdio::piped())
        .stdout(Stdio::piped())
        .stderr(Stdio::piped())
        .spawn()
        .unwrap();
    drop(child.stdout.take());
    child
        .stdin
        .take()
        .unwrap()
        .write_all(&with_pools(5000))
        .unwrap();
    expect(&child.wait_with_output().unwrap(), 2, "", "");
}

#[test]
fn a_list_of_17_pools_is_whole() {
    assert_eq!(pools(&["explain", "-"], 17).lines().count(), 18);
    assert_eq!(pools(&["explain", "-"], 18).lines().count(), 18);
    let output = with_input(&mut sgub(["check", "-"]), &with_pools(18));
    expect(&output, 0, "accepted 2 1 0\n", "");
}
