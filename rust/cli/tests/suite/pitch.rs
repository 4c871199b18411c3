//! `sgub pitch`: a note, and the table of all notes.

use crate::{run, sgub};
use std::ffi::OsStr;
use std::os::unix::ffi::OsStrExt;

#[test]
fn a_note_has_a_pitch() {
    for (words, pitch) in [
        (&["69"][..], "440"),
        (&["69", "0"], "440"),
        (&["69", "12"], "880"),
        (&["69", "+12"], "880"),
        (&["69", "-12"], "220"),
        (&["--", "69", "-12"], "220"),
        (&["69", "--", "-12"], "220"),
        (&["069", "-012"], "220"),
        (&["-0", "-0"], "8"),
        // The ends of the range, 27.5, and the pitches around the greatest.
        (&["0", "-48"], "1"),
        (&["127", "48"], "65535"),
        (&["21"], "28"),
        (&["107", "48"], "63217"),
        (&["108", "48"], "65535"),
    ] {
        run(&[&["pitch"], words].concat(), 0, &format!("{pitch}\n"), "");
    }
}

/// Also a number that no type of the library holds, with whichever note or shift it comes.
#[test]
fn a_number_out_of_range_is_refused() {
    let huge = "9".repeat(1000);
    let least = format!("-{huge}");
    for note in ["128", "255", "256", "-1", "65536", &huge, &least] {
        for shift in ["0", "48", "49", &huge] {
            run(&["pitch", note, shift], 1, "refused 28 0\n", "");
        }
    }
    for shift in [
        "49", "-49", "127", "128", "-128", "-129", "256", &huge, &least,
    ] {
        for note in ["0", "69", "127"] {
            run(&["pitch", note, shift], 1, "refused 28 0\n", "");
        }
    }
}

#[test]
fn other_words_are_a_wrong_call() {
    let wrong = |words: &[&str], message: &str| {
        let message = format!("sgub: {message}; 'sgub help' lists the commands\n");
        run(&[&["pitch"], words].concat(), 2, "", &message);
    };
    for word in ["A4", "", "-", "+", "1.5", "0x45", "--help", "6 9"] {
        let message = format!("{word} is no whole number");
        wrong(&[word], &message);
        wrong(&["69", word], &message);
        // Also beside a note that would be refused.
        wrong(&["128", word], &message);
    }
    wrong(&["1", "2", "3"], "pitch takes a note and, if any, a shift");
    wrong(&["--", "--"], "-- is no whole number");
    let output = sgub([OsStr::new("pitch"), OsStr::from_bytes(b"\xFF")])
        .output()
        .unwrap();
    assert_eq!(output.status.code(), Some(2));
    assert!(output.stdout.is_empty());
}

/// Each note stands in the table once, under its name, with the pitch that the command prints for it alone.
#[test]
fn the_table_has_all_notes() {
    let output = sgub(["pitch"]).output().unwrap();
    assert_eq!(
        (output.status.code(), &output.stderr[..]),
        (Some(0), &b""[..])
    );
    let text = String::from_utf8(output.stdout).unwrap();
    let lines: Vec<&str> = text.lines().collect();
    assert_eq!(lines[0], "The pitch register of each note; A4 is note 69.");
    assert_eq!(
        lines[3],
        "   0 C-1      8      36 C2      65      72 C5     523     108 C8    4186"
    );
    assert_eq!(
        lines.last(),
        Some(&"  35 B1      62      71 B4     494     107 B7    3951")
    );
    assert_eq!(lines.len(), 41);
    assert!(
        lines
            .iter()
            .all(|line| line.len() <= 80 && line.trim_end() == *line)
    );

    let words: Vec<&str> = lines[3..]
        .iter()
        .flat_map(|line| line.split_whitespace())
        .collect();
    let mut notes: Vec<[&str; 3]> = words.as_chunks().0.to_vec();
    notes.sort_by_key(|[note, ..]| note.parse::<u32>().unwrap());
    assert_eq!(notes.len(), 128);
    let names = [
        "C", "C#", "D", "D#", "E", "F", "F#", "G", "G#", "A", "A#", "B",
    ];
    for (number, [note, name, pitch]) in notes.into_iter().enumerate() {
        assert_eq!(note, number.to_string());
        assert_eq!(
            name,
            format!("{}{}", names[number % 12], number as i32 / 12 - 1)
        );
        run(&["pitch", note], 0, &format!("{pitch}\n"), "");
    }
}
