//! Holds the declarations of this module against `include/sgub.h`, by a C compiler.

use super::comparison::Compared;
use super::index::{Indexed, Jumped};
use super::join::Joined;
use super::pitch::Frequency;
use super::repack::Repacked;
use super::{
    Card, CardRequirement, CardTable, Header, Player, Pool, Pools, Progress, Started, Verdict,
    Vsync, WaveSource,
};
use crate::{PoolEntry, WriteRecord};
use std::mem::offset_of;
use std::path::{Path, PathBuf};
use std::process::Command;
use std::{env, fs};

/// A struct of the header: its size, and the name, offset and size of each field.
struct Layout {
    name: &'static str,
    size: usize,
    fields: Vec<(&'static str, usize, usize)>,
}

macro_rules! layout {
    ($name:literal, $type:ident { $($field:ident),* $(,)? }) => {
        Layout {
            name: $name,
            size: size_of::<$type>(),
            fields: vec![$((
                stringify!($field),
                offset_of!($type, $field),
                size_of_field(|value: &$type| &value.$field),
            )),*],
        }
    };
}

fn size_of_field<S, F>(_: fn(&S) -> &F) -> usize {
    size_of::<F>()
}

fn layouts() -> [Layout; 20] {
    [
        layout!(
            "sgub_verdict",
            Verdict {
                number,
                place,
                version,
                repeats,
                uses_si22,
                card_count,
                frame_period,
                frame_count,
                pool_count,
                initial_count,
                directory_offset,
                initial_start,
                frame_start,
                total_size,
            }
        ),
        layout!(
            "sgub_card_requirement",
            CardRequirement {
                slot,
                id_length,
                id_offset,
                bulk_start,
                bulk_length,
                id,
            }
        ),
        layout!(
            "sgub_card",
            Card {
                number,
                place,
                card,
            }
        ),
        layout!(
            "sgub_pool",
            Pool {
                number,
                place,
                kind,
                offset,
                size,
            }
        ),
        layout!("sgub_pool_entry", PoolEntry { kind, size, offset }),
        layout!(
            "sgub_pools",
            Pools {
                number,
                place,
                count,
            }
        ),
        layout!(
            "sgub_header",
            Header {
                version,
                repeat,
                frame_period,
                card_count,
                frame_count,
                pool_count,
                initial_count,
                directory_offset,
                initial_start,
                frame_start,
                total_size,
            }
        ),
        layout!("sgub_card_table", CardTable { cards, count }),
        layout!("sgub_wave_source", WaveSource { copied, pool }),
        layout!(
            "sgub_progress",
            Progress {
                part,
                cursor,
                operation_index,
                operation_count,
                write_index,
                frame_index,
                initialized,
                finished,
                wave_sources,
            }
        ),
        layout!(
            "sgub_player",
            Player {
                header,
                cards,
                uses_si22,
                progress,
            }
        ),
        layout!(
            "sgub_started",
            Started {
                number,
                place,
                player,
            }
        ),
        layout!(
            "sgub_write",
            WriteRecord {
                target,
                address,
                value,
            }
        ),
        layout!(
            "sgub_vsync",
            Vsync {
                number,
                place,
                count,
                complete,
            }
        ),
        layout!(
            "sgub_indexed",
            Indexed {
                number,
                place,
                size,
            }
        ),
        layout!("sgub_jumped", Jumped { number, place }),
        layout!(
            "sgub_repacked",
            Repacked {
                number,
                place,
                size,
            }
        ),
        layout!(
            "sgub_compared",
            Compared {
                file,
                number,
                place,
                passed,
            }
        ),
        layout!(
            "sgub_joined",
            Joined {
                file,
                number,
                place,
                size,
            }
        ),
        layout!(
            "sgub_frequency",
            Frequency {
                number,
                place,
                pitch,
            }
        ),
    ]
}

/// A C program that the compiler takes only if the header has these layouts and functions.
fn program() -> String {
    let mut text = String::from(HEAD);
    for layout in layouts() {
        let name = layout.name;
        text += &format!("HAS(sizeof(struct {name}) == {});\n", layout.size);
        for (field, offset, size) in layout.fields {
            text += &format!("HAS(offsetof(struct {name}, {field}) == {offset});\n");
            text += &format!("HAS(sizeof(((struct {name} *)0)->{field}) == {size});\n");
        }
    }
    text + CALLS
}

const HEAD: &str = "\
#include \"sgub.h\"
#define HAS(what) _Static_assert(what, #what)
";

/// The functions as Rust declares them, and a program that calls them.
const CALLS: &str = include_str!("header.c");

/// Compiles a C program and links it with the library; where the compiler refuses it, what the compiler says.
///
/// # Panics
/// If no C compiler can be run: a test that cannot be made has not passed.
fn compile(name: &str, text: &str) -> Result<PathBuf, String> {
    let directory = Path::new(env!("OUT_DIR"));
    let (source, program) = (directory.join(format!("{name}.c")), directory.join(name));
    fs::write(&source, text).expect("OUT_DIR can be written");
    let compiler = env::var_os("CC").unwrap_or_else(|| "cc".into());
    let include = Path::new(env!("CARGO_MANIFEST_DIR")).join("../../include");
    let output = Command::new(&compiler)
        .args(["-std=c11", "-Wall", "-Werror", "-I"])
        .args([&include, &source, Path::new(env!("SGUB_ARCHIVE"))])
        .arg("-o")
        .arg(&program)
        .output()
        .unwrap_or_else(|error| {
            panic!(
                "this test needs a C compiler, cc or the one that CC names: \
                 {compiler:?} cannot be run: {error}"
            )
        });
    if output.status.success() {
        Ok(program)
    } else {
        Err(String::from_utf8_lossy(&output.stderr).into_owned())
    }
}

#[test]
fn the_header_has_these_declarations_and_c_can_call_the_library() {
    let program = compile("same", &program()).unwrap_or_else(|errors| panic!("{errors}"));
    assert_eq!(Command::new(program).status().unwrap().code(), Some(0));
}

/// The comparison can fail: an offset off by one is refused, and so is a function with another parameter.
#[test]
fn other_declarations_are_refused() {
    for (name, old, new) in [
        ("offset", "number) == 0)", "number) == 1)"),
        ("parameter", "unsigned short)", "unsigned int)"),
    ] {
        let wrong = program().replacen(old, new, 1);
        assert_ne!(wrong, program());
        assert!(compile(name, &wrong).is_err(), "{name}");
    }
}
