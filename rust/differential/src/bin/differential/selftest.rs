//! What the generators make, judged by the original: how often each verdict comes, and how fast.

use crate::Answer;
use differential::generators::shapes::Shape;
use differential::generators::{Choice, Family, Generator, short};
use differential::model::weight;
use differential::oracle::messages::MESSAGES;
use differential::oracle::survey::Survey;
use differential::oracle::{self, Accepted, Player, Vsync};
use std::io::Write;
use std::time::Instant;

/// The names of the columns: the families, then the short files.
const COLUMNS: [&str; 6] = [
    "valid",
    "field",
    "boundary",
    "truncated",
    "damaged",
    "short",
];
const SHORT: usize = Family::ALL.len();

/// The seed of all files.
const SEED: u64 = 1;

/// Accepted files with more writes are not played.
const MOST_WRITES: u64 = 100_000;

/// `count` files of each version, shape and family, then all short files. False if an accepted shape was refused, or a
/// message was not reached that can be.
pub fn selftest(count: u64, out: &mut impl Write) -> Answer {
    let mut columns: [Survey; 6] = Default::default();
    let mut played = Played::default();
    writeln!(out, "accepted of all, by version and shape")?;
    write!(out, "{:21}", "")?;
    for name in &COLUMNS[..SHORT] {
        write!(out, "{name:>16}")?;
    }
    writeln!(out)?;
    for version in 1..=4 {
        for shape in Shape::of(version) {
            write!(out, "{version} {:19}", format!("{shape:?}"))?;
            for (family, column) in Family::ALL.into_iter().zip(&mut columns) {
                let survey = ask(count, version, shape, family, &mut played);
                let asked = survey.accepted + survey.refusals();
                write!(out, "{:>16}", format!("{}/{asked}", survey.accepted))?;
                column.add(&survey);
            }
            writeln!(out)?;
        }
    }
    short::for_each(|file| {
        let _ = columns[SHORT].ask(file);
    });
    writeln!(
        out,
        "played {} files: {} vsyncs, {} writes\n",
        played.files, played.vsyncs, played.writes
    )?;
    report(&columns, out)
}

fn ask(count: u64, version: u8, shape: Shape, family: Family, played: &mut Played) -> Survey {
    let choice = Choice {
        versions: version..=version,
        shape: Some(shape),
        family: Some(family),
    };
    let mut generator = Generator::new(SEED, choice);
    let mut survey = Survey::default();
    let count = if shape.is_huge() {
        count / 200 + 4
    } else {
        count
    };
    for _ in 0..count {
        let file = generator.next_file();
        if let Ok(accepted) = survey.ask(file) {
            played.play(file, &accepted);
        }
    }
    survey
}

/// What was played, so that the recording cores see every kind of write.
#[derive(Default)]
struct Played {
    files: u64,
    vsyncs: u64,
    writes: u64,
    vsync: Vsync,
}

impl Played {
    /// Plays one pass of a file that is not too heavy and the vsync behind it, and compares the number of writes with what
    /// the file's operations say.
    fn play(&mut self, file: &[u8], accepted: &Accepted) {
        let expected = weight::writes(file);
        if expected > MOST_WRITES {
            return;
        }
        let mut player = Player::new(file).expect("the file is accepted");
        let mut writes = 0;
        for _ in 0..accepted.frame_count {
            player.advance_vsync(&mut self.vsync);
            writes += (self.vsync.writes.len() + self.vsync.device_writes.len()) as u64;
        }
        assert_eq!(writes, expected, "writes of {file:02x?}");
        player.advance_vsync(&mut self.vsync);
        assert_eq!(player.is_finished(), !accepted.repeats);
        self.files += 1;
        self.vsyncs += u64::from(accepted.frame_count) + 1;
        self.writes += writes;
    }
}

/// A line for each message: the sheet's numbers, how often it came in each column, its text.
fn report(columns: &[Survey; 6], out: &mut impl Write) -> Answer {
    let mut all = Survey::default();
    for column in columns {
        all.add(column);
    }
    write!(out, "{:14}", "sheet")?;
    for name in COLUMNS {
        write!(out, "{name:>11}")?;
    }
    writeln!(out, "  verdict")?;
    let mut row = |label: String, text: &str, count: &dyn Fn(&Survey) -> u64| {
        write!(out, "{label:14}")?;
        for column in columns {
            write!(out, "{:>11}", count(column))?;
        }
        writeln!(out, "  {text}")
    };
    row(String::new(), "accepted", &|survey| survey.accepted)?;
    for (index, message) in MESSAGES.iter().enumerate() {
        if message.unreachable.is_none() {
            let label = format!("{:?}", message.numbers);
            row(label, message.text, &|survey| survey.refused[index])?;
        }
    }
    writeln!(out, "\nmessages that no file gets")?;
    for message in MESSAGES {
        if let Some(why) = message.unreachable {
            writeln!(out, "  {}: {why}", message.text)?;
        }
    }
    for text in all.missing() {
        writeln!(out, "NOT REACHED: {text}")?;
    }
    for text in all.unexpected() {
        writeln!(out, "REACHED ALL THE SAME: {text}")?;
    }
    let refused = columns[0].refusals();
    if refused > 0 {
        writeln!(out, "REFUSED: {refused} files that should be accepted")?;
    }
    Ok(refused == 0 && all.missing().is_empty() && all.unexpected().is_empty())
}

/// Files a second for each family and for all, first made only, then made and judged by the original.
pub fn speed(count: u64, out: &mut impl Write) -> Answer {
    writeln!(out, "{count} files of each family")?;
    let families = Family::ALL.into_iter().map(Some);
    for family in families.chain([None]) {
        let choice = Choice {
            family,
            ..Choice::ANY
        };
        let (mut bytes, mut accepted) = (0, 0);
        let made = per_second(count, &choice, |file| bytes += file.len() as u64);
        let judged = per_second(count, &choice, |file| {
            accepted += u64::from(oracle::verdict(file).is_ok());
        });
        let name = family.map_or("all", |family| COLUMNS[family as usize]);
        writeln!(
            out,
            "{name:10} {made:>9.0} made a second, {judged:>9.0} made and judged, {} bytes each, {}% accepted",
            bytes / count,
            100 * accepted / count
        )?;
    }
    Ok(true)
}

fn per_second(count: u64, choice: &Choice, mut visit: impl FnMut(&[u8])) -> f64 {
    let mut generator = Generator::new(SEED, choice.clone());
    let start = Instant::now();
    for _ in 0..count {
        visit(generator.next_file());
    }
    count as f64 / start.elapsed().as_secs_f64()
}
