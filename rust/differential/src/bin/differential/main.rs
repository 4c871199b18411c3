//! Asks the original about files, makes files to ask about, and compares the library with it. `rust/README.md` has the commands.
#![forbid(unsafe_code)]

mod bench;
mod comparisons;
mod driver;
mod files;
mod indexes;
mod joins;
mod jumps;
mod oracle;
mod pitches;
mod plays;
mod repacks;
mod selftest;
mod verdicts;

use driver::Amount;
use std::env;
use std::error::Error;
use std::io::{self, BufWriter, Write};
use std::process::ExitCode;

const USAGE: &str = "usage: differential verdict FILE...
       differential play FILE VSYNCS
       differential repack MASTER RESULT
       differential generate SEED COUNT DIRECTORY
       differential large BYTES DIRECTORY
       differential examples DIRECTORY
       differential vectors DIRECTORY COUNT
       differential play-vectors DIRECTORY COUNT
       differential repack-vectors DIRECTORY COUNT
       differential compare-vectors DIRECTORY COUNT
       differential index-vectors DIRECTORY COUNT
       differential jump-vectors DIRECTORY COUNT
       differential pitch-vectors DIRECTORY
       differential join-vectors DIRECTORY COUNT
       differential verdicts COUNT [SEED]
       differential plays COUNT [SEED]
       differential repacks COUNT [SEED]
       differential compares COUNT [SEED]
       differential indexes COUNT [SEED]
       differential jumps COUNT [SEED]
       differential pitches
       differential joins COUNT [SEED]
       differential bench [play | repack | compare | jump | pitch | join]
       differential selftest [COUNT]
       differential speed [COUNT]";

fn main() -> ExitCode {
    let arguments: Vec<String> = env::args().skip(1).collect();
    let arguments: Vec<&str> = arguments.iter().map(String::as_str).collect();
    let mut out = BufWriter::new(io::stdout().lock());
    let answer = run(&arguments, &mut out).and_then(|good| {
        out.flush()?;
        Ok(good)
    });
    match answer {
        Ok(true) => ExitCode::SUCCESS,
        Ok(false) => ExitCode::FAILURE,
        Err(error) => {
            eprintln!("differential: {error}");
            ExitCode::from(2)
        }
    }
}

/// What a command comes to. False is bad news: a refused file, a failed test.
type Answer = Result<bool, Box<dyn Error>>;

fn run(arguments: &[&str], out: &mut impl Write) -> Answer {
    match arguments {
        ["verdict", files @ ..] if !files.is_empty() => oracle::verdict(files, out),
        ["play", file, vsyncs] => oracle::play(file, vsyncs.parse()?, out),
        ["repack", master, result] => oracle::repack(master, result, out),
        ["generate", seed, count, directory] => {
            files::write_drawn(seed.parse()?, count.parse()?, directory)
        }
        ["large", bytes, directory] => files::write_large(bytes.parse()?, directory),
        ["examples", directory] => files::write_examples(directory),
        ["vectors", directory, count] => verdicts::write_vectors(directory, count.parse()?, out),
        ["play-vectors", directory, count] => plays::write_vectors(directory, count.parse()?, out),
        ["repack-vectors", directory, count] => {
            repacks::write_vectors(directory, count.parse()?, out)
        }
        ["compare-vectors", directory, count] => {
            comparisons::write_vectors(directory, count.parse()?, out)
        }
        ["index-vectors", directory, count] => {
            indexes::write_vectors(directory, count.parse()?, out)
        }
        ["jump-vectors", directory, count] => jumps::write_vectors(directory, count.parse()?, out),
        ["pitch-vectors", directory] => pitches::write_vectors(directory, out),
        ["join-vectors", directory, count] => joins::write_vectors(directory, count.parse()?, out),
        ["verdicts", numbers @ ..] => verdicts::compare(amount(numbers)?, out),
        ["plays", numbers @ ..] => plays::compare(amount(numbers)?, out),
        ["repacks", numbers @ ..] => repacks::compare(amount(numbers)?, out),
        ["compares", numbers @ ..] => comparisons::compare(amount(numbers)?, out),
        ["indexes", numbers @ ..] => indexes::compare(amount(numbers)?, out),
        ["jumps", numbers @ ..] => jumps::compare(amount(numbers)?, out),
        ["pitches"] => pitches::compare(out),
        ["joins", numbers @ ..] => joins::compare(amount(numbers)?, out),
        ["bench"] => bench::verdicts::bench(out),
        ["bench", "play"] => bench::plays::bench(out),
        ["bench", "repack"] => bench::repacks::bench(out),
        ["bench", "jump"] => bench::jumps::bench(out),
        ["bench", "pitch"] => bench::pitches::bench(out),
        ["bench", "join"] => bench::joins::bench(out),
        ["bench", "compare"] => bench::comparisons::bench(out),
        ["selftest"] => selftest::selftest(1000, out),
        ["selftest", count] => selftest::selftest(count.parse()?, out),
        ["speed"] => selftest::speed(1_000_000, out),
        ["speed", count] => selftest::speed(count.parse()?, out),
        _ => Err(USAGE.into()),
    }
}

/// `COUNT [SEED]`; without a seed it is 1.
fn amount(numbers: &[&str]) -> Result<Amount, Box<dyn Error>> {
    let (count, seed) = match numbers {
        [count] => (count, &"1"),
        [count, seed] => (count, seed),
        _ => return Err(USAGE.into()),
    };
    Ok(Amount {
        count: count.parse()?,
        seed: seed.parse()?,
    })
}
