//! What the command can do.

use crate::status::{Failure, Status};
use std::io::Write;

const HELP: &str = "\
sgub checks, plays, indexes, repacks, compares and joins SGUB music streams, and has the
pitches of notes.

  sgub check FILE...         print a line for each file:
                               accepted VERSION FRAMES OPENING
                               refused NUMBER PLACE
  sgub explain [--all] FILE  print the line and what is behind it: for a refused file
                             the rule that it breaks and the bytes at the place, for an
                             accepted one its header, cards and pools (--all: every pool)
  sgub explain NUMBER        print the rule of a refusal, 1 to 30, with its limits, what its
                             place is and which commands print it; a file whose name is
                             a number is given as ./16
  sgub play [OPTION]... FILE print the writes of one pass and of the end: for each call
                               vsync NUMBER WRITES complete (or more)
                             then its writes, each as TARGET ADDRESS VALUE
       --vsyncs N            play N vsyncs instead
       --run N               lend each call N write records (default 4096)
       --summary             print only how many writes each vsync has, by target
       --from FRAME          start at this frame, counted from 1, without the opening, as
                             vsync 1; a frame that the file does not have is refused (27)
       --index INDEX         take the file's index from here, where 'sgub index' has written
                             it; one that is not the file's is refused (26). Without
                             --index the index is built in memory
  sgub index FILE [INDEX]    write the index of a file, for play --from, beside the file as
                             FILE.index or where INDEX says, and print
                               indexed BYTES
                               refused NUMBER PLACE
                             Standard input has no name: index - needs INDEX
       --force               replace INDEX if another file than an index is there, as
                             repack does RESULT; an index is replaced without it
  sgub repack MASTER RESULT  repack a file of version 1 as one of version 2 and print
                               repacked BYTES
                               refused NUMBER PLACE
       --force               replace RESULT if it is there, once the new one is whole;
                             MASTER itself and a read-only file are never replaced
  sgub compare MASTER OTHER  compare a file of version 1 with one of version 2 and print
                               passed
                               failed, and a line that says where they first differ
                               refused master NUMBER PLACE
                               refused other NUMBER PLACE
  sgub join FIRST SECOND RESULT
                             join two files of version 2, the second behind the first: its
                             opening is played within its first frame, and the result
                             repeats if it does. Print
                               joined BYTES
                               refused first NUMBER PLACE
                               refused second NUMBER PLACE
                               refused NUMBER PLACE (for both together)
       --force               replace RESULT if it is there, as repack does; FIRST and SECOND
                             are never replaced
  sgub pitch NOTE [SHIFT]    print the pitch register of a note, 0 to 127 (A4 is 69), shifted by
                             so many semitones, -48 to 48, or
                               refused 28 0
  sgub pitch                 print a table of all notes with their names and pitches
  sgub help                  print this text
  sgub --version             print the version of this command

FILE - is standard input. Behind -- every argument is a file.

Exit status: 0 every file is accepted, 1 a file or a note is refused or a comparison
failed, 2 could not run: a file that cannot be read (the others are still checked) or
written, or a command that is not understood.
";

/// Prints the commands.
pub fn help(out: &mut impl Write) -> Result<Status, Failure> {
    out.write_all(HELP.as_bytes())?;
    Ok(Status::Accepted)
}

/// Prints the version.
pub fn version(out: &mut impl Write) -> Result<Status, Failure> {
    writeln!(out, "sgub {}", env!("CARGO_PKG_VERSION"))?;
    Ok(Status::Accepted)
}
