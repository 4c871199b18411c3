//! What the rules need beside their words: how long things are, which numbers they may have, and where the limits lie. The lines
//! are printed as they stand. A first line is never indented, because the source could not show it.

/// The fields of a header that rule 5 speaks of.
pub const RESERVED: &str = "\
In versions 2 to 4:
  bytes     field        has to be
  36, 37    header size  40 in versions 2 and 3, 48 in version 4
  38        reserved     0 in versions 2 and 3
  38        card count   8 at most in version 4
  39        reserved     0
  44 to 47  reserved     0 in version 4
";

/// A card, for rule 7.
pub const CARD: &str = "\
A card has 32 bytes. Cards are tested one by one in file order.
  bytes     field        has to be
  0         slot         0 to 7, and above the slot of the card before
  1         name length  1 to 16
  2, 3      reserved     0
  4 to 7    name offset  0x2000000 at most, with the name length added
  8 to 11   bulk start   0x2000000 at most, with the bulk length added
  12 to 15  bulk length  any number that bulk start allows
  16 to 31  name         0 in every byte behind the name
No sum is cut to 32 bits.
";

/// The fields of a header that rule 8 speaks of.
pub const COUNTS: &str = "\
The bytes of the header that say it:
  field             version 1  versions 2 to 4  has to be
  frame count       8 to 11    8 to 11          1 or more
  total size        16 to 19   32 to 35         the file's length, and 0xE00000 at most
  pool count        none       12 to 15         65,536 at most
  directory offset  none       20 to 23         40 in versions 2 and 3; 48 in version 4,
                                                and 32 more for each card
";

/// A pool entry, for rule 10.
pub const POOL: &str = "\
A pool entry has 16 bytes. Pools are tested one by one in file order, each by 10 and 11
before the next.
  bytes     field        has to be
  0, 1      id           its place in the directory: 0, 1, 2 and so on
  2         kind         one that the version has
  3         codec        0
  4 to 7    size         one that the kind may have
  8 to 11   size again   the same size
  12 to 15  offset       where the directory ends, or the payload of the pool before

  kind      versions     size
  1, wave   2 to 4       256
  2, PCM    2 to 4       1 to 1,048,576
  3, card   3            1 to 0x400000
  3, card   4            1 to 0x2000000
There is no other kind, and no kind 3 in version 2.
";

/// A payload, for rule 11.
pub const PAYLOAD: &str = "\
A pool's payload has as many bytes as its size, from its offset on. Pools are tested one
by one in file order, each by 10 and 11 before the next. No sum is cut to 32 bits.
";

/// Where opening and frames start, for rule 12.
pub const SECTIONS: &str = "\
In version 1 the opening records start at byte 20 and have 5 bytes each. In versions 2
to 4 bytes 24 to 27 say where the opening starts, bytes 28 to 31 where the frames do.
";

/// In which order 13 to 19 are tested.
pub const ITEMS: &str = "\
Records, operations and frame counts are tested one by one in file order, each whole
before the next.
";

/// A record and a frame count, for rule 14.
pub const RECORD: &str = "\
A frame count has 2 bytes. A record, which only version 1 has, has 5 bytes: target,
address (3 bytes), value.
";

/// The operations, for rules 13 and 14.
pub const OPERATION: &str = "\
Versions 2 to 4 have operations. An address has 3 bytes in version 2, else 4; the bytes
of other fields, if more than one, stand in brackets.
  first byte  fields                               bytes
  0, WRITE    target, address, value               6 in version 2, 7 in 3 and 4
  1, FILL     target, address, length (4), value   10 in version 2, 11 in 3 and 4
  2, COPY     target, address, pool (2),           15 in version 2, 16 in 3 and 4
              source (4), length (4)
";

/// The targets, for rules 15 and 16.
pub const TARGETS: &str = "\
The targets, and the last address that a record or WRITE may have:
  target    versions  what it is                             limit
  0, 1      1 to 4    the cores                              0x8FF
  2         1 to 4    PCM memory                             0xFFFFF
  3         3         a device                               0x1FFFFFF
  3 to 10   4         the card with the slot target minus 3  0x1FFFFFF
  11        4         a device                               0x3F
";

/// The ranges of FILL and COPY, for rules 17 and 19.
pub const BULK: &str = "\
A FILL or COPY has length 1 or more, and starts and ends within the range of its target:
  target    versions  range
  0, 1      2 to 4    0 to 0x7FF
  2         2 to 4    0 to 0xFFFFF
  3         3         0 to 0x3FFFFF
  3 to 10   4         from the card's bulk start on, as many bytes as its bulk length;
                      none if that is 0
  11        4         none
A COPY that breaks this gets 17 in version 4, and 19 in versions 2 and 3. No sum is cut
to 32 bits.
";

/// How pools are numbered, for rule 18.
pub const POOL_NUMBERS: &str = "\
Pools are numbered from 0 on, so the number has to be below the pool count.
";

/// The rules of a COPY, for rule 19.
pub const COPY: &str = "\
The source and the length of a COPY, added, are at most the size of the pool. A pool of
a kind goes to these targets only:
  kind      targets
  1, wave   0 and 1; address, source and length are multiples of 256
  2, PCM    2
  3, card   3 in version 3, 3 to 10 in version 4
";

/// The versions that a command takes, for rule 21.
pub const VERSIONS: &str = "\
Repacking takes a file of version 1. Comparing takes a master of version 1 and another
file of version 2. Joining takes two files of version 2, and says which of them is
refused, the first one first.
";

/// How long a result is, for rule 23.
pub const RESULTS: &str = "\
A joined file has as many bytes as the two files, less 40. In repacking, a record of 5
bytes becomes a WRITE of 6 where it is part of no wave and no opening PCM.
";

/// What may be too short, for rule 24.
pub const LENT: &str = "\
Repacking and joining need a buffer as long as the result, and building an index one as
long as the index. Comparing needs two images of 1,048,576 bytes, and says which file's
image is too short, the master's first. A run of write records is never too short, not
even one without records.
";

/// When player and file do not belong together, for rule 25.
pub const BELONGING: &str = "\
One of these is so:
  the file's length is not the total size that the player recorded;
  the player's version breaks 3 (it is not 1 to 4), or its card count 5 (it is above 8);
  a place in the player is greater than the file's length;
  a counter in the player is above the count that it runs up to;
  a frame count that this call reads, or an operation or pool that it takes writes from,
  fails 7, 9, 11 or 13 to 19. All of them are read before a write is stored.
";

/// What a call reads, and when it is not refused, for rule 25.
pub const READING: &str = "\
A call reads frame counts, operations, pool entries and payloads from the file; all else
is the player's, as its start recorded it. The call that finishes the opening reads the
frame count behind it; any other is read by the first call of its vsync.

A player never gets 25 with its own file, if each earlier call that read a file and was
not refused had that file too. A call on a finished player reads no file and never gets
25.

A jump checks the whole file first (1 to 20), also for a finished player. It then gets
25 where one of the first four points is so, or where the file's header, its cards or
its use of target 11 are not those that the player recorded.
";

/// What an index is, for rule 26.
pub const INDEX: &str = "\
The index says where the counts of frames 1, 65, 129 and so on stand. Each number has
four bytes, highest first:
  part      numbers
  entries   one place for each 64 frames, rounded up
  trailer   4 times the number of entries, the number of entries, the file's total size

It is compared byte for byte with one that is built of the file. To build it again:
  sgub index FILE [INDEX]
Without --index, sgub play --from builds it by itself.
";

/// Which frames there are, for rule 27.
pub const FRAMES: &str = "\
Frames are counted from 1 on. sgub check prints their number behind the version:
  accepted VERSION FRAMES OPENING
";

/// Which notes and shifts there are, for rule 28.
pub const NOTES: &str = "\
Notes are counted from 0, which is C-1, to 127, which is G9; A4 is 69. A number below 0
is no note either. sgub pitch prints all notes with their names and pitches:
  sgub pitch
";

/// What the second file's opening becomes, for rule 29.
pub const JOINED_FRAME: &str = "\
A joined file has one opening, the first file's. The second file's opening operations
are put before those of its own first frame, and a frame has 65,535 operations at most.
sgub check prints the number of opening operations behind the frames:
  accepted VERSION FRAMES OPENING
There are fewer of them where a FILL or a COPY does the work of many WRITEs.
";

/// What becomes of the pools, for rule 30.
pub const JOINED_POOLS: &str = "\
In a joined file the second file's pools follow the first's, even if some of them are
the same. sgub explain prints how many pools a file has:
  sgub explain FILE
";

/// In which order joining refuses, for rules 29 and 30.
pub const JOINED_ORDER: &str = "\
It is tested after both files, each by 1 to 21, and no file is named. 29 comes before
30, and both come before 23.
";
