//! The texts of --help.

/// The text of a command, or the one of the tool.
pub fn of(command: &str) -> &'static str {
    match command {
        "create" => CREATE,
        "status" => STATUS,
        "mend" => MEND,
        "read" => READ,
        "write" => WRITE,
        "replace" => REPLACE,
        _ => TOOL,
    }
}

const TOOL: &str = "\
mirror-volume: a disk that a verified mirror keeps in three files. Any two of
the three places of a sector give its data back.

  mirror-volume create  V size=N        make the three files
  mirror-volume status  V               survey all sectors, and say what to do
  mirror-volume mend    V               mend what one damaged place left doubtful
  mirror-volume read    V sector=X      sectors to standard output
  mirror-volume write   V sector=X      sectors from standard input
  mirror-volume replace V place=P       make a file anew that is gone
  mirror-volume COMMAND --help          more of a command
  mirror-volume --version

V stands for local=FILE tags=FILE remote=FILE key=FILE, in any order, as the
nbdkit plugin takes them:

  V=\"local=disk.local tags=disk.tags remote=disk.remote key=disk.key\"
  (umask 077; head -c 32 /dev/urandom > disk.key)
  mirror-volume create $V size=1G
  mirror-volume status $V

While nbdkit serves the disk no command can use it, and the other way round.
Whoever can read the local and the remote file has the data, without the key:
keep the two on different machines or devices.

Exit status: 0 all that was looked at is whole, or done; 1 there are doubtful
sectors, and their data is there; 2 there are lost or clashing sectors; 3 it
could not be done, and a line on standard error says what is wrong and what to
do.
";

const CREATE: &str = "\
mirror-volume create local=FILE tags=FILE remote=FILE key=FILE size=N
                     [sector=4096] [number=0] [part=65536]

Makes the three files of a new disk, every sector zeros. A file that is there is
never overwritten, and if one is, none is made. If it fails, what it made is
removed; if it is killed, move the three away and create again.

  size=N     the bytes of the disk, a multiple of the sector; K, M, G or T behind
             the digits stands for 1,024 bytes, 1,024 K and so on
  sector=N   the bytes of a sector, a multiple of 16 from 16 to 4096; if a power
             cut can come, a multiple of what the device writes at once
  part=N     the sectors of a part, 1 to 65536: a survey loads a part at a time
  number=N   the volume's number of the first part; the others have the next ones
  key=FILE   exactly 32 random bytes: (umask 077; head -c 32 /dev/urandom > FILE)

Each part has a number of its own. Disks under one key need numbers that do not
meet, and a number is never used again under that key: a disk of P parts with
number=N has N to N+P-1. Or give each disk a key of its own.
";

const STATUS: &str = "\
mirror-volume status V [--svg FILE] [--json]

Surveys every sector and prints the counts, what is not whole in the order of
repair, and what to do. Nothing is changed in the disk. Exit status 0, 1 or 2
by the worst that it finds, see mirror-volume --help. It loads a part at a time:
with sector=4096 and part=65536 that takes 514 MiB of memory.

  whole      one plaintext fits all three places
  doubtful   one plaintext fits two places; the third, which is named, is damaged
  clashing   more than one plaintext fits two places
  lost       no plaintext fits two places
  health     the whole ones in thousandths, rounded down

  --svg FILE writes a picture, in place of what FILE was
  --json     prints one JSON object instead: uuid; bytes, sectors, sector_bytes,
             parts, part_sectors, first_number, last_number; whole, doubtful,
             clashing, lost, health; unreadable, the places that a device would
             not give, by local, tags and remote; runs, a list of {first, last,
             verdict, place} in the order of repair, where the verdict is lost,
             clashing or doubtful, and the place local, tag, remote or null; all
             numbers are whole ones below 2^64
";

const MEND: &str = "\
mirror-volume mend V

Writes the damaged place of every doubtful sector anew, from the two that agree.
Whole, lost and clashing sectors are left as they are. Exit status 0 if all
sectors are whole afterwards, 2 if lost or clashing ones are left.
";

const READ: &str = "\
mirror-volume read V sector=X [count=1]

Writes the data of sectors to standard output. Doubtful ones are given, and named
on standard error; nothing is mended. Before the first lost or clashing sector it
stops, with exit status 2.
";

const WRITE: &str = "\
mirror-volume write V sector=X [overwrite-lost=true]

Reads standard input, a whole number of sectors, and when it has all of it writes
them from sector X on: three stages, a flush after each. Doubtful sectors are
mended before. If one of the sectors is lost or clashing nothing is written, and
the exit status is 2; with overwrite-lost=true lost ones are given up and written.
After a power cut, or where it is killed, each sector has the old data or the
new: look at it with status, mend, and write again.
";

const REPLACE: &str = "\
mirror-volume replace V place=local|tags|remote

Makes the file of a place anew, from the superblocks of the other two. It must be
gone: move a damaged one away, and keep it until the disk is mended. The new file
has zeros in all places, so every sector is doubtful: run mend then.
";
