//! The help texts.

/// Help on a subcommand, or on the whole.
pub fn text(command: Option<&str>) -> &'static str {
    match command {
        Some("check") => CHECK,
        Some("budgets") => BUDGETS,
        Some("replay") => REPLAY,
        Some("words") => WORDS,
        Some("text") => TEXT,
        _ => WHOLE,
    }
}

const WHOLE: &str = "\
wistorvan: is every message of a slot-skipping (TDMA/SS) bus delivered in time?

Usage: wistorvan SUBCOMMAND ...

  check LINE [--with RECORDER] [--json]
      yes or no, and the longest wait and the latest delivery of each stream
  budgets LINE [--with RECORDER] [--write NEW] [--json]
      the least budgets with which no stream is late
  replay LINE LOG [--with RECORDER] [--until TIME] [--json]
      when each message of a log begins, beside its listed wait; also by stream
  words LINE [--with RECORDER] [--output FILE]
      the line as a sheet of 32-bit words
  text SHEET [--tick LENGTH]
      a line file from a sheet of words

wistorvan SUBCOMMAND --help says more; wistorvan --version says which this is.
A file named - is standard input. docs/COMMAND.md has the forms of the files.

Exit status: 0 yes; 1 no, or refused by the library; 2 bad use, a file that
cannot be read or has errors.

Example: wistorvan check samples/dryer/line.txt
";

const CHECK: &str = "\
wistorvan check: is every stream of a line delivered by its deadline?

Usage: wistorvan check LINE [--with RECORDER] [--json]

The first line says yes or no. A table has each stream's longest wait, from
queuing to its begin on the bus; its latest delivery, from its event, which is
up to its jitter before it is queued, to the end of its turn; its deadline,
which also runs from the event, and what is left of it. For streams that are
late it says by how much, and what would help.

  --with RECORDER  adds the node of this file as the last, and shows each stream
                   before and after
  --json           writes one JSON object, with all durations in ticks

Exit status: 0 yes; 1 no, or refused by the library; 2 bad use, a file that
cannot be read or has errors.

Example: wistorvan check samples/dryer/line.txt --with samples/dryer/recorder.txt
";

const BUDGETS: &str = "\
wistorvan budgets: the least budgets with which no stream of a line is late.

Usage: wistorvan budgets LINE [--with RECORDER] [--write NEW] [--json]

No node has less in any other budgets that work. LINE may leave budgets out
here.

  --with RECORDER  adds the node of this file as the last
  --write NEW      writes the line with these budgets, and with the recorder, to
                   the file NEW, which must not exist
  --json           writes one JSON object, with all durations in ticks

Exit status: 0 found; 1 no budgets of 1 to 16 work, or refused by the library;
2 bad use, a file that cannot be read or has errors.

Example: wistorvan budgets samples/dryer/line.txt --with samples/dryer/recorder.txt
";

const REPLAY: &str = "\
wistorvan replay: when each message of a log begins on the bus.

Usage: wistorvan replay LINE LOG [--with RECORDER] [--until TIME] [--json]

LOG has a release a line: its time, a comma, semicolon, tab or spaces, and
NODE.STREAM. A time has a unit, or is in the unit of LINE; a first line as
time_ms,stream names another. Each message's wait stands beside the listed wait
of its stream, which it cannot exceed while the stream and those ranked above it
in its node keep their periods and jitters. Times are those of queuing. A second
table has for each stream how many messages have begun, the longest of their
waits so far, the listed wait, or late, and how many waited longer.

  --with RECORDER  adds the node of this file as the last
  --until TIME     replays up to this time; without it, up to the last begin
  --json           writes one JSON object, with all durations in ticks

Exit status: 0 every message has a listed wait and none waited longer; 1 one
did, or is of a stream that is late, or refused by the library; 2 bad use, a
file that cannot be read or has errors.

Example: wistorvan replay samples/dryer/line.txt samples/dryer/morning.csv
";

const WORDS: &str = "\
wistorvan words: the sheet of a line, as little-endian 32-bit words.

Usage: wistorvan words LINE [--with RECORDER] [--output FILE]

The words go to standard output, which must not be a terminal.

  --with RECORDER  adds the node of this file as the last
  --output FILE    writes the words to this file, which must not exist

Exit status: 0 written; 1 refused by the library; 2 bad use, a file that cannot
be read or written, or has errors.

Example: wistorvan words samples/dryer/line.txt | od -A d -t u4
";

const TEXT: &str = "\
wistorvan text: a line file from a sheet of little-endian 32-bit words.

Usage: wistorvan text SHEET [--tick LENGTH]

Nodes are called node1, node2 and so on, and a node's streams stream1, stream2
and so on. wistorvan words makes the same words of what this writes.

  --tick LENGTH  the length of a tick, as 0.1ms: durations are written in its
                 unit; without it, in ticks

Exit status: 0 written; 1 refused by the library; 2 bad use, a file that cannot
be read or has errors.

Example: wistorvan words samples/dryer/line.txt | wistorvan text - --tick 0.1ms
";
