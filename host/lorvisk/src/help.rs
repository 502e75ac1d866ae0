//! What the tool says of itself.

#[derive(Clone, Copy)]
pub enum Topic {
    Lorvisk,
    Judge,
    Run,
    Explain,
    Sheet,
}

impl Topic {
    pub fn name(self) -> &'static str {
        match self {
            Topic::Lorvisk => "",
            Topic::Judge => "judge",
            Topic::Run => "run",
            Topic::Explain => "explain",
            Topic::Sheet => "sheet",
        }
    }

    /// The options that a command takes, each with a value.
    pub fn options(self) -> &'static [&'static str] {
        match self {
            Topic::Judge => &["--sheet"],
            Topic::Run => &["--global", "--shared", "--loads", "--results", "--sheet"],
            Topic::Lorvisk | Topic::Explain | Topic::Sheet => &[],
        }
    }
}

pub const VERSION: &str = concat!("lorvisk ", env!("CARGO_PKG_VERSION"));

pub fn text(topic: Topic) -> &'static str {
    match topic {
        Topic::Lorvisk => LORVISK,
        Topic::Judge => JUDGE,
        Topic::Run => RUN,
        Topic::Explain => EXPLAIN,
        Topic::Sheet => SHEET,
    }
}

const LORVISK: &str = "\
lorvisk: a proved judge of GPU traces

Usage:
  lorvisk judge FILE..       judge trace files, one line each
  lorvisk explain FILE       judge one, and say why it is refused
  lorvisk run FILE ..        run one over two memories and a load record
  lorvisk sheet FILE         read a verdict sheet
  lorvisk COMMAND --help     more on a command
  lorvisk --version

A FILE of '-' is standard input; after '--' every word is a file. For example:

  lorvisk judge --sheet kernel.sheet kernel.trace && ship kernel

Exit status, of several files the worst:
  0  accepted, and nothing else
  1  refused
  2  something was not judged: this help, a wrong command line, or a file that
     cannot be read or written
  3  no verdict: a program died, was killed, or did not finish its answer";

const JUDGE: &str = "\
lorvisk judge: does any pair of accesses clash?

Usage:
  lorvisk judge FILE..
  lorvisk judge --sheet OUT FILE

Prints a line for each file: accepted, refused with the code and the event, or
no verdict. Files may have any length; '-' is standard input.

  --sheet OUT   put the verdict sheet of the one FILE at OUT. Whatever file
                stood there is removed before judging, and the sheet appears
                whole: if there is none afterwards, there is no verdict.

Exit status: 0 all accepted, 1 some refused, 2 a file cannot be read or
written, 3 no verdict; of several the worst.";

const RUN: &str = "\
lorvisk run: what does an accepted trace leave behind?

Usage:
  lorvisk run --global FILE --shared FILE --loads FILE --results FOLDER
              [--sheet OUT] TRACE

Runs TRACE over copies of the two memories and of the load record; the files
themselves are not changed. TRACE may be '-', standard input.

  --global FILE      global memory, of the length that the trace says
  --shared FILE      shared memory, likewise
  --loads FILE       the load record: its length is its room, 65,536 at most
  --results FOLDER   put files 'global', 'shared' and 'loads' into FOLDER as the
                     run leaves them. Older results there are removed first;
                     the new ones appear together, and only if accepted.
  --sheet OUT        put the verdict sheet at OUT, as in 'lorvisk judge'

Exit status: 0 accepted and run, 1 refused and nothing run, 2 a file cannot be
read or written, 3 no verdict.";

const EXPLAIN: &str = "\
lorvisk explain: why is a trace refused?

Usage:
  lorvisk explain FILE

Judges FILE and says what the answer is about. For a clash: both events, the
bytes that they share, and which wait would have closed the earlier one. For
another refusal: the field, and what is allowed there. The verdict is the
proved judge's, and so is the exit status; the explanation is found by the
second program, and says so if the two disagree.

Exit status: as for 'lorvisk judge'.";

const SHEET: &str = "\
lorvisk sheet: what does a verdict sheet say?

Usage:
  lorvisk sheet FILE

Reads a verdict sheet of 12 bytes. Anything else, shorter, longer or cut, is no
verdict.

Exit status: 0 the sheet says accepted, 1 it says refused, 2 it cannot be read,
3 no verdict.";
