//! Denoises raw pictures and searches luma motion with the model's library. `vp8model --help` says how.

mod denoise;
mod failure;
mod files;
mod model;
mod names;
mod outputs;
mod planes;
mod progress;
mod say;
mod search;
mod vectors;
mod words;

use failure::Failure;
use say::note;
use std::process::ExitCode;

const HELP: &str = "\
vp8model: a proved model of a VP8 encoder's picture pre-filter and luma motion search

  vp8model denoise --width W --height H --strength S --centre C [--caps C0,C1,..] [--chroma whole|half]
                   [--planes luma|three] [--sums FILE] [--weights FILE] IN.i420 OUT.i420

    Reads raw I420 frames (Y, U, V, packed, 8 bits; chroma is half of each side, rounded up), as many as the file's
    length gives, and writes frame C (counted from 0) with the others blended in, packed. Strength 0 writes the
    centre as it is; 7 to 255 are read as 6. --sums and --weights get the sums and the total weights of the samples,
    in the same order, as 32-bit numbers, least byte first; where the centre is only written as it is (one frame, or
    strength 0) they get nothing. Sides are 1 to 16383 and frames at most 1024. A plane's start is a 32-bit number:
    where one lies 4 GiB or more into the file, that is an error of the file (status 2), before any frame is read.
    --caps has a number for each frame of the file, with commas between: its cap, the most that the frame may weigh in
    a sample, where the centre weighs 16. A frame with cap 0 has no part in the picture. The centre's cap is not used.
    Without --caps every cap is 16, which bounds no weight; the model refuses 17 to 4294967295.
    --chroma says how a block's displacement, which is found in Y, is halved for U and V: toward zero to whole samples
    (whole, the default), or with half samples where it is odd, as in RFC 6386 (half). Where --planes is not three, it
    changes nothing in Y.
    --planes says on which planes a frame's block is accepted, as one that is like the centre's: on Y alone (luma, the
    default), or on Y, U and V, each of which must pass, so that a block whose colour alone changes has no part in the
    picture (three).

  vp8model search --width W --height H [--limit N] [--bitstream V] REFERENCE.y SOURCE.y

    Reads two luma planes and prints a line for each macroblock of the source: its column and row, then the diamond's
    vector, SAD, SADs computed and rounds made, then vector and SAD after half and after quarter refinement. Vectors
    are rows and columns in quarter pixels. The diamond begins at (0, 0) and makes at most N rounds (default
    4294967295). Both refinements predict by the filters of bitstream version V: six-tap for 0 (the default), bilinear
    for 1 and 2; the model refuses 3 to 255. Macroblocks past the right and bottom edge repeat the source's edge
    samples, as the reference does.

  vp8model vectors --width W --height H [--limit N | --allowance T] [--bitstream V] REFERENCE.y SOURCE.y

    Reads the same two planes and searches all macroblocks in one call of the model. Prints a line for each, row by
    row: its column and row, then vector and SAD after quarter refinement, the last three numbers of `search`. A file
    that is too short is refused by the model, one that is too long is an error. With --allowance the model makes at
    most T comparisons (SADs computed) for all macroblocks together: each is granted what remains, divided by the
    macroblocks left, and its diamond makes as many rounds as that allows. A last line, `comparisons C of T`, says how
    many were made. T is 0 to 4294967295; the model refuses one below 19 times the number of macroblocks.

  vp8model --help       prints this
  vp8model --version    prints the commit that the program was built from and what `rt version` said then

Each output must be a file of its own. One that is an input or another output, by whatever name or link, is an error
before anything is read; only a character device, as /dev/null, may be given for several. Outputs are written beside
their names and renamed when all are whole: a refusal or a failed write leaves what stood there. /dev/stdout, a device
or a pipe is written as it stands.

Exit status: 0 done, or the reader of the output closed it; 1 the model refuses, with the refusal's number and line;
2 the words, a file or memory.
";

// The lines that host/identity wrote when host/build built this; cargo alone does not know them.
const VERSION: &str = match option_env!("VP8MODEL_IDENTITY") {
    Some(lines) => lines,
    None => "vp8model, commit unknown\nrt version: unknown",
};

fn main() -> ExitCode {
    let words = std::env::args_os().skip(1).map(|word| word.into_string());
    let words = words.collect::<Result<Vec<String>, _>>();
    match words.map_err(|word| Failure::Usage(format!("{word:?} is not UTF-8"))).and_then(|words| run(&words)) {
        Ok(()) => ExitCode::SUCCESS,
        Err(failure) => {
            if let Some(said) = failure.said() {
                note(&format!("vp8model: {said}"));
            }
            if let Failure::Usage(_) = failure {
                note("vp8model: see vp8model --help");
            }
            ExitCode::from(failure.status())
        }
    }
}

fn run(words: &[String]) -> Result<(), Failure> {
    let asked = |option: &str| words.iter().any(|word| word == option);
    if asked("--help") {
        return say::text(HELP);
    }
    if asked("--version") {
        return say::text(&format!("{VERSION}\n"));
    }
    match words.first().map(String::as_str) {
        Some("denoise") => denoise::run(&words[1..]),
        Some("search") => search::run(&words[1..]),
        Some("vectors") => vectors::run(&words[1..]),
        Some(other) => Err(Failure::Usage(format!("no command {other}: expected denoise, search or vectors"))),
        None => Err(Failure::Usage("expected a command, denoise, search or vectors".to_string())),
    }
}
