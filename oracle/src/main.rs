//! Compiles the Rust originals unchanged, writes their answers for the replay programs, and runs the model beside them.
//!
//!     oracle answers NAME OUTDIR
//!     oracle compare [--inputs N] [--seed S] [--index I] [--quick]
//!     oracle cells [--quick]
//!     oracle shares
//!     oracle large
//!     oracle bench CLIP
//!
//! NAME is prediction, search, arnr or picture; OUTDIR gets the folder data/ and the file stdout of the crate replay_NAME.
//! CLIP is the host's sample clip.
//! Exit status: 0 done; 1 the comparison found a difference, or a law of the shares does not hold; 2 bad usage; 3 the
//! originals, or for compare, cells, large and bench the model's library, are not there and nothing was done; 101 an
//! answer of the originals is not document 01's, or they panicked.
#![cfg_attr(feature = "simd", feature(portable_simd))]

#[cfg(not(sources_absent))]
include!(concat!(env!("OUT_DIR"), "/sources.rs"));

#[cfg(all(model, not(sources_absent)))]
mod bench;
#[cfg(not(sources_absent))]
mod caps;
#[cfg(all(model, not(sources_absent)))]
mod cells;
#[cfg(all(model, not(sources_absent)))]
mod compare;
#[cfg(not(sources_absent))]
mod counts;
#[cfg(not(sources_absent))]
mod denoiser;
#[cfg(not(sources_absent))]
mod halves;
#[cfg(all(model, not(sources_absent)))]
mod large;
#[cfg(all(model, not(sources_absent)))]
mod model;
#[cfg(not(sources_absent))]
mod paper;
#[cfg(not(sources_absent))]
mod picture;
#[cfg(not(sources_absent))]
mod pictures;
#[cfg(not(sources_absent))]
mod prediction;
#[cfg(not(sources_absent))]
mod random;
#[cfg(not(sources_absent))]
mod records;
#[cfg(not(sources_absent))]
mod refusals;
#[cfg(all(model, not(sources_absent)))]
mod rows;
#[cfg(not(sources_absent))]
mod search;
#[cfg(not(sources_absent))]
mod shares;
#[cfg(not(sources_absent))]
mod three;
#[cfg(not(sources_absent))]
mod versions;

// What the originals import under `crate::`.
#[cfg(not(sources_absent))]
#[path = "shims"]
mod shims {
    pub mod bool_decoder;
    pub mod coded_header;
    pub mod encoder;
    pub mod macroblock;
    pub mod reconstruct;
}
#[cfg(not(sources_absent))]
use shims::{bool_decoder, coded_header, encoder, macroblock, reconstruct};

use std::path::Path;
use std::process::exit;

fn main() {
    let words: Vec<String> = std::env::args().skip(1).collect();
    let words: Vec<&str> = words.iter().map(String::as_str).collect();
    match words[..] {
        ["answers", name, folder] => match answers(name, Path::new(folder)) {
            Some(Ok(())) => {}
            Some(Err(e)) => usage(&format!("{folder}: {e}")),
            None => usage(&format!("no answers are named {name}")),
        },
        ["compare", ..] => match compare(&words[1..]) {
            Some(same) => exit(if same { 0 } else { 1 }),
            None => usage("usage: oracle compare [--inputs N] [--seed S] [--index I] [--quick]"),
        },
        ["cells", ..] => match cells(&words[1..]) {
            Some(same) => exit(if same { 0 } else { 1 }),
            None => usage("usage: oracle cells [--quick]"),
        },
        ["shares"] => exit(if shares() { 0 } else { 1 }),
        ["large"] => exit(if large() { 0 } else { 1 }),
        ["bench", clip] => bench(Path::new(clip)),
        _ => usage("usage: oracle answers NAME OUTDIR, or oracle compare, cells, shares, large or bench CLIP"),
    }
}

fn usage(said: &str) -> ! {
    eprintln!("oracle: {said}");
    exit(2)
}

#[cfg(not(sources_absent))]
fn answers(name: &str, folder: &Path) -> Option<std::io::Result<()>> {
    match name {
        "prediction" => Some(prediction::write(folder)),
        "search" => Some(search::write(folder)),
        "arnr" => Some(denoiser::write(folder)),
        "picture" => Some(picture::write(folder)),
        _ => None,
    }
}

#[cfg(sources_absent)]
fn answers(name: &str, _folder: &Path) -> Option<std::io::Result<()>> {
    eprintln!("oracle: skipped: the answers for {name}. The Rust originals are not in {}", env!("ORACLE_SOURCES"));
    eprintln!("oracle: set VP8_SOURCES to their folder and build again; the stored answers stay as they are");
    exit(3)
}

#[cfg(not(sources_absent))]
fn shares() -> bool {
    shares::run()
}

#[cfg(sources_absent)]
fn shares() -> bool {
    without_model()
}

#[cfg(all(model, not(sources_absent)))]
fn compare(words: &[&str]) -> Option<bool> {
    compare::run(words)
}

#[cfg(all(model, not(sources_absent)))]
fn cells(words: &[&str]) -> Option<bool> {
    cells::run(words)
}

#[cfg(all(model, not(sources_absent)))]
fn large() -> bool {
    large::run()
}

#[cfg(all(model, not(sources_absent)))]
fn bench(clip: &Path) {
    match std::fs::read(clip) {
        Ok(bytes) => bench::run(&bytes),
        Err(e) => usage(&format!("{}: {e}", clip.display())),
    }
}

#[cfg(not(all(model, not(sources_absent))))]
fn bench(_clip: &Path) {
    without_model()
}

#[cfg(not(all(model, not(sources_absent))))]
fn compare(_words: &[&str]) -> Option<bool> {
    without_model()
}

#[cfg(not(all(model, not(sources_absent))))]
fn cells(_words: &[&str]) -> Option<bool> {
    without_model()
}

#[cfg(not(all(model, not(sources_absent))))]
fn large() -> bool {
    without_model()
}

#[cfg(not(all(model, not(sources_absent))))]
fn without_model() -> ! {
    eprintln!("oracle: skipped: built without the model's library or without the Rust originals");
    eprintln!("oracle: set MODEL_LIB to libmodel.a and VP8_SOURCES to the originals' folder, and build again");
    exit(3)
}
