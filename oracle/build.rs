//! Finds the originals and writes, into OUT_DIR only, what the crate root includes:
//! a `mod` line for each of the six files, derived copies of motion_search.rs and arnr.rs that count, one of
//! motion_search.rs that takes a version, and of arnr.rs one that takes caps, one that moves chroma by half samples, and
//! one of each of these two that asks U and V too whether a block is accepted.
//! VP8_SOURCES names their folder; a relative one, as the default, is seen from the repository's root.
//! Links the model's static library where MODEL_LIB names it, for the comparison and the benchmark.

use std::path::{Path, PathBuf};
use std::{env, fs};

const DEFAULT: &str = "../shared/docs/src/src";
const NAMES: [&str; 6] =
    ["motion_vector", "inverse_transform", "intra_predict", "motion_comp", "motion_search", "arnr"];

const DERIVED: [&str; 7] = [
    "counted_motion_search",
    "counted_arnr",
    "capped_arnr",
    "half_sample_arnr",
    "three_planes_arnr",
    "three_planes_half_sample_arnr",
    "versioned_motion_search",
];

fn main() {
    println!("cargo::rustc-check-cfg=cfg(sources_absent)");
    println!("cargo::rerun-if-env-changed=VP8_SOURCES");
    println!("cargo::rerun-if-changed=build.rs");
    link_model();
    let out = PathBuf::from(env::var("OUT_DIR").unwrap());
    let folder = folder();
    let missing: Vec<&str> = NAMES.into_iter().filter(|name| !file(&folder, name).is_file()).collect();
    for name in NAMES {
        println!("cargo::rerun-if-changed={}", file(&folder, name).display());
    }
    println!("cargo::rustc-env=ORACLE_SOURCES={}", folder.display());
    if missing.is_empty() {
        fs::write(out.join("sources.rs"), mod_lines(&folder, &out)).unwrap();
        fs::write(out.join("counted_motion_search.rs"), counted_search(&folder)).unwrap();
        fs::write(out.join("counted_arnr.rs"), counted_builder(&folder)).unwrap();
        fs::write(out.join("capped_arnr.rs"), capped_builder(&folder)).unwrap();
        fs::write(out.join("half_sample_arnr.rs"), half_sample_builder(&folder)).unwrap();
        fs::write(out.join("three_planes_arnr.rs"), three_planes_builder(&folder)).unwrap();
        fs::write(out.join("three_planes_half_sample_arnr.rs"), three_planes_half_sample_builder(&folder)).unwrap();
        fs::write(out.join("versioned_motion_search.rs"), versioned_search(&folder)).unwrap();
    } else {
        println!("cargo::rustc-cfg=sources_absent");
        println!("cargo::warning=no originals: {} is without {}.rs", folder.display(), missing.join(".rs, "));
    }
}

fn link_model() {
    println!("cargo::rustc-check-cfg=cfg(model)");
    println!("cargo::rerun-if-env-changed=MODEL_LIB");
    if let Ok(library) = env::var("MODEL_LIB") {
        println!("cargo::rerun-if-changed={library}");
        println!("cargo::rustc-link-arg={library}");
        println!("cargo::rustc-cfg=model");
    }
}

fn folder() -> PathBuf {
    let root = PathBuf::from(env::var("CARGO_MANIFEST_DIR").unwrap()).join("..");
    root.join(env::var("VP8_SOURCES").unwrap_or_else(|_| DEFAULT.to_string()))
}

fn file(folder: &Path, name: &str) -> PathBuf {
    folder.join(format!("{name}.rs"))
}

// The files themselves are compiled where they lie, unchanged.
fn mod_lines(folder: &Path, out: &Path) -> String {
    let line = |path: PathBuf, name: &str| {
        let path = fs::canonicalize(&path).unwrap_or(path);
        format!("#[allow(dead_code, unused_imports, clippy::all)]\n#[path = {path:?}]\npub mod {name};\n")
    };
    let mut lines: String = NAMES.into_iter().map(|name| line(file(folder, name), name)).collect();
    for name in DERIVED {
        lines += &line(file(out, name), name);
    }
    lines
}

// motion_search.rs with each SAD of the diamond and each round counted, and nothing else changed.
fn counted_search(folder: &Path) -> String {
    let text = fs::read_to_string(file(folder, "motion_search")).unwrap();
    let text = replaced(&text, "= mb_luma_sad_at_whole_mv(", "= counted_whole_sad(", 2);
    let round = "for _ in (0..max_iters).inspect(|_| crate::counts::note_round()) {";
    let text = replaced(&text, "for _ in 0..max_iters {", round, 1);
    text + "
fn counted_whole_sad(reference: LumaRef<'_>, mb_col: usize, mb_row: usize, src_y: &[u8; 256], mv: Mv) -> u32 {
    crate::counts::note_sad();
    mb_luma_sad_at_whole_mv(reference, mb_col, mb_row, src_y, mv)
}
"
}

// arnr.rs with each accepted block counted and each plane's sums and total weights kept, and nothing else changed.
fn counted_builder(folder: &Path) -> String {
    let text = fs::read_to_string(file(folder, "arnr")).unwrap();
    let call = "                accumulate_luma_block(\n";
    let text = replaced(&text, call, &format!("                crate::counts::note_block();\n{call}"), 1);
    let head = "fn resolve_plane(plane: &mut [u8], acc: &[u32], wsum: &[u32]) {\n";
    replaced(&text, head, &format!("{head}    crate::counts::note_plane(acc, wsum);\n"), 1)
}

// The counted arnr.rs with a cap for each frame as the last parameter of the builder: the frame's weight table is cut at
// its cap before its blocks are accumulated, and nothing else is changed.
fn capped_builder(folder: &Path) -> String {
    let last = "    cfg: &ArnrConfig,\n";
    let text = replaced(&counted_builder(folder), last, &format!("{last}    caps: &[u32],\n"), 1);
    let skip = "        if fi == center {\n            continue;\n        }\n";
    let cut = "        let wt_table = wt_table.map(|weight| weight.min(caps[fi]));\n";
    replaced(&text, skip, &format!("{skip}{cut}"), 1)
}

// The capped arnr.rs in which U and V of an accepted block are first replaced by what motion_comp.rs predicts at the
// block's displacement, and then accumulated with displacement 0. The displacement is kept; nothing else is changed.
fn half_sample_builder(folder: &Path) -> String {
    let halved = "let (cmvx, cmvy) = (mvx / 2, mvy / 2);\n";
    let kept = "let (cmvx, cmvy) = (0, 0);\n                crate::halves::note_shift((mvx, mvy));\n";
    let text = replaced(&capped_builder(folder), halved, kept, 1);
    let call = "                    accumulate_chroma_block(\n";
    let moved = "crate::halves::with_block_moved((fp, f.uv_stride), (cw, ch), (cbx, cby), (mvx, mvy))";
    let text = replaced(&text, call, &format!("                    let moved = {moved};\n{call}"), 1);
    replaced(&text, "(fp, f.uv_stride),\n", "(&moved, cw),\n", 1)
}

// The capped arnr.rs with one more test of a block, before its luma accumulation: over U and V as the accumulation will
// read them, at half the displacement toward zero.
fn three_planes_builder(folder: &Path) -> String {
    asking_chroma(&capped_builder(folder), "(fp, f.uv_stride)", "(mvx / 2, mvy / 2)")
}

// The arnr.rs with half samples with the same test, over what motion_comp.rs predicts.
fn three_planes_half_sample_builder(folder: &Path) -> String {
    let moved = "crate::halves::with_block_moved((fp, f.uv_stride), (cw, ch), (bx / 2, by / 2), (mvx, mvy))";
    asking_chroma(&half_sample_builder(folder), &format!("(&{moved}, cw)"), "(0, 0)")
}

// A block whose U or V is excluded is passed over as the original passes over one whose Y is, and noted. A plane is
// excluded by the original's own test of Y, over samples that its `pel` fetches.
fn asking_chroma(text: &str, displaced: &str, shift: &str) -> String {
    let accumulation = "                // Luma accumulation.\n";
    let test = format!(
        "                let excluded = |ctr_plane: &[u8], fp: &[u8]| {{
                    let chroma = (bx / 2, by / 2, bw.div_ceil(2), bh.div_ceil(2));
                    chroma_excluded(ctr_plane, {displaced}, (cw, ch), chroma, {shift})
                }};
                if excluded(&out.u, f.u) || excluded(&out.v, f.v) {{
                    crate::three::note_excluded();
                    bx += 16;
                    continue;
                }}
"
    );
    replaced(text, accumulation, &(test + accumulation), 1)
        + "
fn chroma_excluded(
    ctr_plane: &[u8],
    (f_plane, f_stride): (&[u8], usize),
    (cw, ch): (usize, usize),
    (cbx, cby, cbw, cbh): (usize, usize, usize, usize),
    (cmvx, cmvy): (i32, i32),
) -> bool {
    let mut sad = 0u32;
    for (xx, yy) in (0..cbw * cbh).map(|i| (cbx + i % cbw, cby + i / cbw)) {
        let ref_px = pel(f_plane, f_stride, cw as i32, ch as i32, xx as i32 + cmvx, yy as i32 + cmvy);
        sad += (ctr_plane[yy * cw + xx] as i32 - ref_px as i32).unsigned_abs();
    }
    sad / (cbw * cbh) as u32 > BLOCK_SAD_PER_PIXEL_CUTOFF
}
"
}

// motion_search.rs with a version as the last parameter of the SAD at any vector and of both refinements, handed on to
// where the filter set is chosen, and nothing else changed.
fn versioned_search(folder: &Path) -> String {
    let text = fs::read_to_string(file(folder, "motion_search")).unwrap();
    let text = replaced(&text, "filter_set_for_version(0).taps()", "filter_set_for_version(version).taps()", 1);
    let (before, sad) = text.split_once("pub fn mb_luma_sad_at_mv(").expect("the SAD at any vector");
    let sad = sad.replacen(" mv: Mv,\n)", " mv: Mv,\n    version: u8,\n)", 1);
    let mut text = format!("{before}pub fn mb_luma_sad_at_mv({sad}");
    for center in ["whole_pixel_center", "half_pixel_center"] {
        let last = format!("    {center}: Mv,\n");
        text = replaced(&text, &last, &format!("{last}    version: u8,\n"), 1);
    }
    for mv in ["best_mv", "cand_mv"] {
        let call = format!("= mb_luma_sad_at_mv(reference, mb_col, mb_row, src_y, {mv}");
        text = replaced(&text, &format!("{call})"), &format!("{call}, version)"), 2);
    }
    text
}

fn replaced(text: &str, old: &str, new: &str, times: usize) -> String {
    let found = text.matches(old).count();
    assert!(found == times, "'{old}' stands {found} times, expected {times}");
    text.replace(old, new)
}
