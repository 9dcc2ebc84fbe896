//! Builds the official C code of BLAKE3 where Debian's librust-blake3-dev is installed, each of its
//! builds behind one function of its own.
use std::env;
use std::path::{Path, PathBuf};
use std::process::Command;

/// A build of the official code: its name, the files beside the common ones, and gcc's words.
const BUILDS: [(&str, &[&str], &[&str]); 5] = [
    ("portable", &[], &["-DBLAKE3_NO_SSE2", "-DBLAKE3_NO_SSE41", "-DBLAKE3_NO_AVX2", "-DBLAKE3_NO_AVX512"]),
    ("sse2", &["sse2"], &["-DBLAKE3_NO_SSE41", "-DBLAKE3_NO_AVX2", "-DBLAKE3_NO_AVX512"]),
    ("sse41", &["sse2", "sse41"], &["-DBLAKE3_NO_AVX2", "-DBLAKE3_NO_AVX512"]),
    ("avx2", &["sse2", "sse41", "avx2"], &["-DBLAKE3_NO_AVX512"]),
    ("avx512", &["sse2", "sse41", "avx2", "avx512"], &[]),
];

fn main() {
    let here = PathBuf::from(env::var("CARGO_MANIFEST_DIR").unwrap());
    println!("cargo:rerun-if-changed=official/wrapper.c");
    println!("cargo:rustc-check-cfg=cfg(official)");
    if let Some(source) = official_source() {
        let out = PathBuf::from(env::var("OUT_DIR").unwrap());
        if build_official(&source, &here.join("official/wrapper.c"), &out) {
            println!("cargo:rustc-cfg=official");
            println!("cargo:rustc-link-search=native={}", out.display());
            println!("cargo:rustc-link-lib=static=official");
        }
    }
}

/// The folder of the official C code, as the package manager lists it.
fn official_source() -> Option<PathBuf> {
    let listed = Command::new("dpkg").args(["-L", "librust-blake3-dev"]).output().ok()?;
    let text = String::from_utf8(listed.stdout).ok()?;
    let file = text.lines().find(|l| l.ends_with("/c/blake3_portable.c"))?;
    Some(Path::new(file).parent()?.to_path_buf())
}

/// One object for each build, in one archive.
fn build_official(source: &Path, wrapper: &Path, out: &Path) -> bool {
    let mut whole = Vec::new();
    for (name, parts, words) in BUILDS {
        let Some(objects) = compile(name, parts, words, source, out) else {
            return false;
        };
        let entry = format!("official_{name}");
        let shim = out.join(format!("{name}_wrapper.o"));
        let named = format!("-DENTRY={entry}");
        let joined = out.join(format!("{entry}.o"));
        let keep = format!("--keep-global-symbol={entry}");
        // Only the function `official_NAME` can be seen from outside, so that the builds do not clash.
        if !ran(gcc(words).arg(named).arg("-I").arg(source).arg("-o").arg(&shim).arg(wrapper))
            || !ran(Command::new("ld").arg("-r").arg("-o").arg(&joined).args(&objects).arg(&shim))
            || !ran(Command::new("objcopy").arg(keep).arg(&joined))
        {
            return false;
        }
        whole.push(joined);
    }
    let archive = out.join("libofficial.a");
    let _ = std::fs::remove_file(&archive);
    ran(Command::new("ar").arg("crs").arg(archive).args(&whole))
}

/// The objects of one build.
fn compile(name: &str, parts: &[&str], words: &[&str], source: &Path, out: &Path) -> Option<Vec<PathBuf>> {
    let common = ["blake3", "blake3_dispatch", "blake3_portable"].map(String::from);
    let special = parts.iter().map(|p| format!("blake3_{p}"));
    let mut objects = Vec::new();
    for file in common.into_iter().chain(special) {
        let object = out.join(format!("{name}_{file}.o"));
        let mut gcc = gcc(words);
        match file.as_str() {
            "blake3_sse2" => gcc.arg("-msse2"),
            "blake3_sse41" => gcc.arg("-msse4.1"),
            "blake3_avx2" => gcc.arg("-mavx2"),
            "blake3_avx512" => gcc.args(["-mavx512f", "-mavx512vl"]),
            _ => &mut gcc,
        };
        if !ran(gcc.arg("-o").arg(&object).arg(source.join(file + ".c"))) {
            return None;
        }
        objects.push(object);
    }
    Some(objects)
}

fn gcc(words: &[&str]) -> Command {
    let mut gcc = Command::new("gcc");
    gcc.args(["-O3", "-fPIC", "-c"]).args(words);
    gcc
}

fn ran(command: &mut Command) -> bool {
    command.status().is_ok_and(|s| s.success())
}
