//! Finds and compiles what is not the harness's own: the original in three copies, the C library,
//! and the crate memchr. What is not there is left out, and the programs say so.

use std::env;
use std::error::Error;
use std::fs;
use std::path::{Path, PathBuf};
use std::process::Command;

type Done = Result<(), Box<dyn Error>>;

/// The places of the original that counted.sed changes: 4 rounds (2 of them in tests that are not
/// compiled), step 2, 2 fingerprint tests, 4 comparisons, 2 scans.
const COUNTED_PLACES: usize = 13;

/// What only a nightly compiler takes of the original, and what stands there for the copy that has
/// its feature `pattern`.
const NIGHTLY: [(&str, &str); 2] = [
    ("#![cfg_attr(feature = \"pattern\", feature(pattern))]", ""),
    ("use std::str::pattern::{", "use pattern::{"),
];

/// Tells libFuzzer which branches run and what they compare.
const COVERAGE: [&str; 12] = [
    "-C",
    "codegen-units=1",
    "-C",
    "passes=sancov-module",
    "-C",
    "llvm-args=-sanitizer-coverage-level=4",
    "-C",
    "llvm-args=-sanitizer-coverage-inline-8bit-counters",
    "-C",
    "llvm-args=-sanitizer-coverage-pc-table",
    "-C",
    "llvm-args=-sanitizer-coverage-trace-compares",
];

/// The fast forms of the crate memchr, which its own build script asks for on x86-64.
const FAST: [&str; 10] = [
    "--cfg",
    "feature=\"std\"",
    "--cfg",
    "memchr_runtime_simd",
    "--cfg",
    "memchr_runtime_sse2",
    "--cfg",
    "memchr_runtime_sse42",
    "--cfg",
    "memchr_runtime_avx",
];

fn main() -> Done {
    println!("cargo::rustc-check-cfg=cfg(original, memchr_crate)");
    println!("cargo::rustc-link-search={}", out("").display());
    for name in ["probe.rs", "pattern.rs", "memchr.rs", "tally.rs", "counted.sed"] {
        println!("cargo::rerun-if-changed=src/{name}");
    }
    println!("cargo::rerun-if-changed=build.rs");
    if let Some(folder) = found("TWOWAY_SRC", "../../shared/docs/src", "original") {
        original(&folder)?;
    } else {
        println!("cargo::warning=the original is not at hand, so the model alone judges");
    }
    if asked_for("PORT") {
        c_library()?;
        if let Some(folder) =
            found("MEMCHR_SRC", "/usr/share/cargo/registry/memchr-2.5.0", "memchr_crate")
        {
            compile("memchr_crate", "2018", &folder.join("src/lib.rs"), &FAST)?;
        }
    }
    if asked_for("FUZZ") {
        println!("cargo::rustc-link-arg-bin=fuzz=-fsanitize=fuzzer");
    }
    Ok(())
}

fn asked_for(feature: &str) -> bool {
    env::var_os(format!("CARGO_FEATURE_{feature}")).is_some()
}

fn harness(name: &str) -> PathBuf {
    Path::new(env!("CARGO_MANIFEST_DIR")).join(name)
}

fn out(name: &str) -> PathBuf {
    PathBuf::from(env::var_os("OUT_DIR").expect("Cargo names a folder")).join(name)
}

/// The folder that the variable names, else the usual one, if it holds src/lib.rs. Then the
/// configuration `cfg` is set; otherwise the programs are told where it was looked for.
fn found(variable: &str, usual: &str, cfg: &str) -> Option<PathBuf> {
    println!("cargo::rerun-if-env-changed={variable}");
    let folder = env::var_os(variable).map_or_else(|| harness(usual), PathBuf::from);
    if folder.join("src/lib.rs").is_file() {
        println!("cargo::rerun-if-changed={}", folder.join("src").display());
        println!("cargo::rustc-cfg={cfg}");
        return Some(folder);
    }
    println!("cargo::rustc-env=NO_{variable}={}", folder.display());
    None
}

/// The copies of the original: its unchanged text with the probe behind it, the same with counters
/// in it, and one with its feature `pattern`.
fn original(folder: &Path) -> Done {
    compile("memchr", "2021", &harness("src/memchr.rs"), &[])?;
    compile("tally", "2021", &harness("src/tally.rs"), &[])?;
    let text = fs::read_to_string(folder.join("src/lib.rs"))?;
    let coverage: &[&str] = if asked_for("FUZZ") { &COVERAGE } else { &[] };
    copy("twoway", folder, &text, coverage)?;
    let mut sed = Command::new("sed");
    sed.arg("-f").arg(harness("src/counted.sed")).arg(folder.join("src/lib.rs"));
    let counted = said(&mut sed)? + "extern crate tally;\n";
    let places = counted.lines().filter(|line| line.contains("::tally::")).count();
    if places != COUNTED_PLACES {
        let changed = format!("counted.sed changed {places} places of the original");
        return Err(format!("{changed}, not {COUNTED_PLACES}").into());
    }
    let tally = format!("tally={}", out("libtally.rlib").display());
    copy("twoway_counted", folder, &counted, &["--extern", &tally])?;
    with_pattern(folder, text)
}

fn with_pattern(folder: &Path, mut text: String) -> Done {
    for (nightly, stands_in) in NIGHTLY {
        if text.matches(nightly).count() != 1 {
            return Err(format!("the original does not have once: {nightly}").into());
        }
        text = text.replace(nightly, stands_in);
    }
    text += &fs::read_to_string(harness("src/pattern.rs"))?;
    copy("twoway_pattern", folder, &text, &["--cfg", "feature=\"pattern\""])
}

/// Release behaviour is what counts: no overflow checks, no debug_assert.
fn copy(name: &str, folder: &Path, text: &str, words: &[&str]) -> Done {
    fs::create_dir_all(out(name))?;
    for file in fs::read_dir(folder.join("src"))? {
        let file = file?;
        fs::write(out(name).join(file.file_name()), fs::read(file.path())?)?;
    }
    let probe = fs::read_to_string(harness("src/probe.rs"))?;
    let root = out(name).join("lib.rs");
    fs::write(&root, format!("{text}\n{probe}"))?;
    let memchr = format!("memchr={}", out("libmemchr.rlib").display());
    compile(name, "2015", &root, &[words, &["--extern", &memchr]].concat())
}

/// Compiles a crate as it would be released. Functions start at multiples of 64: where a loop lies
/// in its cache lines would otherwise hang on what is linked before it, and with that its time, by
/// up to a factor of two.
fn compile(name: &str, edition: &str, root: &Path, words: &[&str]) -> Done {
    let mut rustc = Command::new(env::var_os("RUSTC").expect("Cargo names its compiler"));
    rustc.args(["--crate-type", "rlib", "--crate-name", name, "--edition", edition]);
    rustc.args(["-C", "opt-level=3", "-C", "llvm-args=-align-all-functions=6"]);
    rustc.args(["-C", "overflow-checks=off", "-C", "debug-assertions=off"]);
    rustc.args(["--cap-lints", "allow"]).args(words);
    said(rustc.arg("--out-dir").arg(out("")).arg(root)).map(|_| ())
}

/// The C library with its functions at multiples of 64 too.
fn c_library() -> Done {
    let archive = harness("../target/staticlib/libtwoway.a");
    if archive.is_file() {
        println!("cargo::rerun-if-changed={}", archive.display());
        let mut objcopy = Command::new("objcopy");
        objcopy.arg("--set-section-alignment").arg(".text*=64");
        said(objcopy.arg(archive).arg(out("libtwoway.a")))?;
    } else {
        println!("cargo::warning=no target/staticlib/libtwoway.a: `tools/library` writes it");
    }
    Ok(())
}

/// What a program prints; it must end with status 0.
fn said(command: &mut Command) -> Result<String, Box<dyn Error>> {
    let output = command.output().map_err(|error| format!("{command:?}: {error}"))?;
    if !output.status.success() {
        let why = String::from_utf8_lossy(&output.stderr);
        return Err(format!("{command:?}: {}\n{why}", output.status).into());
    }
    Ok(String::from_utf8(output.stdout)?)
}
