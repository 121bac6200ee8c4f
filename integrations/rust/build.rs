//! Finds the installed library by pkg-config. `PKG_CONFIG` names this program, and `PKG_CONFIG_PATH` its folders.

use std::env;
use std::process::{exit, Command};

fn main() {
    for name in ["PKG_CONFIG", "PKG_CONFIG_PATH"] {
        println!("cargo:rerun-if-env-changed={name}");
    }
    // of the system's folders --libs has none, and a static library is looked for only in folders that are named
    println!("cargo:rustc-link-search=native={}", ask(&["--print-errors", "--variable=libdir", "dia"]).trim());
    let is_static = env::var_os("CARGO_FEATURE_STATIC").is_some();
    let (package, kind) = if is_static { ("dia", "static=") } else { ("dia-breaking", "") };
    for library in ask(&["--libs-only-l", package]).split_whitespace().filter_map(|word| word.strip_prefix("-l")) {
        println!("cargo:rustc-link-lib={kind}{library}");
    }
}

/// What pkg-config writes.
fn ask(words: &[&str]) -> String {
    let program = env::var("PKG_CONFIG").unwrap_or_else(|_| "pkg-config".into());
    match Command::new(&program).args(words).output() {
        Ok(output) if output.status.success() => String::from_utf8_lossy(&output.stdout).into_owned(),
        Ok(output) => fail(&format!("{program} {}: {}", words.join(" "), String::from_utf8_lossy(&output.stderr))),
        Err(error) => fail(&format!("{program}: {error}")),
    }
}

fn fail(why: &str) -> ! {
    eprintln!("{}\nInstall libdia (docs/LIBRARY.md), and set PKG_CONFIG_PATH to its folder lib/pkgconfig.", why.trim_end());
    exit(1)
}
