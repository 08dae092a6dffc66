//! Finds the archive that `bindings/rust/test` makes of crate `replay_core_c`, and says what to do where it can't be linked;
//! takes the numbers' texts from `docs/NUMBERS.md`.

use std::env;
use std::fs;
use std::path::{Path, PathBuf};

fn main() {
    println!("cargo::rerun-if-env-changed=SLACK_LIB_DIR");
    match archive_dir() {
        Ok(dir) => {
            println!("cargo::rustc-link-search=native={}", dir.display());
            println!("cargo::rustc-link-lib=static=replay_core");
        }
        Err(why) => println!("cargo::error={why}"),
    }
    if let Err(why) = write_numbers() {
        println!("cargo::error={why}");
    }
}

/// The folder of `libreplay_core.a`: `SLACK_LIB_DIR`, else `target/staticlib` of the repository.
fn archive_dir() -> Result<PathBuf, String> {
    let target = env::var("TARGET").expect("cargo names the target");
    if !(target.starts_with("x86_64-") && target.contains("-linux-")) {
        return Err(format!(
            "the archive is machine code for x86-64 Linux, and this build is for {target}: build for \
             x86_64-unknown-linux-gnu"
        ));
    }
    let dir = match env::var_os("SLACK_LIB_DIR") {
        Some(dir) => PathBuf::from(dir),
        None => Path::new(env!("CARGO_MANIFEST_DIR")).join("../../target/staticlib"),
    };
    let archive = dir.join("libreplay_core.a");
    println!("cargo::rerun-if-changed={}", archive.display());
    if !archive.is_file() {
        return Err(format!(
            "there is no {}: run bindings/rust/test in the repository, which makes it, or name the archive's folder by SLACK_LIB_DIR",
            archive.display()
        ));
    }
    Ok(dir)
}

/// Writes the table's rows as a list: number, meaning, what to do, in the order of their numbers.
fn write_numbers() -> Result<(), String> {
    let page = Path::new(env!("CARGO_MANIFEST_DIR")).join("../../docs/NUMBERS.md");
    println!("cargo::rerun-if-changed={}", page.display());
    let text = fs::read_to_string(&page).map_err(|why| format!("{}: {why}", page.display()))?;
    let rows: Vec<_> = text.lines().filter_map(row).collect();
    let rising = rows.windows(2).all(|two| two[0].0 < two[1].0);
    if rows.first().is_none_or(|row| row.0 != 0) || !rising {
        return Err(format!(
            "{} doesn't have a row for each number, rising from 0",
            page.display()
        ));
    }
    let out = Path::new(&env::var_os("OUT_DIR").expect("cargo names a folder")).join("numbers.rs");
    fs::write(&out, format!("&{rows:?}")).map_err(|why| format!("{}: {why}", out.display()))
}

/// A row `| number | meaning | what to do |` of the page's table.
fn row(line: &str) -> Option<(u8, &str, &str)> {
    let cells: Vec<_> = line
        .strip_prefix('|')?
        .strip_suffix('|')?
        .split('|')
        .map(str::trim)
        .collect();
    let &[number, meaning, advice] = cells.as_slice() else {
        return None;
    };
    Some((number.parse().ok()?, meaning, advice))
}
