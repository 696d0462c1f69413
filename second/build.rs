//! With the feature `library`: has cargo link the archive that the environment
//! variable OFFICE_LIBRARY names. Without it there is nothing to do.

use std::env;
use std::path::{Path, PathBuf};

const VARIABLE: &str = "OFFICE_LIBRARY";

/// The archive's folder and file name, or what is wrong.
fn archive() -> Result<(PathBuf, String), String> {
    let named = env::var_os(VARIABLE).filter(|path| !path.is_empty());
    let Some(named) = named else {
        return Err(format!(
            "the feature `library` needs {VARIABLE}, the path of liboffice.a: \
             the last line that ./library prints, at the root of the repository"
        ));
    };
    let path = Path::new(&named)
        .canonicalize()
        .map_err(|error| format!("{VARIABLE} is {}: {error}", Path::new(&named).display()))?;
    let name = path.file_name().and_then(|name| name.to_str());
    match (path.parent(), name) {
        (Some(folder), Some(name)) if path.is_file() => Ok((folder.into(), name.into())),
        _ => Err(format!("{VARIABLE} is {}: not a file", path.display())),
    }
}

fn main() {
    println!("cargo::rerun-if-changed=build.rs");
    if env::var_os("CARGO_FEATURE_LIBRARY").is_none() {
        return;
    }
    println!("cargo::rerun-if-env-changed={VARIABLE}");
    match archive() {
        Ok((folder, name)) => {
            println!("cargo::rerun-if-changed={}", folder.join(&name).display());
            println!("cargo::rustc-link-search=native={}", folder.display());
            println!("cargo::rustc-link-lib=static:+verbatim={name}");
        }
        Err(wrong) => println!("cargo::error={wrong}"),
    }
}
