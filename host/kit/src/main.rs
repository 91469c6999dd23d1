//! `kit FOLDER` writes the vectors as a file of C, and the table of the clauses that they cover.

use std::path::PathBuf;
use std::process::ExitCode;
use std::{env, fs};

fn main() -> ExitCode {
    let Some(folder) = env::args_os().nth(1).map(PathBuf::from) else {
        eprintln!("kit FOLDER");
        return ExitCode::from(2);
    };
    let vectors = kit::vectors();
    let version = env!("CARGO_PKG_VERSION");
    let written = fs::create_dir_all(&folder)
        .and_then(|()| fs::write(folder.join("vectors.c"), kit::c_file(&vectors, version)))
        .and_then(|()| fs::write(folder.join("COVERAGE.md"), kit::coverage(&vectors, version)));
    if let Err(error) = written {
        eprintln!("kit: {}: {error}", folder.display());
        return ExitCode::FAILURE;
    }
    println!("{} vectors, {} bytes", vectors.len(), kit::packed(&vectors).len());
    ExitCode::SUCCESS
}
