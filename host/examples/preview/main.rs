//! Shows what arrives first of an upload: squeezes a portable graymap or pixmap
//! with a version's default plan and writes the preview that its coarse averages give.
//!
//! `cargo run --release --example preview -- INPUT OUTPUT [FACTOR [VERSION]]`

mod coarse;
mod command;
mod pnm;

use std::process::ExitCode;

fn main() -> ExitCode {
    let words: Vec<String> = std::env::args().skip(1).collect();
    match command::run(&words) {
        Ok(text) => {
            println!("{text}");
            ExitCode::SUCCESS
        }
        Err(text) => {
            eprintln!("preview: {text}");
            ExitCode::FAILURE
        }
    }
}
