//! What the original Rust answers: a job file on standard input and the
//! driver's lines on standard output, or with `--text` one job a line and one
//! answer a line.

use std::io::{self, BufRead, Read, Write};

use host::{driver, text};
use stack_scheduling::original;

fn main() -> io::Result<()> {
    let arguments: Vec<String> = std::env::args().skip(1).collect();
    match arguments.iter().map(String::as_str).collect::<Vec<_>>()[..] {
        [] => answer_file(),
        ["--text"] => answer_lines(),
        _ => {
            eprintln!("usage: answer [--text] < jobs");
            std::process::exit(2);
        }
    }
}

fn answer_file() -> io::Result<()> {
    let mut bytes = Vec::new();
    io::stdin().lock().take(driver::LONGEST as u64 + 1).read_to_end(&mut bytes)?;
    let out = match driver::parse(&bytes) {
        None => driver::print_malformed(),
        Some(mut job) => {
            let answer = original::shuffle(&mut job);
            driver::print(&job, &answer)
        }
    };
    io::stdout().write_all(out.as_bytes())
}

fn answer_lines() -> io::Result<()> {
    for line in io::stdin().lock().lines() {
        let line = line?;
        if line.trim().is_empty() || line.starts_with('#') {
            println!("{line}");
            continue;
        }
        match text::parse(&line) {
            Err(reason) => println!("not a job ({reason}): {line}"),
            Ok(mut job) => {
                let asked = text::job(&job);
                let answer = original::shuffle(&mut job);
                println!("{asked}\n    {}", text::answer(&job, &answer));
            }
        }
    }
    Ok(())
}
