//! A second program for the house, written from its meaning alone: it makes random scripts and checks what is printed for them.

mod alone;
mod check;
mod house;
mod make;
mod plan;
mod run;
mod script;
#[cfg(test)]
mod tests;
mod text;
mod wire;

use std::io::{self, BufRead, BufWriter, Write};
use std::process::ExitCode;
use std::{env, fs, thread};

const USAGE: &str = "reference make SEED [--no-tell] [--calm | --many]
reference check SCRIPT OUTPUT [--no-tell]
reference run SCRIPT [--no-tell] [--fall SEED]
reference plan < PLANS
reference bench";
/// Texts nest deeply.
const STACK: usize = 1 << 29;

fn print_lines(lines: impl IntoIterator<Item = impl AsRef<[u8]>>) -> io::Result<()> {
    let mut out = BufWriter::new(io::stdout().lock());
    for line in lines {
        out.write_all(line.as_ref())?;
        out.write_all(b"\n")?;
    }
    out.flush()
}

fn read_file(path: &str) -> Result<Vec<u8>, String> {
    fs::read(path).map_err(|e| format!("{path}: {e}"))
}

fn read_script(path: &str) -> Result<Vec<script::Numbered>, String> {
    script::read_script(&String::from_utf8_lossy(&read_file(path)?))
}

fn split_lines(bytes: &[u8]) -> Vec<Vec<u8>> {
    let mut lines: Vec<Vec<u8>> = bytes.split(|b| *b == b'\n').map(<[u8]>::to_vec).collect();
    lines.pop_if(|last| last.is_empty());
    lines
}

/// Takes an option out of the arguments.
fn flag(args: &mut Vec<String>, name: &str) -> bool {
    let before = args.len();
    args.retain(|a| a != name);
    args.len() < before
}

/// What to exit with; an error is of use or of files.
fn act(mut args: Vec<String>) -> Result<u8, String> {
    let no_tell = flag(&mut args, "--no-tell");
    let calm = flag(&mut args, "--calm");
    let many = flag(&mut args, "--many");
    let args: Vec<&str> = args.iter().map(String::as_str).collect();
    let written = match args[..] {
        ["make", seed] => {
            let seed = seed.parse().map_err(|_| USAGE)?;
            print_lines(if many { make::make_many(seed) } else { make::make(seed, no_tell, calm) })
        }
        ["check", path, output] => {
            let printed = split_lines(&read_file(output)?);
            if let Err(difference) = check::check(read_script(path)?, &printed, no_tell) {
                println!("{difference}");
                return Ok(1);
            }
            Ok(())
        }
        ["run", path] => print_lines(run::run(read_script(path)?, no_tell, None)?),
        ["run", path, "--fall", seed] => {
            let seed = seed.parse().map_err(|_| USAGE)?;
            print_lines(run::run(read_script(path)?, no_tell, Some(seed))?)
        }
        ["plan"] => print_lines(io::stdin().lock().lines().map_while(Result::ok).map(|line| alone::plan_line(&line))),
        ["bench"] => {
            alone::bench();
            Ok(())
        }
        _ => return Err(USAGE.into()),
    };
    written.map(|()| 0).map_err(|e| e.to_string())
}

fn main() -> ExitCode {
    let args = env::args().skip(1).collect();
    let acting = thread::Builder::new().stack_size(STACK).spawn(move || act(args)).expect("a thread");
    match acting.join() {
        Ok(Ok(code)) => ExitCode::from(code),
        Ok(Err(why)) => {
            eprintln!("{why}");
            ExitCode::from(2)
        }
        Err(_) => ExitCode::from(3),
    }
}
