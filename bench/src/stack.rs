//! How much stack the proved reader uses on the sources that are nested as deep as may be.

use std::process::{Command, Stdio};
use std::{env, io, thread};

use crate::boundary;
use crate::reader::read;

/// The stack of the thread that reads is a multiple of this.
const STEP: usize = 1024;

/// More than enough.
const MOST: usize = 1 << 20;

/// Sources whose types, terms and comments stand inside as many others as may be, and one more.
fn sources() -> Vec<Vec<u8>> {
    let nested = |n: usize| {
        let text = [
            format!("{}x{};", "{".repeat(n), "}".repeat(n)),
            format!(":{}Top{};", "{".repeat(n), "}".repeat(n)),
            format!(":{}Top;", "All(X)".repeat(n)),
            format!(":{}Top{};", "All(X<:".repeat(n), ")Top".repeat(n)),
            format!(":{}Top;", "Rec(X)".repeat(n)),
            format!(":Top{};", "->Top".repeat(n)),
            format!("{}top;", "fun(x:Top)".repeat(n)),
            format!("{}top;", "fun(X)".repeat(n)),
            format!("{}top;", "rec(x:Top)".repeat(n)),
            format!("{}top{};", "fold(:Top)(".repeat(n), ")".repeat(n)),
            format!("{}top{};", "unfold(".repeat(n), ")".repeat(n)),
            format!("{}top{};", "top(".repeat(n), ")".repeat(n)),
            format!("top(:{}Top{});", "All(X<:".repeat(n - 1), ")Top".repeat(n - 1)),
            // Names that no binder around has: each is looked up in all of them.
            format!(":{}Y;", "All(X)".repeat(n)),
            format!("{}y;", "fun(x:Top)".repeat(n)),
            format!("{}y;", "rec(x:Top)".repeat(n)),
            format!("{}x(:Y);", "fun(X)".repeat(n - 1)),
            format!("{}{}top;", "(*".repeat(n), "*)".repeat(n)),
        ];
        // A comment as deep as may be at the deepest place.
        let comment = format!("{}{}", "(*".repeat(n), "*)".repeat(n));
        let inside = text.iter().map(|text| {
            text.replace("top", &format!("{comment}top")).replace("Top", &format!("{comment}Top"))
        });
        text.iter().cloned().chain(inside).map(String::into_bytes).collect::<Vec<_>>()
    };
    [127, 128, 129].into_iter().flat_map(nested).filter(|source| source.len() <= 65_535).collect()
}

/// Prints the least stack, in steps, on which all of the sources are read.
pub fn stack() -> io::Result<()> {
    let (mut low, mut high) = (0, MOST / STEP);
    while high - low > 1 {
        let steps = low.midpoint(high);
        if reads_with(steps * STEP)? {
            high = steps;
        } else {
            low = steps;
        }
    }
    println!(
        "{} sources, nested as deep as may be: the proved reader needs a stack of {} KiB",
        sources().len(),
        high * STEP / 1024
    );
    Ok(())
}

/// Whether a process of its own reads them with so much stack.
fn reads_with(stack: usize) -> io::Result<bool> {
    let status = Command::new(env::current_exe()?)
        .args(["stack", &stack.to_string()])
        .stdout(Stdio::null())
        .stderr(Stdio::null())
        .status()?;
    Ok(status.success())
}

/// Reads them with so much stack, and ends the process if it does not do. True if the answers are those of the plain reader.
pub fn try_with(stack: usize) -> io::Result<bool> {
    // What is made outside of the call is made on another stack.
    let cases: Vec<_> = sources().into_iter().map(|source| (read(&source, &[], 1_000), source)).collect();
    for (plain, source) in cases {
        let thread =
            thread::Builder::new().stack_size(stack).spawn(move || boundary::read(&source, &[], 1_000))?;
        if thread
            .join()
            .ok()
            .flatten()
            .is_none_or(|proved| proved.number != plain.number || proved.place != plain.place)
        {
            return Ok(false);
        }
    }
    Ok(true)
}
