//! Many plans one after another, each preceded by its length in two bytes.

use crate::answer::line_with_sweep;
use std::io::{self, ErrorKind, Read, Write};

/// Reads plan after plan and writes the line for each, until the input ends.
pub fn answer_many(input: &mut impl Read, output: &mut impl Write) -> io::Result<()> {
    let mut plan = Vec::new();
    while read_plan(input, &mut plan)? {
        writeln!(output, "{}", line_with_sweep(&crate::answer(&plan)))?;
    }
    Ok(())
}

/// Writes a plan after its length.
pub fn write_plan(output: &mut impl Write, plan: &[u8]) -> io::Result<()> {
    let length = u16::try_from(plan.len()).expect("a made plan is no longer than two bytes tell");
    output.write_all(&length.to_be_bytes())?;
    output.write_all(plan)
}

/// Reads the next plan, says whether there was one, and fails if it is cut short.
fn read_plan(input: &mut impl Read, plan: &mut Vec<u8>) -> io::Result<bool> {
    read_up_to(input, 2, plan)?;
    if plan.is_empty() {
        return Ok(false);
    }
    let length = match plan[..] {
        [high, low] => u16::from_be_bytes([high, low]),
        _ => return Err(cut("a plan's length is cut short")),
    };
    read_up_to(input, length, plan)?;
    if plan.len() < usize::from(length) {
        return Err(cut("a plan is cut short"));
    }
    Ok(true)
}

/// Reads that many bytes, or all there are if there are fewer.
fn read_up_to(input: &mut impl Read, count: u16, bytes: &mut Vec<u8>) -> io::Result<()> {
    bytes.clear();
    input.by_ref().take(count.into()).read_to_end(bytes)?;
    Ok(())
}

/// The error that the input ends too soon.
fn cut(message: &str) -> io::Error {
    io::Error::new(ErrorKind::UnexpectedEof, message)
}
