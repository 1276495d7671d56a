//! The answer to a plan, and the line that tells it.

/// The answer to a plan: a report or a refusal.
pub type Answer = Result<Report, Refusal>;

/// A report and the first sweep that changed nothing.
#[derive(Clone, Debug, PartialEq, Eq)]
pub struct Report {
    /// The whole report.
    pub bytes: Vec<u8>,
    /// The number of that sweep.
    pub sweep: u64,
}

/// A refusal: its number, its place, and its sweep number, which is 0 except for refusal 13.
#[derive(Clone, Copy, Debug, PartialEq, Eq)]
pub struct Refusal {
    /// The number in the document's table.
    pub number: u8,
    /// The place that goes with the number.
    pub place: usize,
    /// The first sweep in which some task leaves the limits.
    pub sweep: u64,
}

impl Refusal {
    /// A refusal judged before any sweep.
    pub fn new(number: u8, place: usize) -> Refusal {
        Refusal {
            number,
            place,
            sweep: 0,
        }
    }
}

/// Refuses with that number if there is a place to name.
pub fn refuse(number: u8, place: Option<usize>) -> Result<(), Refusal> {
    match place {
        Some(place) => Err(Refusal::new(number, place)),
        None => Ok(()),
    }
}

/// The line for one plan: the report in capital hexadecimal, or the refusal's number and place.
pub fn line(answer: &Answer) -> String {
    match answer {
        Ok(report) => hexadecimal(&report.bytes),
        Err(refusal) => format!("{} {}", refusal.number, refusal.place),
    }
}

/// The line for one of many plans: the same line and the sweep number.
pub fn line_with_sweep(answer: &Answer) -> String {
    let sweep = match answer {
        Ok(report) => report.sweep,
        Err(refusal) => refusal.sweep,
    };
    format!("{} {}", line(answer), sweep)
}

/// The bytes in capital hexadecimal without spaces.
fn hexadecimal(bytes: &[u8]) -> String {
    let digit = |value: u8| char::from(b"0123456789ABCDEF"[usize::from(value)]);
    bytes
        .iter()
        .flat_map(|&byte| [digit(byte >> 4), digit(byte & 15)])
        .collect()
}
