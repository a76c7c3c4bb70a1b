//! The report of a comparison: its properties, the inputs that each was compared
//! on, and the first difference.

use std::process::ExitCode;

/// A property with its name and the least number of inputs it needs.
pub type Row<P> = (P, &'static str, u64);

struct Compared {
    name: &'static str,
    least: u64,
    inputs: u64,
    first: Option<String>,
}

pub struct Report(Vec<Compared>);

impl Report {
    /// The rows stand in the order of their properties.
    pub fn new<P>(rows: &[Row<P>]) -> Report {
        let compared = |&(_, name, least): &Row<P>| Compared {
            name,
            least,
            inputs: 0,
            first: None,
        };
        Report(rows.iter().map(compared).collect())
    }

    #[inline]
    pub fn check(
        &mut self,
        property: impl Into<usize>,
        good: bool,
        difference: impl FnOnce() -> String,
    ) {
        let row = &mut self.0[property.into()];
        row.inputs += 1;
        if !good && row.first.is_none() {
            row.first = Some(difference());
        }
    }

    /// A property of the inputs: what they have too few of, if anything.
    pub fn need(&mut self, property: impl Into<usize>, missing: Option<String>) {
        self.check(property, missing.is_none(), || {
            format!("too few {}", missing.unwrap())
        });
    }

    /// Whether some property was found to differ.
    pub fn differs(&self) -> bool {
        self.0.iter().any(|row| row.first.is_some())
    }

    /// Prints a line for each property that came up, and how many passed and failed.
    pub fn print(&self) -> (usize, usize) {
        let (mut passed, mut failed) = (0, 0);
        for row in self.0.iter().filter(|row| row.inputs > 0) {
            match &row.first {
                None => {
                    passed += 1;
                    println!("ok {}", row.name);
                }
                Some(difference) => {
                    failed += 1;
                    println!("FAILED {}: {difference}", row.name);
                }
            }
        }
        (passed, failed)
    }

    /// Prints a line for each property, each with all the inputs it needs.
    pub fn print_whole(&mut self) -> ExitCode {
        for row in &mut self.0 {
            if row.inputs < row.least && row.first.is_none() {
                let (inputs, least) = (row.inputs, row.least);
                row.first = Some(format!("only {inputs} inputs, {least} needed"));
            }
            row.inputs = row.inputs.max(1);
        }
        let (passed, failed) = self.print();
        last_line(passed, failed)
    }
}

/// The last line; success where nothing failed.
pub fn last_line(passed: usize, failed: usize) -> ExitCode {
    println!("{passed} passed, {failed} failed");
    match failed {
        0 => ExitCode::SUCCESS,
        _ => ExitCode::FAILURE,
    }
}

/// Where two lists of lent bytes first differ, counted from behind the guard.
pub fn difference(library: &[u8], second: &[u8], guard: usize) -> String {
    match (0..library.len()).find(|&at| library[at] != second[at]) {
        None => "no lent byte differs".to_string(),
        Some(at) => format!(
            "lent byte {} is &{:02X}, expected &{:02X}",
            at as isize - guard as isize,
            library[at],
            second[at]
        ),
    }
}

/// Every triple below these limits.
pub fn every(a: usize, b: usize, c: usize) -> impl Iterator<Item = (usize, usize, usize)> {
    (0..a * b * c).map(move |at| (at / (b * c), at / c % b, at % c))
}
