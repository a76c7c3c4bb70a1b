//! How the benchmarks measure, and the tables that they print.

use std::hint::black_box;
use std::time::Instant;

const REPETITIONS: usize = 25;

/// Something measured: it gives a checksum of all its answers.
pub type Run<'a> = &'a mut dyn FnMut() -> u64;

/// The best time in ns of each, all in turn and several times over, and their
/// checksums.
pub fn times<const N: usize>(mut runs: [Run; N]) -> ([f64; N], [u64; N]) {
    let mut best = [f64::INFINITY; N];
    let mut sums = [0; N];
    for _ in 0..REPETITIONS {
        for (at, run) in runs.iter_mut().enumerate() {
            let start = Instant::now();
            sums[at] = run();
            best[at] = best[at].min(start.elapsed().as_nanos() as f64);
        }
    }
    (best, sums)
}

/// The best times of programs that must give the same; nothing where they do not.
pub fn best<const N: usize>(runs: [Run; N]) -> Option<[f64; N]> {
    let (best, sums) = times(runs);
    sums.iter().all(|&sum| sum == sums[0]).then_some(best)
}

pub fn add(checksum: &mut u64, value: u64) {
    *checksum = checksum.rotate_left(7).wrapping_add(value).wrapping_mul(5);
}

/// The best time in ns of memcpy over bytes in pieces of these lengths.
pub fn copying(bytes: &[u8], pieces: &[usize]) -> f64 {
    let mut out = [0; 8192];
    let mut run = || {
        let mut rest = bytes;
        for &length in pieces {
            let (piece, behind) = rest.split_at(length);
            out[..length].copy_from_slice(piece);
            black_box(&mut out);
            rest = behind;
        }
        0
    };
    best([&mut run]).unwrap()[0]
}

// ---- Random loads ----

pub struct Random(u64);

impl Random {
    pub fn new() -> Random {
        Random(0x0123_4567_89AB_CDEF)
    }

    pub fn next(&mut self) -> u64 {
        self.0 ^= self.0 << 13;
        self.0 ^= self.0 >> 7;
        self.0 ^= self.0 << 17;
        self.0 >> 11
    }

    /// `length` bytes without &0D; one in sixteen is &9B.
    pub fn bytes(&mut self, length: usize) -> Vec<u8> {
        (0..length)
            .map(|_| match self.next() {
                n if n % 16 == 0 => 0x9B,
                n => (n >> 8) as u8 | 0x10,
            })
            .collect()
    }
}

/// `length` letters.
pub fn letters(length: usize) -> Vec<u8> {
    (0..length).map(|n| b'A' + (n % 26) as u8).collect()
}

// ---- Tables ----

pub struct Table {
    title: &'static str,
    head: &'static [&'static str],
    rows: Vec<Vec<String>>,
}

impl Table {
    pub fn new(title: &'static str, head: &'static [&'static str]) -> Table {
        Table {
            title,
            head,
            rows: Vec::new(),
        }
    }

    /// A row of numbers behind its name.
    pub fn row(&mut self, name: &str, numbers: &[f64]) {
        let cells = numbers.iter().map(|&number| match number {
            100.0.. => format!("{number:.0}"),
            _ => format!("{number:.2}"),
        });
        let row = std::iter::once(name.to_string()).chain(cells).collect();
        self.rows.push(row);
    }

    /// A row of a load of so many bytes, by the times of the library, the second
    /// program and memcpy.
    pub fn bytes_row(&mut self, name: &str, bytes: usize, [library, rust]: [f64; 2], copy: f64) {
        let bytes = bytes as f64;
        self.row(
            name,
            &[
                library / bytes,
                rust / bytes,
                library / rust,
                1000.0 * bytes / library,
                copy / bytes,
                library / copy,
            ],
        );
    }

    pub fn print(&self, markdown: bool) {
        if markdown {
            println!("{}\n\n| {} |", self.title, self.head.join(" | "));
            println!("|{}", "---|".repeat(self.head.len()));
            for row in &self.rows {
                println!("| {} |", row.join(" | "));
            }
        } else {
            println!("{}", self.title);
            let first = self.rows.iter().map(|row| row[0].len()).max().unwrap_or(0);
            let first = first.max(self.head[0].len());
            print!("{:<first$}", self.head[0]);
            for name in &self.head[1..] {
                print!("  {name:>8}");
            }
            println!();
            for row in &self.rows {
                print!("{:<first$}", row[0]);
                for (name, cell) in self.head[1..].iter().zip(&row[1..]) {
                    print!("  {cell:>0$}", name.len().max(8));
                }
                println!();
            }
        }
        println!();
    }
}

/// The columns of a row made by `bytes_row`.
pub const BYTES: [&str; 7] = [
    "ns a byte",
    "library",
    "Rust",
    "library / Rust",
    "library MB/s",
    "memcpy",
    "library / memcpy",
];
