//! Accesses to the chip: the lent entry, the second program and plain C.

use crate::interface::{TubeReply, tube_access, tube_new};
use crate::measure::{Random, Table, add, best};
use crate::tube::{HOST, PARASITE, Tube};

/// The plain C chip, seen from outside.
#[repr(C)]
struct Plain {
    _inside: [u8; 0],
}

unsafe extern "C" {
    fn plain_fresh() -> *mut Plain;
    fn plain_access(chip: *mut Plain, side: u8, offset: u8, operation: u8, byte: u8) -> TubeReply;
}

/// A real call, like the other two.
#[inline(never)]
fn rust_access(tube: &mut Tube, side: u8, offset: u8, operation: u8, byte: u8) -> TubeReply {
    let (answer, byte) = tube.access(side, offset, operation != 0, byte);
    TubeReply { answer, byte }
}

#[derive(Clone, Copy)]
struct Access {
    side: u8,
    offset: u8,
    operation: u8,
    byte: u8,
}

const READ: u8 = 0;
const WRITE: u8 = 1;

/// Accesses in one pass over a load, and passes.
const ACCESSES: usize = 60_000;
const PASSES: usize = 20;

/// A load: the given accesses over and over, each with its own byte.
fn repeated(pattern: &[(u8, u8, u8)]) -> Vec<Access> {
    pattern
        .iter()
        .cycle()
        .take(ACCESSES)
        .enumerate()
        .map(|(number, &(side, offset, operation))| {
            let byte = (number * 7 % 256) as u8;
            Access {
                side,
                offset,
                operation,
                byte,
            }
        })
        .collect()
}

fn random() -> Vec<Access> {
    let mut random = Random::new();
    (0..ACCESSES)
        .map(|_| {
            let number = random.next();
            Access {
                side: (number >> 9 & 1) as u8,
                offset: (number >> 13 & 7) as u8,
                operation: (number >> 21 & 1) as u8,
                byte: (number >> 29) as u8,
            }
        })
        .collect()
}

/// All accesses of a load; a checksum of answers and bytes.
fn pass(load: &[Access], mut access: impl FnMut(&Access) -> TubeReply) -> u64 {
    let mut checksum = 0;
    for _ in 0..PASSES {
        for step in load {
            let reply = access(step);
            add(
                &mut checksum,
                (reply.answer as u64) << 8 | reply.byte as u64,
            );
        }
    }
    checksum
}

fn library(load: &[Access]) -> u64 {
    let mut chip = unsafe { tube_new() };
    pass(load, |a| unsafe {
        tube_access(&mut chip, a.side, a.offset, a.operation, a.byte)
    })
}

fn rust(load: &[Access]) -> u64 {
    let mut tube = Tube::new();
    pass(load, |a| {
        rust_access(&mut tube, a.side, a.offset, a.operation, a.byte)
    })
}

fn c(load: &[Access]) -> u64 {
    let chip = unsafe { plain_fresh() };
    pass(load, |a| unsafe {
        plain_access(chip, a.side, a.offset, a.operation, a.byte)
    })
}

pub fn tables() -> Option<Vec<Table>> {
    let mut ten_and_ten = [(PARASITE, 1, WRITE); 20];
    ten_and_ten[10..].fill((HOST, 1, READ));
    let loads = [
        ("random accesses", random()),
        (
            "write and read of R2",
            repeated(&[(HOST, 3, WRITE), (PARASITE, 3, READ)]),
        ),
        ("polling a status", repeated(&[(PARASITE, 2, READ)])),
        ("ten bytes in and out of R1", repeated(&ten_and_ten)),
    ];
    let mut table = Table::new(
        "Accesses to the chip:",
        &[
            "ns an access",
            "library",
            "Rust",
            "C",
            "library / Rust",
            "library / C",
        ],
    );
    for (name, load) in &loads {
        let times = best([&mut || library(load), &mut || rust(load), &mut || c(load)])?;
        let [l, r, c] = times.map(|ns| ns / (PASSES * load.len()) as f64);
        table.row(name, &[l, r, c, l / r, l / c]);
    }
    Some(vec![table])
}
