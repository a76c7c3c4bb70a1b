//! Load data and actions, written.

use std::hint::black_box;

use crate::interface::{tube_write_action, tube_write_data};
use crate::measure::{BYTES, Random, Table, add, best, copying, letters};
use crate::second_host::{Action, Order, write_data};

/// The bytes of a file, and how often it is sent.
const FILE: usize = 4096;
const FILES: usize = 100;

/// How many actions are sent.
const ACTIONS: usize = 20_000;

/// A file with about one byte in so many &9B.
fn file(one_in: u64) -> Vec<u8> {
    let mut random = Random::new();
    let byte = |_| match random.next() {
        n if n % one_in == 0 => 0x9B,
        n => (n >> 8) as u8 & 0x7F,
    };
    (0..FILE).map(byte).collect()
}

/// All actions in turn, with control blocks and texts of 1 to 60 bytes.
fn actions() -> Vec<Order> {
    let mut random = Random::new();
    let action = |number: usize| {
        let address = random.next() as u32;
        let [y, x, a, _] = address.to_be_bytes();
        let length = 1 + (random.next() % 60) as usize;
        match number % 10 {
            0 => Action::Escape(number % 20 == 0),
            1 => Action::Event(y, x, a),
            2 => Action::Address(address),
            3 => Action::Execute(address),
            4 => Action::Load(address),
            5 => Action::Save(address),
            6 => Action::Block(random.bytes(length)),
            7 => Action::Error(a, random.bytes(length)),
            8 => Action::Restart,
            _ => Action::End,
        }
    };
    let actions: Vec<Action> = (0..ACTIONS).map(action).collect();
    actions.iter().map(Action::order).collect()
}

/// A checksum of the lengths and the last bytes, of a file that is sent often.
fn send(file: &[u8], room: usize, mut one: impl FnMut(&[u8], &mut [u8]) -> usize) -> u64 {
    let mut checksum = 0;
    let mut out = [0; 2 * FILE];
    for _ in 0..FILES {
        let length = one(black_box(file), &mut out[..room]);
        add(&mut checksum, (length as u64) << 8 | out[length - 1] as u64);
    }
    checksum
}

fn send_library(file: &[u8], room: usize) -> u64 {
    send(file, room, |bytes, out| {
        let written =
            unsafe { tube_write_data(bytes.as_ptr(), bytes.len(), out.as_mut_ptr(), out.len()) };
        assert_eq!(written.answer, 0);
        written.length
    })
}

#[inline(never)]
fn rust_data(bytes: &[u8], out: &mut [u8]) -> Result<usize, u8> {
    write_data(bytes, out)
}

fn send_rust(file: &[u8], room: usize) -> u64 {
    send(file, room, |bytes, out| rust_data(bytes, out).unwrap())
}

/// A pass over the file that looks for &9B.
#[inline(never)]
fn pass(file: &[u8]) -> bool {
    file.iter().fold(false, |any, &byte| any | (byte == 0x9B))
}

fn scan(file: &[u8]) -> u64 {
    (0..FILES)
        .map(|_| black_box(pass(black_box(file))) as u64)
        .sum()
}

/// The same of actions.
fn act(load: &[Order], mut one: impl FnMut(&Order, &mut [u8]) -> usize) -> u64 {
    let mut checksum = 0;
    let mut out = [0; 600];
    for order in load {
        let length = one(order, &mut out);
        add(&mut checksum, (length as u64) << 8 | out[length - 1] as u64);
    }
    checksum
}

fn act_library(load: &[Order]) -> u64 {
    act(load, |order, out| {
        let [first, second, third, fourth] = order.numbers;
        let written = unsafe {
            tube_write_action(
                order.kind,
                first,
                second,
                third,
                fourth,
                order.block.as_ptr(),
                order.block.len(),
                order.text.as_ptr(),
                order.text.len(),
                out.as_mut_ptr(),
                out.len(),
            )
        };
        assert_eq!(written.answer, 0);
        written.length
    })
}

#[inline(never)]
fn rust_action(order: &Order, out: &mut [u8]) -> Result<usize, u8> {
    order.write(out)
}

fn act_rust(load: &[Order]) -> u64 {
    act(load, |order, out| rust_action(order, out).unwrap())
}

pub fn tables() -> Option<Vec<Table>> {
    let mut written = Table::new("Load data of 4,096 bytes and actions, written:", &BYTES);
    let mut load = Table::new(
        "The same load data, against memcpy and a pass that looks for escapes:",
        &[
            "ns",
            "library",
            "memcpy",
            "pass",
            "2 memcpy + pass",
            "library / that",
        ],
    );
    let files = [
        ("letters", letters(FILE), 2 * FILE),
        ("letters, room for no escape", letters(FILE), FILE),
        ("one in 256 an escape", file(256), 2 * FILE),
        ("one in 16 an escape", file(16), 2 * FILE),
    ];
    for (name, file, room) in &files {
        let times = best([&mut || send_library(file, *room), &mut || {
            send_rust(file, *room)
        }])?;
        let sent = FILES * FILE;
        let copy = copying(&file.repeat(FILES), &[FILE; FILES]);
        written.bytes_row(name, sent, times, copy);
        if *name == "letters" {
            let [pass] = best([&mut || scan(file)])?;
            let each = [times[0], copy, pass, 2.0 * copy + pass].map(|time| time / FILES as f64);
            load.row(
                name,
                &[each[0], each[1], each[2], each[3], each[0] / each[3]],
            );
        }
    }
    let load_actions = actions();
    let times = best([&mut || act_library(&load_actions), &mut || {
        act_rust(&load_actions)
    }])?;
    let (mut bytes, mut pieces) = (Vec::new(), Vec::new());
    let mut out = [0; 600];
    for order in &load_actions {
        let length = order.write(&mut out).unwrap();
        bytes.extend_from_slice(&out[..length]);
        pieces.push(length);
    }
    written.bytes_row(
        "all actions in turn",
        bytes.len(),
        times,
        copying(&bytes, &pieces),
    );
    Some(vec![written, load])
}
