//! Replies, read through the loop, byte by byte and as whole recordings, and written.

use crate::interface::{
    self, TubeRan, TubeRecorded, tube_begin, tube_link, tube_link_step, tube_read_recorded,
    tube_run, tube_write_reply,
};
use crate::link::recorded::{End, Recorded, read_recorded};
use crate::link::serial::SERIAL;
use crate::link::{
    A_BLOCK, ACK, BLOCK, BLOCK_CARRY_A, Begun, CARRY_A, CARRY_Y_X, ESCAPED, LENT, LINE, Link, NOTE,
    NUMBER, OSBGET, OSWORD, OSWORD_0, PLAIN, Ran, Reply, Told,
};
use crate::measure::{BYTES, Random, Table, add, best, copying, letters};
use crate::single;

/// A reply with bytes of its own, and what comes before it.
struct Load {
    call: u8,
    reply: u8,
    numbers: [u8; 4],
    block: Vec<u8>,
    text: Vec<u8>,
    before: Vec<u8>,
}

impl Load {
    fn reply(&self) -> Reply<'_> {
        let [carry, x, y, a] = self.numbers;
        Reply {
            carrier: SERIAL,
            call: self.call,
            out_length: self.block.len() as u8,
            reply: self.reply,
            carry: carry & 1 != 0,
            x,
            y,
            a,
            block: &self.block,
            text: &self.text,
        }
    }
}

/// Replies in a mixed load, and in one of a single call.
const REPLIES: usize = 20_000;
const ALIKE: usize = 2_000;

/// An event and an Escape state.
const ACTIONS: [&[u8]; 2] = [&[0x9B, 0x90, 0x01, 0x9B, 0x9B, 0x02], &[0x9B, 0x81]];

/// The replies to all calls in turn, with lines and OSWORD's blocks of 0 to 60
/// bytes; an action before one in eight.
fn mixed() -> Vec<Load> {
    const KINDS: [u8; 14] = [
        CARRY_A,
        ACK,
        NUMBER,
        CARRY_Y_X,
        BLOCK,
        LINE,
        A_BLOCK,
        CARRY_A,
        PLAIN,
        PLAIN,
        NUMBER,
        A_BLOCK,
        BLOCK_CARRY_A,
        ESCAPED,
    ];
    let mut random = Random::new();
    (0..REPLIES)
        .map(|number| {
            let reply = KINDS[number % 14];
            let call = match reply {
                ESCAPED => OSWORD_0,
                _ => (number % 14) as u8,
            };
            let free = (random.next() % 61) as usize;
            let block = [0, 0, 0, 0, free, 0, 4, 0, 0, 0, 0, 16, 13][call as usize];
            let text = if reply == LINE { free } else { 0 };
            Load {
                call,
                reply,
                numbers: [0; 4].map(|_: u8| random.next() as u8),
                block: random.bytes(block),
                text: random.bytes(text),
                before: match number % 8 {
                    0 => ACTIONS[number / 8 % 2].to_vec(),
                    _ => Vec::new(),
                },
            }
        })
        .collect()
}

/// One reply over and over, with a block or a line of 255 bytes.
fn alike(call: u8) -> Vec<Load> {
    let (reply, block, text) = match call {
        OSWORD => (BLOCK, letters(255), Vec::new()),
        _ => (LINE, Vec::new(), letters(255)),
    };
    (0..ALIKE)
        .map(|_| Load {
            call,
            reply,
            numbers: [1; 4],
            block: block.clone(),
            text: text.clone(),
            before: Vec::new(),
        })
        .collect()
}

/// The bytes of a file, and how often it is loaded.
const FILE: usize = 4096;
const FILES: usize = 100;

/// One OSBGET over and over, with a load of a file inside its reply.
fn loads() -> Vec<Load> {
    let mut before = vec![0x9B, 0xE0, 0x00, 0x00, 0x19, 0x00];
    before.extend(letters(FILE));
    before.extend([0x9B, 0xB0]);
    (0..FILES)
        .map(|_| Load {
            call: OSBGET,
            reply: CARRY_A,
            numbers: [1; 4],
            block: Vec::new(),
            text: Vec::new(),
            before: before.clone(),
        })
        .collect()
}

// ---- Reading ----

/// The calls whose replies make up a stream, and the lengths of its parts.
struct Talk {
    calls: Vec<(u8, u8)>,
    stream: Vec<u8>,
    pieces: Vec<usize>,
}

impl Talk {
    fn new(load: &[Load]) -> Talk {
        let (mut calls, mut stream, mut pieces) = (Vec::new(), Vec::new(), Vec::new());
        let mut out = [0; 2 * LENT];
        for one in load {
            let reply = one.reply();
            calls.push((reply.call, reply.out_length));
            let length = reply.write(&mut out).unwrap();
            let before = stream.len();
            // Nothing is read for a call that is complete when begun.
            if length > 0 {
                stream.extend_from_slice(&one.before);
            }
            stream.extend_from_slice(&out[..length]);
            pieces.push(stream.len() - before);
        }
        Talk {
            calls,
            stream,
            pieces,
        }
    }

    /// A checksum of all answers. `one` begins a call and runs
    /// to the end of its reply: the reply's length, the bytes used, the notes
    /// made, the bytes of data, or nothing where the call is complete.
    fn read(
        &self,
        lent: &mut Lent,
        mut one: impl FnMut((u8, u8), &[u8], &mut Lent) -> Option<[usize; 4]>,
    ) -> u64 {
        let mut checksum = 0;
        let mut rest = &self.stream[..];
        for &call in &self.calls {
            let Some([length, used, noted, stored]) = one(call, rest, lent) else {
                continue;
            };
            if let Some(&last) = lent.data[..stored].last() {
                add(&mut checksum, (stored as u64) << 8 | last as u64);
            }
            add(&mut checksum, (length as u64) << 16 | used as u64);
            add(&mut checksum, lent.reply[length - 1] as u64);
            for &byte in &lent.room[..NOTE * noted] {
                add(&mut checksum, byte as u64);
            }
            rest = &rest[used..];
        }
        assert!(rest.is_empty());
        checksum
    }
}

struct Lent {
    reply: [u8; LENT],
    own: [u8; LENT],
    room: Vec<u8>,
    data: Vec<u8>,
}

impl Lent {
    fn new(talk: &Talk) -> Lent {
        Lent {
            reply: [0; LENT],
            own: [0; LENT],
            room: vec![0; NOTE * talk.stream.len()],
            data: vec![0; talk.stream.len()],
        }
    }
}

fn read_library(talk: &Talk, lent: &mut Lent) -> u64 {
    let mut link = unsafe { tube_link() };
    talk.read(lent, |(call, out_length), rest, lent| unsafe {
        let begun = tube_begin(link, call, out_length);
        if begun.kind == 1 {
            return None;
        }
        let TubeRan {
            told,
            used,
            noted,
            stored,
        } = tube_run(
            begun.link,
            rest.as_ptr(),
            rest.len(),
            lent.reply.as_mut_ptr(),
            lent.own.as_mut_ptr(),
            lent.room.as_mut_ptr(),
            lent.room.len(),
            lent.data.as_mut_ptr(),
            lent.data.len(),
        );
        assert_eq!(told.kind, interface::REPLY);
        link = told.link;
        Some([told.length, used, noted, stored])
    })
}

/// A real call, like the library's.
#[inline(never)]
fn rust_begin(link: &mut Link, call: u8, out_length: u8) -> Begun {
    link.begin(call, out_length)
}

#[inline(never)]
fn rust_run(link: &mut Link, raw: &[u8], lent: &mut Lent) -> Ran {
    link.run(
        raw,
        &mut lent.reply,
        &mut lent.own,
        &mut lent.room,
        &mut lent.data,
    )
}

fn read_rust(talk: &Talk, lent: &mut Lent) -> u64 {
    let mut link = Link::new();
    talk.read(lent, |(call, out_length), rest, lent| {
        if rust_begin(&mut link, call, out_length) == Begun::Complete {
            return None;
        }
        let Ran {
            told,
            used,
            noted,
            stored,
        } = rust_run(&mut link, rest, lent);
        let Told::Reply(length) = told else {
            panic!("{told:?}");
        };
        Some([length, used, noted, stored])
    })
}

/// The same as whole recordings.
fn recorded_library(talk: &Talk, lent: &mut Lent) -> u64 {
    talk.read(lent, |(call, out_length), rest, lent| unsafe {
        let TubeRecorded {
            kind,
            length,
            used,
            noted,
            stored,
            ..
        } = tube_read_recorded(
            call,
            out_length,
            rest.as_ptr(),
            rest.len(),
            lent.room.as_mut_ptr(),
            lent.room.len(),
            lent.data.as_mut_ptr(),
            lent.data.len(),
            lent.reply.as_mut_ptr(),
        );
        assert_eq!(kind, interface::REPLY);
        (length > 0).then_some([length, used, noted, stored])
    })
}

#[inline(never)]
fn rust_recorded(call: (u8, u8), raw: &[u8], lent: &mut Lent) -> Recorded {
    read_recorded(call, raw, &mut lent.room, &mut lent.data, &mut lent.reply)
}

fn recorded_rust(talk: &Talk, lent: &mut Lent) -> u64 {
    talk.read(lent, |call, rest, lent| {
        let read = rust_recorded(call, rest, lent);
        let End::Reply(reply) = read.end else {
            panic!("{:?}", read.end);
        };
        (!reply.is_empty()).then_some([reply.len(), read.used, read.noted, read.stored])
    })
}

/// The same by single bytes. `begin` says whether a call waits; `step` gives the
/// kind of an answer, and what it is, or nothing where more is needed.
fn read_bytes<T>(
    talk: &Talk,
    lent: &mut Lent,
    link: &mut T,
    begin: impl Fn(&mut T, u8, u8) -> bool,
    step: impl Fn(&mut T, u8, &mut Lent) -> Option<(u32, u64)>,
) -> u64 {
    let mut checksum = 0;
    let mut rest = talk.stream.iter();
    for &(call, out_length) in &talk.calls {
        if !begin(link, call, out_length) {
            continue;
        }
        for &raw in rest.by_ref() {
            if let Some((kind, what)) = step(link, raw, lent) {
                add(&mut checksum, what << 8 | kind as u64);
                if kind == interface::REPLY {
                    add(&mut checksum, lent.reply[what as usize - 1] as u64);
                    break;
                }
            }
        }
    }
    assert!(rest.next().is_none());
    checksum
}

fn bytes_library(talk: &Talk, lent: &mut Lent) -> u64 {
    read_bytes(
        talk,
        lent,
        &mut unsafe { tube_link() },
        |link, call, out_length| {
            let begun = unsafe { tube_begin(*link, call, out_length) };
            *link = begun.link;
            begun.kind == 0
        },
        |link, raw, lent| {
            let (reply, own) = (lent.reply.as_mut_ptr(), lent.own.as_mut_ptr());
            let told = unsafe { tube_link_step(*link, raw, reply, own) };
            *link = told.link;
            let numbers = [told.first, told.second, told.third, told.fourth];
            match told.kind {
                interface::NEED_MORE => None,
                kind => Some((
                    kind,
                    told.length as u64 + u32::from_le_bytes(numbers) as u64,
                )),
            }
        },
    )
}

#[inline(never)]
fn single_begin(link: &mut single::Link, call: u8, out_length: u8) -> single::Begun {
    link.begin(call, out_length)
}

#[inline(never)]
fn single_step(link: &mut single::Link, raw: u8, lent: &mut Lent) -> single::Told {
    link.step(raw, &mut lent.reply, &mut lent.own)
}

fn bytes_rust(talk: &Talk, lent: &mut Lent) -> u64 {
    read_bytes(
        talk,
        lent,
        &mut single::Link::new(),
        |link, call, out_length| single_begin(link, call, out_length) == single::Begun::Waits,
        |link, raw, lent| match single_step(link, raw, lent) {
            single::Told::More => None,
            single::Told::Escape(on) => Some((2, on as u64)),
            single::Told::Event([y, x, a]) => Some((3, u32::from_le_bytes([y, x, a, 0]) as u64)),
            single::Told::Reply(length) => Some((interface::REPLY, length as u64)),
            single::Told::Data(byte) => Some((13, byte as u64)),
            told => {
                let [kind, values @ ..] = told.note().unwrap();
                Some((kind as u32, u32::from_le_bytes(values) as u64))
            }
        },
    )
}

// ---- Writing ----

#[inline(never)]
fn rust_write(reply: &Reply, out: &mut [u8]) -> Result<usize, u8> {
    reply.write(out)
}

/// A checksum of the lengths and the last bytes.
fn write(load: &[Reply], mut one: impl FnMut(&Reply, &mut [u8]) -> usize) -> u64 {
    let mut checksum = 0;
    let mut out = [0; 2 * LENT];
    for reply in load {
        let length = one(reply, &mut out);
        let last = out[length.saturating_sub(1)];
        add(&mut checksum, (length as u64) << 8 | last as u64);
    }
    checksum
}

fn write_library(load: &[Reply]) -> u64 {
    write(load, |r, out| unsafe {
        let (block, text) = (r.block, r.text);
        let written = tube_write_reply(
            r.carrier,
            r.call,
            r.out_length,
            r.reply,
            r.carry as u8,
            r.x,
            r.y,
            r.a,
            block.as_ptr(),
            block.len(),
            text.as_ptr(),
            text.len(),
            out.as_mut_ptr(),
            out.len(),
        );
        assert_eq!(written.answer, 0);
        written.length
    })
}

fn write_rust(load: &[Reply]) -> u64 {
    write(load, |r, out| rust_write(r, out).unwrap())
}

/// What the writers write: all replies one behind the other, and their lengths.
fn encoded(load: &[Reply]) -> (Vec<u8>, Vec<usize>) {
    let (mut bytes, mut pieces) = (Vec::new(), Vec::new());
    let mut out = [0; 2 * LENT];
    for reply in load {
        let length = reply.write(&mut out).unwrap();
        bytes.extend_from_slice(&out[..length]);
        pieces.push(length);
    }
    (bytes, pieces)
}

pub fn tables() -> Option<Vec<Table>> {
    let loads = [
        ("all kinds in turn, an action in eight", mixed()),
        ("OSWORD, 255 bytes", alike(OSWORD)),
        ("OSWORD 0, 255 bytes", alike(OSWORD_0)),
        ("OSBGET with a load of 4,096 bytes", loads()),
    ];
    let mut read = Table::new("Replies read by the loop:", &BYTES);
    let mut whole = Table::new(
        "Whole recorded replies, and the loop over the same bytes:",
        &[
            "ns a byte",
            "library",
            "loop",
            "library / loop",
            "Rust",
            "library / Rust",
        ],
    );
    let mut single = Table::new("Replies read byte by byte:", &BYTES);
    let mut written = Table::new("Replies written:", &BYTES);
    for (name, load) in &loads {
        let talk = Talk::new(load);
        let (mut one, mut two) = (Lent::new(&talk), Lent::new(&talk));
        let times = best([&mut || read_library(&talk, &mut one), &mut || {
            read_rust(&talk, &mut two)
        }])?;
        let copy = copying(&talk.stream, &talk.pieces);
        read.bytes_row(name, talk.stream.len(), times, copy);

        let mut three = Lent::new(&talk);
        let [library, rust, looped] = best([
            &mut || recorded_library(&talk, &mut one),
            &mut || recorded_rust(&talk, &mut two),
            &mut || read_library(&talk, &mut three),
        ])?;
        let bytes = talk.stream.len() as f64;
        whole.row(
            name,
            &[
                library / bytes,
                looped / bytes,
                library / looped,
                rust / bytes,
                library / rust,
            ],
        );

        let times = best([&mut || bytes_library(&talk, &mut one), &mut || {
            bytes_rust(&talk, &mut two)
        }])?;
        single.bytes_row(name, talk.stream.len(), times, copy);

        let replies: Vec<Reply> = load.iter().map(Load::reply).collect();
        let times = best([&mut || write_library(&replies), &mut || {
            write_rust(&replies)
        }])?;
        let (bytes, pieces) = encoded(&replies);
        written.bytes_row(name, bytes.len(), times, copying(&bytes, &pieces));
    }
    Some(vec![read, whole, single, written])
}
