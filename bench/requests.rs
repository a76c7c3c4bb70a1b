//! Requests, read and written.

use crate::interface::{TubeRead, tube_feed, tube_read, tube_reader, tube_write_request};
use crate::link::serial::{BODY, PARALLEL, Read, Reader, Request, SERIAL};
use crate::link::{OSCLI, OSFILE};
use crate::measure::{BYTES, Random, Table, add, best, copying, letters, times};

/// A request with bytes of its own.
struct Load {
    style: u8,
    call: u8,
    numbers: [u8; 4],
    block: Vec<u8>,
    text: Vec<u8>,
}

impl Load {
    fn request(&self, carrier: u8) -> Request<'_> {
        let [x, y, a, out_length] = self.numbers;
        let style = if carrier == SERIAL { self.style } else { 0 };
        Request {
            carrier,
            style,
            call: self.call,
            x,
            y,
            a,
            out_length,
            block: &self.block,
            text: &self.text,
        }
    }
}

/// Requests in a mixed load, and in one of a single call.
const REQUESTS: usize = 20_000;
const ALIKE: usize = 2_000;

/// All calls in turn, with strings and in blocks of 0 to 60 bytes.
fn mixed() -> Vec<Load> {
    let mut random = Random::new();
    (0..REQUESTS)
        .map(|number| {
            let call = (number % 13) as u8;
            let mut numbers = [0; 4].map(|_: u8| random.next() as u8);
            numbers[2] = match call {
                2 => numbers[2] & 0x7F,
                3 => numbers[2] | 0x80,
                _ => numbers[2] | 1,
            };
            let free = (random.next() % 61) as usize;
            let block = [0, 0, 0, 0, free, 5, 4, 0, 0, 0, 0, 16, 13][call as usize];
            let text = if matches!(call, 1 | 10 | 11) { free } else { 0 };
            Load {
                style: (random.next() % 4) as u8,
                call,
                numbers,
                block: random.bytes(block),
                text: random.bytes(text),
            }
        })
        .collect()
}

/// One call over and over, with a string of this length.
fn alike(call: u8, length: usize) -> Vec<Load> {
    (0..ALIKE)
        .map(|_| Load {
            style: 0,
            call,
            numbers: [1; 4],
            block: vec![0; if call == OSFILE { 16 } else { 0 }],
            text: letters(length),
        })
        .collect()
}

/// Real calls, like the library's: one byte, or bytes up to the first answer
/// that is not need-more.
#[inline(never)]
fn rust_read(reader: &mut Reader, raw: u8, body: &mut [u8; BODY]) -> Read {
    reader.read(raw, body)
}

#[inline(never)]
fn rust_feed(reader: &mut Reader, raw: &[u8], body: &mut [u8; BODY]) -> (Read, usize) {
    for (at, &byte) in raw.iter().enumerate() {
        let read = reader.read(byte, body);
        if read != Read::More {
            return (read, at + 1);
        }
    }
    (Read::More, raw.len())
}

#[inline(never)]
fn rust_write(request: &Request, out: &mut [u8]) -> Result<usize, u8> {
    request.write(out)
}

fn add_library(checksum: &mut u64, read: &TubeRead) {
    if read.kind != 0 {
        add(checksum, read.kind as u64);
        add(checksum, (read.code as u64) << 8 | read.style as u64);
        add(checksum, read.length as u64);
    }
}

fn add_rust(checksum: &mut u64, read: Read) {
    let (kind, code, style, length) = match read {
        Read::More => return,
        Read::Character(_) => (1, 0, 0, 0),
        Read::Request {
            style,
            code,
            length,
        } => (2, code, style, length),
        Read::Refused(_) => (3, 0, 0, 0),
    };
    add(checksum, kind);
    add(checksum, (code as u64) << 8 | style as u64);
    add(checksum, length as u64);
}

/// A load as it is sent, and the lengths of its requests.
struct Stream<'a> {
    carrier: u8,
    requests: Vec<Request<'a>>,
    bytes: Vec<u8>,
    pieces: Vec<usize>,
}

impl<'a> Stream<'a> {
    fn new(carrier: u8, load: &'a [Load]) -> Stream<'a> {
        let requests: Vec<Request> = load.iter().map(|one| one.request(carrier)).collect();
        let (mut bytes, mut pieces) = (Vec::new(), Vec::new());
        let mut out = [0; 1200];
        for request in &requests {
            let length = request.write(&mut out).unwrap();
            bytes.extend_from_slice(&out[..length]);
            pieces.push(length);
        }
        Stream {
            carrier,
            requests,
            bytes,
            pieces,
        }
    }

    fn feed_library(&self) -> u64 {
        let mut checksum = 0;
        let mut body = [0; BODY];
        let mut reader = unsafe { tube_reader(self.carrier) };
        let mut left = &self.bytes[..];
        while !left.is_empty() {
            let (raw, length) = (left.as_ptr(), left.len());
            let fed = unsafe { tube_feed(reader, raw, length, body.as_mut_ptr()) };
            add_library(&mut checksum, &fed.read);
            reader = fed.read.reader;
            left = &left[fed.used..];
        }
        checksum
    }

    fn feed_rust(&self) -> u64 {
        let mut checksum = 0;
        let mut body = [0; BODY];
        let mut reader = Reader::new(self.carrier);
        let mut left = &self.bytes[..];
        while !left.is_empty() {
            let (read, used) = rust_feed(&mut reader, left, &mut body);
            add_rust(&mut checksum, read);
            left = &left[used..];
        }
        checksum
    }

    fn read_library(&self) -> u64 {
        let mut checksum = 0;
        let mut body = [0; BODY];
        let mut reader = unsafe { tube_reader(self.carrier) };
        for &raw in &self.bytes {
            let read = unsafe { tube_read(reader, raw, body.as_mut_ptr()) };
            add_library(&mut checksum, &read);
            reader = read.reader;
        }
        checksum
    }

    fn read_rust(&self) -> u64 {
        let mut checksum = 0;
        let mut body = [0; BODY];
        let mut reader = Reader::new(self.carrier);
        for &raw in &self.bytes {
            add_rust(&mut checksum, rust_read(&mut reader, raw, &mut body));
        }
        checksum
    }

    /// A checksum of the lengths and the last bytes.
    fn write(&self, mut one: impl FnMut(&Request, &mut [u8]) -> usize) -> u64 {
        let mut checksum = 0;
        let mut out = [0; 1200];
        for request in &self.requests {
            let length = one(request, &mut out);
            add(&mut checksum, (length as u64) << 8 | out[length - 1] as u64);
        }
        checksum
    }

    fn write_library(&self) -> u64 {
        self.write(|r, out| unsafe {
            let (block, text) = (r.block, r.text);
            let written = tube_write_request(
                r.carrier,
                r.style,
                r.call,
                r.x,
                r.y,
                r.a,
                r.out_length,
                block.as_ptr(),
                block.len(),
                text.as_ptr(),
                text.len(),
                out.as_mut_ptr(),
                out.len(),
            );
            assert_eq!(written.answer, 0);
            written.length
        })
    }

    fn write_rust(&self) -> u64 {
        self.write(|r, out| rust_write(r, out).unwrap())
    }

    /// ns, by the library and the second program: read in slices, byte by byte,
    /// written.
    fn fed(&self) -> Option<[f64; 2]> {
        best([&mut || self.feed_library(), &mut || self.feed_rust()])
    }

    fn read(&self) -> Option<[f64; 2]> {
        best([&mut || self.read_library(), &mut || self.read_rust()])
    }

    fn written(&self) -> Option<[f64; 2]> {
        best([&mut || self.write_library(), &mut || self.write_rust()])
    }
}

type Work = fn(&Stream) -> u64;

/// What one more byte of an OSFILE name and of an OSCLI string costs the library,
/// then the second program: the time of requests with 255 bytes of it less that of
/// requests with 5, by 250.
fn further(library: Work, rust: Work) -> Option<[[f64; 2]; 2]> {
    let loads = [(OSFILE, 255), (OSFILE, 5), (OSCLI, 255), (OSCLI, 5)]
        .map(|(call, length)| alike(call, length));
    let [a, b, c, d] = loads.each_ref().map(|load| Stream::new(SERIAL, load));
    let (best, sums) = times([
        &mut || library(&a),
        &mut || library(&b),
        &mut || library(&c),
        &mut || library(&d),
        &mut || rust(&a),
        &mut || rust(&b),
        &mut || rust(&c),
        &mut || rust(&d),
    ]);
    let further = |at: usize| (best[at] - best[at + 1]) / (250 * ALIKE) as f64;
    let costs = [[further(0), further(2)], [further(4), further(6)]];
    (sums[..4] == sums[4..]).then_some(costs)
}

pub fn tables() -> Option<Vec<Table>> {
    let loads = [
        ("all calls in turn, serial", SERIAL, mixed()),
        ("all calls in turn, parallel", PARALLEL, mixed()),
        ("OSCLI, 255 bytes", SERIAL, alike(OSCLI, 255)),
        ("OSFILE, 255 bytes", SERIAL, alike(OSFILE, 255)),
    ];
    let mut fed = Table::new("Requests read in slices:", &BYTES);
    let mut read = Table::new("Requests read byte by byte:", &BYTES);
    let mut written = Table::new("Requests written:", &BYTES);
    for (name, carrier, load) in &loads {
        let stream = Stream::new(*carrier, load);
        let bytes = stream.bytes.len();
        let copy = copying(&stream.bytes, &stream.pieces);
        fed.bytes_row(name, bytes, stream.fed()?, copy);
        read.bytes_row(name, bytes, stream.read()?, copy);
        written.bytes_row(name, bytes, stream.written()?, copy);
    }

    let mut more = Table::new(
        "One more byte of an OSFILE name, and of an OSCLI string:",
        &[
            "ns a byte",
            "OSFILE",
            "OSCLI",
            "OSFILE / OSCLI",
            "Rust: OSFILE",
            "Rust: OSCLI",
            "Rust: OSFILE / OSCLI",
        ],
    );
    let works: [(&str, Work, Work); 3] = [
        ("read in slices", |s| s.feed_library(), |s| s.feed_rust()),
        ("read byte by byte", |s| s.read_library(), |s| s.read_rust()),
        ("written", |s| s.write_library(), |s| s.write_rust()),
    ];
    for (name, library, rust) in works {
        let [[file, cli], [rust_file, rust_cli]] = further(library, rust)?;
        let ratios = [file / cli, rust_file / rust_cli];
        more.row(
            name,
            &[file, cli, ratios[0], rust_file, rust_cli, ratios[1]],
        );
    }
    Some(vec![fed, read, written, more])
}
