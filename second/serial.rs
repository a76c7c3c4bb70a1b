//! A second program for the requests of the serial protocol: the escape layer,
//! the stepwise reader, the fields of a request read and the writer, on the serial
//! and the parallel carrier.
//! It is written from the rules and shares nothing with the proved library; one
//! reading was settled after a comparison with it (see `Reader::read`).

use std::ops::Range;

// Carriers.
pub const SERIAL: u8 = 0;
pub const PARALLEL: u8 = 1;

// Phases of a reader.
const OUTSIDE: u8 = 0;
const INSIDE: u8 = 1;
const STOPPED: u8 = 2;

// Refusals.
pub const NOT_CARRIED: u8 = 4;
pub const MARK_INSIDE: u8 = 5;
pub const LONG_STRING: u8 = 6;
pub const READER_STOPPED: u8 = 7;
pub const SHORT_BUFFER: u8 = 8;
pub const BROKEN_RULE: u8 = 9;

pub const ESCAPE: u8 = 0x9B;
pub const STRING_END: u8 = 0x0D;
pub const LONGEST_STRING: usize = 255;

// Calls.
pub const OSRDCH: u8 = 0;
pub const OSCLI: u8 = 1;
pub const OSBYTE_LOW: u8 = 2;
pub const OSBYTE_HIGH: u8 = 3;
pub const OSWORD: u8 = 4;
pub const OSWORD_0: u8 = 5;
pub const OSARGS: u8 = 6;
pub const OSBGET: u8 = 7;
pub const OSBPUT: u8 = 8;
pub const OSFIND_CLOSE: u8 = 9;
pub const OSFIND_OPEN: u8 = 10;
pub const OSFILE: u8 = 11;
pub const OSGBPB: u8 = 12;

/// What a code that no request has gives instead of a call.
pub const NO_CALL: u8 = 255;

pub const ARGS_BLOCK: usize = 4;
pub const FILE_BLOCK: usize = 16;
pub const GBPB_BLOCK: usize = 13;

const LAST_CODE: u8 = 0x16;
const LAST_STYLE: u8 = 3;

/// The longest body of each code, by half the code.
const LONGEST: [usize; 12] = [0, 256, 2, 3, 258, 5, 6, 1, 2, 257, BODY, 14];

/// The longest body of all.
pub const BODY: usize = 273;

// ---- The escape layer ----

/// What a raw byte of the serial carrier is, after an escape or not.
pub enum Unit {
    Escape,
    Data(u8),
    Mark(u8),
}

#[inline]
pub fn unit(escape: bool, raw: u8) -> Unit {
    match (escape, raw == ESCAPE) {
        (false, true) => Unit::Escape,
        (true, false) => Unit::Mark(raw),
        _ => Unit::Data(raw),
    }
}

/// How many of the bytes are doubled; they are fewer than 65,536.
#[inline]
fn escapes(bytes: &[u8]) -> usize {
    let doubled: u16 = bytes.iter().map(|&byte| (byte == ESCAPE) as u16).sum();
    doubled as usize
}

// ---- The reader ----

#[derive(Clone, Copy, PartialEq, Debug)]
pub struct Reader {
    pub carrier: u8,
    pub phase: u8,
    /// The last raw byte was the first of an escape pair.
    pub escape: bool,
    pub style: u8,
    pub code: u8,
    /// How many bytes of the body have been taken.
    pub count: usize,
}

/// The answer to one raw byte.
#[derive(Clone, Copy, PartialEq, Debug)]
pub enum Read {
    More,
    Character(u8),
    /// The body is the first `length` of the lent bytes.
    Request {
        style: u8,
        code: u8,
        length: usize,
    },
    Refused(u8),
}

impl Reader {
    pub fn new(carrier: u8) -> Reader {
        Reader {
            carrier,
            phase: OUTSIDE,
            escape: false,
            style: 0,
            code: 0,
            count: 0,
        }
    }

    /// Stopped, or a record beyond its limits.
    #[inline]
    pub fn stopped(&self) -> bool {
        match (self.phase, self.carrier) {
            (OUTSIDE, SERIAL | PARALLEL) => (self.style, self.code, self.count) != (0, 0, 0),
            (INSIDE, SERIAL) => self.style > LAST_STYLE || self.beyond(),
            (INSIDE, PARALLEL) => self.style != 0 || self.beyond(),
            _ => true,
        }
    }

    /// The code has no body, or the count is not below its longest one.
    #[inline]
    fn beyond(&self) -> bool {
        self.code & 1 != 0 || self.code > LAST_CODE || self.count >= longest(self.code)
    }

    /// Reads one raw byte.
    #[inline]
    pub fn read(&mut self, raw: u8, body: &mut [u8; BODY]) -> Read {
        if self.stopped() {
            return Read::Refused(READER_STOPPED);
        }
        // The parallel carrier has no escapes: a byte taken leaves none (the rules
        // of the proofs; the protocol is silent).
        if self.carrier == PARALLEL {
            return match self.phase {
                INSIDE => self.take(raw, body),
                _ if raw & 1 != 0 || raw > LAST_CODE => self.refuse(NOT_CARRIED),
                _ => self.begin(0, raw),
            };
        }
        match (self.phase, unit(self.escape, raw)) {
            (INSIDE, Unit::Data(byte)) => self.take(byte, body),
            (INSIDE, Unit::Mark(_)) => self.refuse(MARK_INSIDE),
            (INSIDE, Unit::Escape) => {
                self.escape = true;
                Read::More
            }
            (_, Unit::Data(byte)) => {
                self.rest(false);
                Read::Character(byte)
            }
            (_, Unit::Mark(mark)) => {
                let code = mark & 0x1F;
                if mark & 0x81 != 0 || code > LAST_CODE {
                    return self.refuse(NOT_CARRIED);
                }
                self.begin(mark >> 5, code)
            }
            (_, Unit::Escape) => {
                self.rest(true);
                Read::More
            }
        }
    }

    fn refuse(&mut self, number: u8) -> Read {
        self.phase = STOPPED;
        Read::Refused(number)
    }

    /// Outside a request, nothing kept but the escape.
    fn rest(&mut self, escape: bool) {
        *self = Reader {
            escape,
            ..Reader::new(self.carrier)
        };
    }

    fn begin(&mut self, style: u8, code: u8) -> Read {
        self.rest(false);
        if code == 0 {
            return Read::Request {
                style,
                code,
                length: 0,
            };
        }
        self.phase = INSIDE;
        self.style = style;
        self.code = code;
        Read::More
    }

    /// Takes one byte of the body.
    #[inline]
    fn take(&mut self, byte: u8, body: &mut [u8; BODY]) -> Read {
        let last = match is_last(self.code, self.count, byte, body) {
            Ok(last) => last,
            Err(number) => return self.refuse(number),
        };
        body[self.count] = byte;
        let length = self.count + 1;
        if !last {
            self.count = length;
            self.escape = false;
            return Read::More;
        }
        let (style, code) = (self.style, self.code);
        self.rest(false);
        Read::Request {
            style,
            code,
            length,
        }
    }
}

#[inline]
fn longest(code: u8) -> usize {
    LONGEST[code as usize / 2]
}

/// Whether `byte`, at index `count` of the body, is its last one, or why it is
/// refused.
#[inline]
fn is_last(code: u8, count: usize, byte: u8, body: &[u8; BODY]) -> Result<bool, u8> {
    match (code, count) {
        (0x02, _) => ends_string(count, byte),
        (0x04, 1) if byte >= 0x80 => Err(BROKEN_RULE),
        (0x06, 2) if byte < 0x80 => Err(BROKEN_RULE),
        (0x08, 0) if byte == 0 => Err(BROKEN_RULE),
        (0x08, 0 | 1) => Ok(false),
        (0x08, _) => Ok(count - 2 >= body[1] as usize),
        (0x12, 0) => Ok(false),
        (0x12, _) if body[0] == 0 => Ok(true),
        (0x12, _) => ends_string(count - 1, byte),
        (0x14, ..FILE_BLOCK) => Ok(false),
        (0x14, FILE_BLOCK) => ends_string(0, byte).map(|_| false),
        (0x14, _) if body[count - 1] == STRING_END => Ok(true),
        (0x14, _) => ends_string(count - FILE_BLOCK, byte).map(|_| false),
        _ => Ok(count + 1 == longest(code)),
    }
}

/// Whether `byte` ends a string that has `count` bytes so far.
#[inline]
pub fn ends_string(count: usize, byte: u8) -> Result<bool, u8> {
    match byte == STRING_END {
        true if count <= LONGEST_STRING => Ok(true),
        false if count < LONGEST_STRING => Ok(false),
        _ => Err(LONG_STRING),
    }
}

/// The length of the name in an OSFILE body, or the number of the refusal.
pub fn file_name(body: &[u8]) -> Result<usize, u8> {
    let behind = body.get(FILE_BLOCK..).unwrap_or(&[]);
    match behind.iter().position(|&byte| byte == STRING_END) {
        Some(length) if length <= LONGEST_STRING => Ok(length),
        _ if behind.len() > LONGEST_STRING => Err(LONG_STRING),
        _ => Err(BROKEN_RULE),
    }
}

// ---- The fields of a request ----

/// The fields of a request that was read; 0, or an empty range at 0, where its
/// call has none.
#[derive(Clone, PartialEq, Default, Debug)]
pub struct Asked {
    pub call: u8,
    pub x: u8,
    pub y: u8,
    pub a: u8,
    pub out_length: u8,
    pub block: Range<usize>,
    pub text: Range<usize>,
}

/// Takes the body of a request apart. It may be unfinished: a byte that is not
/// there counts as 0, and a part starts and ends where the body ends at the latest.
pub fn asked(code: u8, body: &[u8]) -> Asked {
    let byte = |at: usize| body.get(at).copied().unwrap_or(0);
    let last = body.last().copied().unwrap_or(0);
    // What follows the first `before` bytes, up to the last `behind`.
    let between = |before: usize, behind: usize| {
        let start = before.min(body.len());
        start..body.len().saturating_sub(behind).max(start)
    };
    let of = |call: u8| Asked {
        call,
        ..Asked::default()
    };
    match code {
        0x00 => of(OSRDCH),
        0x02 => Asked {
            text: between(0, 1),
            ..of(OSCLI)
        },
        0x04 => Asked {
            x: byte(0),
            a: byte(1),
            ..of(OSBYTE_LOW)
        },
        0x06 => Asked {
            x: byte(0),
            y: byte(1),
            a: byte(2),
            ..of(OSBYTE_HIGH)
        },
        0x08 => Asked {
            a: byte(0),
            block: between(2, 1),
            out_length: last,
            ..of(OSWORD)
        },
        0x0A => Asked {
            block: between(0, 0),
            ..of(OSWORD_0)
        },
        0x0C => Asked {
            y: byte(0),
            block: first(between(1, 0), ARGS_BLOCK),
            a: byte(5),
            ..of(OSARGS)
        },
        0x0E => Asked {
            y: byte(0),
            ..of(OSBGET)
        },
        0x10 => Asked {
            y: byte(0),
            a: byte(1),
            ..of(OSBPUT)
        },
        0x12 if byte(0) == 0 => Asked {
            y: byte(1),
            ..of(OSFIND_CLOSE)
        },
        0x12 => Asked {
            a: byte(0),
            text: between(1, 1),
            ..of(OSFIND_OPEN)
        },
        0x14 => Asked {
            block: first(between(0, 0), FILE_BLOCK),
            text: between(FILE_BLOCK, 2),
            a: last,
            ..of(OSFILE)
        },
        0x16 => Asked {
            block: first(between(0, 0), GBPB_BLOCK),
            a: byte(13),
            ..of(OSGBPB)
        },
        _ => of(NO_CALL),
    }
}

/// The first bytes of a range, at most so many.
fn first(range: Range<usize>, most: usize) -> Range<usize> {
    range.start..range.end.min(range.start + most)
}

// ---- The writer ----

/// A request to be written. Numbers that the call does not have are ignored.
#[derive(Clone, Copy, Debug)]
pub struct Request<'a> {
    pub carrier: u8,
    pub style: u8,
    pub call: u8,
    pub x: u8,
    pub y: u8,
    pub a: u8,
    pub out_length: u8,
    pub block: &'a [u8],
    pub text: &'a [u8],
}

/// The fields of a body around its block and its string.
struct Fields {
    code: u8,
    head: [u8; 3],
    head_length: usize,
    /// The block lengths that the call allows.
    block: (usize, usize),
    string: bool,
    tail: Option<u8>,
    /// The numbers keep their rule.
    good: bool,
}

impl Fields {
    fn new(code: u8, head: &[u8]) -> Fields {
        let mut fields = Fields {
            code,
            head: [0; 3],
            head_length: head.len(),
            block: (0, 0),
            string: false,
            tail: None,
            good: true,
        };
        fields.head[..head.len()].copy_from_slice(head);
        fields
    }

    fn block(self, least: usize, most: usize) -> Fields {
        Fields {
            block: (least, most),
            ..self
        }
    }

    fn string(self) -> Fields {
        Fields {
            string: true,
            ..self
        }
    }

    fn tail(self, byte: u8) -> Fields {
        Fields {
            tail: Some(byte),
            ..self
        }
    }

    fn only_if(self, good: bool) -> Fields {
        Fields { good, ..self }
    }
}

impl Request<'_> {
    fn fields(&self) -> Option<Fields> {
        let Request { x, y, a, .. } = *self;
        let fields = match self.call {
            OSRDCH => Fields::new(0x00, &[]),
            OSCLI => Fields::new(0x02, &[]).string(),
            OSBYTE_LOW => Fields::new(0x04, &[x, a]).only_if(a < 0x80),
            OSBYTE_HIGH => Fields::new(0x06, &[x, y, a]).only_if(a >= 0x80),
            OSWORD => Fields::new(0x08, &[a, self.block.len() as u8])
                .block(0, 255)
                .tail(self.out_length)
                .only_if(a != 0),
            OSWORD_0 => Fields::new(0x0A, &[]).block(5, 5),
            OSARGS => Fields::new(0x0C, &[y])
                .block(ARGS_BLOCK, ARGS_BLOCK)
                .tail(a),
            OSBGET => Fields::new(0x0E, &[y]),
            OSBPUT => Fields::new(0x10, &[y, a]),
            OSFIND_CLOSE => Fields::new(0x12, &[0, y]),
            OSFIND_OPEN => Fields::new(0x12, &[a]).string().only_if(a != 0),
            OSFILE => Fields::new(0x14, &[])
                .block(FILE_BLOCK, FILE_BLOCK)
                .string()
                .tail(a),
            OSGBPB => Fields::new(0x16, &[]).block(GBPB_BLOCK, GBPB_BLOCK).tail(a),
            _ => return None,
        };
        Some(fields)
    }

    /// Writes the request to the start of `out`: the length of the encoding, or
    /// the refusal.
    pub fn write(&self, out: &mut [u8]) -> Result<usize, u8> {
        let (block, text) = (self.block, self.text);
        let fields = self.fields().ok_or(NOT_CARRIED)?;
        if text.len() > LONGEST_STRING {
            return Err(LONG_STRING);
        }
        let last_style = match self.carrier {
            SERIAL => LAST_STYLE,
            PARALLEL => 0,
            _ => return Err(BROKEN_RULE),
        };
        let (least, most) = fields.block;
        if self.style > last_style
            || !fields.good
            || block.len() < least
            || block.len() > most
            || !fields.string && !text.is_empty()
            || text.contains(&STRING_END)
        {
            return Err(BROKEN_RULE);
        }

        let head = &fields.head[..fields.head_length];
        let end: &[u8] = if fields.string { &[STRING_END] } else { &[] };
        let parts = [head, block, text, end, fields.tail.as_slice()];
        if self.carrier == PARALLEL {
            return put_parallel(out, &[fields.code], parts);
        }
        put_serial(out, &[ESCAPE, self.style << 5 | fields.code], parts)
    }
}

/// Puts bytes to the start of `out` as they are: the length, or the refusal where
/// they do not fit.
#[inline(always)]
pub fn put_parallel(out: &mut [u8], heading: &[u8], parts: [&[u8]; 5]) -> Result<usize, u8> {
    let plain: usize = parts.iter().map(|part| part.len()).sum();
    let size = heading.len() + plain;
    let out = out.get_mut(..size).ok_or(SHORT_BUFFER)?;
    let (start, rest) = out.split_at_mut(heading.len());
    start.copy_from_slice(heading);
    put_plain(rest, parts);
    Ok(size)
}

/// Puts raw bytes and then data bytes to the start of `out`: the length, or the
/// refusal where they do not fit.
#[inline(always)]
pub fn put_serial(out: &mut [u8], heading: &[u8], parts: [&[u8]; 5]) -> Result<usize, u8> {
    let plain: usize = parts.iter().map(|part| part.len()).sum();
    let doubled: usize = parts.iter().map(|part| escapes(part)).sum();
    let size = heading.len() + plain + doubled;
    let out = out.get_mut(..size).ok_or(SHORT_BUFFER)?;
    let (start, rest) = out.split_at_mut(heading.len());
    start.copy_from_slice(heading);
    if doubled == 0 {
        put_plain(rest, parts);
    } else {
        put_escaped(rest, parts);
    }
    Ok(size)
}

fn put_plain(mut out: &mut [u8], parts: [&[u8]; 5]) {
    for part in parts {
        let (place, rest) = out.split_at_mut(part.len());
        place.copy_from_slice(part);
        out = rest;
    }
}

fn put_escaped(out: &mut [u8], parts: [&[u8]; 5]) {
    let mut at = 0;
    for part in parts {
        // Pieces without an escape are copied whole.
        for piece in part.chunks(16) {
            if escapes(piece) == 0 {
                out[at..at + piece.len()].copy_from_slice(piece);
                at += piece.len();
                continue;
            }
            for &byte in piece {
                out[at] = byte;
                at += 1;
                if byte == ESCAPE {
                    out[at] = ESCAPE;
                    at += 1;
                }
            }
        }
    }
}

#[cfg(test)]
mod tests {
    use super::*;

    const MORE: Read = Read::More;

    /// Reads a stream with a fresh reader: the answers and the lent bytes.
    fn read(carrier: u8, stream: &[u8]) -> (Vec<Read>, [u8; BODY]) {
        let mut reader = Reader::new(carrier);
        let mut body = [0xEE; BODY];
        let answers = stream
            .iter()
            .map(|&raw| reader.read(raw, &mut body))
            .collect();
        (answers, body)
    }

    fn last(carrier: u8, stream: &[u8]) -> Read {
        let (answers, _) = read(carrier, stream);
        let (last, before) = answers.split_last().unwrap();
        assert!(before.iter().all(|&answer| answer == MORE));
        *last
    }

    fn request(style: u8, code: u8, length: usize) -> Read {
        Read::Request {
            style,
            code,
            length,
        }
    }

    fn blank(carrier: u8, call: u8) -> Request<'static> {
        Request {
            carrier,
            style: 0,
            call,
            x: 0,
            y: 0,
            a: 0,
            out_length: 0,
            block: &[],
            text: &[],
        }
    }

    #[test]
    fn c9_osargs() {
        let stream = [0x9B, 0x0C, 0x9B, 0x9B, 0, 0, 1, 0x9B, 0x9B, 1];
        let (answers, body) = read(SERIAL, &stream);
        assert!(answers[..9].iter().all(|&answer| answer == MORE));
        assert_eq!(answers[9], request(0, 0x0C, 6));
        assert_eq!(body[..6], [0x9B, 0, 0, 1, 0x9B, 1]);
        assert!(body[6..].iter().all(|&byte| byte == 0xEE));
        let osargs = Request {
            y: 0x9B,
            a: 1,
            block: &[0, 0, 1, 0x9B],
            ..blank(SERIAL, 6)
        };
        let mut out = [0; 10];
        assert_eq!(osargs.write(&mut out), Ok(10));
        assert_eq!(out, stream);
    }

    #[test]
    fn c11_osbyte_low_with_a_high_a() {
        assert_eq!(last(SERIAL, &[0x9B, 0x04, 0x00, 0x80]), Read::Refused(9));
        let low = Request {
            a: 0x80,
            ..blank(SERIAL, 2)
        };
        assert_eq!(low.write(&mut []), Err(9));
    }

    #[test]
    fn c12_mark_inside() {
        assert_eq!(last(SERIAL, &[0x9B, 0x04, 0x9B, 0x02]), Read::Refused(5));
    }

    #[test]
    fn c13_osword_without_bytes() {
        let stream = [0x9B, 0x08, 0x01, 0x00, 0x00];
        assert_eq!(last(SERIAL, &stream), request(0, 0x08, 3));
        let osword = Request {
            a: 1,
            ..blank(SERIAL, 4)
        };
        let mut out = [0; 5];
        assert_eq!(osword.write(&mut out), Ok(5));
        assert_eq!(out, stream);
    }

    #[test]
    fn c14_code_not_carried() {
        assert_eq!(last(SERIAL, &[0x9B, 0x18]), Read::Refused(4));
        assert_eq!(last(PARALLEL, &[0x18]), Read::Refused(4));
    }

    #[test]
    fn each_call_written_and_read_again() {
        let bytes: Vec<u8> = (0..=255).collect();
        let string: Vec<u8> = bytes.iter().copied().filter(|&byte| byte != 0x0D).collect();
        assert_eq!(string.len(), 255);
        let with_end = [&string[..], &[0x0D]].concat();
        let block = &bytes[0x90..];
        let cases: [(u8, u8, &[u8], &[u8], u8, Vec<u8>); 13] = [
            (0, 0x00, &[], &[], 9, vec![]),
            (1, 0x02, &[], &string, 9, with_end.clone()),
            (2, 0x04, &[], &[], 0x7F, vec![0x9B, 0x7F]),
            (3, 0x06, &[], &[], 0x9B, vec![0x9B, 8, 0x9B]),
            (
                4,
                0x08,
                &bytes[..255],
                &[],
                0x9B,
                [&[0x9B, 255], &bytes[..255], &[0x9B]].concat(),
            ),
            (5, 0x0A, &block[9..14], &[], 9, block[9..14].to_vec()),
            (
                6,
                0x0C,
                &block[8..12],
                &[],
                9,
                [&[8], &block[8..12], &[9]].concat(),
            ),
            (7, 0x0E, &[], &[], 9, vec![8]),
            (8, 0x10, &[], &[], 0x9B, vec![8, 0x9B]),
            (9, 0x12, &[], &[], 9, vec![0, 8]),
            (
                10,
                0x12,
                &[],
                &string,
                0x9B,
                [&[0x9B], &with_end[..]].concat(),
            ),
            (
                11,
                0x14,
                &block[..16],
                &string,
                0x9B,
                [&block[..16], &with_end, &[0x9B]].concat(),
            ),
            (
                12,
                0x16,
                &block[..13],
                &[],
                9,
                [&block[..13], &[9]].concat(),
            ),
        ];
        for (call, code, block, text, a, plain) in cases {
            for (carrier, style) in [(0, 0), (0, 1), (0, 2), (0, 3), (1, 0)] {
                let written = Request {
                    carrier,
                    style,
                    call,
                    x: 0x9B,
                    y: 8,
                    a,
                    out_length: 0x9B,
                    block,
                    text,
                };
                let mut out = vec![0xDD; 600];
                let size = written.write(&mut out).unwrap();
                let expected_size = match carrier {
                    SERIAL => 2 + plain.len() + escapes(&plain),
                    _ => 1 + plain.len(),
                };
                assert_eq!(size, expected_size);
                assert!(out[size..].iter().all(|&byte| byte == 0xDD));
                assert_eq!(
                    last(carrier, &out[..size]),
                    request(style, code, plain.len())
                );
                let (_, body) = read(carrier, &out[..size]);
                assert_eq!(body[..plain.len()], plain);
                assert!(body[plain.len()..].iter().all(|&byte| byte == 0xEE));
                let asked = asked(code, &plain);
                let numbers = match call {
                    OSBYTE_LOW => (0x9B, 0, a, 0),
                    OSBYTE_HIGH => (0x9B, 8, a, 0),
                    OSWORD => (0, 0, a, 0x9B),
                    OSARGS | OSBPUT => (0, 8, a, 0),
                    OSBGET | OSFIND_CLOSE => (0, 8, 0, 0),
                    OSFIND_OPEN | OSFILE | OSGBPB => (0, 0, a, 0),
                    _ => (0, 0, 0, 0),
                };
                assert_eq!(asked.call, call);
                assert_eq!((asked.x, asked.y, asked.a, asked.out_length), numbers);
                assert_eq!(plain[asked.block], *block);
                assert_eq!(plain[asked.text], *text);

                let mut short = vec![0xDD; size - 1];
                assert_eq!(written.write(&mut short), Err(8));
                assert!(short.iter().all(|&byte| byte == 0xDD));
                assert_eq!(written.write(&mut out[..size]), Ok(size));
            }
        }
    }

    #[test]
    fn characters_between_requests() {
        let stream = [0x41, 0x9B, 0x9B, 0x9B, 0x60, 0x0D, 0x9B, 0x2E, 0x07];
        let (answers, _) = read(SERIAL, &stream);
        let expected = [
            Read::Character(0x41),
            MORE,
            Read::Character(0x9B),
            MORE,
            request(3, 0, 0),
            Read::Character(0x0D),
            MORE,
            MORE,
            request(1, 0x0E, 1),
        ];
        assert_eq!(answers, expected);
    }

    #[test]
    fn every_mark_and_first_byte() {
        for raw in 0..=255 {
            let good = raw & 0x81 == 0 && raw & 0x1F <= 0x16;
            let expected = match raw {
                0x9B => Read::Character(0x9B),
                _ if !good => Read::Refused(4),
                _ if raw & 0x1F == 0 => request(raw >> 5, 0, 0),
                _ => MORE,
            };
            assert_eq!(last(SERIAL, &[0x9B, raw]), expected);
            let expected = match raw {
                0 => request(0, 0, 0),
                _ if raw <= 0x16 && raw % 2 == 0 => MORE,
                _ => Read::Refused(4),
            };
            assert_eq!(last(PARALLEL, &[raw]), expected);
        }
    }

    #[test]
    fn long_strings() {
        let starts: [(&[u8], &[u8]); 3] = [(&[2], &[]), (&[0x12, 1], &[]), (&[0x14], &[0x0D; 16])];
        for (start, block) in starts {
            let mut stream = [start, block].concat();
            stream.extend([0x20; 255]);
            let end = [&stream[..], &[0x0D]].concat();
            let length = end.len() - 1;
            if start[0] == 0x14 {
                let whole = [&end[..], &[0x0D]].concat();
                assert_eq!(last(PARALLEL, &whole), request(0, 0x14, BODY));
            } else {
                assert_eq!(last(PARALLEL, &end), request(0, start[0], length));
            }
            stream.push(0x20);
            assert_eq!(last(PARALLEL, &stream), Read::Refused(6));
        }
    }

    #[test]
    fn the_first_refusal_that_applies() {
        let bad = |carrier: u8, call: u8, length: usize| {
            Request {
                style: 9,
                text: &[0x0D; 256][..length],
                ..blank(carrier, call)
            }
            .write(&mut [])
        };
        for carrier in [SERIAL, PARALLEL, 2, 255] {
            for call in 0..=255 {
                let (long, given) = match call {
                    ..=OSGBPB => (6, 9),
                    _ => (4, 4),
                };
                assert_eq!(bad(carrier, call, 256), Err(long));
                assert_eq!(bad(carrier, call, 255), Err(given));
                assert_eq!(bad(carrier, call, 0), Err(given));
            }
        }
        assert_eq!(blank(2, OSRDCH).write(&mut [0; 9]), Err(9));
    }

    #[test]
    fn a_stopped_reader_stays() {
        let mut reader = Reader::new(SERIAL);
        let mut body = [0; BODY];
        for raw in [0x9B, 0x26, 1, 2, 0x9B] {
            assert_eq!(reader.read(raw, &mut body), MORE);
        }
        assert_eq!(reader.read(0x00, &mut body), Read::Refused(5));
        let stopped = Reader {
            carrier: SERIAL,
            phase: STOPPED,
            escape: true,
            style: 1,
            code: 6,
            count: 2,
        };
        assert_eq!(reader, stopped);
        for raw in 0..=255 {
            assert_eq!(reader.read(raw, &mut body), Read::Refused(7));
        }
        assert_eq!(reader, stopped);
    }

    #[test]
    fn fields_of_unfinished_bodies() {
        let codes = (0..12).map(|half| 2 * half);
        for code in codes.clone() {
            let call = code / 2 + (code > 0x12) as u8;
            let nothing = Asked {
                call,
                ..Asked::default()
            };
            assert_eq!(asked(code, &[]), nothing);
        }
        for code in (0..=255).filter(|&code| !codes.clone().any(|one| one == code)) {
            let none = Asked {
                call: NO_CALL,
                ..Asked::default()
            };
            assert_eq!(asked(code, &[1; 300]), none);
        }
        let parts = |code: u8, length: usize| {
            let asked = asked(code, &[7; 300][..length]);
            (asked.block, asked.text)
        };
        assert_eq!(parts(0x02, 1), (0..0, 0..0));
        assert_eq!(parts(0x02, 300), (0..0, 0..299));
        assert_eq!(parts(0x08, 1), (1..1, 0..0));
        assert_eq!(parts(0x08, 2), (2..2, 0..0));
        assert_eq!(parts(0x08, 4), (2..3, 0..0));
        assert_eq!(parts(0x0A, 3), (0..3, 0..0));
        assert_eq!(parts(0x0A, 9), (0..9, 0..0));
        assert_eq!(parts(0x0C, 3), (1..3, 0..0));
        assert_eq!(parts(0x0C, 9), (1..5, 0..0));
        assert_eq!(parts(0x12, 1), (0..0, 1..1));
        assert_eq!(parts(0x12, 3), (0..0, 1..2));
        assert_eq!(parts(0x14, 9), (0..9, 9..9));
        assert_eq!(parts(0x14, 17), (0..16, 16..16));
        assert_eq!(parts(0x14, 20), (0..16, 16..18));
        assert_eq!(parts(0x16, 5), (0..5, 0..0));
        assert_eq!(parts(0x16, 20), (0..13, 0..0));

        let osword = asked(0x08, &[9]);
        assert_eq!((osword.a, osword.out_length), (9, 9));
        assert_eq!(asked(0x14, &[1, 2, 3]).a, 3);
        assert_eq!(asked(0x16, &[1; 13]).a, 0);
        let osargs = asked(0x0C, &[1, 2, 3, 4, 5, 6, 7]);
        assert_eq!((osargs.y, osargs.a), (1, 6));
        let close = asked(0x12, &[0, 3, 4]);
        assert_eq!((close.call, close.y, close.a), (OSFIND_CLOSE, 3, 0));
    }

    #[test]
    fn names_in_bodies() {
        let body = |name: usize| [&[STRING_END; FILE_BLOCK][..], &vec![b'A'; name]].concat();
        let ended = |name: usize| [body(name), vec![STRING_END, 1]].concat();
        assert_eq!(file_name(&ended(0)), Ok(0));
        assert_eq!(file_name(&ended(255)), Ok(255));
        assert_eq!(file_name(&ended(256)), Err(6));
        assert_eq!(file_name(&body(256)), Err(6));
        assert_eq!(file_name(&body(255)), Err(9));
        assert_eq!(file_name(&[STRING_END; 3]), Err(9));
    }

    #[test]
    fn records_beyond_their_limits() {
        let stopped = |carrier: u8, phase: u8, style: u8, code: u8, count: usize| {
            Reader {
                carrier,
                phase,
                escape: false,
                style,
                code,
                count,
            }
            .stopped()
        };
        for half in 1..12 {
            let (code, longest) = (2 * half, LONGEST[half as usize]);
            assert!(!stopped(SERIAL, INSIDE, 3, code, longest - 1));
            assert!(stopped(SERIAL, INSIDE, 3, code, longest));
            assert!(stopped(SERIAL, INSIDE, 4, code, 0));
            assert!(stopped(SERIAL, INSIDE, 0, code + 1, 0));
            assert!(!stopped(PARALLEL, INSIDE, 0, code, longest - 1));
            assert!(stopped(PARALLEL, INSIDE, 1, code, 0));
            assert!(stopped(2, INSIDE, 0, code, 0));
        }
        assert!(stopped(SERIAL, INSIDE, 0, 0x00, 0));
        assert!(stopped(SERIAL, INSIDE, 0, 0x18, 0));
        for carrier in [SERIAL, PARALLEL] {
            assert!(!stopped(carrier, OUTSIDE, 0, 0, 0));
            assert!(stopped(carrier, OUTSIDE, 1, 0, 0));
            assert!(stopped(carrier, OUTSIDE, 0, 2, 0));
            assert!(stopped(carrier, OUTSIDE, 0, 0, 1));
            assert!(stopped(carrier, OUTSIDE, 0, 0, 0x1_0000));
        }
        assert!(stopped(2, OUTSIDE, 0, 0, 0));
        assert!(stopped(SERIAL, STOPPED, 0, 0, 0));
        assert!(stopped(SERIAL, 3, 0, 0, 0));
    }
}
