//! A second program for the replies and actions of the serial protocol: the link
//! that reads them byte by byte, with its block transfers, the loop over it, the
//! replies of the parallel side byte by byte, the reply writer for both, and the
//! fields of a finished reply. It is written from the rules and shares nothing with
//! the proved library.

/// The reader of a whole recorded reply, which does not use the link.
#[path = "recorded.rs"]
pub mod recorded;

// Its escape layer, strings and refusals are used here, its requests in tests.
#[allow(dead_code)]
#[path = "serial.rs"]
pub mod serial;

use serial::{
    ARGS_BLOCK, BROKEN_RULE, FILE_BLOCK, GBPB_BLOCK, LONG_STRING, LONGEST_STRING, MARK_INSIDE,
    NOT_CARRIED, PARALLEL, READER_STOPPED, SERIAL, SHORT_BUFFER, STRING_END, Unit, ends_string,
    put_parallel, put_serial, unit,
};
pub use serial::{
    NO_CALL, OSARGS, OSBGET, OSBPUT, OSBYTE_HIGH, OSBYTE_LOW, OSCLI, OSFILE, OSFIND_CLOSE,
    OSFIND_OPEN, OSGBPB, OSRDCH, OSWORD, OSWORD_0,
};
use std::ops::Range;

/// How many calls there are.
pub const CALLS: u8 = 13;

/// A call begun while another waits.
const CALL_WAITS: u8 = 12;
/// A transfer where as many as may be are open.
const TOO_DEEP: u8 = 13;

/// The bytes lent for a reply, and those lent for an action's own bytes: the
/// longest are a line with its first byte and its end, and an error's number
/// with its text and end.
pub const LENT: usize = 257;

/// The most bytes that a reply to each call has; OSWORD's is its out length.
const MOST: [usize; CALLS as usize] = [2, 1, 1, 3, 0, LENT, 5, 2, 1, 1, 1, 17, 15];

// ---- The link ----

/// No call waits.
const IDLE: u8 = 0;
/// What waits where an OSWORD 0 does.
const WAIT_LINE: u8 = 1 + OSWORD_0;
/// What waits where an OSWORD does.
pub const WAIT_BLOCK: u8 = 1 + OSWORD;

// Open actions.
pub const NO_ACTION: u8 = 0;
pub const ERROR: u8 = 1;
pub const EVENT: u8 = 2;
pub const ADDRESS: u8 = 3;
pub const EXECUTE: u8 = 4;
pub const LOAD: u8 = 5;
pub const SAVE: u8 = 6;
/// The number of a control block is this and its length, 1 to 127.
pub const IN_BLOCK: u8 = 128;
pub const SHORTEST_BLOCK: u8 = IN_BLOCK + 1;

/// The most own bytes of an action; 0 of a number that is none.
#[inline]
fn most_own(action: u8) -> usize {
    match action {
        ERROR => LENT,
        EVENT => 3,
        ADDRESS..=SAVE => 4,
        SHORTEST_BLOCK.. => (action - IN_BLOCK) as usize,
        _ => 0,
    }
}

const TEXT_END: u8 = 0x00;

/// A block transfer; the host sends the data of a load.
#[derive(Clone, Copy, PartialEq, Debug)]
pub enum Transfer {
    Load,
    Save,
}

/// How many transfers may be open.
pub const TRANSFERS: usize = 4;

#[derive(Clone, Copy, PartialEq, Debug)]
pub struct Link {
    /// Idle, or one more than the number of the call that waits.
    pub wait: u8,
    /// The out length of the OSWORD that waits.
    pub out_length: u8,
    /// How many bytes of the reply have been taken.
    pub got: usize,
    /// The open action, and how many of its own bytes have been taken.
    pub action: u8,
    pub held: usize,
    /// The open transfers, the innermost first.
    pub open: [Option<Transfer>; TRANSFERS],
    /// The last raw byte was the first of an escape pair.
    pub escape: bool,
    pub stopped: bool,
}

/// The answer to a call begun.
#[derive(Clone, Copy, PartialEq, Debug)]
pub enum Begun {
    Waits,
    Complete,
    Refused(u8),
}

/// The answer to one raw byte.
#[derive(Clone, Copy, PartialEq, Debug)]
pub enum Told {
    More,
    Character(u8),
    /// The new Escape state.
    Escape(bool),
    /// Y, X, A.
    Event([u8; 3]),
    /// High byte first.
    Address([u8; 4]),
    /// The reply is as many of the first bytes lent for it.
    Reply(usize),
    /// The text has this length and follows the number in the own bytes.
    Error {
        number: u8,
        length: usize,
    },
    Restart,
    Refused(u8),
    /// The control block is as many of the first own bytes.
    Block(usize),
    /// The address, high byte first.
    Execute([u8; 4]),
    /// A transfer that is open from here on, with its address.
    Opened(Transfer, [u8; 4]),
    /// A byte of the innermost open load.
    Data(u8),
    /// The transfer that its end has closed.
    Closed(Transfer),
}

impl Link {
    pub fn new() -> Link {
        Link {
            wait: IDLE,
            out_length: 0,
            got: 0,
            action: NO_ACTION,
            held: 0,
            open: [None; TRANSFERS],
            escape: false,
            stopped: false,
        }
    }

    /// Stopped, or a record beyond its limits.
    #[inline]
    pub fn stopped(&self) -> bool {
        self.stopped || self.reply_beyond() || self.action_beyond() || self.open_beyond()
    }

    #[inline]
    fn reply_beyond(&self) -> bool {
        match self.wait {
            IDLE => self.got != 0,
            1..=CALLS => self.got >= self.most(),
            _ => true,
        }
    }

    #[inline]
    fn action_beyond(&self) -> bool {
        match self.action {
            NO_ACTION => self.held != 0,
            action => self.held >= most_own(action),
        }
    }

    /// A transfer is being opened where no more may be open.
    #[inline]
    fn open_beyond(&self) -> bool {
        matches!(self.action, LOAD | SAVE) && self.full()
    }

    /// As many transfers as may be are open.
    #[inline]
    fn full(&self) -> bool {
        self.open[TRANSFERS - 1].is_some()
    }

    /// The most bytes of the reply that is waited for.
    #[inline]
    fn most(&self) -> usize {
        match self.wait {
            WAIT_BLOCK => self.out_length as usize,
            wait => MOST[wait as usize - 1],
        }
    }

    /// Begins a call. The open action, the open transfers and the escape stay.
    pub fn begin(&mut self, call: u8, out_length: u8) -> Begun {
        if self.stopped() {
            return Begun::Refused(READER_STOPPED);
        }
        if self.wait != IDLE {
            return Begun::Refused(CALL_WAITS);
        }
        if call >= CALLS {
            return Begun::Refused(NOT_CARRIED);
        }
        let out_length = if call == OSWORD { out_length } else { 0 };
        if call == OSWORD && out_length == 0 {
            return Begun::Complete;
        }
        self.wait = 1 + call;
        self.out_length = out_length;
        Begun::Waits
    }

    /// Reads one raw byte.
    #[inline]
    pub fn step(&mut self, raw: u8, reply: &mut [u8; LENT], own: &mut [u8; LENT]) -> Told {
        if self.stopped() {
            return Told::Refused(READER_STOPPED);
        }
        match (unit(self.escape, raw), self.action) {
            (Unit::Escape, _) => {
                self.escape = true;
                Told::More
            }
            (Unit::Mark(mark), NO_ACTION) => self.begin_action(mark),
            (Unit::Mark(_), _) => self.refuse(MARK_INSIDE),
            (Unit::Data(byte), NO_ACTION) => self.take(byte, reply),
            (Unit::Data(byte), _) => self.take_own(byte, own),
        }
    }

    fn refuse(&mut self, number: u8) -> Told {
        self.stopped = true;
        Told::Refused(number)
    }

    /// Begins the action of a mark; the Escape state and an end have no bytes of
    /// their own.
    fn begin_action(&mut self, mark: u8) -> Told {
        let (action, told) = match mark {
            0x00 => (ERROR, Told::More),
            0x01..=0x7F => (IN_BLOCK + mark, Told::More),
            0x80..=0x8F => (NO_ACTION, Told::Escape(mark & 1 != 0)),
            0x90..=0x9F => (EVENT, Told::More),
            0xA0..=0xAF => return self.refuse(NOT_CARRIED),
            0xB0..=0xBF => return self.close(),
            0xC0..=0xCF => (ADDRESS, Told::More),
            0xD0..=0xDF => (EXECUTE, Told::More),
            0xE0..=0xFF if self.full() => return self.refuse(TOO_DEEP),
            0xE0..=0xEF => (LOAD, Told::More),
            0xF0..=0xFF => (SAVE, Told::More),
        };
        self.action = action;
        self.escape = false;
        told
    }

    /// Closes the innermost open transfer.
    fn close(&mut self) -> Told {
        let Some(innermost) = self.open[0] else {
            return self.refuse(MARK_INSIDE);
        };
        self.open.copy_within(1.., 0);
        self.open[TRANSFERS - 1] = None;
        self.escape = false;
        Told::Closed(innermost)
    }

    /// Takes a data byte outside an action.
    #[inline]
    fn take(&mut self, byte: u8, reply: &mut [u8; LENT]) -> Told {
        match self.open[0] {
            Some(Transfer::Load) => {
                self.escape = false;
                return Told::Data(byte);
            }
            Some(Transfer::Save) => return self.refuse(BROKEN_RULE),
            None => {}
        }
        if self.wait == IDLE {
            self.escape = false;
            return Told::Character(byte);
        }
        let last = match self.is_last(byte) {
            Ok(last) => last,
            Err(number) => return self.refuse(number),
        };
        reply[self.got] = byte;
        self.escape = false;
        self.got += 1;
        if !last {
            return Told::More;
        }
        let length = self.got;
        self.end_call();
        Told::Reply(length)
    }

    /// Whether `byte` is the reply's last one, or why it is refused.
    #[inline]
    fn is_last(&self, byte: u8) -> Result<bool, u8> {
        match (self.wait, self.got) {
            (WAIT_LINE, 0) => Ok(byte & 0x80 != 0),
            (WAIT_LINE, got) => ends_string(got - 1, byte),
            (_, got) => Ok(got + 1 == self.most()),
        }
    }

    fn end_call(&mut self) {
        self.wait = IDLE;
        self.out_length = 0;
        self.got = 0;
    }

    /// Takes a data byte of the open action.
    #[inline]
    fn take_own(&mut self, byte: u8, own: &mut [u8; LENT]) -> Told {
        let last = match self.is_last_own(byte) {
            Ok(last) => last,
            Err(number) => return self.refuse(number),
        };
        own[self.held] = byte;
        self.escape = false;
        self.held += 1;
        if last {
            self.end_action(own)
        } else {
            Told::More
        }
    }

    /// Whether `byte` is the action's last one, or why it is refused.
    #[inline]
    fn is_last_own(&self, byte: u8) -> Result<bool, u8> {
        match (self.action, self.held) {
            (ERROR, 0) => Ok(false),
            (ERROR, _) if byte == TEXT_END => Ok(true),
            (ERROR, held) if held > LONGEST_STRING => Err(LONG_STRING),
            (ERROR, _) => Ok(false),
            (action, held) => Ok(held + 1 == most_own(action)),
        }
    }

    /// Ends an action whose bytes are all there.
    fn end_action(&mut self, own: &[u8; LENT]) -> Told {
        let (action, held) = (self.action, self.held);
        self.action = NO_ACTION;
        self.held = 0;
        let address = [own[0], own[1], own[2], own[3]];
        match action {
            ERROR => self.end_all(own[0], held - 2),
            EVENT => Told::Event([own[0], own[1], own[2]]),
            ADDRESS => Told::Address(address),
            EXECUTE => Told::Execute(address),
            LOAD => self.open_transfer(Transfer::Load, address),
            SAVE => self.open_transfer(Transfer::Save, address),
            _ => Told::Block(held),
        }
    }

    /// An error or a restart ends the call and closes every transfer.
    fn end_all(&mut self, number: u8, length: usize) -> Told {
        self.end_call();
        self.open = [None; TRANSFERS];
        match (number, length) {
            (0, 0) => Told::Restart,
            _ => Told::Error { number, length },
        }
    }

    /// Opens a transfer inside those that are open; there is a place for it.
    fn open_transfer(&mut self, transfer: Transfer, address: [u8; 4]) -> Told {
        self.open.copy_within(..TRANSFERS - 1, 1);
        self.open[0] = Some(transfer);
        Told::Opened(transfer, address)
    }
}

// ---- The loop ----

/// The bytes of a note.
pub const NOTE: usize = 5;

// The kinds of notes that count bytes of the lent data.
const BLOCK_NOTE: u8 = 9;
const DATA_NOTE: u8 = 13;

/// Where the loop stopped: the last answer, how many raw bytes it has seen, the
/// last one among them whatever its answer, how many notes it has made, and how many
/// bytes of load data and control blocks it has stored.
#[derive(Clone, Copy, PartialEq, Debug)]
pub struct Ran {
    pub told: Told,
    pub used: usize,
    pub noted: usize,
    pub stored: usize,
}

impl Told {
    /// The note of a character or an action that the loop passes over; of load data
    /// it is that of one byte.
    #[inline]
    pub fn note(self) -> Option<[u8; NOTE]> {
        match self {
            Told::Character(byte) => Some([1, byte, 0, 0, 0]),
            Told::Escape(on) => Some([2, on as u8, 0, 0, 0]),
            Told::Event([y, x, a]) => Some([3, y, x, a, 0]),
            Told::Address([a, b, c, d]) => Some([4, a, b, c, d]),
            Told::Block(length) => Some([BLOCK_NOTE, length as u8, 0, 0, 0]),
            Told::Execute([a, b, c, d]) => Some([10, a, b, c, d]),
            Told::Opened(Transfer::Load, [a, b, c, d]) => Some([11, a, b, c, d]),
            Told::Opened(Transfer::Save, [a, b, c, d]) => Some([12, a, b, c, d]),
            Told::Data(_) => Some([DATA_NOTE, 1, 0, 0, 0]),
            Told::Closed(transfer) => Some([14, transfer as u8, 0, 0, 0]),
            _ => None,
        }
    }
}

/// The lent room and data, and how much of each is written.
struct Written<'a> {
    notes: &'a mut [[u8; NOTE]],
    noted: usize,
    data: &'a mut [u8],
    stored: usize,
    /// How many load bytes the last note counts; 0 where it is of another kind.
    counted: u8,
}

impl Written<'_> {
    /// Writes an answer that is passed over, which has this note.
    #[inline]
    fn write(&mut self, told: Told, note: [u8; NOTE], own: &[u8; LENT]) {
        match told {
            Told::Data(byte) => {
                self.store(&[byte]);
                self.count(note);
                return;
            }
            Told::Block(length) => self.store(&own[..length]),
            _ => {}
        }
        self.counted = 0;
        self.note(note);
    }

    #[inline]
    fn note(&mut self, note: [u8; NOTE]) {
        self.notes[self.noted] = note;
        self.noted += 1;
    }

    #[inline]
    fn store(&mut self, bytes: &[u8]) {
        let end = self.stored + bytes.len();
        self.data[self.stored..end].copy_from_slice(bytes);
        self.stored = end;
    }

    /// Counts a load byte in the last note, or in this one where the last is of
    /// another kind or counts as many as a byte can.
    #[inline]
    fn count(&mut self, note: [u8; NOTE]) {
        if matches!(self.counted, 0 | u8::MAX) {
            self.counted = 1;
            self.note(note);
        } else {
            self.counted += 1;
            self.notes[self.noted - 1][1] = self.counted;
        }
    }

    fn ran(&self, told: Told, used: usize) -> Ran {
        Ran {
            told,
            used,
            noted: self.noted,
            stored: self.stored,
        }
    }
}

impl Link {
    /// Reads up to a finished reply, an error, a restart, a refusal or the end of
    /// the raw bytes. The notes go into `room`, which must have one for each byte;
    /// load data and control blocks go into `data`, which must have a byte for each
    /// and for each own byte of the open action.
    #[inline]
    pub fn run(
        &mut self,
        raw: &[u8],
        reply: &mut [u8; LENT],
        own: &mut [u8; LENT],
        room: &mut [u8],
        data: &mut [u8],
    ) -> Ran {
        let (notes, _) = room.as_chunks_mut::<NOTE>();
        let mut written = Written {
            notes,
            noted: 0,
            data,
            stored: 0,
            counted: 0,
        };
        if written.notes.len() < raw.len() || written.data.len() < raw.len() + self.held {
            return written.ran(Told::Refused(SHORT_BUFFER), 0);
        }
        for (at, &byte) in raw.iter().enumerate() {
            let told = self.step(byte, reply, own);
            if told == Told::More {
                continue;
            }
            let Some(note) = told.note() else {
                return written.ran(told, at + 1);
            };
            written.write(told, note, own);
        }
        written.ran(Told::More, raw.len())
    }
}

// ---- Replies on the parallel side ----

/// The answer to one byte of a reply on the parallel side.
#[derive(Clone, Copy, PartialEq, Debug)]
pub enum ReplyByte {
    More,
    Last,
    Refused(u8),
}

/// Takes one byte of the reply to a call, of which `count` bytes have been taken:
/// what a link that waits for the call does with a data byte.
pub fn reply_step(
    (call, out_length): (u8, u8),
    count: &mut usize,
    byte: u8,
    reply: &mut [u8; LENT],
) -> ReplyByte {
    if call >= CALLS {
        return ReplyByte::Refused(NOT_CARRIED);
    }
    let link = Link {
        wait: 1 + call,
        out_length,
        got: *count,
        ..Link::new()
    };
    if link.reply_beyond() {
        return ReplyByte::Refused(READER_STOPPED);
    }
    let last = match link.is_last(byte) {
        Ok(last) => last,
        Err(number) => return ReplyByte::Refused(number),
    };
    reply[*count] = byte;
    *count += 1;
    if last {
        ReplyByte::Last
    } else {
        ReplyByte::More
    }
}

// ---- The kind of a request ----

/// The call of a finished request, and its out length; `NO_CALL` where no request
/// has the code.
pub fn kind_of(code: u8, body: &[u8]) -> (u8, u8) {
    let call = match code {
        0x00 => OSRDCH,
        0x02 => OSCLI,
        0x04 => OSBYTE_LOW,
        0x06 => OSBYTE_HIGH,
        0x08 => return (OSWORD, body.last().copied().unwrap_or(0)),
        0x0A => OSWORD_0,
        0x0C => OSARGS,
        0x0E => OSBGET,
        0x10 => OSBPUT,
        0x12 if matches!(body, [] | [0, ..]) => OSFIND_CLOSE,
        0x12 => OSFIND_OPEN,
        0x14 => OSFILE,
        0x16 => OSGBPB,
        _ => NO_CALL,
    };
    (call, 0)
}

// ---- The fields of a reply ----

// Replies.
pub const CARRY_A: u8 = 0;
pub const ACK: u8 = 1;
pub const NUMBER: u8 = 2;
pub const CARRY_Y_X: u8 = 3;
pub const BLOCK: u8 = 4;
pub const ESCAPED: u8 = 5;
pub const LINE: u8 = 6;
pub const A_BLOCK: u8 = 7;
pub const PLAIN: u8 = 8;
pub const BLOCK_CARRY_A: u8 = 9;
/// Of a call that does not exist.
pub const NO_REPLY: u8 = 10;

/// The fields of a finished reply; 0, or an empty range at 0, where it has none.
#[derive(Clone, PartialEq, Default, Debug)]
pub struct Given {
    pub reply: u8,
    pub carry: bool,
    pub x: u8,
    pub y: u8,
    pub a: u8,
    pub block: Range<usize>,
    pub text: Range<usize>,
}

/// Takes a finished reply apart. Of one that is not finished a byte that is not
/// there counts as 0, and a part starts where the bytes end at the latest.
pub fn given(call: u8, bytes: &[u8]) -> Given {
    // Behind the first byte.
    let second = bytes.len().min(1);
    let byte = |at: usize| bytes.get(at).copied().unwrap_or(0);
    let carry = |at: usize| byte(at) & 0x80 != 0;
    let none = Given::default();
    match call {
        OSRDCH | OSBGET => Given {
            reply: CARRY_A,
            carry: carry(0),
            a: byte(1),
            ..none
        },
        OSCLI => Given {
            reply: ACK,
            carry: carry(0),
            ..none
        },
        OSBYTE_LOW | OSFIND_OPEN => Given {
            reply: NUMBER,
            a: byte(0),
            ..none
        },
        OSBYTE_HIGH => Given {
            reply: CARRY_Y_X,
            carry: carry(0),
            y: byte(1),
            x: byte(2),
            ..none
        },
        OSWORD => Given {
            reply: BLOCK,
            block: 0..bytes.len(),
            ..none
        },
        OSWORD_0 if carry(0) => Given {
            reply: ESCAPED,
            ..none
        },
        OSWORD_0 => Given {
            reply: LINE,
            text: second..bytes.len().saturating_sub(1).max(second),
            ..none
        },
        OSARGS | OSFILE => Given {
            reply: A_BLOCK,
            a: byte(0),
            block: second..bytes.len(),
            ..none
        },
        OSBPUT | OSFIND_CLOSE => Given {
            reply: PLAIN,
            ..none
        },
        OSGBPB => Given {
            reply: BLOCK_CARRY_A,
            carry: carry(GBPB_BLOCK),
            a: byte(GBPB_BLOCK + 1),
            block: 0..bytes.len().min(GBPB_BLOCK),
            ..none
        },
        _ => Given {
            reply: NO_REPLY,
            ..none
        },
    }
}

// ---- The writer ----

/// A reply to be written. Numbers that the reply does not have are ignored.
#[derive(Clone, Copy, Debug)]
pub struct Reply<'a> {
    pub carrier: u8,
    /// The call that waits, and OSWORD's out length.
    pub call: u8,
    pub out_length: u8,
    pub reply: u8,
    /// The carry, or the acknowledgement.
    pub carry: bool,
    pub x: u8,
    pub y: u8,
    pub a: u8,
    pub block: &'a [u8],
    pub text: &'a [u8],
}

/// A few bytes.
#[derive(Default)]
struct Few {
    bytes: [u8; 3],
    length: usize,
}

impl Few {
    #[inline]
    fn new(few: &[u8]) -> Few {
        let mut bytes = [0; 3];
        bytes[..few.len()].copy_from_slice(few);
        Few {
            bytes,
            length: few.len(),
        }
    }

    fn as_slice(&self) -> &[u8] {
        &self.bytes[..self.length]
    }
}

/// The fields of a reply around its block and its line.
#[derive(Default)]
struct Fields {
    head: Few,
    block: usize,
    line: bool,
    tail: Few,
}

impl Fields {
    #[inline]
    fn new(head: &[u8]) -> Fields {
        Fields {
            head: Few::new(head),
            ..Fields::default()
        }
    }

    #[inline]
    fn block(self, block: usize) -> Fields {
        Fields { block, ..self }
    }

    #[inline]
    fn line(self) -> Fields {
        Fields { line: true, ..self }
    }

    #[inline]
    fn tail(self, tail: &[u8]) -> Fields {
        Fields {
            tail: Few::new(tail),
            ..self
        }
    }
}

impl Reply<'_> {
    /// Nothing where the reply does not fit the call.
    #[inline]
    fn fields(&self) -> Option<Fields> {
        let Reply { x, y, a, .. } = *self;
        let carry = if self.carry { 0x80 } else { 0x00 };
        let ack = if self.carry { 0x80 } else { 0x7F };
        let fields = match (self.call, self.reply) {
            (OSRDCH | OSBGET, CARRY_A) => Fields::new(&[carry, a]),
            (OSCLI, ACK) => Fields::new(&[ack]),
            (OSBYTE_LOW | OSFIND_OPEN, NUMBER) => Fields::new(&[a]),
            (OSBYTE_HIGH, CARRY_Y_X) => Fields::new(&[carry, y, x]),
            (OSWORD, BLOCK) => Fields::new(&[]).block(self.out_length as usize),
            (OSWORD_0, ESCAPED) => Fields::new(&[0xFF]),
            (OSWORD_0, LINE) => Fields::new(&[0x7F]).line(),
            (OSARGS, A_BLOCK) => Fields::new(&[a]).block(ARGS_BLOCK),
            (OSFILE, A_BLOCK) => Fields::new(&[a]).block(FILE_BLOCK),
            (OSBPUT | OSFIND_CLOSE, PLAIN) => Fields::new(&[0x7F]),
            (OSGBPB, BLOCK_CARRY_A) => Fields::new(&[]).block(GBPB_BLOCK).tail(&[carry, a]),
            _ => return None,
        };
        Some(fields)
    }

    /// Writes the reply to the start of `out`: the length of the encoding, or the
    /// refusal.
    pub fn write(&self, out: &mut [u8]) -> Result<usize, u8> {
        let (block, text) = (self.block, self.text);
        if self.call >= CALLS {
            return Err(NOT_CARRIED);
        }
        if text.len() > LONGEST_STRING {
            return Err(LONG_STRING);
        }
        let fields = self.fields().ok_or(BROKEN_RULE)?;
        if block.len() != fields.block
            || !fields.line && !text.is_empty()
            || text.contains(&STRING_END)
        {
            return Err(BROKEN_RULE);
        }
        let end: &[u8] = if fields.line { &[STRING_END] } else { &[] };
        let (head, tail) = (fields.head.as_slice(), fields.tail.as_slice());
        let parts = [head, block, text, end, tail];
        match self.carrier {
            SERIAL => put_serial(out, &[], parts),
            PARALLEL => put_parallel(out, &[], parts),
            _ => Err(BROKEN_RULE),
        }
    }
}

#[cfg(test)]
mod tests {
    use super::Transfer::{Load, Save};
    use super::serial::{Read, Reader, asked};
    use super::*;

    const MORE: Told = Told::More;

    /// A link with both lent arrays, all of their bytes &EE.
    struct Bench {
        link: Link,
        reply: [u8; LENT],
        own: [u8; LENT],
    }

    impl Bench {
        fn new() -> Bench {
            Bench {
                link: Link::new(),
                reply: [0xEE; LENT],
                own: [0xEE; LENT],
            }
        }

        fn waiting(call: u8, out_length: u8) -> Bench {
            let mut bench = Bench::new();
            assert_eq!(bench.link.begin(call, out_length), Begun::Waits);
            bench
        }

        /// One byte; exactly the taken byte changes in the lent arrays, and
        /// nothing where it is refused.
        fn step(&mut self, raw: u8) -> Told {
            let (link, mut reply, mut own) = (self.link, self.reply, self.own);
            let told = self.link.step(raw, &mut self.reply, &mut self.own);
            let data = link.escape == (raw == 0x9B);
            match (told, link.action, link.wait) {
                (Told::Refused(number), _, _) => {
                    assert_eq!(number == 7, link.stopped());
                    let stopped = link.stopped || number != 7;
                    assert_eq!(self.link, Link { stopped, ..link });
                }
                _ if !data => {}
                (_, 1.., _) => own[link.held] = raw,
                (_, _, IDLE) => {}
                _ if link.open[0].is_some() => {}
                _ => reply[link.got] = raw,
            }
            assert!(self.reply == reply && self.own == own);
            told
        }

        fn steps(&mut self, raw: &[u8]) -> Vec<Told> {
            raw.iter().map(|&byte| self.step(byte)).collect()
        }

        /// The last answer, all before it being need-more.
        fn last(&mut self, raw: &[u8]) -> Told {
            let answers = self.steps(raw);
            let (last, before) = answers.split_last().unwrap();
            assert!(before.iter().all(|&told| told == MORE), "{answers:?}");
            *last
        }

        fn idle(&self) -> bool {
            self.link == Link::new()
        }

        /// Opens these transfers, each inside the one before.
        fn nest(&mut self, transfers: &[Transfer]) {
            for &transfer in transfers {
                let mark = if transfer == Load { 0xE0 } else { 0xF0 };
                let opened = Told::Opened(transfer, [1, 2, 3, 4]);
                assert_eq!(self.last(&[0x9B, mark, 1, 2, 3, 4]), opened);
            }
        }

        /// Runs over raw bytes with room that is just enough.
        fn run(&mut self, raw: &[u8]) -> (Ran, Vec<[u8; NOTE]>, Vec<u8>) {
            let mut room = vec![0xDD; NOTE * raw.len()];
            let mut data = vec![0xDD; raw.len() + self.link.held];
            let Bench { link, reply, own } = self;
            let ran = link.run(raw, reply, own, &mut room, &mut data);
            let (notes, beyond) = room.split_at(NOTE * ran.noted);
            let untouched = [beyond, &data[ran.stored..]].concat();
            assert!(untouched.iter().all(|&byte| byte == 0xDD));
            let notes = notes.as_chunks::<NOTE>().0.to_vec();
            data.truncate(ran.stored);
            (ran, notes, data)
        }
    }

    /// Every nest of open transfers, the innermost last.
    fn nests() -> Vec<Vec<Transfer>> {
        let mut nests = vec![Vec::new()];
        for at in 0..15 {
            for transfer in [Load, Save] {
                let nest = [&nests[at][..], &[transfer]].concat();
                nests.push(nest);
            }
        }
        nests
    }

    /// A link that is idle, and one that waits for a reply with a byte taken.
    fn idle_and_waiting() -> [Bench; 2] {
        let mut waiting = Bench::waiting(OSWORD, 200);
        assert_eq!(waiting.step(0x55), MORE);
        [Bench::new(), waiting]
    }

    /// Each of the first with each of the second.
    fn every_pair<A: Copy, B: Copy>(first: &[A], second: &[B]) -> Vec<(A, B)> {
        let with = |&one: &A| second.iter().map(move |&other| (one, other));
        first.iter().flat_map(with).collect()
    }

    fn error(number: u8, length: usize) -> Told {
        Told::Error { number, length }
    }

    /// A serial reply of a call with nothing in it.
    fn blank(call: u8, reply: u8) -> Reply<'static> {
        Reply {
            carrier: SERIAL,
            call,
            out_length: 0,
            reply,
            carry: false,
            x: 0,
            y: 0,
            a: 0,
            block: &[],
            text: &[],
        }
    }

    // ---- The link ----

    #[test]
    fn c10_reply_to_osargs() {
        let stream = [0x01, 0x00, 0x00, 0x01, 0x9B, 0x9B];
        let mut bench = Bench::waiting(OSARGS, 0);
        assert_eq!(bench.last(&stream), Told::Reply(5));
        assert!(bench.idle());
        assert_eq!(bench.reply[..5], [1, 0, 0, 1, 0x9B]);
        assert!(bench.reply[5..].iter().all(|&byte| byte == 0xEE));
        let given = given(OSARGS, &bench.reply[..5]);
        let expected = Given {
            reply: A_BLOCK,
            a: 1,
            block: 1..5,
            ..Given::default()
        };
        assert_eq!(given, expected);
        let osargs = Reply {
            a: 1,
            block: &[0, 0, 1, 0x9B],
            ..blank(OSARGS, A_BLOCK)
        };
        let mut out = [0; 6];
        assert_eq!(osargs.write(&mut out), Ok(6));
        assert_eq!(out, stream);
    }

    #[test]
    fn c13_osword_complete_when_begun() {
        let mut reader = Reader::new(SERIAL);
        let mut body = [0; serial::BODY];
        for raw in [0x9B, 0x08, 0x01, 0x00] {
            assert_eq!(reader.read(raw, &mut body), Read::More);
        }
        let Read::Request { code, length, .. } = reader.read(0x00, &mut body) else {
            panic!();
        };
        assert_eq!(kind_of(code, &body[..length]), (OSWORD, 0));
        let mut bench = Bench::new();
        assert_eq!(bench.link.begin(OSWORD, 0), Begun::Complete);
        assert!(bench.idle());
        assert_eq!(bench.step(0x41), Told::Character(0x41));
        let nothing = blank(OSWORD, BLOCK);
        assert_eq!(nothing.write(&mut []), Ok(0));
    }

    #[test]
    fn c15_escape_inside_a_reply() {
        let mut bench = Bench::waiting(OSBGET, 0);
        let answers = bench.steps(&[0x80, 0x9B, 0x81, 0x41]);
        assert_eq!(answers, [MORE, MORE, Told::Escape(true), Told::Reply(2)]);
        let given = given(OSBGET, &bench.reply[..2]);
        assert_eq!((given.reply, given.carry, given.a), (CARRY_A, true, 0x41));
    }

    #[test]
    fn every_reply_ends_at_its_last_byte() {
        for call in 0..CALLS {
            for out_length in [0, 1, 2, 255] {
                if call == OSWORD && out_length == 0 {
                    continue;
                }
                let length = match call {
                    OSWORD => out_length as usize,
                    OSWORD_0 => 3,
                    _ => MOST[call as usize],
                };
                let mut plain = vec![0x41; length];
                if call == OSWORD_0 {
                    plain[2] = 0x0D;
                }
                let mut bench = Bench::waiting(call, out_length);
                assert_eq!(bench.last(&plain), Told::Reply(length));
                assert!(bench.idle());
                assert_eq!(bench.reply[..length], plain);
                assert_eq!(bench.step(0x42), Told::Character(0x42));
            }
        }
    }

    #[test]
    fn escaped_and_lines() {
        for first in 0x80..=0xFF {
            let mut bench = Bench::waiting(OSWORD_0, 0);
            let stream: &[u8] = if first == 0x9B { &[0x9B; 2] } else { &[first] };
            assert_eq!(bench.last(stream), Told::Reply(1));
            assert!(bench.idle());
        }
        for first in 0x00..=0x7F {
            let mut bench = Bench::waiting(OSWORD_0, 0);
            assert_eq!(bench.last(&[first, 0x0D]), Told::Reply(2));
        }
    }

    #[test]
    fn the_256th_line_byte() {
        let line = [&[0x7F][..], &[0x20; 255]].concat();
        let mut bench = Bench::waiting(OSWORD_0, 0);
        assert_eq!(bench.last(&line), MORE);
        assert_eq!(bench.step(0x0D), Told::Reply(257));

        for refused in [0x20, 0x00, 0x9B] {
            let mut bench = Bench::waiting(OSWORD_0, 0);
            assert_eq!(bench.last(&line), MORE);
            if refused == 0x9B {
                assert_eq!(bench.step(0x9B), MORE);
            }
            assert_eq!(bench.step(refused), Told::Refused(6));
            assert_eq!(bench.reply[256], 0xEE);
            assert_eq!(bench.step(0x0D), Told::Refused(7));
        }
    }

    #[test]
    fn the_256th_text_byte() {
        let text = [&[0x9B, 0x00, 0x11][..], &[0x0D; 255]].concat();
        for call in [None, Some(OSCLI)] {
            let open = || match call {
                Some(call) => Bench::waiting(call, 0),
                None => Bench::new(),
            };
            let mut bench = open();
            assert_eq!(bench.last(&text), MORE);
            assert_eq!(bench.step(0x00), error(0x11, 255));
            assert!(bench.idle());
            assert_eq!(bench.own[..2], [0x11, 0x0D]);
            assert_eq!(bench.own[256], 0x00);

            let mut bench = open();
            assert_eq!(bench.last(&text), MORE);
            assert_eq!(bench.step(0x0D), Told::Refused(6));
            assert_eq!(bench.own[256], 0xEE);
            assert_eq!(bench.link.begin(OSCLI, 0), Begun::Refused(7));
        }
    }

    #[test]
    fn every_mark_outside_an_action() {
        for wait in [None, Some(OSFILE)] {
            for mark in (0..=255).filter(|&mark| mark != 0x9B) {
                let mut bench = match wait {
                    Some(call) => Bench::waiting(call, 0),
                    None => Bench::new(),
                };
                let before = bench.link;
                let (told, action) = match mark {
                    0x00 => (MORE, ERROR),
                    0x01..=0x7F => (MORE, 128 + mark),
                    0x80..=0x8F => (Told::Escape(mark % 2 == 1), NO_ACTION),
                    0x90..=0x9F => (MORE, EVENT),
                    0xA0..=0xAF => (Told::Refused(4), NO_ACTION),
                    0xB0..=0xBF => (Told::Refused(5), NO_ACTION),
                    0xC0..=0xCF => (MORE, ADDRESS),
                    0xD0..=0xDF => (MORE, EXECUTE),
                    0xE0..=0xEF => (MORE, LOAD),
                    0xF0..=0xFF => (MORE, SAVE),
                };
                assert_eq!(bench.last(&[0x9B, mark]), told);
                let stopped = matches!(told, Told::Refused(_));
                let after = Link {
                    action,
                    escape: stopped,
                    stopped,
                    ..before
                };
                assert_eq!(bench.link, after);
            }
        }
    }

    #[test]
    fn a_mark_inside_an_action() {
        let actions: [&[u8]; 10] = [
            &[0x9B, 0x00],
            &[0x9B, 0x00, 0x05, 0x41],
            &[0x9B, 0x90],
            &[0x9B, 0x9F, 1, 2],
            &[0x9B, 0xC0, 1, 2, 3],
            &[0x9B, 0xD0, 1, 2, 3],
            &[0x9B, 0xEF],
            &[0x9B, 0xF1, 1, 2],
            &[0x9B, 0x01],
            &[0x9B, 0x7F, 1, 0x9B, 0x9B],
        ];
        for (action, nest) in every_pair(&actions, &[&[][..], &[Load], &[Save], &[Save; 3]]) {
            for mark in (0..=255).filter(|&mark| mark != 0x9B) {
                let mut bench = Bench::waiting(OSBGET, 0);
                bench.nest(nest);
                assert_eq!(bench.last(action), MORE);
                assert_eq!(bench.last(&[0x9B, mark]), Told::Refused(5));
                assert_eq!(bench.step(mark), Told::Refused(7));
            }
        }
    }

    #[test]
    fn actions_report_their_bytes() {
        let mut bench = Bench::new();
        let event = [0x9B, 0x9F, 0x9B, 0x9B, 0x02, 0x03];
        assert_eq!(bench.last(&event), Told::Event([0x9B, 2, 3]));
        let address = [0x9B, 0xCB, 0xFF, 0x00, 0x9B, 0x9B, 0x04];
        assert_eq!(
            bench.last(&address),
            Told::Address([0xFF, 0x00, 0x9B, 0x04])
        );
        assert_eq!(bench.last(&[0x9B, 0x8E]), Told::Escape(false));
        assert!(bench.idle());
    }

    #[test]
    fn actions_leave_the_reply_at_its_place() {
        let actions: [(&[u8], Told); 3] = [
            (&[0x9B, 0x80], Told::Escape(false)),
            (&[0x9B, 0x90, 1, 2, 3], Told::Event([1, 2, 3])),
            (&[0x9B, 0xC5, 1, 2, 3, 4], Told::Address([1, 2, 3, 4])),
        ];
        for (action, told) in actions {
            let mut bench = Bench::waiting(OSARGS, 0);
            for at in 0..5 {
                let before = bench.link;
                assert_eq!(bench.last(action), told);
                assert_eq!(bench.link, before);
                let end = if at == 4 { Told::Reply(5) } else { MORE };
                assert_eq!(bench.step(0x10 + at), end);
            }
            assert_eq!(bench.reply[..5], [0x10, 0x11, 0x12, 0x13, 0x14]);
        }
    }

    #[test]
    fn errors_and_restarts_end_the_call() {
        let cases: [(&[u8], Told); 5] = [
            (&[0x9B, 0, 0, 0], Told::Restart),
            (&[0x9B, 0, 1, 0], error(1, 0)),
            (&[0x9B, 0, 0, 0x41, 0], error(0, 1)),
            (&[0x9B, 0, 0x9B, 0x9B, 0x0D, 0x80, 0], error(0x9B, 2)),
            (&[0x9B, 0, 0, 0x9B, 0x9B, 0], error(0, 1)),
        ];
        for (stream, told) in cases {
            let mut bench = Bench::waiting(OSWORD, 200);
            assert_eq!(bench.last(&[1, 2, 3]), MORE);
            assert_eq!(bench.last(stream), told);
            assert!(bench.idle());
            assert_eq!(bench.step(0x41), Told::Character(0x41));

            let mut bench = Bench::new();
            assert_eq!(bench.last(stream), told);
            assert!(bench.idle());
        }
    }

    // ---- Blocks and transfers ----

    #[test]
    fn blocks_of_every_length() {
        let lengths: Vec<u8> = (1..=127).collect();
        let nests = [&[][..], &[Load], &[Save], &[Save, Load, Load, Save]];
        for (length, nest) in every_pair(&lengths, &nests) {
            for (mut bench, byte) in idle_and_waiting().into_iter().zip([0x00, 0x9B]) {
                bench.nest(nest);
                let before = bench.link;
                let stream: &[u8] = if byte == 0x9B { &[0x9B; 2] } else { &[byte] };
                assert_eq!(bench.last(&[0x9B, length]), MORE);
                for _ in 1..length {
                    assert_eq!(bench.last(stream), MORE);
                }
                assert_eq!(bench.last(stream), Told::Block(length as usize));
                assert_eq!(bench.own[..length as usize], vec![byte; length as usize]);
                assert_eq!(bench.link, before);
            }
        }
    }

    #[test]
    fn addresses_come_high_byte_first_and_low_bits_are_ignored() {
        for low in 0..16 {
            for (mut bench, escape) in idle_and_waiting()
                .into_iter()
                .zip([&[0x41][..], &[0x9B; 2]])
            {
                let before = bench.link;
                let address = [0x12, 0x00, escape[0], 0x78];
                let own = [&[0x12, 0x00], escape, &[0x78]].concat();
                for (high, told) in [
                    (0xD0, Told::Execute(address)),
                    (0xE0, Told::Opened(Load, address)),
                    (0xF0, Told::Opened(Save, address)),
                ] {
                    let raw = [&[0x9B, high + low], &own[..]].concat();
                    assert_eq!(bench.last(&raw), told);
                }
                assert_eq!(bench.link.open, [Some(Save), Some(Load), None, None]);
                assert_eq!(bench.last(&[0x9B, 0xB0 + low]), Told::Closed(Save));
                assert_eq!(bench.last(&[0x9B, 0xB0 + low]), Told::Closed(Load));
                assert_eq!(bench.link, before);
            }
        }
    }

    #[test]
    fn load_data_runs_until_its_end() {
        for mut bench in idle_and_waiting() {
            let before = bench.link;
            bench.nest(&[Load]);
            for byte in (0..=255).filter(|&byte| byte != 0x9B) {
                assert_eq!(bench.step(byte), Told::Data(byte));
            }
            assert_eq!(bench.last(&[0x9B, 0x9B]), Told::Data(0x9B));
            assert_eq!(bench.last(&[0x9B, 0xB0]), Told::Closed(Load));
            assert_eq!(bench.link, before);
        }
        // A transfer without data.
        let mut bench = Bench::waiting(OSCLI, 0);
        bench.nest(&[Load]);
        assert_eq!(bench.last(&[0x9B, 0xBF]), Told::Closed(Load));
        assert_eq!(bench.step(0x80), Told::Reply(1));
    }

    #[test]
    fn data_and_ends_go_to_the_innermost_transfer() {
        for nest in nests() {
            for mut bench in idle_and_waiting() {
                let before = bench.link;
                bench.nest(&nest);
                for &innermost in nest.iter().rev() {
                    if innermost == Load {
                        assert_eq!(bench.step(0x41), Told::Data(0x41));
                        assert_eq!(bench.last(&[0x9B, 0x9B]), Told::Data(0x9B));
                    }
                    assert_eq!(bench.last(&[0x9B, 0xB5]), Told::Closed(innermost));
                }
                assert_eq!(bench.link, before);
            }
        }
    }

    #[test]
    fn data_in_a_save_is_refused() {
        for nest in nests().iter().filter(|nest| nest.last() == Some(&Save)) {
            for stream in [&[0x00][..], &[0x41], &[0x9B; 2]] {
                for mut bench in idle_and_waiting() {
                    bench.nest(nest);
                    assert_eq!(bench.last(stream), Told::Refused(9));
                    assert_eq!(bench.step(0x9B), Told::Refused(7));
                }
            }
        }
    }

    #[test]
    fn a_transfer_holds_actions() {
        let actions: [(&[u8], Told); 6] = [
            (&[0x9B, 0x81], Told::Escape(true)),
            (&[0x9B, 0x90, 1, 2, 3], Told::Event([1, 2, 3])),
            (&[0x9B, 0xC5, 1, 2, 3, 4], Told::Address([1, 2, 3, 4])),
            (&[0x9B, 0xD5, 1, 2, 3, 4], Told::Execute([1, 2, 3, 4])),
            (&[0x9B, 0x01, 7], Told::Block(1)),
            (&[0x9B, 0x02, 0x9B, 0x9B, 7], Told::Block(2)),
        ];
        for (action, told) in actions {
            for nest in nests() {
                for mut bench in idle_and_waiting() {
                    bench.nest(&nest);
                    let before = bench.link;
                    assert_eq!(bench.last(action), told);
                    assert_eq!(bench.link, before);
                }
            }
        }
    }

    #[test]
    fn a_fifth_transfer_is_refused_at_its_mark() {
        for nest in nests() {
            let told = match nest.len() {
                4 => Told::Refused(13),
                _ => MORE,
            };
            for mark in 0xE0..=0xFF {
                for mut bench in idle_and_waiting() {
                    bench.nest(&nest);
                    assert_eq!(bench.last(&[0x9B, mark]), told);
                }
            }
        }
    }

    #[test]
    fn what_a_full_nest_still_refuses_first() {
        let full = || {
            let mut bench = Bench::waiting(OSCLI, 0);
            bench.nest(&[Load, Save, Save, Load]);
            bench
        };
        for mark in 0xA0..=0xAF {
            assert_eq!(full().last(&[0x9B, mark]), Told::Refused(4));
        }
        for action in [0x00, 0x01, 0x90, 0xC0, 0xD0] {
            for mark in [0xE0, 0xF0] {
                let mut bench = full();
                assert_eq!(bench.last(&[0x9B, action]), MORE);
                assert_eq!(bench.last(&[0x9B, mark]), Told::Refused(5));
            }
        }
        // A place is free again behind an end.
        let mut bench = full();
        assert_eq!(bench.last(&[0x9B, 0xB0]), Told::Closed(Load));
        bench.nest(&[Save]);
        assert_eq!(bench.last(&[0x9B, 0xE0]), Told::Refused(13));
    }

    #[test]
    fn an_end_with_none_open_is_refused() {
        for mark in 0xB0..=0xBF {
            for mut bench in idle_and_waiting() {
                assert_eq!(bench.last(&[0x9B, mark]), Told::Refused(5));
            }
            for mut bench in idle_and_waiting() {
                bench.nest(&[Save]);
                assert_eq!(bench.last(&[0x9B, mark]), Told::Closed(Save));
                assert_eq!(bench.last(&[0x9B, mark]), Told::Refused(5));
            }
        }
        // While the address is read the transfer is not open.
        let mut bench = Bench::new();
        assert_eq!(bench.last(&[0x9B, 0xE0, 1, 2, 3]), MORE);
        assert_eq!(bench.link.open, [None; 4]);
        assert_eq!(bench.last(&[0x9B, 0xB0]), Told::Refused(5));
    }

    #[test]
    fn errors_and_restarts_close_every_transfer() {
        let cases: [(&[u8], Told); 3] = [
            (&[0x9B, 0, 0, 0], Told::Restart),
            (&[0x9B, 0, 7, 0], error(7, 0)),
            (&[0x9B, 0, 0, 0x9B, 0x9B, 0], error(0, 1)),
        ];
        for (stream, told) in cases {
            for nest in nests() {
                for mut bench in idle_and_waiting() {
                    bench.nest(&nest);
                    assert_eq!(bench.last(stream), told);
                    assert!(bench.idle());
                    assert_eq!(bench.step(0x41), Told::Character(0x41));
                }
            }
        }
    }

    #[test]
    fn an_idle_link_with_a_load_open_has_no_characters() {
        let mut bench = Bench::new();
        assert_eq!(bench.step(0x41), Told::Character(0x41));
        bench.nest(&[Load]);
        assert_eq!(bench.step(0x41), Told::Data(0x41));
        assert_eq!(bench.last(&[0x9B, 0xB0]), Told::Closed(Load));
        assert_eq!(bench.step(0x41), Told::Character(0x41));
        bench.nest(&[Save]);
        assert_eq!(bench.step(0x41), Told::Refused(9));
    }

    #[test]
    fn transfers_leave_the_reply_at_its_place() {
        let mut bench = Bench::waiting(OSARGS, 0);
        for at in 0..5 {
            bench.nest(&[Load, Save, Load]);
            assert_eq!(bench.step(0x99), Told::Data(0x99));
            assert_eq!(bench.last(&[0x9B, 0xB0]), Told::Closed(Load));
            assert_eq!(bench.last(&[0x9B, 0xB0]), Told::Closed(Save));
            assert_eq!(bench.step(0x98), Told::Data(0x98));
            assert_eq!(bench.last(&[0x9B, 0xB0]), Told::Closed(Load));
            let end = if at == 4 { Told::Reply(5) } else { MORE };
            assert_eq!(bench.step(0x10 + at), end);
        }
        assert_eq!(bench.reply[..5], [0x10, 0x11, 0x12, 0x13, 0x14]);
    }

    #[test]
    fn begin_inside_a_transfer() {
        let mut bench = Bench::new();
        bench.nest(&[Load]);
        assert_eq!(bench.step(0x41), Told::Data(0x41));
        assert_eq!(bench.step(0x9B), MORE);
        let before = bench.link;
        assert_eq!(bench.link.begin(OSWORD, 0), Begun::Complete);
        assert_eq!(bench.link, before);
        assert_eq!(bench.link.begin(OSBGET, 0), Begun::Waits);
        assert_eq!(bench.step(0x9B), Told::Data(0x9B));
        assert_eq!(bench.step(0x42), Told::Data(0x42));
        assert_eq!(bench.last(&[0x9B, 0xB0]), Told::Closed(Load));
        assert_eq!(bench.last(&[0x43, 0x44]), Told::Reply(2));
        assert_eq!(bench.reply[..2], [0x43, 0x44]);

        // Inside the address, and inside a block.
        let mut bench = Bench::new();
        assert_eq!(bench.last(&[0x9B, 0xE0, 1, 2]), MORE);
        assert_eq!(bench.link.begin(OSCLI, 0), Begun::Waits);
        assert_eq!(bench.last(&[3, 4]), Told::Opened(Load, [1, 2, 3, 4]));
        let mut bench = Bench::new();
        assert_eq!(bench.last(&[0x9B, 0x02, 1]), MORE);
        assert_eq!(bench.link.begin(OSCLI, 0), Begun::Waits);
        assert_eq!(bench.step(2), Told::Block(2));
        assert_eq!(bench.step(3), Told::Reply(1));
    }

    // ---- Calls begun ----

    #[test]
    fn begin_inside_an_escape_pair() {
        let mut bench = Bench::new();
        assert_eq!(bench.step(0x9B), MORE);
        assert_eq!(bench.link.begin(OSBGET, 9), Begun::Waits);
        assert!(bench.link.escape);
        assert_eq!(bench.link.out_length, 0);
        assert_eq!(bench.last(&[0x9B, 0x41]), Told::Reply(2));
        assert_eq!(bench.reply[..2], [0x9B, 0x41]);
    }

    #[test]
    fn begin_inside_an_action() {
        let mut bench = Bench::new();
        assert_eq!(bench.last(&[0x9B, 0x90, 1, 2]), MORE);
        assert_eq!(bench.link.begin(OSWORD, 3), Begun::Waits);
        assert_eq!(bench.step(3), Told::Event([1, 2, 3]));
        assert_eq!(bench.last(&[4, 5, 6]), Told::Reply(3));
        assert_eq!(bench.reply[..3], [4, 5, 6]);
    }

    #[test]
    fn an_error_opened_idle_ends_a_call_begun_later() {
        for (stream, told) in [(&[7, 0x41, 0][..], error(7, 1)), (&[0, 0], Told::Restart)] {
            for before in 0..stream.len() {
                let mut bench = Bench::new();
                assert_eq!(bench.last(&[0x9B, 0x00]), MORE);
                assert!(
                    bench
                        .steps(&stream[..before])
                        .iter()
                        .all(|&told| told == MORE)
                );
                assert_eq!(bench.link.begin(OSCLI, 0), Begun::Waits);
                assert_eq!(bench.last(&stream[before..]), told);
                assert!(bench.idle());
                assert_eq!(bench.link.begin(OSCLI, 0), Begun::Waits);
            }
        }
    }

    #[test]
    fn refused_begins() {
        let mut bench = Bench::waiting(OSFILE, 0);
        assert_eq!(bench.step(1), MORE);
        let link = bench.link;
        for call in 0..=255 {
            assert_eq!(bench.link.begin(call, 0), Begun::Refused(12));
            assert_eq!(bench.link, link);
        }
        assert_eq!(bench.last(&[0x9B, 0xA0]), Told::Refused(4));
        let link = bench.link;
        for call in 0..=255 {
            assert_eq!(bench.link.begin(call, 1), Begun::Refused(7));
            assert_eq!(bench.link, link);
        }
        let mut bench = Bench::new();
        assert_eq!(bench.last(&[0x9B, 0x90, 1, 0x9B]), MORE);
        let link = bench.link;
        for call in CALLS..=255 {
            assert_eq!(bench.link.begin(call, 1), Begun::Refused(4));
            assert_eq!(bench.link, link);
        }
        assert_eq!(bench.last(&[0x9B, 2]), Told::Event([1, 0x9B, 2]));
    }

    #[test]
    fn records_beyond_their_limits() {
        let record = |wait: u8, out_length: u8, got: usize, action: u8, held: usize| Link {
            wait,
            out_length,
            got,
            action,
            held,
            ..Link::new()
        };
        assert!(!record(0, 255, 0, 0, 0).stopped());
        assert!(record(0, 0, 1, 0, 0).stopped());
        assert!(record(0, 0, 0, 0, 1).stopped());
        assert!(record(14, 0, 0, 0, 0).stopped());
        for action in 7..=128 {
            assert!(record(0, 0, 0, action, 0).stopped());
        }
        for call in 0..CALLS {
            let most = match call {
                OSWORD => 255,
                _ => MOST[call as usize],
            };
            assert!(!record(1 + call, 255, most - 1, 0, 0).stopped());
            assert!(record(1 + call, 255, most, 0, 0).stopped());
        }
        assert!(record(WAIT_BLOCK, 0, 0, 0, 0).stopped());
        let actions = [
            (ERROR, 257),
            (EVENT, 3),
            (ADDRESS, 4),
            (EXECUTE, 4),
            (LOAD, 4),
            (SAVE, 4),
            (129, 1),
            (130, 2),
            (255, 127),
        ];
        for (action, most) in actions {
            assert!(!record(0, 0, 0, action, most - 1).stopped());
            assert!(record(0, 0, 0, action, most).stopped());
            assert!(record(0, 0, 0, action, usize::MAX).stopped());
        }
        for (nest, action) in every_pair(&[3, 4], &[NO_ACTION, ERROR, EXECUTE, LOAD, SAVE, 129]) {
            let mut link = record(OSBGET, 0, 0, action, 0);
            link.open[..nest].fill(Some(Save));
            let fifth = nest == 4 && matches!(action, LOAD | SAVE);
            assert_eq!(link.stopped(), fifth);
        }
    }

    // ---- The loop ----

    #[test]
    fn the_loop_notes_what_it_passes_over() {
        let stream = [
            0x41, 0x9B, 0x9B, 0x9B, 0x81, 0x9B, 0x80, 0x9B, 0x90, 1, 2, 3, 0x9B, 0xC0, 4, 5, 6, 7,
            0x9B, 0x00, 8, 0x42, 0, 0x43,
        ];
        let notes = [
            [1, 0x41, 0, 0, 0],
            [1, 0x9B, 0, 0, 0],
            [2, 1, 0, 0, 0],
            [2, 0, 0, 0, 0],
            [3, 1, 2, 3, 0],
            [4, 4, 5, 6, 7],
        ];
        let mut bench = Bench::new();
        let (ran, found, data) = bench.run(&stream);
        assert_eq!((ran.told, ran.used, data.len()), (error(8, 1), 23, 0));
        assert_eq!(found, notes);

        let (ran, found, _) = bench.run(&stream[23..]);
        assert_eq!((ran.told, ran.used), (MORE, 1));
        assert_eq!(found, [[1, 0x43, 0, 0, 0]]);

        let (ran, found, _) = bench.run(&[0x41; 300]);
        assert_eq!((ran.told, ran.used), (MORE, 300));
        assert_eq!(found, [[1, 0x41, 0, 0, 0]; 300]);
        let (_, found, _) = bench.run(&[0x9B, 0x9B]);
        assert_eq!(found, [[1, 0x9B, 0, 0, 0]]);
    }

    #[test]
    fn the_loop_stores_load_data_and_blocks() {
        let stream = [
            &[0x9B, 0xE0, 1, 2, 3, 4, 0x50, 0x9B, 0x9B, 0x51][..],
            &[0x9B, 0x02, 0x60, 0x9B, 0x9B, 0x52, 0x9B, 0x80, 0x53],
            &[0x9B, 0xFF, 5, 6, 7, 8, 0x9B, 0xB7, 0x54, 0x9B, 0xB0],
            &[0x9B, 0xDA, 9, 10, 11, 12, 0x41, 0x42],
        ];
        let notes = [
            [11, 1, 2, 3, 4],
            [13, 3, 0, 0, 0],
            [9, 2, 0, 0, 0],
            [13, 1, 0, 0, 0],
            [2, 0, 0, 0, 0],
            [13, 1, 0, 0, 0],
            [12, 5, 6, 7, 8],
            [14, 1, 0, 0, 0],
            [13, 1, 0, 0, 0],
            [14, 0, 0, 0, 0],
            [10, 9, 10, 11, 12],
        ];
        let mut bench = Bench::waiting(OSBGET, 0);
        let (ran, found, data) = bench.run(&stream.concat());
        assert_eq!(ran.told, Told::Reply(2));
        assert_eq!(found, notes);
        assert_eq!(data, [0x50, 0x9B, 0x51, 0x60, 0x9B, 0x52, 0x53, 0x54]);
        assert_eq!(bench.reply[..2], [0x41, 0x42]);
    }

    #[test]
    fn the_256th_load_byte_begins_a_note() {
        for length in 1..=600 {
            let mut bench = Bench::new();
            bench.nest(&[Load]);
            let (ran, notes, data) = bench.run(&vec![0x41; length]);
            assert_eq!(ran.told, MORE);
            assert_eq!(data, vec![0x41; length]);
            let (last, full) = notes.split_last().unwrap();
            assert!(full.iter().all(|&note| note == [13, 255, 0, 0, 0]));
            let counted = 255 * full.len() + last[1] as usize;
            assert_eq!((last[0], counted), (13, length));
            assert_ne!(last[1], 0);
        }
    }

    #[test]
    fn a_block_in_two_slices_is_stored_whole() {
        let stream = [&[0x9B, 0x7F][..], &[0x9B; 254]].concat();
        for cut in 0..=stream.len() {
            let mut bench = Bench::waiting(OSCLI, 0);
            let (first, notes, data) = bench.run(&stream[..cut]);
            assert_eq!((first.told, first.used), (MORE, cut));
            assert_eq!(notes.len(), (cut == stream.len()) as usize);
            let (second, more, rest) = bench.run(&stream[cut..]);
            assert_eq!(second.told, MORE);
            assert_eq!([notes, more].concat(), [[9, 127, 0, 0, 0]]);
            assert_eq!([data, rest].concat(), [0x9B; 127]);
        }
    }

    #[test]
    fn the_loop_tests_its_room_first() {
        let mut bench = Bench::waiting(OSARGS, 0);
        assert_eq!(bench.last(&[0x9B, 0x05, 1, 2, 3]), MORE);
        let (before, reply, own) = (bench.link, bench.reply, bench.own);
        for (length, data_length) in (0..30).map(|at| (at, 9)).chain((0..9).map(|at| (30, at))) {
            let mut room = vec![0xDD; length];
            let mut data = vec![0xDD; data_length];
            let raw = [1, 0x9B, 0x00, 0, 0, 0];
            let Bench { link, reply, own } = &mut bench;
            let ran = link.run(&raw, reply, own, &mut room, &mut data);
            let refused = Ran {
                told: Told::Refused(8),
                used: 0,
                noted: 0,
                stored: 0,
            };
            assert_eq!(ran, refused);
            assert_eq!(bench.link, before);
            assert!(room.iter().chain(&data).all(|&byte| byte == 0xDD));
        }
        assert!(bench.reply == reply && bench.own == own);
        // No raw bytes still need the data for those of the open action.
        let Bench { link, reply, own } = &mut bench;
        let ran = link.run(&[], reply, own, &mut [], &mut [0; 2]);
        assert_eq!(ran.told, Told::Refused(8));
        let ran = link.run(&[], reply, own, &mut [], &mut [0; 3]);
        assert_eq!(ran.told, MORE);
    }

    #[test]
    fn the_loop_on_a_stopped_link() {
        let mut bench = Bench::new();
        bench.link.stopped = true;
        let before = bench.link;
        for length in 0..3 {
            let raw = &[0x41; 2][..length.min(2)];
            let (ran, _, _) = bench.run(raw);
            let (told, used) = match length {
                0 => (MORE, 0),
                _ => (Told::Refused(7), 1),
            };
            let (noted, stored) = (0, 0);
            let expected = Ran {
                told,
                used,
                noted,
                stored,
            };
            assert_eq!(ran, expected);
            assert_eq!(bench.link, before);
        }
    }

    /// What notes and data tell, load bytes one by one: their notes count those of
    /// one slice.
    fn told_by(notes: &[[u8; NOTE]], data: &[u8]) -> Vec<Vec<u8>> {
        let (mut told, mut rest) = (Vec::new(), data);
        for note in notes {
            let stored = if matches!(note[0], 9 | 13) {
                note[1]
            } else {
                0
            };
            let (bytes, behind) = rest.split_at(stored as usize);
            rest = behind;
            match note[0] {
                13 => told.extend(bytes.iter().map(|&byte| vec![13, byte])),
                _ => told.push([&note[..], bytes].concat()),
            }
        }
        assert!(rest.is_empty());
        told
    }

    #[test]
    fn the_loop_gives_what_the_steps_give() {
        let stream = [
            0x9B, 0x90, 1, 2, 3, 0x80, 0x9B, 0x81, 0x9B, 0xE0, 1, 2, 3, 4, 5, 0x9B, 0x9B, 6, 0x9B,
            0x03, 7, 8, 9, 10, 0x9B, 0xB0, 0x41, 0x42, 0x9B, 0x9B, 0x9B, 0x00, 0, 0, 0x9B, 0xA3,
            0x44,
        ];
        for at in 0..2 * stream.len() {
            let (call, cut) = ([OSBGET, OSCLI][at % 2], at / 2);
            let (mut whole, mut cut_up) = (Bench::waiting(call, 0), Bench::waiting(call, 0));
            let mut expected = Vec::new();
            for &byte in &stream {
                let told = whole.step(byte);
                match (told, told.note()) {
                    (Told::More, _) => {}
                    (Told::Data(byte), _) => expected.push(Ok(vec![13, byte])),
                    (Told::Block(length), Some(note)) => {
                        expected.push(Ok([&note[..], &whole.own[..length]].concat()));
                    }
                    (_, Some(note)) => expected.push(Ok(note.to_vec())),
                    _ => expected.push(Err(told)),
                }
            }
            let mut found = Vec::new();
            for mut piece in [&stream[..cut], &stream[cut..]] {
                while !piece.is_empty() {
                    let (ran, notes, data) = cut_up.run(piece);
                    found.extend(told_by(&notes, &data).into_iter().map(Ok));
                    if ran.told != MORE {
                        found.push(Err(ran.told));
                    }
                    assert_ne!(ran.used, 0);
                    piece = &piece[ran.used..];
                }
            }
            assert_eq!(found, expected);
            assert_eq!(cut_up.link, whole.link);
            assert!(cut_up.reply == whole.reply && cut_up.own == whole.own);
        }
    }

    // ---- Replies on the parallel side ----

    /// Takes bytes of a reply from the first on: the last answer, all before it
    /// being that more follow, and the bytes lent.
    fn take_all(kind: (u8, u8), bytes: &[u8]) -> (ReplyByte, [u8; LENT]) {
        let (mut reply, mut count) = ([0xEE; LENT], 0);
        let mut last = ReplyByte::More;
        for (at, &byte) in bytes.iter().enumerate() {
            assert_eq!(last, ReplyByte::More);
            last = reply_step(kind, &mut count, byte, &mut reply);
            let taken = !matches!(last, ReplyByte::Refused(_));
            assert_eq!(count, at + taken as usize);
        }
        assert_eq!(reply[..count], bytes[..count]);
        assert!(reply[count..].iter().all(|&byte| byte == 0xEE));
        (last, reply)
    }

    #[test]
    fn parallel_replies_end_at_their_last_byte() {
        for call in 0..CALLS {
            for out_length in [1, 2, 255] {
                let length = match call {
                    OSWORD => out_length as usize,
                    OSWORD_0 => 3,
                    _ => MOST[call as usize],
                };
                let mut plain = vec![0x1B; length];
                plain[1.min(length - 1)] = 0x9B;
                if call == OSWORD_0 {
                    plain[2] = 0x0D;
                }
                let kind = (call, out_length);
                assert_eq!(take_all(kind, &plain).0, ReplyByte::Last);
                if length > 1 {
                    assert_eq!(take_all(kind, &plain[..length - 1]).0, ReplyByte::More);
                }
            }
        }
        for first in 0..=255 {
            let last = match first {
                ..0x80 => ReplyByte::More,
                _ => ReplyByte::Last,
            };
            assert_eq!(take_all((OSWORD_0, 0), &[first]).0, last);
        }
    }

    #[test]
    fn the_256th_line_byte_on_the_parallel_side() {
        let line = [&[0x7F][..], &[0x9B; 255]].concat();
        for (byte, answer) in [
            (0x0D, ReplyByte::Last),
            (0x9B, ReplyByte::Refused(6)),
            (0x00, ReplyByte::Refused(6)),
        ] {
            let bytes = [&line[..], &[byte]].concat();
            assert_eq!(take_all((OSWORD_0, 7), &bytes).0, answer);
        }
    }

    #[test]
    fn refused_reply_bytes() {
        let step = |kind: (u8, u8), count: usize, byte: u8| {
            let (mut after, mut reply) = (count, [0xEE; LENT]);
            let answer = reply_step(kind, &mut after, byte, &mut reply);
            let ReplyByte::Refused(number) = answer else {
                return None;
            };
            assert_eq!(after, count);
            assert!(reply.iter().all(|&byte| byte == 0xEE));
            Some(number)
        };
        for byte in [0x00, 0x0D, 0x80, 0x9B] {
            for call in 0..CALLS {
                let most = match call {
                    OSWORD => 9,
                    _ => MOST[call as usize],
                };
                for count in [most, most + 1, LENT, LENT + 1, 256 + most, 0xFFFF] {
                    if count >= most {
                        assert_eq!(step((call, 9), count, byte), Some(7));
                    }
                }
                let line = call == OSWORD_0 && byte != 0x0D;
                let last = if line { Some(6) } else { None };
                assert_eq!(step((call, 9), most - 1, byte), last);
                assert_eq!(step((call, 9), 0, byte), None);
            }
            assert_eq!(step((OSWORD, 0), 0, byte), Some(7));
            for call in CALLS..=255 {
                for count in [0, 1, LENT, 0xFFFF] {
                    assert_eq!(step((call, 9), count, byte), Some(4));
                }
            }
        }
    }

    // ---- The writer and the fields ----

    /// The reply read again from its encoding; `bytes` are its plain bytes.
    fn read_back(reply: &Reply, encoding: &[u8], bytes: &[u8]) -> Given {
        if reply.carrier == PARALLEL {
            let kind = (reply.call, reply.out_length);
            let (last, read) = take_all(kind, encoding);
            assert_eq!(last, ReplyByte::Last);
            assert_eq!(encoding, bytes);
            return given(reply.call, &read[..bytes.len()]);
        }
        let mut bench = Bench::waiting(reply.call, reply.out_length);
        assert_eq!(bench.last(encoding), Told::Reply(bytes.len()));
        assert_eq!(bench.reply[..bytes.len()], *bytes);
        given(reply.call, &bench.reply[..bytes.len()])
    }

    #[test]
    fn each_reply_written_and_read_again() {
        let bytes: Vec<u8> = (0..=255).collect();
        let line: Vec<u8> = bytes.iter().copied().filter(|&byte| byte != 0x0D).collect();
        let whole = [&[0x7F], &line[..], &[0x0D]].concat();
        let block = &bytes[0x90..];
        let none: &[u8] = &[];
        let cases: [(u8, u8, &[u8], &[u8], Vec<u8>); 15] = [
            (OSRDCH, CARRY_A, none, none, vec![0x80, 0x9B]),
            (OSCLI, ACK, none, none, vec![0x80]),
            (OSBYTE_LOW, NUMBER, none, none, vec![0x9B]),
            (OSBYTE_HIGH, CARRY_Y_X, none, none, vec![0x80, 8, 7]),
            (OSWORD, BLOCK, &bytes[..0x9B], none, bytes[..0x9B].to_vec()),
            (OSWORD_0, ESCAPED, none, none, vec![0xFF]),
            (OSWORD_0, LINE, none, &line, whole),
            (OSWORD_0, LINE, none, none, vec![0x7F, 0x0D]),
            (
                OSARGS,
                A_BLOCK,
                &block[9..13],
                none,
                [&[0x9B], &block[9..13]].concat(),
            ),
            (OSBGET, CARRY_A, none, none, vec![0x80, 0x9B]),
            (OSBPUT, PLAIN, none, none, vec![0x7F]),
            (OSFIND_CLOSE, PLAIN, none, none, vec![0x7F]),
            (OSFIND_OPEN, NUMBER, none, none, vec![0x9B]),
            (
                OSFILE,
                A_BLOCK,
                &block[..16],
                none,
                [&[0x9B], &block[..16]].concat(),
            ),
            (
                OSGBPB,
                BLOCK_CARRY_A,
                &block[..13],
                none,
                [&block[..13], &[0x80, 0x9B]].concat(),
            ),
        ];
        let carried = cases
            .iter()
            .flat_map(|case| [(SERIAL, case), (PARALLEL, case)]);
        for (carrier, &(call, reply, block, text, ref plain)) in carried {
            let written = Reply {
                carrier,
                call,
                out_length: 0x9B,
                reply,
                carry: true,
                x: 7,
                y: 8,
                a: 0x9B,
                block,
                text,
            };
            let mut out = vec![0xDD; 600];
            let size = written.write(&mut out).unwrap();
            let doubled = match carrier {
                SERIAL => plain.iter().filter(|&&byte| byte == 0x9B).count(),
                _ => 0,
            };
            assert_eq!(size, plain.len() + doubled);
            assert!(out[size..].iter().all(|&byte| byte == 0xDD));
            let read = read_back(&written, &out[..size], plain);
            assert_eq!(read.reply, reply);
            let numbers = match reply {
                CARRY_A | BLOCK_CARRY_A => (true, 0, 0, 0x9B),
                ACK => (true, 0, 0, 0),
                NUMBER | A_BLOCK => (false, 0, 0, 0x9B),
                CARRY_Y_X => (true, 7, 8, 0),
                _ => (false, 0, 0, 0),
            };
            assert_eq!((read.carry, read.x, read.y, read.a), numbers);
            assert_eq!(plain[read.block], *block);
            assert_eq!(plain[read.text], *text);

            let mut short = vec![0xDD; size - 1];
            assert_eq!(written.write(&mut short), Err(8));
            assert!(short.iter().all(|&byte| byte == 0xDD));
            assert_eq!(written.write(&mut out[..size]), Ok(size));
        }
    }

    #[test]
    fn clear_carries_and_acks() {
        let cases: [(u8, u8, &[u8]); 3] = [
            (OSRDCH, CARRY_A, &[0x00, 0x00]),
            (OSCLI, ACK, &[0x7F]),
            (OSBYTE_HIGH, CARRY_Y_X, &[0x00, 0x00, 0x00]),
        ];
        for (call, reply, plain) in cases {
            let written = blank(call, reply);
            let mut out = [0xDD; 4];
            assert_eq!(written.write(&mut out), Ok(plain.len()));
            assert_eq!(out[..plain.len()], *plain);
            assert!(!read_back(&written, plain, plain).carry);
        }
    }

    #[test]
    fn every_reply_to_every_call() {
        let good = [
            (OSRDCH, CARRY_A),
            (OSCLI, ACK),
            (OSBYTE_LOW, NUMBER),
            (OSBYTE_HIGH, CARRY_Y_X),
            (OSWORD, BLOCK),
            (OSWORD_0, ESCAPED),
            (OSWORD_0, LINE),
            (OSARGS, A_BLOCK),
            (OSBGET, CARRY_A),
            (OSBPUT, PLAIN),
            (OSFIND_CLOSE, PLAIN),
            (OSFIND_OPEN, NUMBER),
            (OSFILE, A_BLOCK),
            (OSGBPB, BLOCK_CARRY_A),
        ];
        for call in 0..=255 {
            for reply in 0..=255 {
                let length = match call {
                    OSARGS => 4,
                    OSFILE => 16,
                    OSGBPB => 13,
                    _ => 0,
                };
                let block = &[0; 16][..length];
                let text = &[0; 256];
                for carrier in [SERIAL, PARALLEL, 2, 255] {
                    let written = Reply {
                        carrier,
                        block,
                        ..blank(call, reply)
                    };
                    let fits = good.contains(&(call, reply)) && carrier <= PARALLEL;
                    let answer = match written.write(&mut [0; 40]) {
                        Ok(_) => 0,
                        Err(number) => number,
                    };
                    let expected = match call {
                        CALLS.. => 4,
                        _ if fits => 0,
                        _ => 9,
                    };
                    assert_eq!(answer, expected);
                    let long = Reply { text, ..written };
                    let number = if call < CALLS { 6 } else { 4 };
                    assert_eq!(long.write(&mut [0; 600]), Err(number));
                }
            }
        }
    }

    #[test]
    fn blocks_and_lines_that_do_not_fit() {
        let write = |reply: Reply| reply.write(&mut [0; 600]);
        let line = blank(OSWORD_0, LINE);
        for text in [&[0x0D, 0x41], &[0x41, 0x0D]] {
            assert_eq!(write(Reply { text, ..line }), Err(9));
        }
        let text = &[0x41];
        assert_eq!(write(Reply { text, ..line }), Ok(3));
        let escaped = blank(OSWORD_0, ESCAPED);
        assert_eq!(write(Reply { text, ..escaped }), Err(9));
        let osargs = blank(OSARGS, A_BLOCK);
        for (length, answer) in [
            (0, Err(9)),
            (3, Err(9)),
            (4, Ok(5)),
            (5, Err(9)),
            (260, Err(9)),
        ] {
            let block = &[0; 260][..length];
            assert_eq!(write(Reply { block, ..osargs }), answer);
        }
        let block = &[0x41];
        assert_eq!(write(Reply { block, ..line }), Err(9));
        let ack = blank(OSCLI, ACK);
        assert_eq!(write(Reply { block, ..ack }), Err(9));
        for out_length in 0..=255 {
            let block = &[0; 255][..out_length as usize];
            let osword = Reply {
                out_length,
                block,
                ..blank(OSWORD, BLOCK)
            };
            assert_eq!(write(osword), Ok(block.len()));
            let out_length = out_length.wrapping_add(1);
            let osword = Reply {
                out_length,
                ..osword
            };
            assert_eq!(write(osword), Err(9));
        }
    }

    #[test]
    fn fields_of_bytes_that_are_not_there() {
        for call in 0..=255 {
            let given = given(call, &[]);
            assert!(!given.carry);
            assert_eq!((given.x, given.y, given.a), (0, 0, 0));
            assert_eq!((given.block, given.text), (0..0, 0..0));
        }
        assert_eq!(given(OSWORD_0, &[0x00]).text, 1..1);
        assert_eq!(given(OSARGS, &[0x07]).block, 1..1);
        assert_eq!(given(OSFILE, &[0x07; 3]).block, 1..3);
        assert_eq!(given(OSWORD_0, &[0x00, 0x0D]).text, 1..1);
        assert_eq!(given(OSWORD_0, &[0x80, 0x0D]).reply, ESCAPED);
        assert_eq!(given(OSGBPB, &[0xFF; 12]).block, 0..12);
        let gbpb = given(OSGBPB, &[0xFF; 14]);
        assert_eq!((gbpb.block, gbpb.carry, gbpb.a), (0..13, true, 0));
        let none = Given {
            reply: NO_REPLY,
            ..Given::default()
        };
        assert_eq!(given(CALLS, &[0xFF; 20]), none);
    }

    #[test]
    fn kinds_of_requests() {
        let codes = [
            0x00, 0x02, 0x04, 0x06, 0x08, 0x0A, 0x0C, 0x0E, 0x10, 0x12, 0x12, 0x14, 0x16,
        ];
        for (call, code) in codes.into_iter().enumerate() {
            let mut body = [9; 260];
            body[0] = match call as u8 {
                OSFIND_CLOSE => 0,
                _ => 7,
            };
            let out_length = if call as u8 == OSWORD { 9 } else { 0 };
            assert_eq!(kind_of(code, &body), (call as u8, out_length));
            let asked = asked(code, &body);
            assert_eq!((asked.call, asked.out_length), (call as u8, out_length));
        }
        assert_eq!(kind_of(0x08, &[]), (OSWORD, 0));
        assert_eq!(kind_of(0x12, &[]), (OSFIND_CLOSE, 0));
        for code in (0..=255).filter(|code| !codes.contains(code)) {
            assert_eq!(kind_of(code, &[1]), (NO_CALL, 0));
        }
    }
}
