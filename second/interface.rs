//! The library's C interface, `include/tube.h`, as Rust declares it.

/// A chip: byte c of `oldest` and of `next` are the first bytes of channel c and
/// byte c of `held` counts them; `later` has the rest of parasite-to-host R1's.
#[repr(C)]
#[derive(Clone, Copy, PartialEq, Debug)]
pub struct TubeChip {
    pub oldest: u64,
    pub next: u64,
    pub later: u64,
    pub held: u64,
    pub flags: u64,
}

#[repr(C)]
#[derive(Clone, Copy, Debug)]
pub struct TubeReply {
    pub answer: u8,
    pub byte: u8,
}

#[repr(C)]
#[derive(Clone, Copy, Debug)]
pub struct TubePlayed {
    pub played: usize,
    pub answer: u8,
    pub chip: TubeChip,
}

/// A request reader.
#[repr(C)]
#[derive(Clone, Copy, PartialEq, Debug)]
pub struct TubeReader {
    pub count: u16,
    pub carrier: u8,
    pub phase: u8,
    pub escape: u8,
    pub style: u8,
    pub code: u8,
}

/// What a raw byte gives: kind 0 needs more, 1 is a character, 2 a request, 3 a
/// refusal.
#[repr(C)]
#[derive(Clone, Copy, Debug)]
pub struct TubeRead {
    pub reader: TubeReader,
    pub length: u32,
    pub kind: u8,
    pub value: u8,
    pub style: u8,
    pub code: u8,
}

#[repr(C)]
#[derive(Clone, Copy, Debug)]
pub struct TubeFed {
    pub read: TubeRead,
    pub used: usize,
}

/// A link: the bytes of the reply and of the open action so far; 0 or one more
/// than the call that waits; the open action (0 none, 1 error, 2 event, 3 address,
/// 4 execute, 5 load, 6 save, 128 + n a control block of n bytes); the flags.
#[repr(C)]
#[derive(Clone, Copy, PartialEq, Debug)]
pub struct TubeLink {
    pub got: u16,
    pub held: u16,
    pub wait: u8,
    pub out_length: u8,
    pub action: u8,
    pub flags: u8,
}

// A link's flags are a sum: an escape was seen; it is stopped; this times the number
// of its open transfers, 0 where none is open, 2n + 1 for a load inside those of
// number n, 2n + 2 for a save.
pub const LINK_ESCAPE: u8 = 1;
pub const LINK_STOPPED: u8 = 2;
pub const LINK_NESTED: u8 = 4;
/// The most that the flags can be: four saves, stopped inside a pair.
pub const LINK_FLAGS: u8 = 123;

/// What a raw byte gives, by its kind.
#[repr(C)]
#[derive(Clone, Copy, Debug)]
pub struct TubeTold {
    pub link: TubeLink,
    pub length: usize,
    pub kind: u32,
    pub first: u8,
    pub second: u8,
    pub third: u8,
    pub fourth: u8,
}

// The kinds that the loop stops with; 1 to 4 and 9 to 14 are those of its notes.
pub const NEED_MORE: u32 = 0;
pub const REPLY: u32 = 5;
pub const ERROR: u32 = 6;
pub const RESTART: u32 = 7;
pub const REFUSED: u32 = 8;
// The kinds whose answer differs from the note.
pub const BLOCK: u32 = 9;
pub const DATA: u32 = 13;

/// Kind 0 waits, 1 complete, 2 refused.
#[repr(C)]
#[derive(Clone, Copy, Debug)]
pub struct TubeBegun {
    pub link: TubeLink,
    pub kind: u8,
    pub answer: u8,
}

#[repr(C)]
#[derive(Clone, Copy, Debug)]
pub struct TubeRan {
    pub told: TubeTold,
    pub used: usize,
    pub noted: usize,
    pub stored: usize,
}

/// What a recorded reply gives; the kind is one that the loop stops with.
#[repr(C)]
#[derive(Clone, Copy, PartialEq, Debug)]
pub struct TubeRecorded {
    pub used: usize,
    pub noted: usize,
    pub stored: usize,
    pub length: usize,
    pub kind: u32,
    pub number: u32,
}

#[repr(C)]
#[derive(Clone, Copy, Debug)]
pub struct TubeWritten {
    pub length: usize,
    pub answer: u8,
}

/// The fields of a finished reply.
#[repr(C)]
#[derive(Clone, Copy, Debug)]
pub struct TubeGiven {
    pub block_start: usize,
    pub block_length: usize,
    pub text_start: usize,
    pub text_length: usize,
    pub reply: u8,
    pub carry: u8,
    pub x: u8,
    pub y: u8,
    pub a: u8,
}

/// Kind 0 needs more, 1 is the last, 2 refused.
#[repr(C)]
#[derive(Clone, Copy, PartialEq, Debug)]
pub struct TubeTaken {
    pub count: u16,
    pub kind: u8,
    pub answer: u8,
}

#[repr(C)]
#[derive(Clone, Copy, Debug)]
pub struct TubeKind {
    pub call: u8,
    pub out_length: u8,
}

/// The fields of a request.
#[repr(C)]
#[derive(Clone, Copy, PartialEq, Debug)]
pub struct TubeAsked {
    pub block_start: usize,
    pub block_length: usize,
    pub text_start: usize,
    pub text_length: usize,
    pub call: u8,
    pub x: u8,
    pub y: u8,
    pub a: u8,
    pub out_length: u8,
}

/// A name found in a body: on answer 0 its length.
#[repr(C)]
#[derive(Clone, Copy, Debug)]
pub struct TubeName {
    pub length: usize,
    pub answer: u8,
}

unsafe extern "C" {
    pub fn tube_access(
        chip: *mut TubeChip,
        side: u8,
        offset: u8,
        operation: u8,
        byte: u8,
    ) -> TubeReply;
    pub fn tube_new() -> TubeChip;
    pub fn tube_reset(chip: TubeChip) -> TubeChip;
    pub fn tube_lines(chip: TubeChip) -> u8;
    pub fn tube_play(
        chip: TubeChip,
        script: *const u8,
        script_length: usize,
        limit: usize,
        results: *mut u8,
        results_length: usize,
    ) -> TubePlayed;
    pub fn tube_text(
        results: *const u8,
        results_length: usize,
        played: usize,
        answer: u8,
        out: *mut u8,
        out_length: usize,
    ) -> usize;
    pub fn tube_reader(carrier: u8) -> TubeReader;
    pub fn tube_read(reader: TubeReader, raw: u8, body: *mut u8) -> TubeRead;
    pub fn tube_feed(
        reader: TubeReader,
        raw: *const u8,
        raw_length: usize,
        body: *mut u8,
    ) -> TubeFed;
    pub fn tube_write_request(
        carrier: u8,
        style: u8,
        call: u8,
        x: u8,
        y: u8,
        a: u8,
        out_length: u8,
        block: *const u8,
        block_length: usize,
        text: *const u8,
        text_length: usize,
        out: *mut u8,
        room: usize,
    ) -> TubeWritten;
    pub fn tube_link() -> TubeLink;
    pub fn tube_begin(link: TubeLink, call: u8, out_length: u8) -> TubeBegun;
    pub fn tube_link_step(link: TubeLink, raw: u8, reply: *mut u8, own: *mut u8) -> TubeTold;
    pub fn tube_run(
        link: TubeLink,
        raw: *const u8,
        raw_length: usize,
        reply: *mut u8,
        own: *mut u8,
        room: *mut u8,
        room_length: usize,
        data: *mut u8,
        data_length: usize,
    ) -> TubeRan;
    pub fn tube_read_recorded(
        call: u8,
        out_length: u8,
        raw: *const u8,
        raw_length: usize,
        room: *mut u8,
        room_length: usize,
        data: *mut u8,
        data_length: usize,
        out: *mut u8,
    ) -> TubeRecorded;
    pub fn tube_write_reply(
        carrier: u8,
        call: u8,
        out_length: u8,
        reply: u8,
        carry: u8,
        x: u8,
        y: u8,
        a: u8,
        block: *const u8,
        block_length: usize,
        text: *const u8,
        text_length: usize,
        out: *mut u8,
        room: usize,
    ) -> TubeWritten;
    pub fn tube_write_action(
        action: u8,
        first: u8,
        second: u8,
        third: u8,
        fourth: u8,
        block: *const u8,
        block_length: usize,
        text: *const u8,
        text_length: usize,
        out: *mut u8,
        room: usize,
    ) -> TubeWritten;
    pub fn tube_write_data(
        bytes: *const u8,
        length: usize,
        out: *mut u8,
        room: usize,
    ) -> TubeWritten;
    pub fn tube_reply_step(
        call: u8,
        out_length: u8,
        count: u16,
        byte: u8,
        reply: *mut u8,
    ) -> TubeTaken;
    pub fn tube_read_reply(call: u8, out_length: u8, bytes: *const u8, length: usize) -> TubeGiven;
    pub fn tube_kind_of(code: u8, body: *const u8, length: usize) -> TubeKind;
    pub fn tube_read_request(code: u8, body: *const u8, length: usize) -> TubeAsked;
    pub fn tube_file_name(body: *const u8, length: usize) -> TubeName;
}
