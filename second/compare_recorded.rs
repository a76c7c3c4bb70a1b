//! Recorded replies: the same recordings go to the library's reader of a whole one and
//! to the second program's, and everything they give is compared; then the library's
//! reader is compared with the library's own loop.

use crate::inputs::{ACTIONS, NESTS, Sent, class_of, escaped, nest_of, open_of, opened};
use crate::interface::{
    ERROR, NEED_MORE, REFUSED, REPLY, RESTART, TubeRecorded, tube_begin, tube_link,
    tube_read_recorded, tube_run,
};
use crate::link::recorded::{End, Recorded, read_recorded};
use crate::link::{CALLS, LENT, Link, NOTE, OSWORD, OSWORD_0, TRANSFERS, Transfer};
use crate::random::Random;
use crate::report::{Report, Row, difference, every};

impl TubeRecorded {
    fn from_second(recorded: &Recorded) -> TubeRecorded {
        let (kind, number, length) = match &recorded.end {
            End::Reply(reply) => (REPLY, 0, reply.len()),
            End::Error { number, text } => (ERROR, *number, text.len()),
            End::Restart => (RESTART, 0, 0),
            End::Refused(number) => (REFUSED, *number, 0),
            End::RanOut => (NEED_MORE, 0, 0),
        };
        TubeRecorded {
            used: recorded.used,
            noted: recorded.noted,
            stored: recorded.stored,
            length,
            kind,
            number: number as u32,
        }
    }

    /// How many bytes of the lent reply are written.
    fn written(&self) -> usize {
        match self.kind {
            REPLY => self.length,
            ERROR => 1 + self.length,
            _ => 0,
        }
    }
}

// ---- Properties ----

#[derive(Clone, Copy)]
enum Property {
    Kind,
    Number,
    Length,
    Used,
    Noted,
    Stored,
    Notes,
    NotesBeyond,
    Data,
    DataBeyond,
    Out,
    OutBeyond,
    Short,
    Measured,
    Suffices,
    NoCall,
    Loop,
    Cut,
    InputEnds,
    InputNests,
    InputStates,
    InputNotes,
    InputRooms,
    InputLong,
}

impl From<Property> for usize {
    fn from(property: Property) -> usize {
        property as usize
    }
}

#[rustfmt::skip]
const PROPERTIES: [Row<Property>; 24] = [
    (Property::Kind, "recording: kind of its end", 4 * RECORDINGS),
    (Property::Number, "recording: number of the error or refusal", 4 * RECORDINGS),
    (Property::Length, "recording: length of the reply or text", 4 * RECORDINGS),
    (Property::Used, "recording: raw bytes used", 4 * RECORDINGS),
    (Property::Noted, "recording: number of notes", 4 * RECORDINGS),
    (Property::Stored, "recording: number of bytes of load data and blocks", 4 * RECORDINGS),
    (Property::Notes, "recording: the notes", RECORDINGS),
    (Property::NotesBeyond, "recording: room beyond the notes stays", 4 * RECORDINGS),
    (Property::Data, "recording: the load data and blocks", RECORDINGS),
    (Property::DataBeyond, "recording: data lent beyond them stays", 4 * RECORDINGS),
    (Property::Out, "recording: the reply, or the error with its text", RECORDINGS / 4),
    (Property::OutBeyond, "recording: bytes lent for the reply beyond it stay", 4 * RECORDINGS),
    (Property::Short, "recording: room or data too short by one byte or more", RECORDINGS / 2),
    (Property::Measured, "recording: empty room and data measure what is needed", RECORDINGS / 4),
    (Property::Suffices, "recording: a note and a data byte for each raw byte suffice", RECORDINGS),
    (Property::NoCall, "recording: numbers that are no call", 243),
    (Property::Loop, "recording: the library's loop gives the same", RECORDINGS),
    (Property::Cut, "recording: cut at every place", 4 * RECORDINGS),
    (Property::InputEnds, "inputs: each end of each call", 1),
    (Property::InputNests, "inputs: each end in each nest of transfers", 1),
    (Property::InputStates, "inputs: recordings that run out in each action, nest and pair", 1),
    (Property::InputNotes, "inputs: each kind of note, each count of load data", 1),
    (Property::InputRooms, "inputs: room and data that are just enough and longer", 1),
    (Property::InputLong, "inputs: many notes, much data", 1),
];

// ---- What the inputs were ----

/// The ends are numbered by kind, a refusal by 8 and its number.
const ENDS: usize = 8 + 14;
const DATA_IN_SAVE: u32 = REFUSED + 9;
const TOO_DEEP: u32 = REFUSED + 13;

/// The ends that there can be.
const POSSIBLE: [u32; 9] = [
    NEED_MORE,
    REPLY,
    ERROR,
    RESTART,
    REFUSED + 4,
    REFUSED + 5,
    REFUSED + 6,
    DATA_IN_SAVE,
    TOO_DEEP,
];

struct Seen {
    /// By call and end.
    ends: [[u64; ENDS]; CALLS as usize],
    /// By the open transfers before the last byte, and end.
    nests: [[u64; ENDS]; NESTS],
    /// Those that run out, by open action and escape.
    states: [[u64; 2]; ACTIONS],
    notes: [u64; 15],
    /// Load bytes that a note counts.
    counts: [bool; 256],
    /// Bytes lent for notes and for data beyond those that are needed.
    left: [[u64; 8]; 2],
    /// More than a byte and than two bytes can count, of notes and of data.
    long: [[u64; 2]; 2],
}

impl Seen {
    fn new() -> Box<Seen> {
        Box::new(Seen {
            ends: [[0; ENDS]; CALLS as usize],
            nests: [[0; ENDS]; NESTS],
            states: [[0; 2]; ACTIONS],
            notes: [0; 15],
            counts: [false; 256],
            left: [[0; 8]; 2],
            long: [[0; 2]; 2],
        })
    }

    /// Notes a recording that was read, and the link of single bytes at its end.
    fn read(&mut self, call: u8, given: &TubeRecorded, notes: &[u8], link: &Link) {
        let end = match given.kind {
            REFUSED => REFUSED + given.number,
            kind => kind,
        };
        if let Some(ends) = self.ends.get_mut(call as usize) {
            ends[end as usize] += 1;
        }
        self.nests[nest_of(link) as usize][end as usize] += 1;
        if given.kind == NEED_MORE {
            self.states[class_of(link.action)][link.escape as usize] += 1;
        }
        for note in notes.chunks(NOTE) {
            self.notes[note[0] as usize] += 1;
            if note[0] == 13 {
                self.counts[note[1] as usize] = true;
            }
        }
        for (long, count) in self.long.iter_mut().zip([given.noted, given.stored]) {
            long[0] += (count > 256) as u64;
            long[1] += (count > 65_536) as u64;
        }
    }

    fn report(&self, report: &mut Report) {
        report.need(Property::InputEnds, self.few_ends());
        report.need(Property::InputNests, self.few_nests());
        let few_states = every(1, ACTIONS, 2)
            .find(|&(_, action, escape)| self.states[action][escape] < 1000)
            .map(|(_, action, escape)| {
                format!("recordings that run out in action {action}, escape {escape}")
            });
        report.need(Property::InputStates, few_states);
        report.need(Property::InputNotes, self.few_notes());
        const LISTS: [&str; 2] = ["notes", "bytes of data"];
        let few_rooms = every(1, 2, 8)
            .find(|&(_, list, left)| self.left[list][left] < 10_000)
            .map(|(_, list, left)| format!("{left} bytes left, lent for {}", LISTS[list]));
        report.need(Property::InputRooms, few_rooms);
        let few_long = every(1, 2, 2)
            .find(|&(_, list, size)| self.long[list][size] < [1000, 10][size])
            .map(|(_, list, size)| format!("more than {} {}", [256, 65_536][size], LISTS[list]));
        report.need(Property::InputLong, few_long);
    }

    fn few_ends(&self) -> Option<String> {
        let few = every(1, CALLS as usize, POSSIBLE.len())
            .find(|&(_, call, end)| self.ends[call][POSSIBLE[end] as usize] < 100);
        few.map(|(_, call, end)| format!("recordings of call {call} with end {}", POSSIBLE[end]))
    }

    fn few_nests(&self) -> Option<String> {
        let few = every(1, NESTS, POSSIBLE.len()).find(|&(_, nest, end)| {
            let open = open_of(nest as u8);
            let possible = match POSSIBLE[end] {
                REPLY => nest == 0,
                DATA_IN_SAVE => open[0] == Some(Transfer::Save),
                TOO_DEEP => open[TRANSFERS - 1].is_some(),
                _ => true,
            };
            possible && self.nests[nest][POSSIBLE[end] as usize] < 100
        });
        few.map(|(_, nest, end)| format!("recordings in nest {nest} with end {}", POSSIBLE[end]))
    }

    fn few_notes(&self) -> Option<String> {
        let kind = (2..5).chain(9..15).find(|&kind| self.notes[kind] < 10_000);
        let count = (1..256).find(|&count| !self.counts[count]);
        let kind = kind.map(|kind| format!("notes of kind {kind}"));
        kind.or(count.map(|count| format!("notes of {count} load bytes")))
    }
}

// ---- One recording ----

const GUARD: usize = 16;

/// What is lent, between guard bytes.
#[derive(Clone, PartialEq)]
struct Lent {
    room: Vec<u8>,
    data: Vec<u8>,
    out: Vec<u8>,
}

/// The lent bytes without their guards.
fn within(bytes: &mut [u8]) -> &mut [u8] {
    let end = bytes.len() - GUARD;
    &mut bytes[GUARD..end]
}

impl Lent {
    fn random(random: &mut Random, room: usize, data: usize) -> Lent {
        let [room, data, out] = [room, data, LENT].map(|length| {
            let mut bytes = vec![0; GUARD + length + GUARD];
            random.fill(&mut bytes);
            bytes
        });
        Lent { room, data, out }
    }

    fn library(&mut self, (call, out_length): (u8, u8), raw: &[u8]) -> TubeRecorded {
        let Lent { room, data, out } = self;
        let (room, data) = (within(room), within(data));
        unsafe {
            tube_read_recorded(
                call,
                out_length,
                raw.as_ptr(),
                raw.len(),
                room.as_mut_ptr(),
                room.len(),
                data.as_mut_ptr(),
                data.len(),
                within(out).as_mut_ptr(),
            )
        }
    }

    fn second(&mut self, kind: (u8, u8), raw: &[u8]) -> TubeRecorded {
        let Lent { room, data, out } = self;
        let out: &mut [u8; LENT] = within(out).try_into().unwrap();
        let recorded = read_recorded(kind, raw, within(room), within(data), out);
        TubeRecorded::from_second(&recorded)
    }
}

/// A recording, with the call and its out length.
#[derive(Clone, Copy)]
struct Input<'a> {
    kind: (u8, u8),
    raw: &'a [u8],
    name: &'a str,
}

impl Input<'_> {
    fn shown(&self) -> String {
        let Input { kind, raw, name } = self;
        let start = &raw[..raw.len().min(80)];
        format!("{name}, call {kind:?}, {} bytes {start:02X?}", raw.len())
    }

    /// How many bytes of room and data it needs.
    fn needed(&self) -> (usize, usize) {
        let recorded = read_recorded(self.kind, self.raw, &mut [], &mut [], &mut [0; LENT]);
        (NOTE * recorded.noted, recorded.stored)
    }

    /// The second program's link after the bytes that are used but the last; after all
    /// of them where the recording runs out.
    fn last_state(&self, given: &TubeRecorded) -> Link {
        let mut link = Link::new();
        link.begin(self.kind.0, self.kind.1);
        let (mut reply, mut own) = ([0; LENT], [0; LENT]);
        let before = match given.kind {
            NEED_MORE => given.used,
            _ => given.used.saturating_sub(1),
        };
        for &byte in &self.raw[..before] {
            link.step(byte, &mut reply, &mut own);
        }
        link
    }
}

/// Reads a recording with so many bytes lent by both and compares: what the second
/// program gives, its notes, and whether all was equal.
fn compare_lent(
    random: &mut Random,
    input: Input,
    (room, data): (usize, usize),
    report: &mut Report,
) -> (TubeRecorded, Vec<u8>, bool) {
    let mut found = Lent::random(random, room, data);
    let mut expected = found.clone();
    let library = found.library(input.kind, input.raw);
    let second = expected.second(input.kind, input.raw);

    let mut all = true;
    let mut check = |property: Property, good: bool, differing: &dyn Fn() -> String| {
        all &= good;
        report.check(property, good, || {
            format!(
                "{}, {room} bytes of room, {data} of data: {}",
                differing(),
                input.shown()
            )
        });
    };
    let answers = || format!("{library:?}, second program {second:?}");
    check(Property::Kind, library.kind == second.kind, &answers);
    check(Property::Number, library.number == second.number, &answers);
    check(Property::Length, library.length == second.length, &answers);
    check(Property::Used, library.used == second.used, &answers);
    check(Property::Noted, library.noted == second.noted, &answers);
    check(Property::Stored, library.stored == second.stored, &answers);
    let short = (second.kind, second.number) == (REFUSED, 8);
    let (noted, stored) = match short {
        true => (0, 0),
        false => (second.noted, second.stored),
    };
    let lists = [
        (Property::Notes, &found.room, &expected.room, NOTE * noted),
        (Property::Data, &found.data, &expected.data, stored),
        (Property::Out, &found.out, &expected.out, second.written()),
    ];
    let beyond = [
        Property::NotesBeyond,
        Property::DataBeyond,
        Property::OutBeyond,
    ];
    for ((written, found, expected, length), beyond) in lists.into_iter().zip(beyond) {
        let end = GUARD + length;
        let at = || format!("{}, {}", difference(found, expected, GUARD), answers());
        if length > 0 {
            check(written, found[GUARD..end] == expected[GUARD..end], &at);
        }
        let stays = found[..GUARD] == expected[..GUARD] && found[end..] == expected[end..];
        check(beyond, stays, &at);
    }
    let notes = expected.room[GUARD..GUARD + NOTE * noted].to_vec();
    (second, notes, all)
}

/// Reads a recording with several lengths of room and data.
fn compare_recording(random: &mut Random, input: Input, seen: &mut Seen, report: &mut Report) {
    let (room, data) = input.needed();
    let left = [random.below(8), random.below(8)];
    for (count, left) in seen.left.iter_mut().zip(left) {
        count[left] += 1;
    }
    let lent = (room + left[0], data + left[1]);
    let (given, notes, _) = compare_lent(random, input, lent, report);
    seen.read(input.kind.0, &given, &notes, &input.last_state(&given));

    let whole = (NOTE * input.raw.len(), input.raw.len());
    let (_, _, all) = compare_lent(random, input, whole, report);
    report.check(Property::Suffices, all, || input.shown());
    if random.one_in(16) {
        let lent = (room + random.below(2000), data + random.below(2000));
        compare_lent(random, input, lent, report);
    }
    if room > 0 {
        let mut lent = (room, data);
        let list = random.below(3);
        if list != 0 || data == 0 {
            lent.0 = too_short(random, room);
        }
        if list != 1 && data > 0 {
            lent.1 = too_short(random, data);
        }
        let (_, _, all) = compare_lent(random, input, lent, report);
        report.check(Property::Short, all, || input.shown());
    }
    if random.one_in(2) {
        let (_, _, all) = compare_lent(random, input, (0, 0), report);
        report.check(Property::Measured, all, || input.shown());
    }
    let good = compare_loop(random, input);
    report.check(Property::Loop, good, || input.shown());
}

/// A length that is too short, most often by one.
fn too_short(random: &mut Random, whole: usize) -> usize {
    match random.below(3) {
        0 => random.below(whole),
        _ => whole - 1,
    }
}

/// The library alone: its loop over a fresh link with the call begun stops at the same
/// byte with the same notes, data and end.
fn compare_loop(random: &mut Random, input: Input) -> bool {
    let Input { kind, raw, .. } = input;
    let mut lent = Lent::random(random, NOTE * raw.len(), raw.len());
    let (mut room, mut data) = (lent.room.clone(), lent.data.clone());
    let (mut reply, mut own) = (lent.out.clone(), lent.out.clone());
    let before = lent.out.clone();
    let recorded = lent.library(kind, raw);
    let begun = unsafe { tube_begin(tube_link(), kind.0, kind.1) };
    if begun.kind != 0 {
        let (kind, number) = match begun.kind {
            1 => (REPLY, 0),
            _ => (REFUSED, begun.answer as u32),
        };
        let expected = TubeRecorded {
            used: 0,
            noted: 0,
            stored: 0,
            length: 0,
            kind,
            number,
        };
        return recorded == expected;
    }
    let (notes, bytes) = (within(&mut room), within(&mut data));
    let ran = unsafe {
        tube_run(
            begun.link,
            raw.as_ptr(),
            raw.len(),
            within(&mut reply).as_mut_ptr(),
            within(&mut own).as_mut_ptr(),
            notes.as_mut_ptr(),
            notes.len(),
            bytes.as_mut_ptr(),
            bytes.len(),
        )
    };
    let expected = TubeRecorded {
        used: ran.used,
        noted: ran.noted,
        stored: ran.stored,
        length: ran.told.length,
        kind: ran.told.kind,
        number: ran.told.first as u32,
    };
    let given = match ran.told.kind {
        REPLY => &reply,
        ERROR => &own,
        _ => &before,
    };
    let end = GUARD + expected.written().min(LENT);
    recorded == expected
        && lent.room == room
        && lent.data == data
        && lent.out[..end] == given[..end]
        && lent.out[end..] == before[end..]
}

// ---- Recordings ----

const RECORDINGS: u64 = 240_000;

/// A reply with actions between its bytes, and a piece before one of them.
fn laden(random: &mut Random, plain: &[u8], mixture: usize, piece: &[u8]) -> Vec<u8> {
    let often = 2 + random.below(8);
    let place = random.below(plain.len());
    let mut sent = Sent::default();
    for (at, &byte) in plain.iter().enumerate() {
        while random.one_in(often) {
            random.put_action(&mut sent, mixture, 0);
        }
        if at == place {
            sent.raw.extend(piece);
        }
        sent.raw.extend(escaped(&[byte]));
    }
    sent.raw
}

/// An error or a restart inside transfers.
fn ended(random: &mut Random, mixture: usize) -> Vec<u8> {
    let depth = random.below(1 + TRANSFERS);
    let nest = random.nest(mixture, depth).raw;
    let error = match random.below(4) {
        0 => vec![0x9B, 0, 0, 0],
        1 => {
            let length = random.length();
            random.error(mixture, length)
        }
        _ => {
            let length = random.below(4);
            random.error(mixture, length)
        }
    };
    [nest, error].concat()
}

/// Cuts, flips, replaces, inserts, drops and repeats.
fn damage(random: &mut Random, raw: &mut Vec<u8>) {
    for _ in 0..1 + random.below(4) {
        let at = random.below(raw.len() + 1);
        let within = at < raw.len();
        match random.below(9) {
            0 => raw.truncate(at),
            1 | 2 if within => raw[at] ^= 1 << random.below(8),
            3 if within => raw[at] = random.edge(),
            4 if within => {
                raw.remove(at);
            }
            5 if within => {
                let from = at.saturating_sub(random.below(8));
                raw.drain(from..=at);
            }
            6 if within => raw.insert(at, raw[at]),
            7 => {
                let mark = random.mark();
                raw.splice(at..at, [0x9B, mark]);
            }
            _ => raw.insert(at, random.mixed(1)),
        }
    }
}

/// Any bytes, with marks among them.
fn noise(random: &mut Random) -> Vec<u8> {
    let mixture = random.below(3);
    let most = if random.one_in(8) { 600 } else { 60 };
    let mut raw = Vec::new();
    for _ in 0..random.below(most) {
        match random.below(6) {
            0 => raw.extend([0x9B, random.mark()]),
            _ => raw.push(random.mixed(mixture)),
        }
    }
    raw
}

fn recording(random: &mut Random, kind: (u8, u8), number: u64) -> (&'static str, Vec<u8>) {
    let mixture = random.below(4);
    let mut plain = random.reply(kind, mixture);
    match number % 8 {
        0 | 1 => {
            let mut raw = laden(random, &plain, mixture, &[]);
            let behind = random.below(3);
            raw.extend(random.bytes(1, behind));
            ("good", raw)
        }
        2 => {
            let piece = ended(random, mixture);
            ("ended", laden(random, &plain, mixture, &piece))
        }
        3 => {
            if kind.0 == OSWORD_0 && random.one_in(2) {
                let length = 256 + random.below(3);
                plain = random.line(mixture, length);
            }
            let piece = random.broken(mixture);
            ("broken", laden(random, &plain, mixture, &piece))
        }
        4..=6 => {
            let piece = match random.below(3) {
                0 => ended(random, mixture),
                _ => Vec::new(),
            };
            let mut raw = laden(random, &plain, mixture, &piece);
            damage(random, &mut raw);
            ("damaged", raw)
        }
        _ => ("noise", noise(random)),
    }
}

fn compare_recordings(random: &mut Random, count: u64, seen: &mut Seen, report: &mut Report) {
    for number in 0..count {
        let mut kind = random.call();
        if random.one_in(64) {
            kind = (OSWORD, 0);
        }
        // A reply has at least a byte; those to the call without one are not used.
        let (name, raw) = recording(random, (kind.0, kind.1.max(1)), number);
        let input = Input {
            kind,
            raw: &raw,
            name: &format!("{name} recording {number}"),
        };
        compare_recording(random, input, seen, report);
        if raw.len() < 200 && random.one_in(6) {
            compare_cuts(random, input, seen, report);
        }
    }
}

/// The recording cut at every place, with room and data that are just enough.
fn compare_cuts(random: &mut Random, input: Input, seen: &mut Seen, report: &mut Report) {
    for cut in 0..=input.raw.len() {
        let input = Input {
            raw: &input.raw[..cut],
            ..input
        };
        let (given, notes, all) = compare_lent(random, input, input.needed(), report);
        report.check(Property::Cut, all, || input.shown());
        seen.read(input.kind.0, &given, &notes, &input.last_state(&given));
    }
}

/// Every mark, errors and restarts in every nest, then ends; every length of load data,
/// control blocks, lines, texts and OSWORD's replies; every number that is no call.
fn compare_each(random: &mut Random, seen: &mut Seen, report: &mut Report) {
    let mut compare = |random: &mut Random, kind: (u8, u8), raw: &[u8], name: &str| {
        compare_recording(random, Input { kind, raw, name }, seen, report);
    };
    for (_, nest, byte) in every(1, NESTS, 256) {
        let kind = random.call();
        let mixture = random.below(4);
        let refused = [0x9B, 0xA0 + byte as u8 % 16];
        let length = if byte % 2 == 0 { byte } else { 256 + byte % 3 };
        let error = random.error(mixture, length);
        for piece in [&[0x9B, byte as u8][..], &refused, &error, &[0x9B, 0, 0, 0]] {
            let mut raw = [&opened(nest as u8), piece].concat();
            for _ in 0..4 {
                let length = random.below(4);
                raw.extend(escaped(&random.bytes(mixture, length)));
                raw.extend([0x9B, random.low_bits(0xB0)]);
            }
            compare(random, kind, &raw, "each nest");
        }
    }
    for (length, mixture, _) in every(601, 4, 1) {
        let kind = random.call();
        let mut raw = opened(1);
        raw.extend(escaped(&random.bytes(mixture, length)));
        if length < 128 {
            raw.extend([0x9B, length as u8]);
            raw.extend(escaped(&random.bytes(mixture, length)));
            raw.push(0);
        }
        raw.extend([0x9B, 0xB0]);
        raw.extend(escaped(&random.reply(kind, mixture)));
        compare(random, kind, &raw, "each load and block");
        let reply = escaped(&random.bytes(mixture, 255));
        compare(random, (OSWORD, length as u8), &reply, "each out length");
    }
    for length in 0..=257 {
        let line = random.line(length % 4, length);
        compare(random, (OSWORD_0, 0), &escaped(&line), "each line");
        let error = random.error(length % 4, length);
        compare(random, (OSWORD_0, 0), &error, "each text");
    }
    compare_no_calls(random, report);
}

fn compare_no_calls(random: &mut Random, report: &mut Report) {
    for call in CALLS..=255 {
        let raw = noise(random);
        let input = Input {
            kind: (call, random.byte()),
            raw: &raw,
            name: "no call",
        };
        let lent = (random.below(20), random.below(20));
        let (given, _, all) = compare_lent(random, input, lent, report);
        let refused = (given.kind, given.number, given.used) == (REFUSED, 4, 0);
        report.check(Property::NoCall, all && refused, || input.shown());
    }
}

const LONG: u64 = 1200;

/// Recordings with many notes or much data.
fn compare_long(random: &mut Random, count: u64, seen: &mut Seen, report: &mut Report) {
    for number in 0..count {
        let length = match number % 100 {
            0 => 65_530 + random.below(5000),
            _ => 300 + random.below(1500),
        };
        let kind = random.call();
        let mut notes = Vec::new();
        for _ in 0..length {
            notes.extend([0x9B, random.low_bits(0x80)]);
        }
        let mut load = opened(1);
        load.extend(escaped(&random.bytes(0, length)));
        load.extend([0x9B, 0xB0]);
        for (mut raw, name) in [(notes, "many notes"), (load, "much data")] {
            raw.extend(escaped(&random.reply(kind, 1)));
            let raw = &raw[..];
            compare_recording(random, Input { kind, raw, name }, seen, report);
        }
    }
}

// ---- All of it ----

pub fn report() -> Report {
    Report::new(&PROPERTIES)
}

/// One input in `share` of each kind that is drawn at random.
fn compare_random(random: &mut Random, share: u64, seen: &mut Seen, report: &mut Report) {
    compare_recordings(random, RECORDINGS / share, seen, report);
    compare_long(random, LONG / share, seen, report);
}

pub fn whole(random: &mut Random, report: &mut Report) {
    let mut seen = Seen::new();
    compare_random(random, 1, &mut seen, report);
    compare_each(random, &mut seen, report);
    seen.report(report);
}

pub fn share(random: &mut Random, share: u64, report: &mut Report) {
    compare_random(random, share, &mut Seen::new(), report);
}
