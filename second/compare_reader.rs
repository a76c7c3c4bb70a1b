//! The request reader: the same streams, slices and single bytes go to the
//! library and to the second program, and everything they give is compared.

use crate::interface::{TubeFed, TubeRead, TubeReader, tube_feed, tube_read, tube_reader};
use crate::link::serial::{BODY, PARALLEL, Read, Reader, SERIAL};
use crate::random::Random;
use crate::report::{Report, Row, difference, every};

const OUTSIDE: u8 = 0;
const INSIDE: u8 = 1;

/// The longest body of each code, by half the code.
const LONGEST: [usize; 12] = [0, 256, 2, 3, 258, 5, 6, 1, 2, 257, 273, 14];

impl TubeReader {
    fn from_second(reader: &Reader) -> TubeReader {
        TubeReader {
            count: reader.count as u16,
            carrier: reader.carrier,
            phase: reader.phase,
            escape: reader.escape as u8,
            style: reader.style,
            code: reader.code,
        }
    }

    fn to_second(self) -> Reader {
        Reader {
            carrier: self.carrier,
            phase: self.phase,
            escape: self.escape != 0,
            style: self.style,
            code: self.code,
            count: self.count as usize,
        }
    }
}

/// The lent body between guard bytes.
type Lent = [u8; GUARD + BODY + GUARD];

const GUARD: usize = 16;

fn body(lent: &mut Lent) -> &mut [u8; BODY] {
    (&mut lent[GUARD..GUARD + BODY]).try_into().unwrap()
}

fn library_read(reader: TubeReader, raw: u8, lent: &mut Lent) -> TubeRead {
    unsafe { tube_read(reader, raw, lent.as_mut_ptr().add(GUARD)) }
}

fn library_feed(reader: TubeReader, raw: &[u8], lent: &mut Lent) -> TubeFed {
    unsafe {
        tube_feed(
            reader,
            raw.as_ptr(),
            raw.len(),
            lent.as_mut_ptr().add(GUARD),
        )
    }
}

// ---- Properties ----

#[derive(Clone, Copy)]
enum Property {
    Fresh,
    StreamKind,
    StreamValue,
    StreamRequest,
    StreamRecord,
    StreamBody,
    StreamStopped,
    StepKind,
    StepValue,
    StepRequest,
    StepRecord,
    StepBody,
    StepStopped,
    SliceUsed,
    SliceKind,
    SliceValue,
    SliceRequest,
    SliceRecord,
    SliceBody,
    SliceStopped,
    InputRequests,
    InputRefusals,
    InputFirsts,
    InputMarksInside,
    InputEscapedData,
    InputResets,
    InputRecords,
    InputBeyond,
    InputOutside,
    InputEscapeNumbers,
    InputSlices,
}

impl From<Property> for usize {
    fn from(property: Property) -> usize {
        property as usize
    }
}

#[rustfmt::skip]
const PROPERTIES: [Row<Property>; 31] = [
    (Property::Fresh, "fresh reader", 256),
    (Property::StreamKind, "stream: kind of answer", 40 * STREAMS),
    (Property::StreamValue, "stream: character or refusal number", 40 * STREAMS),
    (Property::StreamRequest, "stream: style, code and length", 40 * STREAMS),
    (Property::StreamRecord, "stream: record after", 40 * STREAMS),
    (Property::StreamBody, "stream: every lent byte", 40 * STREAMS),
    (Property::StreamStopped, "stream: a stopped record is given back", STREAMS),
    (Property::StepKind, "step: kind of answer", STEPS),
    (Property::StepValue, "step: character or refusal number", STEPS),
    (Property::StepRequest, "step: style, code and length", STEPS),
    (Property::StepRecord, "step: record after", STEPS / 2),
    (Property::StepBody, "step: every lent byte", STEPS),
    (Property::StepStopped, "step: a stopped record is given back", STEPS / 10),
    (Property::SliceUsed, "slice: bytes used", SLICES),
    (Property::SliceKind, "slice: kind of answer", SLICES),
    (Property::SliceValue, "slice: character or refusal number", SLICES),
    (Property::SliceRequest, "slice: style, code and length", SLICES),
    (Property::SliceRecord, "slice: record after", SLICES / 2),
    (Property::SliceBody, "slice: every lent byte", SLICES),
    (Property::SliceStopped, "slice: a stopped record, or one given no byte, is given back", SLICES / 10),
    (Property::InputRequests, "inputs: finished requests of each code and style", 1),
    (Property::InputRefusals, "inputs: each refusal in each place", 1),
    (Property::InputFirsts, "inputs: each mark, first byte and character", 1),
    (Property::InputMarksInside, "inputs: each mark inside each code", 1),
    (Property::InputEscapedData, "inputs: &9B at each place of each body", 1),
    (Property::InputResets, "inputs: resets inside and after a refusal", 1),
    (Property::InputRecords, "inputs: records of each code and count", 1),
    (Property::InputBeyond, "inputs: records beyond each limit", 1),
    (Property::InputOutside, "inputs: each style, code and count outside a request", 1),
    (Property::InputEscapeNumbers, "inputs: each escape number", 1),
    (Property::InputSlices, "inputs: each answer to slices whole, cut and from any record", 1),
];

/// The properties that one compared byte counts for.
struct Group {
    kind: Property,
    value: Property,
    request: Property,
    record: Property,
    body: Property,
    stopped: Property,
}

const STREAM: Group = Group {
    kind: Property::StreamKind,
    value: Property::StreamValue,
    request: Property::StreamRequest,
    record: Property::StreamRecord,
    body: Property::StreamBody,
    stopped: Property::StreamStopped,
};

const STEP: Group = Group {
    kind: Property::StepKind,
    value: Property::StepValue,
    request: Property::StepRequest,
    record: Property::StepRecord,
    body: Property::StepBody,
    stopped: Property::StepStopped,
};

const SLICE: Group = Group {
    kind: Property::SliceKind,
    value: Property::SliceValue,
    request: Property::SliceRequest,
    record: Property::SliceRecord,
    body: Property::SliceBody,
    stopped: Property::SliceStopped,
};

// ---- Random inputs ----

impl Random {
    /// A mark that starts a request on the serial carrier.
    fn request_mark(&mut self) -> u8 {
        ((self.below(4) << 5) + 2 * self.below(12)) as u8
    }

    /// A good body for half a code, its string or block of this length.
    fn body(&mut self, half: usize, mixture: usize, length: usize) -> Vec<u8> {
        let close = half == 9 && length == 0 && self.one_in(2);
        let start = match half {
            1 => 0,
            4 => length + 3,
            9 if close => 2,
            9 => 1,
            10 => 16,
            _ => LONGEST[half],
        };
        let mut body: Vec<u8> = (0..start).map(|_| self.mixed(mixture)).collect();
        match half {
            2 => body[1] &= 0x7F,
            3 => body[2] |= 0x80,
            4 => {
                body[0] = body[0].max(1);
                body[1] = length as u8;
            }
            9 if close => body[0] = 0,
            9 => body[0] = body[0].max(1),
            _ => {}
        }
        if [1, 9, 10].contains(&half) && !close {
            body.extend(self.without(0x0D, mixture, length));
            body.push(0x0D);
        }
        if half == 10 {
            body.push(self.mixed(mixture));
        }
        body
    }

    /// Breaks a rule of a good body.
    fn break_body(&mut self, half: usize, body: &mut Vec<u8>) {
        match half {
            2 | 3 => *body.last_mut().unwrap() ^= 0x80,
            4 => body[0] = 0,
            1 | 9 | 10 => {
                let mixture = self.below(4);
                let mut start = match half {
                    1 => vec![],
                    9 => vec![self.at_least(1)],
                    _ => body[..16].to_vec(),
                };
                let length = 256 + self.below(3);
                start.extend(self.without(0x0D, mixture, length));
                *body = start;
            }
            _ => {}
        }
    }
}

// ---- What the inputs were ----

/// The place of a byte: half the code it is inside, or 0 outside.
fn place(reader: &Reader) -> usize {
    match reader.phase {
        INSIDE => reader.code as usize / 2,
        _ => 0,
    }
}

const SETS: [&str; 2] = ["streams", "single steps"];

/// What the compared bytes of the streams and of the single steps have been.
struct Seen {
    /// By streams or steps, carrier, half the code and style.
    finished: [[[[u64; 4]; 12]; 2]; 2],
    /// By streams or steps, carrier, place and number.
    refused: [[[[u64; 10]; 12]; 2]; 2],
    /// First bytes of the parallel carrier; characters and marks of the serial.
    firsts: [[bool; 256]; 3],
    marks_inside: [[bool; 256]; 12],
    /// &9B taken into the body, by carrier, half the code and index.
    escaped: [[[bool; BODY]; 12]; 2],
    resets_inside: u64,
    resets_stopped: u64,
    /// By carrier, half the code and count.
    records: [[[u64; BODY]; 12]; 2],
    /// By the limits that a record is beyond.
    beyond: [u64; FAULTS],
    /// Outside a request, by carrier: the other two being 0.
    styles_outside: [[bool; 256]; 2],
    codes_outside: [[bool; 256]; 2],
    counts_outside: [Vec<bool>; 2],
    /// Escape numbers outside and inside.
    escapes: [[bool; 256]; 2],
    /// Slices by their kind and answer.
    slices: [[u64; 4]; 3],
    /// Slices that are empty, start inside a request or inside an escape pair,
    /// are used up with an answer, or have bytes left; those on a record outside
    /// a request that has a style, code or count.
    edges: [u64; 6],
}

/// The faults that a record can have: a carrier, a stop, a phase out of range; a
/// style, code and count outside a request; inside one a style on each carrier, no
/// code, one without a body, a count.
const FAULTS: usize = 11;

impl Seen {
    fn new() -> Box<Seen> {
        Box::new(Seen {
            finished: [[[[0; 4]; 12]; 2]; 2],
            refused: [[[[0; 10]; 12]; 2]; 2],
            firsts: [[false; 256]; 3],
            marks_inside: [[false; 256]; 12],
            escaped: [[[false; BODY]; 12]; 2],
            resets_inside: 0,
            resets_stopped: 0,
            records: [[[0; BODY]; 12]; 2],
            beyond: [0; FAULTS],
            styles_outside: [[false; 256]; 2],
            codes_outside: [[false; 256]; 2],
            counts_outside: [vec![false; 65_536], vec![false; 65_536]],
            escapes: [[false; 256]; 2],
            slices: [[0; 4]; 3],
            edges: [0; 6],
        })
    }

    /// Notes an answer in a stream (0) or a single step (1).
    fn answer(&mut self, set: usize, before: &Reader, answer: Read) {
        let carrier = before.carrier as usize % 2;
        match answer {
            Read::Request { style, code, .. } => {
                self.finished[set][carrier][code as usize / 2][style as usize] += 1;
            }
            Read::Refused(7) => self.refused[set][carrier][0][7] += 1,
            Read::Refused(number) => {
                self.refused[set][carrier][place(before)][number as usize] += 1;
            }
            _ => {}
        }
    }

    /// Notes a byte of a stream.
    fn stream(&mut self, before: &Reader, raw: u8, answer: Read) {
        self.answer(0, before, answer);
        let carrier = before.carrier as usize;
        let inside = before.phase == INSIDE;
        if before.stopped() {
            return;
        }
        match (inside, before.carrier) {
            (false, PARALLEL) => self.firsts[0][raw as usize] = true,
            (false, _) => self.firsts[1 + before.escape as usize][raw as usize] = true,
            (true, SERIAL) if before.escape => {
                self.marks_inside[place(before)][raw as usize] = true;
            }
            _ => {}
        }
        let taken = before.carrier == PARALLEL || before.escape;
        if inside && taken && raw == 0x9B && !matches!(answer, Read::Refused(_)) {
            self.escaped[carrier][place(before)][before.count] = true;
        }
    }

    fn reset(&mut self, reader: &Reader) {
        if reader.stopped() {
            self.resets_stopped += 1;
        } else if reader.phase == INSIDE {
            self.resets_inside += 1;
        }
    }

    /// Notes a single step.
    fn step(&mut self, record: &TubeReader, answer: Read) {
        let reader = record.to_second();
        self.answer(1, &reader, answer);
        if record.phase == OUTSIDE && record.carrier <= PARALLEL {
            let at = record.carrier as usize;
            match (record.style, record.code, record.count) {
                (style, 0, 0) => self.styles_outside[at][style as usize] = true,
                (0, code, 0) => self.codes_outside[at][code as usize] = true,
                (0, 0, count) => self.counts_outside[at][count as usize] = true,
                _ => {}
            }
        }
        if !reader.stopped() {
            let inside = (reader.phase == INSIDE) as usize;
            self.escapes[inside][record.escape as usize] = true;
            if inside == 1 {
                self.records[reader.carrier as usize][place(&reader)][reader.count] += 1;
            }
            return;
        }
        // Counts only records with exactly one fault.
        let good_code = record.code & 1 == 0 && (2..=0x16).contains(&record.code);
        let (inside, outside) = (record.phase == INSIDE, record.phase == OUTSIDE);
        let faults: [bool; FAULTS] = [
            record.carrier > PARALLEL,
            record.phase == 2,
            record.phase > 2,
            outside && record.style != 0,
            outside && record.code != 0,
            outside && record.count != 0,
            inside && record.carrier == SERIAL && record.style > 3,
            inside && record.carrier == PARALLEL && record.style > 0,
            inside && record.code == 0,
            inside && record.code != 0 && !good_code,
            inside && good_code && record.count as usize >= LONGEST[record.code as usize / 2],
        ];
        if faults.iter().filter(|&&fault| fault).count() == 1 {
            let only = faults.iter().position(|&fault| fault).unwrap();
            self.beyond[only] += 1;
        }
    }

    /// Notes a slice: whole (0), cut (1), or from any record (2).
    fn slice(&mut self, set: usize, before: &Reader, length: usize, answer: Read, used: usize) {
        let kind = match answer {
            Read::More => 0,
            Read::Character(_) => 1,
            Read::Request { .. } => 2,
            Read::Refused(_) => 3,
        };
        self.slices[set][kind] += 1;
        let edges = [
            length == 0,
            before.phase == INSIDE && used > 1,
            before.escape && used > 1,
            kind != 0 && used > 1 && used == length,
            used > 1 && used < length,
            length > 0 && before.phase == OUTSIDE && before.stopped() && before.carrier <= PARALLEL,
        ];
        for (count, edge) in self.edges.iter_mut().zip(edges) {
            *count += edge as u64;
        }
    }

    fn report(&self, report: &mut Report) {
        report.need(Property::InputRequests, self.few_requests());
        report.need(Property::InputRefusals, self.few_refusals());
        report.need(Property::InputFirsts, self.few_firsts());
        report.need(Property::InputMarksInside, self.few_marks_inside());
        report.need(Property::InputEscapedData, self.few_escaped());
        let few_resets = match (self.resets_inside, self.resets_stopped) {
            (..5000, _) => Some("resets inside a request".to_string()),
            (_, ..5000) => Some("resets of a stopped reader".to_string()),
            _ => None,
        };
        report.need(Property::InputResets, few_resets);
        report.need(Property::InputRecords, self.few_records());
        let few_beyond = (0..FAULTS).find(|&limit| self.beyond[limit] < 1000);
        let few_beyond = few_beyond.map(|limit| format!("records beyond limit {limit} alone"));
        report.need(Property::InputBeyond, few_beyond);
        report.need(Property::InputOutside, self.few_outside());
        let few_escapes = (0..512).find(|&at| !self.escapes[at / 256][at % 256]);
        let few_escapes =
            few_escapes.map(|at| format!("escape numbers {}, phase {}", at % 256, at / 256));
        report.need(Property::InputEscapeNumbers, few_escapes);
        let counts = self.slices.as_flattened().iter().chain(&self.edges);
        let few_slices = counts.enumerate().find(|&(_, &count)| count < 2000);
        let few_slices = few_slices.map(|(at, _)| format!("slices of kind {at}"));
        report.need(Property::InputSlices, few_slices);
    }

    fn few_requests(&self) -> Option<String> {
        for (set, finished) in self.finished.iter().enumerate() {
            for (carrier, half, style) in every(2, 12, 4) {
                let possible = carrier == 0 || style == 0;
                if possible && finished[carrier][half][style] < 200 {
                    return Some(format!(
                        "requests &{:02X}, style {style}, carrier {carrier}, in {}",
                        2 * half,
                        SETS[set]
                    ));
                }
            }
        }
        None
    }

    fn few_refusals(&self) -> Option<String> {
        for (set, refused) in self.refused.iter().enumerate() {
            for (carrier, half, number) in every(2, 12, 10) {
                let possible = match number {
                    4 | 7 => half == 0,
                    5 => half != 0 && carrier == 0,
                    6 => [1, 9, 10].contains(&half),
                    9 => [2, 3, 4].contains(&half),
                    _ => false,
                };
                if possible && refused[carrier][half][number] < 100 {
                    return Some(format!(
                        "refusals {number}, place &{:02X}, carrier {carrier}, in {}",
                        2 * half,
                        SETS[set]
                    ));
                }
            }
        }
        None
    }

    fn few_firsts(&self) -> Option<String> {
        const NAMES: [&str; 3] = ["first bytes", "characters", "marks"];
        for (_, list, byte) in every(1, 3, 256) {
            if !self.firsts[list][byte] {
                return Some(format!("{} &{byte:02X}", NAMES[list]));
            }
        }
        None
    }

    fn few_marks_inside(&self) -> Option<String> {
        for (_, half, mark) in every(1, 12, 256) {
            if half != 0 && !self.marks_inside[half][mark] {
                return Some(format!("marks &{mark:02X} inside &{:02X}", 2 * half));
            }
        }
        None
    }

    fn few_escaped(&self) -> Option<String> {
        // The last byte of a longest string is its end, and OSBYTE low's A is
        // below &80.
        const PLACES: [usize; 12] = [0, 255, 1, 3, 258, 5, 6, 1, 2, 256, 273, 14];
        for (carrier, half, index) in every(2, 12, BODY) {
            if index < PLACES[half] && !self.escaped[carrier][half][index] {
                let code = 2 * half;
                return Some(format!(
                    "&9B at index {index} of &{code:02X}, carrier {carrier}"
                ));
            }
        }
        None
    }

    fn few_outside(&self) -> Option<String> {
        for carrier in 0..2 {
            let lists = [
                ("styles", &self.styles_outside[carrier][..]),
                ("codes", &self.codes_outside[carrier]),
                ("counts", &self.counts_outside[carrier]),
            ];
            for (name, list) in lists {
                // 0, 0 and 0 is told as a style.
                let none = |&at: &usize| !list[at] && (name == "styles" || at != 0);
                if let Some(at) = (0..list.len()).find(none) {
                    return Some(format!("{name} {at} outside a request, carrier {carrier}"));
                }
            }
        }
        None
    }

    fn few_records(&self) -> Option<String> {
        for (carrier, half, count) in every(2, 12, BODY) {
            if count < LONGEST[half] && self.records[carrier][half][count] < 200 {
                let code = 2 * half;
                return Some(format!(
                    "records of code &{code:02X}, count {count}, carrier {carrier}"
                ));
            }
        }
        None
    }
}

// ---- One byte, one slice ----

/// The library's record and lent bytes, and the second program's.
struct Pair {
    record: TubeReader,
    library: Lent,
    reader: Reader,
    second: Lent,
}

/// Gives one byte to both and compares; the second program's answer, and
/// whether all was equal.
fn compare_byte(
    pair: &mut Pair,
    raw: u8,
    group: &Group,
    report: &mut Report,
    what: &dyn Fn() -> String,
) -> (Read, bool) {
    let (record, unchanged) = (pair.record, pair.reader.stopped());
    let library = library_read(record, raw, &mut pair.library);
    let answer = pair.reader.read(raw, body(&mut pair.second));
    let what = || format!("byte &{raw:02X} on {record:?}, {}", what());
    let equal = compare_answer(pair, library, answer, unchanged, group, report, &what);
    (answer, equal)
}

/// Gives a slice to the library and its bytes to the second program, up to the
/// first answer that is not need-more, and compares; that program's answer, how
/// many bytes it was given, and whether all was equal.
fn compare_slice(
    pair: &mut Pair,
    raw: &[u8],
    report: &mut Report,
    what: &dyn Fn() -> String,
) -> (Read, usize, bool) {
    let record = pair.record;
    let unchanged = pair.reader.stopped() || raw.is_empty();
    let fed = library_feed(record, raw, &mut pair.library);
    let (mut answer, mut used) = (Read::More, 0);
    while answer == Read::More && used < raw.len() {
        answer = pair.reader.read(raw[used], body(&mut pair.second));
        used += 1;
    }
    let what = || format!("slice {raw:02X?} on {record:?}, {}", what());
    report.check(Property::SliceUsed, fed.used == used, || {
        format!("{fed:?}, second program {used}: {}", what())
    });
    let equal = compare_answer(pair, fed.read, answer, unchanged, &SLICE, report, &what);
    (answer, used, equal && fed.used == used)
}

/// Compares what both gave, and takes over the library's record; whether all was
/// equal. A record that stays unchanged is compared whole.
fn compare_answer(
    pair: &mut Pair,
    library: TubeRead,
    answer: Read,
    unchanged: bool,
    group: &Group,
    report: &mut Report,
    what: &dyn Fn() -> String,
) -> bool {
    let (record, after) = (pair.record, library.reader);
    pair.record = after;

    let (kind, value, request) = match answer {
        Read::More => (0, 0, (0, 0, 0)),
        Read::Character(byte) => (1, byte, (0, 0, 0)),
        Read::Request {
            style,
            code,
            length,
        } => (2, 0, (style, code, length)),
        Read::Refused(number) => (3, number, (0, 0, 0)),
    };
    let mut all = true;
    let mut check = |property: Property, good: bool, found: &dyn Fn() -> String| {
        all &= good;
        report.check(property, good, || format!("{}: {}", found(), what()));
    };
    check(group.kind, library.kind == kind, &|| {
        format!("{library:?}, second program {answer:?}")
    });
    check(group.value, library.value == value, &|| {
        format!("{library:?}, second program {answer:?}")
    });
    let given = (library.style, library.code, library.length as usize);
    check(group.request, given == request, &|| {
        format!("{library:?}, second program {answer:?}")
    });
    if unchanged {
        check(group.stopped, after == record, &|| format!("{after:?}"));
    } else {
        check(group.record, after.to_second() == pair.reader, &|| {
            format!("{after:?}, second program {:?}", pair.reader)
        });
    }
    check(group.body, pair.library == pair.second, &|| {
        difference(&pair.library, &pair.second, GUARD)
    });
    all
}

// ---- Streams ----

const STREAMS: u64 = 240_000;

/// A raw byte, or a reset.
type Event = Option<u8>;

fn put_mark(events: &mut Vec<Event>, carrier: u8, style: usize, half: usize) {
    if carrier == SERIAL {
        events.push(Some(0x9B));
        events.push(Some(((style << 5) + 2 * half) as u8));
    } else {
        events.push(Some(2 * half as u8));
    }
}

fn put_data(events: &mut Vec<Event>, carrier: u8, bytes: &[u8]) {
    for &byte in bytes {
        events.push(Some(byte));
        if carrier == SERIAL && byte == 0x9B {
            events.push(Some(byte));
        }
    }
}

/// One to four requests, with characters between; some bodies break a rule.
fn requests(random: &mut Random, carrier: u8, broken: bool) -> Vec<Event> {
    let mut events = Vec::new();
    for _ in 0..1 + random.below(4) {
        let mixture = random.below(4);
        if carrier == SERIAL && random.one_in(2) {
            let length = random.below(6);
            let characters: Vec<u8> = (0..length).map(|_| random.mixed(mixture)).collect();
            put_data(&mut events, carrier, &characters);
        }
        let half = match broken {
            true if random.one_in(2) => [1, 2, 3, 4, 9, 10][random.below(6)],
            _ => random.below(12),
        };
        put_mark(&mut events, carrier, random.below(4), half);
        let length = random.length();
        let mut body = random.body(half, mixture, length);
        if broken && random.one_in(2) {
            random.break_body(half, &mut body);
        }
        put_data(&mut events, carrier, &body);
    }
    events
}

/// Cuts, flips, inserts, drops, repeats and resets.
fn damage(random: &mut Random, events: &mut Vec<Event>) {
    for _ in 0..1 + random.below(4) {
        let at = random.below(events.len() + 1);
        let within = at < events.len();
        match random.below(10) {
            0 => events.truncate(at),
            1 | 2 if within => events[at] = events[at].map(|byte| byte ^ 1 << random.below(8)),
            3 if within => events[at] = Some(random.edge()),
            4 if within => {
                events.remove(at);
            }
            5 if within => {
                let from = at.saturating_sub(random.below(8));
                events.drain(from..=at);
            }
            6 if within => events.insert(at, events[at]),
            7 => events.insert(at, None),
            8 => {
                let mark = random.request_mark();
                events.splice(at..at, [Some(0x9B), Some(mark)]);
            }
            _ => {
                let byte = random.mixed(1);
                events.insert(at, Some(byte));
            }
        }
    }
    if events.is_empty() {
        events.push(Some(random.byte()));
    }
}

/// Any bytes, or those at which rules change; now and then a good start.
fn noise(random: &mut Random, carrier: u8) -> Vec<Event> {
    let mixture = random.below(3);
    let mut events = Vec::new();
    if random.one_in(2) {
        put_mark(&mut events, carrier, random.below(4), 1 + random.below(11));
    }
    let most = if random.one_in(8) { 600 } else { 60 };
    for _ in 0..1 + random.below(most) {
        events.push(match random.below(64) {
            0 => None,
            1..8 => Some(random.request_mark()),
            _ => Some(random.mixed(mixture)),
        });
    }
    events
}

/// Plays a stream on both. A stopped reader gets a few more bytes, then a reset.
fn compare_stream(
    random: &mut Random,
    carrier: u8,
    events: &[Event],
    name: &str,
    seen: &mut Seen,
    report: &mut Report,
) {
    let mut start = [0; GUARD + BODY + GUARD];
    random.fill(&mut start);
    let mut pair = Pair {
        record: unsafe { tube_reader(carrier) },
        library: start,
        reader: Reader::new(carrier),
        second: start,
    };
    for (at, &event) in events.iter().enumerate() {
        let stopped = pair.reader.stopped();
        let Some(raw) = event else {
            seen.reset(&pair.reader);
            pair.record = unsafe { tube_reader(carrier) };
            pair.reader = Reader::new(carrier);
            continue;
        };
        if stopped && random.one_in(6) {
            seen.reset(&pair.reader);
            pair.record = unsafe { tube_reader(carrier) };
            pair.reader = Reader::new(carrier);
        }
        let before = pair.reader;
        let what = || {
            let shown: Vec<String> = events[at.saturating_sub(24)..=at]
                .iter()
                .map(|event| event.map_or("reset".to_string(), |byte| format!("{byte:02X}")))
                .collect();
            format!("{name}, byte {at}, up to it {}", shown.join(" "))
        };
        let (answer, equal) = compare_byte(&mut pair, raw, &STREAM, report, &what);
        seen.stream(&before, raw, answer);
        // Later bytes are compared from the same state again.
        if !equal {
            pair.record = TubeReader::from_second(&pair.reader);
            pair.library = pair.second;
        }
    }
    for cut in [false, true] {
        compare_slices(random, carrier, events, cut, name, seen, report);
    }
}

/// Plays a stream on both, in slices for the library: each goes up to the next
/// reset, or is cut before it at random.
fn compare_slices(
    random: &mut Random,
    carrier: u8,
    events: &[Event],
    cut: bool,
    name: &str,
    seen: &mut Seen,
    report: &mut Report,
) {
    let mut start = [0; GUARD + BODY + GUARD];
    random.fill(&mut start);
    let mut pair = Pair {
        record: unsafe { tube_reader(carrier) },
        library: start,
        reader: Reader::new(carrier),
        second: start,
    };
    for run in events.split(|event| event.is_none()) {
        pair.record = unsafe { tube_reader(carrier) };
        pair.reader = Reader::new(carrier);
        let run: Vec<u8> = run.iter().flatten().copied().collect();
        let mut at = 0;
        while at < run.len() {
            if pair.reader.stopped() && random.one_in(6) {
                pair.record = unsafe { tube_reader(carrier) };
                pair.reader = Reader::new(carrier);
            }
            let left = run.len() - at;
            let length = if cut { random.cut(left) } else { left };
            let before = pair.reader;
            let what = || format!("{name}, from byte {at} of a run");
            let (answer, used, equal) =
                compare_slice(&mut pair, &run[at..at + length], report, &what);
            seen.slice(cut as usize, &before, length, answer, used);
            at += used;
            if !equal {
                pair.record = TubeReader::from_second(&pair.reader);
                pair.library = pair.second;
            }
        }
    }
}

fn compare_streams(random: &mut Random, count: u64, seen: &mut Seen, report: &mut Report) {
    for number in 0..count {
        let carrier = (random.below(5) > 2) as u8;
        let (kind, mut events) = match number % 8 {
            0 | 1 => ("good", requests(random, carrier, false)),
            2 | 3 => ("broken", requests(random, carrier, true)),
            4..=6 => ("damaged", requests(random, carrier, false)),
            _ => ("noise", noise(random, carrier)),
        };
        if kind == "damaged" {
            damage(random, &mut events);
        }
        let name = format!("{kind} stream {number}");
        compare_stream(random, carrier, &events, &name, seen, report);
    }
}

/// Requests of every length with &9B at one place or at all, all styles; every
/// mark outside and inside each code; every first byte and character.
fn compare_each(random: &mut Random, seen: &mut Seen, report: &mut Report) {
    let carriers = [
        (SERIAL, 0),
        (SERIAL, 1),
        (SERIAL, 2),
        (SERIAL, 3),
        (PARALLEL, 0),
    ];
    for (carrier, style) in carriers {
        for half in 0..12 {
            let lengths = if [1, 4, 9, 10].contains(&half) {
                256
            } else {
                20
            };
            for length in 0..lengths {
                let all = random.body(half, 3, length);
                let mut one = random.body(half, 0, length);
                // Not where it would break a rule or end up as a length.
                let place = random.below(one.len().max(1));
                let free = match half {
                    2 => place == 0,
                    4 => place != 1,
                    9 => one[0] != 0 && one[place] != 0x0D,
                    _ => one.get(place).is_some_and(|&byte| byte != 0x0D),
                };
                if free {
                    one[place] = 0x9B;
                }
                for body in [all, one] {
                    let mut events = Vec::new();
                    put_mark(&mut events, carrier, style, half);
                    put_data(&mut events, carrier, &body);
                    put_mark(&mut events, carrier, style, 0);
                    let name = format!("request with &9B, code &{:02X}", 2 * half);
                    compare_stream(random, carrier, &events, &name, seen, report);
                }
            }
        }
    }
    for byte in 0..=255 {
        for carrier in [SERIAL, PARALLEL] {
            let events = [Some(byte), Some(0x00), Some(byte)];
            compare_stream(random, carrier, &events, "first byte", seen, report);
            let events = [Some(0x9B), Some(byte), Some(byte), Some(0x41)];
            compare_stream(random, carrier, &events, "mark", seen, report);
        }
        for half in 1..12 {
            let length = random.length();
            let body = random.body(half, 1, length);
            let cut = random.below(body.len());
            let mut events = Vec::new();
            put_mark(&mut events, SERIAL, random.below(4), half);
            put_data(&mut events, SERIAL, &body[..cut]);
            events.extend([Some(0x9B), Some(byte), Some(byte)]);
            compare_stream(random, SERIAL, &events, "mark inside", seen, report);
        }
    }
}

// ---- Single steps and slices from any record ----

const STEPS: u64 = 4_000_000;
const SLICES: u64 = 1_000_000;

impl Random {
    /// A record within its limits and beyond.
    fn reader_record(&mut self) -> TubeReader {
        let phase = match self.below(24) {
            0 => self.at_least(3),
            1 => 2,
            2..8 => OUTSIDE,
            _ => INSIDE,
        };
        self.reader_record_in(phase)
    }

    fn reader_record_in(&mut self, phase: u8) -> TubeReader {
        let carrier = match self.below(24) {
            0 => self.at_least(2),
            at => at as u8 % 2,
        };
        let escape = match self.below(6) {
            0..3 => 0,
            3 => 1,
            _ => self.byte(),
        };
        let style = match self.below(24) {
            0 => self.byte(),
            1 => 4,
            2 => 1,
            _ if carrier == PARALLEL => 0,
            _ => self.below(4) as u8,
        };
        let code = match self.below(24) {
            0 => self.byte(),
            1 => 0,
            2 => 0x17 + self.below(3) as u8,
            3 => self.below(0x18) as u8 | 1,
            4..10 => [0x02, 0x08, 0x12, 0x14][self.below(4)],
            _ => 2 + 2 * self.below(11) as u8,
        };
        let longest = LONGEST.get(code as usize / 2).map_or(14, |&most| most);
        let count = match self.below(32) {
            0 => longest,
            1 => longest + 1 + self.below(20),
            2 => self.next() as u16 as usize,
            3 => u16::MAX as usize - self.below(300),
            // Within the limit in its lowest bits only.
            4 => self.below(longest + 1) + (256 << self.below(8)),
            5..8 => longest.saturating_sub(1 + self.below(3)),
            8..10 => self.below(20).min(longest),
            10..14 => self.below(3),
            _ => self.below(longest.max(1)),
        };
        // Outside a request most often none of the three, or one alone.
        let (style, code, count) = match (phase, self.below(12)) {
            (OUTSIDE, 0) => (style, 0, 0),
            (OUTSIDE, 1) => (0, code, 0),
            (OUTSIDE, 2) => (0, 0, count),
            (OUTSIDE, 3..11) => (0, 0, 0),
            _ => (style, code, count),
        };
        TubeReader {
            count: count as u16,
            carrier,
            phase,
            escape,
            style,
            code,
        }
    }

    /// Lent bytes, near the rules that look at them in many cases.
    fn lent(&mut self, count: usize) -> Lent {
        let mut lent = [0; GUARD + BODY + GUARD];
        match self.below(8) {
            0 => lent.fill(self.edge()),
            _ => self.fill(&mut lent),
        }
        let bytes = body(&mut lent);
        if self.one_in(3) {
            bytes[0] = self.edge();
        }
        if self.one_in(2) {
            let near = count.wrapping_sub(4).wrapping_add(self.below(5));
            bytes[1] = near.min(255) as u8;
        }
        if (1..=BODY).contains(&count) && self.one_in(2) {
            bytes[count - 1] = 0x0D;
        }
        lent
    }

    /// Where a slice of at most `left` bytes is cut.
    fn cut(&mut self, left: usize) -> usize {
        match self.below(8) {
            0 => 0,
            1 => left,
            2..5 => self.below(4).min(left),
            _ => self.below(left + 1),
        }
    }

    fn reader_raw(&mut self) -> u8 {
        match self.below(4) {
            0 => self.byte(),
            1 => self.request_mark(),
            _ => self.edge(),
        }
    }
}

fn compare_step(record: TubeReader, raw: u8, lent: &Lent, seen: &mut Seen, report: &mut Report) {
    let mut pair = Pair {
        record,
        library: *lent,
        reader: record.to_second(),
        second: *lent,
    };
    let what = || {
        let count = (record.count as usize).clamp(1, BODY);
        format!(
            "lent bytes {:02X?}, the one before the count &{:02X}",
            &lent[GUARD..GUARD + 4],
            lent[GUARD + count - 1]
        )
    };
    let (answer, _) = compare_byte(&mut pair, raw, &STEP, report, &what);
    seen.step(&record, answer);
}

/// Short slices from any record.
fn compare_fed(random: &mut Random, count: u64, seen: &mut Seen, report: &mut Report) {
    for _ in 0..count {
        compare_one_fed(random, seen, report);
    }
}

fn compare_one_fed(random: &mut Random, seen: &mut Seen, report: &mut Report) {
    let record = random.reader_record();
    let lent = random.lent(record.count as usize);
    let mut pair = Pair {
        record,
        library: lent,
        reader: record.to_second(),
        second: lent,
    };
    let before = pair.reader;
    let length = random.below(9);
    let raw: Vec<u8> = (0..length).map(|_| random.reader_raw()).collect();
    let what = || "any record".to_string();
    let (answer, used, _) = compare_slice(&mut pair, &raw, report, &what);
    seen.slice(2, &before, length, answer, used);
}

fn compare_fresh(report: &mut Report) {
    for carrier in 0..=255 {
        let fresh = unsafe { tube_reader(carrier) };
        let expected = TubeReader {
            count: 0,
            carrier,
            phase: OUTSIDE,
            escape: 0,
            style: 0,
            code: 0,
        };
        report.check(Property::Fresh, fresh == expected, || {
            format!("{fresh:?}, carrier {carrier}")
        });
    }
}

/// Every code and count around the limits, with the bytes at which rules change;
/// then every byte and escape number.
fn compare_each_step(random: &mut Random, seen: &mut Seen, report: &mut Report) {
    for (carrier, code, count) in every(2, 0x1A, BODY + 4) {
        for raw in [0x9B, 0x0D, 0x00, 0x7F, 0x80, 0x41] {
            for escape in [0, random.at_least(1)] {
                let record = TubeReader {
                    count: count as u16,
                    carrier: carrier as u8,
                    phase: INSIDE,
                    escape,
                    style: 0,
                    code: code as u8,
                };
                let lent = random.lent(count);
                compare_step(record, raw, &lent, seen, report);
            }
        }
    }
    for (phase, raw, escape) in every(4, 256, 256) {
        let mut record = random.reader_record_in(phase as u8);
        record.escape = escape as u8;
        let lent = random.lent(record.count as usize);
        compare_step(record, raw as u8, &lent, seen, report);
    }
}

/// Every style, code and count outside a request, the other two being 0.
fn compare_outside(random: &mut Random, seen: &mut Seen, report: &mut Report) {
    for carrier in [SERIAL, PARALLEL] {
        let fresh = unsafe { tube_reader(carrier) };
        let styles = (0..=255).map(|style| TubeReader { style, ..fresh });
        let codes = (0..=255).map(|code| TubeReader { code, ..fresh });
        let counts = (0..=u16::MAX).map(|count| TubeReader { count, ..fresh });
        for record in styles.chain(codes).chain(counts) {
            let escape = random.below(2) as u8;
            let lent = random.lent(record.count as usize);
            let raw = random.reader_raw();
            let record = TubeReader { escape, ..record };
            compare_step(record, raw, &lent, seen, report);
        }
    }
}

fn compare_steps(random: &mut Random, count: u64, seen: &mut Seen, report: &mut Report) {
    for _ in 0..count {
        let record = random.reader_record();
        let lent = random.lent(record.count as usize);
        let raw = random.reader_raw();
        compare_step(record, raw, &lent, seen, report);
    }
}

// ---- All of it ----

pub fn report() -> Report {
    Report::new(&PROPERTIES)
}

/// One input in `share` of each kind that is drawn at random.
fn compare_random(random: &mut Random, share: u64, seen: &mut Seen, report: &mut Report) {
    compare_fresh(report);
    compare_streams(random, STREAMS / share, seen, report);
    compare_steps(random, STEPS / share, seen, report);
    compare_fed(random, SLICES / share, seen, report);
}

pub fn whole(random: &mut Random, report: &mut Report) {
    let mut seen = Seen::new();
    compare_random(random, 1, &mut seen, report);
    compare_each(random, &mut seen, report);
    compare_each_step(random, &mut seen, report);
    compare_outside(random, &mut seen, report);
    seen.report(report);
}

pub fn share(random: &mut Random, share: u64, report: &mut Report) {
    compare_random(random, share, &mut Seen::new(), report);
}
