//! The link: the same streams, begun calls, pieces of streams and single bytes go to
//! the library and to the second program, and everything they give is compared.

use crate::inputs::{
    ACTIONS, BLOCK_CLASS, Laden, NESTS, class_of, escaped, most, nest_of, open_of, opened, told_by,
};
use crate::interface::{
    self, BLOCK, DATA, LINK_ESCAPE, LINK_FLAGS, LINK_NESTED, LINK_STOPPED, NEED_MORE, REFUSED,
    REPLY, RESTART, TubeLink, TubeRan, TubeTold, tube_begin, tube_link, tube_link_step, tube_run,
};
use crate::link::{
    Begun, CALLS, ERROR, IN_BLOCK, LENT, LOAD, Link, NO_ACTION, NOTE, OSRDCH, OSWORD, OSWORD_0,
    SAVE, SHORTEST_BLOCK, TRANSFERS, Told, Transfer, WAIT_BLOCK,
};
use crate::random::Random;
use crate::report::{Report, Row, difference, every};

impl TubeLink {
    fn from_second(link: &Link) -> TubeLink {
        TubeLink {
            got: link.got as u16,
            held: link.held as u16,
            wait: link.wait,
            out_length: link.out_length,
            action: link.action,
            flags: LINK_ESCAPE * link.escape as u8
                + LINK_STOPPED * link.stopped as u8
                + LINK_NESTED * nest_of(link),
        }
    }

    /// The record given, stopped.
    fn stopped(self) -> TubeLink {
        TubeLink {
            flags: self.flags | LINK_STOPPED,
            ..self
        }
    }

    /// Flags out of range count as a stop.
    pub fn to_second(self) -> Link {
        Link {
            wait: self.wait,
            out_length: self.out_length,
            got: self.got as usize,
            action: self.action,
            held: self.held as usize,
            open: open_of(self.flags / LINK_NESTED),
            escape: self.flags & LINK_ESCAPE != 0,
            stopped: self.flags & LINK_STOPPED != 0 || self.flags > LINK_FLAGS,
        }
    }

    /// The record after accepted bytes, where the record given had the out length
    /// `given`: where no OSWORD waits it stays as it was given.
    fn shows(&self, link: &Link, given: u8) -> bool {
        let expected = TubeLink {
            out_length: match link.wait {
                WAIT_BLOCK => link.out_length,
                _ => given,
            },
            ..TubeLink::from_second(link)
        };
        *self == expected
    }
}

impl TubeTold {
    fn values(&self) -> [u8; 4] {
        [self.first, self.second, self.third, self.fourth]
    }
}

/// The kind, values and length of the second program's answer.
fn numbers(told: Told) -> (u32, [u8; 4], usize) {
    match told {
        Told::Block(length) => return (BLOCK, [0; 4], length),
        Told::Data(byte) => return (DATA, [byte, 0, 0, 0], 0),
        _ => {}
    }
    if let Some([kind, values @ ..]) = told.note() {
        return (kind as u32, values, 0);
    }
    match told {
        Told::Reply(length) => (REPLY, [0; 4], length),
        Told::Error { number, length } => (interface::ERROR, [number, 0, 0, 0], length),
        Told::Restart => (RESTART, [0; 4], 0),
        Told::Refused(number) => (REFUSED, [number, 0, 0, 0], 0),
        _ => (NEED_MORE, [0; 4], 0),
    }
}

/// The most own bytes of an action; 1 where only 0 is within the limits.
fn most_own(action: u8) -> usize {
    match action {
        ..IN_BLOCK => *[1, LENT, 3, 4, 4, 4, 4].get(action as usize).unwrap_or(&1),
        _ => (action - IN_BLOCK).max(1) as usize,
    }
}

/// The most own bytes of an action of this kind.
fn most_of(class: usize) -> usize {
    match class {
        BLOCK_CLASS => 127,
        _ => most_own(class as u8),
    }
}

// ---- Properties ----

#[derive(Clone, Copy)]
enum Property {
    Fresh,
    StreamKind,
    StreamValues,
    StreamLength,
    StreamRecord,
    StreamRefused,
    StreamStopped,
    StreamReply,
    StreamOwn,
    StreamBegunKind,
    StreamBegunRecord,
    StepKind,
    StepValues,
    StepLength,
    StepRecord,
    StepRefused,
    StepStopped,
    StepReply,
    StepOwn,
    StepBegunKind,
    StepBegunRecord,
    RunKind,
    RunValues,
    RunLength,
    RunUsed,
    RunNoted,
    RunNotes,
    RunBeyond,
    RunStored,
    RunData,
    RunDataBeyond,
    RunRecord,
    RunKept,
    RunReply,
    RunOwn,
    RunShort,
    RunEmpty,
    ActionsReply,
    ActionsNotes,
    ActionsData,
    ActionsEnd,
    ActionsPieces,
    ActionsError,
    ActionsRestart,
    InputReplies,
    InputActions,
    InputRefusals,
    InputCharacters,
    InputMarks,
    InputEscaped,
    InputLengths,
    InputTransfers,
    InputBegun,
    InputLate,
    InputResets,
    InputRecords,
    InputBeyond,
    InputFlags,
    InputRuns,
}

impl From<Property> for usize {
    fn from(property: Property) -> usize {
        property as usize
    }
}

#[rustfmt::skip]
const PROPERTIES: [Row<Property>; 59] = [
    (Property::Fresh, "fresh link", 1),
    (Property::StreamKind, "stream: kind of answer", 40 * STREAMS),
    (Property::StreamValues, "stream: values of the answer", 40 * STREAMS),
    (Property::StreamLength, "stream: length of the reply or text", 40 * STREAMS),
    (Property::StreamRecord, "stream: record after an accepted byte", 30 * STREAMS),
    (Property::StreamRefused, "stream: a refusal stops the record given", STREAMS / 4),
    (Property::StreamStopped, "stream: a stopped record is given back", STREAMS / 2),
    (Property::StreamReply, "stream: every byte lent for the reply", 40 * STREAMS),
    (Property::StreamOwn, "stream: every byte lent for the action", 40 * STREAMS),
    (Property::StreamBegunKind, "stream: answer to a begun call", 2 * STREAMS),
    (Property::StreamBegunRecord, "stream: record of a begun call", 2 * STREAMS),
    (Property::StepKind, "step: kind of answer", STEPS),
    (Property::StepValues, "step: values of the answer", STEPS),
    (Property::StepLength, "step: length of the reply or text", STEPS),
    (Property::StepRecord, "step: record after an accepted byte", STEPS / 4),
    (Property::StepRefused, "step: a refusal stops the record given", STEPS / 20),
    (Property::StepStopped, "step: a stopped record is given back", STEPS / 4),
    (Property::StepReply, "step: every byte lent for the reply", STEPS),
    (Property::StepOwn, "step: every byte lent for the action", STEPS),
    (Property::StepBegunKind, "step: answer to a begun call", STEPS / 2),
    (Property::StepBegunRecord, "step: record of a begun call", STEPS / 2),
    (Property::RunKind, "run: kind of the last answer", 4 * STREAMS),
    (Property::RunValues, "run: values of the last answer", 4 * STREAMS),
    (Property::RunLength, "run: length of the reply or text", 4 * STREAMS),
    (Property::RunUsed, "run: raw bytes used", 4 * STREAMS),
    (Property::RunNoted, "run: number of notes", 4 * STREAMS),
    (Property::RunNotes, "run: the notes", STREAMS),
    (Property::RunBeyond, "run: room beyond the notes stays", 4 * STREAMS),
    (Property::RunStored, "run: number of bytes of load data and blocks", 4 * STREAMS),
    (Property::RunData, "run: the load data and blocks", STREAMS),
    (Property::RunDataBeyond, "run: data lent beyond them stays", 4 * STREAMS),
    (Property::RunRecord, "run: record after", 4 * STREAMS),
    (Property::RunKept, "run: a record that took no byte is given back", STREAMS / 2),
    (Property::RunReply, "run: every byte lent for the reply", 4 * STREAMS),
    (Property::RunOwn, "run: every byte lent for the action", 4 * STREAMS),
    (Property::RunShort, "run: room or data too short by one byte or more", STREAMS / 2),
    (Property::RunEmpty, "run: no raw bytes", STREAMS / 10),
    (Property::ActionsReply, "actions: the reply is the same as without them", TALKS),
    (Property::ActionsNotes, "actions: each is noted, in order", TALKS),
    (Property::ActionsData, "actions: load data and blocks are stored, in order", TALKS),
    (Property::ActionsEnd, "actions: the reply ends at its last byte, not before", TALKS),
    (Property::ActionsPieces, "actions: the same in two pieces, cut anywhere", TALKS),
    (Property::ActionsError, "actions: an error ends the call and its transfers", TALKS / 2),
    (Property::ActionsRestart, "actions: a restart ends the call and its transfers", TALKS / 8),
    (Property::InputReplies, "inputs: finished replies of each call", 1),
    (Property::InputActions, "inputs: each action idle and in each call", 1),
    (Property::InputRefusals, "inputs: each refusal in each place", 1),
    (Property::InputCharacters, "inputs: each character", 1),
    (Property::InputMarks, "inputs: each mark idle, waiting, in each action and nest", 1),
    (Property::InputEscaped, "inputs: &9B at each place of replies and actions", 1),
    (Property::InputLengths, "inputs: each length of blocks, lines, texts and load data", 1),
    (Property::InputTransfers, "inputs: data, ends and actions in each nest of transfers", 1),
    (Property::InputBegun, "inputs: each call begun in each action, nest and pair", 1),
    (Property::InputLate, "inputs: errors and pairs around a begun call", 1),
    (Property::InputResets, "inputs: resets in each state", 1),
    (Property::InputRecords, "inputs: records of each call, action, count and nest", 1),
    (Property::InputBeyond, "inputs: records beyond each limit", 1),
    (Property::InputFlags, "inputs: each number of flags", 1),
    (Property::InputRuns, "inputs: each start and end of a run", 1),
];

/// The properties that one compared byte or begun call counts for.
struct Group {
    kind: Property,
    values: Property,
    length: Property,
    record: Property,
    refused: Property,
    stopped: Property,
    reply: Property,
    own: Property,
    begun_kind: Property,
    begun_record: Property,
}

const STREAM: Group = Group {
    kind: Property::StreamKind,
    values: Property::StreamValues,
    length: Property::StreamLength,
    record: Property::StreamRecord,
    refused: Property::StreamRefused,
    stopped: Property::StreamStopped,
    reply: Property::StreamReply,
    own: Property::StreamOwn,
    begun_kind: Property::StreamBegunKind,
    begun_record: Property::StreamBegunRecord,
};

const STEP: Group = Group {
    kind: Property::StepKind,
    values: Property::StepValues,
    length: Property::StepLength,
    record: Property::StepRecord,
    refused: Property::StepRefused,
    stopped: Property::StepStopped,
    reply: Property::StepReply,
    own: Property::StepOwn,
    begun_kind: Property::StepBegunKind,
    begun_record: Property::StepBegunRecord,
};

// ---- Lent bytes ----

const GUARD: usize = 16;

/// Lent bytes between guard bytes.
type Lent = [u8; GUARD + LENT + GUARD];

#[derive(Clone, Copy, PartialEq)]
struct Arrays {
    reply: Lent,
    own: Lent,
}

fn lent(bytes: &mut Lent) -> &mut [u8; LENT] {
    (&mut bytes[GUARD..GUARD + LENT]).try_into().unwrap()
}

impl Arrays {
    fn random(random: &mut Random) -> Arrays {
        let mut arrays = Arrays {
            reply: [0; GUARD + LENT + GUARD],
            own: [0; GUARD + LENT + GUARD],
        };
        random.fill(&mut arrays.reply);
        random.fill(&mut arrays.own);
        arrays
    }

    fn pointers(&mut self) -> (*mut u8, *mut u8) {
        let Arrays { reply, own } = self;
        (lent(reply).as_mut_ptr(), lent(own).as_mut_ptr())
    }
}

/// The library's record and lent bytes, and the second program's.
struct Pair {
    record: TubeLink,
    library: Arrays,
    link: Link,
    second: Arrays,
}

impl Pair {
    fn new(record: TubeLink, arrays: Arrays) -> Pair {
        Pair {
            record,
            library: arrays,
            link: record.to_second(),
            second: arrays,
        }
    }

    fn fresh(random: &mut Random) -> Pair {
        Pair::new(unsafe { tube_link() }, Arrays::random(random))
    }

    fn reset(&mut self) {
        self.record = unsafe { tube_link() };
        self.link = Link::new();
    }

    /// Later bytes are compared from the same state again.
    fn mend(&mut self, equal: bool) {
        if !equal {
            self.record = TubeLink::from_second(&self.link);
            self.library = self.second;
        }
    }
}

// ---- What the inputs were ----

const SETS: [&str; 2] = ["streams", "single steps"];

const WAITS: usize = 1 + CALLS as usize;

/// What can be told beside characters and replies.
const REPORTS: [&str; 11] = [
    "Escape states",
    "events",
    "addresses",
    "blocks",
    "executes",
    "loads",
    "saves",
    "load data",
    "ends",
    "errors",
    "restarts",
];
const A_LOAD: usize = 5;
const A_SAVE: usize = 6;
const A_BYTE: usize = 7;
const AN_END: usize = 8;

/// How many refusals there are, with those that a link never gives.
const REFUSALS: usize = 14;

/// What the compared bytes of the streams (0) and single steps (1) have been.
struct Seen {
    /// By streams or steps and call.
    finished: [[u64; CALLS as usize]; 2],
    /// By streams or steps, what waits, and report.
    reported: [[[u64; REPORTS.len()]; WAITS]; 2],
    /// By streams or steps, nest, and report.
    reported_nested: [[[u64; REPORTS.len()]; NESTS]; 2],
    /// By streams or steps, what waits, the open action and the number.
    refused: [[[[u64; REFUSALS]; ACTIONS]; WAITS]; 2],
    /// By streams or steps, nest, outside or inside an action, and number.
    refused_nested: [[[[u64; REFUSALS]; 2]; NESTS]; 2],
    characters: [bool; 256],
    /// While idle, while waiting, and inside each action.
    marks: [[bool; 256]; 1 + ACTIONS],
    /// Outside actions, by nest.
    marks_nested: [[bool; 256]; NESTS],
    /// &9B taken into a reply, by call and index, or an action.
    escaped_reply: [[bool; LENT]; CALLS as usize],
    escaped_own: [[bool; LENT]; ACTIONS],
    /// &9B taken as load data.
    escaped_data: u64,
    /// Of OSWORD's replies, of lines, of texts, of control blocks and of load data
    /// that a note counts.
    lengths: [[bool; 256]; 5],
    /// Calls that wait then, by streams or steps, open action, escape and call.
    begun: [[[[u64; CALLS as usize]; 2]; ACTIONS]; 2],
    /// The same by nest.
    begun_nested: [[u64; NESTS]; 2],
    /// By streams or steps: complete; refused with 7, with 12, of a call or of a
    /// number that is none; refused with 4.
    begun_otherwise: [[u64; 6]; 2],
    /// Errors opened while idle that end a call; pairs that a call divides.
    late: [u64; 2],
    /// Waiting, in an action, in a transfer, in a pair, stopped.
    resets: [u64; 5],
    /// By what waits and count, by action and count, by control block and count, and
    /// by nest.
    records: [[u64; LENT]; WAITS],
    records_own: [[u64; LENT]; ACTIONS],
    records_block: [[u64; 127]; 128],
    records_nested: [u64; NESTS],
    /// By the limits that a record is beyond.
    beyond: [u64; FAULTS],
    flags: [bool; 256],
    /// By the kind of the end, a refusal by 8 and its number.
    run_ends: [u64; 8 + REFUSALS],
    /// By what waits, open action and escape, and by nest.
    run_starts: [[[u64; 2]; ACTIONS]; WAITS],
    run_starts_nested: [u64; NESTS],
    notes: [u64; 15],
    /// By the room that is left when each byte has its note, and by the data.
    rooms: [[u64; 8]; 2],
    /// With more notes than a byte and than two bytes can count, and with more data.
    long_runs: [[u64; 2]; 2],
}

/// The faults that a record can have: a stop, tags and flags out of range, counts
/// that should be 0, those of each call and of each action, a fifth load or save.
const FAULTS: usize = 6 + CALLS as usize + ACTIONS + 1;

impl Seen {
    fn new() -> Box<Seen> {
        Box::new(Seen {
            finished: [[0; CALLS as usize]; 2],
            reported: [[[0; REPORTS.len()]; WAITS]; 2],
            reported_nested: [[[0; REPORTS.len()]; NESTS]; 2],
            refused: [[[[0; REFUSALS]; ACTIONS]; WAITS]; 2],
            refused_nested: [[[[0; REFUSALS]; 2]; NESTS]; 2],
            characters: [false; 256],
            marks: [[false; 256]; 1 + ACTIONS],
            marks_nested: [[false; 256]; NESTS],
            escaped_reply: [[false; LENT]; CALLS as usize],
            escaped_own: [[false; LENT]; ACTIONS],
            escaped_data: 0,
            lengths: [[false; 256]; 5],
            begun: [[[[0; CALLS as usize]; 2]; ACTIONS]; 2],
            begun_nested: [[0; NESTS]; 2],
            begun_otherwise: [[0; 6]; 2],
            late: [0; 2],
            resets: [0; 5],
            records: [[0; LENT]; WAITS],
            records_own: [[0; LENT]; ACTIONS],
            records_block: [[0; 127]; 128],
            records_nested: [0; NESTS],
            beyond: [0; FAULTS],
            flags: [false; 256],
            run_ends: [0; 8 + REFUSALS],
            run_starts: [[[0; 2]; ACTIONS]; WAITS],
            run_starts_nested: [0; NESTS],
            notes: [0; 15],
            rooms: [[0; 8]; 2],
            long_runs: [[0; 2]; 2],
        })
    }

    /// Notes an answer in a stream or a single step.
    fn answer(&mut self, set: usize, before: &Link, told: Told) {
        if before.stopped() {
            self.refused[set][0][0][7] += 1;
            return;
        }
        let (wait, nest) = (before.wait as usize, nest_of(before) as usize);
        let report = match told {
            Told::Escape(_) => 0,
            Told::Event(_) => 1,
            Told::Address(_) => 2,
            Told::Block(_) => 3,
            Told::Execute(_) => 4,
            Told::Opened(Transfer::Load, _) => A_LOAD,
            Told::Opened(Transfer::Save, _) => A_SAVE,
            Told::Data(_) => A_BYTE,
            Told::Closed(_) => AN_END,
            Told::Error { .. } => 9,
            Told::Restart => 10,
            Told::Reply(_) => {
                self.finished[set][wait - 1] += 1;
                return;
            }
            Told::Refused(number) => {
                let action = class_of(before.action);
                self.refused[set][wait][action][number as usize] += 1;
                let inside = (action != 0) as usize;
                self.refused_nested[set][nest][inside][number as usize] += 1;
                return;
            }
            Told::More | Told::Character(_) => return,
        };
        self.reported[set][wait][report] += 1;
        self.reported_nested[set][nest][report] += 1;
    }

    /// Notes a byte of a stream.
    fn stream(&mut self, before: &Link, raw: u8, told: Told) {
        self.answer(0, before, told);
        if before.stopped() {
            return;
        }
        let (wait, action) = (before.wait as usize, class_of(before.action));
        let mark = before.escape && raw != 0x9B;
        let doubled = before.escape && raw == 0x9B && !matches!(told, Told::Refused(_));
        match (action, wait) {
            (0, 0) if mark => self.marks[0][raw as usize] = true,
            (0, _) if mark => self.marks[1][raw as usize] = true,
            (1.., _) if mark => self.marks[1 + action][raw as usize] = true,
            (1.., _) if doubled => self.escaped_own[action][before.held] = true,
            _ if matches!(told, Told::Data(0x9B)) => self.escaped_data += 1,
            (0, 1..) if doubled => self.escaped_reply[wait - 1][before.got] = true,
            _ => {}
        }
        if mark && action == 0 {
            self.marks_nested[nest_of(before) as usize][raw as usize] = true;
        }
        match (told, before.wait) {
            (Told::Character(byte), _) => self.characters[byte as usize] = true,
            (Told::Reply(length), WAIT_BLOCK) => self.lengths[0][length] = true,
            (Told::Reply(length), 6) if length > 1 => self.lengths[1][length - 2] = true,
            (Told::Error { length, .. }, _) => self.lengths[2][length] = true,
            (Told::Block(length), _) => self.lengths[3][length] = true,
            _ => {}
        }
    }

    /// Notes a begun call in a stream or from any record.
    fn begun(&mut self, set: usize, before: &Link, call: u8, begun: Begun) {
        let otherwise = &mut self.begun_otherwise[set];
        let none = (call >= CALLS) as usize;
        match begun {
            Begun::Waits => {
                let places = &mut self.begun[set][class_of(before.action)];
                places[before.escape as usize][call as usize] += 1;
                self.begun_nested[set][nest_of(before) as usize] += 1;
            }
            Begun::Complete => otherwise[0] += 1,
            Begun::Refused(7) => otherwise[1 + none] += 1,
            Begun::Refused(12) => otherwise[3 + none] += 1,
            Begun::Refused(_) => otherwise[5] += 1,
        }
    }

    fn reset(&mut self, link: &Link) {
        if link.stopped() {
            self.resets[4] += 1;
            return;
        }
        self.resets[0] += (link.wait != 0) as u64;
        self.resets[1] += (link.action != 0) as u64;
        self.resets[2] += link.open[0].is_some() as u64;
        self.resets[3] += link.escape as u64;
    }

    /// Notes a single step.
    fn step(&mut self, record: &TubeLink, told: Told) {
        let link = record.to_second();
        self.answer(1, &link, told);
        self.flags[record.flags as usize] = true;
        if !link.stopped() {
            self.records[link.wait as usize][link.got] += 1;
            self.records_own[class_of(link.action)][link.held] += 1;
            if link.action > IN_BLOCK {
                self.records_block[(link.action - IN_BLOCK) as usize][link.held] += 1;
            }
            self.records_nested[nest_of(&link) as usize] += 1;
            return;
        }
        // Counts only records with exactly one fault.
        let mut faults = [false; FAULTS];
        let class = class_of(record.action);
        faults[0] = record.flags & LINK_STOPPED != 0 && record.flags <= LINK_FLAGS;
        faults[1] = record.wait as usize >= WAITS;
        faults[2] = class == ACTIONS;
        faults[3] = record.flags > LINK_FLAGS;
        let reply = link.got >= most(record.wait, record.out_length);
        match record.wait as usize {
            0 => faults[4] = reply,
            wait @ 1..WAITS => faults[5 + wait] = reply,
            _ => {}
        }
        let own = link.held >= most_own(record.action);
        match class {
            0 => faults[5] = own,
            1..ACTIONS => faults[5 + CALLS as usize + class] = own,
            _ => {}
        }
        let full = link.open[TRANSFERS - 1].is_some() && record.flags <= LINK_FLAGS;
        match record.action {
            LOAD => faults[FAULTS - 2] = full,
            SAVE => faults[FAULTS - 1] = full,
            _ => {}
        }
        if faults.iter().filter(|&&fault| fault).count() == 1 {
            let only = faults.iter().position(|&fault| fault).unwrap();
            self.beyond[only] += 1;
        }
    }

    fn run_start(&mut self, link: &Link) {
        if !link.stopped() {
            let starts = &mut self.run_starts[link.wait as usize];
            starts[class_of(link.action)][link.escape as usize] += 1;
            self.run_starts_nested[nest_of(link) as usize] += 1;
        }
    }

    /// Notes what a run gave, and how many bytes of room and data it left beyond
    /// those that it must be lent.
    fn run_end(&mut self, told: Told, notes: &[u8], stored: usize, left: [usize; 2]) {
        let (kind, [first, ..], _) = numbers(told);
        let end = match kind {
            REFUSED => kind + first as u32,
            _ => kind,
        };
        self.run_ends[end as usize] += 1;
        for note in notes.chunks(NOTE) {
            self.notes[note[0] as usize] += 1;
            if note[0] as u32 == DATA {
                self.lengths[4][note[1] as usize] = true;
            }
        }
        for (rooms, left) in self.rooms.iter_mut().zip(left) {
            rooms[left.min(7)] += 1;
        }
        let counts = [notes.len() / NOTE, stored];
        for (long, count) in self.long_runs.iter_mut().zip(counts) {
            long[0] += (count > 256) as u64;
            long[1] += (count > 65_536) as u64;
        }
    }

    fn report(&self, report: &mut Report) {
        report.need(Property::InputReplies, self.few_replies());
        report.need(Property::InputActions, self.few_actions());
        report.need(Property::InputRefusals, self.few_refusals());
        let few_characters = (0..256).find(|&byte| !self.characters[byte]);
        report.need(
            Property::InputCharacters,
            few_characters.map(|byte| format!("characters &{byte:02X}")),
        );
        report.need(Property::InputMarks, self.few_marks());
        report.need(Property::InputEscaped, self.few_escaped());
        report.need(Property::InputLengths, self.few_lengths());
        report.need(Property::InputTransfers, self.few_transfers());
        report.need(Property::InputBegun, self.few_begun());
        let few_late = match self.late {
            [..2000, _] => Some("errors opened while idle that end a call".to_string()),
            [_, ..2000] => Some("pairs of &9B with a call begun inside".to_string()),
            _ => None,
        };
        report.need(Property::InputLate, few_late);
        const STATES: [&str; 5] = [
            "waiting",
            "in an action",
            "in a transfer",
            "in a pair",
            "stopped",
        ];
        let few_resets = (0..5).find(|&state| self.resets[state] < 2000);
        report.need(
            Property::InputResets,
            few_resets.map(|state| format!("resets of a link {}", STATES[state])),
        );
        report.need(Property::InputRecords, self.few_records());
        let few_beyond = (0..FAULTS).find(|&limit| self.beyond[limit] < 1000);
        report.need(
            Property::InputBeyond,
            few_beyond.map(|limit| format!("records beyond limit {limit} alone")),
        );
        let few_flags = (0..256).find(|&at| !self.flags[at]);
        report.need(
            Property::InputFlags,
            few_flags.map(|at| format!("records with flags {at}")),
        );
        report.need(Property::InputRuns, self.few_runs());
    }

    fn few_replies(&self) -> Option<String> {
        let few =
            every(1, 2, CALLS as usize).find(|&(_, set, call)| self.finished[set][call] < 1000);
        few.map(|(_, set, call)| format!("replies to call {call} in {}", SETS[set]))
    }

    fn few_actions(&self) -> Option<String> {
        let few = every(2, WAITS, REPORTS.len())
            .find(|&(set, wait, report)| self.reported[set][wait][report] < 100);
        few.map(|(set, wait, report)| format!("{} at {wait} in {}", REPORTS[report], SETS[set]))
    }

    fn few_transfers(&self) -> Option<String> {
        let full = |nest: usize| open_of(nest as u8)[TRANSFERS - 1].is_some();
        let innermost = |nest: usize| open_of(nest as u8)[0];
        let told = every(2, NESTS, REPORTS.len()).find(|&(set, nest, report)| {
            let possible = match report {
                A_LOAD | A_SAVE => !full(nest),
                A_BYTE => innermost(nest) == Some(Transfer::Load),
                AN_END => nest != 0,
                _ => true,
            };
            possible && self.reported_nested[set][nest][report] < 100
        });
        let told = told.map(|(set, nest, report)| {
            format!("{} in nest {nest} in {}", REPORTS[report], SETS[set])
        });
        let refused = every(2, NESTS, 2 * REFUSALS).find(|&(set, nest, at)| {
            let (inside, number) = (at / REFUSALS, at % REFUSALS);
            let possible = match (number, inside) {
                (4, 0) | (5 | 6, 1) => true,
                (5, 0) => nest == 0,
                (9, 0) => innermost(nest) == Some(Transfer::Save),
                (13, 0) => full(nest),
                _ => false,
            };
            possible && self.refused_nested[set][nest][inside][number] < 100
        });
        let refused = refused.map(|(set, nest, at)| {
            let (inside, number) = (at / REFUSALS, at % REFUSALS);
            format!(
                "refusals {number} in nest {nest}, in an action {inside}, in {}",
                SETS[set]
            )
        });
        told.or(refused)
    }

    fn few_refusals(&self) -> Option<String> {
        let few = every(2 * WAITS, ACTIONS, REFUSALS).find(|&(place, action, number)| {
            let (set, wait) = (place / WAITS, place % WAITS);
            let possible = match (number, action) {
                (4 | 9 | 13, 0) | (6, 1) | (5, _) => true,
                (6, 0) => wait == 1 + OSWORD_0 as usize,
                (7, 0) => wait == 0,
                _ => false,
            };
            possible && self.refused[set][wait][action][number] < 100
        });
        few.map(|(place, action, number)| {
            let (set, wait) = (place / WAITS, place % WAITS);
            format!(
                "refusals {number} at {wait}, action {action}, in {}",
                SETS[set]
            )
        })
    }

    fn few_marks(&self) -> Option<String> {
        let few = every(1, 1 + ACTIONS, 256)
            .find(|&(_, place, mark)| mark != 0x9B && !self.marks[place][mark]);
        let nested = every(1, NESTS, 256)
            .find(|&(_, nest, mark)| mark != 0x9B && !self.marks_nested[nest][mark]);
        let few = few.map(|(_, place, mark)| match place {
            0 => format!("marks &{mark:02X} while idle"),
            1 => format!("marks &{mark:02X} while waiting"),
            _ => format!("marks &{mark:02X} in action {}", place - 1),
        });
        few.or(nested.map(|(_, nest, mark)| format!("marks &{mark:02X} in nest {nest}")))
    }

    fn few_escaped(&self) -> Option<String> {
        // The last byte of a longest line or text is its end.
        let limit = |most: usize| if most == LENT { LENT - 1 } else { most };
        let reply = every(1, CALLS as usize, LENT).find(|&(_, call, at)| {
            let most = limit(most(1 + call as u8, 255));
            at < most && !self.escaped_reply[call][at]
        });
        let own = every(1, ACTIONS, LENT).find(|&(_, action, at)| {
            let most = limit(most_of(action));
            action != 0 && at < most && !self.escaped_own[action][at]
        });
        let reply = reply.map(|(_, call, at)| format!("&9B at {at} of the reply to call {call}"));
        let own = own.map(|(_, action, at)| format!("&9B at {at} of action {action}"));
        let data = (self.escaped_data < 10_000).then(|| "load data &9B".to_string());
        reply.or(own).or(data)
    }

    fn few_lengths(&self) -> Option<String> {
        const NAMES: [&str; 5] = ["OSWORD replies", "lines", "texts", "blocks", "load data"];
        let few = every(1, 5, 256).find(|&(_, list, length)| {
            let possible = match list {
                0 | 4 => length > 0,
                3 => length > 0 && length < 128,
                _ => true,
            };
            possible && !self.lengths[list][length]
        });
        few.map(|(_, list, length)| format!("{} of {length} bytes", NAMES[list]))
    }

    fn few_begun(&self) -> Option<String> {
        let few = every(2, ACTIONS * 2, CALLS as usize)
            .find(|&(set, place, call)| self.begun[set][place / 2][place % 2][call] < 100);
        let otherwise =
            every(1, 2, 6).find(|&(_, set, answer)| self.begun_otherwise[set][answer] < 1000);
        let nested = every(1, 2, NESTS).find(|&(_, set, nest)| self.begun_nested[set][nest] < 100);
        let few = few.map(|(set, place, call)| {
            format!(
                "calls {call} begun in action {}, escape {}, in {}",
                place / 2,
                place % 2,
                SETS[set]
            )
        });
        let nested =
            nested.map(|(_, set, nest)| format!("calls begun in nest {nest} in {}", SETS[set]));
        const ANSWERS: [&str; 6] = [
            "complete",
            "refused with 7",
            "above 12 refused with 7",
            "refused with 12",
            "above 12 refused with 12",
            "refused with 4",
        ];
        let otherwise =
            otherwise.map(|(_, set, answer)| format!("calls {} in {}", ANSWERS[answer], SETS[set]));
        few.or(nested).or(otherwise)
    }

    fn few_records(&self) -> Option<String> {
        let reply = every(1, WAITS, LENT).find(|&(_, wait, got)| {
            let within = got < most(wait as u8, 255);
            within && self.records[wait][got] < 100
        });
        let own = every(1, ACTIONS, LENT).find(|&(_, action, held)| {
            let within = action != BLOCK_CLASS && held < most_of(action);
            within && self.records_own[action][held] < 100
        });
        let block = every(1, 128, 127)
            .find(|&(_, length, held)| held < length && self.records_block[length][held] < 10);
        let nest = (0..NESTS).find(|&nest| self.records_nested[nest] < 1000);
        let reply = reply.map(|(_, wait, got)| format!("records at {wait} with {got} bytes"));
        let own = own.map(|(_, action, held)| format!("records in action {action}, {held} bytes"));
        let block = block.map(|(_, length, held)| format!("blocks of {length}, {held} bytes"));
        let nest = nest.map(|nest| format!("records with nest {nest}"));
        reply.or(own).or(block).or(nest)
    }

    fn few_runs(&self) -> Option<String> {
        const ENDS: [u32; 11] = [
            NEED_MORE,
            REPLY,
            interface::ERROR,
            RESTART,
            REFUSED + 4,
            REFUSED + 5,
            REFUSED + 6,
            REFUSED + 7,
            REFUSED + 8,
            REFUSED + 9,
            REFUSED + 13,
        ];
        let end = ENDS
            .into_iter()
            .find(|&end| self.run_ends[end as usize] < 1000);
        let end = end.map(|end| format!("runs that end with {end}"));
        let start = every(WAITS, ACTIONS, 2)
            .find(|&(wait, action, escape)| self.run_starts[wait][action][escape] < 100);
        let start = start.map(|(wait, action, escape)| {
            format!("runs that start at {wait}, action {action}, escape {escape}")
        });
        let nest = (0..NESTS).find(|&nest| self.run_starts_nested[nest] < 100);
        let nest = nest.map(|nest| format!("runs that start in nest {nest}"));
        let note = (1..5).chain(9..15).find(|&kind| self.notes[kind] < 10_000);
        let note = note.map(|kind| format!("notes of kind {kind}"));
        const LENT_FOR: [&str; 2] = ["notes", "bytes of data"];
        let room = every(1, 2, 8).find(|&(_, list, left)| self.rooms[list][left] < 10_000);
        let room = room.map(|(_, list, left)| {
            format!(
                "runs with {left} bytes left that are lent for {}",
                LENT_FOR[list]
            )
        });
        let long =
            every(1, 2, 2).find(|&(_, list, size)| self.long_runs[list][size] < [1000, 10][size]);
        let long = long.map(|(_, list, size)| {
            format!(
                "runs with more than {} {}",
                [256, 65_536][size],
                LENT_FOR[list]
            )
        });
        end.or(start).or(nest).or(note).or(room).or(long)
    }
}

// ---- One byte, one call ----

/// Gives one byte to both and compares; the second program's answer, and
/// whether all was equal.
fn compare_byte(
    pair: &mut Pair,
    raw: u8,
    group: &Group,
    report: &mut Report,
    what: &dyn Fn() -> String,
) -> (Told, bool) {
    let (record, link) = (pair.record, pair.link);
    let (reply, own) = pair.library.pointers();
    let library = unsafe { tube_link_step(record, raw, reply, own) };
    let Arrays { reply, own } = &mut pair.second;
    let told = pair.link.step(raw, lent(reply), lent(own));
    let after = library.link;
    pair.record = after;

    let (kind, values, length) = numbers(told);
    let mut all = true;
    let mut check = |property: Property, good: bool, found: &dyn Fn() -> String| {
        all &= good;
        report.check(property, good, || {
            format!("{}: byte &{raw:02X} on {record:?}, {}", found(), what())
        });
    };
    let answers = || format!("{library:?}, second program {told:?}");
    check(group.kind, library.kind == kind, &answers);
    check(group.values, library.values() == values, &answers);
    check(group.length, library.length == length, &answers);
    let (property, good) = match told {
        _ if link.stopped() => (group.stopped, after == record),
        Told::Refused(_) => (group.refused, after == record.stopped()),
        _ => (group.record, after.shows(&pair.link, record.out_length)),
    };
    check(property, good, &|| {
        format!("{after:?}, second program {:?}", pair.link)
    });
    let (library, second) = (&pair.library, &pair.second);
    check(group.reply, library.reply == second.reply, &|| {
        difference(&library.reply, &second.reply, GUARD)
    });
    check(group.own, library.own == second.own, &|| {
        difference(&library.own, &second.own, GUARD)
    });
    (told, all)
}

/// Begins a call on both and compares; every field of the record is settled.
fn compare_begin(
    pair: &mut Pair,
    (call, out_length): (u8, u8),
    group: &Group,
    report: &mut Report,
    what: &dyn Fn() -> String,
) -> (Begun, bool) {
    let record = pair.record;
    let library = unsafe { tube_begin(record, call, out_length) };
    let begun = pair.link.begin(call, out_length);
    pair.record = library.link;
    let (numbers, expected) = match begun {
        Begun::Waits => {
            let out_length = match call {
                OSWORD => out_length,
                _ => record.out_length,
            };
            let waiting = TubeLink {
                got: 0,
                wait: 1 + call,
                out_length,
                ..record
            };
            ((0, 0), waiting)
        }
        Begun::Complete => ((1, 0), record),
        Begun::Refused(number) => ((2, number), record),
    };
    let what = || {
        format!(
            "{library:?}, second program {begun:?}: call {call}, out length {out_length} on {record:?}, {}",
            what()
        )
    };
    let answered = (library.kind, library.answer) == numbers;
    report.check(group.begun_kind, answered, what);
    report.check(group.begun_record, library.link == expected, what);
    (begun, answered && library.link == expected)
}

// ---- Runs ----

/// Room and data that are lent to a run, between guard bytes.
#[derive(Clone, PartialEq)]
struct Rooms {
    notes: Vec<u8>,
    data: Vec<u8>,
}

/// Lends so many bytes between guards, with random bytes.
fn random_room(random: &mut Random, length: usize) -> Vec<u8> {
    let mut room = vec![0; GUARD + length + GUARD];
    random.fill(&mut room);
    room
}

fn within(room: &mut [u8]) -> &mut [u8] {
    let length = room.len() - GUARD;
    &mut room[GUARD..length]
}

impl Rooms {
    fn random(random: &mut Random, notes: usize, data: usize) -> Rooms {
        Rooms {
            notes: random_room(random, notes),
            data: random_room(random, data),
        }
    }
}

/// How many bytes a run must be lent for its notes and for its data.
fn needed(record: &TubeLink, raw: &[u8]) -> (usize, usize) {
    (NOTE * raw.len(), raw.len() + record.held as usize)
}

fn library_run(record: TubeLink, raw: &[u8], arrays: &mut Arrays, rooms: &mut Rooms) -> TubeRan {
    let (reply, own) = arrays.pointers();
    let (notes, data) = (within(&mut rooms.notes), within(&mut rooms.data));
    unsafe {
        tube_run(
            record,
            raw.as_ptr(),
            raw.len(),
            reply,
            own,
            notes.as_mut_ptr(),
            notes.len(),
            data.as_mut_ptr(),
            data.len(),
        )
    }
}

/// Runs a piece on both and compares; how many bytes were used.
fn compare_run(
    random: &mut Random,
    pair: &mut Pair,
    raw: &[u8],
    seen: &mut Seen,
    report: &mut Report,
    what: &dyn Fn() -> String,
) -> usize {
    let (record, link) = (pair.record, pair.link);
    let (notes, data) = needed(&record, raw);
    if data > 0 && random.one_in(4) {
        compare_short(random, pair, raw, seen, report, what);
    }
    seen.run_start(&link);
    let left = [random.below(8), random.below(8)];
    let before = Rooms::random(random, notes + left[0], data + left[1]);
    let (mut rooms, mut expected) = (before.clone(), before.clone());
    let library = library_run(record, raw, &mut pair.library, &mut rooms);
    let Arrays { reply, own } = &mut pair.second;
    let ran = pair.link.run(
        raw,
        lent(reply),
        lent(own),
        within(&mut expected.notes),
        within(&mut expected.data),
    );
    let after = library.told.link;
    pair.record = after;
    let notes = GUARD..GUARD + NOTE * ran.noted;
    seen.run_end(ran.told, &expected.notes[notes.clone()], ran.stored, left);

    let (kind, values, length) = numbers(ran.told);
    let mut all = true;
    let mut check = |property: Property, good: bool, found: &dyn Fn() -> String| {
        all &= good;
        report.check(property, good, || {
            let start = &raw[..raw.len().min(40)];
            format!(
                "{}: {} bytes {start:02X?} on {record:?}, {}",
                found(),
                raw.len(),
                what()
            )
        });
    };
    let answers = || format!("{library:?}, second program {ran:?}");
    check(Property::RunKind, library.told.kind == kind, &answers);
    check(
        Property::RunValues,
        library.told.values() == values,
        &answers,
    );
    check(Property::RunLength, library.told.length == length, &answers);
    check(Property::RunUsed, library.used == ran.used, &answers);
    check(Property::RunNoted, library.noted == ran.noted, &answers);
    check(Property::RunStored, library.stored == ran.stored, &answers);
    let lists = [
        (
            Property::RunNotes,
            Property::RunBeyond,
            &rooms.notes,
            &expected.notes,
            notes.end,
        ),
        (
            Property::RunData,
            Property::RunDataBeyond,
            &rooms.data,
            &expected.data,
            GUARD + ran.stored,
        ),
    ];
    for (written, beyond, found, expected, end) in lists {
        let at = || difference(found, expected, GUARD);
        if end > GUARD {
            check(written, found[GUARD..end] == expected[GUARD..end], &at);
        }
        let stays = found[..GUARD] == expected[..GUARD] && found[end..] == expected[end..];
        check(beyond, stays, &at);
    }
    let (property, good) = match ran.told {
        _ if raw.is_empty() || link.stopped() => (Property::RunKept, after == record),
        Told::Refused(_) if ran.used == 1 => (Property::RunRecord, after == record.stopped()),
        _ => (
            Property::RunRecord,
            after.shows(&pair.link, record.out_length),
        ),
    };
    check(property, good, &|| {
        format!("{after:?}, second program {:?}", pair.link)
    });
    let (library, second) = (&pair.library, &pair.second);
    check(Property::RunReply, library.reply == second.reply, &|| {
        difference(&library.reply, &second.reply, GUARD)
    });
    check(Property::RunOwn, library.own == second.own, &|| {
        difference(&library.own, &second.own, GUARD)
    });
    if raw.is_empty() {
        report.check(Property::RunEmpty, all, || {
            format!("{record:?}, {}", what())
        });
    }
    pair.mend(all);
    ran.used
}

/// A length that is too short, most often by one, and that of the raw bytes where
/// that is too short.
fn too_short(random: &mut Random, whole: usize, raw: &[u8]) -> usize {
    match random.below(4) {
        0 => random.below(whole),
        1 => raw.len().min(whole - 1),
        _ => whole - 1,
    }
}

/// Room or data that is too short, or both: nothing is used or touched.
fn compare_short(
    random: &mut Random,
    pair: &Pair,
    raw: &[u8],
    seen: &mut Seen,
    report: &mut Report,
    what: &dyn Fn() -> String,
) {
    let (mut notes, mut data) = needed(&pair.record, raw);
    let list = random.below(3);
    if list != 0 || raw.is_empty() {
        data = too_short(random, data, raw);
    }
    if list != 1 && !raw.is_empty() {
        notes = too_short(random, notes, raw);
    }
    let before = Rooms::random(random, notes, data);
    let (mut rooms, mut arrays) = (before.clone(), pair.library);
    let ran = library_run(pair.record, raw, &mut arrays, &mut rooms);
    let told = ran.told;
    let untouched = rooms == before && arrays == pair.library;
    let good = (told.kind, told.values(), told.length) == (REFUSED, [8, 0, 0, 0], 0)
        && told.link == pair.record
        && (ran.used, ran.noted, ran.stored) == (0, 0, 0);
    report.check(Property::RunShort, good && untouched, || {
        format!(
            "{ran:?}: {notes} bytes of room, {data} of data for {} raw bytes on {:?}, all untouched {untouched}, {}",
            raw.len(),
            pair.record,
            what()
        )
    });
    seen.run_end(Told::Refused(8), &[], 0, [0, 0]);
}

// ---- Streams ----

const STREAMS: u64 = 240_000;

#[derive(Clone, Copy)]
enum Event {
    Raw(u8),
    Begin(u8, u8),
    Reset,
}

impl std::fmt::Display for Event {
    fn fmt(&self, out: &mut std::fmt::Formatter) -> std::fmt::Result {
        match self {
            Event::Raw(byte) => write!(out, "{byte:02X}"),
            Event::Begin(call, out_length) => write!(out, "(begin {call} {out_length})"),
            Event::Reset => write!(out, "(reset)"),
        }
    }
}

fn put(events: &mut Vec<Event>, raw: &[u8]) {
    events.extend(raw.iter().map(|&byte| Event::Raw(byte)));
}

/// Adds actions, now and then an error, also one inside open transfers; some break
/// a rule.
fn put_actions(random: &mut Random, events: &mut Vec<Event>, mixture: usize, broken: bool) {
    for _ in 0..1 + random.below(2) {
        let raw = match random.below(14) {
            0..4 if broken => random.broken(mixture),
            number @ 4..8 => {
                let length = match number {
                    4 => random.length(),
                    _ => random.below(4),
                };
                let depth = random.below(1 + TRANSFERS);
                let before = match random.one_in(2) {
                    true => random.nest(mixture, depth).raw,
                    false => Vec::new(),
                };
                let error = match number {
                    7 => vec![0x9B, 0, 0, 0],
                    _ => random.error(mixture, length),
                };
                [before, error].concat()
            }
            8 => random.nested(mixture),
            _ => random.action(mixture),
        };
        put(events, &raw);
    }
}

/// One to four calls with their replies, actions between the bytes, and
/// characters and actions before; a call may begin somewhat early.
fn talk(random: &mut Random, broken: bool) -> Vec<Event> {
    let mut events = Vec::new();
    for _ in 0..1 + random.below(4) {
        let mixture = random.below(4);
        if random.one_in(2) {
            let length = random.below(6);
            put(&mut events, &escaped(&random.bytes(mixture, length)));
        }
        if random.one_in(2) {
            put_actions(random, &mut events, mixture, broken);
        }
        let (call, mut out_length) = random.call();
        if random.one_in(12) {
            out_length = 0;
        }
        let at = match random.below(4) {
            0 => events.len().saturating_sub(random.below(8)),
            1 => events.len().saturating_sub(random.below(3)),
            2 => {
                let action = random.action(mixture);
                put(&mut events, &action);
                events.len() - action.len() + random.below(action.len().min(14))
            }
            _ => events.len(),
        };
        events.insert(at, Event::Begin(call, out_length));
        let mut reply = random.reply((call, out_length), mixture);
        if broken && call == OSWORD_0 && random.one_in(2) {
            let length = 256 + random.below(3);
            reply = random.line(mixture, length);
        }
        let often = 2 + reply.len() / 2 + random.below(8);
        for &byte in &reply {
            if random.one_in(often) {
                put_actions(random, &mut events, mixture, broken);
            }
            put(&mut events, &escaped(&[byte]));
        }
    }
    events
}

/// Cuts, flips, inserts, drops, repeats, resets and calls.
fn damage(random: &mut Random, events: &mut Vec<Event>) {
    for _ in 0..1 + random.below(4) {
        let at = random.below(events.len() + 1);
        let within = at < events.len();
        match random.below(12) {
            0 => events.truncate(at),
            1 | 2 if within => {
                if let Event::Raw(byte) = &mut events[at] {
                    *byte ^= 1 << random.below(8);
                }
            }
            3 if within => events[at] = Event::Raw(random.edge()),
            4 if within => {
                events.remove(at);
            }
            5 if within => {
                let from = at.saturating_sub(random.below(8));
                events.drain(from..=at);
            }
            6 if within => events.insert(at, events[at]),
            7 => events.insert(at, Event::Reset),
            8 | 9 => {
                let (call, out_length) = random.call();
                events.insert(at, Event::Begin(call, out_length));
            }
            10 => {
                let mark = random.mark();
                events.splice(at..at, [Event::Raw(0x9B), Event::Raw(mark)]);
            }
            _ => events.insert(at, Event::Raw(random.mixed(1))),
        }
    }
    if events.is_empty() {
        events.push(Event::Raw(random.byte()));
    }
}

/// Any bytes, or those at which rules change, with calls and resets.
fn noise(random: &mut Random) -> Vec<Event> {
    let mixture = random.below(3);
    let most = if random.one_in(8) { 600 } else { 60 };
    let length = 1 + random.below(most);
    let mut events = Vec::new();
    for _ in 0..length {
        match random.below(64) {
            0 => events.push(Event::Reset),
            1..5 => {
                let (call, out_length) = random.call();
                events.push(Event::Begin(call, out_length));
            }
            5 => events.push(Event::Begin(random.byte(), random.byte())),
            6..12 => events.push(Event::Raw(random.mark())),
            12..16 => events.push(Event::Raw(0x9B)),
            16..20 => put(&mut events, &[0x9B, random.mark()]),
            _ => events.push(Event::Raw(random.mixed(mixture))),
        }
    }
    events
}

/// The events up to one, in words.
fn shown(events: &[Event], at: usize, name: &str) -> String {
    let shown: Vec<String> = events[at.saturating_sub(24)..=at.min(events.len() - 1)]
        .iter()
        .map(|event| event.to_string())
        .collect();
    format!("{name}, event {at}, up to it {}", shown.join(" "))
}

/// Plays a stream on both, byte by byte. A stopped link gets a few more bytes,
/// then a reset.
fn compare_stream(
    random: &mut Random,
    events: &[Event],
    name: &str,
    seen: &mut Seen,
    report: &mut Report,
) {
    let mut pair = Pair::fresh(random);
    // The open error came while idle; the last event was a call inside a pair.
    let (mut opened_idle, mut divided) = (false, false);
    for (at, &event) in events.iter().enumerate() {
        let what = || shown(events, at, name);
        if pair.link.stopped() && random.one_in(6) {
            seen.reset(&pair.link);
            pair.reset();
        }
        let before = pair.link;
        match event {
            Event::Reset => {
                seen.reset(&before);
                pair.reset();
                divided = false;
            }
            Event::Begin(call, out_length) => {
                let (begun, equal) =
                    compare_begin(&mut pair, (call, out_length), &STREAM, report, &what);
                seen.begun(0, &before, call, begun);
                divided |= begun == Begun::Waits && before.escape && before.action == NO_ACTION;
                pair.mend(equal);
            }
            Event::Raw(raw) => {
                let (told, equal) = compare_byte(&mut pair, raw, &STREAM, report, &what);
                seen.stream(&before, raw, told);
                if before.action == NO_ACTION && pair.link.action == ERROR {
                    opened_idle = before.wait == 0;
                }
                let ended = matches!(told, Told::Error { .. } | Told::Restart);
                seen.late[0] += (ended && opened_idle && before.wait != 0) as u64;
                seen.late[1] += (divided && raw == 0x9B) as u64;
                divided = false;
                pair.mend(equal);
            }
        }
    }
}

/// Plays the same stream in pieces cut at random, between calls and resets.
fn compare_pieces(
    random: &mut Random,
    events: &[Event],
    name: &str,
    seen: &mut Seen,
    report: &mut Report,
) {
    let mut pair = Pair::fresh(random);
    let mut piece = Vec::new();
    let cut = [1, 2, 6, 30, usize::MAX][random.below(5)];
    for (at, &event) in events.iter().enumerate() {
        let what = || shown(events, at, name);
        let Event::Raw(raw) = event else {
            compare_piece(random, &mut pair, &mut piece, seen, report, &what);
            match event {
                Event::Begin(call, out_length) => {
                    let kind = (call, out_length);
                    let (_, equal) = compare_begin(&mut pair, kind, &STREAM, report, &what);
                    pair.mend(equal);
                }
                _ => pair.reset(),
            }
            continue;
        };
        piece.push(raw);
        if random.one_in(cut) {
            compare_piece(random, &mut pair, &mut piece, seen, report, &what);
        }
    }
    let what = || shown(events, events.len() - 1, name);
    compare_piece(random, &mut pair, &mut piece, seen, report, &what);
}

/// Runs over a piece until it is used up. A stopped link gets a few more bytes,
/// then a reset.
fn compare_piece(
    random: &mut Random,
    pair: &mut Pair,
    piece: &mut Vec<u8>,
    seen: &mut Seen,
    report: &mut Report,
    what: &dyn Fn() -> String,
) {
    let mut rest = &piece[..];
    if !rest.is_empty() && random.one_in(8) {
        compare_run(random, pair, &[], seen, report, what);
    }
    while !rest.is_empty() {
        let used = compare_run(random, pair, rest, seen, report, what);
        rest = &rest[used..];
        if pair.link.stopped() && random.one_in(3) {
            pair.reset();
        }
    }
    piece.clear();
}

fn compare_streams(random: &mut Random, count: u64, seen: &mut Seen, report: &mut Report) {
    for number in 0..count {
        let (kind, mut events) = match number % 8 {
            0 | 1 => ("good", talk(random, false)),
            2 | 3 => ("broken", talk(random, true)),
            4..=6 => ("damaged", talk(random, false)),
            _ => ("noise", noise(random)),
        };
        if kind == "damaged" {
            damage(random, &mut events);
        }
        let name = format!("{kind} stream {number}");
        compare_stream(random, &events, &name, seen, report);
        compare_pieces(random, &events, &name, seen, report);
    }
}

/// Replies, lines, texts, control blocks and load data of every length with &9B at
/// one place or at all; every mark in each state; every character.
fn compare_each(random: &mut Random, seen: &mut Seen, report: &mut Report) {
    let mut compare = |random: &mut Random, events: &[Event], name: &str| {
        compare_stream(random, events, name, seen, report);
        compare_pieces(random, events, name, seen, report);
    };
    for call in 0..CALLS {
        for length in 0..=257 {
            let out_length = length.clamp(1, 255) as u8;
            for mixture in [0, 2, 3] {
                let reply = match call {
                    OSWORD_0 => random.line(mixture, length),
                    _ => random.reply((call, out_length), mixture),
                };
                let mut events = vec![Event::Begin(call, out_length)];
                put(&mut events, &escaped(&reply));
                put(&mut events, b"ABC");
                compare(random, &events, "each reply");
            }
        }
    }
    for length in 0..=257 {
        for (mixture, wait) in [(0, 0), (2, 0), (3, 0), (0, 1), (2, 1), (3, 1)] {
            let mut events = Vec::new();
            if wait == 1 {
                let (call, out_length) = random.call();
                events.push(Event::Begin(call, out_length));
            }
            let error = random.error(mixture, length);
            put(&mut events, &error);
            put(&mut events, b"ABC");
            compare(random, &events, "each text");
        }
    }
    for length in 0..=600 {
        for (mixture, wait) in [(0, 0), (2, 0), (3, 0), (0, 1), (2, 1), (3, 1)] {
            let mut events = Vec::new();
            if wait == 1 {
                let (call, out_length) = random.call();
                events.push(Event::Begin(call, out_length));
            }
            put(&mut events, &[0x9B, 0xE0, 1, 2, 3, 4]);
            put(&mut events, &escaped(&random.bytes(mixture, length)));
            if length < 128 {
                put(&mut events, &[0x9B, length as u8]);
                put(&mut events, &escaped(&random.bytes(mixture, length)));
                put(&mut events, &[0]);
            }
            put(&mut events, &[0x9B, 0xB0]);
            put(&mut events, b"ABC");
            compare(random, &events, "each block and load");
        }
    }
    for byte in 0..=255 {
        put_each_byte(random, byte, &mut compare);
        put_each_nest(random, byte, &mut compare);
    }
}

/// A byte as a character, and as a mark in each state.
fn put_each_byte(
    random: &mut Random,
    byte: u8,
    compare: &mut dyn FnMut(&mut Random, &[Event], &str),
) {
    let mut events = Vec::new();
    put(&mut events, &[byte, byte, 0x41]);
    compare(random, &events, "each character");
    // Marks that begin each kind of action, and one that begins none.
    let marks = [0x80, 0x00, 0x90, 0xC0, 0xD0, 0xE0, 0xF0, 0x7F];
    for (class, mark) in marks.into_iter().enumerate() {
        for wait in 0..=CALLS {
            let mut events = Vec::new();
            put_reply_begun(random, &mut events, wait);
            put(&mut events, &[0x9B, mark]);
            let held = random.below(most_of(class).min(40));
            put(&mut events, &[0x41; 40][..held]);
            put(&mut events, &[0x9B, byte, byte, 0x41, 0x00]);
            compare(random, &events, "each mark");
        }
    }
}

/// A call of which some bytes of the reply have come; none where nothing waits.
fn put_reply_begun(random: &mut Random, events: &mut Vec<Event>, wait: u8) {
    if wait != 0 {
        let out_length = random.at_least(1);
        events.push(Event::Begin(wait - 1, out_length));
        let reply = random.reply((wait - 1, out_length), 1);
        let taken = random.below(reply.len());
        put(events, &escaped(&reply[..taken]));
    }
}

/// A byte as data and as a mark, and an error, in each nest of transfers, then ends
/// and data.
fn put_each_nest(
    random: &mut Random,
    byte: u8,
    compare: &mut dyn FnMut(&mut Random, &[Event], &str),
) {
    for nest in 0..NESTS as u8 {
        let mixture = random.below(4);
        let error = random.error(mixture, 252 + byte as usize % 8);
        let refused = vec![0x9B, 0xA0 + byte % 16];
        for piece in [escaped(&[byte]), vec![0x9B, byte], refused, error] {
            let mut events = Vec::new();
            let wait = random.below(WAITS) as u8;
            put_reply_begun(random, &mut events, wait);
            put(&mut events, &opened(nest));
            put(&mut events, &piece);
            for _ in 0..3 {
                let length = random.below(6);
                put(&mut events, &escaped(&random.bytes(mixture, length)));
                put(&mut events, &[0x9B, random.low_bits(0xB0)]);
            }
            compare(random, &events, "each nest");
        }
    }
}

// ---- Replies with actions between their bytes ----

const TALKS: u64 = 60_000;

/// A library link with everything lent, run piece by piece.
struct Bench {
    record: TubeLink,
    arrays: Arrays,
    notes: Vec<u8>,
    data: Vec<u8>,
}

impl Bench {
    fn new(arrays: Arrays) -> Bench {
        Bench {
            record: unsafe { tube_link() },
            arrays,
            notes: Vec::new(),
            data: Vec::new(),
        }
    }

    fn begin(&mut self, (call, out_length): (u8, u8)) {
        self.record = unsafe { tube_begin(self.record, call, out_length) }.link;
    }

    /// Runs over raw bytes; the answer, and whether all of them were used.
    fn run(&mut self, raw: &[u8]) -> (TubeTold, bool) {
        let (notes, data) = needed(&self.record, raw);
        let mut rooms = Rooms {
            notes: vec![0; GUARD + notes + GUARD],
            data: vec![0; GUARD + data + GUARD],
        };
        let ran = library_run(self.record, raw, &mut self.arrays, &mut rooms);
        self.record = ran.told.link;
        let (noted, stored) = (ran.noted.min(raw.len()), ran.stored.min(data));
        self.notes.extend(&rooms.notes[GUARD..GUARD + NOTE * noted]);
        self.data.extend(&rooms.data[GUARD..GUARD + stored]);
        (ran.told, ran.used == raw.len())
    }

    /// The finished reply, where the last run gave it with its last byte.
    fn reply(&mut self, raw: &[u8]) -> Option<Vec<u8>> {
        let (told, all) = self.run(raw);
        let good = all && told.kind == REPLY && self.idle();
        good.then(|| lent(&mut self.arrays.reply)[..told.length.min(LENT)].to_vec())
    }

    fn idle(&self) -> bool {
        self.record.shows(&Link::new(), self.record.out_length)
    }

    fn told(&self) -> Vec<Vec<u8>> {
        told_by(&self.notes, &self.data)
    }
}

/// The library alone: actions between the bytes of a reply do not change it.
fn compare_actions(random: &mut Random, count: u64, report: &mut Report) {
    for number in 0..count {
        let laden = Laden::new(random);
        let arrays = Arrays::random(random);
        let what = || {
            let raw = &laden.sent.raw;
            let start = &raw[..raw.len().min(60)];
            format!(
                "reply {number}, call {:?}, plain {:02X?}, raw {start:02X?}",
                laden.kind, laden.plain
            )
        };
        compare_laden(random, &laden, arrays, report, &what);
        compare_ended(random, &laden, arrays, report, &what);
    }
}

fn compare_laden(
    random: &mut Random,
    laden: &Laden,
    arrays: Arrays,
    report: &mut Report,
    what: &dyn Fn() -> String,
) {
    let sent = &laden.sent;
    let told = told_by(&sent.notes, &sent.data);
    let mut bare = Bench::new(arrays);
    bare.begin(laden.kind);
    let reply = bare.reply(&escaped(&laden.plain));
    let good = reply.as_ref() == Some(&laden.plain) && bare.notes.is_empty();

    let mut full = Bench::new(arrays);
    full.begin(laden.kind);
    let same = full.reply(&sent.raw) == reply && full.arrays.reply == bare.arrays.reply;
    let mut own = arrays.own;
    lent(&mut own)[..sent.own.len()].copy_from_slice(&sent.own);
    let same = same && full.arrays.own == own;
    report.check(Property::ActionsNotes, full.notes == sent.notes, || {
        format!("{:02X?}: {}", full.notes, what())
    });
    report.check(Property::ActionsData, full.data == sent.data, || {
        format!("{:02X?}: {}", full.data, what())
    });

    // The call begins somewhere in the first action where one leads.
    let early = random.below(laden.leading + 1);
    let mut late = Bench::new(arrays);
    let (first, all) = late.run(&sent.raw[..early]);
    late.begin(laden.kind);
    let begun = all
        && first.kind == NEED_MORE
        && late.reply(&sent.raw[early..]) == reply
        && late.told() == told
        && late.arrays == full.arrays;
    report.check(Property::ActionsReply, good && same && begun, || {
        format!("call begun after {early} bytes: {}", what())
    });

    let mut ends = Bench::new(arrays);
    ends.begin(laden.kind);
    let (last, before) = sent.raw.split_last().unwrap();
    let (first, all) = ends.run(before);
    let end = all && first.kind == NEED_MORE && ends.reply(&[*last]) == reply;
    report.check(Property::ActionsEnd, end, || {
        format!("{first:?}: {}", what())
    });

    let mut cut_up = Bench::new(arrays);
    cut_up.begin(laden.kind);
    let cut = random.below(sent.raw.len());
    let (first, all) = cut_up.run(&sent.raw[..cut]);
    let same = all
        && first.kind == NEED_MORE
        && cut_up.reply(&sent.raw[cut..]) == reply
        && cut_up.told() == told
        && cut_up.arrays == full.arrays;
    report.check(Property::ActionsPieces, same, || {
        format!("cut after {cut} bytes: {}", what())
    });
}

/// An error or a restart before some byte of a reply, in transfers that are open
/// there; what remains of the reply is characters then.
fn compare_ended(
    random: &mut Random,
    laden: &Laden,
    arrays: Arrays,
    report: &mut Report,
    what: &dyn Fn() -> String,
) {
    let at = random.below(laden.plain.len());
    let (taken, rest) = laden.plain.split_at(at);
    let restart = random.one_in(4);
    let (number, length) = match restart {
        true => (0, 0),
        false => (1 + random.below(255) as u8, random.length()),
    };
    let mixture = random.below(4);
    let depth = random.below(1 + TRANSFERS);
    let nest = random.nest(mixture, depth);
    let text = random.without(0x00, mixture, length);
    let own = [&[number], &text[..], &[0]].concat();
    let error = [&[0x9B, 0x00], &escaped(&own)[..]].concat();
    let raw = [escaped(taken), nest.raw, error].concat();

    let mut bench = Bench::new(arrays);
    bench.begin(laden.kind);
    let (told, all) = bench.run(&raw);
    let expected = match restart {
        true => (RESTART, [0; 4], 0),
        false => (interface::ERROR, [number, 0, 0, 0], length),
    };
    let mut after = arrays;
    lent(&mut after.own)[..nest.own.len()].copy_from_slice(&nest.own);
    lent(&mut after.own)[..own.len()].copy_from_slice(&own);
    lent(&mut after.reply)[..at].copy_from_slice(taken);
    let ended = all
        && (told.kind, told.values(), told.length) == expected
        && bench.notes == nest.notes
        && bench.data == nest.data
        && bench.arrays == after
        && bench.idle();

    let characters: Vec<u8> = rest.iter().flat_map(|&byte| [1, byte, 0, 0, 0]).collect();
    bench.notes.clear();
    let (told, all) = bench.run(&escaped(rest));
    let passed = all && told.kind == NEED_MORE && bench.notes == characters;
    let property = match restart {
        true => Property::ActionsRestart,
        false => Property::ActionsError,
    };
    report.check(property, ended && passed, || {
        format!(
            "{told:?}, ended {ended}, then characters {passed}: error {number} with {length} bytes in {depth} transfers before byte {at}, {}",
            what()
        )
    });
}

// ---- Single steps from any record ----

const STEPS: u64 = 4_000_000;

impl Random {
    /// A count around a limit, most often below it.
    fn count(&mut self, limit: usize) -> u16 {
        let count = match self.below(32) {
            0 => limit,
            1 => limit + 1 + self.below(20),
            2 => return self.next() as u16,
            3 => return u16::MAX - self.below(300) as u16,
            // Within the limit in its lowest bits only.
            4 => self.below(limit + 1) + (256 << self.below(8)),
            5..9 => limit.saturating_sub(1 + self.below(3)),
            9..16 => self.below(3).min(limit.saturating_sub(1)),
            _ => self.below(limit.max(1)),
        };
        count as u16
    }

    /// A record within its limits and beyond.
    fn link_record(&mut self) -> TubeLink {
        let wait = match self.below(24) {
            0 => self.at_least(WAITS as u8),
            1 => WAITS as u8,
            2..6 => 0,
            6..10 => WAIT_BLOCK + self.below(2) as u8,
            _ => 1 + self.below(CALLS as usize) as u8,
        };
        let action = match self.below(32) {
            0 => self.byte(),
            1 => SAVE + 1 + self.below((IN_BLOCK - SAVE) as usize) as u8,
            2..16 => NO_ACTION,
            16..20 => ERROR,
            20..23 => self.at_least(SHORTEST_BLOCK),
            _ => ERROR + self.below(SAVE as usize) as u8,
        };
        let out_length = match self.below(6) {
            0 => 0,
            1 => 255,
            2 => 1 + self.below(4) as u8,
            _ => self.byte(),
        };
        TubeLink {
            got: self.count(most(wait, out_length)),
            held: self.count(most_own(action)),
            wait,
            out_length,
            action,
            flags: match self.below(24) {
                0 => self.at_least(LINK_FLAGS + 1),
                1 => LINK_STOPPED + self.flags(),
                _ => self.flags(),
            },
        }
    }

    /// Flags of a link that is not stopped.
    fn flags(&mut self) -> u8 {
        let nest = match self.one_in(2) {
            true => self.below(NESTS) as u8,
            false => 0,
        };
        LINK_NESTED * nest + LINK_ESCAPE * self.below(2) as u8
    }

    /// Lent bytes, near the rules that look at them in many cases.
    fn arrays(&mut self) -> Arrays {
        let mut arrays = Arrays::random(self);
        if self.one_in(3) {
            lent(&mut arrays.own)[0] = 0;
        }
        if self.one_in(4) {
            lent(&mut arrays.reply)[0] = self.edge();
        }
        arrays
    }

    fn link_raw(&mut self) -> u8 {
        match self.below(4) {
            0 => self.byte(),
            1 => self.mark(),
            _ => self.edge(),
        }
    }
}

fn compare_step(
    random: &mut Random,
    record: TubeLink,
    raw: u8,
    seen: &mut Seen,
    report: &mut Report,
) {
    let mut pair = Pair::new(record, random.arrays());
    let before = pair.library;
    let what = || {
        format!(
            "first bytes lent {:02X?} and {:02X?}",
            &before.reply[GUARD..GUARD + 4],
            &before.own[GUARD..GUARD + 4]
        )
    };
    let (told, _) = compare_byte(&mut pair, raw, &STEP, report, &what);
    seen.step(&record, told);
}

fn compare_begun(
    random: &mut Random,
    record: TubeLink,
    kind: (u8, u8),
    seen: &mut Seen,
    report: &mut Report,
) {
    let mut pair = Pair::new(record, Arrays::random(random));
    let before = pair.link;
    let what = || "any record".to_string();
    let (begun, _) = compare_begin(&mut pair, kind, &STEP, report, &what);
    seen.begun(1, &before, kind.0, begun);
}

/// Every call, action and count around the limits, with the bytes at which rules
/// change.
fn compare_counts(random: &mut Random, seen: &mut Seen, report: &mut Report) {
    const RAWS: [u8; 7] = [0x9B, 0x0D, 0x00, 0x7F, 0x80, 0x41, 0xA0];
    for (tag, count, at) in every(WAITS + 2, LENT + 4, 2 * RAWS.len()) {
        let record = TubeLink {
            got: count as u16,
            wait: tag as u8,
            out_length: random.at_least(250),
            flags: LINK_ESCAPE * (at % 2) as u8,
            ..unsafe { tube_link() }
        };
        compare_step(random, record, RAWS[at / 2], seen, report);
    }
    for (action, count, at) in every(256, LENT + 4, 2 * RAWS.len()) {
        let flags = match random.below(4) {
            0 => random.flags() & !LINK_ESCAPE,
            _ => 0,
        };
        let record = TubeLink {
            got: 0,
            held: count as u16,
            wait: random.below(WAITS) as u8,
            out_length: 1,
            action: action as u8,
            flags: flags + LINK_ESCAPE * (at % 2) as u8,
        };
        // Counts far beyond the limit are left to the random records.
        if count <= most_own(record.action) + 3 {
            compare_step(random, record, RAWS[at / 2], seen, report);
        }
    }
}

/// Errors of a few bytes in every call and nest, so that many are restarts.
fn compare_restarts(random: &mut Random, seen: &mut Seen, report: &mut Report) {
    for (wait, held, at) in every(WAITS, 4, 2000) {
        let out_length = random.at_least(1);
        let record = TubeLink {
            got: random.below(most(wait as u8, out_length)) as u16,
            held: held as u16,
            wait: wait as u8,
            out_length,
            action: ERROR,
            flags: LINK_NESTED * (at % NESTS) as u8,
        };
        let raw = if random.one_in(2) { 0 } else { random.byte() };
        compare_step(random, record, raw, seen, report);
    }
}

/// The open action of a kind, of `ACTIONS` a number that is none.
fn action_of(random: &mut Random, class: usize) -> u8 {
    match class {
        BLOCK_CLASS => random.at_least(SHORTEST_BLOCK),
        ACTIONS => SAVE + 1 + random.below((IN_BLOCK - SAVE) as usize) as u8,
        _ => class as u8,
    }
}

/// Every byte in every state and in every nest; every number of flags.
fn compare_states(random: &mut Random, seen: &mut Seen, report: &mut Report) {
    for (wait, class, at) in every(WAITS + 1, ACTIONS + 1, 512) {
        let action = action_of(random, class);
        let flags = if at < 256 { 0 } else { LINK_ESCAPE };
        compare_state(random, (wait, action, flags), at as u8, seen, report);
    }
    for (nest, class, at) in every(NESTS + 1, ACTIONS + 1, 512) {
        let action = action_of(random, class);
        let escape = if at < 256 { 0 } else { LINK_ESCAPE };
        let flags = LINK_NESTED * nest as u8 + escape;
        let wait = random.below(WAITS);
        compare_state(random, (wait, action, flags), at as u8, seen, report);
    }
    for (_, number, raw) in every(1, 256, 256) {
        let mut record = random.link_record();
        record.flags = number as u8;
        compare_step(random, record, raw as u8, seen, report);
    }
}

/// A byte in a state, the counts within the limits.
fn compare_state(
    random: &mut Random,
    (wait, action, flags): (usize, u8, u8),
    raw: u8,
    seen: &mut Seen,
    report: &mut Report,
) {
    let out_length = random.at_least(1);
    let record = TubeLink {
        got: random.below(most(wait as u8, out_length)) as u16,
        held: random.below(most_own(action)) as u16,
        wait: wait as u8,
        out_length,
        action,
        flags,
    };
    compare_step(random, record, raw, seen, report);
}

/// Every call on every kind of record.
fn compare_calls(random: &mut Random, seen: &mut Seen, report: &mut Report) {
    for (wait, class, call) in every(WAITS + 1, ACTIONS + 1, 256) {
        for at in 0..6 {
            let mut record = random.link_record();
            (record.wait, record.action) = (wait as u8, action_of(random, class));
            if at < 5 {
                record.flags = random.flags();
                record.got = random.below(most(record.wait, record.out_length).max(1)) as u16;
                record.held = random.below(most_own(record.action)) as u16;
            }
            let out_length = [0, 1, 255, random.byte()][random.below(4)];
            let call = match at {
                0 => call as u8,
                _ => call as u8 % (CALLS + 1),
            };
            compare_begun(random, record, (call, out_length), seen, report);
        }
    }
}

/// Calls, most of them good, on any record.
fn compare_any_calls(random: &mut Random, count: u64, seen: &mut Seen, report: &mut Report) {
    for _ in 0..count {
        let record = random.link_record();
        let (call, out_length) = match random.below(8) {
            0 => (random.byte(), random.byte()),
            1 => (OSWORD, 0),
            2 => (OSRDCH + random.below(2) as u8, 0),
            _ => random.call(),
        };
        compare_begun(random, record, (call, out_length), seen, report);
    }
}

fn compare_fresh(report: &mut Report) {
    let fresh = unsafe { tube_link() };
    let expected = TubeLink::from_second(&Link::new());
    report.check(Property::Fresh, fresh == expected, || format!("{fresh:?}"));
}

fn compare_steps(random: &mut Random, count: u64, seen: &mut Seen, report: &mut Report) {
    for _ in 0..count {
        let record = random.link_record();
        let raw = random.link_raw();
        compare_step(random, record, raw, seen, report);
    }
}

/// Runs over a few bytes from any record.
fn compare_runs(random: &mut Random, count: u64, seen: &mut Seen, report: &mut Report) {
    for number in 0..count {
        let record = random.link_record();
        let mut pair = Pair::new(record, random.arrays());
        let length = match random.below(8) {
            0 => 0,
            1 => random.below(400),
            _ => random.below(12),
        };
        let mixture = random.below(3);
        let mut raw = random.bytes(mixture, length);
        if length > 0 && random.one_in(2) {
            raw[0] = random.link_raw();
        }
        let what = || format!("run {number} from any record");
        compare_run(random, &mut pair, &raw, seen, report, &what);
    }
}

const LONG_RUNS: u64 = 2000;

/// Runs with many notes or much data: characters or load data, and an action now and
/// then.
fn compare_long(random: &mut Random, count: u64, seen: &mut Seen, report: &mut Report) {
    for number in 0..count {
        let length = match number % 100 {
            0 => 65_530 + random.below(5000),
            _ => 250 + random.below(1500),
        };
        let mut raw = escaped(&random.bytes(0, length));
        for _ in 0..random.below(4) {
            let action = random.action(1);
            let at = random.below(length / 2);
            // Not inside a pair.
            if raw[at..at + 2].iter().all(|&byte| byte != 0x9B) {
                raw.splice(at + 1..at + 1, action);
            }
        }
        let mut pair = Pair::fresh(random);
        let what = || format!("long run {number}");
        compare_run(random, &mut pair, &raw, seen, report, &what);
        // The same as load data.
        let mut load = vec![0x9B, 0xE0, 0, 0, 0, 0];
        load.extend(raw);
        let mut pair = Pair::fresh(random);
        let what = || format!("long load {number}");
        compare_run(random, &mut pair, &load, seen, report, &what);
    }
}

// ---- All of it ----

pub fn report() -> Report {
    Report::new(&PROPERTIES)
}

/// One input in `share` of each kind that is drawn at random.
fn compare_random(random: &mut Random, share: u64, seen: &mut Seen, report: &mut Report) {
    compare_fresh(report);
    compare_streams(random, STREAMS / share, seen, report);
    compare_actions(random, TALKS / share, report);
    compare_steps(random, STEPS / share, seen, report);
    compare_any_calls(random, STEPS / 2 / share, seen, report);
    compare_runs(random, STREAMS / share, seen, report);
    compare_long(random, LONG_RUNS / share, seen, report);
}

pub fn whole(random: &mut Random, report: &mut Report) {
    let mut seen = Seen::new();
    compare_random(random, 1, &mut seen, report);
    compare_each(random, &mut seen, report);
    compare_counts(random, &mut seen, report);
    compare_restarts(random, &mut seen, report);
    compare_states(random, &mut seen, report);
    compare_calls(random, &mut seen, report);
    seen.report(report);
}

pub fn share(random: &mut Random, share: u64, report: &mut Report) {
    compare_random(random, share, &mut Seen::new(), report);
}
