//! The host's end: the same actions, load data and streams are written by the library
//! and by the second program, and everything they give is compared. Then links of both
//! read the streams, and what they tell, and at which byte, is compared with what the
//! second program's model of a host says of them.

use crate::compare_reply::{Owned, encoding};
use crate::host::{self, Action, Event, Fault, Item, Order, Transfer};
use crate::inputs::{NESTS, open_of};
use crate::interface::{
    TubeLink, TubeRan, TubeTold, TubeWritten, tube_begin, tube_link, tube_link_step,
    tube_read_recorded, tube_run, tube_write_action, tube_write_data,
};
use crate::link::serial::SERIAL;
use crate::link::{self, CALLS, LENT, Link, NOTE, OSWORD, TRANSFERS, Told, WAIT_BLOCK};
use crate::random::Random;
use crate::report::{Report, Row, difference, every};

const GUARD: usize = 16;

// The kinds of actions.
const ESCAPE: u8 = 2;
const EVENT: u8 = 3;
const ADDRESS: u8 = 4;
const ERROR: u8 = 6;
const RESTART: u8 = 7;
const BLOCK: u8 = 9;
const EXECUTE: u8 = 10;
const LOAD: u8 = 11;
const SAVE: u8 = 12;
const END: u8 = 14;

const KINDS: [u8; 10] = [
    ESCAPE, EVENT, ADDRESS, ERROR, RESTART, BLOCK, EXECUTE, LOAD, SAVE, END,
];

/// Those that leave the open transfers and the call as they are.
const PLAIN: [u8; 5] = [ESCAPE, EVENT, ADDRESS, BLOCK, EXECUTE];

/// The index of a kind; of a number that is none, how many there are.
fn index(kind: u8) -> usize {
    let place = KINDS.iter().position(|&one| one == kind);
    place.unwrap_or(KINDS.len())
}

// ---- Properties ----

#[derive(Clone, Copy)]
enum Property {
    ActionAnswer,
    ActionLength,
    ActionEncoding,
    ActionBeyond,
    ActionRefused,
    ActionExact,
    ActionOneShort,
    ActionOneMore,
    ActionEmpty,
    ActionMuchLonger,
    DataAnswer,
    DataLength,
    DataEncoding,
    DataBeyond,
    DataRefused,
    DataExact,
    DataOneShort,
    DataOneMore,
    DataEmpty,
    DataMuchLonger,
    StreamRules,
    StreamRaw,
    StreamBegun,
    StreamTold,
    StreamReply,
    StreamIdle,
    StreamSecond,
    StreamLent,
    RunNotes,
    RunData,
    RunEnd,
    RunBeyond,
    RunIdle,
    Recorded,
    BrokenRule,
    BrokenTold,
    BrokenLink,
    BrokenLent,
    InputOrders,
    InputAnswers,
    InputRules,
    InputTwoRules,
    InputNumbers,
    InputLengths,
    InputData,
    InputCalls,
    InputOuts,
    InputDepths,
    InputActions,
    InputPlaces,
    InputBroken,
}

impl From<Property> for usize {
    fn from(property: Property) -> usize {
        property as usize
    }
}

#[rustfmt::skip]
const PROPERTIES: [Row<Property>; 51] = [
    (Property::ActionAnswer, "action: answer", 10 * ORDERS),
    (Property::ActionLength, "action: length", 10 * ORDERS),
    (Property::ActionEncoding, "action: the encoding", 4 * ORDERS),
    (Property::ActionBeyond, "action: bytes beyond the encoding stay", 4 * ORDERS),
    (Property::ActionRefused, "action: a refusal touches no byte", 4 * ORDERS),
    (Property::ActionExact, "action: a buffer just long enough", ORDERS),
    (Property::ActionOneShort, "action: a buffer one byte short", ORDERS),
    (Property::ActionOneMore, "action: a buffer one byte longer", ORDERS),
    (Property::ActionEmpty, "action: an empty buffer", ORDERS),
    (Property::ActionMuchLonger, "action: a buffer much longer", ORDERS),
    (Property::DataAnswer, "load data: answer", 10 * LISTS),
    (Property::DataLength, "load data: length", 10 * LISTS),
    (Property::DataEncoding, "load data: the encoding", 5 * LISTS),
    (Property::DataBeyond, "load data: bytes beyond the encoding stay", 5 * LISTS),
    (Property::DataRefused, "load data: a refusal touches no byte", 5 * LISTS),
    (Property::DataExact, "load data: a buffer just long enough", LISTS),
    (Property::DataOneShort, "load data: a buffer one byte short", LISTS - LISTS / 4),
    (Property::DataOneMore, "load data: a buffer one byte longer", LISTS),
    (Property::DataEmpty, "load data: an empty buffer", LISTS),
    (Property::DataMuchLonger, "load data: a buffer much longer", LISTS),
    (Property::StreamRules, "stream: it keeps the rules", STREAMS),
    (Property::StreamRaw, "stream: the library's writers give the second program's bytes", STREAMS),
    (Property::StreamBegun, "stream: the call waits, or is complete without a byte", STREAMS),
    (Property::StreamTold, "stream: what the library's link tells, and at which byte", STREAMS),
    (Property::StreamReply, "stream: the reply at the last byte, or characters behind an error", STREAMS),
    (Property::StreamIdle, "stream: the library's link ends idle, no transfer open", STREAMS),
    (Property::StreamSecond, "stream: the second program's link tells the same, ends idle", STREAMS),
    (Property::StreamLent, "stream: every byte lent to the links", STREAMS),
    (Property::RunNotes, "run in slices: the notes", 2 * STREAMS),
    (Property::RunData, "run in slices: the load data and blocks", 2 * STREAMS),
    (Property::RunEnd, "run in slices: where it ended, and with what", 2 * STREAMS),
    (Property::RunBeyond, "run in slices: room and data beyond stay", 2 * STREAMS),
    (Property::RunIdle, "run in slices: the link ends idle, no transfer open", STREAMS),
    (Property::Recorded, "recorded: the same notes, data and end", STREAMS),
    (Property::BrokenRule, "broken stream: the second program names the rule", BROKEN / 2),
    (Property::BrokenTold, "broken stream: both links tell the same", BROKEN),
    (Property::BrokenLink, "broken stream: both links end the same", BROKEN),
    (Property::BrokenLent, "broken stream: every byte lent to the links", BROKEN),
    (Property::InputOrders, "inputs: each number of an action", 1),
    (Property::InputAnswers, "inputs: each answer for each action", 1),
    (Property::InputRules, "inputs: each rule broken alone for each action", 1),
    (Property::InputTwoRules, "inputs: each two rules broken together", 1),
    (Property::InputNumbers, "inputs: each value of each number of each action", 1),
    (Property::InputLengths, "inputs: each length of texts and blocks", 1),
    (Property::InputData, "inputs: each length of load data, without and with escapes", 1),
    (Property::InputCalls, "inputs: each call with its reply, an error and a restart", 1),
    (Property::InputOuts, "inputs: each out length with its block and without", 1),
    (Property::InputDepths, "inputs: streams of each depth", 1),
    (Property::InputActions, "inputs: each action and load data in each nest of transfers", 1),
    (Property::InputPlaces, "inputs: actions in each place, beside escapes", 1),
    (Property::InputBroken, "inputs: each rule of a stream broken for each call", 1),
];

/// The properties that one writer's buffer counts for.
struct Group {
    answer: Property,
    length: Property,
    encoding: Property,
    beyond: Property,
    refused: Property,
    exact: Property,
    one_short: Property,
    one_more: Property,
    empty: Property,
    much_longer: Property,
}

const ACTION_GROUP: Group = Group {
    answer: Property::ActionAnswer,
    length: Property::ActionLength,
    encoding: Property::ActionEncoding,
    beyond: Property::ActionBeyond,
    refused: Property::ActionRefused,
    exact: Property::ActionExact,
    one_short: Property::ActionOneShort,
    one_more: Property::ActionOneMore,
    empty: Property::ActionEmpty,
    much_longer: Property::ActionMuchLonger,
};

const DATA_GROUP: Group = Group {
    answer: Property::DataAnswer,
    length: Property::DataLength,
    encoding: Property::DataEncoding,
    beyond: Property::DataBeyond,
    refused: Property::DataRefused,
    exact: Property::DataExact,
    one_short: Property::DataOneShort,
    one_more: Property::DataOneMore,
    empty: Property::DataEmpty,
    much_longer: Property::DataMuchLonger,
};

// ---- Orders ----

#[derive(Clone, Copy)]
enum Rule {
    Number,
    BlockLength,
    BlockGiven,
    TextGiven,
    TextEnd,
    LongText,
}

const RULES: [(Rule, &str); 6] = [
    (Rule::Number, "a number that is no action"),
    (Rule::BlockLength, "block length"),
    (Rule::BlockGiven, "block given"),
    (Rule::TextGiven, "text given"),
    (Rule::TextEnd, "&00 in the text"),
    (Rule::LongText, "long text"),
];

impl Rule {
    /// Whether an action of this kind has the rule.
    fn of(self, kind: u8) -> bool {
        match self {
            Rule::BlockLength => kind == BLOCK,
            Rule::BlockGiven => kind != BLOCK,
            Rule::TextGiven => kind != ERROR,
            Rule::TextEnd => kind == ERROR,
            Rule::Number | Rule::LongText => true,
        }
    }
}

/// Whether some action has both rules, the second one still there when the first is
/// broken.
fn together(first: Rule, second: Rule) -> bool {
    use Rule::*;
    let apart = matches!(
        (first, second),
        (Number, BlockLength | TextEnd)
            | (BlockLength, BlockGiven | TextEnd)
            | (BlockGiven, BlockLength)
            | (TextGiven, TextEnd)
            | (TextEnd, BlockLength | TextGiven)
            | (LongText, TextGiven)
    );
    !apart && first as usize != second as usize
}

impl Order {
    /// One that is written where there is room; its unused numbers are any.
    fn good(random: &mut Random, kind: u8, mixture: usize) -> Order {
        let mut numbers = [0; 4].map(|_: u8| random.mixed(mixture));
        if random.one_in(4) {
            numbers[0] = random.below(3) as u8;
        }
        let block_length = match kind {
            BLOCK => random.block_length() as usize,
            _ => 0,
        };
        let text_length = if kind == ERROR { random.length() } else { 0 };
        Order {
            kind,
            numbers,
            block: random.bytes(mixture, block_length),
            text: random.without(0x00, mixture, text_length),
        }
    }

    /// Breaks a rule; false where this action has no such rule.
    fn break_rule(&mut self, random: &mut Random, rule: Rule) -> bool {
        if !rule.of(self.kind) {
            return false;
        }
        let mixture = random.below(4);
        match rule {
            Rule::Number => {
                while index(self.kind) < KINDS.len() {
                    self.kind = match random.below(4) {
                        0 => random.byte(),
                        _ => random.below(20) as u8,
                    };
                }
            }
            Rule::BlockLength => {
                let length = match random.below(5) {
                    0 => 0,
                    1 => 128,
                    2 => 129 + random.below(300),
                    // A good length in its lowest bits.
                    3 => 1 + random.below(127) + (256 << random.below(9)),
                    _ => 128 << random.below(10),
                };
                self.block = random.bytes(mixture, length);
            }
            Rule::BlockGiven => {
                let length = match random.below(4) {
                    0 => 256 << random.below(9),
                    _ => 1 + random.length(),
                };
                self.block = random.bytes(mixture, length);
            }
            Rule::TextGiven => {
                if !self.text.is_empty() {
                    return false;
                }
                let length = random.length().max(1);
                self.text = random.bytes(mixture, length);
            }
            Rule::TextEnd => {
                if self.text.is_empty() {
                    self.text.push(0);
                }
                let last = self.text.len() - 1;
                let at = [0, last, random.below(last + 1)][random.below(3)];
                self.text[at] = 0x00;
            }
            Rule::LongText => {
                let length = match random.below(4) {
                    0 => 256 << random.below(9),
                    1 => 257 + random.below(300),
                    2 => 256 + random.below(3) + (256 << random.below(9)),
                    _ => 256,
                };
                let more = length - self.text.len().min(length);
                match random.below(4) {
                    0 => self.text.extend(vec![0; more]),
                    _ => self.text.extend(random.bytes(mixture, more)),
                }
            }
        }
        true
    }

    /// In words, long fields cut.
    fn shown(&self) -> String {
        let (block, text) = (self.block.len(), self.text.len());
        let mut cut = self.clone();
        cut.block.truncate(20);
        cut.text.truncate(20);
        format!("{cut:02X?}, block of {block} and text of {text} bytes")
    }
}

// ---- What the inputs were ----

/// The lengths of load data that each must come.
const DATA_LENGTHS: usize = 601;

struct Seen {
    /// By the number given for the action.
    orders: [u64; 256],
    /// By action, or none, and answer.
    answers: [[u64; 10]; KINDS.len() + 1],
    /// Broken alone, by action and rule.
    rules: [[u64; RULES.len()]; KINDS.len()],
    /// Two rules broken, the second one after the first.
    two_rules: [[u64; RULES.len()]; RULES.len()],
    /// Written, by action, number and value.
    numbers: [[[bool; 256]; 4]; KINDS.len()],
    texts: [bool; 256],
    blocks: [bool; 128],
    /// Load data written, by length, without and with escapes; and longer than two
    /// bytes can count.
    data: [[bool; 2]; DATA_LENGTHS],
    long_data: u64,
    /// Streams by call: with the reply, ended by an error, by a restart.
    calls: [[u64; 3]; CALLS as usize],
    /// Those of OSWORD by out length: with the reply, ended.
    outs: [[u64; 2]; 256],
    /// By the most transfers that are open.
    depths: [u64; 1 + TRANSFERS],
    /// Actions, and load data, by the open transfers before.
    actions: [[u64; KINDS.len() + 1]; NESTS],
    /// As `PLACES` says.
    places: [u64; PLACES.len()],
    /// By call and rule.
    broken: [[u64; FAULTS.len()]; CALLS as usize],
}

const PLACES: [&str; 8] = [
    "actions before the first reply byte",
    "actions between reply bytes",
    "actions behind an error or restart",
    "transfers behind an error or restart",
    "actions between two reply bytes &9B",
    "load data &9B",
    "256 load bytes with nothing between",
    "replies with nothing between",
];

/// The number of the open transfers, the innermost last.
fn nest(open: &[Transfer]) -> usize {
    let outer = |outer: usize, &transfer: &Transfer| 2 * outer + 1 + transfer as usize;
    open.iter().fold(0, outer)
}

impl Seen {
    fn new() -> Box<Seen> {
        Box::new(Seen {
            orders: [0; 256],
            answers: [[0; 10]; KINDS.len() + 1],
            rules: [[0; RULES.len()]; KINDS.len()],
            two_rules: [[0; RULES.len()]; RULES.len()],
            numbers: [[[false; 256]; 4]; KINDS.len()],
            texts: [false; 256],
            blocks: [false; 128],
            data: [[false; 2]; DATA_LENGTHS],
            long_data: 0,
            calls: [[0; 3]; CALLS as usize],
            outs: [[0; 2]; 256],
            depths: [0; 1 + TRANSFERS],
            actions: [[0; KINDS.len() + 1]; NESTS],
            places: [0; PLACES.len()],
            broken: [[0; FAULTS.len()]; CALLS as usize],
        })
    }

    /// Notes what was written into a buffer.
    fn job(&mut self, job: Job, answer: u8) {
        match job {
            Job::Action(order) => self.order(order, answer),
            Job::Data(bytes) if answer == 0 => {
                self.long_data += (bytes.len() > 65_536) as u64;
                if let Some(lengths) = self.data.get_mut(bytes.len()) {
                    lengths[bytes.contains(&0x9B) as usize] = true;
                }
            }
            Job::Data(_) => {}
        }
    }

    fn order(&mut self, order: &Order, answer: u8) {
        let kind = index(order.kind);
        self.orders[order.kind as usize] += 1;
        self.answers[kind][answer as usize] += 1;
        if answer != 0 {
            return;
        }
        for (values, &number) in self.numbers[kind].iter_mut().zip(&order.numbers) {
            values[number as usize] = true;
        }
        match order.kind {
            ERROR => self.texts[order.text.len()] = true,
            BLOCK => self.blocks[order.block.len()] = true,
            _ => {}
        }
    }

    /// Notes a stream that keeps the rules.
    fn stream(&mut self, stream: &Stream) {
        let Stream { items, .. } = stream;
        let (call, out_length) = stream.kind();
        let (mut open, mut depth, mut ended) = (Vec::new(), 0, None);
        let (mut replied, mut loaded) = (0, 0);
        for (at, item) in items.iter().enumerate() {
            let inside = nest(&open);
            let action = match item {
                Item::Reply(_) => {
                    replied += 1;
                    continue;
                }
                Item::Load(byte) => {
                    loaded += 1;
                    self.actions[inside][KINDS.len()] += 1;
                    self.places[5] += (*byte == 0x9B) as u64;
                    self.places[6] += (loaded == 256) as u64;
                    continue;
                }
                Item::Action(action) => action,
            };
            loaded = 0;
            let kind = action.order().kind;
            self.actions[inside][index(kind)] += 1;
            self.places[if replied == 0 { 0 } else { 1 }] += 1;
            if ended.is_some() {
                self.places[2] += 1;
                self.places[3] += matches!(kind, LOAD | SAVE) as u64;
            }
            let escape = Some(&Item::Reply(0x9B));
            let before = at.checked_sub(1).and_then(|before| items.get(before));
            self.places[4] += (before == escape && items.get(at + 1) == escape) as u64;
            match action {
                Action::Load(_) => open.push(Transfer::Load),
                Action::Save(_) => open.push(Transfer::Save),
                Action::End => drop(open.pop()),
                Action::Error(number, text) => {
                    open.clear();
                    let restart = *number == 0 && text.is_empty();
                    ended = ended.or(Some(if restart { 2 } else { 1 }));
                }
                Action::Restart => {
                    open.clear();
                    ended = ended.or(Some(2));
                }
                _ => {}
            }
            depth = depth.max(open.len());
        }
        self.depths[depth] += 1;
        self.places[7] += (items.len() == replied) as u64;
        self.calls[call as usize][ended.unwrap_or(0)] += 1;
        if call == OSWORD {
            self.outs[out_length as usize][ended.is_some() as usize] += 1;
        }
    }

    fn report(&self, report: &mut Report) {
        let few = (0..256).find(|&kind| self.orders[kind] < 1000);
        let few = few.map(|kind| format!("actions with the number {kind}"));
        report.need(Property::InputOrders, few);
        report.need(Property::InputAnswers, self.few_answers());
        let few = every(1, KINDS.len(), RULES.len())
            .find(|&(_, kind, rule)| RULES[rule].0.of(KINDS[kind]) && self.rules[kind][rule] < 300);
        let few = few.map(|(_, kind, rule)| format!("with {}, {}", RULES[rule].1, KINDS[kind]));
        report.need(Property::InputRules, few);
        let few = every(1, RULES.len(), RULES.len()).find(|&(_, first, second)| {
            together(RULES[first].0, RULES[second].0) && self.two_rules[first][second] < 8
        });
        let few = few
            .map(|(_, first, second)| format!("with {}, then {}", RULES[first].1, RULES[second].1));
        report.need(Property::InputTwoRules, few);
        // The numbers that an action does not have come too.
        let few = every(KINDS.len(), 4, 256)
            .find(|&(kind, number, value)| !self.numbers[kind][number][value]);
        let few = few.map(|(kind, number, value)| {
            format!("actions {} with {value} as number {number}", KINDS[kind])
        });
        report.need(Property::InputNumbers, few);
        let text = (0..256).find(|&length| !self.texts[length]);
        let block = (1..128).find(|&length| !self.blocks[length]);
        let text = text.map(|length| format!("texts of {length} bytes"));
        let few = text.or(block.map(|length| format!("blocks of {length} bytes")));
        report.need(Property::InputLengths, few);
        let few = every(1, DATA_LENGTHS, 2)
            .find(|&(_, length, escape)| !self.data[length][escape] && (length, escape) != (0, 1));
        let few =
            few.map(|(_, length, escape)| format!("load data of {length} bytes, escapes {escape}"));
        let long = self.long_data < 10;
        let few = few.or(long.then(|| "load data of over 65,536 bytes".to_string()));
        report.need(Property::InputData, few);
        self.report_streams(report);
    }

    fn few_answers(&self) -> Option<String> {
        const ANSWERS: [usize; 4] = [0, 6, 8, 9];
        let few = every(1, KINDS.len() + 1, 4).find(|&(_, kind, at)| {
            let possible = kind < KINDS.len() || matches!(ANSWERS[at], 6 | 9);
            possible && self.answers[kind][ANSWERS[at]] < 1000
        });
        few.map(|(_, kind, at)| format!("answers {} for action {kind} of ten", ANSWERS[at]))
    }

    fn report_streams(&self, report: &mut Report) {
        const ENDS: [&str; 3] = ["with the reply", "with an error", "with a restart"];
        let few = every(1, CALLS as usize, 3).find(|&(_, call, end)| self.calls[call][end] < 200);
        let few = few.map(|(_, call, end)| format!("streams to call {call} {}", ENDS[end]));
        report.need(Property::InputCalls, few);
        let few = every(1, 256, 2).find(|&(_, out_length, end)| {
            // Nothing can be sent where there is no reply byte.
            (out_length, end) != (0, 1) && self.outs[out_length][end] < 2
        });
        let few = few.map(|(_, out_length, end)| {
            format!("streams to OSWORD with out length {out_length}, ended {end}")
        });
        report.need(Property::InputOuts, few);
        let few = (0..=TRANSFERS).find(|&depth| self.depths[depth] < STREAMS / 100);
        let few = few.map(|depth| format!("streams with {depth} transfers open"));
        report.need(Property::InputDepths, few);
        let few = every(1, NESTS, KINDS.len() + 1).find(|&(_, nest, action)| {
            let open = open_of(nest as u8);
            let possible = match KINDS.get(action) {
                Some(&LOAD | &SAVE) => open[TRANSFERS - 1].is_none(),
                Some(&END) => nest != 0,
                Some(_) => true,
                None => open[0] == Some(link::Transfer::Load),
            };
            possible && self.actions[nest][action] < 40
        });
        let few = few.map(|(_, nest, action)| match KINDS.get(action) {
            Some(kind) => format!("actions {kind} in nest {nest}"),
            None => format!("load data in nest {nest}"),
        });
        report.need(Property::InputActions, few);
        let few = (0..PLACES.len()).find(|&place| self.places[place] < 100);
        report.need(
            Property::InputPlaces,
            few.map(|place| PLACES[place].to_string()),
        );
        let few = every(1, CALLS as usize, FAULTS.len())
            .find(|&(_, call, fault)| self.broken[call][fault] < 50);
        let few = few.map(|(_, call, fault)| {
            format!("streams to call {call} that break {:?}", FAULTS[fault])
        });
        report.need(Property::InputBroken, few);
    }
}

// ---- Writing ----

/// Actions and load data written at random, besides those of `compare_each`.
const ORDERS: u64 = 150_000;
const LISTS: u64 = 20_000;

/// What is written.
#[derive(Clone, Copy)]
enum Job<'a> {
    Action(&'a Order),
    Data(&'a [u8]),
}

impl Job<'_> {
    /// Calls the library, lending the bytes of `out` between the guards.
    fn library(&self, out: &mut [u8]) -> TubeWritten {
        let room = out.len() - 2 * GUARD;
        let place = out[GUARD..].as_mut_ptr();
        match self {
            Job::Action(order) => {
                let [first, second, third, fourth] = order.numbers;
                unsafe {
                    tube_write_action(
                        order.kind,
                        first,
                        second,
                        third,
                        fourth,
                        order.block.as_ptr(),
                        order.block.len(),
                        order.text.as_ptr(),
                        order.text.len(),
                        place,
                        room,
                    )
                }
            }
            Job::Data(bytes) => unsafe {
                tube_write_data(bytes.as_ptr(), bytes.len(), place, room)
            },
        }
    }

    fn second(&self, out: &mut [u8]) -> Result<usize, u8> {
        match self {
            Job::Action(order) => order.write(out),
            Job::Data(bytes) => host::write_data(bytes, out),
        }
    }

    /// The length of the encoding, where there is one.
    fn size(&self) -> Option<usize> {
        match self {
            Job::Action(order) => order.action().ok().map(|action| action.encode().len()),
            Job::Data(bytes) => Some(host::encode_data(bytes).len()),
        }
    }

    /// What the library writes; nothing where it refuses.
    fn library_bytes(&self) -> Vec<u8> {
        let mut out = vec![0; GUARD + self.size().unwrap_or(0) + GUARD];
        let written = self.library(&mut out);
        let end = GUARD + written.length;
        out.get(GUARD..end).unwrap_or(&[]).to_vec()
    }

    fn group(&self) -> &'static Group {
        match self {
            Job::Action(_) => &ACTION_GROUP,
            Job::Data(_) => &DATA_GROUP,
        }
    }

    fn shown(&self) -> String {
        match self {
            Job::Action(order) => order.shown(),
            Job::Data(bytes) => {
                let start = &bytes[..bytes.len().min(40)];
                format!("{} bytes {start:02X?}", bytes.len())
            }
        }
    }
}

/// Writes one job into buffers of many lengths on both and compares.
fn compare_job(random: &mut Random, job: Job, name: &str, seen: &mut Seen, report: &mut Report) {
    let group = job.group();
    // What is refused has no size; its buffers are of any length.
    let size = job.size().unwrap_or_else(|| random.below(600));
    let lengths = [
        (Some(size), group.exact),
        (size.checked_sub(1), group.one_short),
        (Some(size + 1), group.one_more),
        (Some(0), group.empty),
        (Some(size + 100 + random.below(400)), group.much_longer),
    ];
    for (lent, property) in lengths {
        let Some(lent) = lent else {
            continue;
        };
        let good = compare_buffer(random, job, lent, name, seen, report);
        report.check(property, good, || {
            format!(
                "{name} with {lent} bytes lent, size {size}: {}",
                job.shown()
            )
        });
    }
    // Every length around the size, and any one below it.
    let around = size.saturating_sub(3)..=size + 3;
    for lent in around.chain([random.below(size + 1)]) {
        compare_buffer(random, job, lent, name, seen, report);
    }
}

/// One buffer; true where all is equal.
fn compare_buffer(
    random: &mut Random,
    job: Job,
    lent: usize,
    name: &str,
    seen: &mut Seen,
    report: &mut Report,
) -> bool {
    let mut before = vec![0; GUARD + lent + GUARD];
    random.fill(&mut before);
    let (mut out, mut expected) = (before.clone(), before.clone());
    let library = job.library(&mut out);
    let second = job.second(&mut expected[GUARD..GUARD + lent]);
    let (length, answer) = match second {
        Ok(length) => (length, 0),
        Err(number) => (0, number),
    };
    seen.job(job, answer);

    let group = job.group();
    let what = || {
        format!(
            "{library:?}, second program {second:?}: {name} with {lent} bytes lent, {}",
            job.shown()
        )
    };
    report.check(group.answer, library.answer == answer, what);
    report.check(group.length, library.length == length, what);
    let at = || format!("{}: {}", difference(&out, &expected, GUARD), what());
    if answer == 0 {
        let whole = GUARD..GUARD + length;
        let equal = out[whole.clone()] == expected[whole.clone()];
        report.check(group.encoding, equal, at);
        let beyond = out[..GUARD] == before[..GUARD] && out[whole.end..] == before[whole.end..];
        report.check(group.beyond, beyond, at);
    } else {
        report.check(group.refused, out == before, at);
    }
    library.answer == answer && library.length == length && out == expected
}

fn compare_orders(random: &mut Random, count: u64, seen: &mut Seen, report: &mut Report) {
    for number in 0..count {
        let (kind, mixture) = (random.below(KINDS.len()), random.below(4));
        let mut order = Order::good(random, KINDS[kind], mixture);
        match random.below(16) {
            0..8 => {}
            8..14 => {
                let rule = random.below(RULES.len());
                if order.break_rule(random, RULES[rule].0) {
                    seen.rules[kind][rule] += 1;
                }
            }
            14 => {
                for _ in 0..2 + random.below(2) {
                    let rule = random.below(RULES.len());
                    order.break_rule(random, RULES[rule].0);
                }
            }
            _ => order.kind = random.byte(),
        }
        let name = format!("action {number}");
        compare_job(random, Job::Action(&order), &name, seen, report);
    }
}

fn compare_lists(random: &mut Random, count: u64, seen: &mut Seen, report: &mut Report) {
    for number in 0..count {
        let length = match random.below(64) {
            0 => random.below(5000),
            1 => [255, 256, 257, 4095, 4096, 4097][random.below(6)],
            2 if number % 16 == 0 => 65_530 + random.below(3000),
            _ => random.below(60),
        };
        let bytes = match random.below(5) {
            4 => random.without(0x9B, 1, length),
            mixture => random.bytes(mixture, length),
        };
        let name = format!("load data {number}");
        compare_job(random, Job::Data(&bytes), &name, seen, report);
    }
}

/// Every number of an action with blocks and texts of many lengths, with and without
/// the bytes at which rules change; every value of every number; every length; every
/// place of a &00; every two rules broken together; every room.
fn compare_each(random: &mut Random, seen: &mut Seen, report: &mut Report) {
    const LENGTHS: [usize; 9] = [0, 1, 2, 126, 127, 128, 254, 255, 256];
    let mut compare = |random: &mut Random, order: Order, name: &str| {
        compare_job(random, Job::Action(&order), name, seen, report);
    };
    for (kind, block, text) in every(256, LENGTHS.len(), LENGTHS.len()) {
        for mixture in [0, 1] {
            let mut order = Order::good(random, kind as u8, mixture);
            order.block = random.bytes(mixture, LENGTHS[block]);
            order.text = match mixture {
                0 => random.without(0x00, 2, LENGTHS[text]),
                _ => random.bytes(1, LENGTHS[text]),
            };
            compare(random, order, "each number, block and text");
        }
    }
    for (kind, number, value) in every(KINDS.len(), 4, 256) {
        let mut order = Order::good(random, KINDS[kind], 1);
        order.numbers[number] = value as u8;
        compare(random, order, "each value");
    }
    for (length, mixture, _) in every(301, 4, 1) {
        let mut order = Order::good(random, ERROR, mixture);
        order.text = random.without(0x00, mixture, length);
        compare(random, order.clone(), "each text length");
        if length < 256 {
            order.text = vec![length as u8];
            compare(random, order.clone(), "each text byte");
            order.text = random.without(0x00, mixture, 256);
            order.text[length] = 0x00;
            compare(random, order.clone(), "each place of a &00, long text");
            order.text.truncate(255);
            compare(random, order, "each place of a &00");
        }
        let mut order = Order::good(random, BLOCK, mixture);
        order.block = random.bytes(mixture, length);
        compare(random, order, "each block length");
    }
    for kind in KINDS {
        for mixture in 0..4 {
            let mut order = Order::good(random, kind, mixture);
            match kind {
                ERROR => order.text = random.without(0x00, mixture, 255),
                BLOCK => order.block = random.bytes(mixture, 127),
                _ => {}
            }
            let job = Job::Action(&order);
            for lent in 0..=job.size().unwrap_or(0) + 8 {
                compare_buffer(random, job, lent, "each room", seen, report);
            }
        }
        for (_, first, second) in every(16, RULES.len(), RULES.len()) {
            let mut order = Order::good(random, kind, 1);
            let broken = order.break_rule(random, RULES[first].0);
            if broken && order.break_rule(random, RULES[second].0) {
                seen.two_rules[first][second] += 1;
            }
            compare_job(random, Job::Action(&order), "two rules", seen, report);
        }
    }
    for (length, mixture, _) in every(DATA_LENGTHS, 5, 1) {
        let mut bytes = match mixture {
            4 => random.without(0x9B, 0, length),
            _ => random.bytes(mixture, length),
        };
        if mixture < 4 && length > 0 {
            bytes[random.below(length)] = 0x9B;
        }
        compare_job(random, Job::Data(&bytes), "each length", seen, report);
    }
    for length in 65_530..65_545 {
        let bytes = random.bytes(length % 4, length);
        compare_job(random, Job::Data(&bytes), "each long length", seen, report);
    }
}

// ---- Streams ----

/// Streams that keep the rules, and streams that break one, at random.
const STREAMS: u64 = 100_000;
const BROKEN: u64 = 60_000;

/// Sends items one behind the other, so that they keep the rules.
struct Sender<'a> {
    random: &'a mut Random,
    mixture: usize,
    /// Errors and restarts are sent too.
    ends: bool,
    items: Vec<Item>,
    open: Vec<Transfer>,
}

impl Sender<'_> {
    fn new(random: &mut Random, ends: bool) -> Sender<'_> {
        let mixture = random.below(4);
        Sender {
            random,
            mixture,
            ends,
            items: Vec::new(),
            open: Vec::new(),
        }
    }

    fn send(&mut self, kind: u8) {
        let order = Order::good(self.random, kind, self.mixture);
        let action = order.action().expect("a good order");
        self.items.push(Item::Action(action));
        match kind {
            LOAD => self.open.push(Transfer::Load),
            SAVE => self.open.push(Transfer::Save),
            END => drop(self.open.pop()),
            ERROR | RESTART => self.open.clear(),
            _ => {}
        }
    }

    fn send_one(&mut self, kinds: &[u8]) {
        let kind = kinds[self.random.below(kinds.len())];
        self.send(kind);
    }

    fn in_load(&self) -> bool {
        self.open.last() == Some(&Transfer::Load)
    }

    fn send_data(&mut self) {
        let length = self.random.data_length();
        let bytes = self.random.bytes(self.mixture, length);
        self.items.extend(bytes.into_iter().map(Item::Load));
    }

    /// An action or load data.
    fn step(&mut self) {
        match self.random.below(16) {
            0..5 if self.open.len() < TRANSFERS => self.send_one(&[LOAD, SAVE]),
            5..8 if self.in_load() => self.send_data(),
            8 if !self.open.is_empty() => self.send(END),
            9 | 10 if self.ends => self.send_one(&[ERROR, ERROR, RESTART]),
            _ => self.send_one(&PLAIN),
        }
    }

    /// Closes what is open.
    fn close(&mut self) {
        while !self.open.is_empty() {
            match self.random.below(12) {
                0 if self.ends => self.send_one(&[ERROR, RESTART]),
                1..4 if self.in_load() => self.send_data(),
                _ => self.send(END),
            }
        }
    }

    /// What stands before a reply byte.
    fn send_some(&mut self) {
        for _ in 0..1 + self.random.below(12) {
            self.step();
        }
        self.close();
    }
}

/// A reply, and what is sent with it.
struct Stream {
    reply: Owned,
    items: Vec<Item>,
}

impl Stream {
    /// What is sent with a reply, actions before some of its bytes.
    fn new(random: &mut Random, reply: Owned, ends: bool) -> Stream {
        let plain = reply.bytes();
        let often = match random.below(16) {
            0 => usize::MAX,
            _ => 1 + random.below(plain.len().max(1)),
        };
        let mut sender = Sender::new(random, ends);
        for byte in plain {
            if sender.random.one_in(often) {
                sender.send_some();
            }
            sender.items.push(Item::Reply(byte));
        }
        let items = sender.items;
        Stream { reply, items }
    }

    fn random(random: &mut Random) -> Stream {
        let call = random.below(CALLS as usize) as u8;
        let reply = Owned::good(random, SERIAL, call);
        let ends = random.one_in(3);
        Stream::new(random, reply, ends)
    }

    /// The call and its out length.
    fn kind(&self) -> (u8, u8) {
        (self.reply.call, self.reply.out_length)
    }

    /// The raw bytes as the library writes them: the reply is cut between its data
    /// bytes, load data is written in pieces.
    fn library_raw(&self, random: &mut Random) -> Vec<u8> {
        let size = host::encode_data(&self.reply.bytes()).len();
        let reply = encoding(&self.reply, size);
        let (mut raw, mut at, mut replied) = (Vec::new(), 0, 0);
        while let Some(item) = self.items.get(at) {
            at += 1;
            match item {
                Item::Reply(_) => {
                    let end = replied + item.raw().len();
                    raw.extend(&reply[replied..end]);
                    replied = end;
                }
                Item::Action(action) => raw.extend(Job::Action(&action.order()).library_bytes()),
                Item::Load(byte) => {
                    let mut piece = vec![*byte];
                    while let Some(Item::Load(byte)) = self.items.get(at)
                        && !random.one_in(20)
                    {
                        piece.push(*byte);
                        at += 1;
                    }
                    raw.extend(Job::Data(&piece).library_bytes());
                }
            }
        }
        raw
    }

    fn shown(&self, raw: &[u8]) -> String {
        let start = &raw[..raw.len().min(120)];
        format!(
            "{}, {} raw bytes {start:02X?}",
            self.reply.shown(),
            raw.len()
        )
    }
}

/// What a link says of a raw byte, where it does not need more.
#[derive(Clone, PartialEq, Debug)]
enum Said {
    Event(Event),
    Refused(u8),
    /// An answer that no link gives: its kind, values and length.
    Strange(u32, [u8; 4], usize),
}

/// Bytes lent for the reply and for an action.
type Lent = [[u8; LENT]; 2];

fn library_said(told: &TubeTold, [reply, own]: &Lent) -> Option<Said> {
    let values = [told.first, told.second, told.third, told.fourth];
    let address = u32::from_be_bytes(values);
    let length = told.length;
    let event = match (told.kind, values, length) {
        (0, [0, 0, 0, 0], 0) => return None,
        (1, [byte, 0, 0, 0], 0) => Event::Character(byte),
        (2, [0, 0, 0, 0], 0) => Event::Action(Action::Escape(false)),
        (2, [1, 0, 0, 0], 0) => Event::Action(Action::Escape(true)),
        (3, [y, x, a, 0], 0) => Event::Action(Action::Event(y, x, a)),
        (4, _, 0) => Event::Action(Action::Address(address)),
        (5, [0, 0, 0, 0], 1..=LENT) => Event::Reply(reply[..length].to_vec()),
        (6, [number, 0, 0, 0], 0..=255) => {
            Event::Action(Action::Error(number, own[1..=length].to_vec()))
        }
        (7, [0, 0, 0, 0], 0) => Event::Action(Action::Restart),
        (8, [number, 0, 0, 0], 0) => return Some(Said::Refused(number)),
        (9, [0, 0, 0, 0], 1..=127) => Event::Action(Action::Block(own[..length].to_vec())),
        (10, _, 0) => Event::Action(Action::Execute(address)),
        (11, _, 0) => Event::Action(Action::Load(address)),
        (12, _, 0) => Event::Action(Action::Save(address)),
        (13, [byte, 0, 0, 0], 0) => Event::Data(byte),
        (14, [0, 0, 0, 0], 0) => Event::Closed(Transfer::Load),
        (14, [1, 0, 0, 0], 0) => Event::Closed(Transfer::Save),
        (kind, ..) => return Some(Said::Strange(kind, values, length)),
    };
    Some(Said::Event(event))
}

fn second_said(told: Told, [reply, own]: &Lent) -> Option<Said> {
    let event = match told {
        Told::More => return None,
        Told::Refused(number) => return Some(Said::Refused(number)),
        Told::Character(byte) => Event::Character(byte),
        Told::Data(byte) => Event::Data(byte),
        Told::Reply(length) => Event::Reply(reply[..length].to_vec()),
        Told::Closed(link::Transfer::Load) => Event::Closed(Transfer::Load),
        Told::Closed(link::Transfer::Save) => Event::Closed(Transfer::Save),
        Told::Escape(on) => Event::Action(Action::Escape(on)),
        Told::Event([y, x, a]) => Event::Action(Action::Event(y, x, a)),
        Told::Address(bytes) => Event::Action(Action::Address(u32::from_be_bytes(bytes))),
        Told::Execute(bytes) => Event::Action(Action::Execute(u32::from_be_bytes(bytes))),
        Told::Opened(link::Transfer::Load, bytes) => {
            Event::Action(Action::Load(u32::from_be_bytes(bytes)))
        }
        Told::Opened(link::Transfer::Save, bytes) => {
            Event::Action(Action::Save(u32::from_be_bytes(bytes)))
        }
        Told::Block(length) => Event::Action(Action::Block(own[..length].to_vec())),
        Told::Error { number, length } => {
            Event::Action(Action::Error(number, own[1..=length].to_vec()))
        }
        Told::Restart => Event::Action(Action::Restart),
    };
    Some(Said::Event(event))
}

/// What a fresh link with the call begun said of raw bytes, each with the index of its
/// byte; the link and the lent bytes that it left.
struct Heard {
    said: Vec<(usize, Said)>,
    link: Link,
    lent: Lent,
}

/// The library's link; its record at the end too.
fn library_hears((call, out_length): (u8, u8), raw: &[u8], lent: &Lent) -> (Heard, TubeLink) {
    let mut lent = *lent;
    let mut record = unsafe { tube_begin(tube_link(), call, out_length) }.link;
    let mut said = Vec::new();
    for (at, &byte) in raw.iter().enumerate() {
        let [reply, own] = &mut lent;
        let told = unsafe { tube_link_step(record, byte, reply.as_mut_ptr(), own.as_mut_ptr()) };
        record = told.link;
        said.extend(library_said(&told, &lent).map(|one| (at, one)));
    }
    let mut link = record.to_second();
    if link.wait != WAIT_BLOCK {
        // Where no OSWORD waits it stays as it was.
        link.out_length = 0;
    }
    (Heard { said, link, lent }, record)
}

/// The second program's link.
fn second_hears((call, out_length): (u8, u8), raw: &[u8], lent: &Lent) -> Heard {
    let mut lent = *lent;
    let mut link = Link::new();
    link.begin(call, out_length);
    let mut said = Vec::new();
    for (at, &byte) in raw.iter().enumerate() {
        let [reply, own] = &mut lent;
        let told = link.step(byte, reply, own);
        said.extend(second_said(told, &lent).map(|one| (at, one)));
    }
    Heard { said, link, lent }
}

impl Random {
    fn link_lent(&mut self) -> Lent {
        let mut lent = [[0; LENT]; 2];
        for bytes in &mut lent {
            self.fill(bytes);
        }
        lent
    }
}

/// The first difference of two lists.
fn first_difference(library: &[(usize, Said)], expected: &[(usize, Said)]) -> String {
    let longer = library.len().max(expected.len());
    let at = (0..longer).find(|&at| library.get(at) != expected.get(at));
    match at {
        None => "the same".to_string(),
        Some(at) => format!(
            "{:02X?}, expected {:02X?}",
            library.get(at),
            expected.get(at)
        ),
    }
}

/// The record of an idle link with no transfer open, where the call had this number and
/// out length: the out length of an OSWORD stays.
fn idle((call, out_length): (u8, u8)) -> TubeLink {
    let fresh = unsafe { tube_link() };
    TubeLink {
        out_length: if call == OSWORD { out_length } else { 0 },
        ..fresh
    }
}

/// A stream written by both, read byte by byte by both links, in slices by the
/// library's loop and as a whole by its reader of recordings.
fn compare_stream(
    random: &mut Random,
    stream: &Stream,
    name: &str,
    seen: &mut Seen,
    report: &mut Report,
) {
    let kind = stream.kind();
    let raw = host::raw(&stream.items);
    let what = || format!("{name}, {}", stream.shown(&raw));
    let kept = host::check(&stream.items);
    report.check(Property::StreamRules, kept.is_ok(), || {
        format!("{kept:?}: {}", what())
    });
    if kept.is_err() {
        return;
    }
    seen.stream(stream);
    let written = stream.library_raw(random);
    report.check(Property::StreamRaw, written == raw, || {
        let at = (0..raw.len()).find(|&at| written.get(at) != Some(&raw[at]));
        format!("{} bytes, at {at:?} they differ: {}", written.len(), what())
    });
    let begun = unsafe { tube_begin(tube_link(), kind.0, kind.1) };
    let complete = kind == (OSWORD, 0);
    let good = (begun.kind, begun.answer) == (complete as u8, 0);
    report.check(Property::StreamBegun, good, || {
        format!("{begun:?}: {}", what())
    });

    let events = host::told(&stream.items);
    let expected = |(at, event): &(usize, Event)| (*at, Said::Event(event.clone()));
    let expected: Vec<(usize, Said)> = events.iter().map(expected).collect();
    let lent = random.link_lent();
    let (library, record) = library_hears(kind, &raw, &lent);
    report.check(Property::StreamTold, library.said == expected, || {
        format!("{}: {}", first_difference(&library.said, &expected), what())
    });
    let good = keeps_reply(stream, &library.said, raw.len());
    report.check(Property::StreamReply, good, what);
    report.check(Property::StreamIdle, record == idle(kind), || {
        format!("{record:?}: {}", what())
    });
    let second = second_hears(kind, &raw, &lent);
    let good = second.said == expected && second.link == Link::new();
    report.check(Property::StreamSecond, good, || {
        format!("{}: {}", first_difference(&second.said, &expected), what())
    });
    report.check(Property::StreamLent, library.lent == second.lent, what);

    compare_runs(random, stream, &raw, &events, report);
    let good = compare_recorded(stream, &raw, &events);
    report.check(Property::Recorded, good, what);
}

/// Without an error or restart the reply is told at the last raw byte, once, and no
/// character; with one no reply is, and the reply bytes behind it are characters.
fn keeps_reply(stream: &Stream, said: &[(usize, Said)], length: usize) -> bool {
    let ends = |item: &Item| matches!(item, Item::Action(Action::Error(..) | Action::Restart));
    let byte = |item: &Item| match item {
        Item::Reply(byte) => Some(*byte),
        _ => None,
    };
    let (mut replies, mut characters) = (Vec::new(), Vec::new());
    for (at, one) in said {
        match one {
            Said::Event(Event::Reply(reply)) => replies.push((at + 1, reply.clone())),
            Said::Event(Event::Character(byte)) => characters.push(*byte),
            _ => {}
        }
    }
    match stream.items.iter().position(ends) {
        Some(end) => {
            let behind: Vec<u8> = stream.items[end..].iter().filter_map(byte).collect();
            replies.is_empty() && characters == behind
        }
        None if length == 0 => replies.is_empty() && characters.is_empty(),
        None => replies == [(length, stream.reply.bytes())] && characters.is_empty(),
    }
}

/// What the loop gives of a slice.
#[derive(PartialEq, Default, Debug)]
struct Part {
    notes: Vec<[u8; NOTE]>,
    data: Vec<u8>,
    /// The reply, error or restart that it ended with.
    end: Option<Said>,
    used: usize,
}

impl Part {
    /// Of the slice from the raw byte `from` to before `to`, as the model has it.
    fn expected(events: &[(usize, Event)], from: usize, to: usize) -> Part {
        let first = events.partition_point(|(at, _)| *at < from);
        let mut part = Part {
            used: to - from,
            ..Part::default()
        };
        for (at, event) in events[first..].iter().take_while(|(at, _)| *at < to) {
            if !part.note(event) {
                part.end = Some(Said::Event(event.clone()));
                part.used = at + 1 - from;
                break;
            }
        }
        part
    }

    /// Notes an event; false where it ends the loop.
    fn note(&mut self, event: &Event) -> bool {
        let with = |kind: u8, address: &u32| {
            let [a, b, c, d] = address.to_be_bytes();
            [kind, a, b, c, d]
        };
        let note = match event {
            Event::Character(byte) => [1, *byte, 0, 0, 0],
            Event::Data(byte) => {
                self.data.push(*byte);
                if let Some([13, count @ ..=254, ..]) = self.notes.last_mut() {
                    *count += 1;
                    return true;
                }
                [13, 1, 0, 0, 0]
            }
            Event::Closed(transfer) => [END, *transfer as u8, 0, 0, 0],
            Event::Action(Action::Escape(on)) => [ESCAPE, *on as u8, 0, 0, 0],
            Event::Action(Action::Event(y, x, a)) => [EVENT, *y, *x, *a, 0],
            Event::Action(Action::Address(address)) => with(ADDRESS, address),
            Event::Action(Action::Execute(address)) => with(EXECUTE, address),
            Event::Action(Action::Load(address)) => with(LOAD, address),
            Event::Action(Action::Save(address)) => with(SAVE, address),
            Event::Action(Action::Block(block)) => {
                self.data.extend(block);
                [BLOCK, block.len() as u8, 0, 0, 0]
            }
            Event::Action(Action::Error(..) | Action::Restart | Action::End) => return false,
            Event::Reply(_) => return false,
        };
        self.notes.push(note);
        true
    }

    /// As many notes and bytes as are said to be written.
    fn lists(room: &[u8], noted: usize, data: &[u8], stored: usize) -> (Vec<[u8; NOTE]>, Vec<u8>) {
        let notes = room.as_chunks::<NOTE>().0;
        let notes = notes[..noted.min(notes.len())].to_vec();
        (notes, data[..stored.min(data.len())].to_vec())
    }
}

/// The library's loop over slices, from the begun call to the last raw byte.
fn compare_runs(
    random: &mut Random,
    stream: &Stream,
    raw: &[u8],
    events: &[(usize, Event)],
    report: &mut Report,
) {
    let kind = stream.kind();
    let mut record = unsafe { tube_begin(tube_link(), kind.0, kind.1) }.link;
    let mut lent = random.link_lent();
    let mut from = 0;
    while from < raw.len() {
        let length = match random.below(5) {
            0 => random.below(4),
            1 => random.below(20),
            2 | 3 => random.below(300),
            _ => raw.len(),
        };
        let to = raw.len().min(from + length);
        let expected = Part::expected(events, from, to);
        let fill = random.byte();
        let more = random.below(3);
        let mut room = vec![fill; NOTE * (to - from) + more];
        let mut data = vec![fill; to - from + record.held as usize + more];
        let ran = run(record, &raw[from..to], &mut lent, &mut room, &mut data);
        let (notes, stored) = Part::lists(&room, ran.noted, &data, ran.stored);
        let found = Part {
            notes,
            data: stored,
            end: library_said(&ran.told, &lent),
            used: ran.used,
        };
        let what = || {
            format!(
                "{ran:?}, {found:02X?}, expected {expected:02X?}: from {from} to {to}, {}",
                stream.shown(raw)
            )
        };
        let counted = (ran.noted, ran.stored) == (expected.notes.len(), expected.data.len());
        let notes = counted && found.notes == expected.notes;
        report.check(Property::RunNotes, notes, what);
        let stored = counted && found.data == expected.data;
        report.check(Property::RunData, stored, what);
        let end = found.end == expected.end && found.used == expected.used;
        report.check(Property::RunEnd, end, what);
        let mut beyond = room.iter().skip(NOTE * expected.notes.len());
        let mut behind = data.iter().skip(expected.data.len());
        let stays = beyond.all(|&byte| byte == fill) && behind.all(|&byte| byte == fill);
        report.check(Property::RunBeyond, stays, what);
        if !(notes && stored && end) {
            return;
        }
        record = ran.told.link;
        from += ran.used;
    }
    report.check(Property::RunIdle, record == idle(kind), || {
        format!("{record:?}: {}", stream.shown(raw))
    });
}

fn run(
    record: TubeLink,
    raw: &[u8],
    [reply, own]: &mut Lent,
    room: &mut [u8],
    data: &mut [u8],
) -> TubeRan {
    unsafe {
        tube_run(
            record,
            raw.as_ptr(),
            raw.len(),
            reply.as_mut_ptr(),
            own.as_mut_ptr(),
            room.as_mut_ptr(),
            room.len(),
            data.as_mut_ptr(),
            data.len(),
        )
    }
}

/// The library's reader of a whole recorded reply gives what its loop is to give.
fn compare_recorded(stream: &Stream, raw: &[u8], events: &[(usize, Event)]) -> bool {
    let (call, out_length) = stream.kind();
    let (mut room, mut data) = (vec![0; NOTE * raw.len()], vec![0; raw.len()]);
    let mut out = [0; LENT];
    let recorded = unsafe {
        tube_read_recorded(
            call,
            out_length,
            raw.as_ptr(),
            raw.len(),
            room.as_mut_ptr(),
            room.len(),
            data.as_mut_ptr(),
            data.len(),
            out.as_mut_ptr(),
        )
    };
    let mut expected = Part::expected(events, 0, raw.len());
    if raw.is_empty() {
        expected.end = Some(Said::Event(Event::Reply(Vec::new())));
    }
    let (notes, stored) = Part::lists(&room, recorded.noted, &data, recorded.stored);
    let length = recorded.length;
    let end = match (recorded.kind, length) {
        (5, ..=LENT) => Event::Reply(out[..length].to_vec()),
        (6, ..=255) => {
            let text = out[1..=length].to_vec();
            Event::Action(Action::Error(recorded.number as u8, text))
        }
        (7, 0) => Event::Action(Action::Restart),
        _ => return false,
    };
    let found = Part {
        notes,
        data: stored,
        end: Some(Said::Event(end)),
        used: recorded.used,
    };
    found == expected
}

fn compare_streams(random: &mut Random, count: u64, seen: &mut Seen, report: &mut Report) {
    for number in 0..count {
        let stream = Stream::random(random);
        let name = format!("stream {number}");
        compare_stream(random, &stream, &name, seen, report);
    }
}

/// Every out length of OSWORD; every action and load data in every nest of transfers,
/// closed by ends, an error or a restart, before the first and the last byte of a reply
/// to every call.
fn compare_each_stream(random: &mut Random, seen: &mut Seen, report: &mut Report) {
    for (out_length, at, _) in every(256, 24, 1) {
        let mut reply = Owned::good(random, SERIAL, OSWORD);
        reply.out_length = out_length as u8;
        reply.block = random.bytes(at % 4, out_length);
        let stream = Stream::new(random, reply, at >= 8);
        compare_stream(random, &stream, "each out length", seen, report);
    }
    for (call, nest, action) in every(CALLS as usize, NESTS, KINDS.len() + 1) {
        let reply = Owned::good(random, SERIAL, call as u8);
        let plain = reply.bytes();
        let Some(last) = plain.len().checked_sub(1) else {
            continue;
        };
        let (early, ends) = (random.one_in(2), random.one_in(2));
        let mut sender = Sender::new(random, ends);
        for (at, byte) in plain.into_iter().enumerate() {
            if at == if early { 0 } else { last } {
                for transfer in open_of(nest as u8).into_iter().rev().flatten() {
                    let load = transfer == link::Transfer::Load;
                    sender.send(if load { LOAD } else { SAVE });
                }
                match KINDS.get(action) {
                    Some(&LOAD | &SAVE) if sender.open.len() == TRANSFERS => {}
                    Some(&END) if nest == 0 => {}
                    Some(&kind) => sender.send(kind),
                    None if sender.in_load() => sender.send_data(),
                    None => {}
                }
                sender.close();
            }
            sender.items.push(Item::Reply(byte));
        }
        let items = sender.items;
        let stream = Stream { reply, items };
        compare_stream(random, &stream, "each nest and action", seen, report);
    }
}

// ---- Streams that break a rule ----

/// The rules of a stream; the last one is of its raw bytes: an action inside a doubled
/// escape.
const FAULTS: [Option<Fault>; 6] = [
    Some(Fault::LeftOpen),
    Some(Fault::NoneOpen),
    Some(Fault::NotInLoad),
    Some(Fault::TooDeep),
    Some(Fault::Behind),
    None,
];

impl Sender<'_> {
    /// Sends what breaks a rule where no transfer is open before a reply byte, or
    /// behind the last one.
    fn send_broken(&mut self, fault: Fault) {
        let transfers = match fault {
            Fault::LeftOpen => 1 + self.random.below(TRANSFERS),
            Fault::NotInLoad => self.random.below(TRANSFERS),
            Fault::TooDeep => TRANSFERS + 1,
            _ => 0,
        };
        for _ in 0..transfers {
            self.send_one(&[LOAD, SAVE]);
        }
        match fault {
            Fault::LeftOpen if self.in_load() => self.send_data(),
            Fault::NoneOpen => self.send(END),
            Fault::NotInLoad => {
                if self.in_load() {
                    self.send(SAVE);
                }
                let byte = self.random.mixed(self.mixture);
                self.items.push(Item::Load(byte));
            }
            Fault::Behind => self.send_some(),
            _ => {}
        }
    }
}

/// The raw bytes of a stream with one rule broken, and what its items break; nothing
/// where this stream cannot break it.
fn broken(random: &mut Random, stream: &Stream, fault: usize) -> Option<(Vec<u8>, Option<Fault>)> {
    let items = &stream.items;
    let ends = random.one_in(4);
    let mut sender = Sender::new(random, ends);
    let Some(fault) = FAULTS[fault] else {
        sender.send_some();
        let action = host::raw(&sender.items);
        let (mut pairs, mut sent) = (Vec::new(), 0);
        for item in items {
            if matches!(item, Item::Reply(0x9B) | Item::Load(0x9B)) {
                pairs.push(sent + 1);
            }
            sent += item.raw().len();
        }
        let at = *pairs.get(sender.random.below(pairs.len().max(1)))?;
        let mut raw = host::raw(items);
        raw.splice(at..at, action);
        return Some((raw, None));
    };
    let mut places: Vec<usize> = (0..items.len())
        .filter(|&at| matches!(items[at], Item::Reply(_)))
        .collect();
    if fault == Fault::Behind {
        places = vec![items.len()];
    }
    let at = *places.get(sender.random.below(places.len().max(1)))?;
    sender.send_broken(fault);
    let mut items = items.clone();
    items.splice(at..at, sender.items);
    Some((host::raw(&items), host::check(&items).err()))
}

/// Both links read a stream that breaks a rule, and what is left of it; they must agree.
fn compare_broken(random: &mut Random, count: u64, seen: &mut Seen, report: &mut Report) {
    let mut number = 0;
    while number < count {
        let stream = Stream::random(random);
        let fault = random.below(FAULTS.len());
        let Some((raw, found)) = broken(random, &stream, fault) else {
            continue;
        };
        number += 1;
        let kind = stream.kind();
        seen.broken[kind.0 as usize][fault] += 1;
        let what = || {
            let fault = FAULTS[fault];
            format!("broken stream {number}, {fault:?}, {}", stream.shown(&raw))
        };
        if FAULTS[fault].is_some() {
            report.check(Property::BrokenRule, found == FAULTS[fault], || {
                format!("{found:?}: {}", what())
            });
        }
        let lent = random.link_lent();
        let (library, _) = library_hears(kind, &raw, &lent);
        let second = second_hears(kind, &raw, &lent);
        report.check(Property::BrokenTold, library.said == second.said, || {
            format!(
                "{}: {}",
                first_difference(&library.said, &second.said),
                what()
            )
        });
        report.check(Property::BrokenLink, library.link == second.link, || {
            format!(
                "{:?}, second program {:?}: {}",
                library.link,
                second.link,
                what()
            )
        });
        report.check(Property::BrokenLent, library.lent == second.lent, what);
    }
}

// ---- All of it ----

pub fn report() -> Report {
    Report::new(&PROPERTIES)
}

/// One input in `share` of each kind that is drawn at random.
fn compare_random(random: &mut Random, share: u64, seen: &mut Seen, report: &mut Report) {
    compare_orders(random, ORDERS / share, seen, report);
    compare_lists(random, LISTS / share, seen, report);
    compare_streams(random, STREAMS / share, seen, report);
    compare_broken(random, BROKEN / share, seen, report);
}

pub fn whole(random: &mut Random, report: &mut Report) {
    let mut seen = Seen::new();
    compare_random(random, 1, &mut seen, report);
    compare_each(random, &mut seen, report);
    compare_each_stream(random, &mut seen, report);
    seen.report(report);
}

pub fn share(random: &mut Random, share: u64, report: &mut Report) {
    compare_random(random, share, &mut Seen::new(), report);
}
