//! The reply writer, the replies of the parallel side byte by byte, and the fields
//! that are read from a finished reply: the same go to the library and to the second
//! program, and everything they give is compared.

use crate::inputs::{Laden, escaped, most};
use crate::interface::{
    REPLY, TubeGiven, TubeTaken, TubeWritten, tube_begin, tube_link, tube_read_reply,
    tube_reply_step, tube_run, tube_write_reply,
};
use crate::link::serial::{PARALLEL, SERIAL};
use crate::link::{
    self, A_BLOCK, ACK, BLOCK, BLOCK_CARRY_A, Begun, CALLS, CARRY_A, CARRY_Y_X, ESCAPED, Given,
    LENT, LINE, Link, NOTE, NUMBER, OSARGS, OSBGET, OSBPUT, OSBYTE_HIGH, OSCLI, OSFILE,
    OSFIND_CLOSE, OSGBPB, OSRDCH, OSWORD, OSWORD_0, PLAIN, Reply, ReplyByte, Told,
};
use crate::random::Random;
use crate::report::{Report, Row, difference, every};
use std::cmp::Ordering;

const GUARD: usize = 16;

/// How many replies there are.
const REPLIES: u8 = 10;

/// The replies that fit each call.
const FITTING: [&[u8]; CALLS as usize] = [
    &[CARRY_A],
    &[ACK],
    &[NUMBER],
    &[CARRY_Y_X],
    &[BLOCK],
    &[ESCAPED, LINE],
    &[A_BLOCK],
    &[CARRY_A],
    &[PLAIN],
    &[PLAIN],
    &[NUMBER],
    &[A_BLOCK],
    &[BLOCK_CARRY_A],
];

/// The length of the block in the replies to a call that have one.
fn block_length(call: u8, out_length: u8) -> Option<usize> {
    match call {
        OSWORD => Some(out_length as usize),
        OSARGS => Some(4),
        OSFILE => Some(16),
        OSGBPB => Some(13),
        _ => None,
    }
}

// ---- Properties ----

#[derive(Clone, Copy)]
enum Property {
    Answer,
    Length,
    Encoding,
    Beyond,
    Refused,
    Exact,
    OneShort,
    OneMore,
    Empty,
    MuchLonger,
    SecondReads,
    LibraryReads,
    SecondTakes,
    LibraryTakes,
    Normal,
    NormalParallel,
    TakenKind,
    TakenAnswer,
    TakenCount,
    TakenReply,
    StepKind,
    StepAnswer,
    StepCount,
    StepReply,
    GivenReply,
    GivenNumbers,
    GivenBlock,
    GivenText,
    InputReplies,
    InputPairs,
    InputRules,
    InputTwoRules,
    InputSizes,
    InputCarries,
    InputTaken,
    InputCounts,
    InputOuts,
    InputLists,
}

impl From<Property> for usize {
    fn from(property: Property) -> usize {
        property as usize
    }
}

#[rustfmt::skip]
const PROPERTIES: [Row<Property>; 38] = [
    (Property::Answer, "write: answer", 6 * WRITTEN),
    (Property::Length, "write: length", 6 * WRITTEN),
    (Property::Encoding, "write: the encoding", WRITTEN),
    (Property::Beyond, "write: bytes beyond the encoding stay", WRITTEN),
    (Property::Refused, "write: a refusal touches no byte", WRITTEN),
    (Property::Exact, "write: a buffer just long enough", WRITTEN),
    (Property::OneShort, "write: a buffer one byte short", WRITTEN / 2),
    (Property::OneMore, "write: a buffer one byte longer", WRITTEN),
    (Property::Empty, "write: an empty buffer", WRITTEN),
    (Property::MuchLonger, "write: a buffer much longer", WRITTEN),
    (Property::SecondReads, "write: the second program's link reads the reply again", WRITTEN / 4),
    (Property::LibraryReads, "write: the library's link reads the reply again", WRITTEN / 4),
    (Property::SecondTakes, "write: the second program takes the parallel reply again", WRITTEN / 4),
    (Property::LibraryTakes, "write: the library takes the parallel reply again", WRITTEN / 4),
    (Property::Normal, "read then written: the normal bytes, actions left out", LISTS / 10),
    (Property::NormalParallel, "taken then written: the normal bytes", LISTS / 10),
    (Property::TakenKind, "parallel: kind of answer", 4 * TAKEN),
    (Property::TakenAnswer, "parallel: number of the refusal", 4 * TAKEN),
    (Property::TakenCount, "parallel: count after", 4 * TAKEN),
    (Property::TakenReply, "parallel: every lent byte", 4 * TAKEN),
    (Property::StepKind, "step: kind of answer", 2 * STEPS),
    (Property::StepAnswer, "step: number of the refusal", 2 * STEPS),
    (Property::StepCount, "step: count after", 2 * STEPS),
    (Property::StepReply, "step: every lent byte", 2 * STEPS),
    (Property::GivenReply, "fields: which reply", LISTS),
    (Property::GivenNumbers, "fields: carry, X, Y and A", LISTS),
    (Property::GivenBlock, "fields: place of the block", LISTS),
    (Property::GivenText, "fields: place of the text", LISTS),
    (Property::InputReplies, "inputs: each answer for each call and carrier", 1),
    (Property::InputPairs, "inputs: each reply to each call", 1),
    (Property::InputRules, "inputs: each rule broken alone for each call and carrier", 1),
    (Property::InputTwoRules, "inputs: each two rules broken together", 1),
    (Property::InputSizes, "inputs: each line and block length on each carrier", 1),
    (Property::InputCarries, "inputs: each carry number", 1),
    (Property::InputTaken, "inputs: each answer to a byte of each call", 1),
    (Property::InputCounts, "inputs: each count and each byte for each call", 1),
    (Property::InputOuts, "inputs: bytes around the end of each out length", 1),
    (Property::InputLists, "inputs: byte lists of each length for each call", 1),
];

/// The properties that one byte of a parallel reply counts for.
struct Group {
    set: usize,
    kind: Property,
    answer: Property,
    count: Property,
    reply: Property,
}

const REPLY_BYTES: Group = Group {
    set: 0,
    kind: Property::TakenKind,
    answer: Property::TakenAnswer,
    count: Property::TakenCount,
    reply: Property::TakenReply,
};

const STEP: Group = Group {
    set: 1,
    kind: Property::StepKind,
    answer: Property::StepAnswer,
    count: Property::StepCount,
    reply: Property::StepReply,
};

// ---- Replies ----

/// A reply that owns its block and its line.
#[derive(Clone, PartialEq, Debug)]
pub struct Owned {
    carrier: u8,
    pub call: u8,
    pub out_length: u8,
    reply: u8,
    carry: u8,
    x: u8,
    y: u8,
    a: u8,
    pub block: Vec<u8>,
    text: Vec<u8>,
}

impl Owned {
    fn lend(&self) -> Reply<'_> {
        Reply {
            carrier: self.carrier,
            call: self.call,
            out_length: self.out_length,
            reply: self.reply,
            carry: self.carry != 0,
            x: self.x,
            y: self.y,
            a: self.a,
            block: &self.block,
            text: &self.text,
        }
    }

    /// A reply that fits its call.
    pub fn good(random: &mut Random, carrier: u8, call: u8) -> Owned {
        let mixture = random.below(4);
        let out_length = random.length() as u8;
        let fitting = FITTING[call as usize];
        let reply = match random.below(4) {
            0 => fitting[0],
            _ => *fitting.last().unwrap(),
        };
        let block_length = block_length(call, out_length).unwrap_or(0);
        let text_length = if reply == LINE { random.length() } else { 0 };
        Owned {
            carrier,
            call,
            out_length,
            reply,
            carry: match random.below(4) {
                0 => random.byte(),
                at => at as u8 % 2,
            },
            x: random.mixed(mixture),
            y: random.mixed(mixture),
            a: random.mixed(mixture),
            block: random.bytes(mixture, block_length),
            text: random.without(0x0D, mixture, text_length),
        }
    }

    /// A reply made of what the library has read from a finished one.
    fn from_given(
        carrier: u8,
        (call, out_length): (u8, u8),
        bytes: &[u8],
        given: &TubeGiven,
    ) -> Owned {
        let part = |start: usize, length: usize| {
            let end = start.saturating_add(length);
            bytes.get(start..end).unwrap_or(&[]).to_vec()
        };
        Owned {
            carrier,
            call,
            out_length,
            reply: given.reply,
            carry: given.carry,
            x: given.x,
            y: given.y,
            a: given.a,
            block: part(given.block_start, given.block_length),
            text: part(given.text_start, given.text_length),
        }
    }

    /// The same with 0 for the numbers that the reply does not have.
    fn plain_numbers(&self) -> Owned {
        let (carry, x, y, a) = match self.reply {
            CARRY_A | BLOCK_CARRY_A => (true, false, false, true),
            ACK => (true, false, false, false),
            NUMBER | A_BLOCK => (false, false, false, true),
            CARRY_Y_X => (true, true, true, false),
            _ => (false, false, false, false),
        };
        let only = |has: bool, number: u8| if has { number } else { 0 };
        Owned {
            carry: only(carry, (self.carry != 0) as u8),
            x: only(x, self.x),
            y: only(y, self.y),
            a: only(a, self.a),
            ..self.clone()
        }
    }

    /// The plain bytes of a reply that fits its call.
    pub fn bytes(&self) -> Vec<u8> {
        let set = self.carry != 0;
        let carry = if set { 0x80 } else { 0x00 };
        match self.reply {
            CARRY_A => vec![carry, self.a],
            ACK => vec![if set { 0x80 } else { 0x7F }],
            NUMBER => vec![self.a],
            CARRY_Y_X => vec![carry, self.y, self.x],
            BLOCK => self.block.clone(),
            ESCAPED => vec![0xFF],
            LINE => [&[0x7F], &self.text[..], &[0x0D]].concat(),
            A_BLOCK => [&[self.a], &self.block[..]].concat(),
            PLAIN => vec![0x7F],
            _ => [&self.block[..], &[carry, self.a]].concat(),
        }
    }

    /// Breaks a rule; false where this reply has no such rule.
    fn break_rule(&mut self, random: &mut Random, rule: Rule) -> bool {
        let mixture = random.below(4);
        let has_block = block_length(self.call, self.out_length);
        match rule {
            Rule::Carrier => self.carrier = random.at_least(2),
            Rule::Reply => {
                let Some(fitting) = FITTING.get(self.call as usize) else {
                    return false;
                };
                let others: Vec<u8> = (0..REPLIES).filter(|at| !fitting.contains(at)).collect();
                self.reply = others[random.below(others.len())];
            }
            Rule::ReplyNumber => self.reply = random.at_least(REPLIES),
            Rule::Call => self.call = random.at_least(CALLS),
            Rule::BlockLength => {
                let Some(good) = has_block else {
                    return false;
                };
                let length = match random.below(6) {
                    0 => good + 1,
                    // The same in its lowest bits.
                    1 => good + (256 << random.below(6)),
                    2 => good + 1 + random.below(10),
                    _ if good == 0 => return false,
                    3 => 0,
                    4 => good - 1,
                    _ => random.below(good),
                };
                self.block = random.bytes(mixture, length);
            }
            Rule::OutLength => {
                if self.call != OSWORD {
                    return false;
                }
                let by = match random.below(3) {
                    0 => 1,
                    1 => 255,
                    _ => random.at_least(1),
                };
                self.out_length = self.out_length.wrapping_add(by);
            }
            Rule::LineEnd => {
                if self.reply != LINE {
                    return false;
                }
                if self.text.is_empty() {
                    self.text.push(0);
                }
                let at = match random.below(3) {
                    0 => 0,
                    1 => self.text.len() - 1,
                    _ => random.below(self.text.len()),
                };
                self.text[at] = 0x0D;
            }
            Rule::BlockGiven => {
                if has_block.is_some() {
                    return false;
                }
                let length = 1 + random.length();
                self.block = random.bytes(mixture, length);
            }
            Rule::TextGiven => {
                if self.reply == LINE {
                    return false;
                }
                let length = random.length().max(1);
                self.text = random.bytes(mixture, length);
            }
            Rule::LongText => {
                let length = match random.below(4) {
                    0 => 256,
                    1 => 257 + random.below(300),
                    // A good length in its lowest bits.
                    2 => 256 << random.below(6),
                    _ => 256 + random.below(3),
                };
                self.text = random.bytes(mixture, length);
            }
        }
        true
    }

    /// In words, long fields cut.
    pub fn shown(&self) -> String {
        let (block, text) = (self.block.len(), self.text.len());
        let mut cut = self.clone();
        cut.block.truncate(20);
        cut.text.truncate(20);
        format!("{cut:02X?}, block of {block} and text of {text} bytes")
    }
}

#[derive(Clone, Copy)]
enum Rule {
    Carrier,
    Reply,
    ReplyNumber,
    Call,
    BlockLength,
    OutLength,
    LineEnd,
    BlockGiven,
    TextGiven,
    LongText,
}

const RULES: [(Rule, &str); 10] = [
    (Rule::Carrier, "carrier"),
    (Rule::Reply, "a reply that does not fit"),
    (Rule::ReplyNumber, "a reply number above 9"),
    (Rule::Call, "a call number above 12"),
    (Rule::BlockLength, "block length"),
    (Rule::OutLength, "out length"),
    (Rule::LineEnd, "&0D in the line"),
    (Rule::BlockGiven, "block given"),
    (Rule::TextGiven, "text given"),
    (Rule::LongText, "long text"),
];

/// Whether some call has both rules, the second one still there when the first is
/// broken, and not mending it.
fn together(first: Rule, second: Rule) -> bool {
    use Rule::*;
    let apart = matches!(
        (first, second),
        (Reply, ReplyNumber)
            | (ReplyNumber, Reply)
            | (BlockLength, BlockGiven | OutLength)
            | (BlockGiven, BlockLength | OutLength)
            | (OutLength, BlockLength | BlockGiven | LineEnd)
            | (LineEnd, BlockLength | OutLength | TextGiven | LongText)
            | (BlockLength | Reply | ReplyNumber | TextGiven, LineEnd)
            | (LongText, TextGiven)
            | (Call, _)
    );
    !apart && first as usize != second as usize
}

// ---- What the inputs were ----

/// The answers to a byte of a parallel reply: more, last, 4, 7 and 6.
const TAKINGS: usize = 5;

struct Seen {
    /// By carrier, call and answer.
    answers: [[[u64; 10]; CALLS as usize]; 2],
    /// By call and reply.
    pairs: [[u64; REPLIES as usize]; CALLS as usize],
    /// Broken alone, by carrier, call and rule.
    rules: [[[u64; RULES.len()]; CALLS as usize]; 2],
    /// Two rules broken, the second one after the first.
    two_rules: [[u64; RULES.len()]; RULES.len()],
    /// Lines and OSWORD's blocks written, by carrier and length.
    lines: [[bool; 256]; 2],
    blocks: [[bool; 256]; 2],
    carries: [bool; 256],
    /// By replies or single steps, call and answer.
    taken: [[[u64; TAKINGS]; 1 + CALLS as usize]; 2],
    /// Single steps by call and count, and by call and byte.
    counts: Vec<[bool; 65_536]>,
    bytes: [[bool; 256]; 1 + CALLS as usize],
    /// Those of OSWORD, by out length: below the last byte, at it, beyond it.
    outs: [[u64; 3]; 256],
    /// Byte lists read, by call and length.
    lists: [[u64; LENT + 8]; 1 + CALLS as usize],
}

impl Seen {
    fn new() -> Box<Seen> {
        Box::new(Seen {
            answers: [[[0; 10]; CALLS as usize]; 2],
            pairs: [[0; REPLIES as usize]; CALLS as usize],
            rules: [[[0; RULES.len()]; CALLS as usize]; 2],
            two_rules: [[0; RULES.len()]; RULES.len()],
            lines: [[false; 256]; 2],
            blocks: [[false; 256]; 2],
            carries: [false; 256],
            taken: [[[0; TAKINGS]; 1 + CALLS as usize]; 2],
            counts: vec![[false; 65_536]; 1 + CALLS as usize],
            bytes: [[false; 256]; 1 + CALLS as usize],
            outs: [[0; 3]; 256],
            lists: [[0; LENT + 8]; 1 + CALLS as usize],
        })
    }

    /// Notes a reply written into a buffer.
    fn note(&mut self, reply: &Owned, answer: u8) {
        let carrier = reply.carrier as usize;
        if reply.carrier > PARALLEL || reply.call >= CALLS {
            return;
        }
        self.answers[carrier][reply.call as usize][answer as usize] += 1;
        if let Some(pair) = self.pairs[reply.call as usize].get_mut(reply.reply as usize) {
            *pair += 1;
        }
        if answer == 0 {
            self.carries[reply.carry as usize] = true;
            match reply.reply {
                LINE => self.lines[carrier][reply.text.len()] = true,
                BLOCK => self.blocks[carrier][reply.block.len()] = true,
                _ => {}
            }
        }
    }

    /// Notes a byte of a parallel reply, in a reply (0) or a single step (1).
    fn taken(
        &mut self,
        set: usize,
        (call, out_length): (u8, u8),
        count: usize,
        byte: u8,
        answer: ReplyByte,
    ) {
        let at = call.min(CALLS) as usize;
        let taking = match answer {
            ReplyByte::More => 0,
            ReplyByte::Last => 1,
            ReplyByte::Refused(4) => 2,
            ReplyByte::Refused(7) => 3,
            ReplyByte::Refused(_) => 4,
        };
        self.taken[set][at][taking] += 1;
        if set == STEP.set {
            self.counts[at][count] = true;
            self.bytes[at][byte as usize] = true;
        }
        if call == OSWORD {
            let place = match (count + 1).cmp(&(out_length as usize)) {
                Ordering::Less => 0,
                Ordering::Equal => 1,
                Ordering::Greater => 2,
            };
            self.outs[out_length as usize][place] += 1;
        }
    }

    fn report(&self, report: &mut Report) {
        const ANSWERS: [usize; 4] = [0, 6, 8, 9];
        let few = every(2, CALLS as usize, 4)
            .find(|&(carrier, call, at)| self.answers[carrier][call][ANSWERS[at]] < 1000);
        let few = few.map(|(carrier, call, at)| {
            format!("answers {}, call {call}, carrier {carrier}", ANSWERS[at])
        });
        report.need(Property::InputReplies, few);
        let few = every(1, CALLS as usize, REPLIES as usize)
            .find(|&(_, call, reply)| self.pairs[call][reply] < 1000);
        let few = few.map(|(_, call, reply)| format!("replies {reply} to call {call}"));
        report.need(Property::InputPairs, few);
        report.need(Property::InputRules, self.few_rules());
        report.need(Property::InputTwoRules, self.few_two_rules());
        let few = every(1, 2, 256).find(|&(_, carrier, length)| {
            !self.lines[carrier][length] || !self.blocks[carrier][length]
        });
        let few = few.map(|(_, carrier, length)| {
            format!("lines or blocks of {length} bytes, carrier {carrier}")
        });
        report.need(Property::InputSizes, few);
        let few = (0..256).find(|&carry| !self.carries[carry]);
        let few = few.map(|carry| format!("carries {carry}"));
        report.need(Property::InputCarries, few);
        report.need(Property::InputTaken, self.few_taken());
        let few = every(1, 1 + CALLS as usize, 65_536)
            .find(|&(_, call, count)| !self.counts[call][count]);
        let few = few.map(|(_, call, count)| format!("bytes at {count} of call {call}"));
        let byte =
            every(1, 1 + CALLS as usize, 256).find(|&(_, call, byte)| !self.bytes[call][byte]);
        let byte = byte.map(|(_, call, byte)| format!("bytes &{byte:02X} of call {call}"));
        report.need(Property::InputCounts, few.or(byte));
        let few = every(1, 256, 3).find(|&(_, out_length, place)| {
            // With 0 no byte is the last, with 1 none is before it.
            let possible = place == 2 || out_length + place > 1;
            possible && self.outs[out_length][place] < 6
        });
        let few = few.map(|(_, out_length, place)| {
            format!("bytes {place} of OSWORD with out length {out_length}")
        });
        report.need(Property::InputOuts, few);
        let few = every(1, 1 + CALLS as usize, LENT + 8)
            .find(|&(_, call, length)| self.lists[call][length] < 20);
        let few = few.map(|(_, call, length)| format!("lists of {length} bytes, call {call}"));
        report.need(Property::InputLists, few);
    }

    fn few_taken(&self) -> Option<String> {
        const NAMES: [&str; TAKINGS] = ["more", "last", "4", "7", "6"];
        let few = every(2, 1 + CALLS as usize, TAKINGS).find(|&(set, call, taking)| {
            let (none, line) = (call == CALLS as usize, call == OSWORD_0 as usize);
            let possible = match taking {
                0 => !none && (line || most(1 + call as u8, 255) > 1),
                1 | 3 => !none,
                2 => none,
                _ => line,
            };
            possible && self.taken[set][call][taking] < 100
        });
        few.map(|(set, call, taking)| {
            let place = ["replies", "single steps"][set];
            format!("bytes answered {} in {place}, call {call}", NAMES[taking])
        })
    }

    fn few_two_rules(&self) -> Option<String> {
        for (first, first_name) in RULES {
            for (second, second_name) in RULES {
                let broken = self.two_rules[first as usize][second as usize];
                if together(first, second) && broken < 8 {
                    return Some(format!("with {first_name}, then {second_name}"));
                }
            }
        }
        None
    }

    fn few_rules(&self) -> Option<String> {
        for (carrier, call) in (0..2 * CALLS).map(|at| (at / CALLS, at % CALLS)) {
            for (rule, name) in RULES {
                let possible = match rule {
                    Rule::BlockLength => block_length(call, 0).is_some(),
                    Rule::BlockGiven => block_length(call, 0).is_none(),
                    Rule::OutLength => call == OSWORD,
                    Rule::LineEnd => call == OSWORD_0,
                    _ => true,
                };
                let broken = self.rules[carrier as usize][call as usize][rule as usize];
                if possible && broken < 100 {
                    return Some(format!("with {name}, call {call}, carrier {carrier}"));
                }
            }
        }
        None
    }
}

// ---- Writing ----

/// Replies written at random, besides those of `compare_each`.
const WRITTEN: u64 = 300_000;

/// Calls the library, lending the bytes of `out` between the guards.
fn library_write(reply: &Owned, out: &mut [u8]) -> TubeWritten {
    let room = out.len() - 2 * GUARD;
    unsafe {
        tube_write_reply(
            reply.carrier,
            reply.call,
            reply.out_length,
            reply.reply,
            reply.carry,
            reply.x,
            reply.y,
            reply.a,
            reply.block.as_ptr(),
            reply.block.len(),
            reply.text.as_ptr(),
            reply.text.len(),
            out.as_mut_ptr().add(GUARD),
            room,
        )
    }
}

fn compare_replies(random: &mut Random, count: u64, seen: &mut Seen, report: &mut Report) {
    for number in 0..count {
        let carrier = random.below(2) as u8;
        let call = random.below(CALLS as usize) as u8;
        let mut reply = Owned::good(random, carrier, call);
        match random.below(16) {
            0..8 => {}
            8..14 => {
                let (rule, _) = RULES[random.below(RULES.len())];
                if reply.break_rule(random, rule) {
                    seen.rules[carrier as usize][call as usize][rule as usize] += 1;
                }
            }
            14 => {
                for _ in 0..2 + random.below(2) {
                    let (rule, _) = RULES[random.below(RULES.len())];
                    reply.break_rule(random, rule);
                }
            }
            // Any numbers, so that the unused ones show too.
            _ => {
                reply.carry = random.byte();
                reply.x = random.byte();
                reply.y = random.byte();
                reply.a = random.byte();
                reply.reply = random.below(REPLIES as usize + 1) as u8;
            }
        }
        let name = format!("reply {number}");
        compare_reply(random, &reply, &name, seen, report);
    }
}

/// Every number, block length and text length of each call, and every two rules
/// broken together.
fn compare_each(random: &mut Random, seen: &mut Seen, report: &mut Report) {
    for (carrier, call) in (0..2 * CALLS).map(|at| (at / CALLS, at % CALLS)) {
        for byte in 0..=255 {
            let mut reply = Owned::good(random, carrier, call);
            (reply.carry, reply.a) = (byte, random.byte());
            compare_reply(random, &reply, "each carry", seen, report);
            let mut reply = Owned::good(random, carrier, call);
            reply.reply = byte;
            compare_reply(random, &reply, "each reply number", seen, report);
            let mut reply = Owned::good(random, carrier, call);
            reply.out_length = byte;
            compare_reply(random, &reply, "each out length", seen, report);
        }
        for length in 0..300 {
            let mixture = random.below(4);
            let mut reply = Owned::good(random, carrier, call);
            reply.block = random.bytes(mixture, length);
            compare_reply(random, &reply, "each block length", seen, report);
            reply.out_length = length as u8;
            compare_reply(random, &reply, "each fitting block", seen, report);
            let mut reply = Owned::good(random, carrier, call);
            reply.text = random.without(0x0D, mixture, length);
            compare_reply(random, &reply, "each text", seen, report);
            reply.reply = LINE;
            compare_reply(random, &reply, "each text length", seen, report);
        }
        for (_, first, second) in every(16, RULES.len(), RULES.len()) {
            let mut reply = Owned::good(random, carrier, call);
            let broken = reply.break_rule(random, RULES[first].0);
            if broken && reply.break_rule(random, RULES[second].0) {
                seen.two_rules[first][second] += 1;
            }
            compare_reply(random, &reply, "two rules", seen, report);
        }
    }
    for byte in 0..=255 {
        let call = random.below(CALLS as usize) as u8;
        let mut reply = Owned::good(random, byte % 2, call);
        reply.call = byte;
        compare_reply(random, &reply, "each call", seen, report);
        let mut reply = Owned::good(random, byte, call);
        compare_reply(random, &reply, "each carrier", seen, report);
        reply.call = random.at_least(CALLS);
        compare_reply(random, &reply, "each carrier, no call", seen, report);
    }
}

/// Writes one reply into buffers of many lengths on both and compares.
fn compare_reply(
    random: &mut Random,
    reply: &Owned,
    name: &str,
    seen: &mut Seen,
    report: &mut Report,
) {
    let mut large = [0; 2 * LENT];
    // A refused reply has no size; its buffers are of any length.
    let size = match reply.lend().write(&mut large) {
        Ok(size) => {
            match reply.carrier {
                SERIAL => {
                    compare_second_reads(reply, size, name, report);
                    compare_library_reads(reply, size, name, report);
                }
                _ => compare_takes(reply, size, name, report),
            }
            size
        }
        Err(_) => random.below(600),
    };
    let lengths = [
        (Some(size), Property::Exact),
        (size.checked_sub(1), Property::OneShort),
        (Some(size + 1), Property::OneMore),
        (Some(0), Property::Empty),
        (Some(size + 100 + random.below(400)), Property::MuchLonger),
    ];
    for (lent, property) in lengths {
        let Some(lent) = lent else {
            continue;
        };
        let good = compare_buffer(random, reply, lent, name, seen, report);
        report.check(property, good, || {
            format!(
                "{name} with {lent} bytes lent, size {size}: {}",
                reply.shown()
            )
        });
    }
    // Every length around the size, and any one below it.
    let around = size.saturating_sub(6)..=size + 6;
    for lent in around.chain([random.below(size + 1)]) {
        compare_buffer(random, reply, lent, name, seen, report);
    }
}

/// One buffer; true where all is equal.
fn compare_buffer(
    random: &mut Random,
    reply: &Owned,
    lent: usize,
    name: &str,
    seen: &mut Seen,
    report: &mut Report,
) -> bool {
    let mut before = vec![0; GUARD + lent + GUARD];
    random.fill(&mut before);
    let (mut out, mut expected) = (before.clone(), before.clone());
    let library = library_write(reply, &mut out);
    let second = reply.lend().write(&mut expected[GUARD..GUARD + lent]);
    let (length, answer) = match second {
        Ok(length) => (length, 0),
        Err(number) => (0, number),
    };
    seen.note(reply, answer);

    let what = || {
        format!(
            "{library:?}, second program {second:?}: {name} with {lent} bytes lent, {}",
            reply.shown()
        )
    };
    report.check(Property::Answer, library.answer == answer, what);
    report.check(Property::Length, library.length == length, what);
    let at = || format!("{}: {}", difference(&out, &expected, GUARD), what());
    if answer == 0 {
        let whole = GUARD..GUARD + length;
        let equal = out[whole.clone()] == expected[whole.clone()];
        report.check(Property::Encoding, equal, at);
        let beyond = out[..GUARD] == before[..GUARD] && out[whole.end..] == before[whole.end..];
        report.check(Property::Beyond, beyond, at);
    } else {
        report.check(Property::Refused, out == before, at);
    }
    library.answer == answer && library.length == length && out == expected
}

// ---- Written, then read ----

/// The library's encoding of a reply that fits.
pub fn encoding(reply: &Owned, size: usize) -> Vec<u8> {
    let mut out = vec![0; GUARD + size + GUARD];
    library_write(reply, &mut out);
    out[GUARD..GUARD + size].to_vec()
}

/// The library's encoding, read by the second program, gives the reply at its
/// last byte and not before.
fn compare_second_reads(reply: &Owned, size: usize, name: &str, report: &mut Report) {
    let raw = encoding(reply, size);
    let plain = reply.bytes();
    let mut link = Link::new();
    let (mut bytes, mut own) = ([0; LENT], [0; LENT]);
    let begun = link.begin(reply.call, reply.out_length);
    let waits = begun == Begun::Waits && size > 0 || begun == Begun::Complete && size == 0;
    let mut read = true;
    for (at, &byte) in raw.iter().enumerate() {
        let expected = match at + 1 == size {
            true => Told::Reply(plain.len()),
            false => Told::More,
        };
        read &= link.step(byte, &mut bytes, &mut own) == expected;
    }
    let bytes = &bytes[..plain.len()];
    let given = shown_given(&link::given(reply.call, bytes));
    let again = Owned::from_given(SERIAL, (reply.call, reply.out_length), bytes, &given);
    let good = waits && read && bytes == plain && again == reply.plain_numbers();
    report.check(Property::SecondReads, good, || {
        format!(
            "{:02X?}, {size} bytes: {name}, {}",
            &raw[..size.min(60)],
            reply.shown()
        )
    });
}

/// The finished reply that the library reads from raw bytes, all of them used.
fn library_reply((call, out_length): (u8, u8), raw: &[u8]) -> Option<Vec<u8>> {
    let (mut bytes, mut own) = ([0; LENT], [0; LENT]);
    let (mut room, mut data) = (vec![0; NOTE * raw.len()], vec![0; raw.len()]);
    let begun = unsafe { tube_begin(tube_link(), call, out_length) };
    if begun.kind == 1 && raw.is_empty() {
        return Some(Vec::new());
    }
    let ran = unsafe {
        tube_run(
            begun.link,
            raw.as_ptr(),
            raw.len(),
            bytes.as_mut_ptr(),
            own.as_mut_ptr(),
            room.as_mut_ptr(),
            room.len(),
            data.as_mut_ptr(),
            data.len(),
        )
    };
    let finished = ran.told.kind == REPLY && ran.used == raw.len() && ran.told.length <= LENT;
    finished.then(|| bytes[..ran.told.length].to_vec())
}

fn library_given((call, out_length): (u8, u8), bytes: &[u8]) -> TubeGiven {
    unsafe { tube_read_reply(call, out_length, bytes.as_ptr(), bytes.len()) }
}

/// The library's encoding, read by the library's link and taken apart by it,
/// gives the reply.
fn compare_library_reads(reply: &Owned, size: usize, name: &str, report: &mut Report) {
    let kind = (reply.call, reply.out_length);
    let bytes = library_reply(kind, &encoding(reply, size));
    let again = bytes.map(|bytes| library_again(SERIAL, kind, &bytes));
    let good = again.as_ref() == Some(&reply.plain_numbers());
    report.check(Property::LibraryReads, good, || {
        let again = again.map_or("none".to_string(), |again| again.shown());
        format!("{again}: {name}, {}", reply.shown())
    });
}

/// The reply that the library takes a finished one apart into.
fn library_again(carrier: u8, kind: (u8, u8), bytes: &[u8]) -> Owned {
    Owned::from_given(carrier, kind, bytes, &library_given(kind, bytes))
}

/// The library's parallel encoding, taken byte by byte by the second program, and by
/// the library, is the plain bytes, ends with the last of them, and gives the reply.
fn compare_takes(reply: &Owned, size: usize, name: &str, report: &mut Report) {
    let kind = (reply.call, reply.out_length);
    let (raw, plain) = (encoding(reply, size), reply.bytes());
    let what = || {
        let start = &raw[..size.min(60)];
        format!("{start:02X?}, {size} bytes: {name}, {}", reply.shown())
    };
    let second = taken(&raw, |at, byte, bytes| {
        let mut count = at;
        (link::reply_step(kind, &mut count, byte, bytes), count)
    });
    let again = second.as_ref().map(|bytes| {
        let given = shown_given(&link::given(reply.call, bytes));
        Owned::from_given(PARALLEL, kind, bytes, &given)
    });
    let good = second.as_ref() == Some(&plain) && again == Some(reply.plain_numbers());
    report.check(Property::SecondTakes, good, what);

    let library = library_taken(kind, &raw);
    let again = library
        .as_ref()
        .map(|bytes| library_again(PARALLEL, kind, bytes));
    let good = library.as_ref() == Some(&plain) && again == Some(reply.plain_numbers());
    report.check(Property::LibraryTakes, good, || {
        format!("{again:02X?}: {}", what())
    });
}

/// The reply taken byte by byte from the first on, where its last byte and none
/// before ends it; one without a byte has ended before. `step` is given the count,
/// the byte and the lent bytes: its answer, and the count after.
fn taken(
    raw: &[u8],
    mut step: impl FnMut(usize, u8, &mut [u8; LENT]) -> (ReplyByte, usize),
) -> Option<Vec<u8>> {
    let mut bytes = [0; LENT];
    for (at, &byte) in raw.iter().enumerate() {
        let (answer, count) = step(at, byte, &mut bytes);
        let expected = match at + 1 == raw.len() {
            true => ReplyByte::Last,
            false => ReplyByte::More,
        };
        if answer != expected || count != at + 1 {
            return None;
        }
    }
    Some(bytes[..raw.len()].to_vec())
}

fn library_taken(kind: (u8, u8), raw: &[u8]) -> Option<Vec<u8>> {
    taken(raw, |at, byte, bytes| {
        let found = library_step(kind, at as u16, byte, bytes.as_mut_ptr());
        let answer = match found.kind {
            0 => ReplyByte::More,
            1 => ReplyByte::Last,
            _ => ReplyByte::Refused(found.answer),
        };
        (answer, found.count as usize)
    })
}

fn library_step(
    (call, out_length): (u8, u8),
    count: u16,
    byte: u8,
    reply: *mut u8,
) -> TubeTaken {
    unsafe { tube_reply_step(call, out_length, count, byte, reply) }
}

/// A reply with other bits in its carry, acknowledgement and first byte, read and
/// written again by the library: with actions between on the serial side, and on the
/// parallel side.
fn compare_normal(random: &mut Random, report: &mut Report) {
    let Laden {
        kind, plain, sent, ..
    } = Laden::new(random);
    let raw = sent.raw;
    let mut normal = plain.clone();
    let carry = |byte: u8| byte & 0x80;
    match kind.0 {
        OSRDCH | OSBGET | OSBYTE_HIGH => normal[0] = carry(plain[0]),
        OSCLI if carry(plain[0]) != 0 => normal[0] = 0x80,
        OSWORD_0 if carry(plain[0]) != 0 => normal[0] = 0xFF,
        OSCLI | OSWORD_0 | OSBPUT | OSFIND_CLOSE => normal[0] = 0x7F,
        OSGBPB => normal[13] = carry(plain[13]),
        _ => {}
    }
    let expected = escaped(&normal);
    let mut out = vec![0; GUARD + expected.len() + GUARD];
    let written = library_reply(kind, &raw)
        .map(|bytes| library_write(&library_again(SERIAL, kind, &bytes), &mut out));
    let answer = written.map(|written| (written.answer, written.length));
    let good = answer == Some((0, expected.len())) && out[GUARD..out.len() - GUARD] == expected;
    report.check(Property::Normal, good, || {
        let start = &raw[..raw.len().min(60)];
        format!("{written:?}, {out:02X?}, expected {expected:02X?}: call {kind:?}, {start:02X?}")
    });

    let mut out = vec![0; GUARD + normal.len() + GUARD];
    let written = library_taken(kind, &plain)
        .map(|bytes| library_write(&library_again(PARALLEL, kind, &bytes), &mut out));
    let answer = written.map(|written| (written.answer, written.length));
    let good = answer == Some((0, normal.len())) && out[GUARD..out.len() - GUARD] == normal;
    report.check(Property::NormalParallel, good, || {
        format!("{written:?}, {out:02X?}, expected {normal:02X?}: call {kind:?}, {plain:02X?}")
    });
}

// ---- Replies on the parallel side ----

/// Replies taken byte by byte.
const TAKEN: u64 = 200_000;

/// Single bytes at random, besides those of `compare_each_step`.
const STEPS: u64 = 1_000_000;

/// Lent bytes between guard bytes.
type Lent = [u8; GUARD + LENT + GUARD];

/// Gives one byte to both and compares; the second program's count after it. The
/// lent bytes are those of the second program then.
fn compare_taken(
    kind: (u8, u8),
    count: u16,
    byte: u8,
    lent: &mut Lent,
    group: &Group,
    seen: &mut Seen,
    report: &mut Report,
) -> u16 {
    let mut library_lent = *lent;
    let place = library_lent[GUARD..].as_mut_ptr();
    let library = library_step(kind, count, byte, place);
    let mut after = count as usize;
    let reply = (&mut lent[GUARD..GUARD + LENT]).try_into().unwrap();
    let second = link::reply_step(kind, &mut after, byte, reply);
    seen.taken(group.set, kind, count as usize, byte, second);

    let (number, answer) = match second {
        ReplyByte::More => (0, 0),
        ReplyByte::Last => (1, 0),
        ReplyByte::Refused(answer) => (2, answer),
    };
    let what = || {
        format!(
            "{library:?}, second program {second:?}, count {after}: byte &{byte:02X} at {count} of call {kind:?}"
        )
    };
    report.check(group.kind, library.kind == number, what);
    report.check(group.answer, library.answer == answer, what);
    report.check(group.count, library.count as usize == after, what);
    report.check(group.reply, library_lent == *lent, || {
        format!("{}: {}", difference(&library_lent, lent, GUARD), what())
    });
    after as u16
}

impl Random {
    fn reply_lent(&mut self) -> Lent {
        let mut lent = [0; GUARD + LENT + GUARD];
        self.fill(&mut lent);
        // What stands there already counts for nothing.
        if self.one_in(4) {
            lent[GUARD] = self.edge();
        }
        lent
    }

    /// A call, now and then a number that is none, and any out length.
    fn reply_kind(&mut self) -> (u8, u8) {
        let (call, out_length) = self.call();
        match self.below(16) {
            0 => (self.at_least(CALLS), self.byte()),
            1 => (OSWORD, [0, 1, 2, 255][self.below(4)]),
            _ => (call, out_length),
        }
    }

    /// A count around the longest reply, most often below its end.
    fn reply_count(&mut self, (call, out_length): (u8, u8)) -> u16 {
        let longest = most(call.min(CALLS) + 1, out_length);
        let count = match self.below(16) {
            0 => longest,
            1 => longest + 1 + self.below(20),
            2 => return self.next() as u16,
            // Within the limit in its lowest bits only.
            3 => self.below(longest + 1) + (256 << self.below(8)),
            4..8 => longest.saturating_sub(1 + self.below(3)),
            8..10 => self.below(3),
            _ => self.below(longest.max(1)),
        };
        count as u16
    }
}

/// Flips, inserts, drops and cuts.
fn damage(random: &mut Random, bytes: &mut Vec<u8>) {
    for _ in 0..1 + random.below(3) {
        let at = random.below(bytes.len() + 1);
        let within = at < bytes.len();
        match random.below(5) {
            0 if within => bytes[at] ^= 1 << random.below(8),
            1 if within => {
                bytes.remove(at);
            }
            2 => bytes.truncate(at),
            3 if within => bytes[at] = 0x0D,
            _ => bytes.insert(at, random.edge()),
        }
    }
}

/// Replies, good and damaged and lines too long, each byte at the count that the
/// last one left; a few bytes more behind their end.
fn compare_parallel(random: &mut Random, count: u64, seen: &mut Seen, report: &mut Report) {
    for number in 0..count {
        let kind = random.reply_kind();
        let mixture = random.below(4);
        let mut bytes = match kind {
            (OSWORD_0, _) if random.one_in(4) => {
                let length = 254 + random.below(5);
                random.line(mixture, length)
            }
            (CALLS.., _) => random.bytes(mixture, 3),
            _ => random.reply(kind, mixture),
        };
        if number % 2 == 1 {
            damage(random, &mut bytes);
        }
        let more = random.below(3);
        bytes.extend(random.bytes(1, more));
        let mut lent = random.reply_lent();
        let mut at = 0;
        for byte in bytes {
            at = compare_taken(kind, at, byte, &mut lent, &REPLY_BYTES, seen, report);
        }
    }
}

fn compare_step(
    random: &mut Random,
    kind: (u8, u8),
    count: u16,
    byte: u8,
    seen: &mut Seen,
    report: &mut Report,
) {
    let mut lent = random.reply_lent();
    compare_taken(kind, count, byte, &mut lent, &STEP, seen, report);
}

fn compare_steps(random: &mut Random, count: u64, seen: &mut Seen, report: &mut Report) {
    for _ in 0..count {
        let kind = random.reply_kind();
        let count = random.reply_count(kind);
        let byte = random.mixed(1);
        compare_step(random, kind, count, byte, seen, report);
    }
}

/// Every count of each call; every count around the end of each out length and of
/// lines, with the bytes at which rules change; every byte of every call.
fn compare_each_step(random: &mut Random, seen: &mut Seen, report: &mut Report) {
    const BYTES: [u8; 6] = [0x9B, 0x0D, 0x00, 0x7F, 0x80, 0x41];
    for (_, call, count) in every(1, 1 + CALLS as usize, 65_536) {
        let call = match call as u8 {
            CALLS => random.at_least(CALLS),
            call => call,
        };
        let kind = (call, random.byte());
        let byte = random.mixed(1);
        compare_step(random, kind, count as u16, byte, seen, report);
    }
    for (out_length, count, at) in every(256, LENT + 3, BYTES.len()) {
        let near = count + 4 > out_length && count < out_length + 4;
        if near || count < 2 || count > LENT - 3 {
            let kind = (OSWORD, out_length as u8);
            compare_step(random, kind, count as u16, BYTES[at], seen, report);
        }
    }
    for (call, count, at) in every(CALLS as usize, LENT + 8, BYTES.len()) {
        let kind = (call as u8, random.at_least(250));
        compare_step(random, kind, count as u16, BYTES[at], seen, report);
    }
    for (call, byte, at) in every(256, 256, 4) {
        let kind = (call as u8, random.byte());
        let longest = most(kind.0.min(CALLS) + 1, kind.1) as u16;
        let count = [0, longest.saturating_sub(1), longest, longest + 1][at];
        compare_step(random, kind, count, byte as u8, seen, report);
    }
}

// ---- Fields of byte lists ----

const LISTS: u64 = 1_000_000;

fn shown_given(given: &Given) -> TubeGiven {
    TubeGiven {
        block_start: given.block.start,
        block_length: given.block.len(),
        text_start: given.text.start,
        text_length: given.text.len(),
        reply: given.reply,
        carry: given.carry as u8,
        x: given.x,
        y: given.y,
        a: given.a,
    }
}

fn compare_list(kind: (u8, u8), bytes: &[u8], seen: &mut Seen, report: &mut Report) {
    let library = library_given(kind, bytes);
    let second = shown_given(&link::given(kind.0, bytes));
    if let Some(lists) = seen.lists[kind.0.min(CALLS) as usize].get_mut(bytes.len()) {
        *lists += 1;
    }
    let what = || {
        let start = &bytes[..bytes.len().min(40)];
        format!(
            "{library:?}, second program {second:?}: call {kind:?}, {} bytes {start:02X?}",
            bytes.len()
        )
    };
    report.check(Property::GivenReply, library.reply == second.reply, what);
    let numbers = |given: &TubeGiven| (given.carry, given.x, given.y, given.a);
    report.check(
        Property::GivenNumbers,
        numbers(&library) == numbers(&second),
        what,
    );
    let block = |given: &TubeGiven| (given.block_start, given.block_length);
    report.check(
        Property::GivenBlock,
        block(&library) == block(&second),
        what,
    );
    let text = |given: &TubeGiven| (given.text_start, given.text_length);
    report.check(Property::GivenText, text(&library) == text(&second), what);
}

/// Byte lists of every length for each call.
fn compare_each_list(random: &mut Random, seen: &mut Seen, report: &mut Report) {
    for (call, length, _) in every(1 + CALLS as usize, LENT + 8, 40) {
        let mixture = random.below(4);
        let bytes = random.bytes(mixture, length);
        let out_length = match random.below(3) {
            0 => random.byte(),
            _ => length.min(255) as u8,
        };
        compare_list((call as u8, out_length), &bytes, seen, report);
    }
    for call in 0..=255 {
        for length in [20, 65_536 + random.below(20)] {
            let bytes = random.bytes(1, length);
            compare_list((call, random.byte()), &bytes, seen, report);
        }
    }
}

/// Finished replies, and any bytes.
fn compare_lists(random: &mut Random, count: u64, seen: &mut Seen, report: &mut Report) {
    for _ in 0..count {
        let kind = random.call();
        let mixture = random.below(4);
        let bytes = match random.one_in(2) {
            true => random.reply(kind, mixture),
            false => {
                let length = random.below(24);
                random.bytes(mixture, length)
            }
        };
        compare_list(kind, &bytes, seen, report);
    }
    for _ in 0..count / 10 {
        compare_normal(random, report);
    }
}

// ---- All of it ----

pub fn report() -> Report {
    Report::new(&PROPERTIES)
}

/// One input in `share` of each kind that is drawn at random.
fn compare_random(random: &mut Random, share: u64, seen: &mut Seen, report: &mut Report) {
    compare_replies(random, WRITTEN / share, seen, report);
    compare_parallel(random, TAKEN / share, seen, report);
    compare_steps(random, STEPS / share, seen, report);
    compare_lists(random, LISTS / share, seen, report);
}

pub fn whole(random: &mut Random, report: &mut Report) {
    let mut seen = Seen::new();
    compare_random(random, 1, &mut seen, report);
    compare_each(random, &mut seen, report);
    compare_each_step(random, &mut seen, report);
    compare_each_list(random, &mut seen, report);
    seen.report(report);
}

pub fn share(random: &mut Random, share: u64, report: &mut Report) {
    compare_random(random, share, &mut Seen::new(), report);
}
