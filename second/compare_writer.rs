//! The request writer, and requests taken apart: the same requests, lent buffers
//! and bodies go to the library and to the second program, and everything they give
//! is compared.

use crate::interface::{
    TubeAsked, TubeRead, TubeWritten, tube_feed, tube_file_name, tube_kind_of, tube_read,
    tube_read_request, tube_reader, tube_write_request,
};
use crate::link::serial::{self, Asked, BODY, PARALLEL, Read, Reader, Request, SERIAL};
use crate::link::{
    self, CALLS, OSARGS, OSBGET, OSBPUT, OSBYTE_HIGH, OSBYTE_LOW, OSCLI, OSFILE, OSFIND_CLOSE,
    OSFIND_OPEN, OSGBPB, OSWORD, OSWORD_0,
};
use crate::random::Random;
use crate::report::{Report, Row, difference, every};

/// Calls the library, lending the bytes of `out` between the guards.
fn library_write(request: &Request, out: &mut [u8], lent: usize) -> TubeWritten {
    assert_eq!(out.len(), GUARD + lent + GUARD);
    unsafe {
        tube_write_request(
            request.carrier,
            request.style,
            request.call,
            request.x,
            request.y,
            request.a,
            request.out_length,
            request.block.as_ptr(),
            request.block.len(),
            request.text.as_ptr(),
            request.text.len(),
            out.as_mut_ptr().add(GUARD),
            lent,
        )
    }
}

const GUARD: usize = 16;

/// The code of each call.
const CODES: [u8; CALLS as usize] = [
    0x00, 0x02, 0x04, 0x06, 0x08, 0x0A, 0x0C, 0x0E, 0x10, 0x12, 0x12, 0x14, 0x16,
];

fn has_text(call: u8) -> bool {
    [OSCLI, OSFIND_OPEN, OSFILE].contains(&call)
}

/// The block length of a call; OSWORD may have any up to 255.
fn block_length(call: u8) -> Option<usize> {
    match call {
        OSWORD => Some(255),
        OSWORD_0 => Some(5),
        OSARGS => Some(4),
        OSFILE => Some(16),
        OSGBPB => Some(13),
        _ => None,
    }
}

// ---- Properties ----

#[derive(Clone, Copy)]
enum Property {
    Answer,
    Length,
    Encoding,
    Beyond,
    Refused,
    Exact,
    OneShort,
    OneMore,
    Empty,
    MuchLonger,
    ReadBack,
    TripRead,
    TripFields,
    TripBytes,
    AskedCall,
    AskedNumbers,
    AskedBlock,
    AskedText,
    KindAny,
    KindRequest,
    NameAny,
    NameRequest,
    InputCalls,
    InputRules,
    InputPairs,
    InputSizes,
    InputBodies,
    InputLengths,
    InputClasses,
}

impl From<Property> for usize {
    fn from(property: Property) -> usize {
        property as usize
    }
}

#[rustfmt::skip]
const PROPERTIES: [Row<Property>; 29] = [
    (Property::Answer, "write: answer", 6 * REQUESTS),
    (Property::Length, "write: length", 6 * REQUESTS),
    (Property::Encoding, "write: the encoding", REQUESTS),
    (Property::Beyond, "write: bytes beyond the encoding stay", REQUESTS),
    (Property::Refused, "write: a refusal touches no byte", REQUESTS),
    (Property::Exact, "write: a buffer just long enough", REQUESTS),
    (Property::OneShort, "write: a buffer one byte short", REQUESTS),
    (Property::OneMore, "write: a buffer one byte longer", REQUESTS),
    (Property::Empty, "write: an empty buffer", REQUESTS),
    (Property::MuchLonger, "write: a buffer much longer", REQUESTS),
    (Property::ReadBack, "write: the second program reads the request again", REQUESTS / 4),
    (Property::TripRead, "round trip: the library reads the request that it wrote", REQUESTS / 4),
    (Property::TripFields, "round trip: taken apart, the same fields", REQUESTS / 4),
    (Property::TripBytes, "round trip: written again, the same bytes", REQUESTS / 4),
    (Property::AskedCall, "fields: which call", 2 * BODIES),
    (Property::AskedNumbers, "fields: X, Y, A and out length", 2 * BODIES),
    (Property::AskedBlock, "fields: place of the block", 2 * BODIES),
    (Property::AskedText, "fields: place of the string", 2 * BODIES),
    (Property::KindAny, "kind: call and out length of any code and body", 2 * BODIES),
    (Property::KindRequest, "kind: call and out length of a request written", REQUESTS / 4),
    (Property::NameAny, "name: in any body", 2 * BODIES),
    (Property::NameRequest, "name: in an OSFILE written", REQUESTS / 60),
    (Property::InputCalls, "inputs: each answer for each call, style and carrier", 1),
    (Property::InputRules, "inputs: each rule broken alone for each call", 1),
    (Property::InputPairs, "inputs: each two rules broken together", 1),
    (Property::InputSizes, "inputs: string and block lengths", 1),
    (Property::InputBodies, "inputs: bodies of each code, also empty", 1),
    (Property::InputLengths, "inputs: bodies of each length for each code", 1),
    (Property::InputClasses, "inputs: finished, cut and damaged bodies of each call", 1),
];

// ---- Random inputs ----

/// A request that owns its block and string.
#[derive(Clone, PartialEq, Debug)]
struct Owned {
    carrier: u8,
    style: u8,
    call: u8,
    x: u8,
    y: u8,
    a: u8,
    out_length: u8,
    block: Vec<u8>,
    text: Vec<u8>,
}

impl Owned {
    fn lend(&self) -> Request<'_> {
        Request {
            carrier: self.carrier,
            style: self.style,
            call: self.call,
            x: self.x,
            y: self.y,
            a: self.a,
            out_length: self.out_length,
            block: &self.block,
            text: &self.text,
        }
    }

    /// A request that keeps every rule.
    fn good(random: &mut Random, carrier: u8, call: u8) -> Owned {
        let mixture = random.below(4);
        let block_length = match block_length(call) {
            Some(255) => random.length(),
            length => length.unwrap_or(0),
        };
        let text_length = if has_text(call) { random.length() } else { 0 };
        let a = random.mixed(mixture);
        let a = match call {
            OSBYTE_LOW => a & 0x7F,
            OSBYTE_HIGH => a | 0x80,
            OSWORD | OSFIND_OPEN => a.max(1),
            _ => a,
        };
        Owned {
            carrier,
            style: match carrier {
                SERIAL => random.below(4) as u8,
                _ => 0,
            },
            call,
            x: random.mixed(mixture),
            y: random.mixed(mixture),
            a,
            out_length: random.mixed(mixture),
            block: random.bytes(mixture, block_length),
            text: random.without(0x0D, mixture, text_length),
        }
    }

    /// The same with 0 for the numbers that the call does not have.
    fn plain_numbers(&self) -> Owned {
        let (x, y, a, out_length) = match self.call {
            OSBYTE_LOW => (true, false, true, false),
            OSBYTE_HIGH => (true, true, true, false),
            OSWORD => (false, false, true, true),
            OSARGS | OSBPUT => (false, true, true, false),
            OSBGET | OSFIND_CLOSE => (false, true, false, false),
            OSFIND_OPEN | OSFILE | OSGBPB => (false, false, true, false),
            _ => (false, false, false, false),
        };
        let only = |has: bool, number: u8| if has { number } else { 0 };
        Owned {
            x: only(x, self.x),
            y: only(y, self.y),
            a: only(a, self.a),
            out_length: only(out_length, self.out_length),
            ..self.clone()
        }
    }

    /// A request made of what the library has taken a body apart into.
    fn from_asked((carrier, style): (u8, u8), body: &[u8], asked: &TubeAsked) -> Owned {
        let part = |start: usize, length: usize| {
            let end = start.saturating_add(length);
            body.get(start..end).unwrap_or(&[]).to_vec()
        };
        Owned {
            carrier,
            style,
            call: asked.call,
            x: asked.x,
            y: asked.y,
            a: asked.a,
            out_length: asked.out_length,
            block: part(asked.block_start, asked.block_length),
            text: part(asked.text_start, asked.text_length),
        }
    }

    /// Breaks a rule; false where this call has no such rule.
    fn break_rule(&mut self, random: &mut Random, rule: Rule) -> bool {
        let call = self.call;
        let mixture = random.below(4);
        match rule {
            Rule::Style => {
                let low = if self.carrier == SERIAL { 4 } else { 1 };
                self.style = if random.one_in(2) {
                    low
                } else {
                    random.at_least(low)
                };
            }
            Rule::Number => match call {
                OSBYTE_LOW => self.a |= 0x80,
                OSBYTE_HIGH => self.a &= 0x7F,
                OSWORD | OSFIND_OPEN => self.a = 0,
                _ => return false,
            },
            Rule::BlockLength => {
                let Some(good) = block_length(call) else {
                    return false;
                };
                let long = good + 1 + random.below(10);
                let length = match random.below(6) {
                    0 => good + 1,
                    // The same in its lowest bits.
                    1 => good + (256 << random.below(6)),
                    2 => long,
                    _ if call == OSWORD => 256 + random.below(300),
                    3 => 0,
                    4 => good - 1,
                    _ => random.below(good),
                };
                self.block = random.bytes(mixture, length);
            }
            Rule::StringEnd => {
                if !has_text(call) {
                    return false;
                }
                if self.text.is_empty() {
                    self.text.push(0);
                }
                let at = match random.below(3) {
                    0 => 0,
                    1 => self.text.len() - 1,
                    _ => random.below(self.text.len()),
                };
                self.text[at] = 0x0D;
            }
            Rule::BlockGiven => {
                if block_length(call).is_some() {
                    return false;
                }
                let length = 1 + random.length();
                self.block = random.bytes(mixture, length);
            }
            Rule::TextGiven => {
                if has_text(call) {
                    return false;
                }
                let length = random.length().max(1);
                self.text = random.bytes(mixture, length);
            }
            Rule::LongText => {
                let length = match random.below(4) {
                    0 => 256,
                    1 => 257 + random.below(300),
                    // A good length in its lowest bits.
                    2 => 256 << random.below(6),
                    _ => 256 + random.below(3),
                };
                self.text = random.bytes(mixture, length);
            }
            Rule::Call => self.call = random.at_least(CALLS),
            Rule::Carrier => self.carrier = random.at_least(2),
        }
        true
    }
}

#[derive(Clone, Copy)]
enum Rule {
    Style,
    Number,
    BlockLength,
    StringEnd,
    BlockGiven,
    TextGiven,
    LongText,
    Call,
    Carrier,
}

const RULES: [(Rule, &str); 9] = [
    (Rule::Style, "style"),
    (Rule::Number, "number"),
    (Rule::BlockLength, "block length"),
    (Rule::StringEnd, "&0D in the string"),
    (Rule::BlockGiven, "block given"),
    (Rule::TextGiven, "string given"),
    (Rule::LongText, "long string"),
    (Rule::Call, "call number"),
    (Rule::Carrier, "carrier"),
];

/// Whether some call has both rules, the second one still there when the first is
/// broken, and not mending it.
fn together(first: Rule, second: Rule) -> bool {
    use Rule::*;
    let apart = matches!(
        (first, second),
        (BlockLength, BlockGiven)
            | (BlockGiven, BlockLength)
            | (StringEnd, TextGiven)
            | (TextGiven, StringEnd)
            | (StringEnd, LongText)
            | (LongText, TextGiven)
            | (Call, _)
    );
    !apart && first as usize != second as usize
}

// ---- What the inputs were ----

struct Seen {
    /// By carrier, call and answer.
    answers: [[[u64; 10]; CALLS as usize]; 2],
    /// Written, by call and style on the serial carrier.
    styles: [[u64; 4]; CALLS as usize],
    /// Broken alone, by carrier, call and rule.
    rules: [[[u64; RULES.len()]; CALLS as usize]; 2],
    /// Two rules broken, the second one after the first.
    pairs: [[u64; RULES.len()]; RULES.len()],
    /// String lengths written by each call with one, and OSWORD's blocks.
    texts: [[bool; 256]; CALLS as usize],
    blocks: [bool; 256],
    /// Bodies taken apart, by code: empty, starting with 0, others.
    bodies: [[u64; 3]; 256],
    /// By code and length.
    lengths: [[u64; LENGTHS]; 256],
    /// By the call that they were made for and what became of them.
    classes: [[u64; CLASSES]; CALLS as usize],
}

impl Seen {
    fn new() -> Box<Seen> {
        Box::new(Seen {
            answers: [[[0; 10]; CALLS as usize]; 2],
            styles: [[0; 4]; CALLS as usize],
            rules: [[[0; RULES.len()]; CALLS as usize]; 2],
            pairs: [[0; RULES.len()]; RULES.len()],
            texts: [[false; 256]; CALLS as usize],
            blocks: [false; 256],
            bodies: [[0; 3]; 256],
            lengths: [[0; LENGTHS]; 256],
            classes: [[0; CLASSES]; CALLS as usize],
        })
    }

    fn note(&mut self, request: &Request, answer: u8) {
        let Request {
            carrier,
            style,
            call,
            ..
        } = *request;
        if carrier > PARALLEL || call >= CALLS {
            return;
        }
        self.answers[carrier as usize][call as usize][answer as usize] += 1;
        if answer == 0 {
            if carrier == SERIAL {
                self.styles[call as usize][style as usize] += 1;
            }
            self.texts[call as usize][request.text.len()] = true;
            if call == OSWORD {
                self.blocks[request.block.len()] = true;
            }
        }
    }

    /// Notes a body taken apart.
    fn body(&mut self, code: u8, body: &[u8]) {
        let class = match body {
            [] => 0,
            [0, ..] => 1,
            _ => 2,
        };
        self.bodies[code as usize][class] += 1;
        if let Some(length) = self.lengths[code as usize].get_mut(body.len()) {
            *length += 1;
        }
    }

    fn report(&self, report: &mut Report) {
        report.need(Property::InputCalls, self.few_calls());
        report.need(Property::InputRules, self.few_rules());
        report.need(Property::InputPairs, self.few_pairs());
        report.need(Property::InputSizes, self.few_sizes());
        let few = every(1, 256, 3).find(|&(_, code, body)| self.bodies[code][body] < 20);
        let few = few.map(|(_, code, body)| format!("bodies {body} of code &{code:02X}"));
        report.need(Property::InputBodies, few);
        let few = every(1, 256, LENGTHS).find(|&(_, code, length)| {
            let carried = CODES.contains(&(code as u8));
            self.lengths[code][length] < if carried { 20 } else { 1 }
        });
        let few = few.map(|(_, code, length)| format!("bodies of {length} bytes, &{code:02X}"));
        report.need(Property::InputLengths, few);
        let few = every(1, CALLS as usize, CLASSES).find(|&(_, call, class)| {
            // A body without a byte cannot be cut.
            let possible = class != CUT || call != 0;
            possible && self.classes[call][class] < 1000
        });
        let few = few.map(|(_, call, class)| format!("{} bodies, call {call}", CLASS_NAMES[class]));
        report.need(Property::InputClasses, few);
    }

    fn few_calls(&self) -> Option<String> {
        for call in 0..CALLS as usize {
            for carrier in 0..2 {
                for answer in [0, 6, 8, 9] {
                    if self.answers[carrier][call][answer] < 500 {
                        return Some(format!("answers {answer}, call {call}, carrier {carrier}"));
                    }
                }
            }
            for style in 0..4 {
                if self.styles[call][style] < 500 {
                    return Some(format!("requests of call {call}, style {style}"));
                }
            }
        }
        None
    }

    fn few_rules(&self) -> Option<String> {
        for carrier in 0..2 {
            for call in 0..CALLS {
                for (rule, name) in RULES {
                    let possible = match rule {
                        Rule::Number => {
                            [OSBYTE_LOW, OSBYTE_HIGH, OSWORD, OSFIND_OPEN].contains(&call)
                        }
                        Rule::BlockLength => block_length(call).is_some(),
                        Rule::BlockGiven => block_length(call).is_none(),
                        Rule::StringEnd => has_text(call),
                        Rule::TextGiven => !has_text(call),
                        _ => true,
                    };
                    let broken = self.rules[carrier][call as usize][rule as usize];
                    if possible && broken < 50 {
                        return Some(format!("with {name}, call {call}, carrier {carrier}"));
                    }
                }
            }
        }
        None
    }

    fn few_pairs(&self) -> Option<String> {
        for (first, first_name) in RULES {
            for (second, second_name) in RULES {
                let broken = self.pairs[first as usize][second as usize];
                if together(first, second) && broken < 8 {
                    return Some(format!("with {first_name}, then {second_name}"));
                }
            }
        }
        None
    }

    fn few_sizes(&self) -> Option<String> {
        for length in 0..256 {
            for call in 0..CALLS {
                if has_text(call) && !self.texts[call as usize][length] {
                    return Some(format!("strings of {length} bytes, call {call}"));
                }
            }
            if !self.blocks[length] {
                return Some(format!("OSWORD blocks of {length} bytes"));
            }
        }
        None
    }
}

// ---- Requests ----

const REQUESTS: u64 = 120_000;

fn compare_requests(random: &mut Random, count: u64, seen: &mut Seen, report: &mut Report) {
    for number in 0..count {
        let carrier = random.below(2) as u8;
        let call = random.below(CALLS as usize) as u8;
        let mut request = Owned::good(random, carrier, call);
        match random.below(16) {
            0..8 => {}
            8..14 => {
                let (rule, _) = RULES[random.below(RULES.len())];
                if request.break_rule(random, rule) {
                    seen.rules[carrier as usize][call as usize][rule as usize] += 1;
                }
            }
            14 => {
                for _ in 0..2 + random.below(2) {
                    let (rule, _) = RULES[random.below(RULES.len())];
                    request.break_rule(random, rule);
                }
            }
            // Any numbers, so that the unused ones show too.
            _ => {
                request.x = random.byte();
                request.y = random.byte();
                request.a = random.byte();
                request.out_length = random.byte();
                request.style = random.below(6) as u8;
            }
        }
        let name = format!("request {number}");
        compare_request(random, &request, &name, seen, report);
    }
}

/// Every A, style, block length and string length of each call, and every two
/// rules broken together.
fn compare_each(random: &mut Random, seen: &mut Seen, report: &mut Report) {
    for carrier in [SERIAL, PARALLEL] {
        for call in 0..CALLS {
            for byte in 0..=255 {
                let mut request = Owned::good(random, carrier, call);
                request.a = byte;
                compare_request(random, &request, "each A", seen, report);
                let mut request = Owned::good(random, carrier, call);
                request.style = byte;
                compare_request(random, &request, "each style", seen, report);
            }
            for (_, first, second) in every(4, RULES.len(), RULES.len()) {
                let mut request = Owned::good(random, carrier, call);
                let broken = request.break_rule(random, RULES[first].0);
                if broken && request.break_rule(random, RULES[second].0) {
                    seen.pairs[first][second] += 1;
                }
                compare_request(random, &request, "two rules", seen, report);
            }
            for length in 0..300 {
                let mut request = Owned::good(random, carrier, call);
                let mixture = random.below(4);
                request.block = random.bytes(mixture, length);
                compare_request(random, &request, "each block length", seen, report);
                let mut request = Owned::good(random, carrier, call);
                request.text = random.without(0x0D, mixture, length);
                compare_request(random, &request, "each string length", seen, report);
            }
        }
    }
    for byte in 0..=255 {
        let mut request = Owned::good(random, SERIAL, 0);
        request.call = byte;
        compare_request(random, &request, "each call", seen, report);
        let mut request = Owned::good(random, SERIAL, 0);
        (request.carrier, request.style) = (byte, 0);
        compare_request(random, &request, "each carrier", seen, report);
    }
}

/// A request in words, long fields cut.
fn shown(request: &Request) -> String {
    let (block, text) = (request.block, request.text);
    let cut = Request {
        block: &block[..block.len().min(20)],
        text: &text[..text.len().min(20)],
        ..*request
    };
    let (block, text) = (block.len(), text.len());
    format!("{cut:02X?}, block of {block} and string of {text} bytes")
}

/// Writes one request into buffers of several lengths on both and compares.
fn compare_request(
    random: &mut Random,
    owned: &Owned,
    name: &str,
    seen: &mut Seen,
    report: &mut Report,
) {
    let request = owned.lend();
    let mut large = [0; 2 + 2 * BODY];
    // A refused request has no size; its buffers are of any length.
    let (size, refusal) = match request.write(&mut large) {
        Ok(size) => (size, None),
        Err(number) => (1 + random.below(600), Some(number)),
    };
    if refusal.is_none() {
        compare_read_back(&request, &large[..size], name, report);
        compare_trip(owned, size, name, report);
    }
    let lengths = [
        (size, Property::Exact),
        (size - 1, Property::OneShort),
        (size + 1, Property::OneMore),
        (0, Property::Empty),
        (size + 100 + random.below(400), Property::MuchLonger),
    ];
    for (lent, property) in lengths {
        let good = compare_buffer(random, &request, lent, name, seen, report);
        report.check(property, good, || {
            format!(
                "{name} with {lent} bytes lent, size {size}: {}",
                shown(&request)
            )
        });
    }
    // Every length around the size, and any one below it.
    let around = size.saturating_sub(6)..=size + 6;
    for lent in around.chain([random.below(size)]) {
        compare_buffer(random, &request, lent, name, seen, report);
    }
}

/// One buffer; true where all is equal.
fn compare_buffer(
    random: &mut Random,
    request: &Request,
    lent: usize,
    name: &str,
    seen: &mut Seen,
    report: &mut Report,
) -> bool {
    let mut before = vec![0; GUARD + lent + GUARD];
    random.fill(&mut before);
    let (mut out, mut expected) = (before.clone(), before.clone());
    let library = library_write(request, &mut out, lent);
    let second = request.write(&mut expected[GUARD..GUARD + lent]);
    let (length, answer) = match second {
        Ok(length) => (length, 0),
        Err(number) => (0, number),
    };
    seen.note(request, answer);

    let what = || {
        format!(
            "{library:?}, second program {second:?}: {name} with {lent} bytes lent, {}",
            shown(request)
        )
    };
    report.check(Property::Answer, library.answer == answer, what);
    report.check(Property::Length, library.length == length, what);
    let at = || format!("{}: {}", difference(&out, &expected, GUARD), what());
    if answer == 0 {
        let whole = GUARD..GUARD + length;
        let equal = out[whole.clone()] == expected[whole.clone()];
        report.check(Property::Encoding, equal, at);
        let beyond = out[..GUARD] == before[..GUARD] && out[whole.end..] == before[whole.end..];
        report.check(Property::Beyond, beyond, at);
    } else {
        report.check(Property::Refused, out == before, at);
    }
    library.answer == answer && library.length == length && out == expected
}

/// The body of a request that keeps its rules, in plain bytes.
fn plain_body(request: &Request) -> Vec<u8> {
    let Request { x, y, a, .. } = *request;
    let (block, text) = (request.block, request.text);
    match request.call {
        OSCLI => [text, &[0x0D]].concat(),
        OSBYTE_LOW => vec![x, a],
        OSBYTE_HIGH => vec![x, y, a],
        OSWORD => [&[a, block.len() as u8], block, &[request.out_length]].concat(),
        OSWORD_0 => block.to_vec(),
        OSARGS => [&[y], block, &[a]].concat(),
        OSBGET => vec![y],
        OSBPUT => vec![y, a],
        OSFIND_CLOSE => vec![0, y],
        OSFIND_OPEN => [&[a], text, &[0x0D]].concat(),
        OSFILE => [block, text, &[0x0D, a]].concat(),
        OSGBPB => [block, &[a]].concat(),
        _ => vec![],
    }
}

/// The library's encoding, read by the second program, gives the request at its
/// last byte and not before.
fn compare_read_back(request: &Request, encoding: &[u8], name: &str, report: &mut Report) {
    let size = encoding.len();
    let mut out = vec![0; GUARD + size + GUARD];
    library_write(request, &mut out, size);
    let mut reader = Reader::new(request.carrier);
    let mut body = [0; BODY];
    let plain = plain_body(request);
    let expected = Read::Request {
        style: request.style,
        code: CODES[request.call as usize],
        length: plain.len(),
    };
    let good = (0..size).all(|at| {
        let read = reader.read(out[GUARD + at], &mut body);
        read == if at + 1 < size { Read::More } else { expected }
    });
    let good = good && body[..plain.len()] == plain;
    report.check(Property::ReadBack, good, || {
        let start = &out[GUARD..GUARD + size.min(60)];
        format!("{start:02X?}, {size} bytes: {name}, {}", shown(request))
    });
}

// ---- Round trips through the library ----

/// What the library reads from raw bytes: style, code and body, where the last byte
/// finishes a request and none before it gives an answer, and one slice gives the
/// same.
fn library_read(carrier: u8, raw: &[u8]) -> Option<(u8, u8, Vec<u8>)> {
    let (mut body, mut fed_body) = ([0; BODY], [0; BODY]);
    let (last, before) = raw.split_last()?;
    let mut reader = unsafe { tube_reader(carrier) };
    for &byte in before {
        let read = unsafe { tube_read(reader, byte, body.as_mut_ptr()) };
        if read.kind != 0 {
            return None;
        }
        reader = read.reader;
    }
    let read = unsafe { tube_read(reader, *last, body.as_mut_ptr()) };
    let fresh = unsafe { tube_reader(carrier) };
    let fed = unsafe { tube_feed(fresh, raw.as_ptr(), raw.len(), fed_body.as_mut_ptr()) };
    let found = |one: TubeRead| (one.kind, one.style, one.code, one.length, one.reader);
    let same = found(read) == found(fed.read) && body == fed_body && fed.used == raw.len();
    let body = body.get(..read.length as usize)?;
    (same && read.kind == 2).then(|| (read.style, read.code, body.to_vec()))
}

fn library_asked(code: u8, body: &[u8]) -> TubeAsked {
    unsafe { tube_read_request(code, body.as_ptr(), body.len()) }
}

fn library_kind(code: u8, body: &[u8]) -> (u8, u8) {
    let kind = unsafe { tube_kind_of(code, body.as_ptr(), body.len()) };
    (kind.call, kind.out_length)
}

fn library_name(body: &[u8]) -> Result<usize, u8> {
    let name = unsafe { tube_file_name(body.as_ptr(), body.len()) };
    match name.answer {
        0 => Ok(name.length),
        number => Err(number),
    }
}

/// A request written by the library, read and taken apart by it, and written again.
fn compare_trip(owned: &Owned, size: usize, name: &str, report: &mut Report) {
    let request = owned.lend();
    let (call, plain) = (request.call, plain_body(&request));
    let mut out = vec![0; GUARD + size + GUARD];
    library_write(&request, &mut out, size);
    let raw = &out[GUARD..GUARD + size];
    let what = || format!("{raw:02X?}: {name}, {}", shown(&request));

    let read = library_read(request.carrier, raw);
    let expected = (request.style, CODES[call as usize], plain);
    let good = read.as_ref() == Some(&expected);
    report.check(Property::TripRead, good, || {
        format!("{read:02X?}: {}", what())
    });

    let (style, code, body) = read.unwrap_or(expected);
    let asked = library_asked(code, &body);
    let again = Owned::from_asked((request.carrier, style), &body, &asked);
    let good = again == owned.plain_numbers();
    report.check(Property::TripFields, good, || {
        format!("{asked:02X?}: {}", what())
    });

    let mut bytes = vec![0; GUARD + size + GUARD];
    let written = library_write(&again.lend(), &mut bytes, size);
    let good = (written.answer, written.length) == (0, size) && bytes == out;
    report.check(Property::TripBytes, good, || {
        format!("{written:?}, {bytes:02X?}: {}", what())
    });

    let kind = library_kind(code, &body);
    let good = kind == (call, owned.plain_numbers().out_length);
    report.check(Property::KindRequest, good, || {
        format!("{kind:?}: {}", what())
    });
    if call == OSFILE {
        let found = library_name(&body);
        let good = found == Ok(request.text.len());
        report.check(Property::NameRequest, good, || {
            format!("{found:?}: {}", what())
        });
    }
}

// ---- Bodies taken apart ----

/// Bodies at random, as many of any bytes as of those made for a call.
const BODIES: u64 = 500_000;

/// Lengths of bodies, some longer than the longest.
const LENGTHS: usize = BODY + 9;

// What becomes of a body made for a call.
const FINISHED: usize = 0;
const CUT: usize = 1;
const DAMAGED: usize = 2;
const OTHER_CODE: usize = 3;
const CLASSES: usize = 4;

const CLASS_NAMES: [&str; CLASSES] = ["finished", "cut", "damaged", "another code's"];

fn shown_asked(asked: &Asked) -> TubeAsked {
    TubeAsked {
        block_start: asked.block.start,
        block_length: asked.block.len(),
        text_start: asked.text.start,
        text_length: asked.text.len(),
        call: asked.call,
        x: asked.x,
        y: asked.y,
        a: asked.a,
        out_length: asked.out_length,
    }
}

/// Takes one body apart on both, and compares its kind and its name too.
fn compare_body(code: u8, body: &[u8], seen: &mut Seen, report: &mut Report) {
    seen.body(code, body);
    let what = || {
        let start = &body[..body.len().min(40)];
        format!("code &{code:02X}, {} bytes {start:02X?}", body.len())
    };
    let library = library_asked(code, body);
    let second = shown_asked(&serial::asked(code, body));
    let both = || format!("{library:?}, second program {second:?}: {}", what());
    report.check(Property::AskedCall, library.call == second.call, both);
    let numbers = |asked: &TubeAsked| (asked.x, asked.y, asked.a, asked.out_length);
    let good = numbers(&library) == numbers(&second);
    report.check(Property::AskedNumbers, good, both);
    let block = |asked: &TubeAsked| (asked.block_start, asked.block_length);
    let good = block(&library) == block(&second);
    report.check(Property::AskedBlock, good, both);
    let text = |asked: &TubeAsked| (asked.text_start, asked.text_length);
    let good = text(&library) == text(&second);
    report.check(Property::AskedText, good, both);

    let (library, second) = (library_kind(code, body), link::kind_of(code, body));
    report.check(Property::KindAny, library == second, || {
        format!("{library:?}, second program {second:?}: {}", what())
    });
    let (library, second) = (library_name(body), serial::file_name(body));
    report.check(Property::NameAny, library == second, || {
        format!("{library:?}, second program {second:?}: {}", what())
    });
}

/// Flips, inserts, drops and repeats.
fn damage(random: &mut Random, body: &mut Vec<u8>) {
    for _ in 0..1 + random.below(3) {
        let at = random.below(body.len() + 1);
        let within = at < body.len();
        match random.below(6) {
            0 if within => body[at] ^= 1 << random.below(8),
            1 if within => body[at] = random.edge(),
            2 if within => {
                body.remove(at);
            }
            3 if within => body.insert(at, body[at]),
            4 => {
                let length = random.length();
                let bytes = random.bytes(1, length);
                body.splice(at..at, bytes);
            }
            _ => body.insert(at, random.edge()),
        }
    }
}

/// A body made for a call, whole or not, and the code that it is given with.
fn made_body(random: &mut Random, seen: &mut Seen) -> (u8, Vec<u8>) {
    let call = random.below(CALLS as usize) as u8;
    let mut body = plain_body(&Owned::good(random, SERIAL, call).lend());
    let code = CODES[call as usize];
    let class = match random.below(4) {
        CUT if body.is_empty() => FINISHED,
        class => class,
    };
    seen.classes[call as usize][class] += 1;
    match class {
        CUT => body.truncate(random.below(body.len())),
        DAMAGED => damage(random, &mut body),
        OTHER_CODE if random.one_in(2) => return (random.byte(), body),
        OTHER_CODE => return (2 * random.below(12) as u8, body),
        _ => {}
    }
    (code, body)
}

/// Any bytes as a body of any code.
fn any_body(random: &mut Random) -> (u8, Vec<u8>) {
    let code = match random.below(3) {
        0 => 2 * random.below(12) as u8,
        _ => random.byte(),
    };
    let length = match random.below(4) {
        0 => 0,
        1 => 1 + random.below(3),
        _ if random.one_in(100) => 256 + random.below(20),
        _ => random.length(),
    };
    let mut body = random.bytes(1, length);
    if length > 0 && random.one_in(2) {
        body[0] = 0;
    }
    (code, body)
}

fn compare_bodies(random: &mut Random, count: u64, seen: &mut Seen, report: &mut Report) {
    for _ in 0..count {
        let (code, body) = any_body(random);
        compare_body(code, &body, seen, report);
        let (code, body) = made_body(random, seen);
        compare_body(code, &body, seen, report);
    }
}

/// Bodies of every length for every code, most for those that are carried, and a
/// few much longer ones.
fn compare_each_body(random: &mut Random, seen: &mut Seen, report: &mut Report) {
    for (code, length, at) in every(256, LENGTHS, 20) {
        if at > 0 && !CODES.contains(&(code as u8)) {
            continue;
        }
        let mixture = random.below(4);
        let mut body = random.bytes(mixture, length);
        if length > 0 && random.one_in(4) {
            body[0] = 0;
        }
        compare_body(code as u8, &body, seen, report);
    }
    for code in 0..=255 {
        let length = 65_536 + random.below(20);
        let body = random.bytes(1, length);
        compare_body(code, &body, seen, report);
    }
}

// ---- All of it ----

pub fn report() -> Report {
    Report::new(&PROPERTIES)
}

/// One input in `share` of each kind that is drawn at random.
fn compare_random(random: &mut Random, share: u64, seen: &mut Seen, report: &mut Report) {
    compare_requests(random, REQUESTS / share, seen, report);
    compare_bodies(random, BODIES / share, seen, report);
}

pub fn whole(random: &mut Random, report: &mut Report) {
    let mut seen = Seen::new();
    compare_random(random, 1, &mut seen, report);
    compare_each(random, &mut seen, report);
    compare_each_body(random, &mut seen, report);
    seen.report(report);
}

pub fn share(random: &mut Random, share: u64, report: &mut Report) {
    compare_random(random, share, &mut Seen::new(), report);
}
