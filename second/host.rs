//! A second program for the host's end of the serial lead: the writer of the actions
//! and the load data that a host sends, and a model of what it sends with a reply:
//! whether that keeps the rules, its raw bytes, and what a client is told of it.
//! It is written from the rules and shares nothing with the proved library, nor with
//! the links that read what is written here.

use std::iter::repeat_n;

const ESCAPE: u8 = 0x9B;
const TEXT_END: u8 = 0x00;

// Refusals.
const LONG_TEXT: u8 = 6;
const SHORT_BUFFER: u8 = 8;
const BROKEN_RULE: u8 = 9;

const LONGEST_TEXT: usize = 255;
const LONGEST_BLOCK: usize = 127;
const MOST_OPEN: usize = 4;

// ---- The writer ----

/// What a host sends beside data bytes.
#[derive(Clone, PartialEq, Debug)]
pub enum Action {
    /// The Escape state.
    Escape(bool),
    /// Y, X, A.
    Event(u8, u8, u8),
    Address(u32),
    Execute(u32),
    Load(u32),
    Save(u32),
    /// A control block.
    Block(Vec<u8>),
    /// Its number and its text.
    Error(u8, Vec<u8>),
    Restart,
    /// The end of the innermost open load or save.
    End,
}

impl Action {
    /// The mark, and the bytes that follow it.
    fn parts(&self) -> (u8, Vec<u8>) {
        let high_first = |address: &u32| address.to_be_bytes().to_vec();
        match self {
            Action::Error(number, text) => (0x00, [&[*number], &text[..], &[TEXT_END]].concat()),
            Action::Restart => (0x00, vec![0, TEXT_END]),
            Action::Block(block) => (block.len() as u8, block.clone()),
            Action::Escape(false) => (0x80, vec![]),
            Action::Escape(true) => (0x81, vec![]),
            Action::Event(y, x, a) => (0x90, vec![*y, *x, *a]),
            Action::End => (0xB0, vec![]),
            Action::Address(address) => (0xC0, high_first(address)),
            Action::Execute(address) => (0xD0, high_first(address)),
            Action::Load(address) => (0xE0, high_first(address)),
            Action::Save(address) => (0xF0, high_first(address)),
        }
    }

    pub fn encode(&self) -> Vec<u8> {
        let (mark, own) = self.parts();
        [vec![ESCAPE, mark], encode_data(&own)].concat()
    }

    /// The action as it is asked for, its unused numbers 0.
    pub fn order(&self) -> Order {
        let (kind, numbers) = match self {
            Action::Escape(on) => (2, [*on as u8, 0, 0, 0]),
            Action::Event(y, x, a) => (3, [*y, *x, *a, 0]),
            Action::Address(address) => (4, address.to_be_bytes()),
            Action::Error(number, _) => (6, [*number, 0, 0, 0]),
            Action::Restart => (7, [0; 4]),
            Action::Block(_) => (9, [0; 4]),
            Action::Execute(address) => (10, address.to_be_bytes()),
            Action::Load(address) => (11, address.to_be_bytes()),
            Action::Save(address) => (12, address.to_be_bytes()),
            Action::End => (14, [0; 4]),
        };
        let (block, text) = match self {
            Action::Block(block) => (block.clone(), vec![]),
            Action::Error(_, text) => (vec![], text.clone()),
            _ => (vec![], vec![]),
        };
        Order {
            kind,
            numbers,
            block,
            text,
        }
    }

    /// The action as a client is told it.
    fn told(&self) -> Action {
        match self {
            Action::Error(0, text) if text.is_empty() => Action::Restart,
            other => other.clone(),
        }
    }
}

/// Data bytes as they are sent, escapes doubled.
pub fn encode_data(bytes: &[u8]) -> Vec<u8> {
    let sent = |&byte: &u8| repeat_n(byte, if byte == ESCAPE { 2 } else { 1 });
    bytes.iter().flat_map(sent).collect()
}

/// An action as it is asked for: the kind under which a client is told it, its
/// numbers, and what it may have besides.
#[derive(Clone, PartialEq, Debug)]
pub struct Order {
    pub kind: u8,
    pub numbers: [u8; 4],
    pub block: Vec<u8>,
    pub text: Vec<u8>,
}

impl Order {
    /// The action, or the refusal that does not depend on the room.
    pub fn action(&self) -> Result<Action, u8> {
        let Order { block, text, .. } = self;
        if text.len() > LONGEST_TEXT {
            return Err(LONG_TEXT);
        }
        let [first, second, third, _] = self.numbers;
        let address = u32::from_be_bytes(self.numbers);
        let action = match self.kind {
            2 => Action::Escape(first != 0),
            3 => Action::Event(first, second, third),
            4 => Action::Address(address),
            6 if !text.contains(&TEXT_END) => Action::Error(first, text.clone()),
            7 => Action::Restart,
            9 if (1..=LONGEST_BLOCK).contains(&block.len()) => Action::Block(block.clone()),
            10 => Action::Execute(address),
            11 => Action::Load(address),
            12 => Action::Save(address),
            14 => Action::End,
            _ => return Err(BROKEN_RULE),
        };
        let (has_text, has_block) = (self.kind == 6, self.kind == 9);
        if !has_text && !text.is_empty() || !has_block && !block.is_empty() {
            return Err(BROKEN_RULE);
        }
        Ok(action)
    }

    /// Writes the action to the start of `out`: the length, or the refusal.
    pub fn write(&self, out: &mut [u8]) -> Result<usize, u8> {
        let (numbers, block, text) = (&self.numbers, &self.block[..], &self.text[..]);
        if text.len() > LONGEST_TEXT {
            return Err(LONG_TEXT);
        }
        match (self.kind, block, text) {
            (2, [], []) => put([ESCAPE, 0x80 + (numbers[0] != 0) as u8], [], out),
            (3, [], []) => put([ESCAPE, 0x90], [&numbers[..3]], out),
            (4, [], []) => put([ESCAPE, 0xC0], [numbers], out),
            (6, [], _) if !text.contains(&TEXT_END) => {
                put([ESCAPE, 0x00], [&numbers[..1], text, &[TEXT_END]], out)
            }
            (7, [], []) => put([ESCAPE, 0x00, 0, TEXT_END], [], out),
            (9, [_, ..], []) if block.len() <= LONGEST_BLOCK => {
                put([ESCAPE, block.len() as u8], [block], out)
            }
            (10, [], []) => put([ESCAPE, 0xD0], [numbers], out),
            (11, [], []) => put([ESCAPE, 0xE0], [numbers], out),
            (12, [], []) => put([ESCAPE, 0xF0], [numbers], out),
            (14, [], []) => put([ESCAPE, 0xB0], [], out),
            _ => Err(BROKEN_RULE),
        }
    }
}

/// Writes load data to the start of `out`: the length, or the refusal.
pub fn write_data(bytes: &[u8], out: &mut [u8]) -> Result<usize, u8> {
    put([], [bytes], out)
}

/// Puts raw bytes and then data bytes to the start of `out`: the length, or the
/// refusal where they do not fit.
#[inline(always)]
fn put<const RAW: usize, const PARTS: usize>(
    raw: [u8; RAW],
    data: [&[u8]; PARTS],
    out: &mut [u8],
) -> Result<usize, u8> {
    let (mut plain, mut doubled) = (RAW, 0);
    for part in data {
        plain += part.len();
        doubled += escapes(part);
    }
    let size = plain + doubled;
    let (start, mut rest) = out.get_mut(..size).ok_or(SHORT_BUFFER)?.split_at_mut(RAW);
    start.copy_from_slice(&raw);
    for part in data {
        let length = if doubled == 0 {
            rest[..part.len()].copy_from_slice(part);
            part.len()
        } else {
            put_escaped(part, rest)
        };
        rest = &mut rest[length..];
    }
    Ok(size)
}

/// How many of the bytes are doubled.
#[inline(always)]
fn escapes(bytes: &[u8]) -> usize {
    // A piece is so short that a byte counts its escapes.
    let counted = |piece: &[u8]| piece.iter().map(|&byte| (byte == ESCAPE) as u8).sum::<u8>();
    let (pieces, rest) = bytes.as_chunks::<128>();
    let mut count = counted(rest) as usize;
    for piece in pieces {
        count += counted(piece) as usize;
    }
    count
}

/// Puts data bytes to the start of `out`, which has the room: the length.
fn put_escaped(bytes: &[u8], out: &mut [u8]) -> usize {
    let (pieces, rest) = bytes.as_chunks::<8>();
    let mut at = 0;
    for piece in pieces {
        if has_escape(piece) {
            at += put_each(piece, &mut out[at..]);
        } else {
            out[at..at + 8].copy_from_slice(piece);
            at += 8;
        }
    }
    at + put_each(rest, &mut out[at..])
}

/// The same, byte by byte.
#[inline(always)]
fn put_each(bytes: &[u8], out: &mut [u8]) -> usize {
    let mut at = 0;
    for &byte in bytes {
        // No branch: what is sent once is put into its place twice.
        let times = if byte == ESCAPE { 2 } else { 1 };
        out[at] = byte;
        out[at + times - 1] = byte;
        at += times;
    }
    at
}

/// Whether an escape is among eight bytes, all looked at together.
fn has_escape(piece: &[u8; 8]) -> bool {
    let each = |byte| u64::from_ne_bytes([byte; 8]);
    // Less 1, a 0 gets the top bit that it did not have; others do only by its borrow.
    let zero_at_escape = u64::from_ne_bytes(*piece) ^ each(ESCAPE);
    zero_at_escape.wrapping_sub(each(0x01)) & !zero_at_escape & each(0x80) != 0
}

// ---- What is sent with a reply ----

/// A host sends a list of these, all bytes of one reply among them.
#[derive(Clone, PartialEq, Debug)]
pub enum Item {
    Reply(u8),
    /// A byte of load data.
    Load(u8),
    Action(Action),
}

impl Item {
    pub fn raw(&self) -> Vec<u8> {
        match self {
            Item::Reply(byte) | Item::Load(byte) => encode_data(&[*byte]),
            Item::Action(action) => action.encode(),
        }
    }
}

#[derive(Clone, Copy, PartialEq, Debug)]
pub enum Transfer {
    Load,
    Save,
}

/// What breaks a rule.
#[derive(Clone, Copy, PartialEq, Debug)]
pub enum Fault {
    /// An action that cannot be written.
    Unwritten,
    /// A reply byte while a load or save is open.
    LeftOpen,
    /// An end while none is open.
    NoneOpen,
    /// Load data where no load is innermost.
    NotInLoad,
    /// One load or save too many.
    TooDeep,
    /// Something behind the last reply byte.
    Behind,
}

/// The open transfers, the innermost last, behind an action that is no end.
fn open_behind(open: &mut Vec<Transfer>, action: &Action) {
    match action {
        Action::Load(_) => open.push(Transfer::Load),
        Action::Save(_) => open.push(Transfer::Save),
        Action::Error(..) | Action::Restart => open.clear(),
        _ => {}
    }
}

/// Whether the items keep the rules, or what the first one is that does not.
pub fn check(items: &[Item]) -> Result<(), Fault> {
    let mut open = Vec::new();
    for item in items {
        match item {
            Item::Reply(_) if !open.is_empty() => return Err(Fault::LeftOpen),
            Item::Reply(_) => {}
            Item::Load(_) if open.last() == Some(&Transfer::Load) => {}
            Item::Load(_) => return Err(Fault::NotInLoad),
            Item::Action(Action::End) => {
                open.pop().ok_or(Fault::NoneOpen)?;
            }
            Item::Action(action) => {
                action.order().action().or(Err(Fault::Unwritten))?;
                open_behind(&mut open, action);
                if open.len() > MOST_OPEN {
                    return Err(Fault::TooDeep);
                }
            }
        }
    }
    match items.last() {
        None | Some(Item::Reply(_)) => Ok(()),
        _ => Err(Fault::Behind),
    }
}

/// The raw bytes of the items.
pub fn raw(items: &[Item]) -> Vec<u8> {
    items.iter().flat_map(Item::raw).collect()
}

/// What a client is told.
#[derive(Clone, PartialEq, Debug)]
pub enum Event {
    Character(u8),
    /// A byte of load data.
    Data(u8),
    /// An action that is no end.
    Action(Action),
    /// What an end has closed.
    Closed(Transfer),
    /// The whole reply.
    Reply(Vec<u8>),
}

/// What a client with the call begun is told of items that keep the rules, each with
/// the index of the raw byte at which it is told.
pub fn told(items: &[Item]) -> Vec<(usize, Event)> {
    let reply_byte = |item: &Item| match item {
        Item::Reply(byte) => Some(*byte),
        _ => None,
    };
    let ends_call = |item: &Item| match item {
        Item::Action(action) => matches!(action, Action::Error(..) | Action::Restart),
        _ => false,
    };
    let ended = items.iter().position(ends_call).unwrap_or(items.len());
    let (mut events, mut open, mut sent) = (Vec::new(), Vec::new(), 0);
    for (at, item) in items.iter().enumerate() {
        sent += item.raw().len();
        let event = match item {
            Item::Reply(byte) if at > ended => Event::Character(*byte),
            Item::Reply(_) if at + 1 == items.len() => {
                Event::Reply(items.iter().filter_map(reply_byte).collect())
            }
            Item::Reply(_) => continue,
            Item::Load(byte) => Event::Data(*byte),
            Item::Action(Action::End) => Event::Closed(open.pop().unwrap()),
            Item::Action(action) => {
                open_behind(&mut open, action);
                Event::Action(action.told())
            }
        };
        events.push((sent - 1, event));
    }
    events
}

#[cfg(test)]
mod tests {
    use super::*;

    fn hex(bytes: &str) -> Vec<u8> {
        let byte = |digits| u8::from_str_radix(digits, 16).unwrap();
        bytes.split_whitespace().map(byte).collect()
    }

    fn error(number: u8, text: &[u8]) -> Action {
        Action::Error(number, text.to_vec())
    }

    fn block(bytes: &[u8]) -> Action {
        Action::Block(bytes.to_vec())
    }

    /// Writes into so many bytes of &EE, of which a refusal touches none and the
    /// writer none beyond the encoding.
    fn written(room: usize, write: impl Fn(&mut [u8]) -> Result<usize, u8>) -> Result<Vec<u8>, u8> {
        let mut out = vec![0xEE; room];
        let length = write(&mut out);
        let beyond = &out[length.unwrap_or(0)..];
        assert!(beyond.iter().all(|&byte| byte == 0xEE));
        length.map(|length| out[..length].to_vec())
    }

    fn refused(kind: u8, block: &[u8], text: &[u8], room: usize) -> u8 {
        let order = Order {
            kind,
            numbers: [1, 2, 3, 4],
            block: block.to_vec(),
            text: text.to_vec(),
        };
        written(room, |out| order.write(out)).unwrap_err()
    }

    const KINDS: [u8; 10] = [2, 3, 4, 6, 7, 9, 10, 11, 12, 14];

    #[test]
    fn bytes_of_actions() {
        let known = [
            (error(0xFE, b"No"), "9B 00 FE 4E 6F 00"),
            (error(0x9B, &[0x9B]), "9B 00 9B 9B 9B 9B 00"),
            (error(0, b""), "9B 00 00 00"),
            (error(7, b""), "9B 00 07 00"),
            (error(0, b"x"), "9B 00 00 78 00"),
            (error(1, &[0x0D]), "9B 00 01 0D 00"),
            (Action::Restart, "9B 00 00 00"),
            (Action::Escape(false), "9B 80"),
            (Action::Escape(true), "9B 81"),
            (Action::Event(0x01, 0x9B, 0x03), "9B 90 01 9B 9B 03"),
            (Action::Address(0x8000), "9B C0 00 00 80 00"),
            (Action::Execute(0x8000), "9B D0 00 00 80 00"),
            (Action::Load(0x1900), "9B E0 00 00 19 00"),
            (Action::Save(0x9B00_0000), "9B F0 9B 9B 00 00 00"),
            (Action::End, "9B B0"),
            (block(&[0x9B]), "9B 01 9B 9B"),
        ];
        for (action, bytes) in known {
            let (order, bytes) = (action.order(), hex(bytes));
            assert_eq!(order.action(), Ok(action));
            let size = bytes.len();
            assert_eq!(written(size, |out| order.write(out)), Ok(bytes.clone()));
            assert_eq!(written(size + 9, |out| order.write(out)), Ok(bytes));
            for room in 0..size {
                assert_eq!(written(room, |out| order.write(out)), Err(8));
            }
        }
        let expected = [hex("9B 7F"), vec![0x55; 127]].concat();
        assert_eq!(block(&[0x55; 127]).encode(), expected);
    }

    #[test]
    fn unused_numbers_and_escape_state() {
        for kind in KINDS {
            let order = |numbers| Order {
                kind,
                numbers,
                block: if kind == 9 { vec![0x41] } else { vec![] },
                text: vec![],
            };
            let used = match kind {
                2 | 6 => 1,
                3 => 3,
                4 | 10 | 11 | 12 => 4,
                _ => 0,
            };
            let mut numbers = [1, 2, 3, 4];
            numbers[used..].fill(0x9B);
            let plain = order([1, 2, 3, 4]).action();
            assert_eq!(order(numbers).action(), plain);
            assert_eq!(plain.unwrap().order().kind, kind);
        }
        for first in 0..=255 {
            let order = Order {
                numbers: [first, 0, 0, 0],
                ..Action::Escape(false).order()
            };
            assert_eq!(order.action(), Ok(Action::Escape(first != 0)));
        }
    }

    #[test]
    fn refusals() {
        for (length, room) in [(0, 900), (0, 0), (128, 900), (128, 0), (256 + 5, 900)] {
            assert_eq!(refused(9, &vec![0x55; length], b"", room), 9);
        }
        assert_eq!(refused(6, b"", &[0x61, 0x00, 0x62], 900), 9);
        assert_eq!(refused(6, b"", &[b'x'; 256], 900), 6);
        assert_eq!(refused(6, b"", &[0; 256], 900), 6);
        assert_eq!(refused(14, b"", b"x", 900), 9);
        assert_eq!(refused(14, b"", &[b'x'; 256], 900), 6);
        assert_eq!(refused(14, b"x", b"", 0), 9);
        for kind in 0..=255 {
            // 6 comes before 9, and 9 before 8.
            assert_eq!(refused(kind, &[0; 128], &[b'x'; 256], 0), 6);
            assert_eq!(refused(kind, &[0; 128], b"", 0), 9);
            assert_eq!(refused(kind, b"x", b"x", 0), 9);
            if kind != 6 {
                assert_eq!(refused(kind, b"", b"x", 900), 9);
            }
            if !KINDS.contains(&kind) {
                assert_eq!(refused(kind, b"", b"", 900), 9);
            }
        }
    }

    #[test]
    fn rooms() {
        let longest = error(1, &[b'x'; 255]).order();
        let bytes = [&[0x9B, 0x00, 0x01], &[b'x'; 255][..], &[0x00]].concat();
        assert_eq!(written(259, |out| longest.write(out)), Ok(bytes));
        assert_eq!(written(258, |out| longest.write(out)), Err(8));
        let end = Action::End.order();
        assert_eq!(written(2, |out| end.write(out)), Ok(hex("9B B0")));
        assert_eq!(written(1, |out| end.write(out)), Err(8));
    }

    #[test]
    fn load_data() {
        let write = |bytes: &[u8], room| written(room, |out| write_data(bytes, out));
        assert_eq!(write(b"", 0), Ok(vec![]));
        let (plain, raw) = (hex("41 9B 0D 00 9B"), hex("41 9B 9B 0D 00 9B 9B"));
        assert_eq!(write(&plain, 7), Ok(raw.clone()));
        assert_eq!(write(&plain, 8), Ok(raw));
        assert_eq!(write(&plain, 6), Err(8));
        assert_eq!(write(&[0x9B; 3000], 6000), Ok(vec![0x9B; 6000]));
        assert_eq!(write(&[0x9B; 3000], 5999), Err(8));
    }

    /// Compares a writer with the model, in rooms about the length.
    fn same(model: Result<Vec<u8>, u8>, write: impl Fn(&mut [u8]) -> Result<usize, u8>) {
        let size = model.as_ref().map_or(0, Vec::len);
        for room in size.saturating_sub(1)..=size + 1 {
            let expected = match &model {
                Ok(_) if room < size => Err(8),
                other => other.clone(),
            };
            assert_eq!(written(room, &write), expected, "room {room}");
        }
    }

    fn same_order(kind: u8, numbers: [u8; 4], block: &[u8], text: &[u8]) {
        let order = Order {
            kind,
            numbers,
            block: block.to_vec(),
            text: text.to_vec(),
        };
        let model = order.action().map(|action| action.encode());
        same(model, |out| order.write(out));
    }

    /// Bytes with escapes where they are asked for; the others are nearly escapes.
    fn placed(length: usize, escape: impl Fn(usize) -> bool) -> Vec<u8> {
        let other = |at| [0x9A, 0x9C, 0x1B, 0xFF, 0x01, 0x80, 0x41][at % 7];
        let byte = |at| if escape(at) { 0x9B } else { other(at) };
        (0..length).map(byte).collect()
    }

    /// Whether an escape is at a place of so many bytes.
    const PLACES: [fn(usize, usize) -> bool; 16] = [
        |_, _| false,
        |_, _| true,
        |at, _| at == 0,
        |at, length| at + 1 == length,
        |at, length| at == length / 2,
        |at, length| at == 0 || at + 1 == length,
        |at, length| at > 0 && at + 1 < length,
        |at, _| at % 2 == 0,
        |at, _| at % 2 == 1,
        // The ends of pieces, each place of one in turn, whole ones in turn.
        |at, _| at % 8 == 0,
        |at, _| at % 8 == 7,
        |at, _| at % 9 == 0,
        |at, _| at % 16 < 8,
        |at, _| at % 17 < 2,
        |at, _| at % 128 == 0,
        |at, _| at % 128 == 127,
    ];

    #[test]
    fn actions_as_the_model() {
        for kind in 0..=255 {
            for places in 0..16 {
                let escape = |at| places >> at & 1 == 1;
                let numbers: [u8; 4] = placed(4, escape).try_into().unwrap();
                for (block, text) in [("", ""), ("x", ""), ("", "x"), ("x", "x"), ("", "\0")] {
                    same_order(kind, numbers, block.as_bytes(), text.as_bytes());
                }
            }
            same_order(kind, [0; 4], b"", b"");
        }
        for length in 0..=257 {
            for places in PLACES {
                let bytes = placed(length, |at| places(at, length));
                same_order(6, [0x9B; 4], b"", &bytes);
                same_order(6, [0; 4], b"", &bytes);
                same_order(9, [0x9B; 4], &bytes, b"");
            }
        }
    }

    #[test]
    fn data_as_the_model() {
        let same_data = |bytes: &[u8]| same(Ok(encode_data(bytes)), |out| write_data(bytes, out));
        for length in 0..=600 {
            for places in PLACES {
                same_data(&placed(length, |at| places(at, length)));
            }
        }
        // Escapes at all sets of places, and at each place alone.
        for length in 0..=10 {
            for places in 0..1 << length {
                same_data(&placed(length, |at| places >> at & 1 == 1));
            }
        }
        for place in 0..300 {
            same_data(&placed(300, |at| at == place));
        }
    }

    // ---- Streams to an OSBGET ----

    const LOAD: Item = Item::Action(Action::Load(0x1900));
    const SAVE: Item = Item::Action(Action::Save(0x8000));
    const END: Item = Item::Action(Action::End);
    const RESTART: Item = Item::Action(Action::Restart);
    const CARRY: Item = Item::Reply(0x80);
    const A: Item = Item::Reply(0x41);
    const DATA: Item = Item::Load(0x41);
    const ESCAPE_ON: Item = Item::Action(Action::Escape(true));
    const EVENT: Item = Item::Action(Action::Event(1, 2, 3));

    fn on_told(action: Action) -> Event {
        Event::Action(action)
    }

    fn reply() -> Event {
        Event::Reply(vec![0x80, 0x41])
    }

    fn compare(items: &[Item], bytes: &str, expected: &[(usize, Event)]) {
        let bytes = bytes.replace("ld", "9B E0 00 00 19 00");
        let bytes = bytes.replace("sv", "9B F0 00 00 80 00");
        assert_eq!(check(items), Ok(()));
        assert_eq!(raw(items), hex(&bytes));
        assert_eq!(told(items), expected);
    }

    #[test]
    fn a_load_between_reply_bytes() {
        let items = [ESCAPE_ON, CARRY, LOAD, Item::Load(0x9B), END, A];
        let expected = [
            (1, on_told(Action::Escape(true))),
            (8, on_told(Action::Load(0x1900))),
            (10, Event::Data(0x9B)),
            (12, Event::Closed(Transfer::Load)),
            (13, reply()),
        ];
        compare(&items, "9B 81 80 ld 9B 9B 9B B0 41", &expected);
    }

    #[test]
    fn a_save_inside_a_load() {
        let items = [LOAD, SAVE, EVENT, END, DATA, END, CARRY, A];
        let expected = [
            (5, on_told(Action::Load(0x1900))),
            (11, on_told(Action::Save(0x8000))),
            (16, on_told(Action::Event(1, 2, 3))),
            (18, Event::Closed(Transfer::Save)),
            (19, Event::Data(0x41)),
            (21, Event::Closed(Transfer::Load)),
            (23, reply()),
        ];
        let bytes = "ld sv 9B 90 01 02 03 9B B0 41 9B B0 80 41";
        compare(&items, bytes, &expected);
    }

    #[test]
    fn a_restart_closes_a_load() {
        let expected = [
            (6, on_told(Action::Load(0x1900))),
            (7, Event::Data(0x41)),
            (11, on_told(Action::Restart)),
            (12, Event::Character(0x41)),
        ];
        for restart in [RESTART, Item::Action(error(0, b""))] {
            let items = [CARRY, LOAD, DATA, restart, A];
            compare(&items, "80 ld 41 9B 00 00 00 41", &expected);
        }
    }

    #[test]
    fn a_load_behind_an_error() {
        let seven = Item::Action(error(7, b""));
        let items = [CARRY, seven, LOAD, Item::Load(0x42), END, A];
        let expected = [
            (4, on_told(error(7, b""))),
            (10, on_told(Action::Load(0x1900))),
            (11, Event::Data(0x42)),
            (13, Event::Closed(Transfer::Load)),
            (14, Event::Character(0x41)),
        ];
        compare(&items, "80 9B 00 07 00 ld 42 9B B0 41", &expected);
    }

    #[test]
    fn an_error_before_the_first_byte() {
        let items = [SAVE, Item::Action(error(0, b"x")), CARRY, EVENT, RESTART, A];
        let expected = [
            (5, on_told(Action::Save(0x8000))),
            (10, on_told(error(0, b"x"))),
            (11, Event::Character(0x80)),
            (16, on_told(Action::Event(1, 2, 3))),
            (20, on_told(Action::Restart)),
            (21, Event::Character(0x41)),
        ];
        let bytes = "sv 9B 00 00 78 00 80 9B 90 01 02 03 9B 00 00 00 41";
        compare(&items, bytes, &expected);
    }

    #[test]
    fn nothing_but_the_reply() {
        compare(&[CARRY, A], "80 41", &[(1, reply())]);
        compare(&[], "", &[]);
    }

    #[test]
    fn streams_that_break_a_rule() {
        let four = [LOAD, SAVE, LOAD, SAVE];
        let closed = [&four[..], &[END, END, END, END, CARRY, A]].concat();
        assert_eq!(check(&closed), Ok(()));
        let restarted = [&four[..], &[RESTART, CARRY], &four, &[RESTART, A]].concat();
        assert_eq!(check(&restarted), Ok(()));

        let broken = |items: &[Item], fault| assert_eq!(check(items), Err(fault), "{items:?}");
        broken(&[LOAD, CARRY, END, A], Fault::LeftOpen);
        broken(&[CARRY, SAVE, A, END], Fault::LeftOpen);
        broken(&[LOAD, SAVE, END, CARRY, A], Fault::LeftOpen);
        broken(&[CARRY, RESTART, LOAD, A], Fault::LeftOpen);
        broken(&[END, CARRY, A], Fault::NoneOpen);
        broken(&[CARRY, LOAD, END, END, A], Fault::NoneOpen);
        broken(&[LOAD, RESTART, END, CARRY, A], Fault::NoneOpen);
        broken(&[SAVE, DATA, END, CARRY, A], Fault::NotInLoad);
        broken(&[LOAD, SAVE, DATA, END, END, CARRY, A], Fault::NotInLoad);
        broken(&[CARRY, DATA, A], Fault::NotInLoad);
        broken(&[LOAD, RESTART, DATA, CARRY, A], Fault::NotInLoad);
        broken(&[LOAD, LOAD, LOAD, LOAD, LOAD, CARRY, A], Fault::TooDeep);
        broken(
            &[&four[..], &[SAVE, RESTART, CARRY, A]].concat(),
            Fault::TooDeep,
        );
        broken(&[CARRY, A, ESCAPE_ON], Fault::Behind);
        broken(&[CARRY, A, LOAD, END], Fault::Behind);
        broken(&[CARRY, A, RESTART], Fault::Behind);
        broken(&[EVENT], Fault::Behind);
        for action in [block(b""), block(&[0; 128]), error(1, b"a\0b")] {
            broken(&[CARRY, Item::Action(action), A], Fault::Unwritten);
        }
    }
}
