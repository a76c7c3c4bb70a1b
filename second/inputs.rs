//! Replies, actions and transfers as they are sent, and the states of a link.

use crate::link::{
    CALLS, LENT, Link, NO_ACTION, NOTE, OSWORD, OSWORD_0, SAVE, SHORTEST_BLOCK, TRANSFERS,
    Transfer, WAIT_BLOCK,
};
use crate::random::Random;

/// The most bytes of a reply to what waits; 1 where only 0 is within the limits.
pub fn most(wait: u8, out_length: u8) -> usize {
    match wait {
        WAIT_BLOCK => out_length as usize,
        _ => *[1, 2, 1, 1, 3, 0, LENT, 5, 2, 1, 1, 1, 17, 15]
            .get(wait as usize)
            .unwrap_or(&1),
    }
}

/// How many nests of transfers there are.
pub const NESTS: usize = 31;

/// The number of the open transfers in a record's flags.
pub fn nest_of(link: &Link) -> u8 {
    let open = link.open.iter().rev().flatten();
    open.fold(0, |outer, &transfer| 2 * outer + 1 + transfer as u8)
}

/// The open transfers of a number, the innermost first; four at most.
pub fn open_of(number: u8) -> [Option<Transfer>; TRANSFERS] {
    let (mut open, mut rest) = ([None; TRANSFERS], number);
    for place in &mut open {
        *place = match (rest, rest % 2) {
            (0, _) => None,
            (_, 1) => Some(Transfer::Load),
            _ => Some(Transfer::Save),
        };
        rest = rest.saturating_sub(1) / 2;
    }
    open
}

/// The marks and addresses that open the transfers of a nest.
pub fn opened(nest: u8) -> Vec<u8> {
    let open = open_of(nest).into_iter().rev().flatten();
    open.flat_map(|transfer| [0x9B, 0xE0 + 0x10 * transfer as u8, 1, 2, 3, 4])
        .collect()
}

/// How many kinds of open actions there are: none, those with a number of their own,
/// and control blocks.
pub const ACTIONS: usize = 8;
pub const BLOCK_CLASS: usize = 7;

/// The kind of an open action; of a number that is none, `ACTIONS`.
pub fn class_of(action: u8) -> usize {
    match action {
        NO_ACTION..=SAVE => action as usize,
        SHORTEST_BLOCK.. => BLOCK_CLASS,
        _ => ACTIONS,
    }
}

/// Data bytes, &9B doubled.
pub fn escaped(bytes: &[u8]) -> Vec<u8> {
    let mut raw = Vec::new();
    for &byte in bytes {
        raw.push(byte);
        if byte == 0x9B {
            raw.push(byte);
        }
    }
    raw
}

/// What is sent beside the bytes of a reply, and what it leaves: its notes, its load
/// data and control blocks, and the own bytes of its actions as they stand at the end.
#[derive(Default)]
pub struct Sent {
    pub raw: Vec<u8>,
    pub notes: Vec<u8>,
    pub data: Vec<u8>,
    pub own: Vec<u8>,
}

impl Sent {
    /// A mark and its action's own bytes.
    fn mark(&mut self, mark: u8, own: &[u8]) {
        self.raw.extend([0x9B, mark]);
        self.raw.extend(escaped(own));
        let beyond = self.own.get(own.len()..).unwrap_or(&[]);
        self.own = [own, beyond].concat();
    }

    fn note(&mut self, kind: u8, values: &[u8]) {
        let mut note = [0; NOTE];
        note[0] = kind;
        note[1..=values.len()].copy_from_slice(values);
        self.notes.extend(note);
    }

    /// Load data, with something else noted before it and behind it.
    fn load(&mut self, bytes: &[u8]) {
        self.raw.extend(escaped(bytes));
        self.data.extend(bytes);
        for counted in bytes.chunks(255) {
            self.note(13, &[counted.len() as u8]);
        }
    }
}

/// What notes and data tell, load bytes one by one: their notes count those of one
/// slice. Data that is not there is left out, data that no note counts is the last.
pub fn told_by(notes: &[u8], data: &[u8]) -> Vec<Vec<u8>> {
    let (mut told, mut rest) = (Vec::new(), data);
    for note in notes.chunks(NOTE) {
        let stored = match note[0] {
            9 | 13 => note[1] as usize,
            _ => 0,
        };
        let (bytes, behind) = rest.split_at(stored.min(rest.len()));
        rest = behind;
        match note[0] {
            13 => told.extend(bytes.iter().map(|&byte| vec![13, byte])),
            _ => told.push([note, bytes].concat()),
        }
    }
    told.push(rest.to_vec());
    told
}

impl Random {
    /// A call, and an out length that is not 0.
    pub fn call(&mut self) -> (u8, u8) {
        let call = match self.below(4) {
            0 => OSWORD + self.below(2) as u8,
            _ => self.below(CALLS as usize) as u8,
        };
        (call, self.length().max(1) as u8)
    }

    /// A good reply in plain bytes.
    pub fn reply(&mut self, (call, out_length): (u8, u8), mixture: usize) -> Vec<u8> {
        if call == OSWORD_0 && !self.one_in(4) {
            let length = self.length();
            return self.line(mixture, length);
        }
        let length = match call {
            OSWORD_0 => 1,
            _ => most(1 + call, out_length),
        };
        let mut reply = self.bytes(mixture, length);
        if call == OSWORD_0 {
            reply[0] |= 0x80;
        }
        reply
    }

    /// A line of this length with its first byte and its end.
    pub fn line(&mut self, mixture: usize, length: usize) -> Vec<u8> {
        let mut line = vec![self.byte() & 0x7F];
        line.extend(self.without(0x0D, mixture, length));
        line.push(0x0D);
        line
    }

    /// A mark with this high half and any low bits, never &9B.
    pub fn low_bits(&mut self, high: u8) -> u8 {
        match high | self.below(16) as u8 {
            0x9B => 0x9A,
            mark => mark,
        }
    }

    /// A mark, carried or not.
    pub fn mark(&mut self) -> u8 {
        const HIGHS: [u8; 10] = [0x80, 0x90, 0xA0, 0xB0, 0xB0, 0xC0, 0xD0, 0xE0, 0xE0, 0xF0];
        match self.below(16) {
            0 => 0x00,
            1 | 2 => self.block_length(),
            3..13 => {
                let high = HIGHS[self.below(HIGHS.len())];
                self.low_bits(high)
            }
            _ => self.byte(),
        }
    }

    /// The length of a control block, 1 to 127.
    pub fn block_length(&mut self) -> u8 {
        match self.below(8) {
            0 => 1 + self.below(127) as u8,
            1 => 127 - self.below(2) as u8,
            _ => 1 + self.below(6) as u8,
        }
    }

    /// The length of load data with nothing else told between.
    pub fn data_length(&mut self) -> usize {
        match self.below(24) {
            0 => self.length(),
            1 => 250 + self.below(12),
            2..6 => 0,
            _ => 1 + self.below(6),
        }
    }

    /// An action that leaves a waiting reply at its place, where so many transfers
    /// are open; those that it opens it closes.
    pub fn put_action(&mut self, sent: &mut Sent, mixture: usize, open: usize) {
        match self.below(8) {
            0..3 if open < TRANSFERS => self.put_transfer(sent, mixture, open),
            3 => {
                let length = self.block_length();
                let block = self.bytes(mixture, length as usize);
                sent.mark(length, &block);
                sent.note(9, &[length]);
                sent.data.extend(block);
            }
            4 => {
                let mark = self.low_bits(0x80);
                sent.mark(mark, &[]);
                sent.note(2, &[mark & 1]);
            }
            5 => self.put_own(sent, mixture, (0x90, 3, 3)),
            6 => self.put_own(sent, mixture, (0xC0, 4, 4)),
            _ => self.put_own(sent, mixture, (0xD0, 10, 4)),
        }
    }

    /// An action by the high half of its mark, its kind and its number of own bytes.
    fn put_own(&mut self, sent: &mut Sent, mixture: usize, (high, kind, own): (u8, u8, usize)) {
        let mark = self.low_bits(high);
        let own = self.bytes(mixture, own);
        sent.mark(mark, &own);
        sent.note(kind, &own);
    }

    /// A load or save with what it holds and its end.
    fn put_transfer(&mut self, sent: &mut Sent, mixture: usize, open: usize) {
        let transfer = self.put_opened(sent, mixture);
        while self.one_in(2) {
            self.put_action(sent, mixture, open + 1);
            self.put_load(sent, mixture, transfer);
        }
        let mark = self.low_bits(0xB0);
        sent.mark(mark, &[]);
        sent.note(14, &[transfer as u8]);
    }

    /// The mark and address of a load or save, and load data.
    fn put_opened(&mut self, sent: &mut Sent, mixture: usize) -> Transfer {
        let (transfer, high, kind) = match self.one_in(2) {
            true => (Transfer::Save, 0xF0, 12),
            false => (Transfer::Load, 0xE0, 11),
        };
        self.put_own(sent, mixture, (high, kind, 4));
        self.put_load(sent, mixture, transfer);
        transfer
    }

    fn put_load(&mut self, sent: &mut Sent, mixture: usize, transfer: Transfer) {
        if transfer == Transfer::Load {
            let length = self.data_length();
            let data = self.bytes(mixture, length);
            sent.load(&data);
        }
    }

    /// So many transfers that are left open, one inside the other.
    pub fn nest(&mut self, mixture: usize, depth: usize) -> Sent {
        let mut sent = Sent::default();
        for open in 0..depth {
            if self.one_in(4) {
                self.put_action(&mut sent, mixture, open);
            }
            self.put_opened(&mut sent, mixture);
        }
        sent
    }

    /// Transfers with actions in the innermost one, then their ends.
    pub fn nested(&mut self, mixture: usize) -> Vec<u8> {
        let depth = 1 + self.below(TRANSFERS);
        let mut sent = self.nest(mixture, depth);
        for _ in 0..1 + self.below(6) {
            self.put_action(&mut sent, mixture, depth);
        }
        for _ in 0..depth {
            sent.raw.extend([0x9B, self.low_bits(0xB0)]);
        }
        sent.raw
    }

    /// One action that leaves a waiting reply at its place.
    pub fn action(&mut self, mixture: usize) -> Vec<u8> {
        let mut sent = Sent::default();
        self.put_action(&mut sent, mixture, 0);
        sent.raw
    }

    /// What some rule refuses.
    pub fn broken(&mut self, mixture: usize) -> Vec<u8> {
        match self.below(10) {
            0 | 1 => {
                let length = 256 + self.below(3);
                self.error(mixture, length)
            }
            2 => vec![0x9B, self.byte()],
            3 | 4 => {
                // A mark inside an action in most cases.
                let mut raw = self.action(mixture);
                let mark = self.mark();
                let inside = 2 + self.below(raw.len() - 1);
                raw.splice(inside.min(raw.len())..raw.len(), [0x9B, mark]);
                raw
            }
            5 | 6 => self.nest(mixture, TRANSFERS + 1).raw,
            7 | 8 => {
                // A data byte, which a save refuses.
                let depth = 1 + self.below(TRANSFERS);
                let mut raw = self.nest(mixture, depth).raw;
                raw.extend(escaped(&[self.mixed(mixture)]));
                raw
            }
            _ => vec![0x9B, self.low_bits(0xB0)],
        }
    }

    /// An error as it is sent, number and text in one of four mixtures.
    pub fn error(&mut self, mixture: usize, length: usize) -> Vec<u8> {
        let number = match self.below(3) {
            0 => 0,
            _ => self.mixed(mixture),
        };
        let text = self.without(0x00, mixture, length);
        let own = [&[number], &text[..], &[0]].concat();
        [&[0x9B, 0x00], &escaped(&own)[..]].concat()
    }
}

/// A reply, and what is sent with actions between its bytes.
pub struct Laden {
    pub kind: (u8, u8),
    pub plain: Vec<u8>,
    pub sent: Sent,
    /// How many raw bytes the first action has, where it comes before the reply.
    pub leading: usize,
}

impl Laden {
    pub fn new(random: &mut Random) -> Laden {
        let kind = random.call();
        let mixture = random.below(4);
        let plain = random.reply(kind, mixture);
        let often = 1 + random.below(8);
        let mut sent = Sent::default();
        let mut leading = 0;
        for (at, &byte) in plain.iter().enumerate() {
            while random.one_in(often + 1) {
                random.put_action(&mut sent, mixture, 0);
                if at == 0 && leading == 0 {
                    leading = sent.raw.len();
                }
            }
            sent.raw.extend(escaped(&[byte]));
        }
        Laden {
            kind,
            plain,
            sent,
            leading,
        }
    }
}
