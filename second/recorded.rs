//! The second program's reader of a whole recorded reply: what came behind one call,
//! up to where the call ends, a byte is refused or the recording runs out. Two rules
//! call each other on what remains: the body of a transfer holds actions, and an
//! action may have a body. What is read is collected first and put into the lent
//! bytes at the end, where it fits.

#[cfg(test)]
#[allow(dead_code)]
#[path = "random.rs"]
mod random;

use super::serial::{
    BROKEN_RULE, ESCAPE, LONG_STRING, LONGEST_STRING, MARK_INSIDE, NOT_CARRIED, SHORT_BUFFER,
    STRING_END,
};
use super::{CALLS, LENT, MOST, NOTE, OSWORD, OSWORD_0, TEXT_END, TOO_DEEP, TRANSFERS, Transfer};

/// Why the reading is over.
#[derive(Clone, PartialEq, Debug)]
pub enum End {
    Reply(Vec<u8>),
    Error {
        number: u8,
        text: Vec<u8>,
    },
    Restart,
    Refused(u8),
    /// There is no further raw byte.
    RanOut,
}

/// What a recorded reply gives: how many raw bytes were read, the one that ended it
/// too, how many notes and data bytes it has, and why it ended.
#[derive(Clone, PartialEq, Debug)]
pub struct Recorded {
    pub used: usize,
    pub noted: usize,
    pub stored: usize,
    pub end: End,
}

/// Reads a recorded reply to a call with this out length. `room` gets the notes,
/// `data` the load data and control blocks; `out` gets the reply, or the error's
/// number and then its text. Where the first two are too short nothing is read or
/// written, and the counts say what is needed.
pub fn read_recorded(
    (call, out_length): (u8, u8),
    raw: &[u8],
    room: &mut [u8],
    data: &mut [u8],
    out: &mut [u8; LENT],
) -> Recorded {
    let mut reading = Reading {
        rest: raw,
        notes: Vec::new(),
        data: Vec::new(),
    };
    let end = match reading.reply(call, out_length) {
        Ok(reply) => End::Reply(reply),
        Err(end) => end,
    };
    let recorded = Recorded {
        used: raw.len() - reading.rest.len(),
        noted: reading.notes.len(),
        stored: reading.data.len(),
        end,
    };
    let notes = reading.notes.as_flattened();
    if room.len() < notes.len() || data.len() < reading.data.len() {
        return Recorded {
            used: 0,
            end: End::Refused(SHORT_BUFFER),
            ..recorded
        };
    }
    room[..notes.len()].copy_from_slice(notes);
    data[..reading.data.len()].copy_from_slice(&reading.data);
    match &recorded.end {
        End::Reply(reply) => out[..reply.len()].copy_from_slice(reply),
        End::Error { number, text } => {
            out[0] = *number;
            out[1..=text.len()].copy_from_slice(text);
        }
        _ => {}
    }
    recorded
}

/// What one or two raw bytes stand for.
enum Item {
    Data(u8),
    Mark(u8),
}

/// What remains to be read, and what has been read beside the reply.
struct Reading<'a> {
    rest: &'a [u8],
    notes: Vec<[u8; NOTE]>,
    data: Vec<u8>,
}

impl Reading<'_> {
    fn raw(&mut self) -> Result<u8, End> {
        let (&byte, rest) = self.rest.split_first().ok_or(End::RanOut)?;
        self.rest = rest;
        Ok(byte)
    }

    fn item(&mut self) -> Result<Item, End> {
        let byte = self.raw()?;
        if byte != ESCAPE {
            return Ok(Item::Data(byte));
        }
        match self.raw()? {
            ESCAPE => Ok(Item::Data(ESCAPE)),
            mark => Ok(Item::Mark(mark)),
        }
    }

    // ---- The reply ----

    /// All bytes of the reply to a call.
    fn reply(&mut self, call: u8, out_length: u8) -> Result<Vec<u8>, End> {
        let length = match call {
            CALLS.. => return Err(End::Refused(NOT_CARRIED)),
            OSWORD_0 => return self.line(),
            OSWORD => out_length as usize,
            _ => MOST[call as usize],
        };
        (0..length).map(|_| self.reply_byte()).collect()
    }

    /// An escaped line is one byte, another has a string behind it.
    fn line(&mut self) -> Result<Vec<u8>, End> {
        let first = self.reply_byte()?;
        let mut line = vec![first];
        if first & 0x80 != 0 {
            return Ok(line);
        }
        loop {
            let byte = self.reply_byte()?;
            if byte != STRING_END && line.len() > LONGEST_STRING {
                return Err(End::Refused(LONG_STRING));
            }
            line.push(byte);
            if byte == STRING_END {
                return Ok(line);
            }
        }
    }

    /// The next byte of the reply, behind the actions that come before it.
    fn reply_byte(&mut self) -> Result<u8, End> {
        loop {
            match self.item()? {
                Item::Data(byte) => return Ok(byte),
                Item::Mark(mark) => self.action(mark, 0)?,
            }
        }
    }

    // ---- The two rules ----

    /// What a mark begins, where so many transfers are open. A load or save has a
    /// body.
    fn action(&mut self, mark: u8, open: usize) -> Result<(), End> {
        match mark >> 4 {
            0x0 if mark == 0 => return Err(self.error()?),
            0x0..=0x7 => self.block(mark)?,
            0x8 => self.note(2, [mark & 1]),
            0x9 => {
                let event = self.own::<3>()?;
                self.note(3, event);
            }
            0xB => return Err(End::Refused(MARK_INSIDE)),
            0xC => self.address(4)?,
            0xD => self.address(10)?,
            0xE | 0xF if open == TRANSFERS => return Err(End::Refused(TOO_DEEP)),
            0xE => {
                self.address(11)?;
                self.body(Transfer::Load, open + 1)?;
            }
            0xF => {
                self.address(12)?;
                self.body(Transfer::Save, open + 1)?;
            }
            _ => return Err(End::Refused(NOT_CARRIED)),
        }
        Ok(())
    }

    /// The body of a transfer up to its end, where so many are open with it. Its
    /// marks but that end are actions.
    fn body(&mut self, transfer: Transfer, open: usize) -> Result<(), End> {
        loop {
            match (self.item()?, transfer) {
                (Item::Data(byte), Transfer::Load) => self.load(byte),
                (Item::Data(_), Transfer::Save) => return Err(End::Refused(BROKEN_RULE)),
                (Item::Mark(0xB0..=0xBF), _) => {
                    self.note(14, [(transfer == Transfer::Save) as u8]);
                    return Ok(());
                }
                (Item::Mark(mark), _) => self.action(mark, open)?,
            }
        }
    }

    // ---- The bytes of actions ----

    /// A byte of an action's own.
    fn own_byte(&mut self) -> Result<u8, End> {
        match self.item()? {
            Item::Data(byte) => Ok(byte),
            Item::Mark(_) => Err(End::Refused(MARK_INSIDE)),
        }
    }

    fn own<const LENGTH: usize>(&mut self) -> Result<[u8; LENGTH], End> {
        let mut own = [0; LENGTH];
        for byte in &mut own {
            *byte = self.own_byte()?;
        }
        Ok(own)
    }

    /// An address, noted as one of this kind.
    fn address(&mut self, kind: u8) -> Result<(), End> {
        let address = self.own::<4>()?;
        self.note(kind, address);
        Ok(())
    }

    /// A control block; one that does not end leaves nothing.
    fn block(&mut self, length: u8) -> Result<(), End> {
        let block: Vec<u8> = (0..length)
            .map(|_| self.own_byte())
            .collect::<Result<_, _>>()?;
        self.data.extend(block);
        self.note(9, [length]);
        Ok(())
    }

    /// The end that an error or a restart is.
    fn error(&mut self) -> Result<End, End> {
        let number = self.own_byte()?;
        let mut text = Vec::new();
        loop {
            match self.own_byte()? {
                TEXT_END if number == 0 && text.is_empty() => return Ok(End::Restart),
                TEXT_END => return Ok(End::Error { number, text }),
                _ if text.len() == LONGEST_STRING => return Ok(End::Refused(LONG_STRING)),
                byte => text.push(byte),
            }
        }
    }

    // ---- Notes ----

    fn note<const LENGTH: usize>(&mut self, kind: u8, values: [u8; LENGTH]) {
        let mut note = [0; NOTE];
        note[0] = kind;
        note[1..=LENGTH].copy_from_slice(&values);
        self.notes.push(note);
    }

    /// A byte of load data, counted in the last note where that has room for it.
    fn load(&mut self, byte: u8) {
        self.data.push(byte);
        match self.notes.last_mut() {
            Some([13, count, ..]) if *count < u8::MAX => *count += 1,
            _ => self.note(13, [1]),
        }
    }
}

#[cfg(test)]
mod tests {
    use super::super::{
        Begun, Link, OSARGS, OSBGET, OSBYTE_LOW, OSCLI, OSFIND_CLOSE, OSRDCH, Ran, Told,
    };
    use super::random::Random;
    use super::*;

    /// What a recording gives, with its notes and data.
    type Given = (Recorded, Vec<[u8; NOTE]>, Vec<u8>);

    /// Reads with room for all, every lent byte &DD; what is not written stays so.
    fn read(kind: (u8, u8), raw: &[u8]) -> Given {
        let mut room = vec![0xDD; NOTE * raw.len() + 3];
        let mut data = vec![0xDD; raw.len() + 3];
        let mut out = [0xDD; LENT];
        let recorded = read_recorded(kind, raw, &mut room, &mut data, &mut out);
        let (notes, room) = room.split_at(NOTE * recorded.noted);
        let expected = match &recorded.end {
            End::Reply(reply) => reply.clone(),
            End::Error { number, text } => [&[*number], &text[..]].concat(),
            _ => Vec::new(),
        };
        assert_eq!(out[..expected.len()], expected);
        let untouched = [room, &data[recorded.stored..], &out[expected.len()..]].concat();
        assert!(untouched.iter().all(|&byte| byte == 0xDD));
        data.truncate(recorded.stored);
        let notes = notes.as_chunks::<NOTE>().0.to_vec();
        (recorded, notes, data)
    }

    fn end(kind: (u8, u8), raw: &[u8]) -> (End, usize) {
        let (recorded, _, _) = read(kind, raw);
        (recorded.end, recorded.used)
    }

    fn reply(bytes: &[u8]) -> End {
        End::Reply(bytes.to_vec())
    }

    /// An escape, a mark with an address, and what follows.
    fn opened(mark: u8, behind: &[u8]) -> Vec<u8> {
        [&[0x9B, mark, 1, 2, 3, 4], behind].concat()
    }

    #[test]
    fn a_reply_with_what_came_between() {
        let raw = [
            &[0x9B, 0x03, 5, 0x9B, 0x9B, 6, 0x80, 0x9B, 0x8F][..],
            &opened(0xE3, &[7, 0x9B, 0x9B, 8, 0x9B, 0x9F, 1, 2, 3, 9]),
            &opened(0xF4, &[0x9B, 0xBB]),
            &opened(0xD5, &[0x9B, 0xB6]),
            &opened(0xC6, &[0x41, 0x42]),
        ]
        .concat();
        let (recorded, notes, data) = read((OSBGET, 0), &raw);
        assert_eq!(recorded.end, reply(&[0x80, 0x41]));
        assert_eq!(recorded.used, raw.len() - 1);
        let expected = [
            [9, 3, 0, 0, 0],
            [2, 1, 0, 0, 0],
            [11, 1, 2, 3, 4],
            [13, 3, 0, 0, 0],
            [3, 1, 2, 3, 0],
            [13, 1, 0, 0, 0],
            [12, 1, 2, 3, 4],
            [14, 1, 0, 0, 0],
            [10, 1, 2, 3, 4],
            [14, 0, 0, 0, 0],
            [4, 1, 2, 3, 4],
        ];
        assert_eq!(notes, expected);
        assert_eq!(data, [5, 0x9B, 6, 7, 0x9B, 8, 9]);
    }

    #[test]
    fn four_transfers_and_a_fifth() {
        for marks in 0..32_u8 {
            // A bit for each of five transfers: a load or a save.
            let mark = |at: u8| 0xE0 + 0x10 * (marks >> at & 1);
            let mut raw = Vec::new();
            for at in 0..4 {
                raw.extend(opened(mark(at), &[]));
            }
            let fifth = [&raw[..], &[0x9B, mark(4), 1]].concat();
            assert_eq!(end((OSCLI, 0), &fifth), (End::Refused(13), 26));
            let network = [&raw[..], &[0x9B, 0xAF, 1]].concat();
            assert_eq!(end((OSCLI, 0), &network), (End::Refused(4), 26));
            let closed = [&raw[..], &[0x9B, 0xB0].repeat(4), &[0x99]].concat();
            let (recorded, notes, _) = read((OSCLI, 0), &closed);
            assert_eq!(recorded.end, reply(&[0x99]));
            for (at, note) in notes[4..].iter().enumerate() {
                assert_eq!(*note, [14, marks >> (3 - at) & 1, 0, 0, 0]);
            }
            let over = [&closed[..32], &[0x9B, 0xB0]].concat();
            assert_eq!(end((OSCLI, 0), &over), (End::Refused(5), 34));
        }
    }

    #[test]
    fn refusals_at_their_byte() {
        let save = opened(0xF0, &[0x41, 0x41]);
        let doubled = opened(0xF0, &[0x9B, 0x9B, 0x41]);
        let inside = opened(0xE0, &opened(0xF0, &[0x41]));
        let outside = opened(0xF0, &opened(0xE0, &[0x41, 0x9B, 0xB0, 0x42]));
        let text = [&[0x9B, 0, 7][..], &[0x41; 256], &[0]].concat();
        let cases: [(&[u8], u8, usize); 10] = [
            (&save, 9, 7),
            (&doubled, 9, 8),
            (&inside, 9, 13),
            (&outside, 9, 16),
            (&text, 6, 259),
            (&[0x9B, 0xB0, 0], 5, 2),
            (&[0x9B, 0x02, 1, 0x9B, 0xE0], 5, 5),
            (&[0x9B, 0xE0, 1, 0x9B, 0xB0], 5, 5),
            (&[0x9B, 0x90, 0x9B, 0xA0], 5, 4),
            (&[0x9B, 0xA0, 0], 4, 2),
        ];
        for (raw, number, used) in cases {
            assert_eq!(end((OSARGS, 0), raw), (End::Refused(number), used));
        }
        let line = [&[0x7F][..], &[0x41; 256]].concat();
        assert_eq!(end((OSWORD_0, 0), &line), (End::Refused(6), 257));
        let whole = [&line[..256], &[0x0D]].concat();
        assert_eq!(end((OSWORD_0, 0), &whole), (reply(&whole), 257));
        assert_eq!(end((OSWORD_0, 0), &[0x80, 0x0D]), (reply(&[0x80]), 1));
    }

    #[test]
    fn errors_and_restarts_end_the_call_in_any_transfer() {
        let nest = opened(0xE0, &opened(0xF0, &opened(0xE0, &[0x41])));
        let error = End::Error {
            number: 0x9B,
            text: vec![0x0D, 0x9B],
        };
        for before in [&[][..], &nest] {
            let raw = [before, &[0x9B, 0, 0, 0, 0x42]].concat();
            assert_eq!(end((OSARGS, 0), &raw), (End::Restart, raw.len() - 1));
            let own = [0x9B, 0, 0x9B, 0x9B, 0x0D, 0x9B, 0x9B, 0, 0x42];
            let raw = [before, &own].concat();
            assert_eq!(end((OSARGS, 0), &raw), (error.clone(), raw.len() - 1));
        }
    }

    #[test]
    fn a_recording_that_runs_out() {
        let raw = [
            &[0x80, 0x9B, 0x02, 0x9B, 0x9B, 1][..],
            &opened(0xE0, &[5, 0x9B, 0x9B, 6]),
            &opened(0xF0, &[0x9B, 0x91, 1, 2, 3, 0x9B, 0xB0, 7, 0x9B, 0xB0]),
        ]
        .concat();
        for cut in 0..=raw.len() {
            let (recorded, notes, data) = read((OSBGET, 0), &raw[..cut]);
            assert_eq!((recorded.end, recorded.used), (End::RanOut, cut));
            // A block is told at its last byte, load data at each.
            assert_eq!(notes.contains(&[9, 2, 0, 0, 0]), cut >= 6);
            assert_eq!(data.len() >= 2, cut >= 6);
            assert_eq!(data.contains(&5), cut >= 13);
        }
        assert_eq!(end((OSBGET, 0), &[]), (End::RanOut, 0));
    }

    #[test]
    fn what_is_lent_is_measured_first() {
        let raw = opened(0xE0, &[5, 6, 7, 0x9B, 0xB0, 0x9B, 0x02, 8, 9, 0x42]);
        for (room_length, data_length) in [(0, 0), (19, 5), (20, 4), (19, 4), (0, 100), (100, 0)] {
            let mut room = vec![0xDD; room_length];
            let mut data = vec![0xDD; data_length];
            let mut out = [0xDD; LENT];
            let recorded = read_recorded((OSCLI, 0), &raw, &mut room, &mut data, &mut out);
            let short = Recorded {
                used: 0,
                noted: 4,
                stored: 5,
                end: End::Refused(8),
            };
            assert_eq!(recorded, short);
            let untouched = [room, data, out.to_vec()].concat();
            assert!(untouched.iter().all(|&byte| byte == 0xDD));
        }
        let (mut room, mut data) = ([0; 20], [0; 5]);
        let recorded = read_recorded((OSCLI, 0), &raw, &mut room, &mut data, &mut [0; LENT]);
        assert_eq!((recorded.end, recorded.used), (reply(&[0x42]), raw.len()));
        assert_eq!(data, [5, 6, 7, 8, 9]);
    }

    #[test]
    fn calls_that_need_no_byte() {
        for raw in [&[][..], &[0x9B, 0xA0], &[0x41; 9]] {
            assert_eq!(end((OSWORD, 0), raw), (reply(&[]), 0));
            for call in CALLS..=255 {
                assert_eq!(end((call, 1), raw), (End::Refused(4), 0));
            }
        }
        for out_length in 1..=255 {
            let raw = [0x41; 255];
            let length = out_length as usize;
            let whole = (reply(&raw[..length]), length);
            assert_eq!(end((OSWORD, out_length), &raw), whole);
            let cut = (End::RanOut, length - 1);
            assert_eq!(end((OSWORD, out_length), &raw[..length - 1]), cut);
        }
    }

    // ---- The same as byte by byte ----

    /// The same by the link, from a fresh one with the call begun.
    fn step_by_step((call, out_length): (u8, u8), raw: &[u8]) -> Given {
        let mut link = Link::new();
        let (mut reply, mut own) = ([0; LENT], [0; LENT]);
        let mut room = vec![0; NOTE * raw.len()];
        let mut data = vec![0; raw.len()];
        let ran = match link.begin(call, out_length) {
            Begun::Waits => link.run(raw, &mut reply, &mut own, &mut room, &mut data),
            begun => Ran {
                told: match begun {
                    Begun::Refused(number) => Told::Refused(number),
                    _ => Told::Reply(0),
                },
                used: 0,
                noted: 0,
                stored: 0,
            },
        };
        let end = match ran.told {
            Told::Reply(length) => End::Reply(reply[..length].to_vec()),
            Told::Error { number, length } => End::Error {
                number,
                text: own[1..=length].to_vec(),
            },
            Told::Restart => End::Restart,
            Told::Refused(number) => End::Refused(number),
            _ => End::RanOut,
        };
        let recorded = Recorded {
            used: ran.used,
            noted: ran.noted,
            stored: ran.stored,
            end,
        };
        let notes = room.as_chunks::<NOTE>().0[..ran.noted].to_vec();
        data.truncate(ran.stored);
        (recorded, notes, data)
    }

    /// Data with &9B doubled.
    fn put_data(raw: &mut Vec<u8>, bytes: &[u8]) {
        for &byte in bytes {
            raw.push(byte);
            if byte == 0x9B {
                raw.push(byte);
            }
        }
    }

    /// Actions, data and ends in any order, so that every rule is met and broken.
    fn recording(random: &mut Random) -> Vec<u8> {
        let mut raw = Vec::new();
        let mixture = random.below(4);
        for _ in 0..random.below(24) {
            let length = random.below(6);
            let (mark, own) = match random.below(32) {
                0..10 => (None, length),
                10 => (None, 250 + random.below(270)),
                11..16 => (Some(0xE0), 4),
                16..18 => (Some(0xF0), 4),
                18..24 => (Some(0xB0), 0),
                24 => (Some(0x80), 0),
                25 => (Some(0x90), 3),
                26 => (Some(0xC0), 4),
                27 => (Some(0xD0), 4),
                28 => (Some(1 + length as u8), 1 + length),
                29 => (Some(127), 127),
                30 => (Some(0x00), [0, 1, 1 + length, 260][random.below(4)]),
                _ => (Some(random.byte()), length),
            };
            if let Some(mark) = mark {
                let low = if mark < 0x80 { 0 } else { random.below(11) };
                raw.extend([0x9B, mark | low as u8]);
            }
            let own = random.bytes(mixture, own);
            put_data(&mut raw, &own);
            if mark == Some(0x00) {
                raw.extend([0x00, 0x00]);
            }
        }
        if !raw.is_empty() && random.one_in(3) {
            let at = random.below(raw.len());
            match random.below(3) {
                0 => raw[at] = random.edge(),
                1 => raw.insert(at, random.edge()),
                _ => {
                    raw.remove(at);
                }
            }
        }
        raw
    }

    #[test]
    fn whole_recordings_give_what_single_bytes_give() {
        let mut random = Random::gate();
        let mut ends = [0; 14];
        for number in 0..60_000 {
            let calls = [OSRDCH, OSBYTE_LOW, OSWORD, OSWORD_0, OSARGS, OSFIND_CLOSE];
            let kind = match number % 8 {
                at @ 0..6 => (calls[at], 1 + random.below(20) as u8),
                6 => (OSWORD, random.byte()),
                _ => (random.below(14) as u8, random.byte()),
            };
            let raw = recording(&mut random);
            let whole = read(kind, &raw);
            assert_eq!(whole, step_by_step(kind, &raw), "{kind:?} {raw:02X?}");
            let place = match whole.0.end {
                End::Reply(_) => 0,
                End::Error { .. } => 1,
                End::Restart => 2,
                End::RanOut => 3,
                End::Refused(number) => number as usize,
            };
            ends[place] += 1;
        }
        for place in [0, 1, 2, 3, 4, 5, 6, 9, 13] {
            assert!(ends[place] >= 50, "{ends:?}");
        }
    }
}
