//! A second program for Acorn's Tube chip: the chip, the script player and
//! the text of a played script. It is written from the rules alone and shares
//! nothing with the proved library.
//!
//! Channels are numbered register by register, host-to-parasite first: 0 is
//! host-to-parasite R1, 1 parasite-to-host R1, and so on up to 7,
//! parasite-to-host R4.

use std::io::Write;

pub const HOST: u8 = 0;
pub const PARASITE: u8 = 1;

// Answers.
const DONE: u8 = 0;
const REFUSED: u8 = 1;
const NO_ROOM: u8 = 2;
const EMPTY: u8 = 3;
const LIMIT_REACHED: u8 = 10;
const CUT_SHORT: u8 = 11;

// Flags.
const P: u8 = 0x20;
const V: u8 = 0x10;
const M: u8 = 0x08;
const J: u8 = 0x04;
const I: u8 = 0x02;
const Q: u8 = 0x01;
const FLAGS: u8 = P | V | M | J | I | Q;

// The channels that the lines look at.
const TO_PARASITE_R1: usize = 0;
const TO_PARASITE_R3: usize = 4;
const TO_PARASITE_R4: usize = 6;
const TO_HOST_R4: usize = 7;

/// How many bytes each channel can hold.
const PLACES: [u8; 8] = [1, 10, 1, 1, 2, 2, 1, 1];

/// A channel has room while it holds fewer bytes than this, for V = 0 and V = 1.
const ROOM: [[u8; 8]; 2] = [[1, 10, 1, 1, 1, 1, 1, 1], PLACES];

/// Ring size of a channel: a power of two, at least the largest place count.
const RING: usize = 16;

/// The chip. Each channel is a ring whose bytes are stored twice, `RING`
/// apart, so that the held bytes always lie in one piece, oldest first.
#[derive(Clone, Copy, Debug)]
pub struct Tube {
    bytes: [[u8; 2 * RING]; 8],
    first: [u8; 8],
    counts: [u8; 8],
    flags: u8,
    /// Some channel counts more bytes than its places.
    over_full: bool,
}

/// Chips are equal when they hold the same bytes and flags; where a byte is
/// stored does not count.
impl PartialEq for Tube {
    fn eq(&self, other: &Tube) -> bool {
        self.flags == other.flags
            && self.counts == other.counts
            && (0..8).all(|channel| self.held(channel) == other.held(channel))
    }
}

impl Tube {
    pub fn new() -> Tube {
        Tube {
            bytes: [[0; 2 * RING]; 8],
            first: [0; 8],
            counts: [0; 8],
            flags: 0,
            over_full: false,
        }
    }

    /// A chip with these bytes (oldest first) and counts for each channel, and
    /// P V M J I Q in bits 5 to 0 of `flags`. A count above the places makes a
    /// chip that refuses every access; that channel's bytes are not kept.
    pub fn from_parts(channels: [(&[u8], u8); 8], flags: u8) -> Tube {
        let mut tube = Tube::new();
        tube.flags = flags & FLAGS;
        for (channel, (bytes, count)) in channels.into_iter().enumerate() {
            tube.counts[channel] = count;
            if count > PLACES[channel] {
                tube.over_full = true;
            } else {
                for (at, &byte) in bytes[..count as usize].iter().enumerate() {
                    tube.store(channel, at, byte);
                }
            }
        }
        tube
    }

    /// The bytes a channel holds, oldest first; none where it counts more than
    /// its places.
    pub fn held(&self, channel: usize) -> &[u8] {
        if self.counts[channel] > PLACES[channel] {
            return &[];
        }
        let first = self.first[channel] as usize;
        &self.bytes[channel][first..first + self.counts[channel] as usize]
    }

    pub fn count(&self, channel: usize) -> u8 {
        self.counts[channel]
    }

    /// P V M J I Q in bits 5 to 0.
    pub fn flags(&self) -> u8 {
        self.flags
    }

    pub fn reset(&mut self) {
        self.flags = 0;
        self.counts = [0; 8];
        self.over_full = false;
    }

    /// One access: the answer and the byte read (0 for a write or a refusal).
    pub fn access(&mut self, side: u8, offset: u8, write: bool, byte: u8) -> (u8, u8) {
        if self.over_full || side > PARASITE || offset > 7 {
            return (REFUSED, 0);
        }
        let register = 2 * (offset >> 1) as usize;
        let outward = register + side as usize;
        let inward = register + 1 - side as usize;
        match (offset & 1 == 1, write) {
            (false, false) => (DONE, self.status(inward, outward)),
            (false, true) => {
                if side == HOST && offset == 0 {
                    self.control(byte);
                }
                (DONE, 0)
            }
            (true, false) => self.take(inward),
            (true, true) => self.put(outward, byte),
        }
    }

    /// The line value: host IRQ 1, parasite IRQ 2, parasite NMI 4, parasite
    /// reset 8.
    pub fn lines(&self) -> u8 {
        if self.over_full {
            return 0;
        }
        let set = |flag: u8| self.flags & flag != 0;
        let holds = |channel: usize| self.counts[channel] != 0;
        let host_irq = set(Q) && holds(TO_HOST_R4);
        let parasite_irq = set(I) && holds(TO_PARASITE_R1) || set(J) && holds(TO_PARASITE_R4);
        let parasite_nmi = set(M) && self.n();
        let parasite_reset = set(P);
        host_irq as u8 + 2 * parasite_irq as u8 + 4 * parasite_nmi as u8 + 8 * parasite_reset as u8
    }

    /// Bit 7 of the parasite's R3 status.
    fn n(&self) -> bool {
        if self.flags & V == 0 {
            self.counts[TO_PARASITE_R3] != 0
        } else {
            self.counts[TO_PARASITE_R3] == 2
        }
    }

    fn room(&self, channel: usize) -> bool {
        let v = (self.flags & V != 0) as usize;
        self.counts[channel] < ROOM[v][channel]
    }

    fn status(&self, inward: usize, outward: usize) -> u8 {
        let available = if inward == TO_PARASITE_R3 {
            self.n()
        } else {
            self.counts[inward] != 0
        };
        let low = if inward < 2 { self.flags } else { FLAGS };
        (available as u8) << 7 | (self.room(outward) as u8) << 6 | low
    }

    fn control(&mut self, byte: u8) {
        if byte & 0x80 != 0 {
            self.flags |= byte & FLAGS;
        } else {
            self.flags &= !byte;
        }
        if byte & 0xC0 == 0xC0 {
            self.counts = [0; 8];
        }
    }

    fn put(&mut self, channel: usize, byte: u8) -> (u8, u8) {
        if !self.room(channel) {
            return (NO_ROOM, 0);
        }
        let count = self.counts[channel];
        self.store(channel, (self.first[channel] + count) as usize, byte);
        self.counts[channel] = count + 1;
        (DONE, 0)
    }

    fn take(&mut self, channel: usize) -> (u8, u8) {
        if self.counts[channel] == 0 {
            return (EMPTY, 0);
        }
        let first = self.first[channel] as usize % RING;
        self.first[channel] = ((first + 1) % RING) as u8;
        self.counts[channel] -= 1;
        (DONE, self.bytes[channel][first])
    }

    fn store(&mut self, channel: usize, at: usize, byte: u8) {
        let at = at % RING;
        self.bytes[channel][at] = byte;
        self.bytes[channel][at + RING] = byte;
    }
}

/// What playing a script gives: answer, byte and line value of each record,
/// and the final answer.
#[derive(Clone, PartialEq, Debug)]
pub struct Played {
    pub results: Vec<[u8; 3]>,
    pub answer: u8,
}

/// Plays at most `limit` records of a script.
pub fn play(tube: &mut Tube, script: &[u8], limit: usize) -> Played {
    let mut results = Vec::new();
    let mut rest = script;
    while results.len() < limit
        && let [kind, offset, byte, tail @ ..] = rest
    {
        let (answer, read) = match kind {
            0 => tube.access(HOST, *offset, false, *byte),
            1 => tube.access(HOST, *offset, true, *byte),
            2 => tube.access(PARASITE, *offset, false, *byte),
            3 => tube.access(PARASITE, *offset, true, *byte),
            4 => {
                tube.reset();
                (DONE, 0)
            }
            _ => (REFUSED, 0),
        };
        results.push([answer, read, tube.lines()]);
        rest = tail;
    }
    let answer = if rest.is_empty() {
        DONE
    } else if results.len() == limit {
        LIMIT_REACHED
    } else {
        CUT_SHORT
    };
    Played { results, answer }
}

/// The text of a played script: one line a record, then the `end` line.
pub fn text(played: &Played) -> Vec<u8> {
    let mut text = Vec::new();
    for [answer, byte, lines] in &played.results {
        writeln!(text, "{answer} {byte} {lines}").unwrap();
    }
    writeln!(text, "end {} {}", played.results.len(), played.answer).unwrap();
    text
}

#[cfg(test)]
mod tests {
    use super::*;

    const READ: bool = false;
    const WRITE: bool = true;

    fn host_status(tube: &mut Tube, register: u8) -> (u8, u8) {
        tube.access(HOST, 2 * (register - 1), READ, 0)
    }

    fn parasite_status(tube: &mut Tube, register: u8) -> (u8, u8) {
        tube.access(PARASITE, 2 * (register - 1), READ, 0)
    }

    fn control(tube: &mut Tube, byte: u8) {
        assert_eq!(tube.access(HOST, 0, WRITE, byte), (0, 0));
    }

    #[test]
    fn c1_fresh_host_r1_status() {
        assert_eq!(host_status(&mut Tube::new(), 1), (0, 0x40));
    }

    #[test]
    fn c2_fresh_host_r2_status() {
        assert_eq!(host_status(&mut Tube::new(), 2), (0, 0x7F));
    }

    #[test]
    fn c3_host_writes_r1() {
        let mut tube = Tube::new();
        assert_eq!(tube.access(HOST, 1, WRITE, 7), (0, 0));
        assert_eq!(parasite_status(&mut tube, 1), (0, 0xC0));
        assert_eq!(host_status(&mut tube, 1), (0, 0x00));
    }

    #[test]
    fn c4_r3_status_with_v() {
        let mut tube = Tube::new();
        control(&mut tube, 0x90);
        assert_eq!(tube.access(HOST, 5, WRITE, 1), (0, 0));
        assert_eq!(parasite_status(&mut tube, 3), (0, 0x7F));
        assert_eq!(tube.access(HOST, 5, WRITE, 2), (0, 0));
        assert_eq!(parasite_status(&mut tube, 3), (0, 0xFF));
    }

    #[test]
    fn c5_ten_bytes_to_host_r1() {
        let mut tube = Tube::new();
        for byte in 1..=10 {
            assert_eq!(tube.access(PARASITE, 1, WRITE, byte), (0, 0));
        }
        let full = tube;
        assert_eq!(tube.access(PARASITE, 1, WRITE, 11), (2, 0));
        assert_eq!(tube, full);
        for byte in 1..=10 {
            assert_eq!(tube.access(HOST, 1, READ, 99), (0, byte));
        }
        assert_eq!(tube.access(HOST, 1, READ, 99), (3, 0));
    }

    #[test]
    fn c6_v_cleared_with_two_bytes_held() {
        let mut tube = Tube::new();
        control(&mut tube, 0x90);
        assert_eq!(tube.access(HOST, 5, WRITE, 1), (0, 0));
        assert_eq!(tube.access(HOST, 5, WRITE, 2), (0, 0));
        control(&mut tube, 0x10);
        assert_eq!(tube.access(HOST, 5, WRITE, 3), (2, 0));
        assert_eq!(tube.access(PARASITE, 5, READ, 0), (0, 1));
        assert_eq!(tube.access(HOST, 5, WRITE, 3), (2, 0));
        assert_eq!(tube.access(PARASITE, 5, READ, 0), (0, 2));
        assert_eq!(tube.access(HOST, 5, WRITE, 3), (0, 0));
    }

    #[test]
    fn c7_control_sets_and_clears_q() {
        let mut tube = Tube::new();
        control(&mut tube, 0x81);
        assert_eq!(tube.flags(), Q);
        control(&mut tube, 0x01);
        assert_eq!(tube.flags(), 0);
    }

    #[test]
    fn c8_the_clear() {
        let mut tube = Tube::from_parts([(&[9; 10], 1); 8], 0);
        control(&mut tube, 0xC3);
        assert_eq!(tube.flags(), I | Q);
        assert!((0..8).all(|channel| tube.count(channel) == 0));
    }

    #[test]
    fn script_example() {
        let script = [0x01, 0x00, 0x81, 0x03, 0x07, 0x2A, 0x00, 0x07, 0x00];
        let played = play(&mut Tube::new(), &script, 4096);
        assert_eq!(text(&played), b"0 0 0\n0 0 1\n0 42 0\nend 3 0\n");
    }

    #[test]
    fn script_ends() {
        let end = |length: usize, limit: usize| {
            let played = play(&mut Tube::new(), &vec![0; length], limit);
            (played.results.len(), played.answer)
        };
        assert_eq!(end(0, 0), (0, 0));
        assert_eq!(end(1, 0), (0, 10));
        assert_eq!(end(0, 5), (0, 0));
        assert_eq!(end(2, 5), (0, 11));
        assert_eq!(end(6, 2), (2, 0));
        assert_eq!(end(7, 2), (2, 10));
        assert_eq!(end(7, 3), (2, 11));
        assert_eq!(end(9, 2), (2, 10));
        assert_eq!(end(9, usize::MAX), (3, 0));
    }

    #[test]
    fn script_kinds() {
        let script = [1, 0, 0xA0, 5, 0, 0, 255, 1, 1, 0, 8, 0, 4, 9, 9];
        let played = play(&mut Tube::new(), &script, 4096);
        let expected = [[0, 0, 8], [1, 0, 8], [1, 0, 8], [1, 0, 8], [0, 0, 0]];
        assert_eq!(played.results, expected);
        assert_eq!(played.answer, 0);
    }

    #[test]
    fn over_full_refuses_until_reset() {
        for channel in 0..8 {
            for count in [PLACES[channel] + 1, 255] {
                let mut parts: [(&[u8], u8); 8] = [(&[1; 10], 1); 8];
                parts[channel].1 = count;
                let mut tube = Tube::from_parts(parts, 0xFF);
                let before = tube;
                assert_eq!(tube.access(HOST, 0, WRITE, 0xC0), (1, 0));
                assert_eq!(tube.access(PARASITE, 0, READ, 0), (1, 0));
                assert_eq!(tube.lines(), 0);
                assert_eq!(tube, before);
                tube.reset();
                assert_eq!(tube, Tube::new());
            }
        }
    }

    #[test]
    fn lines_follow_the_state() {
        let mut tube = Tube::new();
        control(&mut tube, 0x80 | M | J | I | Q);
        assert_eq!(tube.lines(), 0);
        tube.access(HOST, 7, WRITE, 1);
        assert_eq!(tube.lines(), 2);
        tube.access(HOST, 5, WRITE, 1);
        assert_eq!(tube.lines(), 6);
        control(&mut tube, 0x80 | V);
        assert_eq!(tube.lines(), 2);
        tube.access(HOST, 5, WRITE, 1);
        assert_eq!(tube.lines(), 6);
        tube.access(PARASITE, 7, WRITE, 1);
        assert_eq!(tube.lines(), 7);
        control(&mut tube, 0xC0 | P);
        assert_eq!(tube.lines(), 8);
    }
}
