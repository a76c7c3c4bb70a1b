//! Accesses, resets, scripts and their text: the same random ones go to the
//! library and to the second program, and everything they give is compared.

use crate::interface::{
    TubeChip, tube_access, tube_lines, tube_new, tube_play, tube_reset, tube_text,
};
use crate::random::Random;
use crate::report::{Report, Row};
use crate::tube::{self, Tube};

/// Each channel's places, and how many of its bytes the library's record stores.
const PLACES: [u8; 8] = [1, 10, 1, 1, 2, 2, 1, 1];
const STORED: [usize; 8] = [2, 10, 2, 2, 2, 2, 2, 2];

const FLAGS: u64 = 0x3F;
const V: u64 = 0x10;

impl TubeChip {
    fn count(&self, channel: usize) -> u8 {
        self.held.to_le_bytes()[channel]
    }

    /// The bytes stored of a channel, oldest first.
    fn channel(&self, channel: usize) -> [u8; 10] {
        let mut bytes = [0; 10];
        bytes[0] = self.oldest.to_le_bytes()[channel];
        bytes[1] = self.next.to_le_bytes()[channel];
        if STORED[channel] > 2 {
            bytes[2..].copy_from_slice(&self.later.to_le_bytes());
        }
        bytes
    }

    fn over_full(&self) -> bool {
        (0..8).any(|channel| self.count(channel) > PLACES[channel])
    }

    fn to_second(self) -> Tube {
        let bytes: [[u8; 10]; 8] = std::array::from_fn(|channel| self.channel(channel));
        let parts = std::array::from_fn(|channel| {
            let places = PLACES[channel] as usize;
            (&bytes[channel][..places], self.count(channel))
        });
        Tube::from_parts(parts, self.flags as u8)
    }

    fn same_state(&self, tube: &Tube) -> bool {
        self.flags & FLAGS == tube.flags() as u64
            && (0..8).all(|channel| {
                let held = self.count(channel);
                held == tube.count(channel)
                    && (held > PLACES[channel]
                        || self.channel(channel)[..held as usize] == *tube.held(channel))
            })
    }

    /// Bytes that are not held are the same as in `before`.
    fn same_unheld(&self, before: &TubeChip) -> bool {
        (0..8).all(|channel| {
            let unheld = self.count(channel).min(PLACES[channel]) as usize..STORED[channel];
            self.channel(channel)[unheld.clone()] == before.channel(channel)[unheld]
        })
    }
}

/// A tube's state in words, for a difference.
fn state(tube: &Tube) -> String {
    let channels: Vec<String> = (0..8)
        .map(|channel| format!("{}{:?}", tube.count(channel), tube.held(channel)))
        .collect();
    format!("flags {:#04x}, {}", tube.flags(), channels.join(" "))
}

// ---- Properties ----

#[derive(Clone, Copy)]
enum Property {
    AccessAnswer,
    AccessByte,
    AccessLines,
    AccessState,
    AccessRefused,
    AccessUnheld,
    AccessFlagBits,
    New,
    Reset,
    PlayResults,
    PlayCount,
    PlayAnswer,
    PlayChip,
    PlayBeyond,
    PlayShort,
    TextWhole,
    TextBeyond,
    TextExact,
    TextShort,
    TextFewResults,
    TextAny,
}

impl From<Property> for usize {
    fn from(property: Property) -> usize {
        property as usize
    }
}

#[rustfmt::skip]
const PROPERTIES: [Row<Property>; 21] = [
    (Property::AccessAnswer, "access: answer", ACCESSES),
    (Property::AccessByte, "access: byte", ACCESSES),
    (Property::AccessLines, "access: line value", ACCESSES),
    (Property::AccessState, "access: state after", ACCESSES),
    (Property::AccessRefused, "access: a refusal leaves the record", ACCESSES / 20),
    (Property::AccessUnheld, "access: bytes not held stay", ACCESSES),
    (Property::AccessFlagBits, "access: bits above the flags stay", ACCESSES),
    (Property::New, "new: state and lines", 1),
    (Property::Reset, "reset: state and lines", RESETS),
    (Property::PlayResults, "play: results", SCRIPTS),
    (Property::PlayCount, "play: played count", SCRIPTS),
    (Property::PlayAnswer, "play: answer", SCRIPTS),
    (Property::PlayChip, "play: chip after", SCRIPTS),
    (Property::PlayBeyond, "play: results beyond the played stay", SCRIPTS),
    (Property::PlayShort, "play: short results are refused", SCRIPTS / 2),
    (Property::TextWhole, "text: the whole text", SCRIPTS),
    (Property::TextBeyond, "text: bytes beyond the text stay", SCRIPTS),
    (Property::TextExact, "text: a buffer just long enough", SCRIPTS),
    (Property::TextShort, "text: a buffer one byte short", SCRIPTS),
    (Property::TextFewResults, "text: too few results", SCRIPTS / 2),
    (Property::TextAny, "text: of any results", SCRIPTS / 10),
];

// ---- Random inputs ----

impl Random {
    /// A record with random bytes and flags, its counts within the places or,
    /// if `over_full`, at least one of them above.
    fn chip(&mut self, over_full: bool) -> TubeChip {
        let mut held = [0; 8];
        let style = self.below(8);
        for channel in 0..8 {
            let places = PLACES[channel];
            held[channel] = match style {
                0 => 0,
                1 => places,
                _ => match self.below(4) {
                    0 => 0,
                    1 => places,
                    _ => self.below(places as usize + 1) as u8,
                },
            };
        }
        if over_full {
            let certain = self.below(8);
            for channel in 0..8 {
                if channel == certain || self.one_in(6) {
                    let above = PLACES[channel] + 1;
                    held[channel] = match self.below(4) {
                        0 | 1 => above,
                        2 => 255,
                        _ => self.at_least(above),
                    };
                }
            }
        }
        TubeChip {
            oldest: self.word(),
            next: self.word(),
            later: self.word(),
            held: u64::from_le_bytes(held),
            flags: self.word(),
        }
    }

    /// A random word.
    fn word(&mut self) -> u64 {
        let mut bytes = [0; 8];
        self.fill(&mut bytes);
        u64::from_le_bytes(bytes)
    }
}

struct Access {
    side: u8,
    offset: u8,
    operation: u8,
    byte: u8,
}

/// Accesses with bursts of data reads or writes of one channel, so that
/// channels fill and empty, and with V going up and down.
struct Traffic {
    side: u8,
    offset: u8,
    write: bool,
    left: usize,
}

impl Traffic {
    fn new() -> Traffic {
        Traffic {
            side: 0,
            offset: 1,
            write: true,
            left: 0,
        }
    }

    fn next(&mut self, random: &mut Random) -> Access {
        let side = random.below(2) as u8;
        let offset = random.below(8) as u8;
        let write = random.one_in(2);
        let byte = random.byte();
        let (side, offset, write, byte) = match random.below(64) {
            // A side or an offset that does not exist.
            0 => (random.at_least(2), offset, write, byte),
            1 => (side, random.at_least(8), write, byte),
            2 => (random.byte(), random.byte(), write, byte),
            // Control: V up or down, other flags, the clear, any byte.
            3 | 4 => (0, 0, true, if write { 0x90 } else { 0x10 }),
            5 | 6 => (0, 0, true, byte & if write { 0xBF } else { 0x3F }),
            7 if random.one_in(3) => (0, 0, true, byte | 0xC0),
            8 if random.one_in(3) => (0, 0, true, byte),
            // Status reads, then any access of R1 to R4.
            9..=17 => (side, offset & 6, false, byte),
            18..=24 => (side, offset, write, byte),
            _ => {
                if self.left == 0 {
                    let register = [0, 0, 1, 2, 2, 2, 3, 3][random.below(8)];
                    self.side = side;
                    self.offset = 2 * register + 1;
                    self.write = write;
                    self.left = 1 + random.below(if register == 0 { 14 } else { 4 });
                }
                self.left -= 1;
                (self.side, self.offset, self.write, byte)
            }
        };
        let operation = match write {
            false => 0,
            true if random.one_in(8) => random.at_least(2),
            true => 1,
        };
        Access {
            side,
            offset,
            operation,
            byte,
        }
    }
}

// ---- Accesses ----

const ACCESSES: u64 = 3_000_000;

/// Which cases came up: side, offset, operation, V, and the counts of the
/// register's host-to-parasite and parasite-to-host channels.
struct Cases(Vec<bool>);

impl Cases {
    fn new() -> Cases {
        Cases(vec![false; 2 * 8 * 2 * 2 * 11 * 11])
    }

    fn index(side: u8, offset: u8, write: bool, v: bool, to_parasite: u8, to_host: u8) -> usize {
        let case = ((side as usize * 8 + offset as usize) * 2 + write as usize) * 2 + v as usize;
        (case * 11 + to_parasite as usize) * 11 + to_host as usize
    }

    fn note(&mut self, chip: &TubeChip, access: &Access) {
        if access.side > 1 || access.offset > 7 || chip.over_full() {
            return;
        }
        let register = 2 * (access.offset as usize / 2);
        let (to_parasite, to_host) = (chip.count(register), chip.count(register + 1));
        let (write, v) = (access.operation != 0, chip.flags & V != 0);
        let index = Cases::index(access.side, access.offset, write, v, to_parasite, to_host);
        self.0[index] = true;
    }

    fn missing(&self) -> Option<String> {
        for side in 0..2 {
            for offset in 0..8 {
                let register = 2 * (offset as usize / 2);
                for (write, v) in [(false, false), (false, true), (true, false), (true, true)] {
                    for to_parasite in 0..=PLACES[register] {
                        for to_host in 0..=PLACES[register + 1] {
                            if !self.0[Cases::index(side, offset, write, v, to_parasite, to_host)] {
                                return Some(format!(
                                    "with side {side}, offset {offset}, write {write}, V {v}, \
                                     {to_parasite} and {to_host} bytes held"
                                ));
                            }
                        }
                    }
                }
            }
        }
        None
    }
}

fn compare_accesses(random: &mut Random, count: u64, report: &mut Report) -> Cases {
    let mut cases = Cases::new();
    let mut done = 0;
    while done < count {
        let over_full = random.one_in(10);
        let mut chip = random.chip(over_full);
        let mut tube = chip.to_second();
        let mut traffic = Traffic::new();
        check_lines(&chip, &tube, report);
        for _ in 0..1 + random.below(if over_full { 40 } else { 200 }) {
            if random.one_in(if over_full { 16 } else { 80 }) {
                chip = unsafe { tube_reset(chip) };
                tube.reset();
                check_lines(&chip, &tube, report);
            }
            let access = traffic.next(random);
            cases.note(&chip, &access);
            done += 1;
            if !compare_access(&mut chip, &mut tube, &access, done, report) {
                break;
            }
        }
    }
    cases
}

fn check_lines(chip: &TubeChip, tube: &Tube, report: &mut Report) {
    let (library, second) = (unsafe { tube_lines(*chip) }, tube.lines());
    report.check(Property::AccessLines, library == second, || {
        format!("{library}, second program {second}, of {chip:?}")
    });
}

/// Makes one access on both and compares; false where the states differ.
fn compare_access(
    chip: &mut TubeChip,
    tube: &mut Tube,
    access: &Access,
    number: u64,
    report: &mut Report,
) -> bool {
    let Access {
        side,
        offset,
        operation,
        byte,
    } = *access;
    let before = *chip;
    let reply = unsafe { tube_access(chip, side, offset, operation, byte) };
    let (answer, read) = tube.access(side, offset, operation != 0, byte);
    let what = || {
        format!(
            "access {number}, side {side}, offset {offset}, operation {operation}, \
             byte {byte}, on {before:?}"
        )
    };

    report.check(Property::AccessAnswer, reply.answer == answer, || {
        format!("{}, second program {answer}: {}", reply.answer, what())
    });
    report.check(Property::AccessByte, reply.byte == read, || {
        format!("{}, second program {read}: {}", reply.byte, what())
    });
    let (library, second) = (unsafe { tube_lines(*chip) }, tube.lines());
    report.check(Property::AccessLines, library == second, || {
        format!("{library}, second program {second}: {}", what())
    });
    let same = chip.same_state(tube);
    report.check(Property::AccessState, same, || {
        format!("{chip:?}, second program {}: {}", state(tube), what())
    });
    if answer != 0 || reply.answer != 0 {
        report.check(Property::AccessRefused, *chip == before, || {
            format!("{chip:?} after {}", what())
        });
    }
    report.check(Property::AccessUnheld, chip.same_unheld(&before), || {
        format!("{chip:?} after {}", what())
    });
    report.check(
        Property::AccessFlagBits,
        (chip.flags ^ before.flags) & !FLAGS == 0,
        || format!("flags {:#04x} after {}", chip.flags, what()),
    );
    same
}

// ---- New and reset ----

const RESETS: u64 = 200_000;

fn compare_resets(random: &mut Random, count: u64, report: &mut Report) {
    let fresh = unsafe { tube_new() };
    let second = Tube::new();
    let good = fresh.same_state(&second) && unsafe { tube_lines(fresh) } == 0;
    report.check(Property::New, good, || format!("{fresh:?}"));

    for number in 0..count {
        let before = random.chip(number % 2 == 1);
        let after = unsafe { tube_reset(before) };
        let mut tube = before.to_second();
        tube.reset();
        let good = tube == second
            && after.same_state(&tube)
            && unsafe { tube_lines(after) } == tube.lines();
        report.check(Property::Reset, good, || {
            format!("{after:?} from {before:?}")
        });
    }
}

// ---- Scripts ----

const SCRIPTS: u64 = 120_000;

/// A script of this many whole records and `extra` bytes.
fn script(random: &mut Random, records: usize, extra: usize) -> Vec<u8> {
    let mut traffic = Traffic::new();
    let mut script = Vec::with_capacity(3 * records + extra);
    for _ in 0..records {
        let access = traffic.next(random);
        let kind = match random.below(80) {
            0 => 4,
            1 | 2 => random.at_least(5),
            _ if access.side > 1 => random.byte(),
            _ => 2 * access.side + (access.operation != 0) as u8,
        };
        script.extend([kind, access.offset, access.byte]);
    }
    script.extend(random.bytes(0, extra));
    script
}

fn compare_scripts(random: &mut Random, count: u64, report: &mut Report) {
    for number in 0..count {
        let records = match random.below(400) {
            0..30 => 0,
            30..130 => random.below(6),
            130..399 => random.below(60),
            _ => random.below(4200),
        };
        let extra = if random.one_in(3) {
            1 + random.below(2)
        } else {
            0
        };
        let script = script(random, records, extra);
        let limit = match random.below(10) {
            0 => 0,
            1 => random.below(8),
            2 => random.below(records + 1),
            3 | 4 => records,
            5 => records.saturating_sub(1),
            6 => records + 1,
            7 => 4096,
            // Three times this limit does not fit a size.
            8 => usize::MAX / 3 + 1 + random.below(30),
            _ => usize::MAX - random.below(3),
        };
        let over_full = random.one_in(12);
        let chip = random.chip(over_full);
        compare_script(random, &chip, &script, limit, number, report);
    }
}

fn compare_script(
    random: &mut Random,
    chip: &TubeChip,
    script: &[u8],
    limit: usize,
    number: u64,
    report: &mut Report,
) {
    let what = || {
        let shown = &script[..script.len().min(60)];
        format!(
            "script {number}, {} bytes {shown:02x?}, limit {limit}, on {chip:?}",
            script.len()
        )
    };
    let mut tube = chip.to_second();
    let second = tube::play(&mut tube, script, limit);
    let size = 3 * second.results.len();

    // The library is lent `lent` bytes; those after them guard the end.
    let more = if random.one_in(2) { 40 } else { 1 };
    let lent = size + random.below(more);
    let before = random.bytes(0, lent + 8);
    let mut results = before.clone();
    let play = |results: &mut [u8], lent: usize| unsafe {
        assert!(lent <= results.len());
        tube_play(
            *chip,
            script.as_ptr(),
            script.len(),
            limit,
            results.as_mut_ptr(),
            lent,
        )
    };
    let library = play(&mut results, lent);

    let expected = second.results.as_flattened();
    report.check(Property::PlayResults, results[..size] == *expected, || {
        let at = (0..size).find(|&at| results[at] != expected[at]).unwrap() / 3;
        let result = &results[3 * at..3 * at + 3];
        format!(
            "record {at} {result:?}, second program {:?}: {}",
            second.results[at],
            what()
        )
    });
    report.check(
        Property::PlayCount,
        library.played == second.results.len(),
        || {
            format!(
                "{}, second program {}: {}",
                library.played,
                second.results.len(),
                what()
            )
        },
    );
    report.check(
        Property::PlayAnswer,
        library.answer == second.answer,
        || {
            format!(
                "{}, second program {}: {}",
                library.answer,
                second.answer,
                what()
            )
        },
    );
    report.check(Property::PlayChip, library.chip.same_state(&tube), || {
        format!(
            "{:?}, second program {}: {}",
            library.chip,
            state(&tube),
            what()
        )
    });
    report.check(
        Property::PlayBeyond,
        results[size..] == before[size..],
        || {
            format!(
                "{:?}, before {:?}: {}",
                &results[size..],
                &before[size..],
                what()
            )
        },
    );

    if size > 0 {
        let lent = if random.one_in(8) {
            random.below(size)
        } else {
            size - 1
        };
        let mut short = before.clone();
        let refused = play(&mut short, lent);
        let good =
            refused.answer == 8 && refused.played == 0 && refused.chip == *chip && short == before;
        report.check(Property::PlayShort, good, || {
            format!(
                "answer {}, played {}, {:?}, results written: {}, with {lent} of {size} bytes: {}",
                refused.answer,
                refused.played,
                refused.chip,
                short != before,
                what()
            )
        });
    }

    // The text is made from the second program's results, so that a difference
    // in the results is not reported again.
    results[..size].copy_from_slice(expected);
    compare_text(random, &results[..lent], &second, report, &what);
    if number % 4 == 0 {
        compare_any_text(random, report);
    }
}

// ---- Text ----

/// Calls the library's text on a copy of `before`, lending its first `lent`
/// bytes: the length given and the buffer after.
fn library_text(
    results: &[u8],
    played: usize,
    answer: u8,
    before: &[u8],
    lent: usize,
) -> (usize, Vec<u8>) {
    assert!(lent <= before.len());
    let mut out = before.to_vec();
    let length = unsafe {
        tube_text(
            results.as_ptr(),
            results.len(),
            played,
            answer,
            out.as_mut_ptr(),
            lent,
        )
    };
    (length, out)
}

fn compare_text(
    random: &mut Random,
    results: &[u8],
    second: &tube::Played,
    report: &mut Report,
    what: &dyn Fn() -> String,
) {
    let expected = tube::text(second);
    let size = expected.len();
    let (played, answer) = (second.results.len(), second.answer);
    let more = 1 + random.below(40);
    let before = random.bytes(0, size + more);

    let (length, out) = library_text(results, played, answer, &before, before.len());
    report.check(
        Property::TextWhole,
        length == size && out[..size] == expected,
        || {
            let at = (0..size)
                .find(|&at| out[at] != expected[at])
                .unwrap_or(size);
            let line = expected[..at].iter().filter(|&&byte| byte == b'\n').count();
            format!(
                "length {length}, second program {size}, equal up to line {line}: {}",
                what()
            )
        },
    );
    report.check(Property::TextBeyond, out[size..] == before[size..], || {
        format!(
            "{:?}, before {:?}: {}",
            &out[size..],
            &before[size..],
            what()
        )
    });

    let (length, out) = library_text(results, played, answer, &before, size);
    let good = length == size && out[..size] == expected && out[size..] == before[size..];
    report.check(Property::TextExact, good, || {
        format!("length {length}, second program {size}: {}", what())
    });

    let (length, out) = library_text(results, played, answer, &before, size - 1);
    report.check(Property::TextShort, length == 0 && out == before, || {
        format!(
            "length {length}, buffer written: {}: {}",
            out != before,
            what()
        )
    });

    if played > 0 {
        let (few, played) = match random.below(4) {
            0 => (random.below(3 * played), played),
            // Three times this count does not fit a size.
            1 => (3 * played, usize::MAX / 3 + 1 + random.below(played + 1)),
            _ => (3 * played - 1, played),
        };
        let (length, out) = library_text(&results[..few], played, answer, &before, before.len());
        report.check(Property::TextFewResults, length == 0 && out == before, || {
            format!(
                "length {length}, buffer written: {}, with {few} bytes for {played} records: {}",
                out != before,
                what()
            )
        });
    }
}

/// Results that no script gives: every number from 0 to 255.
fn compare_any_text(random: &mut Random, report: &mut Report) {
    let most = if random.one_in(20) { 1200 } else { 12 };
    let records = random.below(most);
    let results: Vec<[u8; 3]> = (0..records)
        .map(|_| [random.byte(), random.byte(), random.byte()])
        .collect();
    let second = tube::Played {
        results,
        answer: random.byte(),
    };
    let expected = tube::text(&second);
    let size = expected.len();
    let before = random.bytes(0, size + 8);
    let lent = size + random.below(9);
    let flat = second.results.as_flattened();
    let (length, out) = library_text(flat, records, second.answer, &before, lent);
    let good = length == size && out[..size] == expected && out[size..] == before[size..];
    report.check(Property::TextAny, good, || {
        format!(
            "length {length}, second program {size}: {records} records {:?}, answer {}",
            &second.results[..records.min(20)],
            second.answer
        )
    });
}

// ---- All of it ----

pub fn report() -> Report {
    Report::new(&PROPERTIES)
}

/// One input in `share` of each kind; the cases that came up among the accesses.
fn compare(random: &mut Random, share: u64, report: &mut Report) -> Cases {
    let cases = compare_accesses(random, ACCESSES / share, report);
    compare_resets(random, RESETS / share, report);
    compare_scripts(random, SCRIPTS / share, report);
    cases
}

pub fn whole(random: &mut Random, report: &mut Report) {
    let cases = compare(random, 1, report);
    // Inputs that leave a case out show nothing about it.
    if let Some(case) = cases.missing() {
        report.check(Property::AccessAnswer, false, || {
            format!("no access {case}")
        });
    }
}

pub fn share(random: &mut Random, share: u64, report: &mut Report) {
    compare(random, share, report);
}
