//! The benchmark: the static library `libhost.a` (header gate.h) beside `plain.rs`, plain Rust of the same jobs.
//! Both follow document 01 and requests 1 to 7 of document 02; `tools/run_bench` builds this program and calls it.
//!
//!     bench compare SEED COUNT          both sides on random inputs, call by call and byte by byte; 1 where they differ
//!     bench jobs                        the names of the jobs, each with a COUNT that suits `job` under callgrind
//!     bench job NAME core|rust COUNT    one job COUNT times on one side
//!     bench time [quick]                each job on both sides in turn: its name, then the best time of each in nanoseconds
//!     bench gen KIND N [SEED]           a text for the gate program: mode1 to mode6, small, cards, bad, refused or mixed
//!     bench wall RUNS FILE PROGRAM..    the programs in turn with FILE as standard input: the best time of each in nanoseconds
//!
//! Nothing here but the calls of `Core` is `unsafe`.

#[path = "plain.rs"]
mod plain;

use plain::{Session, DIGITS, FASCN_SIZE, LINE_SIZE, OBJECT_SIZE, STAMP_SIZE};
use std::collections::BTreeMap;
use std::fmt;
use std::hint::black_box;
use std::io::{self, Write};
use std::process::{exit, Command as Process, Stdio};
use std::time::{Duration, Instant};

// ---- the two sides: the calls of gate.h, each with the papers' number, 0 where it is accepted

const SESSION_SIZE: usize = 161;
const COMMAND_MOST: usize = 22;

trait Side {
    type Session: Clone;
    fn dead() -> Self::Session;
    fn open(session: &mut Self::Session, mode: u8, date: u32, aid: &[u8]) -> u8;
    fn command(session: &mut Self::Session, out: &mut [u8], count: &mut usize) -> u8;
    fn answer(session: &mut Self::Session, object: &mut [u8], answer: &[u8], cancelled: &[u64]) -> u8;
    fn verdict(session: &mut Self::Session, kind: u8, yes: u8, fascn: &[u8]) -> u8;
    fn preview(session: &Self::Session, kind: u8, yes: u8, fascn: &[u8], out: &mut [u8]) -> u8;
    /// Start and length in the object buffer; (0, 0) where there is no value.
    fn field(session: &Self::Session, object: &[u8], tag: u8) -> (usize, usize);
    fn stamp(session: &Self::Session, out: &mut [u8]) -> u8;
    fn unpack(fascn: &[u8], digits: &mut [u8; DIGITS]) -> u8;
    fn pack(digits: &[u8; DIGITS], fascn: &mut [u8; FASCN_SIZE]) -> u8;
    fn key(digits: &[u8; DIGITS]) -> u64;
    fn list_read(text: &[u8], keys: &mut [u64], count: &mut usize, line: &mut usize) -> u8;
    fn list_write(keys: &[u64], out: &mut [u8], count: &mut usize) -> u8;
    fn list_merge(official: &[u64], own: &[u64], out: &mut [u64], count: &mut usize) -> u8;
    fn cin_look_up(typed: &[u8], text: &[u8], listed: &mut u8, line: &mut usize) -> u8;
}

/// The library.
struct Core;

#[repr(C)]
#[derive(Clone, Copy)]
struct CoreSession {
    bytes: [u8; SESSION_SIZE],
}

#[repr(C)]
struct Place {
    start: usize,
    length: usize,
}

#[repr(C)]
struct SizeTable {
    session: usize,
    object: usize,
    stamp: usize,
    command_most: usize,
    answer_most: usize,
    aid_least: usize,
    aid_most: usize,
    fascn: usize,
    digits: usize,
    line: usize,
}

#[link(name = "host", kind = "static")]
extern "C" {
    fn gate_open(session: *mut CoreSession, mode: u8, date: u32, aid: *const u8, aid_length: usize) -> u8;
    fn gate_command(session: *mut CoreSession, out: *mut u8, out_length: usize, count: *mut usize) -> u8;
    fn gate_answer(
        session: *mut CoreSession,
        object: *mut u8,
        object_length: usize,
        answer: *const u8,
        answer_length: usize,
        cancelled: *const u64,
        cancelled_length: usize,
    ) -> u8;
    fn gate_verdict(session: *mut CoreSession, kind: u8, yes: u8, fascn: *const u8, fascn_length: usize) -> u8;
    fn gate_preview(
        session: *const CoreSession,
        kind: u8,
        yes: u8,
        fascn: *const u8,
        fascn_length: usize,
        out: *mut u8,
        out_length: usize,
    ) -> u8;
    fn gate_field(session: *const CoreSession, object: *const u8, object_length: usize, tag: u8) -> Place;
    fn gate_stamp(session: *const CoreSession, out: *mut u8, out_length: usize) -> u8;
    fn gate_unpack(fascn: *const u8, fascn_length: usize, digits: *mut u8) -> u8;
    fn gate_pack(digits: *const u8, fascn: *mut u8) -> u8;
    fn gate_key(digits: *const u8) -> u64;
    fn gate_list_read(
        text: *const u8,
        text_length: usize,
        keys: *mut u64,
        keys_length: usize,
        count: *mut usize,
        line: *mut usize,
    ) -> u8;
    fn gate_list_write(keys: *const u64, keys_length: usize, out: *mut u8, out_length: usize, count: *mut usize) -> u8;
    fn gate_list_merge(
        official: *const u64,
        official_length: usize,
        own: *const u64,
        own_length: usize,
        out: *mut u64,
        out_length: usize,
        count: *mut usize,
    ) -> u8;
    fn gate_cin_look_up(
        typed: *const u8,
        typed_length: usize,
        text: *const u8,
        text_length: usize,
        listed: *mut u8,
        line: *mut usize,
    ) -> u8;
    fn gate_sizes() -> SizeTable;
}

// SAFETY, for all of these: every pointer comes from a reference or a slice beside its own length, so it is not null, is aligned and has so many elements; what
// the callee writes comes from a `&mut`, so nothing else that the call is given overlaps it.
impl Side for Core {
    type Session = CoreSession;

    fn dead() -> CoreSession {
        CoreSession { bytes: [0; SESSION_SIZE] }
    }
    fn open(session: &mut CoreSession, mode: u8, date: u32, aid: &[u8]) -> u8 {
        unsafe { gate_open(session, mode, date, aid.as_ptr(), aid.len()) }
    }
    fn command(session: &mut CoreSession, out: &mut [u8], count: &mut usize) -> u8 {
        unsafe { gate_command(session, out.as_mut_ptr(), out.len(), count) }
    }
    fn answer(session: &mut CoreSession, object: &mut [u8], answer: &[u8], cancelled: &[u64]) -> u8 {
        let (object, object_length) = (object.as_mut_ptr(), object.len());
        unsafe { gate_answer(session, object, object_length, answer.as_ptr(), answer.len(), cancelled.as_ptr(), cancelled.len()) }
    }
    fn verdict(session: &mut CoreSession, kind: u8, yes: u8, fascn: &[u8]) -> u8 {
        unsafe { gate_verdict(session, kind, yes, fascn.as_ptr(), fascn.len()) }
    }
    fn preview(session: &CoreSession, kind: u8, yes: u8, fascn: &[u8], out: &mut [u8]) -> u8 {
        unsafe { gate_preview(session, kind, yes, fascn.as_ptr(), fascn.len(), out.as_mut_ptr(), out.len()) }
    }
    fn field(session: &CoreSession, object: &[u8], tag: u8) -> (usize, usize) {
        let place = unsafe { gate_field(session, object.as_ptr(), object.len(), tag) };
        if place.length == 0 {
            (0, 0)
        } else {
            (place.start, place.length)
        }
    }
    fn stamp(session: &CoreSession, out: &mut [u8]) -> u8 {
        unsafe { gate_stamp(session, out.as_mut_ptr(), out.len()) }
    }
    fn unpack(fascn: &[u8], digits: &mut [u8; DIGITS]) -> u8 {
        unsafe { gate_unpack(fascn.as_ptr(), fascn.len(), digits.as_mut_ptr()) }
    }
    fn pack(digits: &[u8; DIGITS], fascn: &mut [u8; FASCN_SIZE]) -> u8 {
        unsafe { gate_pack(digits.as_ptr(), fascn.as_mut_ptr()) }
    }
    fn key(digits: &[u8; DIGITS]) -> u64 {
        unsafe { gate_key(digits.as_ptr()) }
    }
    fn list_read(text: &[u8], keys: &mut [u64], count: &mut usize, line: &mut usize) -> u8 {
        unsafe { gate_list_read(text.as_ptr(), text.len(), keys.as_mut_ptr(), keys.len(), count, line) }
    }
    fn list_write(keys: &[u64], out: &mut [u8], count: &mut usize) -> u8 {
        unsafe { gate_list_write(keys.as_ptr(), keys.len(), out.as_mut_ptr(), out.len(), count) }
    }
    fn list_merge(official: &[u64], own: &[u64], out: &mut [u64], count: &mut usize) -> u8 {
        let (out, out_length) = (out.as_mut_ptr(), out.len());
        unsafe { gate_list_merge(official.as_ptr(), official.len(), own.as_ptr(), own.len(), out, out_length, count) }
    }
    fn cin_look_up(typed: &[u8], text: &[u8], listed: &mut u8, line: &mut usize) -> u8 {
        unsafe { gate_cin_look_up(typed.as_ptr(), typed.len(), text.as_ptr(), text.len(), listed, line) }
    }
}

/// The sizes of gate.h, which this program has as numbers of its own, against the library's.
fn check_sizes() {
    let sizes = unsafe { gate_sizes() };
    let library = [
        sizes.session,
        sizes.object,
        sizes.stamp,
        sizes.command_most,
        sizes.answer_most,
        sizes.aid_least,
        sizes.aid_most,
        sizes.fascn,
        sizes.digits,
        sizes.line,
    ];
    let here = [SESSION_SIZE, OBJECT_SIZE, STAMP_SIZE, COMMAND_MOST, 258, 5, 16, FASCN_SIZE, DIGITS, LINE_SIZE];
    if library != here {
        differ("gate_sizes", &"", &library, &here);
    }
}

/// `plain.rs`. The compiler may inline these calls as it likes.
struct Rust;

fn number(result: Result<(), u8>) -> u8 {
    result.err().unwrap_or(0)
}

/// Stores the value of an accepted call, and gives the number.
fn store<T>(result: Result<T, u8>, place: &mut T) -> u8 {
    number(result.map(|value| *place = value))
}

impl Side for Rust {
    type Session = Session;

    fn dead() -> Session {
        Session::default()
    }
    fn open(session: &mut Session, mode: u8, date: u32, aid: &[u8]) -> u8 {
        store(Session::open(mode, date, aid), session)
    }
    fn command(session: &mut Session, out: &mut [u8], count: &mut usize) -> u8 {
        store(session.command(out), count)
    }
    fn answer(session: &mut Session, object: &mut [u8], answer: &[u8], cancelled: &[u64]) -> u8 {
        number(session.answer(object, answer, cancelled))
    }
    fn verdict(session: &mut Session, kind: u8, yes: u8, fascn: &[u8]) -> u8 {
        number(session.verdict(kind, yes, fascn))
    }
    fn preview(session: &Session, kind: u8, yes: u8, fascn: &[u8], out: &mut [u8]) -> u8 {
        number(session.preview(kind, yes, fascn, out))
    }
    fn field(session: &Session, object: &[u8], tag: u8) -> (usize, usize) {
        let part = session.field(object, tag);
        if part.is_empty() {
            (0, 0)
        } else {
            (part.as_ptr() as usize - object.as_ptr() as usize, part.len())
        }
    }
    fn stamp(session: &Session, out: &mut [u8]) -> u8 {
        number(session.stamp(out))
    }
    fn unpack(fascn: &[u8], digits: &mut [u8; DIGITS]) -> u8 {
        store(plain::unpack(fascn), digits)
    }
    fn pack(digits: &[u8; DIGITS], fascn: &mut [u8; FASCN_SIZE]) -> u8 {
        store(plain::pack(digits), fascn)
    }
    fn key(digits: &[u8; DIGITS]) -> u64 {
        plain::key(digits)
    }
    fn list_read(text: &[u8], keys: &mut [u64], count: &mut usize, line: &mut usize) -> u8 {
        store(plain::list_read(text, keys).map_err(|bad| bad_text(bad, line)), count)
    }
    fn list_write(keys: &[u64], out: &mut [u8], count: &mut usize) -> u8 {
        store(plain::list_write(keys, out), count)
    }
    fn list_merge(official: &[u64], own: &[u64], out: &mut [u64], count: &mut usize) -> u8 {
        store(plain::list_merge(official, own, out), count)
    }
    fn cin_look_up(typed: &[u8], text: &[u8], listed: &mut u8, line: &mut usize) -> u8 {
        store(plain::cin_look_up(typed, text).map(u8::from).map_err(|bad| bad_text(bad, line)), listed)
    }
}

/// The number of a refused text; a malformed line's number is stored.
fn bad_text(bad: plain::BadText, line: &mut usize) -> u8 {
    if bad.line != 0 {
        *line = bad.line;
    }
    bad.number
}

// ---- random inputs, the same for the same seed

/// xorshift64*
struct Random(u64);

impl Random {
    fn new(seed: u64) -> Random {
        // Seeds that lie close together are spread first; the state must not be 0.
        let mut random = Random((seed ^ 0x9E37_79B9_7F4A_7C15).wrapping_mul(0xBF58_476D_1CE4_E5B9) | 1);
        for _ in 0..8 {
            random.next();
        }
        random
    }
    fn next(&mut self) -> u64 {
        self.0 ^= self.0 >> 12;
        self.0 ^= self.0 << 25;
        self.0 ^= self.0 >> 27;
        self.0.wrapping_mul(0x2545_F491_4F6C_DD1D)
    }
    fn below(&mut self, bound: usize) -> usize {
        ((self.next() >> 33) as usize) % bound
    }
    fn between(&mut self, least: usize, most: usize) -> usize {
        least + self.below(most - least + 1)
    }
    /// True once in so many times.
    fn once_in(&mut self, times: usize) -> bool {
        self.below(times) == 0
    }
    fn byte(&mut self) -> u8 {
        (self.next() >> 40) as u8
    }
    fn pick<T: Copy>(&mut self, choices: &[T]) -> T {
        choices[self.below(choices.len())]
    }
    fn bytes(&mut self, length: usize) -> Vec<u8> {
        (0..length).map(|_| self.byte()).collect()
    }
    fn digits(&mut self) -> [u8; DIGITS] {
        let most = self.pick(&[9, 9, 9, 9, 0, 1]);
        std::array::from_fn(|_| self.between(0, most) as u8)
    }
    fn key(&mut self) -> u64 {
        self.next() % 10_000_000_000_000_000
    }
}

fn good_fascn(random: &mut Random) -> Vec<u8> {
    plain::pack(&random.digits()).unwrap().to_vec()
}

/// Writes five bits over character `index` of a FASC-N.
fn set_character(fascn: &mut [u8], index: usize, code: u8) {
    for i in 0..5 {
        let bit = 5 * index + i;
        let mask = 0x80 >> (bit % 8);
        if code >> (4 - i) & 1 == 1 {
            fascn[bit / 8] |= mask;
        } else {
            fascn[bit / 8] &= !mask;
        }
    }
}

/// The five bits of a value at good parity, lowest value bit first.
fn good_code(value: u8) -> u8 {
    let bits = (value & 1) << 4 | (value & 2) << 2 | (value & 4) | (value & 8) >> 2;
    bits | (1 - bits.count_ones() as u8 % 2)
}

/// A FASC-N with one of many faults; some of them leave it good.
fn spoilt_fascn(random: &mut Random) -> Vec<u8> {
    let mut fascn = good_fascn(random);
    match random.below(8) {
        0 => {
            let bit = random.below(200);
            fascn[bit / 8] ^= 0x80 >> (bit % 8);
        }
        1 => {
            let index = random.below(40);
            set_character(&mut fascn, index, good_code(random.below(16) as u8));
        }
        2 => {
            for _ in 0..random.between(2, 4) {
                let index = random.below(40);
                set_character(&mut fascn, index, good_code(random.below(16) as u8));
            }
        }
        3 => {
            // Two values with the same bits turned: the check character still fits.
            let (first, second) = (random.below(40), random.below(40));
            let turned = random.below(16) as u8;
            let values = values_of(&fascn);
            if first != second {
                set_character(&mut fascn, first, good_code(values[first] ^ turned));
                set_character(&mut fascn, second, good_code(values[second] ^ turned));
            }
        }
        4 => set_character(&mut fascn, 39, good_code(random.below(16) as u8)),
        5 => {
            let length = random.pick(&[0, 1, 5, 24, 26, 27, 32, 50]);
            fascn.resize(length, 0xD4);
        }
        6 => fascn = random.bytes(FASCN_SIZE),
        _ => {
            let index = random.below(40);
            set_character(&mut fascn, index, random.below(32) as u8);
        }
    }
    fascn
}

/// The 40 values of a FASC-N, bit by bit.
fn values_of(fascn: &[u8]) -> [u8; 40] {
    std::array::from_fn(|index| {
        (0..4).fold(0, |value, i| {
            let bit = 5 * index + i;
            value | (fascn[bit / 8] >> (7 - bit % 8) & 1) << i
        })
    })
}

fn any_fascn(random: &mut Random) -> Vec<u8> {
    if random.once_in(3) {
        good_fascn(random)
    } else {
        spoilt_fascn(random)
    }
}

fn real_date(random: &mut Random) -> u32 {
    loop {
        let year = random.pick(&[1, 4, 100, 400, 1900, 2000, 2023, 2024, 2025, 2100, 9999]);
        let date = year * 10_000 + random.between(1, 12) as u32 * 100 + random.pick(&[1, 2, 15, 27, 28, 29, 30, 31]);
        if plain::is_real_date(date) {
            return date;
        }
    }
}

fn any_date(random: &mut Random) -> u32 {
    match random.below(12) {
        0 => random.next() as u32,
        1 => random.below(100_000_000) as u32,
        2 => random.pick(&[0, 1, 101, 10_000, 10_100, 10_101, 20_230_229, 21_000_229, 20_240_230, 99_991_231, 99_991_232, 100_000_101, u32::MAX]),
        3 => random.between(2_000, 2_030) as u32 * 10_000 + random.below(14) as u32 * 100 + random.below(33) as u32,
        _ => real_date(random),
    }
}

/// A length in one of the forms that are accepted, mostly the shortest.
fn push_length(random: &mut Random, out: &mut Vec<u8>, length: usize) {
    let longer = random.once_in(8);
    match length {
        0..=0x7F if !longer => out.push(length as u8),
        0..=0xFF if !longer || random.once_in(2) => out.extend([0x81, length as u8]),
        _ => out.extend([0x82, (length >> 8) as u8, length as u8]),
    }
}

fn push_tlv(random: &mut Random, out: &mut Vec<u8>, tag: &[u8], value: &[u8]) {
    out.extend(tag);
    push_length(random, out, value.len());
    out.extend(value);
}

/// A TLV that may stand in a template, with nested ones to so many levels.
fn random_tlv(random: &mut Random, levels: u8) -> Vec<u8> {
    let mut value = Vec::new();
    let nested = random.once_in(2);
    if !nested {
        let length = random.below(10);
        value = random.bytes(length);
    } else if levels > 1 {
        for _ in 0..random.below(3) {
            value.extend(random_tlv(random, levels - 1));
        }
    }
    let first = random.byte() & 0xDF | if nested { 0x20 } else { 0 };
    let tag = match random.below(4) {
        0 => vec![first | 0x1F, random.byte() & 0x7F],
        1 => vec![first | 0x1F, random.byte() | 0x80, random.byte() & 0x7F],
        _ if first & 0x1F == 0x1F => vec![first & 0xFE],
        _ => vec![first],
    };
    let mut tlv = Vec::new();
    push_tlv(random, &mut tlv, &tag, &value);
    tlv
}

/// Changes some bytes of a text, anywhere and in many ways.
fn spoil(random: &mut Random, bytes: &mut Vec<u8>) {
    const TELLING: &[u8] = &[
        0x00, 0x01, 0x0A, 0x0D, 0x10, 0x11, 0x1F, 0x20, 0x28, 0x29, 0x2F, 0x30, 0x31, 0x32, 0x33, 0x34, 0x35, 0x39, 0x3A, 0x3E, 0x3F, 0x4F, 0x53, 0x61, 0x7F, 0x80, 0x81, 0x82,
        0x83, 0x84, 0xBC, 0xEE, 0xFE, 0xFF,
    ];
    for _ in 0..random.pick(&[1, 1, 1, 2, 3]) {
        let at = random.below(bytes.len() + 1);
        match random.below(9) {
            0 => bytes.insert(at, random.byte()),
            1 => bytes.insert(at, random.pick(TELLING)),
            2 => bytes.truncate(at),
            3 => {
                let end = (at + random.between(1, 40)).min(bytes.len());
                let again = bytes[at..end].to_vec();
                bytes.splice(at..at, again);
            }
            _ if at == bytes.len() => bytes.push(random.pick(TELLING)),
            4 => bytes[at] = random.byte(),
            5 => bytes[at] = random.pick(TELLING),
            6 => bytes[at] = bytes[at].wrapping_add(random.pick(&[1, 0xFF])),
            7 => bytes[at] ^= 1 << random.below(8),
            _ => {
                bytes.remove(at);
            }
        }
    }
}

/// An answer to SELECT: good, or with a fault of the template's own rules.
fn template(random: &mut Random, faulty: bool) -> Vec<u8> {
    let fault = if faulty { random.below(7) } else { 7 };
    let identifiers = if fault == 0 { random.pick(&[0, 2]) } else { 1 };
    let mut children = Vec::new();
    for _ in 0..random.below(3) {
        children.extend(random_tlv(random, 3));
    }
    for _ in 0..identifiers {
        let length = if fault == 1 { random.pick(&[0, 17, 20]) } else { random.between(1, 16) };
        let identifier = random.bytes(length);
        push_tlv(random, &mut children, &[0x4F], &identifier);
    }
    for _ in 0..random.below(3) {
        children.extend(random_tlv(random, if fault == 2 { 5 } else { 3 }));
    }
    if random.once_in(4) {
        // Levels 2 to 4, the last of them empty or, where it is to be faulty, not.
        let mut inner = if fault == 3 { vec![0x81, 0x00] } else { vec![] };
        for tag in [0x7A, 0x79, 0xA5] {
            let mut outer = Vec::new();
            push_tlv(random, &mut outer, &[tag], &inner);
            inner = outer;
        }
        children.extend(inner);
    }
    if fault == 4 {
        // A tag of three bytes that would go on.
        children.extend([0x9F, 0x81, 0x80 | random.byte(), 0x01, 0x00]);
    }
    let mut bytes = Vec::new();
    push_tlv(random, &mut bytes, &[if fault == 5 { 0x6F } else { 0x61 }], &children);
    if fault == 6 {
        spoil(random, &mut bytes);
    }
    bytes
}

type Field = (u8, Vec<u8>);

fn object_of(random: &mut Random, tag: u8, fields: &[Field]) -> Vec<u8> {
    let mut value = Vec::new();
    for (tag, bytes) in fields {
        push_tlv(random, &mut value, &[*tag], bytes);
    }
    let mut object = Vec::new();
    push_tlv(random, &mut object, &[tag], &value);
    object
}

/// The object of these fields, with a fault in the order, the lengths or the bytes where it is to be faulty.
fn data_object(random: &mut Random, mut fields: Vec<Field>, faulty: bool) -> Vec<u8> {
    let mut tag = 0x53;
    let mut spoilt = false;
    if faulty {
        let at = random.below(fields.len());
        match random.below(10) {
            0 => drop(fields.remove(at)),
            1 => fields.insert(at, fields[at].clone()),
            2 => {
                let other = random.below(fields.len());
                fields.swap(at, other);
            }
            3..=5 => {
                let length = fields[at].1.len();
                fields[at].1.resize(random.pick(&[0, length.saturating_sub(1), length + 1, length + 1, length + 16]), 0x30);
            }
            6 => fields[at].0 = random.pick(&[0x30, 0x31, 0x32, 0x33, 0x34, 0x35, 0x36, 0x3E, 0xBC, 0xEE, 0xFE, 0x53, 0x1F, 0xFF]),
            7 => fields.insert(at, (random.pick(&[0x31, 0x32, 0x33, 0x34, 0xEE, 0xFE, 0x3D, 0x00]), vec![0x30; random.pick(&[0, 2, 4, 9, 16])])),
            8 => tag = random.pick(&[0x52, 0x54, 0x61, 0x73]),
            _ => spoilt = true,
        }
    }
    let mut object = object_of(random, tag, &fields);
    if spoilt {
        spoil(random, &mut object);
    }
    object
}

/// The fields of 5FC102 or 5FC104, the older elements among them here and there.
fn chuid_fields(random: &mut Random, signed: bool, fascn: &[u8], expiry: &[u8], signature: usize) -> Vec<Field> {
    let mut fields = Vec::new();
    let older = random.once_in(2);
    if older && random.once_in(2) {
        fields.push((0xEE, random.bytes(2)));
    }
    fields.push((0x30, fascn.to_vec()));
    for (tag, length) in [(0x31, 4), (0x32, 4), (0x33, 9)] {
        if older && random.once_in(2) {
            fields.push((tag, random.bytes(length)));
        }
    }
    if signed || random.once_in(2) {
        fields.push((0x34, random.bytes(16)));
    }
    fields.push((0x35, expiry.to_vec()));
    if signed {
        fields.push((0x3E, random.bytes(signature)));
    }
    fields.push((0xFE, vec![]));
    fields
}

fn biometric_fields(random: &mut Random, length: usize) -> Vec<Field> {
    let mut fields = vec![(0xBC, random.bytes(length))];
    if random.once_in(2) {
        fields.push((0xFE, vec![]));
    }
    fields
}

/// The eight bytes of field 35 for a number, or others.
fn expiry_text(random: &mut Random, date: u32, faulty: bool) -> Vec<u8> {
    let mut text = format!("{date:08}").into_bytes();
    if faulty {
        if random.once_in(2) {
            text = format!("{:08}", random.pick(&[0, 101, 20_230_229, 20_240_230, 20_241_301, 20_240_001, 20_240_100, 99_990_431, 21_000_229])).into_bytes();
        } else {
            let at = random.below(8);
            text[at] = random.pick(&[b'/', b':', b' ', 0, 0x80 | b'1', 0xFF, b'A']);
        }
    }
    text
}

fn card_line(key: u64) -> String {
    let digits = format!("{key:016}");
    format!("(card ({} {} {}) ({} {}))\n", &digits[..4], &digits[4..8], &digits[8..14], &digits[14..15], &digits[15..])
}

fn cin_line(random: &mut Random) -> String {
    let digits = random.between(1, 10);
    let number: String = (0..digits).map(|_| char::from(b'0' + random.below(10) as u8)).collect();
    format!("(cin ({number}))\n")
}

fn hex(bytes: &[u8]) -> String {
    bytes.iter().map(|byte| format!("{byte:02X}")).collect()
}

// ---- compare

/// Bytes that are shown in hexadecimal.
#[derive(Clone, PartialEq, Eq)]
struct Hex(Vec<u8>);

impl fmt::Debug for Hex {
    fn fmt(&self, to: &mut fmt::Formatter) -> fmt::Result {
        write!(to, "{} bytes {}", self.0.len(), hex(&self.0))
    }
}

fn differ(what: &str, inputs: &dyn fmt::Debug, core: &dyn fmt::Debug, rust: &dyn fmt::Debug) -> ! {
    println!("DIFFERENCE in {what}\ninputs: {inputs:?}\ncore: {core:?}\nrust: {rust:?}");
    exit(1)
}

/// How often each number of each call was met, and each cause.
#[derive(Default)]
struct Tally(BTreeMap<(&'static str, u8), u64>);

impl Tally {
    fn count(&mut self, what: &'static str, number: u8) {
        *self.0.entry((what, number)).or_default() += 1;
    }
}

/// What can be met: each call with its numbers, each step with its causes, the checks that fail, the modes that are granted, the fields that are shown and those that are not.
const CAN_BE_MET: &[(&str, &[u8])] = &[
    ("open", &[0, 1, 2, 3]),
    ("command", &[0, 4, 5, 6]),
    ("answer", &[0, 4, 5, 7, 8]),
    ("verdict", &[0, 4, 9, 10, 11, 12, 13, 14]),
    ("preview", &[0, 4, 9, 10, 11, 12, 13, 14, 6]),
    ("stamp", &[0, 4, 6]),
    ("field shown", &[0x30, 0x31, 0x32, 0x33, 0x34, 0x35, 0x3E, 0xBC, 0xEE]),
    ("field empty", &[0x30, 0x31, 0x32, 0x33, 0x34, 0x35, 0x3E, 0xBC, 0xEE]),
    ("unpack", &[0, 15, 16, 17, 18]),
    ("pack", &[0, 19]),
    ("list read", &[0, 20, 21]),
    ("list write", &[0, 22, 21]),
    ("merge", &[0, 25, 26]),
    ("look up", &[0, 23, 24]),
    ("listed", &[0, 1]),
    ("cause of a check", &[1, 2, 3, 4, 5, 6, 7]),
    ("cause in step 0", &[16, 17, 18, 19]),
    ("cause in step 1", &[16, 17, 18, 20, 21, 22]),
    ("cause in step 2, fingers", &[16, 17, 18, 20]),
    ("cause in step 2, picture", &[16, 17, 18, 20]),
    ("6C taken in step", &[0, 1, 2]),
    ("granted in mode", &[1, 2, 3, 4, 5, 6]),
    ("rejected in mode", &[1, 2, 3, 4, 5, 6]),
];

/// Bytes that a call is lent, with others around them that it must not touch.
#[derive(Clone)]
struct Lent {
    bytes: Vec<u8>,
    start: usize,
    length: usize,
}

impl Lent {
    const AROUND: usize = 40;

    fn holding(random: &mut Random, contents: &[u8]) -> Lent {
        let start = random.between(Lent::AROUND / 2, Lent::AROUND);
        let mut bytes = random.bytes(start + contents.len() + Lent::AROUND);
        bytes[start..start + contents.len()].copy_from_slice(contents);
        Lent { bytes, start, length: contents.len() }
    }
    /// Two of the same random contents, one for each side.
    fn pair(random: &mut Random, length: usize) -> (Lent, Lent) {
        let contents = random.bytes(length);
        let lent = Lent::holding(random, &contents);
        (lent.clone(), lent)
    }
    fn part(&mut self) -> &mut [u8] {
        &mut self.bytes[self.start..self.start + self.length]
    }
}

/// The same for keys.
#[derive(Clone)]
struct LentKeys {
    keys: Vec<u64>,
    length: usize,
}

impl LentKeys {
    const AROUND: usize = 3;

    fn holding(random: &mut Random, contents: &[u64]) -> LentKeys {
        let mut keys: Vec<u64> = (0..contents.len() + 2 * LentKeys::AROUND).map(|_| random.next()).collect();
        keys[LentKeys::AROUND..][..contents.len()].copy_from_slice(contents);
        LentKeys { keys, length: contents.len() }
    }
    fn pair(random: &mut Random, length: usize) -> (LentKeys, LentKeys) {
        let contents: Vec<u64> = (0..length).map(|_| random.next()).collect();
        let lent = LentKeys::holding(random, &contents);
        (lent.clone(), lent)
    }
    fn part(&mut self) -> &mut [u64] {
        &mut self.keys[LentKeys::AROUND..][..self.length]
    }
}

fn same(what: &str, inputs: &dyn fmt::Debug, core: (u8, &[u8], &[usize]), rust: (u8, &[u8], &[usize])) {
    if core != rust {
        let show = |side: (u8, &[u8], &[usize])| (side.0, Hex(side.1.to_vec()), side.2.to_vec());
        differ(what, inputs, &show(core), &show(rust));
    }
}

fn same_keys(what: &str, inputs: &dyn fmt::Debug, core: (u8, &[u64], &[usize]), rust: (u8, &[u64], &[usize])) {
    if core != rust {
        differ(what, inputs, &core, &rust);
    }
}

/// What a call was lent to read must still be what it was.
fn unchanged<T: PartialEq + fmt::Debug>(what: &str, before: &[T], after: &[T]) {
    if before != black_box(after) {
        differ(what, &"what the call was lent to read has changed", &after, &before);
    }
}

fn compare_unpack(random: &mut Random, tally: &mut Tally, fascn: &[u8]) -> u8 {
    let mut input = Lent::holding(random, fascn);
    let before = input.clone();
    let (mut core_out, mut rust_out) = Lent::pair(random, DIGITS);
    let core = Core::unpack(input.part(), core_out.part().try_into().unwrap());
    let rust = Rust::unpack(fascn, rust_out.part().try_into().unwrap());
    same("unpack", &Hex(fascn.to_vec()), (core, &core_out.bytes, &[]), (rust, &rust_out.bytes, &[]));
    unchanged("unpack", &before.bytes, &input.bytes);
    tally.count("unpack", rust);
    if rust == 0 {
        let digits: &[u8; DIGITS] = &(*rust_out.part()).try_into().unwrap();
        let (core, rust) = (Core::key(digits), Rust::key(digits));
        if core != rust {
            differ("key", &digits, &core, &rust);
        }
    }
    rust
}

fn compare_pack(random: &mut Random, tally: &mut Tally, digits: &[u8; DIGITS]) -> Vec<u8> {
    let mut input = Lent::holding(random, digits);
    let before = input.clone();
    let (mut core_out, mut rust_out) = Lent::pair(random, FASCN_SIZE);
    let core = Core::pack((&*input.part()).try_into().unwrap(), core_out.part().try_into().unwrap());
    let rust = Rust::pack(digits, rust_out.part().try_into().unwrap());
    same("pack", &digits, (core, &core_out.bytes, &[]), (rust, &rust_out.bytes, &[]));
    unchanged("pack", &before.bytes, &input.bytes);
    tally.count("pack", rust);
    rust_out.part().to_vec()
}

/// Numbers that stand in `*count` and `*line` before a call.
const COUNT_BEFORE: usize = 0x5A5A_0001;
const LINE_BEFORE: usize = 0x5A5A_0002;

fn compare_list_read(random: &mut Random, tally: &mut Tally, text: &[u8], places: usize) -> (u8, usize) {
    let mut input = Lent::holding(random, text);
    let before = input.clone();
    let (mut core_out, mut rust_out) = LentKeys::pair(random, places);
    let (mut core_numbers, mut rust_numbers) = ([COUNT_BEFORE, LINE_BEFORE], [COUNT_BEFORE, LINE_BEFORE]);
    let [count, line] = &mut core_numbers;
    let core = Core::list_read(input.part(), core_out.part(), count, line);
    let [count, line] = &mut rust_numbers;
    let rust = Rust::list_read(text, rust_out.part(), count, line);
    let inputs = (String::from_utf8_lossy(text), places);
    same_keys("list read", &inputs, (core, &core_out.keys, &core_numbers), (rust, &rust_out.keys, &rust_numbers));
    unchanged("list read", &before.bytes, &input.bytes);
    tally.count("list read", rust);
    (rust, rust_numbers[1])
}

fn compare_list_write(random: &mut Random, tally: &mut Tally, keys: &[u64], room: usize) -> u8 {
    let mut input = LentKeys::holding(random, keys);
    let before = input.clone();
    let (mut core_out, mut rust_out) = Lent::pair(random, room);
    let (mut core_count, mut rust_count) = (COUNT_BEFORE, COUNT_BEFORE);
    let core = Core::list_write(input.part(), core_out.part(), &mut core_count);
    let rust = Rust::list_write(keys, rust_out.part(), &mut rust_count);
    same("list write", &(keys, room), (core, &core_out.bytes, &[core_count]), (rust, &rust_out.bytes, &[rust_count]));
    unchanged("list write", &before.keys, &input.keys);
    tally.count("list write", rust);
    rust
}

fn compare_merge(random: &mut Random, tally: &mut Tally, official: &[u64], own: &[u64], places: usize) -> u8 {
    let (mut a, mut b) = (LentKeys::holding(random, official), LentKeys::holding(random, own));
    let (a_before, b_before) = (a.clone(), b.clone());
    let (mut core_out, mut rust_out) = LentKeys::pair(random, places);
    let (mut core_count, mut rust_count) = (COUNT_BEFORE, COUNT_BEFORE);
    let core = Core::list_merge(a.part(), b.part(), core_out.part(), &mut core_count);
    let rust = Rust::list_merge(official, own, rust_out.part(), &mut rust_count);
    same_keys("merge", &(official, own, places), (core, &core_out.keys, &[core_count]), (rust, &rust_out.keys, &[rust_count]));
    unchanged("merge", &a_before.keys, &a.keys);
    unchanged("merge", &b_before.keys, &b.keys);
    tally.count("merge", rust);
    rust
}

fn compare_look_up(random: &mut Random, tally: &mut Tally, typed: &[u8], text: &[u8]) -> (u8, u8, usize) {
    let (mut entry, mut list) = (Lent::holding(random, typed), Lent::holding(random, text));
    let (entry_before, list_before) = (entry.clone(), list.clone());
    let (mut core_listed, mut rust_listed) = (0xA5, 0xA5);
    let (mut core_line, mut rust_line) = (LINE_BEFORE, LINE_BEFORE);
    let core = Core::cin_look_up(entry.part(), list.part(), &mut core_listed, &mut core_line);
    let rust = Rust::cin_look_up(typed, text, &mut rust_listed, &mut rust_line);
    let inputs = (String::from_utf8_lossy(typed), String::from_utf8_lossy(text));
    same("look up", &inputs, (core, &[core_listed], &[core_line]), (rust, &[rust_listed], &[rust_line]));
    unchanged("look up", &entry_before.bytes, &entry.bytes);
    unchanged("look up", &list_before.bytes, &list.bytes);
    tally.count("look up", rust);
    if rust == 0 {
        tally.count("listed", rust_listed);
    }
    (rust, rust_listed, rust_line)
}

fn compare_lists(random: &mut Random, tally: &mut Tally) {
    // Read.
    let lines = random.below(8);
    let mut text: Vec<u8> = (0..lines).flat_map(|_| card_line(random.key()).into_bytes()).collect();
    match random.below(5) {
        0 => spoil(random, &mut text),
        1 if lines > 0 => {
            let at = random.below(text.len());
            text[at] = random.pick(b"0123456789/: ()\n\r\0\x80\xFF");
        }
        _ => {}
    }
    let places = random.pick(&[0, 1, lines.saturating_sub(1), lines, lines, lines + 1, lines + 3]);
    compare_list_read(random, tally, &text, places);

    // Write.
    let mut keys: Vec<u64> = (0..random.below(8)).map(|_| random.key()).collect();
    if random.once_in(2) {
        let many = random.below(4);
        keys.extend((0..many).map(|i| [0, 9, 9_999_999_999_999_999, 1_000_000_000_000_000][i]));
    }
    if !keys.is_empty() && random.once_in(3) {
        let at = random.below(keys.len());
        keys[at] = random.pick(&[10_000_000_000_000_000, 10_000_000_000_000_001, u64::MAX, 9_999_999_999_999_999]);
    }
    let exact = keys.len() * LINE_SIZE;
    let room = random.pick(&[exact, exact, exact + 1, exact + 40, exact.saturating_sub(1), exact.saturating_sub(32), 0]);
    compare_list_write(random, tally, &keys, room);

    // Merge.
    let spread = random.pick(&[6, 20, 1_000, u64::MAX]);
    let mut ascending = || {
        let mut keys: Vec<u64> = (0..random.below(12)).map(|_| random.next() % spread).collect();
        if random.once_in(8) {
            keys.extend([0, u64::MAX]);
        }
        keys.sort_unstable();
        keys.dedup();
        if keys.len() > 1 && random.once_in(6) {
            let at = random.below(keys.len() - 1);
            keys[at + 1] = keys[at] - (keys[at] & random.next() & 1);
        }
        keys
    };
    let (official, own) = (ascending(), ascending());
    let mut merged = [&official[..], &own].concat();
    merged.sort_unstable();
    merged.dedup();
    let merged = merged.len();
    let places = random.pick(&[merged, merged, merged + 1, merged + 5, merged.saturating_sub(1), official.len() + own.len(), official.len(), 0]);
    compare_merge(random, tally, &official, &own, places);

    // Look up.
    let lines: Vec<String> = (0..random.below(6)).map(|_| cin_line(random)).collect();
    let mut typed: Vec<u8> = match random.below(3) {
        0 => (0..random.between(1, 10)).map(|_| b'0' + random.below(10) as u8).collect(),
        _ if lines.is_empty() => b"7".to_vec(),
        _ => {
            // A number of the list, with other leading zeros.
            let line = &lines[random.below(lines.len())];
            let number: u64 = line[6..line.len() - 3].parse().unwrap();
            let width = random.between(1, 11);
            format!("{number:0width$}").into_bytes()
        }
    };
    let mut text = lines.concat().into_bytes();
    match random.below(4) {
        0 => spoil(random, &mut text),
        1 if random.once_in(3) => text.extend(random.pick(&[&b"(cin ())\n"[..], b"(cin (01234567890))\n", b"(cin (1))", b"\n", b"(cin (1) )\n", b"(card (1))\n"])),
        _ => {}
    }
    match random.below(8) {
        0 => spoil(random, &mut typed),
        1 if random.once_in(2) => typed.clear(),
        2 if random.once_in(2) => typed = vec![b'0'; random.between(10, 12)],
        _ => {}
    }
    compare_look_up(random, tally, &typed, &text);
}

/// A call on a session.
#[derive(Clone, Debug)]
enum Call {
    Open { mode: u8, date: u32, aid: Hex },
    Command { room: usize },
    Answer { object: usize, answer: Hex, cancelled: Vec<u64> },
    Verdict { kind: u8, yes: u8, fascn: Hex },
    Preview { kind: u8, yes: u8, fascn: Hex, room: usize },
    Field { object: usize, tag: u8 },
    Stamp { room: usize },
}

const TAGS: [u8; 9] = [0x30, 0x31, 0x32, 0x33, 0x34, 0x35, 0x3E, 0xBC, 0xEE];

/// The library's session with bytes around it that no call may touch.
#[repr(C)]
struct Kept {
    before: [u8; 29],
    session: CoreSession,
    after: [u8; 37],
}

/// One session on both sides, each with its own object buffer, and the calls made on it so far.
struct Pair {
    core: Kept,
    rust: Session,
    core_object: Lent,
    rust_object: Lent,
    calls: Vec<Call>,
    stamp: [u8; STAMP_SIZE],
    outstanding: bool,
}

impl Pair {
    fn new(random: &mut Random) -> Pair {
        let (core_object, rust_object) = Lent::pair(random, OBJECT_SIZE);
        Pair {
            core: Kept { before: [0x5A; 29], session: Core::dead(), after: [0xA5; 37] },
            rust: Rust::dead(),
            core_object,
            rust_object,
            calls: Vec::new(),
            stamp: [0; STAMP_SIZE],
            outstanding: false,
        }
    }

    fn is_dead(&self) -> bool {
        self.stamp[0] == 0
    }
    fn step(&self) -> u8 {
        self.stamp[5]
    }
    fn cause(&self) -> u8 {
        self.stamp[2]
    }

    /// Makes a call on both sides and compares all that it gives, writes and leaves.
    fn call(&mut self, random: &mut Random, tally: &mut Tally, call: Call) -> u8 {
        let was = self.core.session.bytes;
        self.calls.push(call.clone());
        let mut leaves = false;
        let rust = match &call {
            Call::Open { mode, date, aid } => {
                let mut input = Lent::holding(random, &aid.0);
                let before = input.clone();
                let core = Core::open(&mut self.core.session, *mode, *date, input.part());
                let rust = Rust::open(&mut self.rust, *mode, *date, &aid.0);
                same("open", &self.calls, (core, &input.bytes, &[]), (rust, &before.bytes, &[]));
                tally.count("open", rust);
                self.outstanding &= rust != 0;
                rust
            }
            Call::Command { room } => {
                let (mut core_out, mut rust_out) = Lent::pair(random, *room);
                let (mut core_count, mut rust_count) = (COUNT_BEFORE, COUNT_BEFORE);
                let core = Core::command(&mut self.core.session, core_out.part(), &mut core_count);
                let rust = Rust::command(&mut self.rust, rust_out.part(), &mut rust_count);
                same("command", &self.calls, (core, &core_out.bytes, &[core_count]), (rust, &rust_out.bytes, &[rust_count]));
                tally.count("command", rust);
                self.outstanding |= rust == 0;
                rust
            }
            Call::Answer { object, answer, cancelled } => {
                let mut input = Lent::holding(random, &answer.0);
                let before = input.clone();
                let mut keys = LentKeys::holding(random, cancelled);
                let keys_before = keys.clone();
                // An object buffer of another size is another buffer.
                let (mut core_other, mut rust_other) = Lent::pair(random, if *object == OBJECT_SIZE { 0 } else { *object });
                let (core_object, rust_object) =
                    if *object == OBJECT_SIZE { (&mut self.core_object, &mut self.rust_object) } else { (&mut core_other, &mut rust_other) };
                let core = Core::answer(&mut self.core.session, core_object.part(), input.part(), keys.part());
                let rust = Rust::answer(&mut self.rust, rust_object.part(), &answer.0, cancelled);
                same("answer", &self.calls, (core, &core_object.bytes, &[]), (rust, &rust_object.bytes, &[]));
                unchanged("answer", &before.bytes, &input.bytes);
                unchanged("answer", &keys_before.keys, &keys.keys);
                tally.count("answer", rust);
                self.outstanding &= rust != 0;
                rust
            }
            Call::Verdict { kind, yes, fascn } => {
                let mut input = Lent::holding(random, &fascn.0);
                let before = input.clone();
                let core = Core::verdict(&mut self.core.session, *kind, *yes, input.part());
                let rust = Rust::verdict(&mut self.rust, *kind, *yes, &fascn.0);
                same("verdict", &self.calls, (core, &input.bytes, &[]), (rust, &before.bytes, &[]));
                tally.count("verdict", rust);
                rust
            }
            Call::Preview { kind, yes, fascn, room } => {
                let mut input = Lent::holding(random, &fascn.0);
                let before = input.clone();
                let (mut core_out, mut rust_out) = Lent::pair(random, *room);
                let core = Core::preview(&self.core.session, *kind, *yes, input.part(), core_out.part());
                let rust = Rust::preview(&self.rust, *kind, *yes, &fascn.0, rust_out.part());
                same("preview", &self.calls, (core, &core_out.bytes, &[]), (rust, &rust_out.bytes, &[]));
                unchanged("preview", &before.bytes, &input.bytes);
                tally.count("preview", rust);
                leaves = true;
                rust
            }
            Call::Field { object, tag } => {
                if *object == OBJECT_SIZE {
                    self.same_field(tally, *tag);
                } else {
                    let (mut core_other, mut rust_other) = Lent::pair(random, *object);
                    let core = Core::field(&self.core.session, core_other.part(), *tag);
                    let rust = Rust::field(&self.rust, rust_other.part(), *tag);
                    same("field", &self.calls, (0, &core_other.bytes, &[core.0, core.1]), (0, &rust_other.bytes, &[rust.0, rust.1]));
                }
                leaves = true;
                0
            }
            Call::Stamp { room } => {
                let (mut core_out, mut rust_out) = Lent::pair(random, *room);
                let core = Core::stamp(&self.core.session, core_out.part());
                let rust = Rust::stamp(&self.rust, rust_out.part());
                same("stamp", &self.calls, (core, &core_out.bytes, &[]), (rust, &rust_out.bytes, &[]));
                tally.count("stamp", rust);
                leaves = true;
                rust
            }
        };
        if (leaves || rust != 0) && self.core.session.bytes != was {
            differ("the session after a call that leaves it", &self.calls, &Hex(self.core.session.bytes.to_vec()), &Hex(was.to_vec()));
        }
        if self.core.before != [0x5A; 29] || self.core.after != [0xA5; 37] {
            differ("the bytes around the session", &self.calls, &(Hex(self.core.before.to_vec()), Hex(self.core.after.to_vec())), &"5A and A5");
        }
        self.same_stamp(tally, &call, rust);
        if random.once_in(4) {
            self.same_fields(tally);
        }
        rust
    }

    /// Compares the stamps, and notes what they show for the first time.
    fn same_stamp(&mut self, tally: &mut Tally, call: &Call, result: u8) {
        let (mut core_out, mut rust_out) = ([0; STAMP_SIZE], [0; STAMP_SIZE]);
        let core = Core::stamp(&self.core.session, &mut core_out);
        let rust = Rust::stamp(&self.rust, &mut rust_out);
        same("the stamp after a call", &self.calls, (core, &core_out, &[]), (rust, &rust_out, &[]));
        let (cause, step, mode) = (rust_out[2], rust_out[5], rust_out[0]);
        if cause != self.stamp[2] && rust_out != self.stamp {
            match cause {
                0 => {}
                1..=7 => tally.count("cause of a check", cause),
                _ => {
                    let place = match step {
                        0 => "cause in step 0",
                        1 => "cause in step 1",
                        _ if mode < 5 => "cause in step 2, fingers",
                        _ => "cause in step 2, picture",
                    };
                    tally.count(place, cause);
                }
            }
        }
        if rust_out[1] != self.stamp[1] {
            match rust_out[1] {
                1 => tally.count("granted in mode", mode),
                2 => tally.count("rejected in mode", mode),
                _ => {}
            }
        }
        if let Call::Answer { answer, .. } = call {
            if result == 0 && cause < 16 && answer.0[answer.0.len() - 2] == 0x6C {
                tally.count("6C taken in step", step);
            }
        }
        self.stamp = rust_out;
    }

    fn same_field(&mut self, tally: &mut Tally, tag: u8) {
        let core = Core::field(&self.core.session, self.core_object.part(), tag);
        let rust = Rust::field(&self.rust, self.rust_object.part(), tag);
        if core != rust {
            differ("field", &(&self.calls, tag), &core, &rust);
        }
        unchanged("field", &self.rust_object.bytes, &self.core_object.bytes);
        if TAGS.contains(&tag) {
            tally.count(if rust.1 == 0 { "field empty" } else { "field shown" }, tag);
        }
    }

    fn same_fields(&mut self, tally: &mut Tally) {
        for tag in TAGS {
            self.same_field(tally, tag);
        }
    }
}

/// How the data of a step is cut.
#[derive(Clone, Copy)]
enum Cut {
    Whole,
    Small,
    Single,
    Any,
}

/// What a list of calls is about: a card, and how it behaves.
struct Plan {
    mode: u8,
    fascn: Vec<u8>,
    cancelled: Vec<u64>,
    data: [Vec<u8>; 3],
    /// A step that goes on sending until its room is full.
    flood: Option<u8>,
    cut: Cut,
    /// Once in so many calls: an odd call; an odd answer, from this step on.
    odd_call: usize,
    odd_answer: usize,
    odd_from: u8,
    /// The step that is being sent, and how far it is.
    step: u8,
    sent: usize,
}

impl Plan {
    /// A card that errs in 5 of so many cases.
    fn new(random: &mut Random, mode: u8, date: u32, cases: usize) -> Plan {
        let fascn = good_fascn(random);
        let key = plain::key(&plain::unpack(&fascn).unwrap());
        let mut cancelled: Vec<u64> = (0..random.pick(&[0, 0, 1, 2, 5, 17, 64, 300])).map(|_| if random.once_in(4) { random.next() } else { random.key() }).collect();
        match random.below(6) {
            0 => cancelled.insert(random.below(cancelled.len() + 1), key),
            1 => cancelled.extend([key ^ 1, key + 10_000_000_000_000_000, key / 100, key.wrapping_mul(100)]),
            _ => {}
        }
        // What is wrong with the card, from 5 on nothing.
        let faulty = random.below(cases);
        let expiry = match random.below(8) {
            0 => date,
            1 if plain::is_real_date(date + 1) => date + 1,
            2 if plain::is_real_date(date - 1) => date - 1,
            3 => real_date(random),
            _ => 99_991_231,
        };
        let bad_date = faulty == 3 || faulty == 4 && random.once_in(3);
        let expiry = expiry_text(random, expiry, bad_date);
        let shown = if faulty == 4 {
            loop {
                let fascn = spoilt_fascn(random);
                if fascn.len() == FASCN_SIZE {
                    break fascn;
                }
            }
        } else {
            fascn.clone()
        };
        let signature = match random.below(12) {
            0 => random.pick(&[1, 2_815, 2_816, 2_817, 3_900]),
            1 => random.between(1, 2_816),
            _ => random.between(1, 300),
        };
        let fields = chuid_fields(random, mode != 2, &shown, &expiry, signature);
        let chuid = data_object(random, fields, faulty == 1);
        let picture = mode >= 5;
        let biometric = match random.below(16) {
            0 if picture => random.pick(&[1, 15_999, 16_000, 16_001, 16_300]),
            0 => random.pick(&[1, 861, 862, 863, 4_000]),
            1 if picture => random.between(1, 16_000),
            _ => random.between(1, 862),
        };
        let fields = biometric_fields(random, biometric);
        let biometric = data_object(random, fields, faulty == 2);
        Plan {
            mode,
            fascn,
            cancelled,
            data: [template(random, faulty == 0), chuid, biometric],
            flood: random.once_in(16).then(|| random.pick(&[0, 1, 2, 2])),
            cut: random.pick(&[Cut::Whole, Cut::Whole, Cut::Small, Cut::Any, Cut::Single]),
            odd_call: random.pick(&[4, 10, 40, 1_000_000]),
            odd_answer: random.pick(&[3, 10, 40, 1_000_000, 1_000_000]),
            odd_from: random.pick(&[0, 1, 2, 2]),
            step: 0,
            sent: 0,
        }
    }

    fn room(&self) -> usize {
        if self.step == 2 && self.mode >= 5 {
            16_384
        } else {
            4_096
        }
    }

    /// The next answer of this card.
    fn answer(&mut self, random: &mut Random, step: u8) -> Vec<u8> {
        if step != self.step {
            self.step = step;
            self.sent = 0;
        }
        if step >= self.odd_from && random.once_in(self.odd_answer) {
            return odd_answer(random);
        }
        if self.flood == Some(step) {
            let left = self.room().saturating_sub(self.sent);
            let length = match random.below(8) {
                0 if left > 0 => random.between(1, left.min(256)),
                _ if left > 0 => left.min(256),
                _ => random.pick(&[0, 1, 256]),
            };
            self.sent += length;
            let mut answer = random.bytes(length);
            answer.extend(if left == 0 && random.once_in(2) { [0x90, 0x00] } else { [0x61, random.byte()] });
            return answer;
        }
        let data = &self.data[usize::from(step)];
        let left = data.len().saturating_sub(self.sent);
        let length = match self.cut {
            Cut::Whole => 256,
            Cut::Small => random.between(1, 16),
            Cut::Single if data.len() <= 400 => 1,
            Cut::Single => 255,
            Cut::Any => random.below(257),
        }
        .min(left);
        let mut answer = data[data.len() - left..][..length].to_vec();
        self.sent += length;
        let rest = left - length;
        answer.extend(if rest == 0 { [0x90, 0x00] } else { [0x61, rest.min(255) as u8] });
        answer
    }
}

fn odd_answer(random: &mut Random) -> Vec<u8> {
    let mut answer = match random.below(3) {
        0 => Vec::new(),
        _ => {
            let length = random.pick(&[1, 2, 10, 256]);
            random.bytes(length)
        }
    };
    match random.below(8) {
        0..=3 => {
            if !random.once_in(6) {
                answer.clear();
            }
            answer.extend([0x6C, random.byte()]);
        }
        4 => {
            if !random.once_in(6) {
                answer.clear();
            }
            answer.extend([0x61, random.byte()]);
        }
        5 => answer.extend(random.pick(&[[0x67, 0x00], [0x69, 0x82], [0x6A, 0x81], [0x6A, 0x82], [0x63, 0xC0], [0x90, 0x01], [0x91, 0x00], [0x60, 0x00], [0x62, 0x00], [0x00, 0x00]])),
        6 => answer.extend([0x90, 0x00]),
        _ => {
            let status = random.bytes(2);
            answer.extend(status);
        }
    }
    answer
}

fn aid(random: &mut Random) -> Vec<u8> {
    let length = random.pick(&[5, 6, 9, 11, 11, 11, 15, 16]);
    random.bytes(length)
}

fn random_open(random: &mut Random) -> Call {
    let mode = if random.once_in(10) { random.pick(&[0, 7, 8, 9, 255]) } else { random.pick(&[1, 2, 3, 4, 4, 5, 6, 6]) };
    let date = any_date(random);
    let aid = if random.once_in(10) {
        let length = random.pick(&[0, 1, 4, 17, 18, 40, 300]);
        random.bytes(length)
    } else {
        aid(random)
    };
    Call::Open { mode, date, aid: Hex(aid) }
}

/// The inputs of a verdict or a preview, mostly good ones for this card.
fn verdict_inputs(random: &mut Random, plan: &Plan) -> (u8, u8, Hex) {
    let kinds: &[u8] = match plan.mode {
        1 => &[1, 2],
        2 => &[3],
        3 => &[1, 2, 4],
        4 => &[1, 2, 3, 4],
        5 => &[1, 2, 5],
        _ => &[1, 2, 3, 5],
    };
    let kind = if random.once_in(8) { random.pick(&[0, 1, 2, 3, 4, 5, 6, 7, 255]) } else { random.pick(kinds) };
    let yes = if random.once_in(16) { random.pick(&[2, 3, 255]) } else { u8::from(!random.once_in(16)) };
    let fascn = match random.below(24) {
        0 => good_fascn(random),
        1 => spoilt_fascn(random),
        2 => {
            // The same card in all but the last digit.
            let mut digits = plain::unpack(&plan.fascn).unwrap();
            digits[31] = (digits[31] + 1) % 10;
            plain::pack(&digits).unwrap().to_vec()
        }
        _ => plan.fascn.clone(),
    };
    (kind, yes, Hex(fascn))
}

fn cancelled_for(random: &mut Random, plan: &Plan) -> Vec<u64> {
    if random.once_in(16) {
        Vec::new()
    } else {
        plan.cancelled.clone()
    }
}

fn odd_call(random: &mut Random, plan: &mut Plan, step: u8) -> Call {
    match random.below(8) {
        0 => random_open(random),
        1 => Call::Command { room: random.pick(&[0, 1, 4, 5, 9, 10, 11, 12, 15, 16, 17, 21, 22, 23, 40]) },
        2 => {
            let object = random.pick(&[OBJECT_SIZE, OBJECT_SIZE, 0, 1, 4_096, 8_192, OBJECT_SIZE - 1, OBJECT_SIZE + 1]);
            let answer = match random.below(4) {
                0 => {
                    let length = random.pick(&[0, 1, 259, 260, 300, 1_000]);
                    random.bytes(length)
                }
                1 => odd_answer(random),
                _ => {
                    // A piece that is refused comes again.
                    let (step_before, sent) = (plan.step, plan.sent);
                    let answer = plan.answer(random, step.min(2));
                    (plan.step, plan.sent) = (step_before, sent);
                    answer
                }
            };
            Call::Answer { object, answer: Hex(answer), cancelled: cancelled_for(random, plan) }
        }
        3 => {
            let (kind, yes, fascn) = verdict_inputs(random, plan);
            Call::Verdict { kind, yes, fascn }
        }
        4 => {
            let (kind, yes, fascn) = verdict_inputs(random, plan);
            Call::Preview { kind, yes, fascn, room: random.pick(&[46, 46, 46, 47, 60, 45, 1, 0]) }
        }
        5 => Call::Field { object: random.pick(&[0, 1, 4_096, OBJECT_SIZE - 1, OBJECT_SIZE + 1]), tag: random.pick(&TAGS) },
        6 => Call::Field { object: OBJECT_SIZE, tag: random.byte() },
        _ => Call::Stamp { room: random.pick(&[0, 1, 45, 46, 47, 100]) },
    }
}

/// One list of calls on one session, from the dead session on.
fn compare_session(random: &mut Random, tally: &mut Tally) {
    let mut pair = Pair::new(random);
    let mut plan = Plan::new(random, 1, DATE, 12);
    let mut last = random.between(2, 20);
    while last > 0 {
        let done = pair.is_dead() || pair.step() == 3 || pair.cause() >= 16;
        if done {
            last -= 1;
        }
        let call = if pair.is_dead() && random.once_in(2) || done && random.once_in(20) {
            random_open(random)
        } else if pair.is_dead() || random.once_in(plan.odd_call) || pair.cause() >= 16 {
            odd_call(random, &mut plan, pair.step())
        } else if pair.step() == 3 {
            let (kind, yes, fascn) = verdict_inputs(random, &plan);
            if random.once_in(4) {
                Call::Preview { kind, yes, fascn, room: random.pick(&[46, 46, 46, 47, 45]) }
            } else {
                Call::Verdict { kind, yes, fascn }
            }
        } else if pair.outstanding {
            let answer = plan.answer(random, pair.step());
            Call::Answer { object: OBJECT_SIZE, answer: Hex(answer), cancelled: cancelled_for(random, &plan) }
        } else {
            Call::Command { room: COMMAND_MOST }
        };
        let opening = match call {
            Call::Open { mode, date, .. } => Some((mode, date)),
            _ => None,
        };
        let result = pair.call(random, tally, call);
        if let (Some((mode, date)), 0) = (opening, result) {
            plan = Plan::new(random, mode, date, 12);
        }
    }
    pair.same_fields(tally);
}

/// A reading without odd calls, in which one step's object is faulty or on the edge; the readers of template and object are tried through it.
fn compare_objects(random: &mut Random, tally: &mut Tally) {
    let mode = random.between(1, 6) as u8;
    let date = real_date(random);
    let mut plan = Plan::new(random, mode, date, 6);
    (plan.flood, plan.odd_answer, plan.cut) = (None, 1_000_000, Cut::Whole);
    let mut pair = Pair::new(random);
    let aid = Hex(aid(random));
    pair.call(random, tally, Call::Open { mode, date, aid });
    while pair.step() < 3 && pair.cause() < 16 {
        pair.call(random, tally, Call::Command { room: COMMAND_MOST });
        let answer = plan.answer(random, pair.step());
        let cancelled = plan.cancelled.clone();
        pair.call(random, tally, Call::Answer { object: OBJECT_SIZE, answer: Hex(answer), cancelled });
    }
    pair.same_fields(tally);
}

fn bytes_of(hex: &str) -> Vec<u8> {
    let digits: Vec<u8> = hex.bytes().filter(|byte| !byte.is_ascii_whitespace()).collect();
    digits.chunks(2).map(|pair| u8::from_str_radix(std::str::from_utf8(pair).unwrap(), 16).unwrap()).collect()
}

const SAMPLE: &str = "D4324858210C2D3171B525A1685A08C92ADE0A6184324843E2";
const NEWER_AID: &str = "A000000367200000010103";

/// The published vectors and the proofreader's twelve, on both sides and against what the papers say.
fn compare_vectors(random: &mut Random, tally: &mut Tally) {
    fn expect<T: PartialEq + fmt::Debug>(what: &str, is: T, papers: T) {
        if is != papers {
            println!("VECTOR {what}: the papers say {papers:?}, both sides say {is:?}");
            exit(1);
        }
    }
    let sample = bytes_of(SAMPLE);
    for (hex, digits, check) in [
        (SAMPLE, "13410001987654111234567890113411", 8),
        ("D70339DAA1822C10842125A1685821084216C1B9870339A3EB", "70995012000004110000006163170992", 10),
        ("D0439458210C2C19A0846D83685A1082108CE73984108CA3FC", "00320001092446011112223333112232", 7),
    ] {
        let fascn = bytes_of(hex);
        let digits: Vec<u8> = digits.bytes().map(|digit| digit - b'0').collect();
        let digits: [u8; DIGITS] = digits.try_into().unwrap();
        expect(hex, compare_unpack(random, tally, &fascn), 0);
        expect(hex, plain::unpack(&fascn).unwrap(), digits);
        expect(hex, compare_pack(random, tally, &digits), fascn.clone());
        expect(hex, values_of(&fascn)[39], check);
        // Any one bit turned is parity (request 3).
        for bit in 0..200 {
            let mut turned = fascn.clone();
            turned[bit / 8] ^= 1 << (bit % 8);
            expect("a bit turned", compare_unpack(random, tally, &turned), 16);
        }
    }
    expect("key", plain::key(&plain::unpack(&bytes_of("D0439458210C2C19A0846D83685A1082108CE73984108CA3FC")).unwrap()), 32_000_109_244_601);
    expect("24 bytes", compare_unpack(random, tally, &sample[..24]), 15);
    for (index, value, papers) in [(0, 13, 17), (1, 10, 17), (38, 13, 17), (39, 9, 18), (39, 10, 18), (4, 2, 18)] {
        let mut changed = sample.clone();
        set_character(&mut changed, index, good_code(value));
        expect("a character written anew", compare_unpack(random, tally, &changed), papers);
    }

    // Readings of one answer a step: mode, date, data of the steps, then standing, cause and step.
    let unsigned = format!("53273019{SAMPLE}35083230313130343130FE00");
    let unsigned_81 = format!("5381273019{SAMPLE}35083230313130343130FE00");
    let unsigned_80 = format!("53803019{SAMPLE}35083230313130343130FE00");
    let without_53 = format!("3019{SAMPLE}35083230313130343130");
    let leap = |date: &str| format!("53273019{SAMPLE}3508{}FE00", hex(date.as_bytes()));
    let signed = format!("533E3019{SAMPLE}3410{}350832303330313233313E03A1B2C3FE00", "30".repeat(16));
    let fingers = format!("538202A4BC8202A0{}", "01".repeat(672));
    let fingers_fe = format!("538202A6BC8202A0{}FE00", "01".repeat(672));
    let chosen = "61084F06200000010103";
    let readings: &[(u8, u32, &[&str], [u8; 3])] = &[
        (2, 20_110_410, &[chosen, &unsigned], [0, 0, 3]),
        (2, 20_110_410, &["610D4F0BA000000367200000010103", &unsigned], [0, 0, 3]),
        (2, 20_110_410, &["61164F0BA00000036720000001010379074F05A000000367", &unsigned], [0, 0, 3]),
        (2, 20_110_410, &[chosen, &unsigned_81], [0, 0, 3]),
        (2, 20_110_410, &[chosen, &unsigned_80], [2, 20, 1]),
        (2, 20_110_410, &[chosen, &without_53], [2, 20, 1]),
        (2, 20_110_411, &[chosen, &unsigned], [2, 3, 3]),
        (2, 10_101, &[chosen, &leap("20240229")], [0, 0, 3]),
        (2, 10_101, &[chosen, &leap("20230229")], [2, 22, 1]),
        (2, 10_101, &[chosen, &leap("21000229")], [2, 22, 1]),
        (2, 10_101, &[chosen, &leap("20000229")], [0, 0, 3]),
        (1, 20_110_410, &[chosen, &signed], [0, 0, 3]),
        (1, 20_110_410, &[chosen, &unsigned], [2, 20, 1]),
        (2, 20_110_410, &[chosen, &signed], [2, 20, 1]),
        (3, 20_110_410, &[chosen, &signed, &fingers], [0, 0, 3]),
        (4, 20_110_410, &[chosen, &signed, &fingers_fe], [0, 0, 3]),
        (5, 20_110_410, &[chosen, &signed, &fingers_fe], [0, 0, 3]),
        (6, 20_110_410, &[chosen, &signed, "5303BC0100"], [0, 0, 3]),
        (3, 20_110_410, &[chosen, &signed, "C010000102030405060708090A0B0C0D0E0FC10108C20100"], [2, 20, 2]),
        (1, 20_110_410, &["7C020108"], [2, 19, 0]),
        (1, 20_110_410, &[chosen, "7C020232"], [2, 20, 1]),
    ];
    for (mode, date, steps, papers) in readings {
        let mut pair = Pair::new(random);
        let aid = Hex(bytes_of(NEWER_AID));
        pair.call(random, tally, Call::Open { mode: *mode, date: *date, aid });
        for data in *steps {
            for answer in answers(&bytes_of(data), 256) {
                pair.call(random, tally, Call::Command { room: COMMAND_MOST });
                pair.call(random, tally, Call::Answer { object: OBJECT_SIZE, answer: Hex(answer), cancelled: vec![] });
            }
        }
        expect("a reading", [pair.stamp[1], pair.stamp[2], pair.stamp[5]], *papers);
    }

    // The ceiling of a step: an empty 61, 4,096 single bytes, an empty 61 once more.
    let mut pair = Pair::new(random);
    let aid = Hex(bytes_of(NEWER_AID));
    pair.call(random, tally, Call::Open { mode: 1, date: 20_110_410, aid });
    for index in 0..4_098 {
        let answer = if index == 0 || index == 4_097 { vec![0x61, 0x01] } else { vec![0x00, 0x61, 0x01] };
        pair.call(random, tally, Call::Command { room: COMMAND_MOST });
        expect("before the ceiling", pair.cause(), 0);
        pair.call(random, tally, Call::Answer { object: OBJECT_SIZE, answer: Hex(answer), cancelled: vec![] });
        pair.calls.clear();
    }
    expect("at the ceiling", pair.cause(), 17);

    // Commands.
    let mut session = Rust::dead();
    let (mut out, mut count) = ([0; COMMAND_MOST], 0);
    Rust::open(&mut session, 1, 20_110_410, &bytes_of("A00000036720000001"));
    Rust::command(&mut session, &mut out, &mut count);
    expect("SELECT", hex(&out[..count]), "00A4040009A0000003672000000100".to_string());

    // Lists.
    let three = b"(card (0000 0000 000007) (0 0))\n(card (1341 0001 987654) (1 1))\n(card (9999 9999 999999) (9 9))\n";
    expect("list read", compare_list_read(random, tally, three, 4).0, 0);
    expect("list read", compare_list_read(random, tally, three, 2).0, 21);
    expect("list read", compare_list_read(random, tally, &three[..95], 4), (20, 3));
    expect("list read", compare_list_read(random, tally, b"", 0).0, 0);
    expect("list write", compare_list_write(random, tally, &[7, 1_341_000_198_765_411], 64), 0);
    expect("list write", compare_list_write(random, tally, &[7, 10_000_000_000_000_000], 0), 22);
    expect("merge", compare_merge(random, tally, &[7, 9], &[8, 9], 3), 0);
    expect("merge", compare_merge(random, tally, &[7, 9], &[8, 9], 2), 26);
    expect("merge", compare_merge(random, tally, &[7, 7], &[], 0), 25);
    expect("look up", compare_look_up(random, tally, b"012345678", b"(cin (12345678))\n"), (0, 1, LINE_BEFORE));
    expect("look up", compare_look_up(random, tally, b"7", b"(cin (12345678))\n"), (0, 0, LINE_BEFORE));
    expect("look up", compare_look_up(random, tally, b"", b"(cin"), (23, 0xA5, LINE_BEFORE));
    expect("look up", compare_look_up(random, tally, b"7", b"(cin (7))\n(cin (00000000007))\n"), (24, 0xA5, 2));
}

fn compare(seed: u64, count: usize) {
    check_sizes();
    let mut random = Random::new(seed);
    let random = &mut random;
    let mut tally = Tally::default();
    let tally = &mut tally;
    compare_vectors(random, tally);
    for _ in 0..count {
        for _ in 0..4 {
            let fascn = any_fascn(random);
            compare_unpack(random, tally, &fascn);
        }
        let mut digits = random.digits();
        if random.once_in(3) {
            digits[random.below(DIGITS)] = random.pick(&[9, 10, 11, 15, 16, 255]);
        }
        compare_pack(random, tally, &digits);
        compare_lists(random, tally);
        compare_objects(random, tally);
        compare_objects(random, tally);
        compare_session(random, tally);
    }

    println!("met, seed {seed}, {count} rounds (number: how often):");
    let mut missing = Vec::new();
    for (what, numbers) in CAN_BE_MET {
        let met: Vec<String> = numbers
            .iter()
            .map(|&number| {
                let met = tally.0.get(&(*what, number)).copied().unwrap_or(0);
                if met == 0 {
                    missing.push((*what, number));
                }
                if what.starts_with("field") {
                    format!("{number:02X}: {met}")
                } else {
                    format!("{number}: {met}")
                }
            })
            .collect();
        println!("  {what:26} {}", met.join("  "));
    }
    for (what, number) in tally.0.keys() {
        if !CAN_BE_MET.iter().any(|(known, numbers)| known == what && numbers.contains(number)) {
            println!("NOT EXPECTED: {what} {number}");
            exit(1);
        }
    }
    if !missing.is_empty() {
        println!("NEVER MET: {missing:?}");
        exit(1);
    }
    println!("no difference");
}

// ---- jobs

const DATE: u32 = 20_240_101;
const LIST_LENGTH: usize = 150_000;
const TEMPLATE: &str = "61164F0BA00000036720000001010379074F05A000000367";

/// The answers that carry this data, so many bytes in each.
fn answers(data: &[u8], piece: usize) -> Vec<Vec<u8>> {
    let mut left = data.len();
    data.chunks(piece)
        .map(|piece| {
            left -= piece.len();
            let status = if left == 0 { [0x90, 0x00] } else { [0x61, left.min(255) as u8] };
            [piece, &status].concat()
        })
        .collect()
}

/// An object in the shortest length forms.
fn plain_object(fields: &[Field]) -> Vec<u8> {
    fn push(out: &mut Vec<u8>, tag: u8, value: &[u8]) {
        out.push(tag);
        match value.len() {
            length @ 0..=0x7F => out.push(length as u8),
            length @ 0x80..=0xFF => out.extend([0x81, length as u8]),
            length => out.extend([0x82, (length >> 8) as u8, length as u8]),
        }
        out.extend(value);
    }
    let mut value = Vec::new();
    for (tag, bytes) in fields {
        push(&mut value, *tag, bytes);
    }
    let mut object = Vec::new();
    push(&mut object, 0x53, &value);
    object
}

/// A card for the jobs: 256 bytes of signature, 672 of fingers, 16,000 of picture.
struct Card {
    fascn: Vec<u8>,
    signed: Vec<u8>,
    unsigned: Vec<u8>,
    fingers: Vec<u8>,
    picture: Vec<u8>,
}

impl Card {
    fn new(random: &mut Random) -> Card {
        let fascn = good_fascn(random);
        let expiry = b"20301231".to_vec();
        let (guid, signature, fingers, picture) = (random.bytes(16), random.bytes(256), random.bytes(672), random.bytes(16_000));
        Card {
            signed: plain_object(&[(0x30, fascn.clone()), (0x34, guid), (0x35, expiry.clone()), (0x3E, signature), (0xFE, vec![])]),
            unsigned: plain_object(&[(0x30, fascn.clone()), (0x35, expiry), (0xFE, vec![])]),
            fingers: plain_object(&[(0xBC, fingers), (0xFE, vec![])]),
            picture: plain_object(&[(0xBC, picture), (0xFE, vec![])]),
            fascn,
        }
    }
    /// The answers of each step of a reading.
    fn steps(&self, mode: u8, piece: usize) -> Vec<Vec<Vec<u8>>> {
        let mut steps = vec![bytes_of(TEMPLATE), if mode == 2 { self.unsigned.clone() } else { self.signed.clone() }];
        match mode {
            3 | 4 => steps.push(self.fingers.clone()),
            5 | 6 => steps.push(self.picture.clone()),
            _ => {}
        }
        steps.iter().map(|data| answers(data, piece)).collect()
    }
}

fn kinds(mode: u8) -> &'static [u8] {
    match mode {
        1 => &[1, 2],
        2 => &[3],
        3 => &[1, 2, 4],
        4 => &[1, 2, 3, 4],
        5 => &[1, 2, 5],
        _ => &[1, 2, 3, 5],
    }
}

/// A call of a job, which has to be accepted.
fn accepted(number: u8) {
    if number != 0 {
        println!("a call of a job was refused by {number}");
        exit(1);
    }
}

/// Command and answer, until this step is read.
fn read_step<S: Side>(session: &mut S::Session, object: &mut [u8], answers: &[Vec<u8>], cancelled: &[u64]) {
    let (mut command, mut count) = ([0; COMMAND_MOST], 0);
    for answer in answers {
        accepted(S::command(session, black_box(&mut command), &mut count));
        black_box((&command, count));
        accepted(S::answer(session, object, black_box(answer), cancelled));
    }
}

/// A session that is open and has read these steps.
fn session_after<S: Side>(mode: u8, object: &mut [u8], steps: &[Vec<Vec<u8>>]) -> S::Session {
    let mut session = S::dead();
    accepted(S::open(&mut session, mode, DATE, &bytes_of(NEWER_AID)));
    for answers in steps {
        read_step::<S>(&mut session, object, answers, &[]);
    }
    session
}

/// A job, its inputs prepared: it is run so many times.
type Job = Box<dyn FnMut(usize)>;

/// Each job with a count that suits it under callgrind.
const JOBS: &[(&str, usize)] = &[
    ("unpack", 4_096),
    ("pack", 4_096),
    ("open", 4_096),
    ("stamp", 4_096),
    ("template", 2_048),
    ("signed", 1_024),
    ("unsigned", 1_024),
    ("fingers", 1_024),
    ("picture", 64),
    ("list-read", 1),
    ("list-write", 1),
    ("merge", 1),
    ("search", 8),
    ("cin", 1),
    ("mode1-256", 512),
    ("mode2-256", 512),
    ("mode3-256", 512),
    ("mode4-256", 512),
    ("mode5-256", 64),
    ("mode6-256", 64),
    ("mode1-1", 32),
    ("mode2-1", 64),
    ("mode3-1", 16),
    ("mode4-1", 16),
    ("mode5-1", 1),
    ("mode6-1", 1),
];

/// The same inputs for both sides.
fn prepare<S: Side + 'static>(name: &str) -> Job
where
    S::Session: 'static,
{
    let mut random = Random::new(1);
    let random = &mut random;
    match name {
        "unpack" => {
            let fascns: Vec<Vec<u8>> = (0..256).map(|_| good_fascn(random)).collect();
            let mut digits = [0; DIGITS];
            Box::new(move |count| {
                for fascn in fascns.iter().cycle().take(count) {
                    accepted(S::unpack(black_box(fascn), &mut digits));
                    black_box(&digits);
                }
            })
        }
        "pack" => {
            let all: Vec<[u8; DIGITS]> = (0..256).map(|_| random.digits()).collect();
            let mut fascn = [0; FASCN_SIZE];
            Box::new(move |count| {
                for digits in all.iter().cycle().take(count) {
                    accepted(S::pack(black_box(digits), &mut fascn));
                    black_box(&fascn);
                }
            })
        }
        "open" => {
            let aid = bytes_of(NEWER_AID);
            let mut session = S::dead();
            Box::new(move |count| {
                for _ in 0..count {
                    accepted(S::open(&mut session, black_box(3), black_box(DATE), black_box(&aid)));
                    black_box(&mut session);
                }
            })
        }
        "stamp" => {
            let mut object = vec![0; OBJECT_SIZE];
            let card = Card::new(random);
            let mut session = session_after::<S>(1, &mut object, &card.steps(1, 256));
            for &kind in kinds(1) {
                accepted(S::verdict(&mut session, kind, 1, &card.fascn));
            }
            let mut stamp = [0; STAMP_SIZE];
            Box::new(move |count| {
                for _ in 0..count {
                    accepted(S::stamp(black_box(&session), &mut stamp));
                    black_box(&stamp);
                }
            })
        }
        // The library shows no reader of a template or an object, so they are measured through the reading of their step. The template's has the opening in it.
        "template" => {
            let mut object = vec![0; OBJECT_SIZE];
            let aid = bytes_of(NEWER_AID);
            let answers = answers(&bytes_of(TEMPLATE), 256);
            let mut session = S::dead();
            Box::new(move |count| {
                for _ in 0..count {
                    accepted(S::open(&mut session, black_box(1), black_box(DATE), black_box(&aid)));
                    read_step::<S>(&mut session, &mut object, &answers, &[]);
                    black_box(&mut session);
                }
            })
        }
        // From a copy of a session that stands before the step.
        "signed" => step_job::<S>(random, 1, 1, vec![]),
        "unsigned" => step_job::<S>(random, 2, 1, vec![]),
        "fingers" => step_job::<S>(random, 3, 2, vec![]),
        "picture" => step_job::<S>(random, 5, 2, vec![]),
        // The unsigned object's step with a list in which the key does not stand.
        "search" => {
            let cancelled = (0..LIST_LENGTH).map(|_| random.key()).collect();
            step_job::<S>(random, 2, 1, cancelled)
        }
        "list-read" => {
            let text: Vec<u8> = (0..LIST_LENGTH).flat_map(|_| card_line(random.key()).into_bytes()).collect();
            let mut keys = vec![0; LIST_LENGTH];
            let (mut keys_read, mut line) = (0, 0);
            Box::new(move |count| {
                for _ in 0..count {
                    accepted(S::list_read(black_box(&text), &mut keys, &mut keys_read, &mut line));
                    black_box((&keys, keys_read));
                }
            })
        }
        "list-write" => {
            let keys: Vec<u64> = (0..LIST_LENGTH).map(|_| random.key()).collect();
            let mut text = vec![0; LIST_LENGTH * LINE_SIZE];
            let mut keys_written = 0;
            Box::new(move |count| {
                for _ in 0..count {
                    accepted(S::list_write(black_box(&keys), &mut text, &mut keys_written));
                    black_box((&text, keys_written));
                }
            })
        }
        "merge" => {
            // One key in sixteen stands in both.
            let official = ascending_keys(random, &[]);
            let shared: Vec<u64> = official.iter().copied().step_by(16).collect();
            let own = ascending_keys(random, &shared);
            let mut merged = vec![0; 2 * LIST_LENGTH];
            let mut keys_merged = 0;
            Box::new(move |count| {
                for _ in 0..count {
                    accepted(S::list_merge(black_box(&official), black_box(&own), &mut merged, &mut keys_merged));
                    black_box((&merged, keys_merged));
                }
            })
        }
        "cin" => {
            let text: Vec<u8> = (0..LIST_LENGTH).flat_map(|_| format!("(cin ({:08}))\n", random.below(90_000_000)).into_bytes()).collect();
            let typed = b"98765432";
            let (mut listed, mut line) = (0, 0);
            Box::new(move |count| {
                for _ in 0..count {
                    accepted(S::cin_look_up(black_box(typed), black_box(&text), &mut listed, &mut line));
                    black_box(listed);
                }
            })
        }
        _ => {
            let parts = name.strip_prefix("mode").and_then(|rest| rest.split_once('-'));
            let Some((mode, piece)) = parts.and_then(|(mode, piece)| Some((mode.parse().ok()?, piece.parse().ok()?))) else {
                usage();
            };
            whole_reading::<S>(random, mode, piece)
        }
    }
}

/// So many keys, strictly ascending, these among them.
fn ascending_keys(random: &mut Random, among: &[u64]) -> Vec<u64> {
    let mut keys = among.to_vec();
    while keys.len() < LIST_LENGTH {
        keys.extend((keys.len()..LIST_LENGTH).map(|_| random.key()));
        keys.sort_unstable();
        keys.dedup();
    }
    keys
}

fn step_job<S: Side + 'static>(random: &mut Random, mode: u8, step: usize, cancelled: Vec<u64>) -> Job
where
    S::Session: 'static,
{
    let mut object = vec![0; OBJECT_SIZE];
    let steps = Card::new(random).steps(mode, 256);
    let before = session_after::<S>(mode, &mut object, &steps[..step]);
    let answers = steps[step].clone();
    Box::new(move |count| {
        for _ in 0..count {
            let mut session = black_box(&before).clone();
            read_step::<S>(&mut session, &mut object, &answers, black_box(&cancelled));
            black_box(&mut session);
        }
    })
}

/// From the opening to the stamp of a granted card.
fn whole_reading<S: Side + 'static>(random: &mut Random, mode: u8, piece: usize) -> Job
where
    S::Session: 'static,
{
    let card = Card::new(random);
    let steps = card.steps(mode, piece);
    let aid = bytes_of(NEWER_AID);
    let mut object = vec![0; OBJECT_SIZE];
    let mut session = S::dead();
    let mut stamp = [0; STAMP_SIZE];
    Box::new(move |count| {
        for _ in 0..count {
            accepted(S::open(&mut session, black_box(mode), black_box(DATE), black_box(&aid)));
            for answers in &steps {
                read_step::<S>(&mut session, &mut object, answers, &[]);
            }
            for &kind in kinds(mode) {
                accepted(S::verdict(&mut session, black_box(kind), black_box(1), black_box(&card.fascn)));
            }
            accepted(S::stamp(&session, &mut stamp));
            if black_box(&stamp)[1] != 1 {
                println!("a reading of a job was not granted: {}", hex(&stamp));
                exit(1);
            }
        }
    })
}

fn timed(job: &mut Job, count: usize) -> Duration {
    let start = Instant::now();
    job(count);
    start.elapsed()
}

fn time(quick: bool) {
    let (batch, batches) = if quick { (Duration::from_millis(2), 7) } else { (Duration::from_millis(5), 41) };
    for (name, _) in JOBS {
        if quick && name.ends_with("-1") {
            continue;
        }
        let mut sides = [prepare::<Core>(name), prepare::<Rust>(name)];
        // So many runs as fill a batch.
        let counts = [0, 1].map(|side| {
            let mut count = 1;
            while timed(&mut sides[side], count) < batch {
                count *= 2;
            }
            count
        });
        let mut best = [f64::INFINITY; 2];
        for _ in 0..batches {
            for side in 0..2 {
                let nanoseconds = timed(&mut sides[side], counts[side]).as_nanos() as f64 / counts[side] as f64;
                best[side] = best[side].min(nanoseconds);
            }
        }
        println!("{name} {:.1} {:.1}", best[0], best[1]);
    }
}

// ---- texts for the gate program

fn gate_reading(random: &mut Random, out: &mut Vec<u8>, mode: u8, piece: usize) {
    let card = Card::new(random);
    writeln!(out, "(open {mode} {DATE} {NEWER_AID})").unwrap();
    for answers in card.steps(mode, piece) {
        for answer in answers {
            writeln!(out, "(answer {})", hex(&answer)).unwrap();
        }
    }
    for kind in kinds(mode) {
        writeln!(out, "(verdict {kind} 1 {})", hex(&card.fascn)).unwrap();
    }
}

/// A line that is no line of the gate program's.
fn bad_line(random: &mut Random) -> Vec<u8> {
    match random.below(9) {
        0 => b"(open 1 20240101)".to_vec(),
        1 => format!("(answer {}G)", hex(&random.bytes(9))).into_bytes(),
        2 => format!("(answer {}a0)", hex(&random.bytes(20))).into_bytes(),
        3 => format!("(verdict 1 {})", hex(&random.bytes(25))).into_bytes(),
        4 => card_line(random.key()).replace("card", "cart").trim_end().into(),
        5 => card_line(random.key()).replace(") (", ")(").trim_end().into(),
        6 => cin_line(random).trim_end().into(),
        7 => format!("(answer {})", hex(&random.bytes(520))).into_bytes(),
        _ => {
            let length = random.below(60);
            let mut line = random.bytes(length);
            line.retain(|&byte| byte != b'\n' && byte != b'(');
            line
        }
    }
}

/// A line that is well formed, and refused by a session that stands before its first answer or has been read and judged.
fn refused_line(random: &mut Random) -> Vec<u8> {
    match random.below(6) {
        0 => format!("(open {} 20240101 {NEWER_AID})", random.pick(&[0, 7, 8, 9])),
        1 => format!("(open 1 {:08} {NEWER_AID})", random.pick(&[0, 20_230_229, 21_000_229, 99_999_999, 20_241_301])),
        2 => {
            let length = random.pick(&[1, 4, 17, 40]);
            format!("(open 1 20240101 {})", hex(&random.bytes(length)))
        }
        3 => format!("(verdict {} {} {})", random.below(10), random.below(10), hex(&any_fascn_line(random))),
        4 => format!("(answer {})", hex(&random.bytes(259))),
        _ => format!("(answer {})", hex(&random.bytes(1))),
    }
    .into_bytes()
}

/// A FASC-N that a line can hold: one without bytes is no pair of digits.
fn any_fascn_line(random: &mut Random) -> Vec<u8> {
    let mut fascn = any_fascn(random);
    if fascn.is_empty() {
        fascn.push(0);
    }
    fascn
}

/// A reading with all that may come between: the card errs, lines are bad or refused, cards are cancelled on the way.
fn mixed_reading(random: &mut Random, out: &mut Vec<u8>) {
    let mode = random.between(1, 6) as u8;
    let date = any_date(random).min(99_999_999);
    let mut plan = Plan::new(random, mode, if plain::is_real_date(date) { date } else { DATE }, 12);
    plan.odd_answer = plan.odd_answer.max(10);
    let aid = aid(random);
    for key in plan.cancelled.iter().filter(|&&key| key < 10_000_000_000_000_000).take(20) {
        out.extend(card_line(*key).into_bytes());
    }
    let mut lines = vec![format!("(open {mode} {date:08} {})", hex(&aid)).into_bytes()];

    // The session of this side tells how far the reading is; what it is judged to be is not looked at.
    let mut session = Session::default();
    let mut object = vec![0; OBJECT_SIZE];
    let mut stamp = [0; STAMP_SIZE];
    accepted(Rust::open(&mut session, mode, if plain::is_real_date(date) { date } else { DATE }, &aid));
    loop {
        accepted(Rust::stamp(&session, &mut stamp));
        if stamp[5] == 3 || stamp[2] >= 16 {
            break;
        }
        let answer = plan.answer(random, stamp[5]);
        accepted(store(session.command(&mut [0; COMMAND_MOST]), &mut 0));
        accepted(number(session.answer(&mut object, &answer, &[])));
        lines.push(format!("(answer {})", hex(&answer)).into_bytes());
    }
    for _ in 0..random.below(8) {
        let (kind, yes, Hex(fascn)) = verdict_inputs(random, &plan);
        lines.push(format!("(verdict {} {} {})", kind % 10, yes % 10, hex(&fascn)).into_bytes());
    }
    for mut line in lines {
        if random.once_in(20) {
            let between = match random.below(6) {
                0 => bad_line(random),
                1 => refused_line(random),
                2 => card_line(random.key()).trim_end().into(),
                3 => format!("(answer {})", "0".repeat(random.pick(&[1_014, 1_016]))).into_bytes(),
                4 => vec![b' '; random.pick(&[0, 1, 1_023, 1_024, 1_025, 5_000])],
                _ => {
                    let mut spoilt = line.clone();
                    spoil(random, &mut spoilt);
                    spoilt
                }
            };
            out.extend(between);
            out.push(b'\n');
        }
        if random.once_in(60) {
            spoil(random, &mut line);
        }
        out.extend(line);
        out.push(b'\n');
    }
}

fn generate(kind: &str, n: usize, seed: u64) -> Vec<u8> {
    let mut random = Random::new(seed);
    let random = &mut random;
    let mut out = Vec::new();
    match kind {
        "mode1" | "mode2" | "mode3" | "mode4" | "mode5" | "mode6" => {
            let mode = kind.as_bytes()[4] - b'0';
            for _ in 0..n {
                gate_reading(random, &mut out, mode, 256);
            }
        }
        "small" => {
            for index in 0..n {
                gate_reading(random, &mut out, (index % 6) as u8 + 1, 1);
            }
        }
        "cards" => {
            for _ in 0..n {
                out.extend(card_line(random.key()).into_bytes());
            }
        }
        "bad" => {
            for _ in 0..n {
                out.extend(bad_line(random));
                out.push(b'\n');
            }
        }
        "refused" => {
            // Without a session, with one that is open, with one that is read and judged.
            for part in 0..3 {
                match part {
                    0 => {}
                    1 => out.extend(format!("(open 1 {DATE} {NEWER_AID})\n").into_bytes()),
                    _ => gate_reading(random, &mut out, 3, 256),
                }
                for _ in 0..n.div_ceil(3) {
                    out.extend(refused_line(random));
                    out.push(b'\n');
                }
            }
        }
        "mixed" => {
            for _ in 0..n {
                mixed_reading(random, &mut out);
            }
            if random.once_in(2) {
                out.pop();
            }
        }
        _ => usage(),
    }
    out
}

/// Runs the programs in turn and prints the best time of each.
fn wall(runs: usize, file: &str, programs: &[String]) -> io::Result<()> {
    let mut best = vec![Duration::MAX; programs.len()];
    for _ in 0..runs {
        for (program, best) in programs.iter().zip(&mut best) {
            let input = std::fs::File::open(file)?;
            let start = Instant::now();
            let status = Process::new(program).stdin(input).stdout(Stdio::null()).status()?;
            *best = start.elapsed().min(*best);
            if !status.success() {
                println!("{program} ended with {status}");
                exit(1);
            }
        }
    }
    let best: Vec<String> = best.iter().map(|best| best.as_nanos().to_string()).collect();
    println!("{}", best.join(" "));
    Ok(())
}

fn usage() -> ! {
    eprintln!("usage: bench compare SEED COUNT | jobs | job NAME core|rust COUNT | time [quick] | gen KIND N [SEED] | wall RUNS FILE PROGRAM..");
    exit(2)
}

fn main() -> io::Result<()> {
    fn count(text: &str) -> usize {
        text.parse().unwrap_or_else(|_| usage())
    }
    let arguments: Vec<String> = std::env::args().skip(1).collect();
    let words: Vec<&str> = arguments.iter().map(String::as_str).collect();
    match words[..] {
        ["compare", seed, rounds] => compare(count(seed) as u64, count(rounds)),
        ["jobs"] => JOBS.iter().for_each(|(name, count)| println!("{name} {count}")),
        ["job", name, "core", times] => prepare::<Core>(name)(count(times)),
        ["job", name, "rust", times] => prepare::<Rust>(name)(count(times)),
        ["time"] => time(false),
        ["time", "quick"] => time(true),
        ["gen", kind, n] => io::stdout().write_all(&generate(kind, count(n), 1))?,
        ["gen", kind, n, seed] => io::stdout().write_all(&generate(kind, count(n), count(seed) as u64))?,
        ["wall", runs, file, _, ..] => wall(count(runs), file, &arguments[3..])?,
        _ => usage(),
    }
    Ok(())
}
