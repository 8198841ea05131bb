//! The gate reader core in plain, safe Rust: the same jobs as the library that the benchmark sets beside it.
//! Written from document 01 and requests 1 to 7 of document 02 alone. No `unsafe`, nothing but the standard library, no heap.
//!
//! An accepted call is `Ok`, for which the papers' number is 0; a refused one is `Err` with the papers' number, and has changed nothing.
//!
//! Refusal 4: the fields of a `Session` are private and only the calls below write them, so no caller can put one out of range.
//! What is left of that refusal is the dead session, which is the default value.

#![allow(dead_code)] // the gate program does not use every call

use std::ops::{Range, RangeInclusive};

pub const OBJECT_SIZE: usize = 20_480;
pub const STAMP_SIZE: usize = 46;
pub const FASCN_SIZE: usize = 25;
pub const DIGITS: usize = 32;
pub const LINE_SIZE: usize = 32;

/// The papers' number of a refusal.
pub type Refusal = u8;

/// A refused text: the number, and for 20 and 24 the first malformed line, counted from 1 (else 0).
#[derive(Debug, PartialEq, Eq)]
pub struct BadText {
    pub number: Refusal,
    pub line: usize,
}

// ---- FASC-N (document 01, "FASC-N"; request 3: the codes are worked out, there is no table of them)

const SS: u8 = 11;
const FS: u8 = 13;
const ES: u8 = 15;

/// Where the marks stand, and the check character.
const SS_AT: usize = 0;
const FS_AT: [usize; 5] = [5, 10, 17, 19, 21];
const ES_AT: usize = 38;
const CHECK_AT: usize = 39;

/// Where the digits stand: agency, system, credential, series, issue, and the last 16, which no mark divides.
const DIGITS_AT: [Range<usize>; 6] = [1..5, 6..10, 11..17, 18..19, 20..21, 22..38];

/// The five bits of a value: four value bits, lowest first, then a bit that makes the count of ones odd.
fn code_of(value: u8) -> u8 {
    let parity = (value.count_ones() as u8 + 1) % 2;
    (value.reverse_bits() >> 4) << 1 | parity
}

fn value_of(code: u8) -> u8 {
    (code >> 1).reverse_bits() >> 4
}

/// The 32 digits of a FASC-N. 15 not 25 bytes; 16 parity; 17 a mark or a digit out of place; 18 check character.
pub fn unpack(fascn: &[u8]) -> Result<[u8; DIGITS], Refusal> {
    let fascn: &[u8; FASCN_SIZE] = fascn.try_into().map_err(|_| 15)?;

    // Five bytes are eight characters.
    let mut codes = [0u8; 40];
    for (bytes, codes) in fascn.chunks_exact(5).zip(codes.chunks_exact_mut(8)) {
        let bits = bytes.iter().fold(0u64, |bits, &byte| bits << 8 | u64::from(byte));
        for (i, code) in codes.iter_mut().enumerate() {
            *code = (bits >> (35 - 5 * i)) as u8 & 0x1F;
        }
    }
    if codes.iter().any(|code| code.count_ones() % 2 == 0) {
        return Err(16);
    }

    let values = codes.map(value_of);
    let marks_fit = values[SS_AT] == SS && FS_AT.iter().all(|&at| values[at] == FS) && values[ES_AT] == ES;
    let mut digits = [0; DIGITS];
    let mut count = 0;
    for places in DIGITS_AT {
        let end = count + places.len();
        digits[count..end].copy_from_slice(&values[places]);
        count = end;
    }
    if !marks_fit || digits.iter().any(|&digit| digit > 9) {
        return Err(17);
    }

    // The check value is the exclusive or of the 39 before it, so all 40 give 0.
    if values.iter().fold(0, |all, value| all ^ value) != 0 {
        return Err(18);
    }
    Ok(digits)
}

/// The FASC-N of 32 digits. 19 a digit above 9.
pub fn pack(digits: &[u8; DIGITS]) -> Result<[u8; FASCN_SIZE], Refusal> {
    if digits.iter().any(|&digit| digit > 9) {
        return Err(19);
    }

    let mut values = [0; 40];
    values[SS_AT] = SS;
    values[ES_AT] = ES;
    for at in FS_AT {
        values[at] = FS;
    }
    let mut count = 0;
    for places in DIGITS_AT {
        let end = count + places.len();
        values[places].copy_from_slice(&digits[count..end]);
        count = end;
    }
    values[CHECK_AT] = values.iter().fold(0, |all, value| all ^ value);

    let codes = values.map(code_of);
    let mut fascn = [0; FASCN_SIZE];
    for (bytes, codes) in fascn.chunks_exact_mut(5).zip(codes.chunks_exact(8)) {
        let bits = codes.iter().fold(0u64, |bits, &code| bits << 5 | u64::from(code));
        bytes.copy_from_slice(&bits.to_be_bytes()[3..]);
    }
    Ok(fascn)
}

/// The key of a card: its first 16 digits as one number.
pub fn key(digits: &[u8; DIGITS]) -> u64 {
    digits[..16].iter().fold(0, |key, &digit| key * 10 + u64::from(digit))
}

// ---- dates

/// Whether the number YYYYMMDD is a real Gregorian date, year 0001 to 9999.
pub fn is_real_date(date: u32) -> bool {
    let (year, month, day) = (date / 10_000, date / 100 % 100, date % 100);
    let leap = year % 4 == 0 && (year % 100 != 0 || year % 400 == 0);
    let days = match month {
        1 | 3 | 5 | 7 | 8 | 10 | 12 => 31,
        4 | 6 | 9 | 11 => 30,
        2 if leap => 29,
        2 => 28,
        _ => return false,
    };
    (1..=9999).contains(&year) && (1..=days).contains(&day)
}

/// The number of eight ASCII digits that are a real date.
pub fn read_date(text: &[u8]) -> Option<u32> {
    if text.len() != 8 {
        return None;
    }
    let date = read_number(text)? as u32;
    is_real_date(date).then_some(date)
}

/// The number of ASCII digits; the caller sees to it that they are few enough for a `u64`.
fn read_number(text: &[u8]) -> Option<u64> {
    text.iter().try_fold(0, |number, byte| match byte {
        b'0'..=b'9' => Some(number * 10 + u64::from(byte - b'0')),
        _ => None,
    })
}

// ---- TLV (document 01, "Objects")

/// How many bytes the tag at the front has: one, two or three.
fn tag_length(bytes: &[u8]) -> Option<usize> {
    match *bytes {
        [first, ..] if first & 0x1F != 0x1F => Some(1),
        [_, second, ..] if second & 0x80 == 0 => Some(2),
        [_, _, third, ..] if third & 0x80 == 0 => Some(3),
        _ => None,
    }
}

/// The length at the front, and what follows it.
fn split_length(bytes: &[u8]) -> Option<(usize, &[u8])> {
    match bytes {
        [length @ 0..=0x7F, rest @ ..] | [0x81, length, rest @ ..] => Some((usize::from(*length), rest)),
        [0x82, high, low, rest @ ..] => Some((usize::from(u16::from_be_bytes([*high, *low])), rest)),
        _ => None,
    }
}

/// The TLV at the front, as its tag and its value, and what follows it.
fn split_tlv(bytes: &[u8]) -> Option<(&[u8], &[u8], &[u8])> {
    let (tag, rest) = bytes.split_at(tag_length(bytes)?);
    let (length, rest) = split_length(rest)?;
    let (value, rest) = rest.split_at_checked(length)?;
    Some((tag, value, rest))
}

/// Whether the bytes are whole TLVs, and every nested value in them too; `depth` levels may still stand here and below.
fn are_whole_tlvs(mut bytes: &[u8], depth: u8) -> bool {
    while !bytes.is_empty() {
        let Some((tag, value, rest)) = split_tlv(bytes) else {
            return false;
        };
        let nested = tag[0] & 0x20 != 0;
        if depth == 0 || nested && !are_whole_tlvs(value, depth - 1) {
            return false;
        }
        bytes = rest;
    }
    true
}

/// Whether the bytes are a good SELECT answer: one 61 that directly holds just one 4F of 1 to 16 bytes.
pub fn is_template(bytes: &[u8]) -> bool {
    let Some(([0x61], mut children, [])) = split_tlv(bytes) else {
        return false;
    };
    if !are_whole_tlvs(children, 3) {
        return false;
    }
    let mut identifiers = 0;
    while let Some((tag, value, rest)) = split_tlv(children) {
        if tag == [0x4F] {
            identifiers += 1;
            if !(1..=16).contains(&value.len()) {
                return false;
            }
        }
        children = rest;
    }
    identifiers == 1
}

// ---- data objects

/// Where the values of an object lie, as places in the object's bytes; an empty place is an absent field.
#[derive(Clone, Debug, Default, PartialEq, Eq)]
pub struct Chuid {
    pub buffer_length: Range<usize>, // EE
    pub fascn: Range<usize>,         // 30
    pub agency: Range<usize>,        // 31
    pub organization: Range<usize>,  // 32
    pub duns: Range<usize>,          // 33
    pub guid: Range<usize>,          // 34
    pub expiry: Range<usize>,        // 35
    pub signature: Range<usize>,     // 3E
}

/// Takes the fields of a data object one after another.
struct Fields<'a> {
    object: &'a [u8],
    at: usize,
}

impl<'a> Fields<'a> {
    /// Opens the one TLV with tag 53, which has nothing after it.
    fn open(object: &'a [u8]) -> Option<Self> {
        let ([0x53], value, []) = split_tlv(object)? else {
            return None;
        };
        Some(Fields { object, at: object.len() - value.len() })
    }

    /// The place of the next field, if it has this tag and a length that fits. `None`: malformed, or another tag.
    fn required(&mut self, tag: u8, lengths: RangeInclusive<usize>) -> Option<Range<usize>> {
        let rest = self.object[self.at..].strip_prefix(&[tag])?;
        let (length, rest) = split_length(rest)?;
        if !lengths.contains(&length) || length > rest.len() {
            return None;
        }
        let start = self.object.len() - rest.len();
        self.at = start + length;
        Some(start..self.at)
    }

    /// The same for a field that may be absent, which gives the empty place.
    fn optional(&mut self, tag: u8, lengths: RangeInclusive<usize>) -> Option<Range<usize>> {
        if self.object.get(self.at) == Some(&tag) {
            self.required(tag, lengths)
        } else {
            Some(0..0)
        }
    }

    fn end(&self) -> Option<()> {
        (self.at == self.object.len()).then_some(())
    }
}

/// Reads 5FC102, or 5FC104 where `signed` is false, with the older elements of request 5.
pub fn read_chuid(object: &[u8], signed: bool) -> Option<Chuid> {
    let mut fields = Fields::open(object)?;
    let chuid = Chuid {
        buffer_length: fields.optional(0xEE, 2..=2)?,
        fascn: fields.required(0x30, 25..=25)?,
        agency: fields.optional(0x31, 4..=4)?,
        organization: fields.optional(0x32, 4..=4)?,
        duns: fields.optional(0x33, 9..=9)?,
        guid: if signed { fields.required(0x34, 16..=16)? } else { fields.optional(0x34, 16..=16)? },
        expiry: fields.required(0x35, 8..=8)?,
        signature: if signed { fields.required(0x3E, 1..=2_816)? } else { 0..0 },
    };
    fields.required(0xFE, 0..=0)?;
    fields.end()?;
    Some(chuid)
}

/// Reads DFC103 (fingers, at most 862 bytes) or DFC108 (picture, at most 16,000): the place of BC.
pub fn read_biometric(object: &[u8], most: usize) -> Option<Range<usize>> {
    let mut fields = Fields::open(object)?;
    let biometric = fields.required(0xBC, 1..=most)?;
    fields.optional(0xFE, 0..=0)?;
    fields.end()?;
    Some(biometric)
}

// ---- the session

#[derive(Clone, Copy, Debug, Default, PartialEq, Eq)]
enum Kind {
    #[default]
    Select,
    GetData,
    GetResponse,
}

/// A command to the card: its kind and its last byte, which is what a 6C corrects.
#[derive(Clone, Copy, Debug, Default, PartialEq, Eq)]
struct Command {
    kind: Kind,
    le: u8,
}

const UNNEEDED: u8 = 0;
const AWAITED: u8 = 1;
const PASSED: u8 = 2;
const FAILED: u8 = 3;
const OTHER_CARD: u8 = 4;

/// The reading of one card. The default value is the dead session, which has mode 0.
#[derive(Clone, Debug, Default, PartialEq, Eq)]
pub struct Session {
    mode: u8,
    date: u32,
    aid: [u8; 16],
    aid_length: usize,
    step: u8,
    filled: usize,
    next: Command,
    outstanding: bool,
    /// The answer taken last was a 6C.
    corrected: bool,
    /// 16 to 22, or 0; a cause from the checks is worked out anew each time.
    cause: u8,
    status: [u8; 2],
    outcomes: [u8; 7],
    fascn: [u8; FASCN_SIZE],
    expiry: u32,
    chuid: Chuid,
    biometric: Range<usize>,
}

/// The checks, counted from 1, that a mode needs.
fn needed_checks(mode: u8) -> &'static [usize] {
    match mode {
        1 => &[1, 2, 3, 4],
        2 => &[3, 4, 5],
        3 => &[1, 2, 3, 4, 6],
        4 => &[1, 2, 3, 4, 5, 6],
        5 => &[1, 2, 3, 4, 7],
        _ => &[1, 2, 3, 4, 5, 7],
    }
}

impl Session {
    /// 1 mode not 1 to 6; 2 date not real; 3 AID not 5 to 16 bytes.
    pub fn open(mode: u8, date: u32, aid: &[u8]) -> Result<Session, Refusal> {
        if !(1..=6).contains(&mode) {
            return Err(1);
        }
        if !is_real_date(date) {
            return Err(2);
        }
        if !(5..=16).contains(&aid.len()) {
            return Err(3);
        }
        let mut session = Session { mode, date, aid_length: aid.len(), ..Session::default() };
        session.aid[..aid.len()].copy_from_slice(aid);
        for &check in needed_checks(mode) {
            session.outcomes[check - 1] = AWAITED;
        }
        Ok(session)
    }

    fn is_dead(&self) -> bool {
        self.mode == 0
    }

    /// Writes the next command to the front of `out` and gives its length.
    /// 4 dead; 5 nothing to send; 6 `out` shorter than the command.
    pub fn command(&mut self, out: &mut [u8]) -> Result<usize, Refusal> {
        if self.is_dead() {
            return Err(4);
        }
        if self.step == 3 || self.cause != 0 || self.outstanding {
            return Err(5);
        }
        let mut bytes = [0; 22];
        let body = match self.next.kind {
            Kind::Select => {
                let end = 5 + self.aid_length;
                bytes[..4].copy_from_slice(&[0x00, 0xA4, 0x04, 0x00]);
                bytes[4] = self.aid_length as u8;
                bytes[5..end].copy_from_slice(&self.aid[..self.aid_length]);
                end
            }
            Kind::GetData => {
                bytes[..7].copy_from_slice(&[0x00, 0xCB, 0x3F, 0xFF, 0x05, 0x5C, 0x03]);
                bytes[7..10].copy_from_slice(&self.object_tag());
                10
            }
            Kind::GetResponse => {
                bytes[..4].copy_from_slice(&[0x00, 0xC0, 0x00, 0x00]);
                4
            }
        };
        bytes[body] = self.next.le;
        let command = &bytes[..body + 1];
        out.get_mut(..command.len()).ok_or(6)?.copy_from_slice(command);
        self.outstanding = true;
        Ok(command.len())
    }

    /// The tag of the object that this step reads.
    fn object_tag(&self) -> [u8; 3] {
        match (self.step, self.mode) {
            (1, 2) => [0x5F, 0xC1, 0x04],
            (1, _) => [0x5F, 0xC1, 0x02],
            (_, 5 | 6) => [0xDF, 0xC1, 0x08],
            _ => [0xDF, 0xC1, 0x03],
        }
    }

    /// The part of the object buffer that this step fills.
    fn room(&self) -> Range<usize> {
        match (self.step, self.mode) {
            (2, 5 | 6) => 4_096..4_096 + 16_384,
            (2, _) => 4_096..4_096 + 4_096,
            _ => 0..4_096,
        }
    }

    /// Takes the card's answer. 4 dead; 5 no command outstanding; 7 object buffer not 20,480 bytes; 8 answer under 2 or over 258 bytes.
    pub fn answer(&mut self, object: &mut [u8], answer: &[u8], cancelled: &[u64]) -> Result<(), Refusal> {
        if self.is_dead() {
            return Err(4);
        }
        if !self.outstanding {
            return Err(5);
        }
        if object.len() != OBJECT_SIZE {
            return Err(7);
        }
        let (data, &status) = answer.split_last_chunk::<2>().ok_or(8)?;
        if data.len() > 256 {
            return Err(8);
        }

        self.outstanding = false;
        let after_correction = std::mem::replace(&mut self.corrected, false);
        let room = &mut object[self.room()];
        match status {
            [0x6C, le] if data.is_empty() && !after_correction => {
                self.next.le = le;
                self.corrected = true;
            }
            [0x90, 0x00] | [0x61, _] => {
                let end = self.filled + data.len();
                if status[0] == 0x61 && data.is_empty() && self.next.kind == Kind::GetResponse {
                    self.cause = 17;
                } else if end > room.len() {
                    self.cause = 18;
                } else {
                    room[self.filled..end].copy_from_slice(data);
                    self.filled = end;
                    if status[0] == 0x61 {
                        self.next = Command { kind: Kind::GetResponse, le: status[1] };
                    } else {
                        match self.judge(&room[..end], cancelled) {
                            Ok(()) => self.begin_next_step(),
                            Err(cause) => self.cause = cause,
                        }
                    }
                }
            }
            _ => {
                self.cause = 16;
                self.status = status;
            }
        }
        Ok(())
    }

    /// Judges the joined data of the step; what is wrong with it is the cause.
    fn judge(&mut self, joined: &[u8], cancelled: &[u64]) -> Result<(), u8> {
        match self.step {
            0 => is_template(joined).then_some(()).ok_or(19),
            1 => {
                let chuid = read_chuid(joined, self.mode != 2).ok_or(20)?;
                let fascn = &joined[chuid.fascn.clone()];
                let digits = unpack(fascn).map_err(|_| 21)?;
                let expiry = read_date(&joined[chuid.expiry.clone()]).ok_or(22)?;
                self.fascn.copy_from_slice(fascn);
                self.expiry = expiry;
                self.chuid = chuid;
                self.outcomes[2] = if expiry >= self.date { PASSED } else { FAILED };
                self.outcomes[3] = if cancelled.contains(&key(&digits)) { FAILED } else { PASSED };
                Ok(())
            }
            _ => {
                let most = if self.mode >= 5 { 16_000 } else { 862 };
                let place = read_biometric(joined, most).ok_or(20)?;
                let start = self.room().start;
                self.biometric = start + place.start..start + place.end;
                Ok(())
            }
        }
    }

    fn begin_next_step(&mut self) {
        self.step = match self.step {
            0 => 1,
            1 if self.mode >= 3 => 2,
            _ => 3,
        };
        self.filled = 0;
        self.next = Command { kind: Kind::GetData, le: 0 };
    }

    /// Files a verdict. 4 dead; 9 not all read; 10 kind not 1 to 5; 11 neither 0 nor 1; 12 not 25 bytes or an ill-formed FASC-N;
    /// 13 the mode does not need it; 14 given already.
    pub fn verdict(&mut self, kind: u8, yes: u8, fascn: &[u8]) -> Result<(), Refusal> {
        if self.is_dead() {
            return Err(4);
        }
        if self.step != 3 {
            return Err(9);
        }
        let check = match kind {
            1 => 1,
            2 => 2,
            3 => 5,
            4 => 6,
            5 => 7,
            _ => return Err(10),
        };
        if yes > 1 {
            return Err(11);
        }
        if unpack(fascn).is_err() {
            return Err(12);
        }
        let outcome = &mut self.outcomes[check - 1];
        match *outcome {
            UNNEEDED => return Err(13),
            AWAITED => {}
            _ => return Err(14),
        }
        *outcome = if yes == 0 {
            FAILED
        } else if fascn == self.fascn {
            PASSED
        } else {
            OTHER_CARD
        };
        Ok(())
    }

    /// Writes the stamp that this verdict and then a stamp call would write. Refused as the verdict, and then 6.
    pub fn preview(&self, kind: u8, yes: u8, fascn: &[u8], out: &mut [u8]) -> Result<(), Refusal> {
        let mut copy = self.clone();
        copy.verdict(kind, yes, fascn)?;
        copy.stamp(out)
    }

    /// The value of a field as a part of the object buffer; empty where there is none to show.
    pub fn field<'a>(&self, object: &'a [u8], tag: u8) -> &'a [u8] {
        let chuid = &self.chuid;
        // An empty place is one not yet read or absent: the places are filled in at the good end of their step, and a dead session has none.
        let place = match tag {
            0xEE => &chuid.buffer_length,
            0x30 => &chuid.fascn,
            0x31 => &chuid.agency,
            0x32 => &chuid.organization,
            0x33 => &chuid.duns,
            0x34 => &chuid.guid,
            0x35 => &chuid.expiry,
            0x3E => &chuid.signature,
            0xBC => &self.biometric,
            _ => &(0..0),
        };
        if object.len() == OBJECT_SIZE {
            &object[place.clone()]
        } else {
            &[]
        }
    }

    /// 16 to 22 if one arose, else the lowest check that failed, else 0.
    fn cause(&self) -> u8 {
        if self.cause != 0 {
            return self.cause;
        }
        let failed = self.outcomes.iter().position(|&outcome| outcome == FAILED || outcome == OTHER_CARD);
        failed.map_or(0, |index| index as u8 + 1)
    }

    /// Writes the stamp to the first 46 bytes of `out`. 4 dead; 6 `out` under 46 bytes.
    pub fn stamp(&self, out: &mut [u8]) -> Result<(), Refusal> {
        if self.is_dead() {
            return Err(4);
        }
        let out = out.first_chunk_mut::<STAMP_SIZE>().ok_or(6)?;
        let cause = self.cause();
        let all_passed = self.outcomes.iter().all(|&outcome| outcome == UNNEEDED || outcome == PASSED);
        let standing = if cause != 0 {
            2
        } else if self.step == 3 && all_passed {
            1
        } else {
            0
        };
        out[0] = self.mode;
        out[1] = standing;
        out[2] = cause;
        out[3..5].copy_from_slice(&self.status);
        out[5] = self.step;
        out[6..13].copy_from_slice(&self.outcomes);
        out[13..17].copy_from_slice(&self.date.to_be_bytes());
        out[17..42].copy_from_slice(&self.fascn);
        out[42..46].copy_from_slice(&self.expiry.to_be_bytes());
        Ok(())
    }
}

// ---- lists (document 01, "List text and the gate program"; requests 2 and 4)

/// A line of a cancelled card list, without its 0A; a 0 stands for any digit.
const CARD_LINE: &[u8; LINE_SIZE - 1] = b"(card (0000 0000 000000) (0 0))";

/// The key of a line, which is given without its 0A.
pub fn read_card_line(line: &[u8]) -> Option<u64> {
    let line: &[u8; LINE_SIZE - 1] = line.try_into().ok()?;
    let mut key = 0;
    for (&byte, &place) in line.iter().zip(CARD_LINE) {
        if place == b'0' {
            if !byte.is_ascii_digit() {
                return None;
            }
            key = key * 10 + u64::from(byte - b'0');
        } else if byte != place {
            return None;
        }
    }
    Some(key)
}

/// Reads a cancelled card list to the front of `keys` and gives the count of keys. 20 a malformed line; 21 fewer places than keys.
pub fn list_read(text: &[u8], keys: &mut [u64]) -> Result<usize, BadText> {
    let read = |line: &[u8]| read_card_line(line.strip_suffix(b"\n")?);
    let lines = text.chunks(LINE_SIZE);
    let count = lines.len();
    // The whole text is judged before the first key is written.
    if let Some(bad) = lines.clone().position(|line| read(line).is_none()) {
        return Err(BadText { number: 20, line: bad + 1 });
    }
    if keys.len() < count {
        return Err(BadText { number: 21, line: 0 });
    }
    for (place, key) in keys.iter_mut().zip(lines.filter_map(read)) {
        *place = key;
    }
    Ok(count)
}

/// Writes a cancelled card list to the front of `out` and gives the count of keys. 22 a key of 10^16 or more; 21 `out` under 32 bytes a key.
pub fn list_write(keys: &[u64], out: &mut [u8]) -> Result<usize, Refusal> {
    if keys.iter().any(|&key| key >= 10_000_000_000_000_000) {
        return Err(22);
    }
    if out.len() / LINE_SIZE < keys.len() {
        return Err(21);
    }
    for (line, &key) in out.chunks_exact_mut(LINE_SIZE).zip(keys) {
        let (text, end) = line.split_at_mut(LINE_SIZE - 1);
        text.copy_from_slice(CARD_LINE);
        end[0] = b'\n';
        let mut rest = key;
        for digit in text.iter_mut().rev().filter(|byte| **byte == b'0') {
            *digit += (rest % 10) as u8;
            rest /= 10;
        }
    }
    Ok(keys.len())
}

fn ascends(keys: &[u64]) -> bool {
    keys.windows(2).all(|pair| pair[0] < pair[1])
}

/// Hands the keys of two strictly ascending lists on in order, a key in both once, and gives their count.
fn merge_into(mut a: &[u64], mut b: &[u64], mut put: impl FnMut(usize, u64)) -> usize {
    let mut count = 0;
    while let (Some(&x), Some(&y)) = (a.first(), b.first()) {
        put(count, x.min(y));
        count += 1;
        if x <= y {
            a = &a[1..];
        }
        if y <= x {
            b = &b[1..];
        }
    }
    for &key in a.iter().chain(b) {
        put(count, key);
        count += 1;
    }
    count
}

/// Merges two strictly ascending lists to the front of `out` and gives the count of keys. 25 one does not ascend; 26 fewer places than merged keys.
pub fn list_merge(official: &[u64], own: &[u64], out: &mut [u64]) -> Result<usize, Refusal> {
    if !ascends(official) || !ascends(own) {
        return Err(25);
    }
    if out.len() < merge_into(official, own, |_, _| {}) {
        return Err(26);
    }
    Ok(merge_into(official, own, |index, key| out[index] = key))
}

/// A CIN: 1 to 10 digits read as a number.
fn read_cin(digits: &[u8]) -> Option<u64> {
    if !(1..=10).contains(&digits.len()) {
        return None;
    }
    read_number(digits)
}

/// A line of the visual list, its 0A included.
fn read_cin_line(line: &[u8]) -> Option<u64> {
    read_cin(line.strip_prefix(b"(cin (")?.strip_suffix(b"))\n")?)
}

/// Whether the typed number stands in the visual list. 23 the entry is empty, over 10 digits or holds a non-digit; 24 a malformed line anywhere.
pub fn cin_look_up(typed: &[u8], text: &[u8]) -> Result<bool, BadText> {
    let typed = read_cin(typed).ok_or(BadText { number: 23, line: 0 })?;
    let mut listed = false;
    for (index, line) in text.split_inclusive(|&byte| byte == b'\n').enumerate() {
        let cin = read_cin_line(line).ok_or(BadText { number: 24, line: index + 1 })?;
        listed |= cin == typed;
    }
    Ok(listed)
}
