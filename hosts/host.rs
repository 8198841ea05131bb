//! A sample host in Rust: it plays recorded card answers to the gate reader core, makes every call of include/gate.h and prints what each gives (crates/host_examples/stdout is that
//! text, and tools/run_hosts compares the two). In a real host the answers come from the antenna, and the verdicts from the cryptography and the finger matcher. Built at the root of
//! the repository, with DIR the directory of the libhost.a that tools/run_hosts writes: rustc -O --edition 2021 hosts/host.rs -L DIR -l static=host

/// The calls of gate.h as safe functions; gate.h says what each does. Nothing in here belongs to the sample.
mod gate {
    /// The sizes of gate.h, in the order of gate_size_table.
    pub const SIZES: [usize; 10] = [161, 20_480, 46, 22, 258, 5, 16, 25, 32, 32];
    pub type Stamp = [u8; SIZES[2]];
    pub type Fascn = [u8; SIZES[7]];
    pub type Digits = [u8; SIZES[8]];

    /// The functions as gate.h declares them.
    mod c {
        use super::{Digits, Fascn, Session};
        #[repr(C)]
        pub struct Place(pub usize, pub usize); // start, length
        #[repr(C)]
        pub struct Sizes(pub [usize; 10]); // ten numbers of one type lie in a C struct as they lie in an array
        extern "C" {
            pub fn gate_open(session: *mut Session, mode: u8, date: u32, aid: *const u8, aid_length: usize) -> u8;
            pub fn gate_command(session: *mut Session, out: *mut u8, out_length: usize, count: *mut usize) -> u8;
            pub fn gate_answer(session: *mut Session, object: *mut u8, object_length: usize, answer: *const u8, answer_length: usize, cancelled: *const u64, cancelled_length: usize) -> u8;
            pub fn gate_verdict(session: *mut Session, kind: u8, yes: u8, fascn: *const u8, fascn_length: usize) -> u8;
            pub fn gate_preview(session: *const Session, kind: u8, yes: u8, fascn: *const u8, fascn_length: usize, out: *mut u8, out_length: usize) -> u8;
            pub fn gate_field(session: *const Session, object: *const u8, object_length: usize, tag: u8) -> Place;
            pub fn gate_stamp(session: *const Session, out: *mut u8, out_length: usize) -> u8;
            pub fn gate_unpack(fascn: *const u8, fascn_length: usize, digits: *mut Digits) -> u8;
            pub fn gate_pack(digits: *const Digits, fascn: *mut Fascn) -> u8;
            pub fn gate_key(digits: *const Digits) -> u64;
            pub fn gate_list_read(text: *const u8, text_length: usize, keys: *mut u64, keys_length: usize, count: *mut usize, line: *mut usize) -> u8;
            pub fn gate_list_write(keys: *const u64, keys_length: usize, out: *mut u8, out_length: usize, count: *mut usize) -> u8;
            pub fn gate_list_merge(official: *const u64, official_length: usize, own: *const u64, own_length: usize, out: *mut u64, out_length: usize, count: *mut usize) -> u8;
            pub fn gate_cin_look_up(typed: *const u8, typed_length: usize, text: *const u8, text_length: usize, listed: *mut usize, line: *mut usize) -> u8;
            pub fn gate_sizes() -> Sizes;
        }
    }

    /// The number of a call that was refused and has changed nothing, with the malformed line, counted from 1, that 20 and 24 name.
    #[must_use] #[derive(Debug)]
    pub struct Refused(pub u8, pub Option<usize>);
    fn accepted(number: u8) -> Result<(), Refused> {
        if number == 0 { Ok(()) } else { Err(Refused(number, None)) }
    }

    // What gate.h asks of its caller holds in every call below. A pointer comes from a reference, an array or a slice: it is not null (not of an empty slice either), it is aligned, and
    // it has the elements that the length beside it says, which is the slice's own. What a call may write comes from a `&mut` or a local and overlaps nothing else. No call
    // keeps a pointer. Every other value of an argument is met with its number. So the comment at each call only names what it may write.

    /// Any 161 bytes will do. Those that are out of range, all zeros among them, are a dead session, and every call on it but `open` is refused by 4.
    #[repr(C)]
    #[derive(Clone)]
    pub struct Session(pub [u8; SIZES[0]]);

    impl Session {
        pub fn open(&mut self, mode: u8, date: u32, aid: &[u8]) -> Result<(), Refused> {
            // SAFETY: writes the session, which is lent to us alone and is 161 bytes (repr(C) over one array).
            accepted(unsafe { c::gate_open(self, mode, date, aid.as_ptr(), aid.len()) })
        }
        /// Gives the front of `out`, which holds the command.
        pub fn command<'a>(&mut self, out: &'a mut [u8]) -> Result<&'a [u8], Refused> {
            let mut count = 0;
            // SAFETY: writes the session and `out`, each lent to us alone, and a local.
            accepted(unsafe { c::gate_command(self, out.as_mut_ptr(), out.len(), &mut count) }).map(move |()| &out[..count])
        }
        /// `object` has to be the session's own buffer from the opening on. With another one the stamp would be wrong, but no byte outside it would be touched.
        pub fn answer(&mut self, object: &mut [u8], answer: &[u8], cancelled: &[u64]) -> Result<(), Refused> {
            // SAFETY: writes the session and `object`, each lent to us alone.
            accepted(unsafe { c::gate_answer(self, object.as_mut_ptr(), object.len(), answer.as_ptr(), answer.len(), cancelled.as_ptr(), cancelled.len()) })
        }
        pub fn verdict(&mut self, kind: u8, yes: bool, fascn: &[u8]) -> Result<(), Refused> {
            // SAFETY: writes the session, lent to us alone.
            accepted(unsafe { c::gate_verdict(self, kind, yes.into(), fascn.as_ptr(), fascn.len()) })
        }
        pub fn preview(&self, kind: u8, yes: bool, fascn: &[u8]) -> Result<Stamp, Refused> {
            let mut out = [0; SIZES[2]];
            // SAFETY: writes a local.
            accepted(unsafe { c::gate_preview(self, kind, yes.into(), fascn.as_ptr(), fascn.len(), out.as_mut_ptr(), out.len()) }).map(|()| out)
        }
        /// Gives the value as a part of the object buffer, the empty part where there is none.
        pub fn field<'a>(&self, object: &'a [u8], tag: u8) -> &'a [u8] {
            // SAFETY: writes nothing. The two numbers that it gives are tested by the slicing.
            let c::Place(start, length) = unsafe { c::gate_field(self, object.as_ptr(), object.len(), tag) };
            if length == 0 { &object[..0] } else { &object[start..][..length] }
        }
        pub fn stamp(&self) -> Result<Stamp, Refused> {
            let mut out = [0; SIZES[2]];
            // SAFETY: writes a local.
            accepted(unsafe { c::gate_stamp(self, out.as_mut_ptr(), out.len()) }).map(|()| out)
        }
    }

    pub fn unpack(fascn: &[u8]) -> Result<Digits, Refused> {
        let mut digits = [0; SIZES[8]];
        // SAFETY: writes a local.
        accepted(unsafe { c::gate_unpack(fascn.as_ptr(), fascn.len(), &mut digits) }).map(|()| digits)
    }
    pub fn pack(digits: &Digits) -> Result<Fascn, Refused> {
        let mut fascn = [0; SIZES[7]];
        // SAFETY: writes a local.
        accepted(unsafe { c::gate_pack(digits, &mut fascn) }).map(|()| fascn)
    }
    pub fn key(digits: &Digits) -> u64 {
        // SAFETY: writes nothing.
        unsafe { c::gate_key(digits) }
    }
    /// This call and the next two give the front of what they were lent: the keys or lines that they wrote.
    pub fn list_read<'a>(text: &[u8], keys: &'a mut [u64]) -> Result<&'a [u64], Refused> {
        let (mut count, mut line) = (0, 0);
        // SAFETY: writes `keys`, lent to us alone, and two locals.
        match unsafe { c::gate_list_read(text.as_ptr(), text.len(), keys.as_mut_ptr(), keys.len(), &mut count, &mut line) } {
            0 => Ok(&keys[..count]),
            number => Err(Refused(number, (number == 20).then_some(line))),
        }
    }
    pub fn list_write<'a>(keys: &[u64], out: &'a mut [u8]) -> Result<&'a [u8], Refused> {
        let mut count = 0;
        // SAFETY: writes `out`, lent to us alone, and a local.
        accepted(unsafe { c::gate_list_write(keys.as_ptr(), keys.len(), out.as_mut_ptr(), out.len(), &mut count) }).map(move |()| &out[..count * SIZES[9]])
    }
    pub fn list_merge<'a>(official: &[u64], own: &[u64], out: &'a mut [u64]) -> Result<&'a [u64], Refused> {
        let mut count = 0;
        // SAFETY: writes `out`, lent to us alone, and a local.
        accepted(unsafe { c::gate_list_merge(official.as_ptr(), official.len(), own.as_ptr(), own.len(), out.as_mut_ptr(), out.len(), &mut count) }).map(move |()| &out[..count])
    }
    pub fn cin_look_up(typed: &[u8], text: &[u8]) -> Result<bool, Refused> {
        let (mut listed, mut line) = (0, 0);
        // SAFETY: writes two locals.
        match unsafe { c::gate_cin_look_up(typed.as_ptr(), typed.len(), text.as_ptr(), text.len(), &mut listed, &mut line) } {
            0 => Ok(listed == 1),
            number => Err(Refused(number, (number == 24).then_some(line))),
        }
    }
    /// The sizes that the archive was built with.
    pub fn sizes() -> [usize; 10] {
        // SAFETY: writes nothing.
        unsafe { c::gate_sizes() }.0
    }
}

use gate::{Refused, Session};

const FASCN: &[u8] = b"\xD4\x32\x48\x58\x21\x0C\x2D\x31\x71\xB5\x25\xA1\x68\x5A\x08\xC9\x2A\xDE\x0A\x61\x84\x32\x48\x43\xE2";
const AID: &[u8] = b"\xA0\x00\x00\x03\x67\x20\x00\x00\x01\x01\x03";
const TEMPLATE: &[u8] = b"\x61\x08\x4F\x06\x20\x00\x00\x01\x01\x03";
const UNSIGNED_OBJECT: &[u8] = b"\x53\x27\x30\x19\xD4\x32\x48\x58\x21\x0C\x2D\x31\x71\xB5\x25\xA1\x68\x5A\x08\xC9\x2A\xDE\x0A\x61\x84\x32\x48\x43\xE2\x35\x0820110410\xFE\x00";
const SIGNED_OBJECT: &[u8] = b"\x53\x3E\x30\x19\xD4\x32\x48\x58\x21\x0C\x2D\x31\x71\xB5\x25\xA1\x68\x5A\x08\xC9\x2A\xDE\x0A\x61\x84\x32\x48\x43\xE2\
    \x34\x10\x00\x11\x22\x33\x44\x55\x66\x77\x88\x99\xAA\xBB\xCC\xDD\xEE\xFF\x35\x0820301231\x3E\x03\xA1\xB2\xC3\xFE\x00";
const FINGERS: &[u8] = b"\x53\x0C\xBC\x08\x01\x02\x03\x04\x05\x06\x07\x08\xFE\x00";
const LIST_TEXT: &[u8; 96] = b"(card (0000 0000 000007) (0 0))\n(card (1341 0001 987654) (1 1))\n(card (9999 9999 999999) (9 9))\n";
const VISUAL_TEXT: &[u8] = b"(cin (12345678))\n";

/// Prints a call: its number, and beside 0 what `show` makes of what the call gave.
fn call<T>(word: &str, result: Result<T, Refused>, show: impl FnOnce(T) -> String) {
    match result {
        Ok(given) => println!("{word} 0{}", show(given)),
        Err(Refused(number, None)) => println!("{word} {number}"),
        Err(Refused(number, Some(line))) => println!("{word} {number} {line}"),
    }
}

fn none(_: ()) -> String { String::new() }
/// The bytes in hexadecimal after a space, where there are any.
fn hex(bytes: impl AsRef<[u8]>) -> String {
    let digits: String = bytes.as_ref().iter().map(|byte| format!("{byte:02X}")).collect();
    if digits.is_empty() { digits } else { format!(" {digits}") }
}
fn key_lines(keys: &[u64]) -> String {
    keys.iter().fold(format!(" {}", keys.len()), |text, key| format!("{text}\nkey {key}"))
}
fn answer(session: &mut Session, object: &mut [u8], data: &[u8], status: [u8; 2], cancelled: &[u64]) {
    call("answer", session.answer(object, &[data, &status].concat(), cancelled), none);
}
/// The commands and answers of a step whose card gives at most `most` bytes at a time: 61 with the count still to come, 90 00 with the last.
fn exchange(session: &mut Session, object: &mut [u8], bytes: &[u8], most: usize, cancelled: &[u64]) {
    let mut left = bytes.len();
    for data in bytes.chunks(most) {
        left -= data.len();
        call("command", session.command(&mut [0; 22]), hex);
        answer(session, object, data, if left > 0 { [0x61, left as u8] } else { [0x90, 0x00] }, cancelled);
    }
}
fn fields(session: &Session, object: &[u8], tags: &[u8]) {
    for &tag in tags {
        let value = session.field(object, tag);
        let start = value.as_ptr() as usize - object.as_ptr() as usize;
        println!("field {tag:02X} {start} {}{}", value.len(), hex(value));
    }
}

fn example(object: &mut [u8]) {
    println!("document 01's example");
    let mut session = Session([0; 161]);
    call("stamp", session.stamp(), hex);
    call("open", session.open(9, 20110410, AID), none);
    call("open", session.open(2, 20110410, AID), none);
    call("command", session.command(&mut [0; 22]), hex); // so that the command call of the exchange is refused: one is outstanding
    exchange(&mut session, object, TEMPLATE, 64, &[]);
    exchange(&mut session, object, UNSIGNED_OBJECT, 64, &[]);
    fields(&session, object, &[0x30, 0x34, 0x35]);
    call("preview", session.preview(3, true, FASCN), hex);
    call("verdict", session.verdict(3, true, FASCN), none);
    call("verdict", session.verdict(3, true, FASCN), none);
    call("stamp", session.stamp(), hex);
}

fn small_answers(object: &mut [u8]) {
    println!("mode 4 in small answers");
    let mut session = Session([0; 161]);
    call("open", session.open(4, 20260101, AID), none);
    for bytes in [TEMPLATE, SIGNED_OBJECT, FINGERS] {
        exchange(&mut session, object, bytes, 7, &[1, 2]);
    }
    fields(&session, object, &[0x30, 0x34, 0x35, 0x3E, 0xBC]);
    for kind in 1..=4 {
        call("verdict", session.verdict(kind, true, FASCN), none);
        call("stamp", session.stamp(), hex);
    }
}

fn saved(object: &mut [u8]) {
    println!("saved and taken up again");
    let mut session = Session([0; 161]);
    call("open", session.open(1, 20260101, AID), none);
    println!("session{}", hex(session.0));
    exchange(&mut session, object, TEMPLATE, 64, &[]);
    call("command", session.command(&mut [0; 22]), hex);
    answer(&mut session, object, &SIGNED_OBJECT[..40], [0x61, 0x18], &[]);
    call("command", session.command(&mut [0; 22]), hex);
    println!("session{}", hex(session.0));
    let mut copy = session.clone();
    session = Session([0; 161]);
    call("stamp", session.stamp(), hex);
    answer(&mut copy, object, &SIGNED_OBJECT[40..], [0x90, 0x00], &[]);
    println!("session{}", hex(copy.0));
    call("verdict", copy.verdict(1, false, FASCN), none);
    call("stamp", copy.stamp(), hex);
    copy.0[0] = 2; // the version of the 161 bytes: only 1 is known
    call("stamp", copy.stamp(), hex);
}

fn lists(object: &mut [u8]) {
    println!("a cancelled list from text");
    let (mut keys, mut damaged) = ([0; 3], *LIST_TEXT);
    damaged[40] = b'x';
    call("read", gate::list_read(LIST_TEXT, &mut keys), key_lines);
    call("read", gate::list_read(LIST_TEXT, &mut [0; 2]), key_lines);
    call("read", gate::list_read(&damaged, &mut [0; 3]), key_lines);
    for room in [96, 95] {
        call("write", gate::list_write(&keys[..3], &mut [0; 96][..room]), |lines| format!(" {}{}", lines.len() / 32, hex(lines)));
    }
    let mut digits = [0; 32];
    call("unpack", gate::unpack(FASCN), |given| { digits = given; hex(given) });
    println!("key {}", gate::key(&digits));
    call("pack", gate::pack(&digits), hex);
    call("merge", gate::list_merge(&[7, 9], &[8, 9], &mut [0; 4]), key_lines);
    call("merge", gate::list_merge(&[7, 9], &[8, 9], &mut [0; 2]), key_lines);
    call("merge", gate::list_merge(&[9, 7], &[8], &mut [0; 4]), key_lines);
    for (typed, text) in [("12345678", VISUAL_TEXT), ("7", VISUAL_TEXT), ("12x", VISUAL_TEXT), ("7", &VISUAL_TEXT[..16])] {
        call("look up", gate::cin_look_up(typed.as_bytes(), text), |listed| format!(" {}", u8::from(listed)));
    }
    let mut session = Session([0; 161]);
    call("open", session.open(2, 20110410, AID), none);
    exchange(&mut session, object, TEMPLATE, 64, &[]);
    exchange(&mut session, object, UNSIGNED_OBJECT, 64, &keys[..3]);
    call("stamp", session.stamp(), hex);
}

fn main() {
    println!("sizes{}", gate::SIZES.map(|size| format!(" {size}")).concat());
    if gate::sizes() != gate::SIZES {
        eprintln!("host: host.rs and libhost.a have different sizes");
        std::process::exit(1);
    }
    let mut object = vec![0; gate::SIZES[1]];
    example(&mut object);
    small_answers(&mut object);
    saved(&mut object);
    lists(&mut object);
}
