"""The gate program of document 01, with requests 1, 5 and 7 of document 02, in plain Python, and the session's calls, with request 6.

`run(data)` is what the program writes to standard output when its standard
input is `data`.  The sections stand in the order of document 01.
"""

import copy
import sys

# ---------------------------------------------------------------- FASC-N

SS, FS, ES = 11, 13, 15

# The 39 characters before the check character: a mark is its value, a digit is None.
ORDER = (
    [SS] + [None] * 4          # agency
    + [FS] + [None] * 4        # system
    + [FS] + [None] * 6        # credential
    + [FS] + [None]            # series
    + [FS] + [None]            # issue
    + [FS] + [None] * 10       # person
    + [None]                   # category
    + [None] * 4               # organisation
    + [None]                   # association
    + [ES]
)
assert len(ORDER) == 39 and ORDER.count(None) == 32


def exclusive_or(values):
    result = 0
    for value in values:
        result ^= value
    return result


def characters(data):
    """25 bytes as 40 characters of 5 bits, highest bit of each byte first."""
    bits = [(byte >> (7 - place)) & 1 for byte in data for place in range(8)]
    return [bits[start:start + 5] for start in range(0, 200, 5)]


def unpack(data):
    """The refusal number (0: none) and the 32 digits (None where refused)."""
    if len(data) != 25:
        return 15, None
    chars = characters(data)
    if any(sum(bits) % 2 == 0 for bits in chars):
        return 16, None
    values = [bits[0] + 2 * bits[1] + 4 * bits[2] + 8 * bits[3] for bits in chars]
    for value, mark in zip(values, ORDER):
        if mark is None and value > 9 or mark is not None and value != mark:
            return 17, None
    if values[39] != exclusive_or(values[:39]):
        return 18, None
    return 0, [value for value, mark in zip(values, ORDER) if mark is None]


def pack_values(values):
    """25 bytes of 40 values of four bits; the fifth bit makes the ones odd."""
    bits = []
    for value in values:
        four = [(value >> place) & 1 for place in range(4)]
        bits += four + [1 - sum(four) % 2]
    return bytes(
        sum(bit << (7 - place) for place, bit in enumerate(bits[start:start + 8]))
        for start in range(0, 200, 8)
    )


def pack(digits):
    """The refusal number (0: none) and the 25 bytes (None where refused)."""
    if any(digit > 9 for digit in digits):
        return 19, None
    rest = list(digits)
    values = [rest.pop(0) if mark is None else mark for mark in ORDER]
    return 0, pack_values(values + [exclusive_or(values)])


def key_of(digits):
    """The first 16 digits as one whole number."""
    return int("".join(str(digit) for digit in digits[:16]))


# --------------------------------------------------------------- Objects

class Malformed(Exception):
    pass


def read_tlv(data, at):
    """The TLV at `at`: its tag (bytes), its value and the place after it."""

    def byte(place):
        if place >= len(data):
            raise Malformed
        return data[place]

    start = at
    first = byte(at)
    at += 1
    if first & 0x1F == 0x1F:
        second = byte(at)
        at += 1
        if second & 0x80:
            if byte(at) & 0x80:
                raise Malformed
            at += 1
    tag = data[start:at]

    length = byte(at)
    at += 1
    if length == 0x81:
        length = byte(at)
        at += 1
    elif length == 0x82:
        length = byte(at) * 256 + byte(at + 1)
        at += 2
    elif length > 0x7F:
        raise Malformed
    if at + length > len(data):
        raise Malformed
    return tag, data[at:at + length], at + length


def read_tlvs(data):
    """Whole TLVs and nothing else: a list of (tag, value)."""
    found, at = [], 0
    while at < len(data):
        tag, value, at = read_tlv(data, at)
        found.append((tag, value))
    return found


def check_nested(tlvs, depth):
    """These TLVs stand at `depth`; every nested value holds whole TLVs, at most to depth 4."""
    if tlvs and depth > 4:
        raise Malformed
    for tag, value in tlvs:
        if tag[0] & 0x20:
            check_nested(read_tlvs(value), depth + 1)


def read_template(data):
    """Cause 19, or 0 for a good SELECT answer."""
    try:
        tag, value, end = read_tlv(data, 0)
        if tag != b"\x61" or end != len(data):
            raise Malformed
        check_nested([(tag, value)], 1)
        names = [inner for inner_tag, inner in read_tlvs(value) if inner_tag == b"\x4F"]
        if len(names) != 1 or not 1 <= len(names[0]) <= 16:
            raise Malformed
    except Malformed:
        return 19
    return 0


# Each row: tag, least length, greatest length, may be absent.
SIGNED = [(0xEE, 2, 2, True), (0x30, 25, 25, False), (0x31, 4, 4, True), (0x32, 4, 4, True), (0x33, 9, 9, True),
          (0x34, 16, 16, False), (0x35, 8, 8, False), (0x3E, 1, 2816, False), (0xFE, 0, 0, False)]
UNSIGNED = [(0xEE, 2, 2, True), (0x30, 25, 25, False), (0x31, 4, 4, True), (0x32, 4, 4, True), (0x33, 9, 9, True),
            (0x34, 16, 16, True), (0x35, 8, 8, False), (0xFE, 0, 0, False)]
FINGERS = [(0xBC, 1, 862, False), (0xFE, 0, 0, True)]
PICTURE = [(0xBC, 1, 16000, False), (0xFE, 0, 0, True)]


def read_object(rows, data):
    """Cause 20 and None, or 0 and the fields by tag."""
    try:
        tag, value, end = read_tlv(data, 0)
        if tag != b"\x53" or end != len(data):
            raise Malformed
        rest = read_tlvs(value)
        fields = {}
        for row_tag, least, greatest, may_be_absent in rows:
            if rest and rest[0][0] == bytes([row_tag]):
                field = rest.pop(0)[1]
                if not least <= len(field) <= greatest:
                    raise Malformed
                fields[row_tag] = field
            elif not may_be_absent:
                raise Malformed
        if rest:
            raise Malformed
    except Malformed:
        return 20, None
    return 0, fields


def real_date(number):
    """Is this number of at most eight digits a real Gregorian date YYYYMMDD?"""
    year, month, day = number // 10000, number // 100 % 100, number % 100
    if not (1 <= year <= 9999 and 1 <= month <= 12):
        return False
    leap = year % 4 == 0 and (year % 100 != 0 or year % 400 == 0)
    days = [31, 29 if leap else 28, 31, 30, 31, 30, 31, 31, 30, 31, 30, 31]
    return 1 <= day <= days[month - 1]


def read_date(data):
    """Cause 22 and None, or 0 and the number of the date."""
    if len(data) != 8 or any(not 0x30 <= byte <= 0x39 for byte in data):
        return 22, None
    number = int(data.decode("ascii"))
    return (0, number) if real_date(number) else (22, None)


# -------------------------------------------------------------- Commands

def select(aid):
    return bytes([0x00, 0xA4, 0x04, 0x00, len(aid)]) + aid + b"\x00"


def get_data(tag):
    return bytes([0x00, 0xCB, 0x3F, 0xFF, 0x05, 0x5C, 0x03]) + tag + b"\x00"


def get_response(second_status_byte):
    return bytes([0x00, 0xC0, 0x00, 0x00, second_status_byte])


# --------------------------------------------------------------- Session

NEEDED = {1: (1, 2, 3, 4), 2: (3, 4, 5), 3: (1, 2, 3, 4, 6), 4: (1, 2, 3, 4, 5, 6), 5: (1, 2, 3, 4, 7), 6: (1, 2, 3, 4, 5, 7)}
CHECK_OF_KIND = {1: 1, 2: 2, 3: 5, 4: 6, 5: 7}
CHECKS = range(1, 8)
UNNEEDED, AWAITED, PASSED, FAILED, OTHER_CARD = 0, 1, 2, 3, 4
OPEN, GRANTED, REJECTED = 0, 1, 2
FINGER_MODES, PICTURE_MODES = (3, 4), (5, 6)       # those with a step 2
STEP_LIMIT, PICTURE_LIMIT = 4096, 16384
STAMP_SIZE = 46


def step_limit(mode, step):
    """How many bytes of data the step may have in all."""
    return PICTURE_LIMIT if step == 2 and mode in PICTURE_MODES else STEP_LIMIT


def opening_refusal(mode, date, aid):
    if mode not in NEEDED:
        return 1
    if not real_date(date):
        return 2
    if not 5 <= len(aid) <= 16:
        return 3
    return 0


class Session:
    """A session from an accepted opening; each call gives its refusal number, 0 for none, command and preview beside it what they write."""

    def __init__(self, mode, date, aid):
        self.mode = mode
        self.date = date
        self.aid = aid
        self.step = 0
        self.reading_cause = 0              # 0 or 16 to 22
        self.status = b"\x00\x00"
        self.outcomes = {check: AWAITED if check in NEEDED[mode] else UNNEEDED
                         for check in CHECKS}
        self.fascn = None                   # 25 bytes, from step 1's good end on
        self.expiry = None
        self.joined = b""                   # the step's data
        self.next_command = select(aid)
        self.outstanding = None             # the command sent and not yet answered
        self.after_6c = False               # was the answer taken last a 6C?
        self.fields = {}                    # those that can be asked for, by tag, from their step's good end on

    def command(self, room=22):
        """Refusal number and the bytes of the command; 22 bytes, the longest command's, are what the gate program lends."""
        if self.step == 3 or self.reading_cause or self.outstanding is not None:
            return 5, b""
        if room < len(self.next_command):
            return 6, b""
        self.outstanding = self.next_command
        return 0, self.outstanding

    def answer(self, answer, cards):
        if self.outstanding is None:
            return 5
        if not 2 <= len(answer) <= 258:
            return 8
        command, self.outstanding = self.outstanding, None
        data, status = answer[:-2], answer[-2:]
        after_6c, self.after_6c = self.after_6c, status[0] == 0x6C
        if status[0] == 0x6C and not data and not after_6c:
            self.next_command = command[:-1] + status[1:]
        elif status != b"\x90\x00" and status[0] != 0x61:
            self.reading_cause, self.status = 16, status
        elif status[0] == 0x61 and not data and command[1] == 0xC0:
            self.reading_cause = 17
        elif len(self.joined) + len(data) > step_limit(self.mode, self.step):
            self.reading_cause = 18
        else:
            self.joined += data
            if status[0] == 0x61:
                self.next_command = get_response(status[1])
            else:
                self.reading_cause = self.judge(cards)
                if self.reading_cause == 0:
                    self.begin_next_step()
        return 0

    def judge(self, cards):
        """The cause that the step's joined data gives, 0 for its good end."""
        if self.step == 0:
            return read_template(self.joined)
        if self.step == 2:
            cause, fields = read_object(PICTURE if self.mode in PICTURE_MODES else FINGERS, self.joined)
            if cause == 0:
                self.fields[0xBC] = fields[0xBC]
            return cause
        cause, fields = read_object(UNSIGNED if self.mode == 2 else SIGNED, self.joined)
        if cause:
            return cause
        refusal, digits = unpack(fields[0x30])
        if refusal:
            return 21
        cause, expiry = read_date(fields[0x35])
        if cause:
            return cause
        self.fascn, self.expiry = fields[0x30], expiry
        self.fields = {tag: value for tag, value in fields.items() if tag != 0xFE}
        self.outcomes[3] = PASSED if expiry >= self.date else FAILED
        self.outcomes[4] = FAILED if key_of(digits) in cards else PASSED
        return 0

    def begin_next_step(self):
        self.joined = b""
        if self.step == 0:
            self.step = 1
            self.next_command = get_data(bytes.fromhex("5FC104" if self.mode == 2 else "5FC102"))
        elif self.step == 1 and self.mode in FINGER_MODES + PICTURE_MODES:
            self.step = 2
            self.next_command = get_data(bytes.fromhex("DFC108" if self.mode in PICTURE_MODES else "DFC103"))
        else:
            self.step = 3

    def verdict(self, kind, yes, fascn):
        if self.step != 3:
            return 9
        if kind not in CHECK_OF_KIND:
            return 10
        if yes not in (0, 1):
            return 11
        if unpack(fascn)[0]:
            return 12
        check = CHECK_OF_KIND[kind]
        if check not in NEEDED[self.mode]:
            return 13
        if self.outcomes[check] != AWAITED:
            return 14
        if yes == 0:
            self.outcomes[check] = FAILED
        else:
            self.outcomes[check] = PASSED if fascn == self.fascn else OTHER_CARD
        return 0

    def preview(self, kind, yes, fascn, room):
        """Refusal number and the stamp that the verdict would lead to, None where refused; the session stays."""
        copied = copy.deepcopy(self)
        number = copied.verdict(kind, yes, fascn) or (6 if room < STAMP_SIZE else 0)
        return number, None if number else copied.stamp()

    # The finding's two values that are worked out from the others.

    def cause(self):
        if self.reading_cause:
            return self.reading_cause
        for check in CHECKS:
            if self.outcomes[check] in (FAILED, OTHER_CARD):
                return check
        return 0

    def standing(self):
        if self.cause():
            return REJECTED
        if self.step == 3 and all(self.outcomes[check] == PASSED for check in NEEDED[self.mode]):
            return GRANTED
        return OPEN

    def stamp(self):
        written = (
            bytes([self.mode, self.standing(), self.cause()])
            + self.status
            + bytes([self.step])
            + bytes(self.outcomes[check] for check in CHECKS)
            + self.date.to_bytes(4, "big")
            + (self.fascn or bytes(25))
            + (self.expiry or 0).to_bytes(4, "big")
        )
        assert len(written) == STAMP_SIZE
        return written


# ------------------------------------------------- List text and the gate

DIGITS = b"0123456789"
HEX_DIGITS = b"0123456789ABCDEF"


def all_of(text, allowed):
    return all(byte in allowed for byte in text)


def card_line(key):
    """The list line of a key below 10^16, with its 0A."""
    text = "%016d" % key
    return ("(card (%s %s %s) (%s %s))\n"
            % (text[:4], text[4:8], text[8:14], text[14], text[15])).encode("ascii")


def read_card_line(line):
    """The key of a card line (without its 0A), None where malformed."""
    if len(line) != 31:
        return None
    text = line[7:11] + line[12:16] + line[17:23] + line[26:27] + line[28:29]
    if not all_of(text, DIGITS):
        return None
    key = int(text)
    return key if card_line(key) == line + b"\n" else None


def read_hex(text):
    """The bytes of one or more pairs of upper-case digits, else None."""
    if len(text) == 0 or len(text) % 2 or not all_of(text, HEX_DIGITS):
        return None
    return bytes.fromhex(text.decode("ascii"))


def read_number(text, digits):
    """The number of exactly so many decimal digits, else None."""
    if len(text) != digits or not all_of(text, DIGITS):
        return None
    return int(text)


def read_call(line):
    """The name and the arguments of an open, answer or verdict line, else None."""
    if line[:1] != b"(" or line[-1:] != b")":
        return None
    words = line[1:-1].split(b" ")
    name, words = words[0], words[1:]
    if name == b"open" and len(words) == 3:
        arguments = [read_number(words[0], 1), read_number(words[1], 8), read_hex(words[2])]
    elif name == b"answer" and len(words) == 1:
        arguments = [read_hex(words[0])]
    elif name == b"verdict" and len(words) == 3:
        arguments = [read_number(words[0], 1), read_number(words[1], 1), read_hex(words[2])]
    else:
        return None
    return None if None in arguments else (name, arguments)


LINE_LIMIT = 1024
CARD_LIMIT = 1024


class Gate:
    def __init__(self):
        self.session = None
        self.cards = []

    def line(self, line):
        """What the program prints for one line, without its 0A."""
        if len(line) > LINE_LIMIT:
            return b"(bad)"
        key = read_card_line(line)
        if key is not None:
            if len(self.cards) == CARD_LIMIT:
                return b"(bad)"
            self.cards.append(key)
            return b"(ok)"
        call = read_call(line)
        if call is None:
            return b"(bad)"
        refusal = self.call(*call)
        return b"(refused %d)" % refusal if refusal else b"(ok)"

    def call(self, name, arguments):
        if name == b"open":
            refusal = opening_refusal(*arguments)
            if refusal == 0:
                self.session = Session(*arguments)
            return refusal
        if self.session is None:
            return 4
        if name == b"answer":
            self.session.command()          # prints nothing, refused or not
            return self.session.answer(arguments[0], self.cards)
        return self.session.verdict(*arguments)

    def end(self):
        if self.session is None:
            return b"(refused 4)"
        return b"(stamp %s)" % self.session.stamp().hex().upper().encode("ascii")


def run(data):
    gate = Gate()
    lines = data.split(b"\n")
    if lines[-1] == b"":
        lines.pop()                         # after a final 0A there is no further line
    printed = [gate.line(line) for line in lines] + [gate.end()]
    return b"".join(text + b"\n" for text in printed)


if __name__ == "__main__":
    sys.stdout.buffer.write(run(sys.stdin.buffer.read()))
