"""Lists of direct calls on a session: the lines `document 02 (request 6), ..: calls HEX` and `document 02 (request 7), ..` of crates/vectors.

Each example is a list of calls, and beside each call stands what it gives, stated from documents 01 and 02: the number that refuses
it (0 for none) and the bytes then in the buffer that it is lent. `python3 tools/example_calls.py` spells the calls as a line of
`vectors` does (crates/vectors/specs/CallsText.antt), runs them through tools/reference.py, which has to give the same, call by call,
and then writes the lines into crates/vectors/stdin and crates/vectors/stdout in place of all lines `..: calls ..` that are there.
"""

import pathlib

import reference
from reference import SS, exclusive_or, pack_values

VECTORS = pathlib.Path(__file__).resolve().parent.parent / "crates" / "vectors"
MOST_ROOM = 64
MOST_LINE = 65535                                   # the characters of a line that fits a block of `vectors`


# ---- a line's bytes, run by the reference -----------------------------------------------------------------------------
def opened(mode, date, aid):
    number = reference.opening_refusal(mode, date, aid)
    return number, None if number else reference.Session(mode, date, aid)


def over(written, room):
    """The bytes of a buffer of so many FF with these written over the first."""
    return written + b'\xFF' * (room - len(written))


def run(line):
    """The texts that the calls spelled by these bytes give. No session is open at first: None is the dead session."""
    session, texts = None, []
    while line:
        head, line = (line + bytes(2))[:3], line[3:]
        count = 256 * head[1] + head[2]
        args, line = line[:count], line[count:]
        arg = lambda place: args[place] if place < len(args) else 0
        room = min(arg(2 if head[0] == 5 else 0), MOST_ROOM)
        if head[0] == 1:
            number, session = opened(arg(0), int.from_bytes((args + bytes(5))[1:5], 'big'), args[5:])
            texts.append('(open %d)' % number)
        elif head[0] == 2:
            number, written = session.command(room) if session else (4, b'')
            texts.append('(command %d %d %s)' % (number, len(written), hexof(over(written, room))))
        elif head[0] == 3:
            texts.append('(answer %d)' % (session.answer(args, ()) if session else 4))
        elif head[0] == 4:
            texts.append('(verdict %d)' % (session.verdict(arg(0), arg(1), args[2:]) if session else 4))
        elif head[0] == 5:
            number, written = session.preview(arg(0), arg(1), args[3:], room) if session else (4, None)
            texts.append('(preview %d %s)' % (number, hexof(over(written or b'', room))))
        elif head[0] == 6:
            number = 4 if not session else 6 if room < reference.STAMP_SIZE else 0
            texts.append('(stamp %d %s)' % (number, hexof(over(b'' if number else session.stamp(), room))))
        elif head[0] == 7:
            texts.append('(field %s)' % hexof(session.fields.get(arg(0), b'') if session else b''))
        else:
            texts.append('(none)')
    return texts


# ---- calls, each with the text expected of it -----------------------------------------------------------------------
NO, YES = 0, 1
OPEN, GRANTED, REJECTED = 'open', 'granted', 'rejected'
EXAMPLES = []          # (label, [calls])


def example(label, *calls, request=6):
    flat = []
    for c in calls:
        flat += c if isinstance(c, list) else [c]
    EXAMPLES.append(('document 02 (request %d), %s' % (request, label), flat))


def hexof(x):
    return (x if isinstance(x, str) else x.hex()).replace(' ', '').upper()


def raw(hexbytes, text):
    """A call spelled byte by byte, with the text expected of it."""
    return bytes.fromhex(hexbytes), text


def made(name, args, text):
    return bytes([name]) + len(args).to_bytes(2, 'big') + args, text


def open_(mode, date, aid, n=0):
    return made(1, bytes([mode]) + date.to_bytes(4, 'big') + bytes.fromhex(aid), '(open %d)' % n)


def command(room, expected):
    """expected: the command's hexadecimal, or the number that refuses it (then all FF)."""
    size = min(room, MOST_ROOM)
    if isinstance(expected, int):
        text = '(command %d 0 %s)' % (expected, 'FF' * size)
    else:
        e = hexof(expected)
        assert len(e) // 2 <= size
        text = '(command 0 %d %s)' % (len(e) // 2, e + 'FF' * (size - len(e) // 2))
    return made(2, bytes([room]), text)


def answer(hexbytes, n=0):
    return made(3, bytes.fromhex(hexbytes), '(answer %d)' % n)


def verdict(kind, yes, f, n=0):
    return made(4, bytes([kind, yes]) + f, '(verdict %d)' % n)


def buffer_text(name, room, expected):
    """expected: the number that refuses it (then all FF), or the 46 bytes that are written."""
    size = min(room, MOST_ROOM)
    if isinstance(expected, int):
        return '(%s %d %s)' % (name, expected, 'FF' * size)
    assert size >= reference.STAMP_SIZE and len(expected) == 2 * reference.STAMP_SIZE
    return '(%s 0 %s)' % (name, expected + 'FF' * (size - reference.STAMP_SIZE))


def preview(kind, yes, room, f, expected):
    return made(5, bytes([kind, yes, room]) + f, buffer_text('preview', room, expected))


def stamp(room, expected):
    return made(6, bytes([room]), buffer_text('stamp', room, expected))


def field(tag, expected=''):
    return made(7, bytes([tag]), '(field %s)' % hexof(expected))


def refused(kind, yes, room, f, n):
    """A preview refused by another number than 6, and the verdict with the same arguments, refused by the same number."""
    assert n != 6
    return [preview(kind, yes, room, f, n), verdict(kind, yes, f, n)]


# ---- the cards ------------------------------------------------------------------------------------------------------
def packed(digits):
    return reference.pack(digits)[1]


F = bytes.fromhex('D4 32 48 58 21 0C 2D 31 71 B5 25 A1 68 5A 08 C9 2A DE 0A 61 84 32 48 43 E2')
F_DIGITS = [int(c) for c in '1341' '0001' '987654' '1' '1' '1234567890' '1' '1341' '1']
G = packed([int(c) for c in '1341' '0001' '987654' '1' '1' '1234567890' '1' '1342' '3'])    # differs in its last digits only
H = packed([int(c) for c in '2341' '0001' '987654' '1' '1' '1234567890' '1' '1341' '1'])    # differs in its first digit only
K = packed([int(c) for c in '1341' '0001' '987654' '1' '2' '1234567890' '1' '1341' '1'])    # differs in the issue digit only, the last of the key

# ill-formed FASC-Ns, each with one fault
SHORT = F[:24]
LONG = F + b'\x00'
PARITY_LAST = F[:24] + b'\xE3'                      # document 01, twelve b: 16
PARITY_FIRST = b'\x54' + F[1:]                      # the first bit of the first character turned
_rest = iter(F_DIGITS)
_v = [next(_rest) if mark is None else mark for mark in reference.ORDER]
_mark = list(_v); _mark[5] = 0                      # a digit where the first FS stands; check character made good
MARK = pack_values(_mark + [exclusive_or(_mark)])
_digit = list(_v); _digit[37] = 10                  # a value above 9 where the last digit stands; check character made good
DIGIT = pack_values(_digit + [exclusive_or(_digit)])
_end = list(_v); _end[38] = SS                      # SS where ES stands; check character made good
END_MARK = pack_values(_end + [exclusive_or(_end)])
CHECK = pack_values(_v + [9])                           # the check value is 8 (twelve a); 9 with good parity
NONE = b''

# ---- what is sent and answered --------------------------------------------------------------------------------------
TODAY = 20110410
LATER = 20301231                                    # the usual expiry
AID = 'A000000367200000010103'
SELECT = '00A404000B A000000367200000010103 00'     # 17 bytes
GET_SIGNED = '00CB3FFF055C03 5FC102 00'             # 11 bytes
GET_UNSIGNED = '00CB3FFF055C03 5FC104 00'
GET_FINGERS = '00CB3FFF055C03 DFC103 00'
GET_PICTURE = '00CB3FFF055C03 DFC108 00'
TEMPLATE = '61084F06200000010103'
GUID = '00112233445566778899AABBCCDDEEFF'
SIGNATURE = 'A1B2C3'
FINGER = 'F1F2F3F4'
PICTURE = 'FFD8FFE0C5C6C7'
OLD_EE, OLD_31, OLD_32, OLD_33 = 'E1E2', '31A1A2A3', '32B1B2B3', '33C1C2C3C4C5C6C7C8'


def one(tag, value):
    v = hexof(value)
    n = len(v) // 2
    return tag + ('%02X' % n if n < 128 else '81%02X' % n if n < 256 else '82%04X' % n) + v


def ascii_date(n):
    return ('%08d' % n).encode('ascii').hex()


def signed(f=F, expiry=LATER, ee='', older=''):
    return one('53', (one('EE', ee) if ee else '') + one('30', f) + older + one('34', GUID) + one('35', ascii_date(expiry))
               + one('3E', SIGNATURE) + 'FE00')


def unsigned(f=F, expiry=LATER, ee='', older='', with_34=False):
    return one('53', (one('EE', ee) if ee else '') + one('30', f) + older + (one('34', GUID) if with_34 else '')
               + one('35', ascii_date(expiry)) + 'FE00')


FINGERS_OBJECT = one('53', one('BC', FINGER) + 'FE00')
PICTURE_OBJECT = one('53', one('BC', PICTURE) + 'FE00')
ALL_OLDER = one('31', OLD_31) + one('32', OLD_32) + one('33', OLD_33)


def to_step_1(mode, date=TODAY):
    return [open_(mode, date, AID), command(22, SELECT), answer(TEMPLATE + '9000')]


def to_end_of_step_1(mode, date=TODAY, expiry=LATER, f=F):
    """Step 3 in modes 1 and 2, step 2 in modes 3 to 6."""
    if mode == 2:
        return to_step_1(mode, date) + [command(22, GET_UNSIGNED), answer(unsigned(f, expiry) + '9000')]
    return to_step_1(mode, date) + [command(22, GET_SIGNED), answer(signed(f, expiry) + '9000')]


def reading(mode, date=TODAY, expiry=LATER, f=F):
    """A whole reading, to step 3."""
    r = to_end_of_step_1(mode, date, expiry, f)
    if mode in (3, 4):
        r += [command(22, GET_FINGERS), answer(FINGERS_OBJECT + '9000')]
    if mode in (5, 6):
        r += [command(22, GET_PICTURE), answer(PICTURE_OBJECT + '9000')]
    return r


# ---- stamps, put together from stated words -----------------------------------------------------------------------------------------
def st(mode, standing, outcomes, cause=0, step=3, status='0000', date=TODAY, f=F, expiry=LATER):
    """The 46 bytes, from stated words: mode, standing, cause, status word, step, seven outcomes, date, FASC-N, expiry."""
    b = '%02X' % mode + {OPEN: '00', GRANTED: '01', REJECTED: '02'}[standing] + '%02X' % cause + status + '%02X' % step
    b += ''.join('0' + o for o in outcomes) + '%08X' % date + hexof(f) + '%08X' % expiry
    assert len(outcomes) == 7 and len(b) == 92
    return b


def unread(mode, standing, outcomes, cause=0, step=0, status='0000', date=TODAY):
    """The same before step 1's good end: FASC-N and expiry are zeros."""
    return st(mode, standing, outcomes, cause, step, status, date, '00' * 25, 0)


# =====================================================================================================================
# A. Whole readings; each needed kind previewed
# =====================================================================================================================
READ = {1: '1122000', 2: '0022100', 3: '1122010', 4: '1122110', 5: '1122001', 6: '1122101'}     # the outcomes in step 3 without any verdict


def given_each(mode, yes, f, rows):
    """For each row (kind, standing, cause, outcomes): preview, stamp as before, verdict, stamp as previewed."""
    calls, now = reading(mode), st(mode, OPEN, READ[mode])
    for kind, standing, cause, outcomes in rows:
        then = st(mode, standing, outcomes, cause)
        calls += [preview(kind, yes, 46, f, then), stamp(46, now), verdict(kind, yes, f), stamp(46, then)]
        now = then
    return calls


example('mode 1, each needed kind previewed as yes on the own FASC-N and then given so',
        given_each(1, YES, F, [(1, OPEN, 0, '2122000'), (2, GRANTED, 0, '2222000')]))
example('mode 2, the needed kind previewed as yes on the own FASC-N and then given so',
        given_each(2, YES, F, [(3, GRANTED, 0, '0022200')]))
example('mode 3, each needed kind previewed as yes on the own FASC-N and then given so',
        given_each(3, YES, F, [(1, OPEN, 0, '2122010'), (2, OPEN, 0, '2222010'), (4, GRANTED, 0, '2222020')]))
example('mode 4, each needed kind previewed as yes on the own FASC-N and then given so',
        given_each(4, YES, F, [(1, OPEN, 0, '2122110'), (2, OPEN, 0, '2222110'), (3, OPEN, 0, '2222210'),
                               (4, GRANTED, 0, '2222220')]))

example('mode 1, each needed kind previewed as no and then given so',
        given_each(1, NO, F, [(1, REJECTED, 1, '3122000'), (2, REJECTED, 1, '3322000')]))
example('mode 2, the needed kind previewed as no and then given so',
        given_each(2, NO, F, [(3, REJECTED, 5, '0022300')]))
example('mode 3, each needed kind previewed as no and then given so',
        given_each(3, NO, F, [(1, REJECTED, 1, '3122010'), (2, REJECTED, 1, '3322010'), (4, REJECTED, 1, '3322030')]))
example('mode 4, each needed kind previewed as no and then given so from the last to the first',
        given_each(4, NO, F, [(4, REJECTED, 6, '1122130'), (3, REJECTED, 5, '1122330'), (2, REJECTED, 2, '1322330'),
                              (1, REJECTED, 1, '3322330')]))

example('mode 1, each needed kind previewed as yes on another FASC-N and then given so from the last to the first',
        given_each(1, YES, G, [(2, REJECTED, 2, '1422000'), (1, REJECTED, 1, '4422000')]))
example('mode 2, the needed kind previewed as yes on another FASC-N and then given so',
        given_each(2, YES, G, [(3, REJECTED, 5, '0022400')]))
example('mode 3, each needed kind previewed as yes on another FASC-N and then given so from the last to the first',
        given_each(3, YES, H, [(4, REJECTED, 6, '1122040'), (2, REJECTED, 2, '1422040'), (1, REJECTED, 1, '4422040')]))
example('mode 4, each needed kind previewed as yes on another FASC-N and then given so',
        given_each(4, YES, H, [(1, REJECTED, 1, '4122110'), (2, REJECTED, 1, '4422110'), (3, REJECTED, 1, '4422410'),
                               (4, REJECTED, 1, '4422440')]))


def none_given(mode, rows):
    """For each row (kind, its check, outcomes for yes, for no, for another card): three previews, then a stamp as before."""
    calls, now = reading(mode), st(mode, OPEN, READ[mode])
    after_yes = GRANTED if mode == 2 else OPEN           # mode 2 needs no other verdict
    for kind, check, yes, no, other in rows:
        calls += [preview(kind, YES, 46, F, st(mode, after_yes, yes)), preview(kind, NO, 46, F, st(mode, REJECTED, no, check)),
                  preview(kind, YES, 46, G, st(mode, REJECTED, other, check)), stamp(46, now)]
    return calls


example('mode 1, each needed kind previewed in three ways and none given',
        none_given(1, [(1, 1, '2122000', '3122000', '4122000'), (2, 2, '1222000', '1322000', '1422000')]))
example('mode 2, the needed kind previewed in three ways and not given',
        none_given(2, [(3, 5, '0022200', '0022300', '0022400')]))
example('mode 3, each needed kind previewed in three ways and none given',
        none_given(3, [(1, 1, '2122010', '3122010', '4122010'), (2, 2, '1222010', '1322010', '1422010'),
                       (4, 6, '1122020', '1122030', '1122040')]))
example('mode 4, each needed kind previewed in three ways and none given',
        none_given(4, [(1, 1, '2122110', '3122110', '4122110'), (2, 2, '1222110', '1322110', '1422110'),
                       (3, 5, '1122210', '1122310', '1122410'), (4, 6, '1122120', '1122130', '1122140')]))


def last_missing(mode, others, kind, check, now, yes, no, other):
    """All verdicts but one given as yes; the last one previewed as yes (granted), as no and on another card (rejected)."""
    calls = reading(mode) + [verdict(k, YES, F) for k in others]
    return calls + [stamp(46, st(mode, OPEN, now)),
                    preview(kind, YES, 46, F, st(mode, GRANTED, yes)),
                    stamp(46, st(mode, OPEN, now)),
                    preview(kind, NO, 46, F, st(mode, REJECTED, no, check)),
                    preview(kind, YES, 46, H, st(mode, REJECTED, other, check)),
                    stamp(46, st(mode, OPEN, now)),
                    verdict(kind, YES, F),
                    stamp(46, st(mode, GRANTED, yes))]


example('mode 1, kind 1 is the last one missing and previewed as granted beside an open stamp',
        last_missing(1, [2], 1, 1, '1222000', '2222000', '3222000', '4222000'))
example('mode 1, kind 2 is the last one missing and previewed as granted beside an open stamp',
        last_missing(1, [1], 2, 2, '2122000', '2222000', '2322000', '2422000'))
example('mode 2, kind 3 is the only one missing and previewed as granted beside an open stamp',
        last_missing(2, [], 3, 5, '0022100', '0022200', '0022300', '0022400'))
example('mode 3, kind 1 is the last one missing and previewed as granted beside an open stamp',
        last_missing(3, [4, 2], 1, 1, '1222020', '2222020', '3222020', '4222020'))
example('mode 3, kind 4 is the last one missing and previewed as granted beside an open stamp',
        last_missing(3, [1, 2], 4, 6, '2222010', '2222020', '2222030', '2222040'))
example('mode 4, kind 2 is the last one missing and previewed as granted beside an open stamp',
        last_missing(4, [4, 3, 1], 2, 2, '2122220', '2222220', '2322220', '2422220'))
example('mode 4, kind 3 is the last one missing and previewed as granted beside an open stamp',
        last_missing(4, [1, 2, 4], 3, 5, '2222120', '2222220', '2222320', '2222420'))
example('mode 4, kind 4 is the last one missing and previewed as granted beside an open stamp',
        last_missing(4, [3, 1, 2], 4, 6, '2222210', '2222220', '2222230', '2222240'))

# =====================================================================================================================
# B. Previews and the verdicts after them
# =====================================================================================================================
example('mode 1, a preview of kind 1 and then a verdict of kind 2',
        reading(1),
        preview(1, YES, 46, F, st(1, OPEN, '2122000')),
        verdict(2, YES, F),
        stamp(46, st(1, OPEN, '1222000')),                  # kind 1 was only previewed
        preview(1, YES, 46, F, st(1, GRANTED, '2222000')),
        stamp(46, st(1, OPEN, '1222000')))
example('mode 4, previews of kinds 3 and 2 and then verdicts of kinds 4 and 1',
        reading(4),
        preview(3, NO, 46, F, st(4, REJECTED, '1122310', 5)),
        verdict(4, YES, F),
        stamp(46, st(4, OPEN, '1122120')),
        preview(2, YES, 46, G, st(4, REJECTED, '1422120', 2)),
        verdict(1, NO, F),
        stamp(46, st(4, REJECTED, '3122120', 1)),
        preview(3, YES, 46, F, st(4, REJECTED, '3122220', 1)))
example('mode 2, previewed as yes and then as no and then given as yes',
        reading(2),
        preview(3, YES, 46, F, st(2, GRANTED, '0022200')),
        preview(3, NO, 46, F, st(2, REJECTED, '0022300', 5)),
        verdict(3, YES, F),
        stamp(46, st(2, GRANTED, '0022200')))
example('mode 2, previewed as no and then as yes and then given as no',
        reading(2),
        preview(3, NO, 46, F, st(2, REJECTED, '0022300', 5)),
        preview(3, YES, 46, F, st(2, GRANTED, '0022200')),
        verdict(3, NO, F),
        stamp(46, st(2, REJECTED, '0022300', 5)))
example('mode 3, the same preview twice and then given and then previewed again',
        reading(3),
        preview(4, YES, 46, F, st(3, OPEN, '1122020')),
        preview(4, YES, 46, F, st(3, OPEN, '1122020')),
        stamp(46, st(3, OPEN, '1122010')),
        verdict(4, YES, F),
        stamp(46, st(3, OPEN, '1122020')),
        preview(4, YES, 46, F, 14))
example('mode 1, the verdicts say the opposite of the previews before them',
        reading(1),
        preview(1, YES, 46, F, st(1, OPEN, '2122000')),
        verdict(1, NO, F),
        stamp(46, st(1, REJECTED, '3122000', 1)),
        preview(2, NO, 46, F, st(1, REJECTED, '3322000', 1)),
        verdict(2, YES, F),
        stamp(46, st(1, REJECTED, '3222000', 1)))
example('mode 1, previewed on one FASC-N and given on another',
        reading(1),
        preview(1, YES, 46, G, st(1, REJECTED, '4122000', 1)),
        verdict(1, YES, F),
        stamp(46, st(1, OPEN, '2122000')),
        preview(2, YES, 46, F, st(1, GRANTED, '2222000')),
        verdict(2, YES, G),
        stamp(46, st(1, REJECTED, '2422000', 2)))
example('mode 3, a yes is compared with the card and not with the preview or verdict before it',
        reading(3),
        preview(1, YES, 46, G, st(3, REJECTED, '4122010', 1)),
        preview(2, YES, 46, G, st(3, REJECTED, '1422010', 2)),
        verdict(1, YES, G),
        stamp(46, st(3, REJECTED, '4122010', 1)),
        preview(2, YES, 46, G, st(3, REJECTED, '4422010', 1)),
        preview(2, YES, 46, F, st(3, REJECTED, '4222010', 1)))
example('mode 2, FASC-Ns that differ in the first digit and in the issue digit and in the last digits are other cards and a no on them is a no',
        reading(2),
        preview(3, YES, 46, H, st(2, REJECTED, '0022400', 5)),
        preview(3, YES, 46, K, st(2, REJECTED, '0022400', 5)),
        preview(3, YES, 46, G, st(2, REJECTED, '0022400', 5)),
        preview(3, NO, 46, H, st(2, REJECTED, '0022300', 5)),
        preview(3, NO, 46, K, st(2, REJECTED, '0022300', 5)),
        preview(3, NO, 46, G, st(2, REJECTED, '0022300', 5)),
        stamp(46, st(2, OPEN, '0022100')))
example('mode 2, a card with another FASC-N than the sample is judged on its own',
        reading(2, f=G),
        stamp(46, st(2, OPEN, '0022100', f=G)),
        preview(3, YES, 46, F, st(2, REJECTED, '0022400', 5, f=G)),
        preview(3, YES, 46, G, st(2, GRANTED, '0022200', f=G)),
        stamp(46, st(2, OPEN, '0022100', f=G)))

# =====================================================================================================================
# C. Previews on a card that is rejected already
# =====================================================================================================================
PAST = 20110409                                            # the day before TODAY: fails (twelve k)
example('mode 1, the card had expired on the opening date',
        reading(1, expiry=PAST),
        stamp(46, st(1, REJECTED, '1132000', 3, expiry=PAST)),
        preview(1, YES, 46, F, st(1, REJECTED, '2132000', 3, expiry=PAST)),
        preview(1, NO, 46, F, st(1, REJECTED, '3132000', 1, expiry=PAST)),
        verdict(1, YES, F),
        preview(2, YES, 46, F, st(1, REJECTED, '2232000', 3, expiry=PAST)),   # all given as yes, and still not granted
        preview(2, YES, 46, G, st(1, REJECTED, '2432000', 2, expiry=PAST)),
        stamp(46, st(1, REJECTED, '2132000', 3, expiry=PAST)))
example('mode 2, the card had expired on the opening date',
        reading(2, expiry=PAST),
        preview(3, YES, 46, F, st(2, REJECTED, '0032200', 3, expiry=PAST)),
        preview(3, NO, 46, F, st(2, REJECTED, '0032300', 3, expiry=PAST)),    # the lowest check: 3 and not 5
        stamp(46, st(2, REJECTED, '0032100', 3, expiry=PAST)))
example('mode 2, the card expires on the opening date and is granted in the preview',
        reading(2, expiry=TODAY),
        preview(3, YES, 46, F, st(2, GRANTED, '0022200', expiry=TODAY)),      # twelve j
        stamp(46, st(2, OPEN, '0022100', expiry=TODAY)))
example('mode 1, after an earlier no the other kind is previewed',
        reading(1), verdict(1, NO, F),
        preview(2, YES, 46, F, st(1, REJECTED, '3222000', 1)),
        preview(2, NO, 46, F, st(1, REJECTED, '3322000', 1)),
        preview(2, YES, 46, H, st(1, REJECTED, '3422000', 1)),
        stamp(46, st(1, REJECTED, '3122000', 1)))
example('mode 4, after an earlier no and an earlier other card the cause in a preview is the lowest check',
        reading(4), verdict(4, NO, F),
        preview(1, YES, 46, F, st(4, REJECTED, '2122130', 6)),
        preview(3, NO, 46, F, st(4, REJECTED, '1122330', 5)),
        verdict(3, YES, G),
        preview(2, NO, 46, F, st(4, REJECTED, '1322430', 2)),
        preview(1, YES, 46, G, st(4, REJECTED, '4122430', 1)),
        stamp(46, st(4, REJECTED, '1122430', 5)))

# =====================================================================================================================
# D. Refused previews, and rooms: the number, FF unchanged, a stamp after it that shows that nothing changed
# =====================================================================================================================
example('refusal 4 before any open',
        refused(1, YES, 46, F, 4), stamp(46, 4),
        refused(3, NO, 64, G, 4), stamp(64, 4),
        open_(1, TODAY, AID), stamp(46, unread(1, OPEN, '1111000')))
example('refusal 4 after a refused open',
        open_(7, TODAY, AID, 1), refused(1, YES, 46, F, 4), stamp(46, 4),
        open_(0, TODAY, AID, 1), refused(1, YES, 46, F, 4), stamp(46, 4),
        open_(1, 20230229, AID, 2), refused(1, YES, 46, F, 4), stamp(46, 4),       # twelve e
        open_(1, 0, AID, 2), refused(1, YES, 46, F, 4), stamp(46, 4),
        open_(1, TODAY, 'A0000003', 3), refused(1, YES, 46, F, 4), stamp(46, 4),   # an AID of 4 bytes
        open_(1, TODAY, 'A0' * 17, 3), refused(1, YES, 46, F, 4), stamp(46, 4))
example('refusal 4 after a whole reading and then a refused open',
        reading(2), preview(3, YES, 46, F, st(2, GRANTED, '0022200')),
        field(0x30, F),
        open_(9, TODAY, AID, 1),
        refused(3, YES, 46, F, 4), stamp(46, 4), field(0x30, ''), command(22, 4), answer('9000', 4))

STEP_0 = unread(1, OPEN, '1111000')
STEP_1 = unread(1, OPEN, '1111000', step=1)
example('refusal 9 right after open and with a command outstanding and in step 1',
        open_(1, TODAY, AID), refused(1, YES, 46, F, 9), stamp(46, STEP_0),
        command(22, SELECT), refused(1, YES, 46, F, 9), refused(2, NO, 46, G, 9), stamp(46, STEP_0),
        answer(TEMPLATE + '9000'), refused(1, YES, 46, F, 9), stamp(46, STEP_1),
        command(22, GET_SIGNED), refused(1, YES, 64, F, 9), stamp(64, STEP_1),
        answer(signed() + '9000'), preview(1, YES, 64, F, st(1, OPEN, '2122000')))
example('refusal 9 in step 2 of mode 3',
        to_end_of_step_1(3), refused(1, YES, 46, F, 9), refused(4, NO, 46, F, 9),
        stamp(46, st(3, OPEN, '1122010', step=2)),
        command(22, GET_FINGERS), refused(4, YES, 46, F, 9), stamp(46, st(3, OPEN, '1122010', step=2)))
example('refusal 9 after cause 16 in step 0 and in step 1 and in step 2',
        open_(1, TODAY, AID), command(22, SELECT), answer('6A82'), refused(1, YES, 46, F, 9),
        stamp(46, unread(1, REJECTED, '1111000', 16, 0, '6A82')), command(22, 5),
        to_step_1(2), command(22, GET_UNSIGNED), answer(unsigned() + '6283'), refused(3, YES, 46, F, 9),
        stamp(46, unread(2, REJECTED, '0011100', 16, 1, '6283')),
        to_end_of_step_1(4), command(22, GET_FINGERS), answer('9001'), refused(4, YES, 46, F, 9),
        stamp(46, st(4, REJECTED, '1122110', 16, 2, '9001')))
example('refusal 9 after cause 20 in step 1 and in step 2',
        to_step_1(1), command(22, GET_SIGNED), answer(unsigned() + '9000'),       # 34 and 3E are missing: malformed
        refused(1, YES, 46, F, 9), stamp(46, unread(1, REJECTED, '1111000', 20, 1)),
        to_step_1(2), command(22, GET_UNSIGNED), answer('53809000'),              # twelve i
        refused(3, YES, 46, F, 9), stamp(46, unread(2, REJECTED, '0011100', 20, 1)),
        to_end_of_step_1(3), command(22, GET_FINGERS), answer('53039000' '9000'),  # a length that passes the end
        refused(4, YES, 46, F, 9), stamp(46, st(3, REJECTED, '1122010', 20, 2)))
example('refusal 9 after causes 17 and 19 and 21 and 22',
        open_(1, TODAY, AID), command(22, SELECT), answer('6105'), command(22, '00C0000005'), answer('6105'),
        refused(1, YES, 46, F, 9), stamp(46, unread(1, REJECTED, '1111000', 17, 0)),
        open_(4, TODAY, AID), command(22, SELECT), answer('9000'),
        refused(1, YES, 46, F, 9), stamp(46, unread(4, REJECTED, '1111110', 19, 0)),
        to_step_1(2), command(22, GET_UNSIGNED), answer(unsigned(CHECK) + '9000'),
        refused(3, YES, 46, CHECK, 9), stamp(46, unread(2, REJECTED, '0011100', 21, 1)),
        to_step_1(3), command(22, GET_SIGNED), answer(signed(F, 21000229) + '9000'),   # twelve f
        refused(1, YES, 46, F, 9), stamp(46, unread(3, REJECTED, '1111010', 22, 1)))
NOW_1 = st(1, OPEN, '1122000')
example('refusal 10 for kinds 0 and 6 and 255',
        reading(1),
        refused(0, YES, 46, F, 10), stamp(46, NOW_1),
        refused(6, YES, 46, F, 10), stamp(46, NOW_1),
        refused(255, NO, 46, F, 10), stamp(46, NOW_1))
example('refusal 11 for yes 2 and 255',
        reading(1),
        refused(1, 2, 46, F, 11), stamp(46, NOW_1),
        refused(2, 255, 46, F, 11), stamp(46, NOW_1))
example('refusal 12 for no bytes and 24 bytes and 26 bytes',
        reading(1),
        refused(1, YES, 46, NONE, 12), stamp(46, NOW_1),
        refused(1, YES, 46, SHORT, 12), stamp(46, NOW_1),
        refused(1, YES, 46, LONG, 12), stamp(46, NOW_1),
        refused(1, NO, 46, NONE, 12), refused(1, NO, 46, SHORT, 12), refused(1, NO, 46, LONG, 12), stamp(46, NOW_1))
NOW_2 = st(2, OPEN, '0022100')
example('refusal 12 for bad parity',
        reading(2),
        refused(3, YES, 46, PARITY_LAST, 12), stamp(46, NOW_2),
        refused(3, YES, 46, PARITY_FIRST, 12), stamp(46, NOW_2),
        refused(3, NO, 46, PARITY_LAST, 12), refused(3, NO, 46, PARITY_FIRST, 12), stamp(46, NOW_2))
example('refusal 12 for a mark or digit out of place',
        reading(2),
        refused(3, YES, 46, MARK, 12), stamp(46, NOW_2),
        refused(3, YES, 46, END_MARK, 12), stamp(46, NOW_2),
        refused(3, YES, 46, DIGIT, 12), stamp(46, NOW_2),
        refused(3, NO, 46, MARK, 12), refused(3, NO, 46, DIGIT, 12), stamp(46, NOW_2))
example('refusal 12 for a wrong check character',
        reading(2),
        refused(3, YES, 46, CHECK, 12), stamp(46, NOW_2),
        refused(3, NO, 46, CHECK, 12), stamp(46, NOW_2))
example('refusal 13 for the kinds that modes 1 and 2 and 3 do not need',
        reading(1), refused(3, YES, 46, F, 13), refused(4, NO, 46, F, 13), stamp(46, NOW_1),
        reading(2), refused(1, YES, 46, F, 13), refused(2, NO, 46, F, 13), refused(4, YES, 46, G, 13), stamp(46, NOW_2),
        reading(3), refused(3, YES, 46, F, 13), refused(3, NO, 46, G, 13), stamp(46, st(3, OPEN, '1122010')))
example('refusal 14 for a kind given already as yes',
        reading(1), verdict(1, YES, F),
        refused(1, YES, 46, F, 14), refused(1, NO, 46, F, 14), refused(1, YES, 46, G, 14),
        stamp(46, st(1, OPEN, '2122000')))
example('refusal 14 for a kind given already as no and for one given on another card',
        reading(1), verdict(1, NO, F),
        refused(1, YES, 46, F, 14), refused(1, NO, 46, F, 14), stamp(46, st(1, REJECTED, '3122000', 1)),
        verdict(2, YES, H),
        refused(2, YES, 46, F, 14), refused(2, YES, 46, H, 14), stamp(46, st(1, REJECTED, '3422000', 1)))
example('refusal 6 for rooms 0 and 1 and 45 and the stamp for room 46',
        reading(2),
        preview(3, YES, 0, F, 6), stamp(46, NOW_2),
        preview(3, YES, 1, F, 6), stamp(46, NOW_2),
        preview(3, NO, 45, F, 6), preview(3, YES, 45, F, 6), stamp(45, 6), stamp(0, 6), stamp(46, NOW_2),
        preview(3, YES, 46, F, st(2, GRANTED, '0022200')), stamp(46, NOW_2))
example('rooms 47 and 64 leave the rest of the buffer as it is',
        reading(2),
        preview(3, YES, 47, F, st(2, GRANTED, '0022200')), stamp(47, NOW_2),
        preview(3, NO, 64, F, st(2, REJECTED, '0022300', 5)), stamp(64, NOW_2))

# =====================================================================================================================
# E. The order of the refusals
# =====================================================================================================================
example('order, 4 comes before 9 and 10 and 11 and 12',
        refused(1, YES, 46, F, 4), refused(0, YES, 46, F, 4), refused(1, 2, 46, F, 4), refused(1, YES, 46, SHORT, 4),
        stamp(46, 4))
example('order, 9 comes before 10 and 11 and 12 and 13',
        open_(1, TODAY, AID),
        refused(0, YES, 46, F, 9), refused(6, YES, 46, F, 9), refused(1, 2, 46, F, 9), refused(1, YES, 46, CHECK, 9),
        refused(3, YES, 46, F, 9), stamp(46, STEP_0))
example('order, 10 comes before 11 and 12',
        reading(1), refused(0, 2, 46, F, 10), refused(6, YES, 46, SHORT, 10), stamp(46, NOW_1))
example('order, 11 comes before 12 and 13 and 14',
        reading(1), verdict(1, YES, F),
        refused(2, 2, 46, SHORT, 11), refused(2, 255, 46, PARITY_LAST, 11), refused(3, 2, 46, F, 11), refused(1, 2, 46, F, 11),
        stamp(46, st(1, OPEN, '2122000')))
example('order, 12 comes before 13 and 14',
        reading(1), verdict(1, YES, F),
        refused(3, YES, 46, LONG, 12), refused(4, NO, 46, CHECK, 12), refused(1, YES, 46, MARK, 12),
        stamp(46, st(1, OPEN, '2122000')))
example('order, 13 comes before 14 where the outcome is 0 since the mode does not need it',
        reading(2), verdict(3, YES, F),
        refused(1, YES, 46, F, 13), refused(2, YES, 46, F, 13), refused(4, YES, 46, F, 13), refused(3, YES, 46, F, 14),
        stamp(46, st(2, GRANTED, '0022200')))
example('order, 14 comes before 6',
        reading(1), verdict(1, YES, F),
        preview(1, YES, 45, F, 14), preview(1, NO, 0, G, 14), stamp(46, st(1, OPEN, '2122000')))
example('order, 4 and 9 come before 6',
        preview(1, YES, 45, F, 4), preview(1, YES, 0, F, 4), stamp(45, 4), stamp(0, 4),
        open_(1, TODAY, AID),
        preview(1, YES, 45, F, 9), preview(1, YES, 0, F, 9), stamp(46, STEP_0))
example('order, 10 and 11 and 12 and 13 come before 6',
        reading(1),
        preview(0, YES, 45, F, 10), preview(6, YES, 0, F, 10), stamp(46, NOW_1),
        preview(1, 2, 45, F, 11), preview(1, 2, 0, F, 11), stamp(46, NOW_1),
        preview(1, YES, 45, SHORT, 12), preview(1, NO, 0, CHECK, 12), stamp(46, NOW_1),
        preview(3, YES, 45, F, 13), preview(4, YES, 0, F, 13), stamp(46, NOW_1))
example('order, all faults at once and then one fault less each time',
        preview(0, 2, 45, SHORT, 4),
        open_(1, TODAY, AID), preview(0, 2, 45, SHORT, 9),
        reading(1), verdict(1, YES, F),
        preview(0, 2, 45, SHORT, 10), preview(3, 2, 45, SHORT, 11), preview(3, YES, 45, SHORT, 12), preview(3, YES, 45, F, 13),
        preview(1, YES, 45, F, 14), preview(2, YES, 45, F, 6), preview(2, YES, 46, F, st(1, GRANTED, '2222000')),
        stamp(46, st(1, OPEN, '2122000')))

# =====================================================================================================================
# F. Previews everywhere in a list, and the same list without them
# =====================================================================================================================
TAGS = [0x30, 0x34, 0x35, 0x3E, 0xBC, 0xEE, 0x31, 0xFE]         # fewer than there are, for the long lists
PAIRS = []


def fields(tags=TAGS, **values):
    """A field call for each tag; values by tag (t30=..), all others empty."""
    calls = [field(t, values.pop('t%02X' % t, '')) for t in tags]
    assert not values, 'a value for a tag that is not asked'
    return calls


def everywhere(label, *calls, request=6):
    example(label + ', with previews everywhere', *calls, request=request)
    with_them = EXAMPLES[-1]
    kept = [c for c in with_them[1] if c[0][0] != 5]
    assert len(kept) < len(with_them[1])
    example(label + ', without the previews', kept, request=request)
    PAIRS.append((with_them[0], EXAMPLES[-1][0]))


P4 = [preview(1, YES, 46, F, 4), preview(0, 2, 0, NONE, 4)]
P9 = [preview(1, YES, 46, F, 9)]
P9N = [preview(4, NO, 47, G, 9)]                    # a no on another card, room 47
P9S = [preview(3, NO, 2, F, 9)]                     # short, for the long lists: room 2

# A signed object with all older elements: 4 + 27 + 6 + 6 + 11 + 18 + 10 + 5 + 2 = 89 bytes in 53 59
S_OLD = signed(ee=OLD_EE, older=ALL_OLDER)
assert S_OLD[:4] == '5359' and len(S_OLD) == 2 * 91
LATER_35 = '3230333031323331'                                             # 20301231 in ASCII
STEP_1_FIELDS = dict(t30=F, t34=GUID, t35=LATER_35, t3E=SIGNATURE, tEE=OLD_EE, t31=OLD_31)
ALL_FIELDS = dict(STEP_1_FIELDS, tBC=FINGER)
SELECT_0A = SELECT[:-2] + '0A'                                            # request 1: the last byte replaced

everywhere('mode 4 with 61 and 6C in its steps',
           P4, stamp(46, 4), fields(),
           open_(4, TODAY, AID), P9,
           command(22, SELECT), P9S,
           answer('6C0A'), P9S, stamp(46, unread(4, OPEN, '1111110')),
           command(22, SELECT_0A), P9S,
           answer(TEMPLATE[:8] + '6106'), P9,
           command(22, '00C0000006'), P9S,
           answer(TEMPLATE[8:] + '9000'), P9,
           stamp(46, unread(4, OPEN, '1111110', step=1)), fields(),
           command(22, GET_SIGNED), P9S,
           answer('6100'), P9S,                                           # twelve l
           command(22, '00C0000000'), P9S,
           answer('6C5B'), P9S,
           command(22, '00C000005B'), P9S,
           answer(S_OLD[:100] + '6129'), P9, fields(),
           command(22, '00C0000029'), P9S,
           answer(S_OLD[100:] + '9000'), P9,
           stamp(46, st(4, OPEN, '1122110', step=2)), fields(**STEP_1_FIELDS),
           command(22, GET_FINGERS), P9S,
           answer(FINGERS_OBJECT + '9000'), preview(3, YES, 46, F, st(4, OPEN, '1122210')),
           stamp(46, st(4, OPEN, '1122110')), fields(**ALL_FIELDS),
           verdict(3, YES, F), preview(1, NO, 46, F, st(4, REJECTED, '3122210', 1)),
           verdict(1, YES, F), preview(3, NO, 46, F, 14),
           verdict(4, YES, F), preview(2, YES, 46, G, st(4, REJECTED, '2422220', 2)),
           stamp(46, st(4, OPEN, '2122220')), preview(2, YES, 0, F, 6),
           verdict(2, YES, F), preview(2, YES, 3, F, 14), command(22, 5),
           stamp(46, st(4, GRANTED, '2222220')))

everywhere('mode 2 with two 6C one straight after the other',
           P4, open_(2, TODAY, AID), P9,
           command(22, SELECT), P9, answer(TEMPLATE + '9000'), P9,
           stamp(46, unread(2, OPEN, '0011100', step=1)),
           command(22, GET_UNSIGNED), P9, answer('6C10'), P9, P9N, stamp(46, unread(2, OPEN, '0011100', step=1)),
           command(22, '00CB3FFF055C03 5FC104 10'), P9, P9N, answer('6C11'), P9,    # previews between the two 6C do not matter
           stamp(46, unread(2, REJECTED, '0011100', 16, 1, '6C11')), fields(),
           command(22, 5), P9, answer('9000', 5), P9, verdict(3, YES, F, 9), P9,
           stamp(46, unread(2, REJECTED, '0011100', 16, 1, '6C11')))

everywhere('mode 1 with refusals between and a 6C to GET RESPONSE and an empty 61 after it',
           P4, open_(1, TODAY, AID), P9,
           command(16, 6), P9, answer('9000', 5), P9,
           command(22, SELECT), P9, command(22, 5), P9, answer('90', 8), P9, answer(TEMPLATE + '9000'), P9,
           stamp(45, 6), P9,
           command(22, GET_SIGNED), P9, answer('53' '6120'), P9,
           command(22, '00C0000020'), P9, answer('6C21'), P9, stamp(46, STEP_1),
           command(22, '00C0000021'), P9, answer('6122'), P9,               # a corrected GET RESPONSE is GET RESPONSE still: 17
           stamp(46, unread(1, REJECTED, '1111000', 17, 1)), P9, fields(), command(22, 5))

everywhere('mode 3 with a 6C in each step and a second open after a verdict',
           open_(3, TODAY, AID), P9, command(22, SELECT), P9, answer('6C00'), P9,
           command(22, SELECT), P9, answer(TEMPLATE + '9000'), P9,          # corrected by 00: the same bytes again
           command(22, GET_SIGNED), P9, answer('6C7F'), P9, command(22, '00CB3FFF055C03 5FC102 7F'), P9,
           answer(signed() + '9000'), P9, stamp(46, st(3, OPEN, '1122010', step=2)),
           command(22, GET_FINGERS), P9, answer('6C08'), P9, command(22, '00CB3FFF055C03 DFC103 08'), P9,
           answer(FINGERS_OBJECT + '9000'),
           preview(4, NO, 46, F, st(3, REJECTED, '1122030', 6)), stamp(46, st(3, OPEN, '1122010')),
           fields(t30=F, t34=GUID, t35=LATER_35, t3E=SIGNATURE, tBC=FINGER),
           verdict(4, YES, F), preview(1, YES, 46, F, st(3, OPEN, '2122020')), preview(4, YES, 46, F, 14),
           stamp(46, st(3, OPEN, '1122020')),
           open_(1, 20240229, AID), P9, stamp(46, unread(1, OPEN, '1111000', date=20240229)), fields(),   # twelve d
           command(22, SELECT), P9, answer(TEMPLATE + '9000'), P9,
           stamp(46, unread(1, OPEN, '1111000', step=1, date=20240229)), fields())

# =====================================================================================================================
# G. Fields and commands without previews
# =====================================================================================================================
EVERY_TAG = [0x30, 0x34, 0x35, 0x3E, 0xBC, 0xEE, 0x31, 0x32, 0x33, 0xFE]
OLDER = dict(tEE=OLD_EE, t31=OLD_31, t32=OLD_32, t33=OLD_33)


def each_field(**values):
    return fields(EVERY_TAG, **values)


S1_ALL = dict(OLDER, t30=F, t34=GUID, t35=LATER_35, t3E=SIGNATURE)
example('fields in mode 1 with the older elements before and after the good end of step 1',
        each_field(), open_(1, TODAY, AID), each_field(), command(22, SELECT), answer(TEMPLATE + '9000'), each_field(),
        command(22, GET_SIGNED), each_field(), answer(S_OLD[:120] + '6100'), each_field(),
        command(22, '00C0000000'), answer(S_OLD[120:] + '9000'), each_field(**S1_ALL))
example('fields in mode 2 with the older elements and field 34 before and after the good end of step 1',
        to_step_1(2), each_field(), command(22, GET_UNSIGNED),
        answer(unsigned(ee=OLD_EE, older=ALL_OLDER, with_34=True) + '9000'),
        each_field(t30=F, t34=GUID, t35=LATER_35, **OLDER),
        verdict(3, YES, F), stamp(46, st(2, GRANTED, '0022200')), each_field(t30=F, t34=GUID, t35=LATER_35, **OLDER))
example('fields in mode 2 without field 34 and with none or some of the older elements',
        reading(2), each_field(t30=F, t35=LATER_35),
        to_step_1(2), each_field(), command(22, GET_UNSIGNED), answer(unsigned(ee=OLD_EE) + '9000'),
        each_field(t30=F, t35=LATER_35, tEE=OLD_EE),
        to_step_1(2), command(22, GET_UNSIGNED), answer(unsigned(older=one('32', OLD_32)) + '9000'),
        each_field(t30=F, t35=LATER_35, t32=OLD_32))
example('fields in mode 3 with the older elements where BC comes only with the good end of step 2',
        open_(3, TODAY, AID), each_field(), command(22, SELECT), answer(TEMPLATE + '9000'), each_field(),
        command(22, GET_SIGNED), answer(S_OLD + '9000'), each_field(**S1_ALL),
        command(22, GET_FINGERS), answer(FINGERS_OBJECT[:8] + '6100'), each_field(**S1_ALL),
        command(22, '00C0000000'), answer(FINGERS_OBJECT[8:] + '9000'), each_field(tBC=FINGER, **S1_ALL))
example('fields of step 1 stay after cause 16 and after cause 20 in step 2 and an older element out of place is cause 20',
        to_step_1(3), command(22, GET_SIGNED), answer(S_OLD + '9000'),
        command(22, GET_FINGERS), answer(FINGERS_OBJECT + '6282'), each_field(**S1_ALL),
        stamp(46, st(3, REJECTED, '1122010', 16, 2, '6282')),
        to_step_1(4), command(22, GET_SIGNED), answer(S_OLD + '9000'),
        command(22, GET_FINGERS), answer('5302BC00' '9000'), each_field(**S1_ALL),          # BC of no bytes
        stamp(46, st(4, REJECTED, '1122110', 20, 2)),
        to_step_1(1), command(22, GET_SIGNED), answer(signed(older=one('32', OLD_32) + one('31', OLD_31)) + '9000'),
        each_field(), stamp(46, unread(1, REJECTED, '1111000', 20, 1)))
example('commands whose room is too small or just enough or more than enough',
        open_(1, TODAY, AID),
        command(0, 6), command(16, 6), answer('9000', 5), command(17, SELECT), answer(TEMPLATE[:4] + '6108'),
        command(0, 6), command(4, 6), answer('9000', 5), command(5, '00C0000008'), answer(TEMPLATE[4:] + '9000'),
        command(10, 6), command(1, 6), stamp(46, STEP_1), command(12, GET_SIGNED), answer('6110'),
        command(64, '00C0000010'), answer(signed() + '9000'), stamp(46, NOW_1))
example('commands with an AID of 5 bytes and of 16 bytes',
        open_(1, TODAY, 'A000000367'), command(10, 6), command(11, '00A4040005 A000000367 00'),
        open_(2, TODAY, '000102030405060708090A0B0C0D0E0F'), command(21, 6),
        command(22, '00A4040010 000102030405060708090A0B0C0D0E0F 00'), stamp(46, unread(2, OPEN, '0011100')))
example('commands with nothing to send since one is outstanding or a cause arose or all is read',
        command(22, 4), command(0, 4), answer('9000', 4),
        open_(1, TODAY, AID), answer(TEMPLATE + '9000', 5), command(22, SELECT), command(22, 5), command(0, 5), command(16, 5),
        answer('00', 8), command(22, 5),                                    # a refused answer leaves it outstanding
        made(3, bytes(257) + bytes.fromhex('9000'), '(answer 8)'),          # 259 bytes
        stamp(46, STEP_0), answer('6D00'), command(22, 5), command(0, 5), answer('9000', 5),
        stamp(46, unread(1, REJECTED, '1111000', 16, 0, '6D00')),
        reading(2), command(22, 5), command(0, 5), answer('9000', 5), stamp(46, NOW_2))
example('commands after a 6C with data and after a 6C that a 61 comes between',
        open_(1, TODAY, AID), command(22, SELECT), answer('61' '6C01'),                     # with data: cause 16
        command(22, 5), stamp(46, unread(1, REJECTED, '1111000', 16, 0, '6C01')),
        open_(1, TODAY, AID), command(22, SELECT), answer('6C0A'), command(22, SELECT_0A), answer(TEMPLATE[:6] + '6107'),
        command(22, '00C0000007'), answer('6C08'), command(22, '00C0000008'), answer(TEMPLATE[6:] + '9000'),
        command(22, GET_SIGNED), answer('6C00'), command(22, GET_SIGNED), answer(signed() + '9000'), stamp(46, NOW_1))

# =====================================================================================================================
# H. The spelling of a line
# =====================================================================================================================
NOTHING = '(none)'
example('call bytes that are none of the seven change nothing',
        raw('00 0000', NOTHING), raw('08 0001 2E', NOTHING), stamp(46, 4),
        open_(2, TODAY, AID), raw('FF 0002 0102', NOTHING), command(22, SELECT), raw('80 0003 03 9000', NOTHING),
        answer(TEMPLATE + '9000'), raw('09 0000', NOTHING), command(22, GET_UNSIGNED), answer(unsigned() + '9000'),
        raw('00 001B 03 01' + hexof(F), NOTHING), stamp(46, NOW_2), preview(3, YES, 46, F, st(2, GRANTED, '0022200')),
        raw('07 0000', '(field )'), raw('0A 0009 30', NOTHING))             # the last one cut short
example('arguments that are left out count as 00 and further ones are not looked at',
        raw('01 0000', '(open 1)'),                                         # mode 0
        raw('01 0001 01', '(open 2)'),                                      # date 0
        raw('01 0005 01 0132DC4A', '(open 3)'),                             # no AID; 0132DC4A is 20110410
        raw('01 0003 01 0132', '(open 2)'),                                 # date 01320000 is 20054016, not real
        open_(2, TODAY, AID), raw('02 0000', '(command 6 0 )'),
        raw('02 0003 11 FFFF', '(command 0 17 00A404000BA00000036720000001010300)'),
        raw('03 0000', '(answer 8)'), answer(TEMPLATE + '9000'), command(22, GET_UNSIGNED), answer(unsigned() + '9000'),
        raw('04 0000', '(verdict 10)'), raw('04 0001 03', '(verdict 12)'),
        raw('05 0000', '(preview 10 )'), raw('05 0001 03', '(preview 12 )'), raw('05 0002 03 01', '(preview 12 )'),
        raw('05 0003 03 01 02', '(preview 12 FFFF)'),
        raw('06 0000', '(stamp 6 )'), raw('06 0003 2E 00 00', '(stamp 0 %s)' % NOW_2),
        raw('07 0000', '(field )'), raw('07 0002 35 30', '(field %s)' % LATER_35))
example('an open cut short at the end to an AID of 5 bytes',
        raw('01 0010 01 0132DC4A A000000367', '(open 0)'))
example('an answer cut short at the end to its status word',
        open_(1, TODAY, AID), command(22, SELECT), raw('03 00FF 9000', '(answer 0)'))
example('a verdict cut short at the end to 24 bytes of FASC-N',
        reading(2), raw('04 001B 03 01' + hexof(SHORT), '(verdict 12)'))
example('a preview cut short at the end to 24 bytes of FASC-N',
        reading(2), raw('05 001C 03 01 2E' + hexof(SHORT), '(preview 12 %s)' % ('FF' * 46)))
example('a preview whose count passes the end and whose FASC-N is whole',
        reading(2), raw('05 FFFF 03 01 2E' + hexof(F), '(preview 0 %s)' % st(2, GRANTED, '0022200')))
example('a stamp cut short at the end to no room',
        reading(2), raw('06 0001', '(stamp 6 )'))
example('rooms above 64 count as 64',
        preview(3, YES, 65, F, 4), stamp(255, 4), command(200, 4),
        open_(2, TODAY, AID), command(65, SELECT), stamp(65, unread(2, OPEN, '0011100')), answer(TEMPLATE + '9000'),
        command(255, GET_UNSIGNED), answer(unsigned() + '9000'),
        preview(3, YES, 65, F, st(2, GRANTED, '0022200')), preview(3, NO, 255, F, st(2, REJECTED, '0022300', 5)),
        preview(0, NO, 128, F, 10), stamp(200, NOW_2))


# =====================================================================================================================
# I. Picture modes (request 7)
# =====================================================================================================================
def picture_example(label, *calls):
    example(label, *calls, request=7)


def some_picture(count):
    """Bytes that stand for a picture."""
    return ''.join('%02X' % ((29 + 71 * place) % 256) for place in range(count))


def picture_object(count):
    return one('53', one('BC', some_picture(count)) + 'FE00')


def in_answers(first, data, *sizes):
    """The step's command and its data in answers of these sizes, the last size as often as needed; 61 with what is left, 00 for 256 or more."""
    calls, sent, sizes = [], first, list(sizes)
    while True:
        size = sizes.pop(0) if len(sizes) > 1 else sizes[0]
        part, data = data[:2 * size], data[2 * size:]
        left = len(data) // 2
        status = '9000' if left == 0 else '61%02X' % (left if left < 256 else 0)
        calls += [command(11, sent), answer(part + status)]
        if left == 0:
            return calls
        sent = '00C00000' + status[2:]


# Each needed kind previewed
picture_example('mode 5, each needed kind previewed as yes on the own FASC-N and then given so',
                given_each(5, YES, F, [(1, OPEN, 0, '2122001'), (2, OPEN, 0, '2222001'), (5, GRANTED, 0, '2222002')]))
picture_example('mode 6, each needed kind previewed as yes on the own FASC-N and then given so',
                given_each(6, YES, F, [(1, OPEN, 0, '2122101'), (2, OPEN, 0, '2222101'), (3, OPEN, 0, '2222201'),
                                       (5, GRANTED, 0, '2222202')]))
picture_example('mode 5, each needed kind previewed as no and then given so from the last to the first',
                given_each(5, NO, F, [(5, REJECTED, 7, '1122003'), (2, REJECTED, 2, '1322003'), (1, REJECTED, 1, '3322003')]))
picture_example('mode 6, each needed kind previewed as no and then given so from the last to the first',
                given_each(6, NO, F, [(5, REJECTED, 7, '1122103'), (3, REJECTED, 5, '1122303'), (2, REJECTED, 2, '1322303'),
                                      (1, REJECTED, 1, '3322303')]))
picture_example('mode 5, each needed kind previewed as yes on another FASC-N and then given so from the last to the first',
                given_each(5, YES, G, [(5, REJECTED, 7, '1122004'), (2, REJECTED, 2, '1422004'), (1, REJECTED, 1, '4422004')]))
picture_example('mode 6, each needed kind previewed as yes on another FASC-N and then given so',
                given_each(6, YES, H, [(1, REJECTED, 1, '4122101'), (2, REJECTED, 1, '4422101'), (3, REJECTED, 1, '4422401'),
                                       (5, REJECTED, 1, '4422404')]))
picture_example('mode 5, each needed kind previewed in three ways and none given',
                none_given(5, [(1, 1, '2122001', '3122001', '4122001'), (2, 2, '1222001', '1322001', '1422001'),
                               (5, 7, '1122002', '1122003', '1122004')]))
picture_example('mode 6, each needed kind previewed in three ways and none given',
                none_given(6, [(1, 1, '2122101', '3122101', '4122101'), (2, 2, '1222101', '1322101', '1422101'),
                               (3, 5, '1122201', '1122301', '1122401'), (5, 7, '1122102', '1122103', '1122104')]))
picture_example('mode 5, kind 5 is the last one missing and previewed as granted beside an open stamp',
                last_missing(5, [2, 1], 5, 7, '2222001', '2222002', '2222003', '2222004'))
picture_example('mode 6, kind 5 is the last one missing and previewed as granted beside an open stamp',
                last_missing(6, [3, 1, 2], 5, 7, '2222201', '2222202', '2222203', '2222204'))
picture_example('mode 6, kind 3 is the last one missing and previewed as granted beside an open stamp',
                last_missing(6, [5, 2, 1], 3, 5, '2222102', '2222202', '2222302', '2222402'))

# Openings and commands
picture_example('modes 5 and 6 are opened and modes 0 and 7 and 255 are refused with 1',
                open_(0, TODAY, AID, 1), stamp(46, 4), open_(5, TODAY, AID), stamp(46, unread(5, OPEN, '1111001')),
                open_(7, TODAY, AID, 1), stamp(46, 4), open_(6, TODAY, AID), stamp(46, unread(6, OPEN, '1111101')),
                open_(255, TODAY, AID, 1), stamp(46, 4), open_(5, 20230229, AID, 2), open_(6, TODAY, 'A0000003', 3), stamp(46, 4))
picture_example('commands of each step in modes 5 and 6',
                [call for mode, outcomes in ((5, '1122001'), (6, '1122101')) for call in
                 (open_(mode, TODAY, AID), command(17, SELECT), answer(TEMPLATE + '9000'), command(11, GET_SIGNED), answer(signed() + '9000'),
                  stamp(46, st(mode, OPEN, outcomes, step=2)), command(10, 6), command(11, GET_PICTURE), command(11, 5),
                  answer(PICTURE_OBJECT + '9000'), stamp(46, st(mode, OPEN, outcomes)), command(22, 5), answer('9000', 5))])
picture_example('commands of step 2 in modes 3 and 4 are as before and modes 1 and 2 have none',
                to_end_of_step_1(3), command(11, GET_FINGERS), answer(FINGERS_OBJECT + '9000'), command(22, 5),
                to_end_of_step_1(4), command(11, GET_FINGERS), answer(FINGERS_OBJECT + '9000'), command(22, 5),
                to_end_of_step_1(1), command(22, 5), to_end_of_step_1(2), command(22, 5))
assert len(PICTURE_OBJECT) == 2 * 0x0D
picture_example('commands after a 6C in step 2 of modes 5 and 6 and a second 6C straight after the first',
                to_end_of_step_1(5), command(11, GET_PICTURE), answer('6C0D'), command(11, GET_PICTURE[:-2] + '0D'), answer('6100'),
                command(11, '00C0000000'), answer('6C0D'), command(11, '00C000000D'), answer(PICTURE_OBJECT + '9000'),
                stamp(46, st(5, OPEN, '1122001')), field(0xBC, PICTURE),
                to_end_of_step_1(6), command(11, GET_PICTURE), answer('6C00'), command(11, GET_PICTURE), answer('6C0D'),
                stamp(46, st(6, REJECTED, '1122101', 16, 2, '6C0D')), field(0xBC, ''))

# The field BC
picture_example('fields in mode 5 with the older elements where BC comes only with the good end of step 2',
                open_(5, TODAY, AID), each_field(), command(22, SELECT), answer(TEMPLATE + '9000'), each_field(),
                command(22, GET_SIGNED), answer(S_OLD + '9000'), each_field(**S1_ALL),
                command(22, GET_PICTURE), each_field(**S1_ALL), answer(PICTURE_OBJECT[:20] + '6103'), each_field(**S1_ALL),
                command(22, '00C0000003'), answer(PICTURE_OBJECT[20:] + '9000'), each_field(tBC=PICTURE, **S1_ALL),
                verdict(1, YES, F), verdict(2, YES, F), verdict(5, YES, F), stamp(46, st(5, GRANTED, '2222002')),
                each_field(tBC=PICTURE, **S1_ALL))
picture_example('fields of step 1 stay and BC is empty after causes 16 and 17 and 20 in step 2',
                to_end_of_step_1(5), command(22, GET_PICTURE), answer(PICTURE_OBJECT + '6282'),
                stamp(46, st(5, REJECTED, '1122001', 16, 2, '6282')), field(0xBC, ''), field(0x30, F),
                to_end_of_step_1(6), command(22, GET_PICTURE), answer(PICTURE_OBJECT + '6101'), command(22, '00C0000001'), answer('6101'),
                stamp(46, st(6, REJECTED, '1122101', 17, 2)), field(0xBC, ''), field(0x3E, SIGNATURE),
                to_end_of_step_1(6), command(22, GET_PICTURE), answer(one('53', one('BC', PICTURE) + one('BC', PICTURE) + 'FE00') + '9000'),
                stamp(46, st(6, REJECTED, '1122101', 20, 2)), field(0xBC, ''), field(0x34, GUID))
picture_example('a picture of 863 bytes is good in mode 6 and cause 20 in mode 4 and one of 862 bytes is good in both',
                to_end_of_step_1(6), in_answers(GET_PICTURE, picture_object(863), 256), stamp(46, st(6, OPEN, '1122101')),
                field(0xBC, some_picture(863)),
                to_end_of_step_1(4), in_answers(GET_FINGERS, picture_object(863), 256), stamp(46, st(4, REJECTED, '1122110', 20, 2)),
                field(0xBC, ''),
                to_end_of_step_1(5), in_answers(GET_PICTURE, picture_object(862), 256), stamp(46, st(5, OPEN, '1122001')),
                to_end_of_step_1(4), in_answers(GET_FINGERS, picture_object(862), 256), stamp(46, st(4, OPEN, '1122110')),
                field(0xBC, some_picture(862)))
picture_example('mode 5, a picture of 16000 bytes in answers of 256 bytes',
                to_end_of_step_1(5), in_answers(GET_PICTURE, picture_object(16000), 256)[:-1], field(0xBC, ''),
                in_answers(GET_PICTURE, picture_object(16000), 256)[-1:], field(0xBC, some_picture(16000)), stamp(46, st(5, OPEN, '1122001')),
                verdict(5, YES, F), verdict(1, YES, F), preview(2, YES, 46, F, st(5, GRANTED, '2222002')))
picture_example('mode 6, the fields of step 1 with the older elements are unchanged by a picture of 16000 bytes',
                to_step_1(6), command(22, GET_SIGNED), answer(S_OLD + '9000'), each_field(**S1_ALL),
                in_answers(GET_PICTURE, picture_object(16000), 256)[:40], each_field(**S1_ALL),
                in_answers(GET_PICTURE, picture_object(16000), 256)[40:], each_field(tBC=some_picture(16000), **S1_ALL),
                stamp(46, st(6, OPEN, '1122101')))
picture_example('mode 6, a picture of 16000 bytes without FE in answers of 255 bytes and the stamp is the same',
                to_end_of_step_1(6), in_answers(GET_PICTURE, one('53', one('BC', some_picture(16000))), 255), stamp(46, st(6, OPEN, '1122101')))
picture_example('mode 5, a picture of 300 bytes in answers of 256 bytes and of 100 and of 1 and the stamp and the field are the same',
                [call for sizes in ((256,), (100,), (3, 1, 4, 100, 1, 256), (1,)) for call in
                 to_end_of_step_1(5) + in_answers(GET_PICTURE, picture_object(300), *sizes)
                 + [stamp(46, st(5, OPEN, '1122001')), field(0xBC, some_picture(300))]])
picture_example('mode 6, a picture of 16001 bytes is cause 20 and BC stays empty',
                to_end_of_step_1(6), in_answers(GET_PICTURE, picture_object(16001), 256), stamp(46, st(6, REJECTED, '1122101', 20, 2)),
                field(0xBC, ''), field(0x30, F), refused(5, YES, 46, F, 9))
FULL = '53823FFC' + 'BC823FF8' + some_picture(16376)
assert len(FULL) == 2 * 16384
picture_example('mode 5, 16384 bytes in step 2 are judged',
                to_end_of_step_1(5), in_answers(GET_PICTURE, FULL, 256), stamp(46, st(5, REJECTED, '1122001', 20, 2)))
picture_example('mode 6, 16385 bytes in step 2 are cause 18',
                to_end_of_step_1(6), in_answers(GET_PICTURE, FULL + '00', 256), stamp(46, st(6, REJECTED, '1122101', 18, 2)),
                field(0xBC, ''), field(0x35, LATER_35))
picture_example('4097 bytes are cause 18 in step 2 of mode 4 and in step 1 of mode 5',
                to_end_of_step_1(4), in_answers(GET_FINGERS, FULL[:2 * 4097], 256), stamp(46, st(4, REJECTED, '1122110', 18, 2)),
                to_step_1(5), in_answers(GET_SIGNED, FULL[:2 * 4097], 256), stamp(46, unread(5, REJECTED, '1111001', 18, 1)))

# Kind 5
NOW_5, NOW_6 = st(5, OPEN, '1122001'), st(6, OPEN, '1122101')
picture_example('refusal 13 for kind 5 in modes 1 to 4 and for kinds 3 and 4 in mode 5 and for kind 4 in mode 6',
                reading(1), refused(5, YES, 46, F, 13), refused(5, NO, 46, G, 13), stamp(46, NOW_1),
                reading(2), refused(5, YES, 46, F, 13), refused(5, NO, 46, G, 13), stamp(46, NOW_2),
                reading(3), refused(5, YES, 46, F, 13), refused(5, NO, 46, G, 13), stamp(46, st(3, OPEN, '1122010')),
                reading(4), refused(5, YES, 46, F, 13), refused(5, NO, 46, G, 13), stamp(46, st(4, OPEN, '1122110')),
                reading(5), refused(3, YES, 46, F, 13), refused(4, YES, 46, F, 13), refused(4, NO, 46, F, 13), stamp(46, NOW_5),
                reading(6), refused(4, YES, 46, F, 13), refused(4, NO, 46, G, 13), stamp(46, NOW_6))
picture_example('refusals 9 and 10 and 11 and 12 and 14 around kind 5',
                open_(5, TODAY, AID), refused(5, YES, 46, F, 9), to_end_of_step_1(6), refused(5, NO, 46, F, 9),
                command(22, GET_PICTURE), refused(5, YES, 46, F, 9), answer(PICTURE_OBJECT + '9000'),
                refused(0, YES, 46, F, 10), refused(6, YES, 46, F, 10), refused(7, YES, 46, F, 10), refused(255, NO, 46, F, 10),
                refused(5, 2, 46, F, 11), refused(5, YES, 46, CHECK, 12), refused(5, NO, 46, SHORT, 12), stamp(46, NOW_6),
                verdict(5, YES, F), refused(5, YES, 46, F, 14), refused(5, NO, 46, F, 14), refused(5, YES, 46, G, 14),
                stamp(46, st(6, OPEN, '1122102')),
                reading(5), verdict(5, NO, F), refused(5, YES, 46, F, 14), stamp(46, st(5, REJECTED, '1122003', 7)),
                reading(6), verdict(5, YES, K), refused(5, YES, 46, F, 14), stamp(46, st(6, REJECTED, '1122104', 7)))
picture_example('refusal 6 of a preview of kind 5 for room 45 and its stamp for rooms 46 and 47 and 64',
                reading(5), verdict(1, YES, F), verdict(2, YES, F),
                preview(5, YES, 45, F, 6), preview(5, NO, 0, F, 6), stamp(46, st(5, OPEN, '2222001')),
                preview(5, YES, 46, F, st(5, GRANTED, '2222002')), preview(5, NO, 47, F, st(5, REJECTED, '2222003', 7)),
                preview(5, YES, 64, H, st(5, REJECTED, '2222004', 7)), stamp(47, st(5, OPEN, '2222001')))
picture_example('stamps of each mode for rooms 45 and 46 and 47',
                [call for mode, outcomes in ((1, '1111000'), (2, '0011100'), (3, '1111010'), (4, '1111110'), (5, '1111001'), (6, '1111101'))
                 for call in (open_(mode, TODAY, AID), stamp(45, 6), stamp(46, unread(mode, OPEN, outcomes)),
                              stamp(47, unread(mode, OPEN, outcomes)))],
                [call for mode in range(1, 7) for call in
                 reading(mode) + [stamp(45, 6), stamp(46, st(mode, OPEN, READ[mode])), stamp(47, st(mode, OPEN, READ[mode]))]])
picture_example('order, all faults at once and then one fault less each time, with kind 5',
                preview(6, 2, 45, SHORT, 4),
                open_(5, TODAY, AID), preview(6, 2, 45, SHORT, 9),
                reading(5), verdict(1, YES, F), verdict(2, YES, F),
                preview(6, 2, 45, SHORT, 10), preview(5, 2, 45, SHORT, 11), preview(5, YES, 45, SHORT, 12), preview(4, YES, 45, F, 13),
                preview(2, YES, 45, F, 14), preview(5, YES, 45, F, 6), preview(5, YES, 46, F, st(5, GRANTED, '2222002')),
                stamp(46, st(5, OPEN, '2222001')))

# Causes before step 2, expired cards, the next opening
picture_example('causes 16 and 17 and 19 and 21 and 22 in steps 0 and 1 of modes 5 and 6',
                open_(5, TODAY, AID), command(22, SELECT), answer('6A82'), stamp(46, unread(5, REJECTED, '1111001', 16, 0, '6A82')),
                to_step_1(6), command(22, GET_SIGNED), answer('6105'), command(22, '00C0000005'), answer('6105'),
                stamp(46, unread(6, REJECTED, '1111101', 17, 1)),
                open_(6, TODAY, AID), command(22, SELECT), answer('9000'), stamp(46, unread(6, REJECTED, '1111101', 19, 0)),
                to_step_1(5), command(22, GET_SIGNED), answer(signed(CHECK) + '9000'), stamp(46, unread(5, REJECTED, '1111001', 21, 1)),
                to_step_1(6), command(22, GET_SIGNED), answer(signed(F, 21000229) + '9000'), stamp(46, unread(6, REJECTED, '1111101', 22, 1)),
                to_step_1(6), command(22, GET_SIGNED), answer(unsigned(with_34=True) + '9000'), stamp(46, unread(6, REJECTED, '1111101', 20, 1)))
picture_example('modes 5 and 6, the card had expired on the opening date',
                reading(5, expiry=PAST), stamp(46, st(5, REJECTED, '1132001', 3, expiry=PAST)),
                preview(5, NO, 46, F, st(5, REJECTED, '1132003', 3, expiry=PAST)),
                verdict(1, YES, F), verdict(2, YES, F), preview(5, YES, 46, F, st(5, REJECTED, '2232002', 3, expiry=PAST)),
                reading(6, expiry=PAST), verdict(5, NO, F), preview(2, NO, 46, F, st(6, REJECTED, '1332103', 2, expiry=PAST)),
                preview(3, NO, 46, F, st(6, REJECTED, '1132303', 3, expiry=PAST)), stamp(46, st(6, REJECTED, '1132103', 3, expiry=PAST)))
picture_example('the next opening begins anew with no field and no outcome of the one before',
                reading(6), verdict(5, NO, F), field(0xBC, PICTURE), stamp(46, st(6, REJECTED, '1122103', 7)),
                open_(4, TODAY, AID), each_field(), stamp(46, unread(4, OPEN, '1111110')),
                reading(4), field(0xBC, FINGER), stamp(46, st(4, OPEN, '1122110')),
                open_(5, 20240229, AID), each_field(), stamp(46, unread(5, OPEN, '1111001', date=20240229)),
                to_end_of_step_1(5), field(0xBC, ''), command(22, GET_PICTURE), answer(PICTURE_OBJECT[:-4] + '6102'), field(0xBC, ''),
                reading(5), field(0xBC, PICTURE), stamp(46, NOW_5),
                open_(7, TODAY, AID, 1), field(0xBC, ''), stamp(46, 4))

everywhere('mode 6 with 61 and 6C in step 2',
           P4, open_(6, TODAY, AID), P9, command(22, SELECT), P9, answer(TEMPLATE + '9000'), P9,
           command(22, GET_SIGNED), P9, answer(S_OLD + '9000'), P9, [preview(5, YES, 46, F, 9)],
           stamp(46, st(6, OPEN, '1122101', step=2)), fields(**STEP_1_FIELDS),
           command(22, GET_PICTURE), P9, answer('6C00'), [preview(5, NO, 47, G, 9)], command(22, GET_PICTURE), P9,
           answer(PICTURE_OBJECT[:12] + '6107'), P9, fields(**STEP_1_FIELDS), command(22, '00C0000007'), P9,
           answer(PICTURE_OBJECT[12:] + '9000'), preview(5, YES, 46, F, st(6, OPEN, '1122102')), stamp(46, NOW_6),
           verdict(3, YES, F), preview(5, NO, 46, F, st(6, REJECTED, '1122203', 7)), preview(4, NO, 46, F, 13),
           verdict(5, YES, F), preview(5, NO, 46, F, 14), preview(1, NO, 46, F, st(6, REJECTED, '3122202', 1)),
           stamp(46, st(6, OPEN, '1122202')), fields(**dict(STEP_1_FIELDS, tBC=PICTURE)),
           verdict(2, YES, F), preview(1, YES, 46, F, st(6, GRANTED, '2222202')), preview(1, YES, 45, F, 6),
           verdict(1, YES, F), stamp(46, st(6, GRANTED, '2222202')), request=7)


# =====================================================================================================================
# The lines, checked and written
# =====================================================================================================================
def without_previews(texts):
    return [text for text in texts if not text.startswith('(preview')]


def put(name, lines):
    """The lines of a file of crates/vectors, those of this program in place of all lines of calls that are there, before the last three."""
    path = VECTORS / name
    old = path.read_text().split('\n')
    kept = [line for line in old if ': calls ' not in line]
    at = kept.index(next(line for line in kept if line.startswith('a line without a colon')))
    path.write_text('\n'.join(kept[:at] + lines + kept[at:]))


def main():
    assert [reference.unpack(x)[0] for x in (NONE, SHORT, LONG)] == [15] * 3
    assert [reference.unpack(x)[0] for x in (PARITY_LAST, PARITY_FIRST)] == [16] * 2
    assert [reference.unpack(x)[0] for x in (MARK, DIGIT, END_MARK)] == [17] * 3
    assert reference.unpack(CHECK)[0] == 18
    stdin, stdout, given = [], [], {}
    for label, calls in EXAMPLES:
        assert label not in given and ':' not in label, label
        line = b''.join(spelled for spelled, _ in calls)
        expected = [text for _, text in calls]
        texts = run(line)
        assert len(texts) == len(expected), label
        for text, stated, (spelled, _) in zip(texts, expected, calls):
            assert text == stated, '%s\n call %s\n reference %s\n stated    %s' % (label, spelled.hex(), text, stated)
        given[label] = texts
        stdin.append('%s: calls %s' % (label, hexof(line)))
        assert len(stdin[-1]) <= MOST_LINE, label
        stdout.append('%s gives %s' % (stdin[-1], ''.join(texts)))
    for with_them, without in PAIRS:
        assert without_previews(given[with_them]) == given[without]
    put('stdin', stdin)
    put('stdout', stdout)
    print(len(stdin), 'lines,', sum(len(texts) for texts in given.values()), 'calls')


if __name__ == '__main__':
    main()
