"""Composes the example scripts of `gate` from named pieces and writes them with their answers.

Every line of a script has its expected reply beside it, and every script the stamp that is
expected at its end, written out value by value.  What reference.py prints has to be the same.
Writes data/NAME, args, stdout and README.md of crates/gate_examples.
"""

import re
from pathlib import Path

import reference

HERE = Path(__file__).resolve().parent.parent / "crates" / "gate_examples"

# ------------------------------------------------------------ named pieces

# AIDs of documents 000, 001 and 004.
NEXGEN = "A000000367200000010103"
LEGACY = "A000000367200000010101"
PARTIAL = "A00000036720000001"
TEST_RID = "F054574943200000010101"

# FASC-Ns of documents 000 (document 01's sample), 001 and 003.
SAMPLE = "D4324858210C2D3171B525A1685A08C92ADE0A6184324843E2"
OTHER = "D70339DAA1822C10842125A1685821084216C1B9870339A3EB"
ZEROS = "D0439458210C2C19A0846D83685A1082108CE73984108CA3FC"
SAMPLE_DIGITS = "13410001987654111234567890113411"


def fascn(text):
    """The FASC-N of 32 digits, spaces left out."""
    refusal, packed = reference.pack([int(c) for c in text.replace(" ", "")])
    assert refusal == 0
    return packed.hex().upper()


assert fascn(SAMPLE_DIGITS) == SAMPLE
# As the sample, but for what the name says.
OTHER_ISSUE = fascn("1341 0001 987654 1 2 1234567890 1 1341 1")
OTHER_SERIES = fascn("1341 0001 987654 2 1 1234567890 1 1341 1")
OTHER_PERSON = fascn("1341 0001 987654 1 1 1234567891 1 1341 1")
OTHER_LAST_DIGIT = fascn("1341 0001 987654 1 1 1234567890 1 1341 2")


def with_character(place, value, check_anew=True):
    """The sample with one of its 40 characters written anew, at good parity, and the check character to suit."""
    values = [c[0] + 2 * c[1] + 4 * c[2] + 8 * c[3]
              for c in reference.characters(bytes.fromhex(SAMPLE))]
    values[place] = value
    if check_anew:
        values[39] = reference.exclusive_or(values[:39])
    return reference.pack_values(values).hex().upper()


WRONG_PARITY = SAMPLE[:-2] + "E3"
WRONG_MARK = with_character(5, 15)        # ES where FS should stand
WRONG_START = with_character(0, 13)       # FS where SS should stand
WRONG_DIGIT = with_character(1, 10)
WRONG_CHECK = with_character(39, 9, check_anew=False)

GUID = "30" * 16

# The encrypted fingers of document 000, 4.1.4: 672 bytes.
PUBLISHED_FINGERS = """
CCB21C990A631931B30568813ED9F2DF97877D488542529C7E6E20F639575631
51085C9C8DD854D2762FDBABD7ADD44290BF71A938CCDB8B6376A051C17F5FCD
33EA7B653CB5D98725EA209AF9EAC59C0882010B32E469433F161BF3B64BD878
293C50050B6066F30AB5CCAFEE7449D9B136C32E02B34BC469659E9B1C24F70A
8284DB03F082BD513927AFBE997638585E34A9490D383BEBC773BA70DC423F83
C5D7FF2A94A593F58F0E2BCA5F3CCCD94C82A2394B1AAAD691EB6AD1C8C5AE9D
67B6A7A32E2F79A3A0803283F79031370F1F0F66AC4F063EE09F057E643A3ED9
C1D4976BF45BBE67EB0DC9E15FE53A9CE4615422E8E4D0B9D544907BDD399CA4
2DFB663B8D7C107795D0B4265BA7FE1A70305CC1A4AEF06BD8EAA52EF5BC52B9
AF5C1C1E3911BFD2F6667912320DCF61193A54B478D64B2FCF89B287D9D0C693
BD2B84C7E763A5CFD576B0F587FBBDE938E284C1B7ED5E315EE2BDF78A08AEBF
16B32F30F255B474BA8D93023A138B9434F62BB720FB89EA5EE604DA4A8C95F1
C73F0C9E9D3C0199C430B371C7F18BE6F17948315FAA0C96147E035220333810
0F8EF27B621B6DA8205FC50A79D9054EE0C32856D39A66D48D77D6D3079C32E3
222D0E6851B13F6C2CE07DAC5BDBE68E6A743855C5E847BFF2856CED6466CF33
727A50153BFF8DADCD50891E07102327A6592202822C0B92911857027826F46A
4208F46FF424BAAFDA573AC8EF27B68A90835C337B907D85B868698F64E8F0FF
B65C2118F734E50160814443F44FBD596E725DF87DA41F65E0E0B4ED45B26E59
CBB356F7F458BB6FBAD1EAC0D7C31ED1E28C74E64F2D85512D96EE46E10B6C61
7F403745EE5B5CAC06FFDB88B8B5CF7456502BBB938004BC0E99DF79F68714BB
70FEBA61CDEC24D1311BB47A757699747D59892A9441A50AFAE7A64208F71733
""".replace("\n", "")
assert len(PUBLISHED_FINGERS) == 2 * 672


def some_bytes(count, start=17):
    """Bytes that stand for a signature, for encrypted fingers or for a picture."""
    return "".join("%02X" % ((start + 73 * place) % 256) for place in range(count))


def tlv(tag, value, form="short"):
    """Tag, length, value; the length as short as it goes, or in the form asked for (81, 82)."""
    count = len(value) // 2
    if form == "82" or form == "short" and count > 255:
        return tag + "82%04X" % count + value
    if form == "81" or form == "short" and count > 127:
        return tag + "81%02X" % count + value
    return tag + "%02X" % count + value


def date_bytes(date):
    return ("%s" % date).encode("ascii").hex().upper()


# Days: the gate's day, the day of the card's expiry.
TODAY = "20240715"
EXPIRY = "20281130"


# Values of the older elements (document 003, figures 1 and 2): agency code, organization identifier, DUNS.
# 97AS is document 003's example of a code with letters (6.4.2).
AGENCY_CODE = "97AS".encode("ascii").hex().upper()
ORGANIZATION = "70AC".encode("ascii").hex().upper()
DUNS = "081234567".encode("ascii").hex().upper()
ALL_FOUR = ("EE", "31", "32", "33")


def low_first(count):
    """Two bytes, the low one first, as in document 003's buffer length (3.1)."""
    return "%02X%02X" % (count % 256, count // 256)


def older_after_30(older, form):
    """Those of 31, 32 and 33 that are named."""
    return "".join(tlv(tag, value, form) for tag, value in (("31", AGENCY_CODE), ("32", ORGANIZATION), ("33", DUNS)) if tag in older)


def object_of(fields, older, form):
    """Tag 53 and the fields; before them, where it is named, EE with the count of the bytes that follow it."""
    return tlv("53", (tlv("EE", low_first(len(fields) // 2), form) if "EE" in older else "") + fields, form)


def signed(card=SAMPLE, expiry=EXPIRY, signature=some_bytes(32), form="short", older=()):
    """Object 5FC102; of the older elements those that are named."""
    return object_of(tlv("30", card, form) + older_after_30(older, form) + tlv("34", GUID, form) + tlv("35", date_bytes(expiry), form)
                     + tlv("3E", signature, form) + tlv("FE", "", form), older, form)


def unsigned(card=SAMPLE, expiry=EXPIRY, guid="", form="short", older=()):
    """Object 5FC104; field 34 only where a GUID is given, of the older elements those that are named."""
    return object_of(tlv("30", card, form) + older_after_30(older, form) + (tlv("34", guid, form) if guid else "")
                     + tlv("35", date_bytes(expiry), form) + tlv("FE", "", form), older, form)


def fingers(value=some_bytes(48, 5), end=True):
    """Object DFC103."""
    return tlv("53", tlv("BC", value) + ("FE00" if end else ""))


def picture(value=some_bytes(60, 9), end=True, form="short"):
    """Object DFC108."""
    return tlv("53", tlv("BC", value, form) + (tlv("FE", "", form) if end else ""), form)


# SELECT answers: document 01's, the whole AID as document 004 describes it, and one with a 79.
SHORT_TEMPLATE = "61084F06200000010103"
TEMPLATE = tlv("61", tlv("4F", NEXGEN))
LEGACY_TEMPLATE = tlv("61", tlv("4F", LEGACY))
TEMPLATE_79 = tlv("61", tlv("4F", NEXGEN) + tlv("79", tlv("4F", "A000000367")))
assert TEMPLATE_79 == "61164F0BA00000036720000001010379074F05A000000367"


# ------------------------------------------------- lines and their replies

def ok(line):
    return (line.encode("latin-1"), "(ok)")


def bad(line):
    return (line.encode("latin-1"), "(bad)")


def refused(number, line):
    return (line.encode("latin-1"), "(refused %d)" % number)


def opening(mode, date=TODAY, aid=NEXGEN):
    return "(open %s %s %s)" % (mode, date, aid)


def answer(data="", status="9000"):
    return "(answer %s%s)" % (data, status)


def verdict(kind, yes, card=SAMPLE):
    return "(verdict %s %s %s)" % (kind, yes, card)


def card(key):
    """The card line of 16 digits."""
    key = key.replace(" ", "")
    assert len(key) == 16
    return "(card (%s %s %s) (%s %s))" % (key[:4], key[4:8], key[8:14], key[14], key[15])


SAMPLE_CARD = card(SAMPLE_DIGITS[:16])
assert SAMPLE_CARD == "(card (1341 0001 987654) (1 1))"


def whole(data):
    """The step in one answer."""
    assert len(data) <= 512
    return [ok(answer(data))]


def pieces(data, size, begin_empty=False, end_empty=False):
    """The step in answers of `size` bytes of data; the status says what is left, 00 for 256 or more."""
    parts = [data[at:at + 2 * size] for at in range(0, len(data), 2 * size)]
    if begin_empty:
        parts.insert(0, "")
    if end_empty:
        parts.append("")
    lines, left = [], len(data) // 2
    for number, part in enumerate(parts):
        left -= len(part) // 2
        status = "9000" if number == len(parts) - 1 else "61%02X" % (left if left < 256 else 0)
        lines.append(ok(answer(part, status)))
    assert left == 0
    return lines


def more(data):
    """61 and the length of data that is still to come."""
    return "61%02X" % (len(data) // 2)


def select(template=TEMPLATE):
    return whole(template)


def yes(*kinds, card=SAMPLE):
    return [ok(verdict(kind, 1, card)) for kind in kinds]


# ------------------------------------------------------ stamps, by their values

OPEN, GRANTED, REJECTED = 0, 1, 2
NO_SESSION = "(refused 4)"


def stamp(mode, standing, cause, step, outcomes, card=SAMPLE, expiry=EXPIRY, date=TODAY, status="0000"):
    """The last line of a script, from the values of its finding."""
    assert len(outcomes) == 7 and len(status) == 4
    text = "%02X%02X%02X%s%02X" % (mode, standing, cause, status, step)
    text += "".join("0" + outcome for outcome in outcomes)
    text += "%08X" % int(date)
    text += (card + "%08X" % int(expiry)) if card else "00" * 29
    assert len(text) == 92
    return "(stamp %s)" % text


def unread(mode, standing, cause, step, status="0000", date=TODAY):
    """A stamp from before step 1's good end."""
    awaited = {1: "1111000", 2: "0011100", 3: "1111010", 4: "1111110", 5: "1111001", 6: "1111101"}[mode]
    return stamp(mode, standing, cause, step, awaited, card=None, status=status, date=date)


GRANTED_1 = stamp(1, GRANTED, 0, 3, "2222000")

# ---------------------------------------------------------------- scripts

groups = []            # (title, [script])
scripts = []           # (name, shows, quote, lines, last, newline)


def group(title):
    groups.append((title, []))


def script(name, shows, quote, lines, last, newline=True):
    entry = (name, shows, quote, lines, last, newline)
    scripts.append(entry)
    groups[-1][1].append(entry)


# ------------------------------------------------------------------ modes
group("Modes")

script("printed_example", "the printed example of document 01, with outcome 7: mode 2, granted",
       "The gate program's printed stamp gains 00 after its sixth outcome",
       [ok(opening(2, "20110410")), ok("(answer 61084F062000000101039000)"),
        ok("(answer 53273019" + SAMPLE + "35083230313130343130FE009000)"), ok(verdict(3, 1))],
       "(stamp 020100000003000002020200000132DC4A" + SAMPLE + "0132DC4A)")
script("mode_1_granted", "mode 1: signed object, verdicts 1 and 2",
       "Mode 1 needs 1–4",
       [ok(opening(1))] + select() + whole(signed()) + yes(1, 2), GRANTED_1)
script("mode_2_granted", "mode 2: unsigned object, verdict 3",
       "mode 2 needs 3–5",
       [ok(opening(2))] + select() + whole(unsigned()) + yes(3), stamp(2, GRANTED, 0, 3, "0022200"))
script("mode_3_granted", "mode 3: signed object and fingers, verdicts 1, 2 and 4",
       "mode 3 needs 1–4 and 6",
       [ok(opening(3))] + select() + whole(signed()) + whole(fingers()) + yes(1, 2, 4),
       stamp(3, GRANTED, 0, 3, "2222020"))
script("mode_4_granted", "mode 4: signed object and fingers, all four verdicts",
       "mode 4 goes on with 1–6",
       [ok(opening(4))] + select() + whole(signed()) + whole(fingers()) + yes(1, 2, 3, 4),
       stamp(4, GRANTED, 0, 3, "2222220"))
script("mode_1_kind_2_first_granted", "mode 1 with verdict 2 before verdict 1: the stamp of mode_1_granted",
       "A verdict call sets its check's outcome",
       [ok(opening(1))] + select() + whole(signed()) + yes(2, 1), GRANTED_1)
script("mode_4_kinds_reversed_granted", "mode 4 with the verdicts 4, 3, 2, 1: the stamp of mode_4_granted",
       "A verdict call sets its check's outcome",
       [ok(opening(4))] + select() + whole(signed()) + whole(fingers()) + yes(4, 3, 2, 1),
       stamp(4, GRANTED, 0, 3, "2222220"))
script("mode_2_with_guid_granted", "the unsigned object with its field 34",
       "34 (16, may be absent)",
       [ok(opening(2))] + select() + whole(unsigned(guid=GUID)) + yes(3), stamp(2, GRANTED, 0, 3, "0022200"))
script("mode_3_fingers_no_fe_granted", "the fingers object without field FE",
       "FE (0, may be absent)",
       [ok(opening(3))] + select() + whole(signed()) + whole(fingers(end=False)) + yes(1, 2, 4),
       stamp(3, GRANTED, 0, 3, "2222020"))
script("mode_3_published_fingers_granted", "the 672 bytes of fingers that document 000 prints, over three answers",
       "DFC103, fingers: BC (1 to 862)",
       [ok(opening(3))] + select(TEMPLATE_79) + whole(signed()) + pieces(fingers(PUBLISHED_FINGERS), 256) + yes(1, 2, 4),
       stamp(3, GRANTED, 0, 3, "2222020"))
script("mode_4_card_of_document_001_granted", "mode 4 with document 001's FASC-N, whose check value is 10",
       "The check value is the exclusive or",
       [ok(opening(4))] + select() + whole(signed(OTHER)) + whole(fingers()) + yes(1, 2, 3, 4, card=OTHER),
       stamp(4, GRANTED, 0, 3, "2222220", card=OTHER))
script("mode_1_older_card_granted", "the AID and the template of the older card",
       "not compared further",
       [ok(opening(1, aid=LEGACY))] + select(LEGACY_TEMPLATE) + whole(signed()) + yes(1, 2), GRANTED_1)
script("mode_1_partial_aid_granted", "SELECT of the partial AID, answered with the whole one",
       "not compared further",
       [ok(opening(1, aid=PARTIAL))] + select(TEMPLATE_79) + whole(signed()) + yes(1, 2), GRANTED_1)
script("mode_1_aid_5_bytes_granted", "the shortest AID that can be opened",
       "3 AID not 5–16 bytes",
       [ok(opening(1, aid="A000000367"))] + select() + whole(signed()) + yes(1, 2), GRANTED_1)
script("mode_1_aid_16_bytes_granted", "the longest AID that can be opened",
       "3 AID not 5–16 bytes",
       [ok(opening(1, aid=NEXGEN + "0405060708"))] + select() + whole(signed()) + yes(1, 2), GRANTED_1)

# ------------------------------------------------------------- still open
group("Readings left open")

script("open_nothing_read", "an opening and no answer",
       "needed outcomes 1, others 0",
       [ok(opening(1))], unread(1, OPEN, 0, 0))
script("open_mode_2_nothing_read", "the same in mode 2: other checks are awaited",
       "needed outcomes 1, others 0",
       [ok(opening(2))], unread(2, OPEN, 0, 0))
script("open_select_unfinished", "61 08 to SELECT, and no further answer",
       "After 61 GET RESPONSE is next",
       [ok(opening(1)), ok(answer("", "6108"))], unread(1, OPEN, 0, 0))
script("open_after_select", "the template read, the object not",
       "else the next step begins",
       [ok(opening(1))] + select(), unread(1, OPEN, 0, 1))
script("open_step_1_unfinished", "the object read but for its last piece: no FASC-N and no expiry yet",
       "both absent before step 1's good end",
       [ok(opening(1))] + select() + pieces(signed(), 64)[:-1], unread(1, OPEN, 0, 1))
script("open_step_2_next", "mode 3 after step 1: expiry and list judged, fingers not read",
       "Step 1's good end sets check 3",
       [ok(opening(3))] + select() + whole(signed()), stamp(3, OPEN, 0, 2, "1122010"))
script("open_all_read", "mode 1, all read, no verdict yet",
       "granted if step is 3 and each needed outcome is 2, else open",
       [ok(opening(1))] + select() + whole(signed()), stamp(1, OPEN, 0, 3, "1122000"))
script("open_one_verdict_missing", "mode 4 with three of its four verdicts",
       "granted if step is 3 and each needed outcome is 2, else open",
       [ok(opening(4))] + select() + whole(signed()) + whole(fingers()) + yes(1, 2, 4),
       stamp(4, OPEN, 0, 3, "2222120"))
script("open_then_refused_open", "mode 1 left open, then an opening with an unreal date",
       "An accepted open replaces the session; a refused one doesn't",
       [ok(opening(1))] + select() + whole(signed()) + yes(1) + [refused(2, opening(3, "20230229"))],
       stamp(1, OPEN, 0, 3, "2122000"))
script("open_refused_open_midway", "a refused opening between two pieces of the object; the reading goes on",
       "An accepted open replaces the session; a refused one doesn't",
       [ok(opening(1))] + select() + pieces(signed(), 60)[:1] + [refused(1, opening(9))]
       + pieces(signed(), 60)[1:] + yes(2), stamp(1, OPEN, 0, 3, "1222000"))

# ---------------------------------------------------------- cut in many ways
group("One card, cut in many ways (the stamp is the same in all of them)")

CUT = "nor does the cutting beyond these rules"
small = signed(signature="A5")
assert len(small) == 2 * 62
large = signed(signature=some_bytes(600))
assert len(large) == 2 * 665


def cut(name, shows, quote, step_0, step_1):
    script("cut_" + name, shows, quote, [ok(opening(1))] + step_0 + step_1 + yes(1, 2), GRANTED_1)


cut("01_one_answer_a_step", "a signed object of 62 bytes, one answer a step", CUT, whole(TEMPLATE), whole(small))
cut("02_16_byte_pieces", "the same card in pieces of 16 bytes", CUT, whole(TEMPLATE), pieces(small, 16))
cut("03_1_byte_pieces", "the same card, one byte an answer, the template too", CUT, pieces(TEMPLATE, 1), pieces(small, 1))
cut("04_empty_61_first", "the same card; SELECT and GET DATA are answered by 61 without data",
    "61, no data, and the command was GET RESPONSE", pieces(TEMPLATE, 256, begin_empty=True),
    pieces(small, 256, begin_empty=True))
cut("05_empty_9000_last", "the same card; all data comes with 61, then 90 00 alone",
    "After 90 00 the step's joined data is judged", pieces(TEMPLATE, 256, end_empty=True),
    pieces(small, 256, end_empty=True))
cut("06_empty_first_and_last", "the same card; 61 without data, pieces of 20 bytes, 90 00 alone", CUT,
    pieces(TEMPLATE, 20, True, True), pieces(small, 20, True, True))
cut("07_inside_tag_and_length", "the same card cut after the tag 53, after its length, inside field 30", CUT,
    [ok(answer("61", "610E")), ok(answer(TEMPLATE[2:]))],
    [ok(answer(small[:2], "613D")), ok(answer(small[2:4], "613C")), ok(answer(small[4:30], "612F")), ok(answer(small[30:]))])
cut("08_status_says_another_length", "the same card; the second byte after 61 is not the length that follows", CUT,
    [ok(answer(TEMPLATE[:10], "61FF")), ok(answer(TEMPLATE[10:]))],
    [ok(answer(small[:40], "6101")), ok(answer(small[40:80], "6100")), ok(answer(small[80:]))])
cut("11_large_256_byte_pieces", "a field 3E of 600 bytes, pieces of 256 bytes", CUT, whole(TEMPLATE), pieces(large, 256))
cut("12_large_16_byte_pieces", "the same in pieces of 16 bytes", CUT, whole(TEMPLATE), pieces(large, 16))
cut("13_large_empty_61_first", "the same; 61 00 without data, then pieces of 256 bytes",
    "61, no data, and the command was GET RESPONSE", whole(TEMPLATE), pieces(large, 256, begin_empty=True))
cut("14_large_empty_9000_last", "the same in pieces of 95 bytes, all with 61, then 90 00 alone",
    "After 90 00 the step's joined data is judged", whole(TEMPLATE), pieces(large, 95, end_empty=True))

# ------------------------------------------------------------ lengths, templates
group("Lengths, templates and dates that are good")

LONGER = "a longer form than needed is accepted"
script("length_53_27_granted", "the unsigned object with 53 27",
       "Lengths are 00 to 7F",
       [ok(opening(2))] + select() + [ok(answer("5327" + unsigned()[4:]))] + yes(3), stamp(2, GRANTED, 0, 3, "0022200"))
script("length_53_81_27_granted", "the same object with 53 81 27",
       "53 81 27 opens the object above as well as 53 27",
       [ok(opening(2))] + select() + [ok(answer("538127" + unsigned()[4:]))] + yes(3), stamp(2, GRANTED, 0, 3, "0022200"))
script("length_53_82_00_27_granted", "the same object with 53 82 00 27", LONGER,
       [ok(opening(2))] + select() + [ok(answer("53820027" + unsigned()[4:]))] + yes(3), stamp(2, GRANTED, 0, 3, "0022200"))
script("length_81_in_fields_granted", "every length of the signed object as 81 and one byte, FE 81 00 too", LONGER,
       [ok(opening(1))] + select(tlv("61", tlv("4F", NEXGEN, "81"), "81")) + whole(signed(form="81")) + yes(1, 2), GRANTED_1)
script("length_82_in_fields_granted", "every length of the signed object as 82 and two bytes", LONGER,
       [ok(opening(1))] + select(tlv("61", tlv("4F", NEXGEN, "82"), "82")) + whole(signed(form="82")) + yes(1, 2), GRANTED_1)
script("signature_1_byte_granted", "a field 3E of 1 byte", "3E (1 to 2,816)",
       [ok(opening(1))] + select() + whole(signed(signature="00")) + yes(1, 2), GRANTED_1)
script("signature_300_bytes_granted", "a field 3E of 300 bytes", "3E (1 to 2,816)",
       [ok(opening(1))] + select() + pieces(signed(signature=some_bytes(300)), 256) + yes(1, 2), GRANTED_1)
longest_without = signed(signature=some_bytes(2816), form="82")
assert len(longest_without) == 2 * 2889
script("signature_2816_bytes_granted",
       "the longest signed object without the older elements: 3E of 2,816 bytes, every length with 82, 2,889 bytes in all",
       "3E (1 to 2,816)",
       [ok(opening(1))] + select() + pieces(longest_without, 256) + yes(1, 2), GRANTED_1)
script("fingers_1_byte_granted", "a field BC of 1 byte", "BC (1 to 862)",
       [ok(opening(3))] + select() + whole(signed()) + whole(fingers("7E")) + yes(1, 2, 4), stamp(3, GRANTED, 0, 3, "2222020"))
script("fingers_862_bytes_granted", "a field BC of 862 bytes", "BC (1 to 862)",
       [ok(opening(3))] + select() + whole(signed()) + pieces(fingers(some_bytes(862)), 256) + yes(1, 2, 4),
       stamp(3, GRANTED, 0, 3, "2222020"))
script("template_document_01_granted", "the template of document 01, whose 4F has 6 bytes", "just one 4F of 1 to 16 bytes",
       [ok(opening(1))] + select(SHORT_TEMPLATE) + whole(signed()) + yes(1, 2), GRANTED_1)
script("template_4f_1_byte_granted", "a 4F of 1 byte", "just one 4F of 1 to 16 bytes",
       [ok(opening(1))] + select("61034F01A0") + whole(signed()) + yes(1, 2), GRANTED_1)
script("template_4f_16_bytes_granted", "a 4F of 16 bytes", "just one 4F of 1 to 16 bytes",
       [ok(opening(1))] + select(tlv("61", tlv("4F", NEXGEN + "0405060708"))) + whole(signed()) + yes(1, 2), GRANTED_1)
script("template_4f_deeper_granted", "a second 4F inside a 79, of 17 bytes: only what 61 directly holds is counted",
       "It directly holds just one 4F",
       [ok(opening(1))] + select(tlv("61", tlv("79", tlv("4F", "00" * 17)) + tlv("4F", NEXGEN))) + whole(signed()) + yes(1, 2),
       GRANTED_1)
DEPTH_4 = tlv("61", tlv("4F", NEXGEN) + tlv("79", tlv("E0", tlv("E1", "") + tlv("80", "AA"))))
script("template_depth_4_granted", "TLVs at depth 4, one of them nested and empty", "to a depth of 4 counting 61 as 1",
       [ok(opening(1))] + select(DEPTH_4) + whole(signed()) + yes(1, 2), GRANTED_1)
LONG_TAGS = tlv("61", tlv("5F50", "6869") + tlv("4F", NEXGEN) + tlv("7F8101", tlv("DF8102", "00")) + tlv("00", ""))
script("template_long_tags_granted", "tags of two and three bytes, and a tag 00", "a third if the second's top bit is set",
       [ok(opening(1))] + select(LONG_TAGS) + whole(signed()) + yes(1, 2), GRANTED_1)
script("date_20240229_granted", "expiry 20240229, opened on that day", "20240229 real",
       [ok(opening(1, "20240229"))] + select() + whole(signed(expiry="20240229")) + yes(1, 2),
       stamp(1, GRANTED, 0, 3, "2222000", expiry="20240229", date="20240229"))
script("date_20000229_granted", "expiry 20000229, opened the day before", "20000229 real",
       [ok(opening(1, "20000228"))] + select() + whole(signed(expiry="20000229")) + yes(1, 2),
       stamp(1, GRANTED, 0, 3, "2222000", expiry="20000229", date="20000228"))
script("date_first_and_last_granted", "opened on 00010101, expiry 99991231", "year 0001 to 9999",
       [ok(opening(1, "00010101"))] + select() + whole(signed(expiry="99991231")) + yes(1, 2),
       stamp(1, GRANTED, 0, 3, "2222000", expiry="99991231", date="00010101"))

# ------------------------------------------------------------- causes 16 to 18
group("Cause 16: another status word")

R16 = "Status neither 90 00 nor 61 with any second byte: cause 16"
script("cause_16_select_6a82", "no such application", R16,
       [ok(opening(1)), ok(answer("", "6A82")), refused(5, answer(TEMPLATE)), refused(9, verdict(1, 1))],
       unread(1, REJECTED, 16, 0, "6A82"))
script("cause_16_object_6982", "no right to read the object, mode 2", R16,
       [ok(opening(2))] + select() + [ok(answer("", "6982")), refused(5, answer(unsigned()))],
       unread(2, REJECTED, 16, 1, "6982"))
script("cause_16_fingers_6a81", "the fingers are not given: FASC-N, expiry and the outcomes of step 1 stay", R16,
       [ok(opening(3))] + select() + whole(signed()) + [ok(answer("", "6A81")), refused(9, verdict(1, 1))],
       stamp(3, REJECTED, 16, 2, "1122010", status="6A81"))
script("cause_16_get_response_6700", "61 with data, then 67 00 to GET RESPONSE", R16,
       [ok(opening(1))] + select() + pieces(signed(), 64)[:1] + [ok(answer("", "6700")), refused(5, answer("", "9000"))],
       unread(1, REJECTED, 16, 1, "6700"))
script("cause_16_63c0", "63 C0 to SELECT", R16,
       [ok(opening(4)), ok(answer("", "63C0"))], unread(4, REJECTED, 16, 0, "63C0"))
script("cause_16_6983", "69 83 to GET DATA", R16,
       [ok(opening(1))] + select() + [ok(answer("", "6983"))], unread(1, REJECTED, 16, 1, "6983"))
script("cause_16_data_dropped", "a whole good object with status 62 82", "cause 16, data dropped",
       [ok(opening(1))] + select() + [ok(answer(signed(), "6282"))], unread(1, REJECTED, 16, 1, "6282"))
script("cause_16_status_9001", "a whole good object with status 90 01", R16,
       [ok(opening(1))] + select() + [ok(answer(signed(), "9001"))], unread(1, REJECTED, 16, 1, "9001"))
script("cause_16_cancelled_card", "a cancelled card that has expired too, then 6A 82 for the fingers: 16 comes before the checks",
       "Cause is 16 to 22 if one arose, else the lowest check",
       [ok(SAMPLE_CARD), ok(opening(3))] + select() + whole(signed(expiry="20240714")) + [ok(answer("", "6A82"))],
       stamp(3, REJECTED, 16, 2, "1133010", expiry="20240714", status="6A82"))

group("Cause 17: 61 without data to GET RESPONSE")

R17 = "61, no data, and the command was GET RESPONSE: cause 17"
script("cause_17_empty_61", "61 01 to GET DATA, then 61 01 to GET RESPONSE", R17,
       [ok(opening(1))] + select() + [ok(answer("", "6101")), ok(answer("", "6101"))], unread(1, REJECTED, 17, 1))
script("cause_17_endless_61", "document 002's endless loop: the second empty 61 ends the reading, further ones are refused",
       "an empty 61 polled without end (document 002)",
       [ok(opening(1, aid=PARTIAL))] + select(TEMPLATE_79) + [ok(answer("", more(signed())))] * 2
       + [refused(5, answer("", more(signed())))] * 5, unread(1, REJECTED, 17, 1))
script("cause_17_select", "the same in step 0, with 61 00", R17,
       [ok(opening(2)), ok(answer("", "6100")), ok(answer("", "6100")), refused(5, answer(TEMPLATE))],
       unread(2, REJECTED, 17, 0))
script("cause_17_fingers", "the same in step 2: FASC-N and expiry stay", R17,
       [ok(opening(4))] + select() + whole(signed()) + [ok(answer("", more(fingers())))] * 2,
       stamp(4, REJECTED, 17, 2, "1122110"))
script("cause_17_after_data", "61 with data, then 61 without", R17,
       [ok(opening(1))] + select() + [ok(answer(small[:40], "612A")), ok(answer("", "612A")), refused(5, answer(small[40:]))],
       unread(1, REJECTED, 17, 1))
script("cause_17_object_complete", "all data has come with 61, then 61 without data instead of 90 00", R17,
       [ok(opening(1))] + select() + [ok(answer(small, "6100")), ok(answer("", "6100"))],
       unread(1, REJECTED, 17, 1))
script("empty_61_then_data_granted", "61 00 without data to GET DATA, then data: 61 00 is no error and not the end",
       "61 00 leads to 00 C0 00 00 00",
       [ok(opening(1))] + select() + [ok(answer("", "6100")), ok(answer(signed()))] + yes(1, 2), GRANTED_1)
script("empty_61_in_every_step_granted", "61 without data to SELECT and to both GET DATA commands",
       "61, no data, and the command was GET RESPONSE",
       [ok(opening(3)), ok(answer("", more(TEMPLATE)))] + select() + [ok(answer("", "6100"))] + whole(signed())
       + [ok(answer("", more(fingers())))] + whole(fingers()) + yes(1, 2, 4), stamp(3, GRANTED, 0, 3, "2222020"))
script("data_with_61_00_granted", "61 00 with data to GET DATA and to GET RESPONSE",
       "61 00 read as no data",
       [ok(opening(1))] + select() + [ok(answer(small[:60], "6100")), ok(answer(small[60:100], "6100")), ok(answer(small[100:]))]
       + yes(1, 2), GRANTED_1)

group("Cause 18: more than 4,096 bytes in a step")

R18 = "Step's total would pass 4,096: cause 18"
full_template = tlv("61", tlv("4F", NEXGEN) + tlv("5F50", some_bytes(4074)))
assert len(full_template) == 2 * 4096
full_object = "53820FFC" + some_bytes(4092)
assert len(full_object) == 2 * 4096
script("full_4096_template_granted", "a good template of exactly 4,096 bytes", R18,
       [ok(opening(1))] + pieces(full_template, 256) + whole(signed()) + yes(1, 2), GRANTED_1)
script("cause_18_object_4097", "an object of 4,096 bytes, then one byte more with 61", R18,
       [ok(opening(1))] + select() + pieces(full_object, 256)[:-1]
       + [ok(answer(full_object[-512:], "6101")), ok(answer("FE", "6101")), refused(5, answer("00", "9000"))],
       unread(1, REJECTED, 18, 1))
script("cause_18_fingers_4097", "step 2: 4,000 bytes, then 97 more in one answer; FASC-N and expiry stay", R18,
       [ok(opening(3))] + select() + whole(signed()) + pieces(full_object, 250)[:16] + [ok(answer(some_bytes(97)))],
       stamp(3, REJECTED, 18, 2, "1122010"))
script("cause_20_object_4096", "exactly 4,096 bytes, then 90 00 alone: they are judged", R18,
       [ok(opening(1))] + select() + pieces(full_object, 256, end_empty=True), unread(1, REJECTED, 20, 1))
script("cause_16_before_18", "4,096 bytes, then more with status 6A 82: the first rule that fits", "Its effect, first rule that fits",
       [ok(opening(1))] + select() + pieces(full_object, 256, end_empty=True)[:-1] + [ok(answer("FE00", "6A82"))],
       unread(1, REJECTED, 16, 1, "6A82"))

# --------------------------------------------------- cards that correct the length
group("Cards that correct the length: 6C")

SAME_COMMAND = "makes the next command the same one with its last byte replaced by the second status byte"
TAKEN = "It counts as taken"
SECOND_6C = "A second 6C straight after the first is cause 16"
WITH_DATA = "and so is a 6C with data"
NO_DATA = "Such an answer without data"
first, rest = small[:40], small[40:]                     # 20 and 42 bytes
GRANTED_3 = stamp(3, GRANTED, 0, 3, "2222020")

# Taken, each command by itself.
script("corrected_select_granted", "6C 0F to SELECT, then the template of 15 bytes", SAME_COMMAND,
       [ok(opening(1)), ok(answer("", "6C0F"))] + select() + whole(signed()) + yes(1, 2), GRANTED_1)
script("corrected_get_data_granted", "6C 5D to GET DATA, then the signed object of 93 bytes", SAME_COMMAND,
       [ok(opening(1))] + select() + [ok(answer("", "6C5D"))] + whole(signed()) + yes(1, 2), GRANTED_1)
script("corrected_get_data_mode_2_granted", "6C 29 to GET DATA in mode 2, then the unsigned object of 41 bytes", SAME_COMMAND,
       [ok(opening(2))] + select() + [ok(answer("", "6C29"))] + whole(unsigned()) + yes(3), stamp(2, GRANTED, 0, 3, "0022200"))
script("corrected_fingers_granted", "6C 36 to the second GET DATA, mode 3, then the fingers of 54 bytes", SAME_COMMAND,
       [ok(opening(3))] + select() + whole(signed()) + [ok(answer("", "6C36"))] + whole(fingers()) + yes(1, 2, 4), GRANTED_3)
script("corrected_get_response_granted", "20 bytes of the object with 61 2A, 6C 2A to GET RESPONSE, then the other 42", SAME_COMMAND,
       [ok(opening(1))] + select() + [ok(answer(first, "612A")), ok(answer("", "6C2A")), ok(answer(rest))] + yes(1, 2), GRANTED_1)
script("corrected_get_response_step_0_granted", "61 0F to SELECT, 6C 0F to GET RESPONSE, then the template", SAME_COMMAND,
       [ok(opening(1)), ok(answer("", "610F")), ok(answer("", "6C0F"))] + select() + whole(signed()) + yes(1, 2), GRANTED_1)
script("corrected_get_response_step_2_granted", "61 36 to the second GET DATA, 6C 36 to GET RESPONSE, then the fingers", SAME_COMMAND,
       [ok(opening(3))] + select() + whole(signed()) + [ok(answer("", "6136")), ok(answer("", "6C36"))] + whole(fingers()) + yes(1, 2, 4),
       GRANTED_3)
script("corrected_6c00_select_granted", "6C 00 to SELECT: the second byte is as any other", SAME_COMMAND,
       [ok(opening(1)), ok(answer("", "6C00"))] + select() + whole(signed()) + yes(1, 2), GRANTED_1)
script("corrected_6c00_get_data_granted", "6C 00 to GET DATA, then an object of 665 bytes in pieces of 256", SAME_COMMAND,
       [ok(opening(1))] + select() + [ok(answer("", "6C00"))] + pieces(large, 256) + yes(1, 2), GRANTED_1)
script("corrected_6c00_get_response_granted", "61 00 to GET DATA, then 6C 00 to GET RESPONSE", SAME_COMMAND,
       [ok(opening(1))] + select() + [ok(answer("", "6100")), ok(answer("", "6C00"))] + whole(signed()) + yes(1, 2), GRANTED_1)
script("corrected_another_length_granted", "6C 01 and 6C FF, and data of another length than they say", SAME_COMMAND,
       [ok(opening(1)), ok(answer("", "6C01"))] + select() + [ok(answer("", "6CFF"))] + whole(signed()) + yes(1, 2), GRANTED_1)

# Taken again, after any other answer.
script("corrected_every_step_granted", "6C to SELECT and to both GET DATA commands: 90 00 stands between", SECOND_6C,
       [ok(opening(3)), ok(answer("", "6C0F"))] + select() + [ok(answer("", "6C5D"))] + whole(signed())
       + [ok(answer("", "6C36"))] + whole(fingers()) + yes(1, 2, 4), GRANTED_3)
script("corrected_last_and_first_granted", "6C to the last GET RESPONSE of a step, its good end, and 6C at once to the next step's command, mode 4",
       SECOND_6C,
       [ok(opening(4)), ok(answer(TEMPLATE[:10], "610A")), ok(answer("", "6C0A")), ok(answer(TEMPLATE[10:])), ok(answer("", "6C3E")),
        ok(answer(first, "612A")), ok(answer("", "6C2A")), ok(answer(rest)), ok(answer("", "6C36"))] + whole(fingers()) + yes(1, 2, 3, 4),
       stamp(4, GRANTED, 0, 3, "2222220"))
script("corrected_twice_61_with_data_granted", "6C to GET DATA, 61 with data, 6C to GET RESPONSE, then the rest", SECOND_6C,
       [ok(opening(1))] + select() + [ok(answer("", "6C3E")), ok(answer(first, "612A")), ok(answer("", "6C2A")), ok(answer(rest))]
       + yes(1, 2), GRANTED_1)
script("corrected_twice_61_without_data_granted", "6C to SELECT, 61 without data, 6C to GET RESPONSE, then the template", SECOND_6C,
       [ok(opening(1)), ok(answer("", "6C0F")), ok(answer("", "610F")), ok(answer("", "6C0F"))] + select() + whole(signed())
       + yes(1, 2), GRANTED_1)
before_each = [line for piece in pieces(TEMPLATE, 1) + pieces(small, 1) for line in (ok(answer("", "6C01")), piece)]
assert len(before_each) == 2 * (15 + 62)
script("corrected_before_every_byte_granted", "template and object one byte an answer, 6C 01 before each of them", SECOND_6C,
       [ok(opening(1))] + before_each + yes(1, 2), GRANTED_1)

# A second one straight after the first.
script("cause_16_6c_twice_select", "6C 0F, then 6C 10 to SELECT: the status word is the second one's", SECOND_6C,
       [ok(opening(1)), ok(answer("", "6C0F")), ok(answer("", "6C10")), refused(5, answer(TEMPLATE))],
       unread(1, REJECTED, 16, 0, "6C10"))
script("cause_16_6c_twice_get_data", "6C 5D, then 6C 00 to GET DATA", SECOND_6C,
       [ok(opening(1))] + select() + [ok(answer("", "6C5D")), ok(answer("", "6C00")), refused(5, answer(signed()))],
       unread(1, REJECTED, 16, 1, "6C00"))
script("cause_16_6c_twice_fingers", "6C 00, then 6C 36 to the second GET DATA, mode 4: FASC-N and expiry stay", SECOND_6C,
       [ok(opening(4))] + select() + whole(signed()) + [ok(answer("", "6C00")), ok(answer("", "6C36")), refused(5, answer(fingers()))],
       stamp(4, REJECTED, 16, 2, "1122110", status="6C36"))
script("cause_16_6c_twice_get_response", "61 with data, then 6C 2A and 6C 2B to GET RESPONSE", SECOND_6C,
       [ok(opening(1))] + select() + [ok(answer(first, "612A")), ok(answer("", "6C2A")), ok(answer("", "6C2B")), refused(5, answer(rest))],
       unread(1, REJECTED, 16, 1, "6C2B"))
script("cause_16_6c_twice_the_same", "6C 0F twice to SELECT, mode 2", SECOND_6C,
       [ok(opening(2)), ok(answer("", "6C0F")), ok(answer("", "6C0F")), refused(9, verdict(3, 1))], unread(2, REJECTED, 16, 0, "6C0F"))
script("cause_16_6c_twice_later", "6C 3E, 61 with data, then 6C 2A and 6C 2B: the third 6C stands straight after the second", SECOND_6C,
       [ok(opening(1))] + select()
       + [ok(answer("", "6C3E")), ok(answer(first, "612A")), ok(answer("", "6C2A")), ok(answer("", "6C2B")), refused(5, answer(rest))],
       unread(1, REJECTED, 16, 1, "6C2B"))
script("cause_16_6c_then_6700", "6C 0F to SELECT, then 67 00", R16,
       [ok(opening(1)), ok(answer("", "6C0F")), ok(answer("", "6700")), refused(5, answer(TEMPLATE))], unread(1, REJECTED, 16, 0, "6700"))

# With data, and status words that are not quite 6C.
script("cause_16_6c_with_data_select", "a whole good template with 6C 0F", WITH_DATA,
       [ok(opening(1)), ok(answer(TEMPLATE, "6C0F")), refused(5, answer(TEMPLATE))], unread(1, REJECTED, 16, 0, "6C0F"))
script("cause_16_6c_with_one_byte", "one byte of data with 6C 5D to GET DATA", WITH_DATA,
       [ok(opening(1))] + select() + [ok(answer("53", "6C5D")), refused(5, answer(signed()))], unread(1, REJECTED, 16, 1, "6C5D"))
script("cause_16_6c_with_data_after_61", "61 with data, then the other 42 bytes with 6C 2A to GET RESPONSE", WITH_DATA,
       [ok(opening(1))] + select() + [ok(answer(first, "612A")), ok(answer(rest, "6C2A")), refused(5, answer("", "9000"))],
       unread(1, REJECTED, 16, 1, "6C2A"))
script("cause_16_6c_with_data_after_empty_61", "61 without data, then the template with 6C 00 to GET RESPONSE", WITH_DATA,
       [ok(opening(1)), ok(answer("", "610F")), ok(answer(TEMPLATE, "6C00")), refused(5, answer("", "9000"))],
       unread(1, REJECTED, 16, 0, "6C00"))
script("cause_16_6c_with_data_after_6c", "6C 0F, then the template with 6C 10", WITH_DATA,
       [ok(opening(1)), ok(answer("", "6C0F")), ok(answer(TEMPLATE, "6C10"))], unread(1, REJECTED, 16, 0, "6C10"))
script("cause_16_6c_with_data_before_18", "4,096 bytes, then more with 6C 01: the first rule that fits", "Its effect, first rule that fits",
       [ok(opening(1))] + select() + pieces(full_object, 256, end_empty=True)[:-1] + [ok(answer("FE", "6C01"))],
       unread(1, REJECTED, 16, 1, "6C01"))
script("cause_16_status_6b0f", "6B 0F to SELECT", R16, [ok(opening(1)), ok(answer("", "6B0F"))], unread(1, REJECTED, 16, 0, "6B0F"))
script("cause_16_status_6d00", "6D 00 to SELECT", R16, [ok(opening(1)), ok(answer("", "6D00"))], unread(1, REJECTED, 16, 0, "6D00"))
script("cause_16_status_0f6c", "the bytes of 6C 0F in another order", R16,
       [ok(opening(1)), ok(answer("", "0F6C"))], unread(1, REJECTED, 16, 0, "0F6C"))
script("status_61_6c_then_6c_granted", "61 6C to GET DATA is a 61; then 6C 5D to GET RESPONSE", "61 with any second byte",
       [ok(opening(1))] + select() + [ok(answer("", "616C")), ok(answer("", "6C5D"))] + whole(signed()) + yes(1, 2), GRANTED_1)

# Rule 2: which command it was.
script("corrected_select_empty_61_granted", "6C 0F to SELECT, then 61 0F without data: the command was SELECT", R17,
       [ok(opening(1)), ok(answer("", "6C0F")), ok(answer("", "610F"))] + select() + whole(signed()) + yes(1, 2), GRANTED_1)
script("corrected_get_data_empty_61_granted", "6C 5D to GET DATA, then 61 5D without data: the command was GET DATA", R17,
       [ok(opening(1))] + select() + [ok(answer("", "6C5D")), ok(answer("", "615D"))] + whole(signed()) + yes(1, 2), GRANTED_1)
script("corrected_fingers_empty_61_granted", "step 1 ends with a corrected GET RESPONSE; 6C and 61 without data to the second GET DATA", R17,
       [ok(opening(3))] + select() + [ok(answer("", "615D")), ok(answer("", "6C5D"))] + whole(signed())
       + [ok(answer("", "6C36")), ok(answer("", "6136"))] + whole(fingers()) + yes(1, 2, 4), GRANTED_3)
script("cause_17_6c_get_response", "61 without data to GET DATA, 6C 5D to GET RESPONSE, 61 without data to the corrected one", R17,
       [ok(opening(1))] + select() + [ok(answer("", "615D")), ok(answer("", "6C5D")), ok(answer("", "615D")), refused(5, answer(signed()))],
       unread(1, REJECTED, 17, 1))
script("cause_17_6c_get_response_after_data", "the same after 61 with data", R17,
       [ok(opening(1))] + select() + [ok(answer(first, "612A")), ok(answer("", "6C2A")), ok(answer("", "612A")), refused(5, answer(rest))],
       unread(1, REJECTED, 17, 1))
script("cause_17_6c_get_response_fingers", "the same in step 2, mode 4", R17,
       [ok(opening(4))] + select() + whole(signed()) + [ok(answer("", "6136")), ok(answer("", "6C36")), ok(answer("", "6136"))],
       stamp(4, REJECTED, 17, 2, "1122110"))
script("cause_17_6c_select", "6C 0F to SELECT, then 61 without data twice: the second was to GET RESPONSE", R17,
       [ok(opening(1)), ok(answer("", "6C0F")), ok(answer("", "610F")), ok(answer("", "610F")), refused(5, answer(TEMPLATE))],
       unread(1, REJECTED, 17, 0))
script("cause_17_6c_get_data", "the same with GET DATA", R17,
       [ok(opening(1))] + select() + [ok(answer("", "6C5D")), ok(answer("", "615D")), ok(answer("", "615D")), refused(5, answer(signed()))],
       unread(1, REJECTED, 17, 1))
script("cause_17_6c_both_times", "6C, 61 without data, 6C, 61 without data, all in step 0", R17,
       [ok(opening(1)), ok(answer("", "6C0F")), ok(answer("", "610F")), ok(answer("", "6C0F")), ok(answer("", "610F")),
        refused(5, answer("", "6C0F"))], unread(1, REJECTED, 17, 0))

# Other lines between.
COUNT_NOTHING = "they count for nothing"
OTHER_LINES = "for other or longer lines and a 1,025th card, `(bad)`"
REPLACES = "An accepted open replaces the session; a refused one doesn't"
LENT = "3 if the key stands anywhere in the list lent with that answer"
script("cause_16_6c_short_answer_between", "6C 0F, an answer of one byte, 6C 10: the refused answer does not stand between", COUNT_NOTHING,
       [ok(opening(1)), ok(answer("", "6C0F")), refused(8, answer("", "61")), ok(answer("", "6C10")), refused(5, answer(TEMPLATE))],
       unread(1, REJECTED, 16, 0, "6C10"))
script("cause_16_6c_long_answer_between", "the same with an answer of 259 bytes, to GET DATA", COUNT_NOTHING,
       [ok(opening(1))] + select() + [ok(answer("", "6C5D")), refused(8, answer(some_bytes(257), "6101")), ok(answer("", "6C5E"))],
       unread(1, REJECTED, 16, 1, "6C5E"))
script("cause_16_6c_bad_line_between", "the same with bad lines", OTHER_LINES,
       [ok(opening(1)), ok(answer("", "6C0F")), bad("(answer 610f)"), bad(""), ok(answer("", "6C10"))], unread(1, REJECTED, 16, 0, "6C10"))
script("cause_16_6c_refused_open_between", "the same with openings refused with 1, 2 and 3", REPLACES,
       [ok(opening(1)), ok(answer("", "6C0F")), refused(1, opening(9)), refused(2, opening(1, "20230229")), refused(3, opening(1, aid="A0000003")),
        ok(answer("", "6C10"))], unread(1, REJECTED, 16, 0, "6C10"))
script("cause_16_6c_card_line_between", "the same with a card line and a verdict refused with 9", COUNT_NOTHING,
       [ok(opening(1)), ok(answer("", "6C0F")), ok(SAMPLE_CARD), refused(9, verdict(1, 1)), ok(answer("", "6C10"))],
       unread(1, REJECTED, 16, 0, "6C10"))
script("refused_8_then_6c_granted", "the byte 6C alone, and 259 bytes that end in 6C 0F: neither counts as the first 6C", COUNT_NOTHING,
       [ok(opening(1)), refused(8, answer("", "6C")), refused(8, answer(some_bytes(257), "6C0F")), ok(answer("", "6C0F"))] + select()
       + whole(signed()) + yes(1, 2), GRANTED_1)
script("refused_8_after_6c_select_granted", "6C 0F to SELECT, an answer of one byte, 61 without data: the command outstanding is still SELECT", COUNT_NOTHING,
       [ok(opening(1)), ok(answer("", "6C0F")), refused(8, answer("", "6C")), ok(answer("", "610F"))] + select() + whole(signed()) + yes(1, 2),
       GRANTED_1)
script("cause_17_6c_short_answer_between", "6C 5D to GET RESPONSE, an answer of one byte, 61 without data: the command outstanding is still GET RESPONSE",
       COUNT_NOTHING,
       [ok(opening(1))] + select() + [ok(answer("", "615D")), ok(answer("", "6C5D")), refused(8, answer("", "6C")), ok(answer("", "615D"))],
       unread(1, REJECTED, 17, 1))
script("second_open_between_6c_granted", "6C 0F, an accepted opening, 6C 0F: the new session begins anew", REPLACES,
       [ok(opening(1)), ok(answer("", "6C0F")), ok(opening(1)), ok(answer("", "6C0F"))] + select() + whole(signed()) + yes(1, 2), GRANTED_1)
script("second_open_6c_get_response_granted", "6C to GET RESPONSE, an accepted opening, 6C and 61 without data: the command is SELECT again", REPLACES,
       [ok(opening(1)), ok(answer("", "610F")), ok(answer("", "6C0F")), ok(opening(1)), ok(answer("", "6C0F")), ok(answer("", "610F"))] + select()
       + whole(signed()) + yes(1, 2), GRANTED_1)
script("cause_4_card_line_after_6c", "6C 5D to GET DATA, the card line, then the object", LENT,
       [ok(opening(1))] + select() + [ok(answer("", "6C5D")), ok(SAMPLE_CARD)] + whole(signed()) + yes(1, 2), stamp(1, REJECTED, 4, 3, "2223000"))

# Nothing is appended, and nothing dropped.
script("corrected_amid_pieces_granted", "each step in two pieces with a 6C between them, mode 4", NO_DATA,
       [ok(opening(4)), ok(answer(TEMPLATE[:2], "610E")), ok(answer("", "6C0E")), ok(answer(TEMPLATE[2:])),
        ok(answer(small[:2], "613D")), ok(answer("", "6C3D")), ok(answer(small[2:])),
        ok(answer(fingers()[:40], "6122")), ok(answer("", "6C22")), ok(answer(fingers()[40:]))] + yes(1, 2, 3, 4),
       stamp(4, GRANTED, 0, 3, "2222220"))
script("corrected_empty_9000_last_granted", "the whole object with 61, 6C to GET RESPONSE, then 90 00 alone", NO_DATA,
       [ok(opening(1))] + select() + [ok(answer(small, "6100")), ok(answer("", "6C00")), ok(answer("", "9000"))] + yes(1, 2), GRANTED_1)
script("corrected_full_4096_template_granted", "a good template of exactly 4,096 bytes, 6C 00, then 90 00 alone", NO_DATA,
       [ok(opening(1))] + pieces(full_template, 256, end_empty=True)[:-1] + [ok(answer("", "6C00")), ok(answer("", "9000"))] + whole(signed())
       + yes(1, 2), GRANTED_1)
script("cause_20_6c_after_4096", "an object of 4,096 bytes, 6C 00, then 90 00 alone: they are judged", NO_DATA,
       [ok(opening(1))] + select() + pieces(full_object, 256, end_empty=True)[:-1] + [ok(answer("", "6C00")), ok(answer("", "9000"))],
       unread(1, REJECTED, 20, 1))
script("cause_18_6c_after_4096", "4,096 bytes, 6C 01, then one byte more", R18,
       [ok(opening(1))] + select() + pieces(full_object, 256, end_empty=True)[:-1] + [ok(answer("", "6C01")), ok(answer("FE", "9000"))],
       unread(1, REJECTED, 18, 1))
script("cause_19_6c_then_9000", "6C 0F to SELECT, then 90 00 alone", NO_DATA,
       [ok(opening(1)), ok(answer("", "6C0F")), ok(answer("", "9000"))], unread(1, REJECTED, 19, 0))
script("cause_20_6c_then_9000", "6C 5D to GET DATA, then 90 00 alone", NO_DATA,
       [ok(opening(1))] + select() + [ok(answer("", "6C5D")), ok(answer("", "9000"))], unread(1, REJECTED, 20, 1))

# No command outstanding.
script("refused_4_6c_no_session", "6C 0F before any opening, then 6C 0F after it", COUNT_NOTHING,
       [refused(4, answer("", "6C0F")), ok(opening(1)), ok(answer("", "6C0F"))] + select(), unread(1, OPEN, 0, 1))
script("refused_5_6c_all_read", "6C after all is read, without data and with data", "5 no command outstanding",
       [ok(opening(1))] + select() + whole(signed()) + [refused(5, answer("", "6C5D"))] * 2 + [refused(5, answer("53", "6C5D"))] + yes(1, 2),
       GRANTED_1)
script("refused_5_6c_after_a_cause", "6C after cause 16: the status word stays", "A cause of 16 to 22 ends the reading at that step for good",
       [ok(opening(1)), ok(answer("", "6A82")), refused(5, answer("", "6C0F")), refused(5, answer(TEMPLATE))],
       unread(1, REJECTED, 16, 0, "6A82"))
script("refused_5_third_6c", "6C 0F, 6C 10, 6C 11: the second ends the reading, the third is refused", "A cause of 16 to 22 ends the reading at that step for good",
       [ok(opening(1)), ok(answer("", "6C0F")), ok(answer("", "6C10")), refused(5, answer("", "6C11"))], unread(1, REJECTED, 16, 0, "6C10"))

# Left open.
script("open_6c_to_select", "6C 0F to SELECT, and no further answer", TAKEN,
       [ok(opening(1)), ok(answer("", "6C0F"))], unread(1, OPEN, 0, 0))
script("open_6c_to_get_data", "6C 5D to GET DATA, and no further answer", TAKEN,
       [ok(opening(1))] + select() + [ok(answer("", "6C5D")), refused(9, verdict(1, 1))], unread(1, OPEN, 0, 1))
script("open_6c_to_get_response", "the object but for its last 42 bytes, then 6C 2A", TAKEN,
       [ok(opening(1))] + select() + [ok(answer(first, "612A")), ok(answer("", "6C2A"))], unread(1, OPEN, 0, 1))
script("open_6c_to_fingers", "6C 36 to the second GET DATA, mode 3, and no further answer", TAKEN,
       [ok(opening(3))] + select() + whole(signed()) + [ok(answer("", "6C36"))], stamp(3, OPEN, 0, 2, "1122010"))
script("cause_3_6c_to_fingers", "the same with an expired card: rejected by check 3, and no status word", "00 00 unless cause 16",
       [ok(opening(3))] + select() + whole(signed(expiry="20240714")) + [ok(answer("", "6C36"))],
       stamp(3, REJECTED, 3, 2, "1132010", expiry="20240714"))

# As many answers as a step can take.
plain = [answer("", "6101")] + [answer(full_template[at:at + 2], "6101") for at in range(0, 2 * 4096, 2)] + [answer("", "6101")]
most = [ok(line) for one in plain for line in (answer("", "6C01"), one)]
assert len(plain) == 4098 and len(most) == 8196
script("cause_17_most_answers_of_a_step", "61 without data, 4,096 bytes one by one, 61 without data, and 6C before each: 8,196 answers, and one more is refused",
       "the stated limit becomes 8,196 for a step",
       [ok(opening(1))] + most + [refused(5, answer("", "6C01"))], unread(1, REJECTED, 17, 0))

# ------------------------------------------------------------- causes 19 to 22
group("Cause 19: the template")


def bad_template(name, shows, quote, template):
    script("cause_19_" + name, shows, quote,
           [ok(opening(1)), ok(answer(template)), refused(5, answer(signed()))], unread(1, REJECTED, 19, 0))


ONE_4F = "It directly holds just one 4F of 1 to 16 bytes"
bad_template("nothing_joined", "90 00 alone to SELECT", "The SELECT answer is one TLV with tag 61", "")
bad_template("tag_7c", "the version object of document 002 in place of a template", "The SELECT answer is one TLV with tag 61", "7C020108")
bad_template("tag_6f", "a 4F in a template with tag 6F", "The SELECT answer is one TLV with tag 61", tlv("6F", tlv("4F", NEXGEN)))
bad_template("byte_after", "a byte after the template", "tag 61 and nothing after it", TEMPLATE + "00")
bad_template("cut_short", "the last byte is missing", "A TLV is tag, length, value", TEMPLATE[:-2])
bad_template("no_4f", "no 4F, but a deeper one", ONE_4F, tlv("61", tlv("79", tlv("4F", NEXGEN))))
bad_template("two_4f", "two 4F, both good by themselves", ONE_4F, tlv("61", tlv("4F", NEXGEN) + tlv("4F", LEGACY)))
bad_template("4f_empty", "a 4F of 0 bytes", ONE_4F, "61024F00")
bad_template("4f_17_bytes", "a 4F of 17 bytes", ONE_4F, tlv("61", tlv("4F", "A0" * 17)))
bad_template("depth_5", "a TLV at depth 5", "a TLV at depth 5 is malformed",
             tlv("61", tlv("4F", NEXGEN) + tlv("79", tlv("E0", tlv("E1", tlv("80", ""))))))
bad_template("nested_not_whole", "the value of a 79 ends inside a TLV", "Every nested value must itself be whole TLVs",
             tlv("61", tlv("4F", NEXGEN) + tlv("79", "4F05A0")))
bad_template("length_80", "a length byte 80", "any other first byte is malformed", "61804F0B" + NEXGEN + "0000")
bad_template("length_80_128_bytes", "a length byte 80 before 128 bytes", "any other first byte is malformed",
             "6180" + tlv("4F", NEXGEN) + tlv("50", some_bytes(113)))
bad_template("length_83", "a length of three bytes after 83", "lengths from 83 on, which ISO has, are malformed here",
             "618300000D" + tlv("4F", NEXGEN))
bad_template("tag_of_4_bytes", "a tag whose third byte has its top bit set", "a third with its top bit set is malformed",
             tlv("61", tlv("4F", NEXGEN) + "5F818100"))
good = [TEMPLATE, TEMPLATE_79, SHORT_TEMPLATE, DEPTH_4, LONG_TAGS, tlv("61", tlv("FF01", "4F0101") + tlv("4F", "01")),
        tlv("61", tlv("4F", "01") + tlv("5F7F", "")), "61820004" + tlv("4F", "0102")]
malformed = ["61", "6181", "618200", "5F", "6200", "61034F0201", "61054F0101FF01", "6103DF8180", "61054F01015F81",
             "61064F0101E00181", tlv("61", tlv("4F", "01") + "7F0101" + "00")]
probed = []
for text in good:
    probed += [ok(opening(1)), ok(answer(text)), ok(answer("", "6101"))]
for text in malformed:
    probed += [ok(opening(1)), ok(answer(text)), refused(5, answer("", "6101"))]
script("cause_19_many_templates", "eight good templates and eleven malformed ones, each in a session of its own; 61 01 after a good one is taken, after a malformed one it is refused with 5",
       "template malformed, cause 19", probed, unread(1, REJECTED, 19, 0))

group("Cause 20: the data object")


def bad_object(name, shows, quote, data, mode=1):
    lines = whole(data) if len(data) <= 512 else pieces(data, 256)
    script("cause_20_" + name, shows, quote,
           [ok(opening(mode))] + select() + lines + [refused(5, answer("", "9000"))], unread(mode, REJECTED, 20, 1))


def bad_fingers(name, shows, quote, data):
    lines = whole(data) if len(data) <= 512 else pieces(data, 256)
    script("cause_20_" + name, shows, quote,
           [ok(opening(3))] + select() + whole(signed()) + lines + [refused(9, verdict(4, 1))],
           stamp(3, REJECTED, 20, 2, "1122010"))


IN_ORDER = "its value holds one-byte-tag fields, each once, in this order"
F30, F34, F35 = tlv("30", SAMPLE), tlv("34", GUID), tlv("35", date_bytes(EXPIRY))
F3E, FFE = tlv("3E", some_bytes(32)), "FE00"
assert tlv("53", F30 + F34 + F35 + F3E + FFE) == signed()
bad_object("nothing_joined", "90 00 alone to GET DATA", "A data object is one TLV with tag 53", "")
bad_object("without_53", "the fields that document 000 prints, without tag 53", "A data object is one TLV with tag 53",
           "3019" + SAMPLE + "35083230313130343130", mode=2)
bad_object("tag_73", "the fields of the signed object in a TLV with tag 73", "A data object is one TLV with tag 53", "73" + signed()[2:])
bad_object("byte_after", "a byte after the object", "tag 53 and nothing after", signed() + "00")
bad_object("cut_short", "the last byte is missing", "A TLV is tag, length, value", signed()[:-2])
bad_object("length_80", "53 80", "53 80 malformed", "5380" + unsigned()[4:], mode=2)
bad_object("length_83", "53 83 00 00 27", "any other first byte is malformed", "5383000027" + unsigned()[4:], mode=2)
bad_object("length_80_128_bytes", "53 80 before 128 bytes of good fields", "any other first byte is malformed",
           "5380" + signed(signature=some_bytes(69))[6:])
bad_object("length_83_131_bytes", "53 83 before 131 bytes of good fields", "any other first byte is malformed",
           "5383" + signed(signature=some_bytes(72))[6:])
assert signed(signature=some_bytes(69))[:6] == "538180" and signed(signature=some_bytes(72))[:6] == "538183"
bad_object("no_fe", "field FE is missing", IN_ORDER, tlv("53", F30 + F34 + F35 + F3E))
bad_object("no_guid_in_mode_1", "field 34 is missing from the signed object", "30 (25 bytes), 34 (16), 35 (8)",
           tlv("53", F30 + F35 + F3E + FFE))
bad_object("order", "35 before 34", IN_ORDER, tlv("53", F30 + F35 + F34 + F3E + FFE))
bad_object("repeated", "field 35 twice", IN_ORDER, tlv("53", F30 + F34 + F35 + F35 + F3E + FFE))
bad_object("unknown_field", "a field 3D before 3E", IN_ORDER, tlv("53", F30 + F34 + F35 + "3D0101" + F3E + FFE))
bad_object("field_after_fe", "a field after FE", IN_ORDER, tlv("53", F30 + F34 + F35 + F3E + FFE + FFE))
bad_object("fe_1_byte", "an FE of 1 byte", "FE (0)", tlv("53", F30 + F34 + F35 + F3E + "FE0100"))
bad_object("fascn_24_bytes", "a field 30 of 24 bytes: 20, not 21", "30 (25 bytes)", tlv("53", tlv("30", SAMPLE[:-2]) + F34 + F35 + F3E + FFE))
bad_object("date_7_bytes", "a field 35 of 7 bytes: 20, not 22", "35 (8)", tlv("53", F30 + F34 + "350732303238313133" + F3E + FFE))
bad_object("guid_15_bytes_in_mode_2", "a field 34 of 15 bytes, which might have been absent", "34 (16, may be absent)",
           unsigned(guid="30" * 15), mode=2)
bad_object("signature_empty", "a field 3E of 0 bytes", "3E (1 to 2,816)", signed(signature=""))
bad_object("signature_2817_bytes", "a field 3E of 2,817 bytes", "3E (1 to 2,816)", signed(signature=some_bytes(2817)))
bad_object("unsigned_in_mode_1", "the unsigned object in mode 1", "Step 1 reads 5FC102, or 5FC104 in mode 2", unsigned(guid=GUID))
bad_object("signed_in_mode_2", "the signed object in mode 2", "Step 1 reads 5FC102, or 5FC104 in mode 2", signed(), mode=2)
bad_object("before_21", "a field after FE, an ill-formed FASC-N and no date: the object is judged first",
           "object malformed, 20; FASC-N ill-formed, 21; date ill-formed, 22",
           tlv("53", tlv("30", WRONG_PARITY) + F34 + tlv("35", "41" * 8) + F3E + FFE + FFE))
bad_object("privacy_key_object", "the privacy key object that document 000 prints", "A data object is one TLV with tag 53",
           "C010000102030405060708090A0B0C0D0E0FC10108C20100")
bad_fingers("fingers_empty", "a field BC of 0 bytes", "BC (1 to 862)", fingers(""))
bad_fingers("fingers_863_bytes", "a field BC of 863 bytes", "BC (1 to 862)", fingers(some_bytes(863)))
bad_fingers("fingers_without_53", "the fingers as document 000 prints them, without tag 53", "A data object is one TLV with tag 53",
            tlv("BC", PUBLISHED_FINGERS))
bad_fingers("fingers_nothing_joined", "90 00 alone to the second GET DATA", "A data object is one TLV with tag 53", "")
bad_fingers("fingers_signed_object", "the signed object once more in place of the fingers", "DFC103, fingers: BC (1 to 862)", signed())

group("Causes 21 and 22: the FASC-N and the date")


def bad_card(cause, name, shows, quote, data, mode=1):
    script("cause_%d_%s" % (cause, name), shows, quote,
           [ok(opening(mode))] + select() + whole(data) + [refused(5, answer(data))], unread(mode, REJECTED, cause, 1))


bad_card(21, "parity", "the sample with E3 as its last byte", "FASC-N ill-formed, 21", signed(WRONG_PARITY))
bad_card(21, "mark", "ES stands after the agency in place of FS", "17 mark or digit out of place", signed(WRONG_MARK))
bad_card(21, "start", "FS stands first in place of SS", "17 mark or digit out of place", signed(WRONG_START))
bad_card(21, "digit", "the first digit is 10", "17 mark or digit out of place", signed(WRONG_DIGIT))
bad_card(21, "check_character", "the check character is 9 in place of 8", "18 check character", signed(WRONG_CHECK))
bad_card(21, "zeros_in_mode_2", "25 bytes 00, in mode 2", "a bit making the count of ones odd", unsigned("00" * 25), mode=2)
bad_card(21, "before_22", "wrong parity and no date: the FASC-N is judged first", "FASC-N ill-formed, 21; date ill-formed, 22",
         signed(WRONG_PARITY, expiry="20230229"))
DATE = "a real Gregorian date, year 0001 to 9999"
bad_card(22, "20230229", "no leap year", "20230229 not", signed(expiry="20230229"))
bad_card(22, "21000229", "no leap year, by its century", "21000229 not", signed(expiry="21000229"))
bad_card(22, "month_13", "month 13", DATE, signed(expiry="20281301"))
bad_card(22, "month_00", "month 00", DATE, signed(expiry="20280001"))
bad_card(22, "day_00", "day 00", DATE, signed(expiry="20281100"))
bad_card(22, "day_31_in_november", "31 November", DATE, signed(expiry="20281131"))
bad_card(22, "year_0000", "year 0000", DATE, signed(expiry="00001130"))
bad_card(22, "letter", "a letter O in place of a zero", "Field 35 is eight ASCII digits YYYYMMDD", signed(expiry="2O281130"))
bad_card(22, "packed_digits", "digits as the bytes 02 00 02 08 and so on, in mode 2", "Field 35 is eight ASCII digits YYYYMMDD",
         tlv("53", F30 + tlv("35", "0200020801010300") + FFE), mode=2)

# ----------------------------------------------------------------- checks
group("Checks 1 to 6")

LOWEST = "else the lowest check with outcome 3 or 4"
ALL_READ_1 = [ok(opening(1))] + select() + whole(signed())
ALL_READ_3 = [ok(opening(3))] + select() + whole(signed()) + whole(fingers())
ALL_READ_4 = [ok(opening(4))] + select() + whole(signed()) + whole(fingers())
script("cause_1_signature_no", "a no of kind 1", "A no gives 3", ALL_READ_1 + [ok(verdict(1, 0))], stamp(1, REJECTED, 1, 3, "3122000"))
script("cause_2_signer_no", "kind 1 yes, kind 2 no", "A no gives 3", ALL_READ_1 + yes(1) + [ok(verdict(2, 0))],
       stamp(1, REJECTED, 2, 3, "2322000"))
script("cause_5_active_no", "mode 2, a no of kind 3", "Verdict kinds 1, 2, 3, 4 serve checks 1, 2, 5, 6",
       [ok(opening(2))] + select() + whole(unsigned()) + [ok(verdict(3, 0))], stamp(2, REJECTED, 5, 3, "0022300"))
script("cause_6_finger_no", "mode 3, a no of kind 4", "Verdict kinds 1, 2, 3, 4 serve checks 1, 2, 5, 6",
       ALL_READ_3 + yes(1, 2) + [ok(verdict(4, 0))], stamp(3, REJECTED, 6, 3, "2222030"))
script("cause_5_mode_4", "mode 4, a no of kind 3 and of kind 4: the lower check is named", LOWEST,
       ALL_READ_4 + yes(1, 2) + [ok(verdict(4, 0)), ok(verdict(3, 0))], stamp(4, REJECTED, 5, 3, "2222330"))
script("cause_1_no_of_another_card", "a no with another card's FASC-N is a no", "A no gives 3",
       ALL_READ_1 + [ok(verdict(1, 0, OTHER))], stamp(1, REJECTED, 1, 3, "3122000"))
script("expires_today_granted", "expiry on the opening date", "Expiry on the opening date passes",
       [ok(opening(1))] + select() + whole(signed(expiry=TODAY)) + yes(1, 2), stamp(1, GRANTED, 0, 3, "2222000", expiry=TODAY))
script("expires_tomorrow_granted", "expiry on the day after", "2 if expiry is at or after the date given at opening",
       [ok(opening(1))] + select() + whole(signed(expiry="20240716")) + yes(1, 2),
       stamp(1, GRANTED, 0, 3, "2222000", expiry="20240716"))
script("cause_3_expired_yesterday", "expiry the day before, both verdicts yes", "Expiry the day before fails",
       [ok(opening(1))] + select() + whole(signed(expiry="20240714")) + yes(1, 2),
       stamp(1, REJECTED, 3, 3, "2232000", expiry="20240714"))
script("cause_3_new_year", "expiry 20231231, opened on 20240101, mode 2", "Expiry the day before fails",
       [ok(opening(2, "20240101"))] + select() + whole(unsigned(expiry="20231231")) + yes(3),
       stamp(2, REJECTED, 3, 3, "0032200", expiry="20231231", date="20240101"))
script("cause_3_before_step_2", "mode 3, expired: rejected while the fingers are still to be read", "Standing is rejected if cause is not 0",
       [ok(opening(3))] + select() + whole(signed(expiry="20110410")), stamp(3, REJECTED, 3, 2, "1132010", expiry="20110410"))

group("Cancelled cards")

SO_FAR = "an answer is lent the cards read so far"
script("cause_4_cancelled", "the card line before the opening, both verdicts yes", LENT,
       [ok(SAMPLE_CARD)] + ALL_READ_1 + yes(1, 2), stamp(1, REJECTED, 4, 3, "2223000"))
script("cause_4_cancelled_in_mode_2", "the same in mode 2", LENT,
       [ok(SAMPLE_CARD), ok(opening(2))] + select() + whole(unsigned()) + yes(3), stamp(2, REJECTED, 4, 3, "0023200"))
script("cause_4_before_the_last_piece", "the card line between two pieces of the object", SO_FAR,
       [ok(opening(1))] + select() + pieces(signed(), 60)[:1] + [ok(SAMPLE_CARD)] + pieces(signed(), 60)[1:] + yes(1, 2),
       stamp(1, REJECTED, 4, 3, "2223000"))
script("cancelled_after_step_1_granted", "the card line after the answer that ended step 1", SO_FAR,
       ALL_READ_1 + [ok(SAMPLE_CARD)] + yes(1, 2), GRANTED_1)
script("cancelled_in_step_2_granted", "mode 3, the card line between step 1 and step 2",
       "cancelled if its key stands in the list lent with the answer that ended step 1",
       [ok(opening(3))] + select() + whole(signed()) + [ok(SAMPLE_CARD)] + whole(fingers()) + yes(1, 2, 4),
       stamp(3, GRANTED, 0, 3, "2222020"))
script("cause_4_among_others", "the key among other keys, in no order", "The list is u64 numbers in any order",
       [ok(card("9999 9999 999999 9 9")), ok(card("7099 5012 000004 1 1")), ok(SAMPLE_CARD), ok(card("0000 0000 000000 0 0")),
        ok(card("1341 0001 987653 1 1"))] + ALL_READ_1 + yes(1, 2), stamp(1, REJECTED, 4, 3, "2223000"))
script("cause_4_repeated_key", "the key three times", "repeats harmless",
       [ok(SAMPLE_CARD)] * 3 + ALL_READ_1 + yes(2, 1), stamp(1, REJECTED, 4, 3, "2223000"))
script("cause_4_leading_zeros", "document 003's card, whose key begins with zeros", "its first 16 digits as one whole number",
       [ok(card("0032 0001 092446 0 1")), ok(opening(1))] + select() + whole(signed(ZEROS)) + yes(1, 2, card=ZEROS),
       stamp(1, REJECTED, 4, 3, "2223000", card=ZEROS))
script("cancelled_other_issue_granted", "keys that differ from the card's in one place: issue, series, credential, system", "its first 16 digits as one whole number",
       [ok(card("1341 0001 987654 1 2")), ok(card("1341 0001 987654 2 1")), ok(card("1341 0001 987645 1 1")),
        ok(card("1341 0010 987654 1 1"))] + ALL_READ_1 + yes(1, 2), GRANTED_1)
script("cause_3_expired_and_cancelled", "expired and cancelled: the lower check is named", LOWEST,
       [ok(SAMPLE_CARD), ok(opening(1))] + select() + whole(signed(expiry="20240714")) + yes(1, 2),
       stamp(1, REJECTED, 3, 3, "2233000", expiry="20240714"))
script("cause_2_below_4", "cancelled, then a no of kind 2: the cause falls from 4 to 2", LOWEST,
       [ok(SAMPLE_CARD)] + ALL_READ_1 + yes(1) + [ok(verdict(2, 0))], stamp(1, REJECTED, 2, 3, "2323000"))
script("cause_4_verdicts_awaited", "cancelled, no verdict given yet", "Standing is rejected if cause is not 0",
       [ok(SAMPLE_CARD)] + ALL_READ_1, stamp(1, REJECTED, 4, 3, "1123000"))

filler = [card("2222 0000 %06d 3 1" % number) for number in range(1, 1024)]
assert len(filler) == 1023 and len(set(filler)) == 1023
UP_TO = "card lines (up to 1,024 of them)"
script("cause_4_card_line_1024", "1,024 card lines with malformed ones among them, which do not count; the last is the card's own key", UP_TO,
       [bad("(card (2222 0000 0000) (3 1))")] + [ok(line) for line in filler[:500]] + [bad(filler[500][:-1])]
       + [ok(line) for line in filler[500:]] + [bad(filler[0] + " "), ok(SAMPLE_CARD)] + ALL_READ_1 + yes(1, 2),
       stamp(1, REJECTED, 4, 3, "2223000"))
script("card_line_1025_granted", "1,025 card lines, each key but the last twice, the last the card's own: it is bad and counts for nothing",
       "for other or longer lines and a 1,025th card, `(bad)`",
       [ok(line) for line in filler[:512] * 2] + [bad(SAMPLE_CARD)] + ALL_READ_1 + yes(1, 2), GRANTED_1)

group("Verdicts of another card")

YES_EQUAL = "A yes gives 2 if its 25 bytes equal step 1's FASC-N, else 4"
script("cause_1_other_card", "kind 1 of another card, kind 2 of this one", YES_EQUAL,
       ALL_READ_1 + yes(1, card=OTHER) + yes(2), stamp(1, REJECTED, 1, 3, "4222000"))
script("cause_2_other_card", "kind 2 of another card", YES_EQUAL,
       ALL_READ_1 + yes(1) + yes(2, card=OTHER), stamp(1, REJECTED, 2, 3, "2422000"))
script("cause_5_other_card", "mode 2, kind 3 of another card", YES_EQUAL,
       [ok(opening(2))] + select() + whole(unsigned()) + yes(3, card=ZEROS), stamp(2, REJECTED, 5, 3, "0022400"))
script("cause_6_other_card", "mode 4, kind 4 of another card", YES_EQUAL,
       ALL_READ_4 + yes(1, 2, 3) + yes(4, card=OTHER), stamp(4, REJECTED, 6, 3, "2222240"))
script("cause_1_both_of_one_other_card", "kinds 1 and 2 of the same other card: they agree with each other, not with the card read",
       "a verdict compared with the previous verdict",
       ALL_READ_1 + yes(1, 2, card=OTHER), stamp(1, REJECTED, 1, 3, "4422000"))
script("cause_1_same_14_digits", "another series, the first 14 digits the same", "equality on 14 digits only",
       ALL_READ_1 + yes(1, card=OTHER_SERIES) + yes(2), stamp(1, REJECTED, 1, 3, "4222000"))
script("cause_2_other_issue", "another issue of the card, the first 15 digits the same", YES_EQUAL,
       ALL_READ_1 + yes(1) + yes(2, card=OTHER_ISSUE), stamp(1, REJECTED, 2, 3, "2422000"))
script("cause_1_same_key_other_person", "the same key, another person", YES_EQUAL,
       ALL_READ_1 + yes(1, card=OTHER_PERSON) + yes(2), stamp(1, REJECTED, 1, 3, "4222000"))
script("cause_2_last_digit_differs", "only the association category differs", YES_EQUAL,
       ALL_READ_1 + yes(1) + yes(2, card=OTHER_LAST_DIGIT), stamp(1, REJECTED, 2, 3, "2422000"))
script("cause_1_every_check_fails", "mode 4: a no, another card, expired, cancelled, another card, a no", LOWEST,
       [ok(SAMPLE_CARD), ok(opening(4))] + select() + whole(signed(expiry="20240714")) + whole(fingers())
       + [ok(verdict(4, 0))] + yes(3, card=OTHER) + yes(2, card=OTHER) + [ok(verdict(1, 0))],
       stamp(4, REJECTED, 1, 3, "3433430", expiry="20240714"))
script("cause_5_lowest_of_two", "mode 4: kind 3 of another card and a no of kind 4", LOWEST,
       ALL_READ_4 + yes(1, 2) + [ok(verdict(4, 0))] + yes(3, card=OTHER), stamp(4, REJECTED, 5, 3, "2222430"))

# ------------------------------------------------------ the older elements
group("Objects with the older elements")

BEFORE_30 = "EE with 2 bytes may stand before 30"
AFTER_30 = "Straight after 30 may stand 31 (4 bytes), 32 (4) and 33 (9)"
ONCE = "in this order, each at most once"
NOT_USED = "They are checked for place and length and not used"
SAME_FOUR = "The unsigned object gains the same four"
WELL_FORMED = "A finding treats such an object as well formed"
NOT_OPENED = "Fields of data objects aren't opened further"
GRANTED_2 = stamp(2, GRANTED, 0, 3, "0022200")
F31, F32, F33 = tlv("31", AGENCY_CODE), tlv("32", ORGANIZATION), tlv("33", DUNS)
FEE = "EE027200"                     # 114 bytes follow it where all four are in their places
LAST = F34 + F35 + F3E + FFE         # what stands after 30 in the signed object without the older elements
LAST_2 = F35 + FFE                   # and in the unsigned one, without 34
assert tlv("53", FEE + F30 + F31 + F32 + F33 + LAST) == signed(older=ALL_FOUR) and len(signed(older=ALL_FOUR)) == 2 * 120
assert tlv("53", F30 + F31 + F32 + F33 + LAST_2) == unsigned(older=("31", "32", "33"))


def reads_1(data):
    """A session of its own in mode 1, in which this object is read to its good end."""
    return [ok(opening(1))] + select() + whole(data) + yes(1, 2)


def reads_2(data):
    return [ok(opening(2))] + select() + whole(data) + yes(3)


def older_1(name, shows, quote, *objects):
    script("older_%s_granted" % name, shows, quote, [line for data in objects for line in reads_1(data)], GRANTED_1)


def older_2(name, shows, quote, *objects):
    script("older_%s_granted" % name, shows, quote, [line for data in objects for line in reads_2(data)], GRANTED_2)


def older_bad(name, shows, quote, *values):
    """The fields in a 53, each in a session of its own in mode 1; a verdict is refused with 9, since step 1 has no good end."""
    lines = [line for value in values
             for line in [ok(opening(1))] + select() + whole(tlv("53", value)) + [refused(5, answer("", "9000")), refused(9, verdict(1, 1))]]
    script("cause_20_older_" + name, shows, quote, lines, unread(1, REJECTED, 20, 1))


def older_bad_2(name, shows, quote, *values):
    """The same in mode 2."""
    lines = [line for value in values
             for line in [ok(opening(2))] + select() + whole(tlv("53", value)) + [refused(5, answer("", "9000")), refused(9, verdict(3, 1))]]
    script("cause_20_older_" + name, shows, quote, lines, unread(2, REJECTED, 20, 1))


def choices():
    """Every choice of the four, sixteen of them."""
    return [[tag for place, tag in enumerate(ALL_FOUR) if number >> place & 1] for number in range(16)]


def places(fields, element):
    """The element before each of the fields in turn, and after the last."""
    return ["".join(fields[:place]) + element + "".join(fields[place:]) for place in range(len(fields) + 1)]


def wrong_places(fields):
    """Each of the four by itself in every place but its own, which is 0 for EE and 1 for the others; 30 is the first of the fields."""
    return [value for element, own in ((FEE, 0), (F31, 1), (F32, 1), (F33, 1))
            for place, value in enumerate(places(fields, element)) if place != own]


# In their places: by themselves, some of them, all of them.
older_1("ee", "EE alone: the buffer length", BEFORE_30, signed(older=["EE"]))
older_1("31", "31 alone: the agency code", AFTER_30, signed(older=["31"]))
older_1("32", "32 alone: the organization identifier", AFTER_30, signed(older=["32"]))
older_1("33", "33 alone: the DUNS", AFTER_30, signed(older=["33"]))
older_1("all_mode_1", "all four in mode 1, a signed object of 120 bytes", WELL_FORMED, signed(older=ALL_FOUR))
script("older_all_mode_3_granted", "all four in mode 3; the fingers object has none of them", WELL_FORMED,
       [ok(opening(3))] + select() + whole(signed(older=ALL_FOUR)) + whole(fingers()) + yes(1, 2, 4), GRANTED_3)
script("older_all_mode_4_granted", "all four in mode 4", WELL_FORMED,
       [ok(opening(4))] + select() + whole(signed(older=ALL_FOUR)) + whole(fingers()) + yes(1, 2, 3, 4), stamp(4, GRANTED, 0, 3, "2222220"))
older_1("31_33", "two of them: 31 and 33, and no 32 between them", ONCE, signed(older=["31", "33"]))
older_1("31_32_33", "three of them: all but EE", AFTER_30, signed(older=["31", "32", "33"]))
older_1("every_choice", "every choice of the four in the signed object, none of them first and all of them last, each in a session of its own",
        WELL_FORMED, *[signed(older=choice) for choice in choices()])
older_2("unsigned_ee", "the unsigned object with EE alone", SAME_FOUR, unsigned(older=["EE"]))
older_2("unsigned_31", "the unsigned object with 31 alone", SAME_FOUR, unsigned(older=["31"]))
older_2("unsigned_32", "the unsigned object with 32 alone", SAME_FOUR, unsigned(older=["32"]))
older_2("unsigned_33", "the unsigned object with 33 alone: 35 comes straight after it", SAME_FOUR, unsigned(older=["33"]))
older_2("unsigned_all", "the unsigned object with all four and no 34", SAME_FOUR, unsigned(older=ALL_FOUR))
older_2("unsigned_all_guid", "the unsigned object with all four and with 34", SAME_FOUR, unsigned(older=ALL_FOUR, guid=GUID))
older_2("unsigned_every_choice", "every choice of the four in the unsigned object, with 34 and without it, each in a session of its own",
        SAME_FOUR, *[unsigned(older=choice, guid=guid) for guid in ("", GUID) for choice in choices()])

# Cut, corrected, with longer lengths.
older_small = signed(signature="A5", older=ALL_FOUR)
assert len(older_small) == 2 * 89 and older_small[:12] == "5357EE025300"
script("older_1_byte_pieces_granted", "all four, an object of 89 bytes, one byte an answer", CUT,
       [ok(opening(1))] + select() + pieces(older_small, 1) + yes(1, 2), GRANTED_1)
script("older_16_byte_pieces_granted", "the same object in pieces of 16 bytes", CUT,
       [ok(opening(1))] + select() + pieces(older_small, 16) + yes(1, 2), GRANTED_1)
assert [older_small[2 * at - 2:2 * at] for at in (3, 34, 40, 46, 57)] == ["EE", "31", "32", "33", "34"]
borders = [3, 5, 6, 34, 37, 40, 43, 46, 53, 89]
parts = [older_small[2 * start:2 * end] for start, end in zip([0] + borders, borders)]
older_inside = [ok(answer(part, "61%02X" % (89 - end))) for part, end in zip(parts[:-1], borders)] + [ok(answer(parts[-1]))]
script("older_cut_inside_granted", "the same object cut after the tag EE, inside EE and after it, and after the tag and inside of 31, 32 and 33", CUT,
       [ok(opening(1))] + select() + older_inside + yes(1, 2), GRANTED_1)
script("older_unsigned_empty_61_granted", "the unsigned object with all four: 61 without data, pieces of 7 bytes, 90 00 alone", CUT,
       [ok(opening(2))] + select() + pieces(unsigned(older=ALL_FOUR), 7, True, True) + yes(3), GRANTED_2)
script("corrected_older_all_granted", "6C 78 to GET DATA, then the signed object of 120 bytes with all four", SAME_COMMAND,
       [ok(opening(1))] + select() + [ok(answer("", "6C78"))] + whole(signed(older=ALL_FOUR)) + yes(1, 2), GRANTED_1)
script("open_older_unfinished", "all four read, and the rest of the object from 34 on not: no FASC-N and no expiry yet",
       "both absent before step 1's good end",
       [ok(opening(1))] + select() + [ok(answer(older_small[:112], "6121"))], unread(1, OPEN, 0, 1))
assert older_small[112:116] == "3410" and len(older_small[112:]) == 2 * 0x21
older_1("longer_lengths", "EE 81 02, 31 81 04, 32 81 04, 33 81 09, and the same with 82 00, each by itself in a session of its own", LONGER,
        *[data for form in ("81", "82")
          for data in (tlv("53", tlv("EE", "5B00", form) + F30 + LAST), tlv("53", F30 + tlv("31", AGENCY_CODE, form) + LAST),
                       tlv("53", F30 + tlv("32", ORGANIZATION, form) + LAST), tlv("53", F30 + tlv("33", DUNS, form) + LAST))])
older_1("all_81", "all four, every length as 81 and one byte", LONGER, signed(older=ALL_FOUR, form="81"))
older_1("all_82", "all four, every length as 82 and two bytes", LONGER, signed(older=ALL_FOUR, form="82"))
older_2("unsigned_all_82", "the unsigned object with all four and with 34, every length as 82 and two bytes", LONGER,
        unsigned(older=ALL_FOUR, guid=GUID, form="82"))
longest = signed(signature=some_bytes(2816), form="82", older=ALL_FOUR)
assert len(longest) == 2 * 2924 and 2924 == 2889 + 6 + 8 + 8 + 13
assert longest.startswith("53820B68" + "EE820002620B" + "30820019")
script("older_longest_object_granted", "the longest signed object there is: 3E of 2,816 bytes, all four, every length with 82, 2,924 bytes in all, pieces of 256",
       WELL_FORMED,
       [ok(opening(1))] + select() + pieces(longest, 256) + yes(1, 2), GRANTED_1)

# What stands in them is not looked at.
older_1("ee_other_count", "EE that says 0 bytes, and in a second session 65,535: it is not compared with what follows", NOT_USED,
        *[tlv("53", tlv("EE", value) + F30 + LAST) for value in ("0000", "FFFF")])
older_1("ee_looks_like_30", "EE whose two bytes are 30 19, the head of the field that follows", NOT_OPENED,
        tlv("53", tlv("EE", "3019") + F30 + LAST))
older_1("33_looks_like_30", "33 whose nine bytes are 30 19 and the first seven of another FASC-N", NOT_OPENED,
        tlv("53", F30 + tlv("33", "3019" + OTHER[:14]) + LAST))
older_1("values_look_like_fields", "31 with the bytes of FE and FE, 32 with an EE, 33 with a 31 and the head of a 35", NOT_OPENED,
        tlv("53", F30 + tlv("31", FFE + FFE) + tlv("32", FEE) + tlv("33", F31 + "350832") + LAST))
older_1("values_00_and_ff", "all four filled with 00, and in a second session with FF: neither letters nor digits", NOT_USED,
        *[tlv("53", tlv("EE", byte * 2) + F30 + tlv("31", byte * 4) + tlv("32", byte * 4) + tlv("33", byte * 9) + LAST) for byte in ("00", "FF")])
older_1("agency_differs", "31 with 7099, where the FASC-N has the agency 1341: the two are not compared", NOT_USED,
        tlv("53", F30 + tlv("31", "37303939") + LAST))

# Out of place.
older_bad("ee_after_30", "EE straight after 30", BEFORE_30, F30 + FEE + LAST)
older_bad("ee_before_fe", "EE after 3E, the last before FE", BEFORE_30, F30 + F34 + F35 + F3E + FEE + FFE)
older_bad("ee_after_fe", "EE after FE, and in a second session 31 after FE", BEFORE_30, F30 + LAST + FEE, F30 + LAST + F31)
bad_object("older_ee_before_53", "EE before the 53, in front of a good object", "A data object is one TLV with tag 53", "EE025D00" + signed())
older_bad("31_before_30", "31 before 30, and in a second session 32 between EE and 30", AFTER_30, F31 + F30 + LAST, FEE + F32 + F30 + LAST)
older_bad("33_before_ee", "33 before EE, and in a second session 31 before EE", BEFORE_30, F33 + FEE + F30 + LAST, F31 + FEE + F30 + LAST)
older_bad("31_after_32", "31 after 32", ONCE, F30 + F32 + F31 + LAST)
older_bad("32_after_33", "32 after 33", ONCE, F30 + F31 + F33 + F32 + LAST)
older_bad("33_before_31", "33 before 31", ONCE, F30 + F33 + F31 + LAST)
older_bad("31_after_34", "31 after 34", AFTER_30, F30 + F34 + F31 + F35 + F3E + FFE)
older_bad("33_after_34", "33 after 34, with 31 and 32 in their places", AFTER_30, F30 + F31 + F32 + F34 + F33 + F35 + F3E + FFE)
older_bad("33_after_35", "33 after 35", AFTER_30, F30 + F34 + F35 + F33 + F3E + FFE)
older_bad("32_after_3e", "32 after 3E", AFTER_30, F30 + F34 + F35 + F3E + F32 + FFE)
older_bad("every_wrong_place", "each of the four by itself in every place of the signed object but its own, twenty sessions", NOT_USED,
          *wrong_places([F30, F34, F35, F3E, FFE]))

# Repeated.
older_bad("ee_twice", "EE twice before 30, and in a second session before and after it", BEFORE_30, FEE + FEE + F30 + LAST, FEE + F30 + FEE + LAST)
older_bad("31_twice", "31 twice, and in a second session 31, 32, 31", ONCE, F30 + F31 + F31 + LAST, F30 + F31 + F32 + F31 + LAST)
older_bad("32_twice", "32 twice, with other bytes the second time", ONCE, F30 + F32 + tlv("32", AGENCY_CODE) + LAST)
older_bad("33_twice", "33 twice, and in a second session before and after 34", ONCE,
          F30 + F33 + F33 + LAST, F30 + F33 + F34 + F33 + F35 + F3E + FFE)
older_bad("30_twice_31_between", "30, 31 and 30 again", IN_ORDER, F30 + F31 + F30 + LAST)

# Other lengths, each in a session of its own.
older_bad("ee_lengths", "EE of 1, 3 and 0 bytes", BEFORE_30, *[tlv("EE", value) + F30 + LAST for value in ("5B", "5B0000", "")])
older_bad("31_lengths", "31 of 3, 5 and 0 bytes", AFTER_30, *[F30 + tlv("31", value) + LAST for value in (AGENCY_CODE[:-2], AGENCY_CODE + "20", "")])
older_bad("32_lengths", "32 of 3, 5 and 0 bytes", AFTER_30, *[F30 + tlv("32", value) + LAST for value in (ORGANIZATION[:-2], ORGANIZATION + "20", "")])
older_bad("33_lengths", "33 of 8, 10 and 0 bytes", AFTER_30, *[F30 + tlv("33", value) + LAST for value in (DUNS[:-2], DUNS + "38", "")])
older_bad("lengths_exchanged", "31 with nine bytes, 32 with four, 33 with four", AFTER_30,
          F30 + tlv("31", DUNS) + F32 + tlv("33", AGENCY_CODE) + LAST)
older_bad("length_80_83", "31 80, and in a second session 33 83 00 00 09", "any other first byte is malformed",
          F30 + "3180" + AGENCY_CODE + LAST, F30 + "3383000009" + DUNS + LAST)
older_bad("cut_short_in_33", "the object ends after eight of the nine bytes of 33", "A TLV is tag, length, value",
          FEE + F30 + F31 + F32 + F33[:-2])
older_bad("two_byte_tags", "tags of two bytes, 1F 31 and 1F 33, in place of 31 and 33", IN_ORDER,
          F30 + tlv("1F31", AGENCY_CODE) + LAST, F30 + tlv("1F33", DUNS) + LAST)

# With other faults of the object.
older_bad("3d", "all four, and document 003's 3D before 3E, which is no field here", IN_ORDER,
          FEE + F30 + F31 + F32 + F33 + F34 + F35 + "3D0101" + F3E + FFE)
older_bad("field_missing", "all four, while 30, 34, 35, 3E or FE is missing, each in a session of its own", IN_ORDER,
          *["".join(field for field in (FEE, F30, F31, F32, F33, F34, F35, F3E, FFE) if field != missing) for missing in (F30, F34, F35, F3E, FFE)])
older_bad_2("unsigned_wrong_place", "each of the four by itself in every place of the unsigned object but its own, with 34 and without it, 28 sessions", SAME_FOUR,
            *wrong_places([F30, F34, F35, FFE]), *wrong_places([F30, F35, FFE]))
older_bad_2("unsigned_order", "the unsigned object with 32 and 31, 33 and 31, 33 and 32, and 33 before EE", SAME_FOUR,
            F30 + F32 + F31 + LAST_2, F30 + F33 + F31 + LAST_2, F30 + F33 + F32 + LAST_2, F33 + FEE + F30 + LAST_2)
older_bad_2("unsigned_repeated", "the unsigned object with each of the four twice", SAME_FOUR,
            FEE + FEE + F30 + LAST_2, *[F30 + field + field + LAST_2 for field in (F31, F32, F33)])
older_bad_2("unsigned_lengths", "the unsigned object with each of the four one byte short, one byte long, and empty", SAME_FOUR,
            *[tlv("EE", value) + F30 + LAST_2 for value in ("25", "250000", "")],
            *[F30 + tlv(tag, value) + LAST_2 for tag, whole_value in (("31", AGENCY_CODE), ("32", ORGANIZATION), ("33", DUNS))
              for value in (whole_value[:-2], whole_value + "20", "")])
bad_object("older_unsigned_in_mode_1", "the unsigned object with all four in mode 1", "Step 1 reads 5FC102, or 5FC104 in mode 2",
           unsigned(older=ALL_FOUR, guid=GUID))
bad_object("older_signed_in_mode_2", "the signed object with all four in mode 2", "Step 1 reads 5FC102, or 5FC104 in mode 2",
           signed(older=ALL_FOUR), mode=2)
FINGERS_ROW = "DFC103, fingers: BC (1 to 862), FE (0, may be absent)"
bad_fingers("older_fingers_ee", "EE before BC in the fingers object", FINGERS_ROW, tlv("53", "EE023400" + tlv("BC", some_bytes(48, 5)) + FFE))
script("cause_20_older_fingers_every_place", "each of the four before BC, between BC and FE, and after FE, twelve sessions", FINGERS_ROW,
       [line for element in (FEE, F31, F32, F33) for value in places([tlv("BC", some_bytes(48, 5)), FFE], element)
        for line in [ok(opening(3))] + select() + whole(signed()) + whole(tlv("53", value)) + [refused(9, verdict(4, 1))]],
       stamp(3, REJECTED, 20, 2, "1122010"))

# The card itself: all four in every object.
bad_object("older_before_21", "31 twice, an ill-formed FASC-N and no date: the object is judged first",
           "object malformed, 20; FASC-N ill-formed, 21; date ill-formed, 22",
           tlv("53", FEE + tlv("30", WRONG_PARITY) + F31 + F31 + F34 + tlv("35", "41" * 8) + F3E + FFE))
bad_card(21, "older_parity", "all four, and E3 as the last byte of the FASC-N", "FASC-N ill-formed, 21", signed(WRONG_PARITY, older=ALL_FOUR))
bad_card(22, "older_20230229", "all four, and an expiry that is no real date, mode 2", "20230229 not",
         unsigned(expiry="20230229", older=ALL_FOUR), mode=2)
script("cause_3_older_expired", "all four, expired the day before, both verdicts yes", WELL_FORMED,
       [ok(opening(1))] + select() + whole(signed(expiry="20240714", older=ALL_FOUR)) + yes(1, 2),
       stamp(1, REJECTED, 3, 3, "2232000", expiry="20240714"))
script("cause_4_older_cancelled", "all four, cancelled, mode 2", WELL_FORMED,
       [ok(SAMPLE_CARD), ok(opening(2))] + select() + whole(unsigned(older=ALL_FOUR)) + yes(3), stamp(2, REJECTED, 4, 3, "0023200"))
script("cause_2_older_other_card", "all four, mode 4; kind 2 of another card, the other kinds of this one", YES_EQUAL,
       [ok(opening(4))] + select() + whole(signed(older=ALL_FOUR)) + whole(fingers()) + yes(1) + yes(2, card=OTHER) + yes(3, 4),
       stamp(4, REJECTED, 2, 3, "2422220"))

# ---------------------------------------------------------- picture modes
group("Picture modes (document 02, request 7)")

MODE_5 = "Mode 5 needs checks 1–4 and a new check 7, picture"
MODE_6 = "mode 6 needs 1–5 and 7"
KIND_5 = "Verdict kind 5 serves check 7"
STEP_2_READS = "In these modes step 2 reads DFC108"
PICTURE_ROW = "object DFC108: BC (1 to 16,000 bytes), then FE (0 bytes, may be absent)"
PAST_16384 = "Cause 18 in step 2 comes past 16,384 in modes 5 and 6, past 4,096 in modes 3 and 4 as before"
AS_NOW = "4,096 as now, then 16,384 for step 2"
OUTCOME_7 = "with outcome 7 after outcome 6"
NOT_NEEDED = "13 mode doesn't need it"
NEW_FIGURES = "Numbers 1, 6, 7 and 10 read with the new figures"
RANGES = NEW_FIGURES + ", and so do the session's ranges: mode 1–6"
GRANTED_5 = stamp(5, GRANTED, 0, 3, "2222002")
GRANTED_6 = stamp(6, GRANTED, 0, 3, "2222202")
STEP_2_OF_5 = [ok(opening(5))] + select() + whole(signed())
STEP_2_OF_6 = [ok(opening(6))] + select() + whole(signed())
ALL_READ_5 = STEP_2_OF_5 + whole(picture())
ALL_READ_6 = STEP_2_OF_6 + whole(picture())
assert len(picture()) == 2 * 66
# The two modes, each with its lines up to step 2 and its outcomes there.
BOTH = [(5, STEP_2_OF_5, "1122001"), (6, STEP_2_OF_6, "1122101")]

# Granted: the verdicts in several orders, the least and the greatest picture.
script("picture_mode_5_granted", "mode 5: signed object and picture, verdicts 1, 2 and 5", MODE_5, ALL_READ_5 + yes(1, 2, 5), GRANTED_5)
script("picture_mode_6_granted", "mode 6: signed object and picture, verdicts 1, 2, 3 and 5", MODE_6, ALL_READ_6 + yes(1, 2, 3, 5), GRANTED_6)
script("picture_mode_5_kinds_reversed_granted", "mode 5 with the verdicts 5, 2, 1: the stamp of picture_mode_5_granted",
       "A verdict call sets its check's outcome", ALL_READ_5 + yes(5, 2, 1), GRANTED_5)
script("picture_mode_6_kind_3_last_granted", "mode 6 with the verdicts 2, 5, 1, 3: the stamp of picture_mode_6_granted",
       "A verdict call sets its check's outcome", ALL_READ_6 + yes(2, 5, 1, 3), GRANTED_6)
script("picture_1_byte_granted", "mode 5: a picture of 1 byte", PICTURE_ROW, STEP_2_OF_5 + whole(picture("7E")) + yes(1, 2, 5), GRANTED_5)
script("picture_no_fe_granted", "mode 6: a picture of 1 byte without field FE", PICTURE_ROW,
       STEP_2_OF_6 + whole(picture("7E", end=False)) + yes(1, 2, 3, 5), GRANTED_6)
greatest_picture = picture(some_bytes(16000))
assert len(greatest_picture) == 2 * 16010 and greatest_picture.startswith("53823E86" + "BC823E80")
script("picture_16000_bytes_mode_5_granted", "mode 5: a signed object of 665 bytes and a picture of 16,000, pieces of 256: the bytes of step 1 do not count in step 2",
       PICTURE_ROW,
       [ok(opening(5))] + select() + pieces(large, 256) + pieces(greatest_picture, 256) + yes(1, 2, 5), GRANTED_5)
longest_picture = picture(some_bytes(16000), form="82")
assert len(longest_picture) == 2 * 16012
script("picture_16000_bytes_mode_6_granted", "mode 6: the longest object there is, 16,012 bytes, its lengths with 82: 61 without data, pieces of 256, 90 00 alone",
       PICTURE_ROW,
       STEP_2_OF_6 + pieces(longest_picture, 256, True, True) + yes(1, 2, 3, 5), GRANTED_6)
script("picture_longer_lengths_granted", "every length of the picture object as 81 and one byte in mode 5, as 82 and two bytes in mode 6, FE 81 00 and FE 82 00 00 too", LONGER,
       STEP_2_OF_5 + whole(picture(form="81")) + yes(1, 2, 5) + STEP_2_OF_6 + whole(picture(form="82")) + yes(1, 2, 3, 5), GRANTED_6)
script("picture_value_not_opened_granted", "mode 5: a BC that begins with BC and FE, and ends inside a TLV", NOT_OPENED,
       STEP_2_OF_5 + whole(picture("BC01AAFE00FFFF8180")) + yes(1, 2, 5), GRANTED_5)
script("picture_1_byte_pieces_granted", "mode 6: 61 without data, the picture object one byte an answer, 90 00 alone", CUT,
       STEP_2_OF_6 + pieces(picture(), 1, True, True) + yes(1, 2, 3, 5), GRANTED_6)

# The same bytes in both layouts: only the greatest length differs.
script("picture_fingers_862_bytes_granted", "the longest fingers object in step 2 of mode 5: it is a DFC108 of 862 bytes", PICTURE_ROW,
       STEP_2_OF_5 + pieces(fingers(some_bytes(862)), 256) + yes(1, 2, 5), GRANTED_5)
script("picture_863_bytes_granted", "mode 6: a picture of 863 bytes, one more than fingers may have", PICTURE_ROW,
       STEP_2_OF_6 + pieces(picture(some_bytes(863)), 256) + yes(1, 2, 3, 5), GRANTED_6)
script("picture_small_in_mode_4_granted", "the same small object in step 2 of mode 6 and of mode 4: good in both", FINGERS_ROW,
       ALL_READ_6 + [ok(opening(4))] + select() + whole(signed()) + whole(picture()) + yes(1, 2, 3, 4), stamp(4, GRANTED, 0, 3, "2222220"))
script("cause_20_picture_863_in_mode_4", "the picture of 863 bytes in step 2 of mode 4, which reads the fingers", FINGERS_ROW,
       [ok(opening(4))] + select() + whole(signed()) + pieces(picture(some_bytes(863)), 256) + [refused(9, verdict(4, 1))],
       stamp(4, REJECTED, 20, 2, "1122110"))

# The limits of the steps.
full_picture = "53823FFC" + "BC823FF8" + some_bytes(16376)
assert len(full_picture) == 2 * 16384
script("cause_20_picture_16001_bytes_mode_5", "mode 5: a picture of 16,001 bytes", PICTURE_ROW,
       STEP_2_OF_5 + pieces(picture(some_bytes(16001)), 256), stamp(5, REJECTED, 20, 2, "1122001"))
script("cause_20_picture_16001_bytes_mode_6", "mode 6: a picture of 16,001 bytes without field FE", PICTURE_ROW,
       STEP_2_OF_6 + pieces(picture(some_bytes(16001), end=False), 256), stamp(6, REJECTED, 20, 2, "1122101"))
script("cause_20_picture_16384_in_all_mode_5", "exactly 16,384 bytes in step 2 of mode 5: they are judged, and the picture has 16,376 bytes", PAST_16384,
       STEP_2_OF_5 + pieces(full_picture, 256), stamp(5, REJECTED, 20, 2, "1122001"))
script("cause_20_picture_16384_in_all_mode_6", "the same in mode 6, with 90 00 alone after them", PAST_16384,
       STEP_2_OF_6 + pieces(full_picture, 256, end_empty=True), stamp(6, REJECTED, 20, 2, "1122101"))
script("cause_18_picture_16385_mode_5", "16,384 bytes in step 2 of mode 5, then one byte more with 61; FASC-N and expiry stay", PAST_16384,
       STEP_2_OF_5 + pieces(full_picture, 256)[:-1]
       + [ok(answer(full_picture[-512:], "6101")), ok(answer("FE", "6101")), refused(5, answer("00", "9000")), refused(9, verdict(5, 1))],
       stamp(5, REJECTED, 18, 2, "1122001"))
script("cause_18_picture_16385_mode_6", "16,250 bytes in step 2 of mode 6, then 135 more in one answer; FASC-N and expiry stay", PAST_16384,
       STEP_2_OF_6 + pieces(full_picture, 250)[:65] + [ok(answer(some_bytes(135))), refused(5, answer("", "9000"))],
       stamp(6, REJECTED, 18, 2, "1122101"))
script("cause_18_fingers_4097_mode_4", "4,096 bytes in step 2 of mode 4, then one byte more", PAST_16384,
       [ok(opening(4))] + select() + whole(signed()) + pieces(full_object, 256, end_empty=True)[:-1] + [ok(answer("FE"))],
       stamp(4, REJECTED, 18, 2, "1122110"))
script("cause_20_fingers_4096_mode_4", "exactly 4,096 bytes in step 2 of mode 4: they are judged", PAST_16384,
       [ok(opening(4))] + select() + whole(signed()) + pieces(full_object, 256), stamp(4, REJECTED, 20, 2, "1122110"))
script("cause_18_picture_step_0_mode_6", "a template of 4,096 bytes in mode 6, then one byte more", AS_NOW,
       [ok(opening(6))] + pieces(full_template, 256, end_empty=True)[:-1] + [ok(answer("00")), refused(5, answer("", "9000"))],
       unread(6, REJECTED, 18, 0))
script("cause_18_picture_step_1_mode_5", "a signed object of 4,096 bytes in mode 5, then one byte more", AS_NOW,
       [ok(opening(5))] + select() + pieces(full_object, 256, end_empty=True)[:-1] + [ok(answer("00")), refused(5, answer("", "9000"))],
       unread(5, REJECTED, 18, 1))


# The object DFC108, malformed.
def bad_picture(name, shows, quote, *objects):
    """Each object in step 2 of both modes, in sessions of their own; a verdict is refused with 9, since step 2 has no good end."""
    lines = [line for data in objects for _, before, _ in BOTH
             for line in before + whole(data) + [refused(5, answer("", "9000")), refused(9, verdict(5, 1))]]
    script("cause_20_picture_" + name, shows, quote, lines, stamp(6, REJECTED, 20, 2, "1122101"))


FBC = tlv("BC", some_bytes(60, 9))
assert tlv("53", FBC + FFE) == picture()
bad_picture("lengths", "BC of 0 bytes, with FE and without it, and as BC 81 00, and an FE of 1 byte", PICTURE_ROW,
            picture(""), picture("", end=False), tlv("53", "BC8100"), tlv("53", FBC + "FE0100"))
bad_picture("order", "FE before BC, and FE alone", IN_ORDER, tlv("53", FFE + FBC), tlv("53", FFE))
bad_picture("repeated", "BC twice, with FE and without it, BC on both sides of FE, and FE twice", IN_ORDER,
            tlv("53", FBC + FBC + FFE), tlv("53", FBC + FBC), tlv("53", FBC + FFE + FBC), tlv("53", FBC + FFE + FFE))
bad_picture("other_field", "EE, 33 and 3E, each before BC, between BC and FE, and after FE", IN_ORDER,
            *[tlv("53", value) for element in (FEE, F33, F3E) for value in places([FBC, FFE], element)])
bad_picture("left_over", "a byte left over inside the object, after BC and after FE, and a byte after the object", IN_ORDER,
            tlv("53", FBC + "00"), tlv("53", FBC + FFE + "FE"), picture() + "00")
bad_picture("without_53", "the fields without tag 53, in a TLV with tag 73, and 90 00 alone", "A data object is one TLV with tag 53",
            FBC + FFE, "73" + picture()[2:], "")
bad_picture("length_one_off", "the length of the 53 one too low and one too high, and the length of BC one too high", "A TLV is tag, length, value",
            "533F" + FBC + FFE, "5341" + FBC + FFE, tlv("53", "BC3D" + FBC[4:]))
bad_picture("signed_object", "the signed object once more in place of the picture", STEP_2_READS, signed())

# Each of the other causes, in both modes.
for mode, before, outcomes in BOTH:
    script("cause_16_picture_mode_%d" % mode, "the picture is not given in mode %d: FASC-N, expiry and the outcomes of step 1 stay" % mode, R16,
           before + [ok(answer(picture(), "6282")), refused(5, answer(picture())), refused(9, verdict(5, 1))],
           stamp(mode, REJECTED, 16, 2, outcomes, status="6282"))
    script("cause_17_picture_mode_%d" % mode, "61 without data twice in step 2 of mode %d" % mode, R17,
           before + [ok(answer("", more(picture())))] * 2 + [refused(5, answer(picture()))], stamp(mode, REJECTED, 17, 2, outcomes))
    script("cause_19_picture_mode_%d" % mode, "90 00 alone to SELECT in mode %d" % mode, "needed outcomes 1, others 0",
           [ok(opening(mode)), ok(answer()), refused(5, answer(TEMPLATE))], unread(mode, REJECTED, 19, 0))
    bad_object("picture_unsigned_mode_%d" % mode, "the unsigned object in step 1 of mode %d" % mode, "Step 1 reads 5FC102, or 5FC104 in mode 2",
               unsigned(guid=GUID), mode=mode)
    bad_card(21, "picture_mode_%d" % mode, "E3 as the last byte of the FASC-N in mode %d" % mode, "FASC-N ill-formed, 21", signed(WRONG_PARITY), mode=mode)
    bad_card(22, "picture_mode_%d" % mode, "an expiry that is no real date in mode %d" % mode, "20230229 not", signed(expiry="20230229"), mode=mode)

# Cards that correct the length, in step 2.
script("corrected_picture_granted", "mode 5: 6C 42 to the second GET DATA, then the picture object of 66 bytes", SAME_COMMAND,
       STEP_2_OF_5 + [ok(answer("", "6C42"))] + whole(picture()) + yes(1, 2, 5), GRANTED_5)
script("cause_16_6c_twice_picture", "mode 6: 6C 42, then 6C 00 to the second GET DATA", SECOND_6C,
       STEP_2_OF_6 + [ok(answer("", "6C42")), ok(answer("", "6C00")), refused(5, answer(picture()))], stamp(6, REJECTED, 16, 2, "1122101", status="6C00"))

# Check 7, and the lowest check.
script("cause_7_no", "mode 5: kinds 1 and 2 yes, kind 5 no", KIND_5, ALL_READ_5 + yes(1, 2) + [ok(verdict(5, 0))], stamp(5, REJECTED, 7, 3, "2222003"))
script("cause_7_other_card", "mode 5: kind 5 of another card, kinds 1 and 2 of this one", YES_EQUAL, ALL_READ_5 + yes(5, card=OTHER) + yes(1, 2),
       stamp(5, REJECTED, 7, 3, "2222004"))
script("cause_7_no_of_another_card", "mode 6: a no of kind 5 with another card's FASC-N is a no", "A no gives 3",
       ALL_READ_6 + yes(1, 2, 3) + [ok(verdict(5, 0, OTHER))], stamp(6, REJECTED, 7, 3, "2222203"))
script("cause_7_others_awaited", "mode 6: a no of kind 5, and no other verdict yet", "Standing is rejected if cause is not 0",
       ALL_READ_6 + [ok(verdict(5, 0))], stamp(6, REJECTED, 7, 3, "1122103"))
script("cause_5_below_7", "mode 6: a no of kind 5, then of kind 3: the cause falls from 7 to 5", LOWEST,
       ALL_READ_6 + [ok(verdict(5, 0)), ok(verdict(3, 0))], stamp(6, REJECTED, 5, 3, "1122303"))
script("cause_1_below_5_and_7", "mode 6: a no of kind 5, of kind 3, then of kind 1: the cause falls from 7 to 5 to 1", LOWEST,
       ALL_READ_6 + [ok(verdict(5, 0)), ok(verdict(3, 0)), ok(verdict(1, 0))], stamp(6, REJECTED, 1, 3, "3122303"))
script("cause_3_picture_mode_5", "mode 5: expired the day before, all verdicts yes", "Expiry the day before fails",
       [ok(opening(5))] + select() + whole(signed(expiry="20240714")) + whole(picture()) + yes(1, 2, 5),
       stamp(5, REJECTED, 3, 3, "2232002", expiry="20240714"))
script("cause_3_picture_mode_6", "mode 6: expired and cancelled, and a no of kind 5: the lowest check is named", LOWEST,
       [ok(SAMPLE_CARD), ok(opening(6))] + select() + whole(signed(expiry="20240714")) + whole(picture()) + yes(1, 2, 3) + [ok(verdict(5, 0))],
       stamp(6, REJECTED, 3, 3, "2233203", expiry="20240714"))
script("cause_4_picture_mode_5", "mode 5: cancelled, and rejected while the picture is still to be read", LENT,
       [ok(SAMPLE_CARD)] + STEP_2_OF_5, stamp(5, REJECTED, 4, 2, "1123001"))
script("cause_4_picture_mode_6", "mode 6: cancelled, all verdicts yes", LENT,
       [ok(SAMPLE_CARD)] + ALL_READ_6 + yes(5, 3, 2, 1), stamp(6, REJECTED, 4, 3, "2223202"))
script("picture_cancelled_in_step_2_granted", "mode 5: the card line between step 1 and step 2",
       "cancelled if its key stands in the list lent with the answer that ended step 1",
       STEP_2_OF_5 + [ok(SAMPLE_CARD)] + whole(picture()) + yes(1, 2, 5), GRANTED_5)

# Left open.
script("open_picture_nothing_read_mode_5", "an opening in mode 5 and no answer", OUTCOME_7, [ok(opening(5))], unread(5, OPEN, 0, 0))
script("open_picture_step_2_mode_6", "mode 6: the picture read but for its last piece", "Step 1's good end sets check 3",
       STEP_2_OF_6 + pieces(picture(), 64)[:-1], stamp(6, OPEN, 0, 2, "1122101"))
script("open_picture_all_but_kind_5_mode_5", "mode 5 with the verdicts 1 and 2: check 7 is awaited", MODE_5, ALL_READ_5 + yes(1, 2),
       stamp(5, OPEN, 0, 3, "2222001"))
script("open_picture_all_but_kind_5_mode_6", "mode 6 with the verdicts 1, 2 and 3: check 7 is awaited", MODE_6, ALL_READ_6 + yes(1, 2, 3),
       stamp(6, OPEN, 0, 3, "2222201"))
script("open_picture_all_but_kind_3_mode_6", "mode 6 with the verdicts 1, 2 and 5: check 5 is awaited", MODE_6, ALL_READ_6 + yes(1, 2, 5),
       stamp(6, OPEN, 0, 3, "2222102"))

# Refused.
script("refused_1_mode_after_mode_6", "modes 0, 7, 8 and 9 amid a reading in mode 6, which goes on", RANGES,
       STEP_2_OF_6 + [refused(1, opening(mode)) for mode in (0, 7, 8, 9)] + whole(picture()) + yes(1, 2, 3, 5), GRANTED_6)
script("refused_9_kind_5_early", "kind 5 straight after the opening, after SELECT, before step 2 and amid it, mode 5", "9 step not 3",
       [ok(opening(5)), refused(9, verdict(5, 1))] + select() + [refused(9, verdict(5, 0))] + whole(signed())
       + [refused(9, verdict(5, 1)), ok(answer("", more(picture()))), refused(9, verdict(5, 0))] + whole(picture()) + yes(1, 2, 5), GRANTED_5)
script("refused_10_kind_mode_6", "kinds 0, 6, 7 and 9 in mode 6", NEW_FIGURES,
       ALL_READ_6 + [refused(10, verdict(kind, 1)) for kind in (0, 6, 7, 9)] + yes(1, 2, 3, 5), GRANTED_6)
kind_5_unneeded = [refused(13, verdict(5, 0)), refused(13, verdict(5, 1))]
script("refused_13_kind_5_modes_1_and_2", "kind 5 as a no and as a yes in mode 2, then in mode 1", NOT_NEEDED,
       [ok(opening(2))] + select() + whole(unsigned()) + kind_5_unneeded + yes(3) + ALL_READ_1 + kind_5_unneeded + yes(1, 2) + kind_5_unneeded, GRANTED_1)
script("refused_13_kind_5_modes_3_and_4", "kind 5 as a no and as a yes in mode 3, then in mode 4", NOT_NEEDED,
       ALL_READ_3 + kind_5_unneeded + yes(1, 2, 4) + ALL_READ_4 + kind_5_unneeded + yes(1, 2, 3, 4) + kind_5_unneeded, stamp(4, GRANTED, 0, 3, "2222220"))
script("refused_13_kinds_3_and_4_mode_5", "kinds 3 and 4 in mode 5, as a no and as a yes", NOT_NEEDED,
       ALL_READ_5 + [refused(13, verdict(kind, given)) for kind in (3, 4) for given in (0, 1)] + yes(1, 2, 5), GRANTED_5)
script("refused_13_kind_4_mode_6", "kind 4 in mode 6, as a no and as a yes", NOT_NEEDED,
       ALL_READ_6 + [refused(13, verdict(4, 0)), refused(13, verdict(4, 1))] + yes(1, 2, 3, 5) + [refused(13, verdict(4, 0))], GRANTED_6)
script("refused_14_kind_5_twice", "mode 5: a no of kind 5 after its yes changes nothing", "14 that kind already given",
       ALL_READ_5 + yes(5) + [refused(14, verdict(5, 0)), refused(14, verdict(5, 1))] + yes(1, 2) + [refused(14, verdict(5, 0))], GRANTED_5)
script("refused_14_kind_5_after_a_no", "mode 6: a yes of kind 5 after its no changes nothing", "14 that kind already given",
       ALL_READ_6 + [ok(verdict(5, 0)), refused(14, verdict(5, 1))] + yes(1, 2, 3), stamp(6, REJECTED, 7, 3, "2222203"))
script("refused_12_kind_5_in_order", "kind 5 with several faults: the first number in document 01's order", "Numbers are tested in the order shown",
       [ok(opening(6)), refused(9, verdict(5, 9, "00"))] + ALL_READ_6
       + [refused(11, verdict(5, 9, "00")), refused(12, verdict(5, 0, WRONG_PARITY)), refused(12, verdict(5, 1, SAMPLE[:-2]))] + yes(5)
       + [refused(11, verdict(5, 2)), refused(12, verdict(5, 1, WRONG_CHECK)), refused(14, verdict(5, 1, OTHER))] + yes(1, 2, 3), GRANTED_6)

# One opening after another.
script("second_open_mode_5_after_mode_4_granted", "250 bytes in step 2 of mode 4, then a reading in mode 5: the bytes of before do not count", REPLACES,
       [ok(opening(4))] + select() + whole(signed()) + pieces(full_object, 250)[:1] + ALL_READ_5 + yes(1, 2, 5), GRANTED_5)
script("second_open_mode_3_after_mode_6_granted", "4,250 bytes in step 2 of mode 6, then a reading in mode 3: the bytes of before do not count, and check 7 is not needed", REPLACES,
       STEP_2_OF_6 + pieces(full_picture, 250)[:17] + ALL_READ_3 + yes(1, 2, 4), GRANTED_3)

# ---------------------------------------------------------------- refusals
group("Refused lines")

script("refused_1_mode", "modes 0, 7 and 9, then a good opening", RANGES,
       [refused(1, opening(0)), refused(1, opening(7)), refused(1, opening(9)), refused(4, answer(TEMPLATE)), ok(opening(1))]
       + select(), unread(1, OPEN, 0, 1))
script("refused_2_date", "opening dates that are not real", "2 date not real",
       [refused(2, opening(1, date)) for date in ("20230229", "21000229", "20240431", "20241301", "20240700", "00000101")],
       NO_SESSION)
script("refused_3_aid", "AIDs of 1, 4 and 17 bytes", "3 AID not 5–16 bytes",
       [refused(3, opening(1, aid="A0")), refused(3, opening(1, aid="A0000003")), refused(3, opening(1, aid=NEXGEN + "040506070809"))],
       NO_SESSION)
script("refused_4_no_session", "an answer and a verdict before any opening", "`(refused 4)` if no session is open",
       [refused(4, answer(TEMPLATE)), refused(4, answer("", "90")), refused(4, verdict(1, 1)), refused(4, verdict(9, 9, "00"))],
       NO_SESSION)
script("refused_4_then_granted", "an answer before any opening, then a good reading", COUNT_NOTHING,
       [refused(4, answer(TEMPLATE))] + ALL_READ_1 + yes(1, 2), GRANTED_1)
script("refused_5_all_read", "answers after all is read", "5 no command outstanding",
       ALL_READ_1 + [refused(5, answer(fingers())), refused(5, answer("", "6A82")), refused(5, answer("", "90"))] + yes(1, 2), GRANTED_1)
script("refused_5_after_a_cause", "good answers after cause 16", "A cause of 16 to 22 ends the reading at that step for good",
       [ok(opening(1)), ok(answer("", "6A82"))] + [refused(5, answer(TEMPLATE))] * 2 + [refused(5, answer(signed()))],
       unread(1, REJECTED, 16, 0, "6A82"))
script("refused_8_then_good", "answers of 1, 259 and 507 bytes; the next answer is good", "8 answer under 2 or over 258 bytes",
       [ok(opening(1)), refused(8, answer("", "90"))] + select() + [refused(8, answer(some_bytes(257))), refused(8, answer(some_bytes(505)))]
       + whole(signed()) + yes(1, 2), GRANTED_1)
script("refused_8_between_pieces", "a short answer after 61, then an empty 61: the command outstanding is still GET RESPONSE",
       "A refusal changes no session and no buffer",
       [ok(opening(1))] + select() + [ok(answer("", more(signed()))), refused(8, answer("", "61")), ok(answer("", more(signed())))],
       unread(1, REJECTED, 17, 1))
script("refused_8_no_cause", "an answer of 259 bytes that ends in 6A 82 gives no cause", COUNT_NOTHING,
       [ok(opening(1)), refused(8, answer(some_bytes(257), "6A82"))] + select(), unread(1, OPEN, 0, 1))
script("answer_258_bytes_granted", "an answer of 258 bytes is the longest that is taken", "8 answer under 2 or over 258 bytes",
       [ok(opening(1))] + select() + whole(signed(signature=some_bytes(256 - 63))) + yes(1, 2), GRANTED_1)
assert len(signed(signature=some_bytes(256 - 63))) == 512
script("refused_9_early_verdict", "verdicts straight after the opening, after SELECT, before step 2 and amid it, mode 3", "9 step not 3",
       [ok(opening(3)), refused(9, verdict(1, 1))] + select() + [refused(9, verdict(1, 1))] + whole(signed())
       + [refused(9, verdict(1, 1)), ok(answer("", more(fingers()))), refused(9, verdict(4, 0))] + whole(fingers()) + yes(1, 2, 4),
       stamp(3, GRANTED, 0, 3, "2222020"))
script("refused_10_kind", "kinds 0, 6 and 9", NEW_FIGURES,
       ALL_READ_1 + [refused(10, verdict(0, 1)), refused(10, verdict(6, 1)), refused(10, verdict(9, 0))] + yes(1, 2), GRANTED_1)
script("refused_11_yes", "verdicts 2 and 9", "11 verdict not 0 (no) or 1 (yes)",
       ALL_READ_1 + [refused(11, verdict(1, 2)), refused(11, verdict(2, 9))] + yes(1, 2), GRANTED_1)
script("refused_12_fascn", "24 and 26 bytes, wrong parity, a mark, a digit and the check character wrong; a no needs a FASC-N too",
       "12 not 25 bytes or ill-formed FASC-N",
       ALL_READ_1 + [refused(12, verdict(1, 1, SAMPLE[:-2])), refused(12, verdict(1, 1, SAMPLE + "00")),
                     refused(12, verdict(1, 1, WRONG_PARITY)), refused(12, verdict(1, 0, WRONG_PARITY)),
                     refused(12, verdict(2, 1, WRONG_MARK)), refused(12, verdict(2, 1, WRONG_DIGIT)),
                     refused(12, verdict(2, 0, WRONG_CHECK)), refused(12, verdict(2, 0, "00"))] + yes(1, 2), GRANTED_1)
script("refused_13_unneeded", "mode 1: kinds 3 and 4, yes and no", "13 mode doesn't need it",
       ALL_READ_1 + [refused(13, verdict(3, 1)), refused(13, verdict(4, 0)), refused(13, verdict(3, 1))] + yes(1, 2), GRANTED_1)
script("refused_13_mode_2", "mode 2: kinds 1, 2 and 4", "13 mode doesn't need it",
       [ok(opening(2))] + select() + whole(unsigned()) + [refused(13, verdict(kind, 1)) for kind in (1, 2, 4)] + yes(3),
       stamp(2, GRANTED, 0, 3, "0022200"))
script("refused_14_given_twice", "a no after a yes of the same kind changes nothing", "14 that kind already given",
       ALL_READ_1 + yes(1) + [refused(14, verdict(1, 0)), refused(14, verdict(1, 1))] + yes(2) + [refused(14, verdict(2, 0))], GRANTED_1)
script("refused_14_after_a_no", "a yes after a no, and after another card, changes nothing", "14 that kind already given",
       ALL_READ_1 + [ok(verdict(1, 0)), refused(14, verdict(1, 1))] + yes(2, card=OTHER) + [refused(14, verdict(2, 1))],
       stamp(1, REJECTED, 1, 3, "3422000"))
script("refused_in_their_order", "lines that two or more conditions fit: the first number in document 01's order", "Numbers are tested in the order shown",
       [refused(1, opening(0, "20230229", "A0")), refused(2, opening(1, "20230229", "A0")), refused(4, answer("", "90")), ok(opening(2)),
        refused(9, verdict(9, 9, "00"))] + select() + whole(unsigned())
       + [refused(5, answer("", "90")), refused(10, verdict(0, 9, "00")), refused(11, verdict(1, 9, "00")), refused(12, verdict(1, 1, "00")),
          refused(13, verdict(1, 1))] + yes(3)
       + [refused(12, verdict(3, 1, WRONG_CHECK)), refused(13, verdict(4, 0)), refused(14, verdict(3, 0, OTHER))],
       stamp(2, GRANTED, 0, 3, "0022200"))
script("refused_among_good_granted", "mode 4 with refused lines between all the good ones: the stamp of mode_4_granted", COUNT_NOTHING,
       [refused(4, answer("", "9000")), refused(3, opening(4, aid="A0")), ok(opening(4)), refused(9, verdict(1, 0)), refused(8, answer("", "61"))]
       + select() + [refused(1, opening(0))] + pieces(signed(), 60)[:1] + [refused(8, answer(some_bytes(300))), refused(9, verdict(2, 0))]
       + pieces(signed(), 60)[1:] + [refused(2, opening(4, "20230229"))] + whole(fingers())
       + [refused(5, answer("", "6A82")), refused(10, verdict(0, 0)), refused(11, verdict(1, 5)), refused(12, verdict(1, 0, WRONG_PARITY))]
       + yes(1, 2) + [refused(14, verdict(1, 0))] + yes(3, 4) + [refused(14, verdict(4, 0))], stamp(4, GRANTED, 0, 3, "2222220"))

group("One opening after another")

script("second_open_replaces", "granted, then an opening in mode 3: only the new session counts", REPLACES,
       ALL_READ_1 + yes(1, 2) + [ok(opening(3, "20240716"))], unread(3, OPEN, 0, 0, date="20240716"))
script("second_open_after_a_cause_granted", "6A 82, then a new opening with another AID and a good reading", REPLACES,
       [ok(opening(1, aid=TEST_RID)), ok(answer("", "6A82")), ok(opening(1, aid=PARTIAL))] + select() + whole(signed()) + yes(1, 2), GRANTED_1)
script("second_open_amid_pieces_granted", "an opening between two pieces: the new session begins with SELECT and no data", REPLACES,
       [ok(opening(1))] + select() + pieces(signed(), 60)[:1] + ALL_READ_1 + yes(1, 2), GRANTED_1)
script("cause_4_second_open_keeps_cards", "a card line, an opening, and a second opening: the card is still cancelled", SO_FAR,
       [ok(opening(2)), ok(SAMPLE_CARD)] + ALL_READ_1 + yes(1, 2), stamp(1, REJECTED, 4, 3, "2223000"))
script("cause_4_second_reading", "the card granted in one session, then cancelled, then read again", SO_FAR,
       ALL_READ_1 + yes(1, 2) + [ok(SAMPLE_CARD)] + ALL_READ_1 + yes(1, 2), stamp(1, REJECTED, 4, 3, "2223000"))
script("second_card_granted", "a rejected card, then another card in a new session", REPLACES,
       [ok(SAMPLE_CARD)] + ALL_READ_1 + [ok(opening(1))] + select() + whole(signed(OTHER)) + yes(1, 2, card=OTHER),
       stamp(1, GRANTED, 0, 3, "2222000", card=OTHER))
script("cause_1_verdict_of_the_card_before", "two cards one after the other; the verdicts are those of the first", YES_EQUAL,
       ALL_READ_1 + [ok(opening(1))] + select() + whole(signed(OTHER)) + yes(1, 2), stamp(1, REJECTED, 1, 3, "4422000", card=OTHER))
script("refused_open_keeps_granted", "granted, then openings refused with 1, 2 and 3", REPLACES,
       ALL_READ_1 + yes(1, 2) + [refused(1, opening(0)), refused(2, opening(1, "20240732")), refused(3, opening(1, aid="A0000003"))], GRANTED_1)

# --------------------------------------------------------------- bad lines
group("Lines that are none of the four")

PAIRS = "HEX is one or more pairs of upper-case digits"
ONE_DIGIT = "MODE, KIND and YES are one decimal digit, DATE eight"


def bad_lines(name, shows, quote, *lines):
    """The same bad lines before the opening and amid a granted reading in mode 1."""
    some = [bad(line) for line in lines]
    script("bad_" + name, shows, quote, some + ALL_READ_1[:2] + some + ALL_READ_1[2:] + yes(1, 2), GRANTED_1)


bad_lines("empty_line", "empty lines", OTHER_LINES, "")
bad_lines("lower_case_hex", "lower-case digits in HEX", PAIRS,
          opening(1, aid=NEXGEN.lower()), answer("", "6a82"), verdict(1, 0, SAMPLE.lower()))
bad_lines("odd_digits", "an odd number of digits in HEX", PAIRS, answer("", "900"), opening(1, aid=NEXGEN + "0"), verdict(1, 0, SAMPLE[:-1]))
bad_lines("no_hex", "no HEX", PAIRS, "(answer )", "(answer)", "(open 1 20240715 )", "(open 1 20240715)", "(verdict 1 0 )", "(verdict 1 0)")
bad_lines("no_hex_digit", "a character in HEX that is no hexadecimal digit", PAIRS, "(answer 9O00)", "(answer 0x9000)", "(answer +100)", "(answer 61:08)")
bad_lines("spaces_in_hex", "bytes with spaces between them", PAIRS, "(answer 6A 82)", "(verdict 1 0 " + SAMPLE[:10] + " " + SAMPLE[10:] + ")")
bad_lines("two_spaces", "two spaces between words", OTHER_LINES, "(answer  6A82)", "(open 0  20240715 " + NEXGEN + ")", "(verdict 1  0 " + SAMPLE + ")")
bad_lines("spaces_outside", "a space before or after", OTHER_LINES, "(answer 6A82) ", " (answer 6A82)", "( answer 6A82)", "(answer 6A82 )")
bad_lines("tab", "a tab in place of a space", OTHER_LINES, "(answer\t6A82)", "(verdict 1\t0 " + SAMPLE + ")")
bad_lines("cr", "a CR at the end", OTHER_LINES, "(answer 6A82)\r", "\r", SAMPLE_CARD + "\r")
bad_lines("parenthesis", "a parenthesis missing or one too many", OTHER_LINES, "(answer 6A82", "answer 6A82)", "answer 6A82", "((answer 6A82))",
          "(answer 6A82))", "(", ")", "()")
bad_lines("nul", "a NUL byte", OTHER_LINES, "\0", "(answer 6A82)\0", "(answer\0006A82)", "(answer 6A\00082)")
bad_lines("byte_above_7f", "bytes above 7F", OTHER_LINES, "\xff", "(answer 6A82\xff)", "\xef\xbb\xbf(answer 6A82)")
bad_lines("two_on_a_line", "two calls on one line, a comment after a call", OTHER_LINES, "(answer 6A82)(answer 6A82)", "(answer 6A82) ; no such object")
bad_lines("other_names", "names that are no line of the gate", OTHER_LINES, "(stamp)", "(command)", "(field 30)", "(cin (12345678))", "(ANSWER 6A82)", "(answers 6A82)",
          "(answer6A82)", "hello")
bad_lines("mode_of_two_digits", "a mode of two digits, of none, and a letter", ONE_DIGIT, opening("01"), opening(12), opening(""), opening("A"), opening("-1"))
bad_lines("date_of_seven_digits", "dates of seven and nine digits, and with hyphens", ONE_DIGIT, opening(1, "2024071"), opening(1, "202407150"),
          opening(1, "2024-07-15"), opening(1, "2024O715"))
bad_lines("kind_or_yes_of_two_digits", "a kind or a verdict of two digits, and words", ONE_DIGIT, verdict("01", 0), verdict(1, "00"), verdict(1, "no"), verdict("F", 0))
bad_lines("words_too_many", "a word too many or too few", OTHER_LINES, "(open 1 20240715 " + NEXGEN + " 00)", "(verdict 1 " + SAMPLE + ")", "(verdict 1 0 1 " + SAMPLE + ")",
          "(open " + NEXGEN + ")")
bad_lines("card_lines", "card lines that are malformed: the card is not cancelled", "A list line is 32 bytes",
          "(card (1341 0001 987654) (1 1)", "(card (1341 0001 987654) (11))", "(card (1341 0001 98765) (1 1))", "(card (13410001987654) (1 1))",
          "(card (1341 0001 987654)  (1 1))", "(card (1341 0001 987654) (1 1)) ", "(card (1341 0001 98765A) (1 1))", "(card 1341000198765411)",
          "(Card (1341 0001 987654) (1 1))", "(card (1341 0001 987654 1 1))", "(card (1341 0001 987654) (1 -1))", "(card)")

LINES = "reads standard input by lines of at most 1,024 bytes"
long_answer = answer(some_bytes(505))                    # 507 bytes with the status
assert len(long_answer) == 1023
too_long_answer = answer(some_bytes(506))
assert len(too_long_answer) == 1025
long_open = opening(1, aid=some_bytes(503))
assert len(long_open) == 1024
long_verdict = verdict(1, 0, some_bytes(505))
assert len(long_verdict) == 1024
script("line_of_1023_bytes", "an answer of 507 bytes, a line of 1,023: refused with 8, not bad", LINES,
       [ok(opening(1)), refused(8, long_answer)] + select(), unread(1, OPEN, 0, 1))
script("line_of_1024_bytes", "an opening and a verdict on lines of exactly 1,024 bytes: refused with 3 and 12", LINES,
       [refused(3, long_open)] + ALL_READ_1 + [refused(12, long_verdict)] + yes(1, 2), GRANTED_1)
script("bad_line_of_1025_bytes", "an answer of 508 bytes, a line of 1,025", OTHER_LINES,
       [ok(opening(1)), bad(too_long_answer)] + select(), unread(1, OPEN, 0, 1))
script("bad_line_of_1025_bytes_tail", "a line of 1,024 bytes that would be refused with 3, and a space after it; then without the space", OTHER_LINES,
       [bad(long_open + " "), refused(3, long_open)], NO_SESSION)
script("bad_line_of_5000_bytes", "a line of 5,000 bytes, then a good opening", OTHER_LINES,
       [bad("(answer " + "0" * 4991 + ")"), ok(opening(1))], unread(1, OPEN, 0, 0))
script("bad_long_line_good_end", "a line whose first 1,024 bytes are spaces, then a good opening: one line, one reply", OTHER_LINES,
       [bad(" " * 1024 + opening(1)), ok(opening(2)), bad(" " * 2048 + opening(1))],
       unread(2, OPEN, 0, 0))
script("bad_long_line_good_start", "a good opening, then spaces up to 1,024 and 1,025 bytes", OTHER_LINES,
       [bad(opening(1).ljust(1024)), bad(opening(1).ljust(1025))], NO_SESSION)

group("The ends of the input")

MAY_LACK = "the last line may lack it"
NONE_OPEN = "`(refused 4)` if no session is open"
script("empty_file", "no bytes at all", NONE_OPEN, [], NO_SESSION)
script("only_0a", "one 0A: one empty line", OTHER_LINES, [bad("")], NO_SESSION)
script("only_unfinished_open", "one opening without 0A", MAY_LACK, [ok(opening(1))], unread(1, OPEN, 0, 0), newline=False)
script("only_unfinished_line", "a part of an opening, without 0A", OTHER_LINES, [bad("(open 1 2024")], NO_SESSION, newline=False)
script("last_verdict_without_0a_granted", "the last verdict without 0A", MAY_LACK, ALL_READ_1 + yes(1, 2), GRANTED_1, newline=False)
script("last_card_line_without_0a", "a card line without 0A is good here", MAY_LACK, [ok(opening(1)), ok(SAMPLE_CARD)],
       unread(1, OPEN, 0, 0), newline=False)
script("bad_last_line_cut", "the last verdict ends before its parenthesis", OTHER_LINES, ALL_READ_1 + yes(1) + [bad(verdict(2, 1)[:-1])],
       stamp(1, OPEN, 0, 3, "2122000"), newline=False)
script("last_line_of_1024_bytes", "a last line of 1,024 bytes without 0A", "The 0A isn't counted", [refused(3, long_open)], NO_SESSION, newline=False)
script("bad_last_line_of_1025_bytes", "a last line of 1,025 bytes without 0A", OTHER_LINES, [ok(opening(1)), bad(too_long_answer)],
       unread(1, OPEN, 0, 0), newline=False)
script("empty_lines_at_the_end", "a granted reading and three further 0A: three bad lines", OTHER_LINES,
       ALL_READ_1 + yes(1, 2) + [bad("")] * 3, GRANTED_1)
script("only_card_lines", "card lines and nothing else", NONE_OPEN, [ok(SAMPLE_CARD), ok(card("0032 0001 092446 0 1"))], NO_SESSION)

group("Long inputs")

BLOCK = 16384          # the gate program reads so many bytes at once


def size(lines):
    return sum(len(line) + 1 for line, _ in lines)


def filled(lines, count):
    """The lines, and after them bad lines of at most 1,000 bytes, so that there are `count` bytes."""
    left = count - size(lines)
    assert left >= 0
    while left > 0:
        n = 1000 if left > 1500 else left
        lines = lines + [bad("x" * (n - 1))]
        left -= n
    return lines


def across(lines, line, border):
    """The lines, and after bad lines that fill up to it the line that stands across the border."""
    lines = filled(lines, border - len(line[0]) // 2) + [line]
    assert size(lines) - len(line[0]) - 1 < border < size(lines) - 1
    return lines


reading_1 = ALL_READ_1 + yes(1, 2)
long_1 = reading_1[:1]
for k, line in enumerate(reading_1[1:-1]):
    long_1 = across(long_1, line, (k + 1) * BLOCK)
long_1 = filled(long_1, 4 * BLOCK - len(reading_1[-1][0]) - 1) + [reading_1[-1]]
assert size(long_1) == 65536 and len(reading_1) == 5
script("long_input_65536_bytes_granted", "65,536 bytes, four whole blocks: an answer or a verdict stands across each border, and the last 0A is the last byte", LINES,
       long_1, GRANTED_1)

long_2 = reading_1[:1]
for k, line in enumerate(reading_1[1:]):
    long_2 = across(long_2, line, (k + 1) * BLOCK)
    if k == 1:
        long_2 = long_2 + [bad("x" * 20000)]
        long_2 = filled(long_2, 4 * BLOCK - 200)
        break
long_2 = across(long_2, reading_1[3], 4 * BLOCK)
long_2 = filled(long_2, 80000) + [reading_1[4]]
assert size(long_2) > 80000
script("long_input_over_65536_bytes_granted", "over 80,000 bytes: lines across the borders of blocks, one longer than a block, the last verdict in the fifth block, without 0A", LINES,
       long_2, GRANTED_1, newline=False)
script("long_output_granted", "2,000 empty lines, 12,000 bytes printed at once, then a granted reading", OTHER_LINES, [bad("")] * 2000 + reading_1, GRANTED_1)


# ------------------------------------------------- the checks and the writing

def standing_and_cause(last):
    return int(last[9:11], 16), int(last[11:13], 16)


def check(name, lines, last, printed):
    """Line by line, the last line, and what the name claims."""
    expected = [reply for _, reply in lines] + [last]
    assert printed == expected, (name, [pair for pair in zip(printed, expected) if pair[0] != pair[1]])
    assert len(name) <= 40 and re.fullmatch("[a-z0-9_]+", name), name
    claimed = re.match("(cause|refused)_([0-9]+)_", name)
    if claimed and claimed[1] == "cause":
        assert standing_and_cause(last) == (REJECTED, int(claimed[2])), name
    if claimed and claimed[1] == "refused":
        assert "(refused %s)" % claimed[2] in printed[:-1], name
    if name.endswith("_granted"):
        assert standing_and_cause(last) == (GRANTED, 0), name
    if name.startswith("open_"):
        assert standing_and_cause(last) == (OPEN, 0), name
    if name.startswith("cut_"):
        assert last == GRANTED_1, name
    if name.startswith("bad_"):
        assert "(bad)" in printed, name


def meaning(last):
    if last == NO_SESSION:
        return "no session"
    standing, cause = standing_and_cause(last)
    if standing == REJECTED:
        return "rejected, cause %d" % cause
    return "granted" if standing == GRANTED else "open, step %d" % int(last[17:19], 16)


def main():
    data = HERE / "data"
    data.mkdir(exist_ok=True)
    for old in data.iterdir():
        old.unlink()
    stdout, total = b"", 0
    names = [entry[0] for entry in scripts]
    assert len(set(names)) == len(names)
    for name, _, _, lines, last, newline in scripts:
        text = b"".join(line + b"\n" for line, _ in lines)
        if not newline:
            text = text[:-1]
        printed = reference.run(text)
        check(name, lines, last, printed.decode("ascii").splitlines())
        total += len(text)
        (data / name).write_bytes(text)
        stdout += name.encode("ascii") + b"\n" + printed
    assert total < 1056000
    # A directory can be opened but not read: no line is printed and no stamp, and standard error has a line on it.
    names.append(".")
    stdout += b".\n"
    (HERE / "args").write_text("".join(name + "\n" for name in names))
    (HERE / "stdout").write_bytes(stdout)
    readme = ["# gate_examples: example scripts for `gate`", "",
              "Each file of `data` is an input of the program. `args` has their names, one to a line; `stdout` has, in that order, each name on a line",
              "of its own and then what the program prints for that file. The last line printed is the stamp, or `(refused 4)` where no session is open.", "",
              "`mode`, `cause`, `step` and the numbers of checks, causes and refusals are those of documents 01 and 02. A name that begins with `cause_` has that cause in its stamp; one",
              "that ends in `_granted` has a stamp that says granted; one that begins with `refused_` and a number has a line refused with that number; one that begins with `bad_` has a bad line;",
              "one that begins with `corrected_` has a 6C after which the same command is sent again; one that begins with `older_` has an object with older elements;",
              "one that begins with `picture_` reads a picture object.",
              "The last name of `args` is `.`, a directory: it cannot be read, so nothing is printed for it on standard output, no stamp either, and a line on standard error says so.",
              "The last column has the words of document 01 or 02 that decide the last line, or the reply to the line that the script is about.", ""]
    for title, entries in groups:
        readme += ["## " + title, "", "| script | what it shows | last line | words of document 01 or 02 |", "|---|---|---|---|"]
        readme += ["| `%s` | %s | %s | %s |" % (name, shows, meaning(last), "\"" + quote + "\"") for name, shows, quote, _, last, _ in entries]
        readme.append("")
    (HERE / "README.md").write_text("\n".join(readme).rstrip("\n") + "\n")
    print(len(names), "scripts,", total, "bytes")


if __name__ == "__main__":
    main()
