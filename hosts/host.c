/* A sample host in C: it plays recorded card answers to the gate reader core, makes every call of gate.h and prints what each gives (crates/host_examples/stdout is that text, and
 * tools/run_hosts compares the two). In a real host the answers come from the antenna, and the verdicts from the cryptography and the finger matcher. Built at the root of the
 * repository, with the libhost.a that tools/run_hosts writes: gcc -std=c11 -O2 -Iinclude hosts/host.c libhost.a */
#include <inttypes.h>
#include <stdio.h>
#include <string.h>
#include "gate.h"
#define SAMPLE_FASCN 0xD4, 0x32, 0x48, 0x58, 0x21, 0x0C, 0x2D, 0x31, 0x71, 0xB5, 0x25, 0xA1, 0x68, 0x5A, 0x08, 0xC9, 0x2A, 0xDE, 0x0A, 0x61, 0x84, 0x32, 0x48, 0x43, 0xE2
static const uint8_t FASCN[GATE_FASCN_SIZE] = {SAMPLE_FASCN};
static const uint8_t AID[] = {0xA0, 0x00, 0x00, 0x03, 0x67, 0x20, 0x00, 0x00, 0x01, 0x01, 0x03};
static const uint8_t TEMPLATE[] = {0x61, 0x08, 0x4F, 0x06, 0x20, 0x00, 0x00, 0x01, 0x01, 0x03};
static const uint8_t UNSIGNED_OBJECT[] = {0x53, 0x27, 0x30, 0x19, SAMPLE_FASCN, 0x35, 0x08, '2', '0', '1', '1', '0', '4', '1', '0', 0xFE, 0x00};
static const uint8_t SIGNED_OBJECT[] = {0x53, 0x3E, 0x30, 0x19, SAMPLE_FASCN, 0x34, 0x10, 0x00, 0x11, 0x22, 0x33, 0x44, 0x55, 0x66, 0x77, 0x88, 0x99, 0xAA, 0xBB, 0xCC, 0xDD,
    0xEE, 0xFF, 0x35, 0x08, '2', '0', '3', '0', '1', '2', '3', '1', 0x3E, 0x03, 0xA1, 0xB2, 0xC3, 0xFE, 0x00};
static const uint8_t FINGERS[] = {0x53, 0x0C, 0xBC, 0x08, 0x01, 0x02, 0x03, 0x04, 0x05, 0x06, 0x07, 0x08, 0xFE, 0x00};
static const uint8_t TAGS[] = {0x30, 0x34, 0x35, 0x3E, 0xBC};
static const uint64_t NO_KEYS[1] = {0}; /* lent with the length 0: a pointer may not be NULL even then */
static uint8_t object[GATE_OBJECT_SIZE];

static void end_line(const uint8_t *bytes, size_t length) { /* with the bytes in hexadecimal, where there are any */
    for (size_t i = 0; i < length; i++) printf(i == 0 ? " %02X" : "%02X", bytes[i]);
    putchar('\n');
}
static void bytes_line(const char *call, uint8_t number, const uint8_t *written, size_t length) { /* a refused call has written nothing */
    printf("%s %d", call, number);
    end_line(written, number == 0 ? length : 0);
}
/* The lines of a call that gives keys: 0 and their count, 20 and the malformed line, or another number alone; then the keys. */
static void keys_lines(const char *call, uint8_t number, const uint64_t *keys, const size_t *count, const size_t *line) {
    printf(number == 0 || number == 20 ? "%s %d %zu\n" : "%s %d\n", call, number, number == 0 ? *count : *line);
    for (size_t i = 0; number == 0 && i < *count; i++) printf("key %" PRIu64 "\n", keys[i]);
}

static void command(gate_session *session) {
    uint8_t out[GATE_COMMAND_MOST];
    size_t count = 0;
    uint8_t number = gate_command(session, out, sizeof out, &count);
    bytes_line("command", number, out, count);
}
static void answer(gate_session *session, const uint8_t *data, size_t length, uint8_t status_1, uint8_t status_2, const uint64_t *cancelled, size_t cancelled_length) {
    uint8_t bytes[GATE_ANSWER_MOST]; /* the answers here have at most 64 bytes of data */
    memcpy(bytes, data, length);
    bytes[length] = status_1;
    bytes[length + 1] = status_2;
    printf("answer %d\n", gate_answer(session, object, sizeof object, bytes, length + 2, cancelled, cancelled_length));
}
/* The commands and answers of a step whose card gives at most `most` bytes at a time: 61 with the count still to come, 90 00 with the last. */
static void exchange(gate_session *session, const uint8_t *bytes, size_t length, size_t most, const uint64_t *cancelled, size_t cancelled_length) {
    for (size_t at = 0; at < length; at += most) {
        size_t left = length - at, count = left < most ? left : most;
        command(session);
        answer(session, bytes + at, count, left > count ? 0x61 : 0x90, (uint8_t)(left - count), cancelled, cancelled_length);
    }
}
static void field(const gate_session *session, uint8_t tag) {
    gate_place place = gate_field(session, object, sizeof object, tag);
    if (place.length == 0) place.start = 0; /* it says nothing there */
    printf("field %02X %zu %zu", tag, place.start, place.length);
    end_line(object + place.start, place.length);
}
static void stamp(const gate_session *session) {
    uint8_t out[GATE_STAMP_SIZE];
    bytes_line("stamp", gate_stamp(session, out, sizeof out), out, sizeof out);
}
static void verdict(gate_session *session, uint8_t kind, uint8_t yes) { printf("verdict %d\n", gate_verdict(session, kind, yes, FASCN, sizeof FASCN)); }
static void session_line(const gate_session *session) { printf("session"); end_line(session->bytes, sizeof session->bytes); }

static int sizes_agree(void) {
    const size_t header[10] = {GATE_SESSION_SIZE, GATE_OBJECT_SIZE, GATE_STAMP_SIZE, GATE_COMMAND_MOST, GATE_ANSWER_MOST,
        GATE_AID_LEAST, GATE_AID_MOST, GATE_FASCN_SIZE, GATE_DIGITS, GATE_LINE_SIZE};
    const gate_size_table archive = gate_sizes();
    printf("sizes");
    for (size_t i = 0; i < 10; i++) printf(i < 9 ? " %zu" : " %zu\n", header[i]);
    if (sizeof header == sizeof archive && memcmp(header, &archive, sizeof header) == 0) return 1;
    fputs("host: gate.h and libhost.a have different sizes\n", stderr);
    return 0;
}

static void example(void) {
    gate_session session = {{0}};
    uint8_t out[GATE_STAMP_SIZE];
    puts("document 01's example");
    stamp(&session);
    printf("open %d\n", gate_open(&session, 9, 20110410, AID, sizeof AID));
    printf("open %d\n", gate_open(&session, 2, 20110410, AID, sizeof AID));
    command(&session); /* so that the command call of the exchange is refused: one is outstanding */
    exchange(&session, TEMPLATE, sizeof TEMPLATE, 64, NO_KEYS, 0);
    exchange(&session, UNSIGNED_OBJECT, sizeof UNSIGNED_OBJECT, 64, NO_KEYS, 0);
    for (size_t i = 0; i < 3; i++) field(&session, TAGS[i]);
    bytes_line("preview", gate_preview(&session, 3, 1, FASCN, sizeof FASCN, out, sizeof out), out, sizeof out);
    verdict(&session, 3, 1);
    verdict(&session, 3, 1);
    stamp(&session);
}

static void small_answers(void) {
    static const uint64_t cancelled[] = {1, 2};
    gate_session session = {{0}};
    puts("mode 4 in small answers");
    printf("open %d\n", gate_open(&session, 4, 20260101, AID, sizeof AID));
    exchange(&session, TEMPLATE, sizeof TEMPLATE, 7, cancelled, 2);
    exchange(&session, SIGNED_OBJECT, sizeof SIGNED_OBJECT, 7, cancelled, 2);
    exchange(&session, FINGERS, sizeof FINGERS, 7, cancelled, 2);
    for (size_t i = 0; i < sizeof TAGS; i++) field(&session, TAGS[i]);
    for (uint8_t kind = 1; kind <= 4; kind++) { verdict(&session, kind, 1); stamp(&session); }
}

static void saved(void) {
    gate_session session = {{0}}, copy;
    puts("saved and taken up again");
    printf("open %d\n", gate_open(&session, 1, 20260101, AID, sizeof AID));
    session_line(&session);
    exchange(&session, TEMPLATE, sizeof TEMPLATE, 64, NO_KEYS, 0);
    command(&session);
    answer(&session, SIGNED_OBJECT, 40, 0x61, 0x18, NO_KEYS, 0);
    command(&session);
    session_line(&session);
    copy = session;
    memset(&session, 0, sizeof session);
    stamp(&session);
    answer(&copy, SIGNED_OBJECT + 40, 24, 0x90, 0x00, NO_KEYS, 0);
    session_line(&copy);
    verdict(&copy, 1, 0);
    stamp(&copy);
    copy.bytes[0] = 2; /* the version of the 161 bytes: only 1 is known */
    stamp(&copy);
}

static void lists(void) {
    static const uint64_t official[] = {7, 9}, own[] = {8, 9}, falling[] = {9, 7};
    static const char visual[] = "(cin (12345678))\n", *const typed[] = {"12345678", "7", "12x", "7"};
    uint8_t text[97] = "(card (0000 0000 000007) (0 0))\n(card (1341 0001 987654) (1 1))\n(card (9999 9999 999999) (9 9))\n";
    uint8_t out[96], digits[GATE_DIGITS], fascn[GATE_FASCN_SIZE];
    uint64_t keys[3] = {0}, merged[4];
    size_t count = 0, line = 0, listed = 0;
    gate_session session = {{0}};
    puts("a cancelled list from text");
    keys_lines("read", gate_list_read(text, 96, keys, 3, &count, &line), keys, &count, &line);
    keys_lines("read", gate_list_read(text, 96, keys, 2, &count, &line), keys, &count, &line);
    text[40] = 'x';
    keys_lines("read", gate_list_read(text, 96, keys, 3, &count, &line), keys, &count, &line);
    for (size_t room = 96; room >= 95; room--) {
        uint8_t number = gate_list_write(keys, 3, out, room, &count);
        printf(number == 0 ? "write %d %zu" : "write %d", number, count);
        end_line(out, number == 0 ? count * GATE_LINE_SIZE : 0);
    }
    bytes_line("unpack", gate_unpack(FASCN, sizeof FASCN, digits), digits, sizeof digits);
    printf("key %" PRIu64 "\n", gate_key(digits));
    bytes_line("pack", gate_pack(digits, fascn), fascn, sizeof fascn);
    keys_lines("merge", gate_list_merge(official, 2, own, 2, merged, 4, &count), merged, &count, &line);
    keys_lines("merge", gate_list_merge(official, 2, own, 2, merged, 2, &count), merged, &count, &line);
    keys_lines("merge", gate_list_merge(falling, 2, own, 1, merged, 4, &count), merged, &count, &line);
    for (size_t i = 0; i < 4; i++) { /* the last time without the 0A of the text */
        uint8_t number = gate_cin_look_up((const uint8_t *)typed[i], strlen(typed[i]), (const uint8_t *)visual, i < 3 ? 17 : 16, &listed, &line);
        printf(number == 0 || number == 24 ? "look up %d %zu\n" : "look up %d\n", number, number == 0 ? listed : line);
    }
    printf("open %d\n", gate_open(&session, 2, 20110410, AID, sizeof AID));
    exchange(&session, TEMPLATE, sizeof TEMPLATE, 64, NO_KEYS, 0);
    exchange(&session, UNSIGNED_OBJECT, sizeof UNSIGNED_OBJECT, 64, keys, 3);
    stamp(&session);
}

int main(void) {
    if (!sizes_agree()) return 1;
    example();
    small_answers();
    saved();
    lists();
    return 0;
}
