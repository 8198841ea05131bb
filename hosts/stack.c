/* Measures the stack that each call of gate.h takes, and prints it in bytes, a line a call, and the most of all. Built and run at the root of the repository:
 *     gcc -std=gnu11 -O2 -Iinclude hosts/stack.c target/staticlib/libhost.a -o target/stack && target/stack
 * A call runs on a stack of its own, painted with one byte. The deepest byte that has changed, less the same with an empty function, is what the call took; its return address and the
 * arguments that lie on the stack are counted. What counts is the most over many inputs: small and large, accepted and refused, good cards and malformed ones. */
#include <stdio.h>
#include <stdlib.h>
#include <string.h>
#include <ucontext.h>
#include "gate.h"

enum { OPEN, COMMAND, ANSWER, VERDICT, PREVIEW, FIELD, STAMP, UNPACK, PACK, KEY, LIST_READ, LIST_WRITE, LIST_MERGE, CIN_LOOK_UP, SIZES, NO_CALL };
static const char *const NAMES[] = {"open", "command", "answer", "verdict", "preview", "field", "stamp", "unpack", "pack", "key", "list_read", "list_write", "list_merge", "cin_look_up", "sizes", ""};
/* What the calls are given and what they write; `now` is what one call hands on to the next. */
static struct { gate_session session; uint8_t object[GATE_OBJECT_SIZE]; } now, before;
static uint8_t fascn[] = {0xD4, 0x32, 0x48, 0x58, 0x21, 0x0C, 0x2D, 0x31, 0x71, 0xB5, 0x25, 0xA1, 0x68, 0x5A, 0x08, 0xC9, 0x2A, 0xDE, 0x0A, 0x61, 0x84, 0x32, 0x48, 0x43, 0xE2};
static uint8_t mode, kind, yes, tag, bytes[32000], out[32000], digits[GATE_DIGITS];
static uint64_t keys[1000], own[1000], merged[2000];
static size_t length, room, places, count, line, listed, taken[NO_CALL], without_call;
static volatile int call, number;
static __attribute__((noipa)) int empty(void) { return 0; }
static void make_call(void) {
    volatile uint8_t above[1024]; /* room above the call, so that what leaving the context takes does not hide a call that takes less */
    above[0] = 0;
    switch (call) {
        case OPEN: number = gate_open(&now.session, mode, 20260101, bytes, length); break;
        case COMMAND: number = gate_command(&now.session, out, room, &count); break;
        case ANSWER: number = gate_answer(&now.session, now.object, sizeof now.object, bytes, length, keys, 1000); break;
        case VERDICT: number = gate_verdict(&now.session, kind, yes, fascn, sizeof fascn); break;
        case PREVIEW: number = gate_preview(&now.session, kind, yes, fascn, sizeof fascn, out, room); break;
        case FIELD: number = (int)gate_field(&now.session, now.object, sizeof now.object, tag).length; break;
        case STAMP: number = gate_stamp(&now.session, out, room); break;
        case UNPACK: number = gate_unpack(fascn, sizeof fascn, digits); break;
        case PACK: number = gate_pack(digits, out); break;
        case KEY: number = (int)gate_key(digits); break;
        case LIST_READ: number = gate_list_read(bytes, length, merged, places, &count, &line); break;
        case LIST_WRITE: number = gate_list_write(keys, 1000, out, room, &count); break;
        case LIST_MERGE: number = gate_list_merge(keys, 1000, own, 1000, merged, places, &count); break;
        case CIN_LOOK_UP: number = gate_cin_look_up((const uint8_t *)"7", 1, bytes, length, &listed, &line); break;
        case SIZES: number = (int)gate_sizes().session; break;
        default: number = empty() + above[0];
    }
}
static size_t depth_of_call(uint8_t paint) {
    static uint8_t stack[256 * 1024];
    static ucontext_t harness, other;
    static size_t untouched;
    memset(stack, paint, sizeof stack);
    getcontext(&other);
    other.uc_stack = (stack_t){.ss_sp = stack, .ss_size = sizeof stack};
    other.uc_link = &harness;
    makecontext(&other, make_call, 0);
    swapcontext(&harness, &other);
    for (untouched = 0; untouched < sizeof stack && stack[untouched] == paint;) untouched++;
    if (untouched < 4096) { fprintf(stderr, "stack: gate_%s takes more than there is\n", NAMES[call]); exit(1); }
    return (sizeof stack - untouched + 7) / 8 * 8; /* the stack is taken eight bytes at a time */
}
/* Makes a call three times on the same state. The first time may bind memcpy and memset and is not counted; the other two differ in the paint, should the call write the paint itself. */
static void measure(int which) {
    before = now; call = which;
    for (int i = 0; i < 3; i++) {
        now = before;
        size_t depth = depth_of_call((uint8_t)(i * 0xA5)); /* 00, A5, 4A */
        if (i > 0 && which == NO_CALL) without_call = depth - 8; /* the return address of `empty` */
        else if (i > 0 && depth - without_call > taken[which]) taken[which] = depth - without_call;
    }
}

static uint8_t built[17000]; /* an object or a template under way; every length has the form of three bytes */
static size_t built_length;
static void add(uint8_t a_tag, const void *value, size_t n) {
    memmove(built + built_length + 4, value, n);
    memcpy(built + built_length, (const uint8_t[]){a_tag, 0x82, (uint8_t)(n >> 8), (uint8_t)n}, 4);
    built_length += 4 + n;
}
static void wrap(uint8_t a_tag) { size_t n = built_length; built_length = 0; add(a_tag, built, n); }
static void answer(const uint8_t *data, size_t n, const char *status) {
    memcpy(bytes, data, n); memcpy(bytes + n, status, 2); length = n + 2;
    measure(COMMAND); measure(ANSWER);
}
static void give_built(void) {
    size_t at = 0;
    for (; built_length - at > 256; at += 256) answer(built + at, 256, "\x61\x00");
    answer(built + at, built_length - at, "\x90\x00"); built_length = 0;
}
/* A whole reading; with four nested TLVs the template is too deep and the rest is refused. */
static void read_card(int nested) {
    static const uint8_t zeros[16000], tags[] = {0xEE, 0x30, 0x31, 0x32, 0x33, 0x34, 0x35, 0x3E, 0xBC, 0x00};
    length = GATE_AID_MOST; room = sizeof out; measure(OPEN);
    for (int i = 0; i < nested; i++) wrap(0x70);
    add(0x4F, zeros, 6);
    for (; nested == 0 && built_length < 4092; built_length += 2) memcpy(built + built_length, "\x80", 2); /* as many TLVs as there is room for */
    wrap(0x61);
    if (nested == 1) answer(zeros, 0, "\x6C\x10");
    give_built();
    add(0xEE, zeros, 2); add(0x30, fascn, 25); add(0x31, zeros, 4); add(0x32, zeros, 4); add(0x33, zeros, 9); add(0x34, zeros, 16); add(0x35, "20301231", 8);
    if (mode != 2) add(0x3E, zeros, 2816);
    add(0xFE, zeros, 0); wrap(0x53); give_built();
    add(0xBC, zeros, mode < 5 ? 862 : 16000); wrap(0x53);
    if (nested == 2) answer(zeros, 0, "\x6A\x82");
    give_built();
    for (size_t i = 0; i < sizeof tags; i++) { tag = tags[i]; measure(FIELD); }
    for (kind = 0; kind <= 6; kind++) { measure(PREVIEW); measure(VERDICT); measure(STAMP); }
    if (nested < 2 && out[1] != 1) { fputs("stack: a good card is not granted\n", stderr); exit(1); }
}

int main(void) {
    size_t most = 0;
    measure(NO_CALL);
    for (int i = OPEN; i < NO_CALL; i++) measure(i); /* on a dead session, with no room and empty texts */
    for (size_t i = 0; i < 1000; i++) { keys[i] = 2 * i + 1; own[i] = 2 * i; }
    for (mode = 1; mode <= 6; mode++)
        for (int nested = 0; nested <= 4; nested++) { yes = nested != 3; read_card(nested); }
    measure(UNPACK); measure(PACK); measure(KEY); measure(LIST_MERGE); measure(LIST_WRITE);
    memcpy(bytes, out, length = sizeof bytes); measure(LIST_READ); places = 2000; measure(LIST_READ); measure(LIST_MERGE);
    bytes[31990] = 'x'; measure(LIST_READ); fascn[24] ^= 1; measure(UNPACK);
    for (length = 0; length < 16000; length += 16) memcpy(bytes + length, "(cin (1234567))\n", 16);
    measure(CIN_LOOK_UP); length--; measure(CIN_LOOK_UP);
    for (int i = OPEN; i < NO_CALL; i++) { printf("gate_%s %zu\n", NAMES[i], taken[i]); most = taken[i] > most ? taken[i] : most; }
    printf("most %zu\n", most);
}
