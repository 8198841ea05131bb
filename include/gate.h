/* The gate reader core for C: documents 01 and 02 over a session of GATE_SESSION_SIZE bytes. Link libhost.a, which tools/run_hosts writes. docs/HOSTS.md says in which order to call.
 *
 * A call gives the papers' number: 0 where it is accepted, else the refusal, the first that fits in the order shown here. A refused call leaves the session and every byte that it was lent as
 * they were. A number that is given through a pointer (*count, *line, *listed) is written only beside the number that it is named with, so set it before the call.
 *
 * A session is bytes that the caller holds: they may be copied, stored and taken up again. All zeros, and all other bytes that are no session's, are a dead session: every call on it but
 * gate_open is refused by 4, and gate_field gives no bytes. There is no checksum: bytes that were altered in the store may be another session.
 *
 * What the caller owes, for the memory: no pointer is NULL, also beside a length of 0; what a call may write overlaps nothing else that the call is given; a pointer to uint64_t or size_t is
 * aligned for it; a pointer beside a length has so many elements, and one without has as many as its type says. And for the stamp to be right: one object buffer a session, the same from its
 * opening on, which only gate_answer writes. Another buffer there makes the reading another one, and touches nothing beside it. Every other value of an argument is met with its number.
 *
 * What the core never does: it takes nothing from the heap, has no variables of its own, keeps no pointer after a call, waits for nothing, and calls nothing but memcpy, memmove and memset. So it may be called
 * from several threads at once, where no two calls share what one of them writes.
 *
 * x86-64, System V calling convention. */
#ifndef GATE_H
#define GATE_H

#include <stddef.h>
#include <stdint.h>

#if defined(__GNUC__)
#define GATE_CHECKED __attribute__((warn_unused_result))
#else
#define GATE_CHECKED
#endif

#ifdef __cplusplus
extern "C" {
#endif

/* Sizes in bytes. `gate_sizes` gives the same ones, proved to be those of the papers: compare them once at the start (hosts/host.c does). */
#define GATE_SESSION_SIZE 161 /* a session */
#define GATE_OBJECT_SIZE 20480 /* the object buffer */
#define GATE_STAMP_SIZE 46 /* a stamp */
#define GATE_COMMAND_MOST 22 /* the longest command */
#define GATE_ANSWER_MOST 258 /* the longest answer, its two status bytes included */
#define GATE_AID_LEAST 5 /* an AID */
#define GATE_AID_MOST 16
#define GATE_FASCN_SIZE 25 /* a FASC-N */
#define GATE_DIGITS 32 /* its digits, one a byte */
#define GATE_LINE_SIZE 32 /* a line of a cancelled card list */

/* The stack that a call may take: measured 2,560 bytes at most (gate_answer; hosts/stack.c), not proved. */
#define GATE_STACK_USE 4096

/* Verdict kinds, what stamp byte 1 says, and the tags of gate_field. */
enum { GATE_SIGNATURE = 1, GATE_SIGNER = 2, GATE_AUTHENTICATION = 3, GATE_FINGER = 4, GATE_PICTURE = 5 };
enum { GATE_STANDS_OPEN = 0, GATE_STANDS_GRANTED = 1, GATE_STANDS_REJECTED = 2 };
enum { GATE_TAG_FASCN = 0x30, GATE_TAG_AGENCY = 0x31, GATE_TAG_ORGANIZATION = 0x32, GATE_TAG_DUNS = 0x33, GATE_TAG_GUID = 0x34, GATE_TAG_EXPIRY = 0x35, GATE_TAG_SIGNATURE = 0x3E, GATE_TAG_BIOMETRIC = 0xBC, GATE_TAG_BUFFER_LENGTH = 0xEE };

typedef struct gate_session {
    uint8_t bytes[GATE_SESSION_SIZE];
} gate_session;

/* Where a value lies in the object buffer: `length` bytes from `start` on. A length of 0: there is no value, and `start` says nothing. */
typedef struct gate_place {
    size_t start;
    size_t length;
} gate_place;

typedef struct gate_size_table {
    size_t session;
    size_t object;
    size_t stamp;
    size_t command_most;
    size_t answer_most;
    size_t aid_least;
    size_t aid_most;
    size_t fascn;
    size_t digits;
    size_t line;
} gate_size_table;

/* ---- the session */

/* Opens a session. 1 mode not 1 to 6; 2 date (the number YYYYMMDD) not real; 3 AID not 5 to 16 bytes. A refused opening leaves the session that was there, whatever it is:
 * look at the number before you go on, and clear the bytes where a driver has left. */
GATE_CHECKED uint8_t gate_open(gate_session *session, uint8_t mode, uint32_t date, const uint8_t *aid, size_t aid_length);

/* Writes the next command to the front of out and its length to *count. 4 session dead or out of range; 5 nothing to send; 6 out shorter than the command. */
GATE_CHECKED uint8_t gate_command(gate_session *session, uint8_t *out, size_t out_length, size_t *count);

/* Takes the card's answer, its two status bytes last; the step that it ends is judged, step 1 on the list of cancelled keys that is lent with it, in any order. 4; 5 no command
 * outstanding; 7 object buffer not GATE_OBJECT_SIZE bytes; 8 answer under 2 or over 258 bytes. */
GATE_CHECKED uint8_t gate_answer(gate_session *session, uint8_t *object, size_t object_length, const uint8_t *answer, size_t answer_length, const uint64_t *cancelled, size_t cancelled_length);

/* Files a verdict: its kind; yes 1 or no 0; the FASC-N that it is about. 4; 9 not all read; 10 kind not 1 to 5;
 * 11 neither 0 nor 1; 12 not 25 bytes, or an ill-formed FASC-N; 13 the mode does not need it; 14 given already. */
GATE_CHECKED uint8_t gate_verdict(gate_session *session, uint8_t kind, uint8_t yes, const uint8_t *fascn, size_t fascn_length);

/* Writes the stamp that this verdict and then a stamp call would write, and leaves the session. Refused as gate_verdict, and then 6 out under 46 bytes. */
GATE_CHECKED uint8_t gate_preview(const gate_session *session, uint8_t kind, uint8_t yes, const uint8_t *fascn, size_t fascn_length, uint8_t *out, size_t out_length);

/* Where the value of a field lies in the object buffer, whose bytes are not looked at. No number:
 * length 0 where the session is dead or out of range, the buffer has another size, the tag is another, or the field is not yet read or absent. */
gate_place gate_field(const gate_session *session, const uint8_t *object, size_t object_length, uint8_t tag);

/* Writes the stamp to the first 46 bytes of out. 4; 6 out under 46 bytes. out[1] is 0 open, 1 granted, 2 rejected. */
GATE_CHECKED uint8_t gate_stamp(const gate_session *session, uint8_t *out, size_t out_length);

/* ---- the FASC-N */

/* The 32 digits of a FASC-N. 15 not 25 bytes; 16 parity; 17 a mark or a digit out of place; 18 check character. */
GATE_CHECKED uint8_t gate_unpack(const uint8_t *fascn, size_t fascn_length, uint8_t digits[GATE_DIGITS]);

/* The FASC-N of 32 digits. 19 a digit above 9. */
GATE_CHECKED uint8_t gate_pack(const uint8_t digits[GATE_DIGITS], uint8_t fascn[GATE_FASCN_SIZE]);

/* The key of a card, as cancelled lists hold it: its first 16 digits as one number. No number: of bytes above 9 it gives the sum of their places too, and that is no card's key. */
uint64_t gate_key(const uint8_t digits[GATE_DIGITS]);

/* ---- lists */

/* Reads a cancelled card list, lines of 32 bytes: the keys to the front of keys, how many to *count. 20 a malformed line, its number, counted from 1, to *line; 21 fewer places than keys. */
GATE_CHECKED uint8_t gate_list_read(const uint8_t *text, size_t text_length, uint64_t *keys, size_t keys_length, size_t *count, size_t *line);

/* Writes one: 32 bytes a key to the front of out, the count of keys to *count. 22 a key of 10^16 or more; 21 out under 32 bytes a key. */
GATE_CHECKED uint8_t gate_list_write(const uint64_t *keys, size_t keys_length, uint8_t *out, size_t out_length, size_t *count);

/* Merges two lists, both strictly ascending, to the front of out, how many keys to *count. 25 one does not ascend; 26 fewer places than merged keys. */
GATE_CHECKED uint8_t gate_list_merge(const uint64_t *official, size_t official_length, const uint64_t *own, size_t own_length, uint64_t *out, size_t out_length, size_t *count);

/* Looks the number typed from the back of a card (CIN) up in a visual list: 1 or 0 to *listed. 23 the entry is empty, over 10 digits or holds a non-digit; 24 a malformed line,
 * its number, counted from 1, to *line. */
GATE_CHECKED uint8_t gate_cin_look_up(const uint8_t *typed, size_t typed_length, const uint8_t *text, size_t text_length, size_t *listed, size_t *line);

/* ---- sizes */

gate_size_table gate_sizes(void);

#ifdef __cplusplus
}
#endif
#endif
