/*
 * Yolstrady's ledger, called directly on bytes that your program keeps.
 *
 * Link with liboffice.a (bin/office-library builds it, for x86-64 Linux) and a C library; it wants only `memset` from there.
 * Each call is proved to do exactly what stands here, for every input, and to end.
 *
 * WHAT YOU LEND
 *   A ledger is an area of YOL_LEDGER_BYTES(nodes) bytes or more, at any address, in memory or from a file. The calls keep nothing of
 *   their own: save the bytes and you have saved the ledger; copy them and you have two. Not a byte past the length that you give is
 *   read, and the bytes after the last node, which are yours, are neither read nor written.
 *   No pointer may be NULL, not even with length 0. The ledger's area and the answer's area may not overlap, and no other thread may use
 *   an area while a call has it. Calls on different areas may run at the same time.
 *
 * LAYOUT, all numbers little-endian, 32 bits, two's complement
 *   byte 0 start, 4 until, 8 teams, 12 nodes (the room), 16 used (how many nodes there are)
 *   node n has the 48 bytes from 20 + 48 * (n - 1) on:
 *   +0 start  +4 until  +8 progress  +12 owner  +16 left child  +20 own count  +24 own first  +28 own last
 *   +32 joined count  +36 joined first  +40 joined last  +44 stage (0 none, 1 prepared, 2 pushed)
 *   Read them as you like. If you change them yourself and the ledger is then not well formed, every call on it gives code 1.
 *
 * CODES: YOL_* below. Any code but 0 is a refusal: nothing was changed. (At 16 the answer alone is written.)
 */
#ifndef YOLSTRADY_H
#define YOLSTRADY_H

#include <stddef.h>
#include <stdint.h>

#ifdef __cplusplus
extern "C" {
#endif

/* The bytes of a ledger with room for so many nodes, 1 to 1,023, and the bytes of an answer. */
#define YOL_LEDGER_BYTES(nodes) (20 + 48 * (size_t)(nodes))
#define YOL_ANSWER_BYTES 24

/* Kinds of requests. Fields that a kind has no use of are not looked at: give 0. */
#define YOL_OWN 1     /* take a node that nobody owns: answers from, to: its range */
#define YOL_ADVANCE 2 /* at `position`, claim `amount` sheets (1 to 4,096): answers from, to: the batch, `to` not included */
#define YOL_MARK 3    /* at `position`, steal another team's rest: answers from, to: what was stolen */
#define YOL_EXPAND 4  /* split a stolen node: answers left (its left child; the right one is left + 1) and from: where the two meet */
#define YOL_LOOK 5    /* answers state, from: the position, to: the end, owner, left */
#define YOL_REPORT 6  /* the owner of a node that has ended reports `count` finds with the labels `first` and `last` */
#define YOL_PUSH 7    /* join a reported node's finds with those of its two parts, which are pushed */

/* States, as a look answers them. */
#define YOL_AVAILABLE 1
#define YOL_OWNED 2
#define YOL_COMPLETED 3
#define YOL_STOLEN 4
#define YOL_EXPANDED 5

/* Codes. 13 and 17 are withdrawn and never given. */
#define YOL_GRANTED 0
#define YOL_NOT_FORMED 1      /* the bytes are no well-formed ledger, or its nodes number is outside 1 to 1,023 */
#define YOL_NO_SUCH_KIND 2
#define YOL_NO_SUCH_TEAM 3
#define YOL_NO_SUCH_NODE 4
#define YOL_HAS_OWNER 5
#define YOL_IS_COMPLETED 6
#define YOL_AMOUNT 7          /* the amount is outside 1 to 4,096 */
#define YOL_NOT_OWNER 8
#define YOL_IS_STOLEN 9
#define YOL_OLD_POSITION 10   /* look again */
#define YOL_NO_OWNER 11
#define YOL_IS_OWNER 12       /* nobody steals from itself */
#define YOL_NO_ROOM 14        /* no room for two more nodes */
#define YOL_NOT_STOLEN 15
#define YOL_ALREADY_SPLIT 16  /* the answer is written: left, and from: where the two parts meet */
#define YOL_OPENING 20        /* a number of the opening is outside its limits */
#define YOL_NOT_ENDED 31
#define YOL_REPORTED 32       /* reported before */
#define YOL_RESULT 33         /* a count or label outside 0 to 1,000,000, or a label with a count of 0 */
#define YOL_PUSHED 34         /* pushed before */
#define YOL_NO_REPORT 35
#define YOL_NOT_READY 36      /* not completed, and its parts are not both pushed */
#define YOL_SHORT 37          /* an area is too short */

/*
 * Opens a ledger in the area: sheets start to until - 1, for so many teams (1 to 32), with room for so many nodes (1 to 1,023).
 * `cap` is the largest step of a run (1 to 4,096): it is tested, and not kept.
 * Returns 0, and all YOL_LEDGER_BYTES(nodes) bytes are the new ledger's; or 20, or 37 (the area is shorter than that), and no byte has
 * changed.
 */
int32_t yol_open(uint8_t *ledger, size_t ledger_length, int32_t start, int32_t until, int32_t teams, int32_t cap, int32_t nodes);

/*
 * One request of a team on a node. Returns its code.
 * At 0 and at 16 the answer's six numbers are in the first 24 bytes of the answer's area: code, state, from, to, owner, left, in the
 * layout's form; those that a kind does not answer are 0. At any other code both areas are as they were.
 * 37 comes before all: the ledger's area is shorter than 20, or than its own nodes number says, or the answer's is shorter than 24.
 */
int32_t yol_request(uint8_t *ledger, size_t ledger_length, uint8_t *answer, size_t answer_length, int32_t kind, int32_t team,
                    int32_t node, int32_t position, int32_t amount, int32_t count, int32_t first, int32_t last);

/* How many sheets no team has claimed: 0 or more; or -37 (the area is too short), or -1 (it is not well formed). */
int32_t yol_unclaimed(const uint8_t *ledger, size_t ledger_length);

#ifdef __cplusplus
}
#endif

#endif
