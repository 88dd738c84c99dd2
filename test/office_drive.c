/*
 * Drives the library and its twin with the same seeded calls and compares every code, every answer and every byte.
 *
 *   office_drive SEED ROUNDS
 *
 * A round opens a ledger and makes requests on it, some of them on areas that were broken on purpose or are too short. Each area ends at
 * a page that nobody may read. The last lines say how often each code came up.
 */
#define _DEFAULT_SOURCE
#include "office_twin.h"
#include "yolstrady.h"
#include <stdio.h>
#include <stdlib.h>
#include <string.h>
#include <sys/mman.h>

enum { PAGE = 4096, PAGES = 13, AREA = PAGE * PAGES, CODES = 64 };

static uint64_t seed;

static uint32_t dice(uint32_t sides)
{
    seed ^= seed << 13;
    seed ^= seed >> 7;
    seed ^= seed << 17;
    return (uint32_t)(seed >> 32) % sides;
}

/* Two areas of one length, each with a forbidden page right behind it. */
static uint8_t *ends[4];
static long times[CODES], calls, broken;

static uint8_t *guarded(void)
{
    uint8_t *area = mmap(NULL, AREA + PAGE, PROT_READ | PROT_WRITE, MAP_PRIVATE | MAP_ANONYMOUS, -1, 0);
    if (area == MAP_FAILED || mprotect(area + AREA, PAGE, PROT_NONE) != 0) {
        fprintf(stderr, "office_drive: no memory\n");
        exit(2);
    }
    return area + AREA;
}

static void differ(const char *what)
{
    printf("the library and its twin differ: %s, after %ld calls\n", what, calls);
    exit(1);
}

static void same_bytes(const char *what, const uint8_t *one, const uint8_t *other, size_t length)
{
    if (memcmp(one, other, length) != 0)
        differ(what);
}

static int32_t one_of(int32_t a, int32_t b, int32_t c)
{
    return dice(3) == 0 ? a : dice(2) == 0 ? b : c;
}

/* A number that is mostly one of 0..most, and now and then far off. */
static int32_t around(int32_t most)
{
    if (dice(24) == 0)
        return one_of(-1, 2147483647, -2147483647 - 1);
    return (int32_t)dice((uint32_t)most + 2);
}

static uint32_t number(const uint8_t *from)
{
    uint32_t n;
    memcpy(&n, from, 4);
    return n;
}

static int32_t counted(const uint8_t *a, const uint8_t *b, size_t length)
{
    int32_t ours = yol_unclaimed(a, length), theirs = twin_unclaimed(b, length);
    if (ours != theirs)
        differ("the count");
    return ours;
}

static int32_t requested(uint8_t *a, uint8_t *b, size_t length, size_t answers, const int32_t *q)
{
    uint8_t *x = ends[2] - answers, *y = ends[3] - answers;
    int32_t ours, theirs;
    for (size_t i = 0; i < answers; i++)
        x[i] = y[i] = (uint8_t)dice(256);
    ours = yol_request(a, length, x, answers, q[0], q[1], q[2], q[3], q[4], q[5], q[6], q[7]);
    theirs = twin_request(b, length, y, answers, q[0], q[1], q[2], q[3], q[4], q[5], q[6], q[7]);
    calls++;
    if (ours != theirs)
        differ("the code");
    times[ours]++;
    same_bytes("the ledger", a, b, length);
    same_bytes("the answer", x, y, answers);
    return ours;
}

/* A request that has a chance: on a node in use, of its owner or of another, at its position. */
static void ask(const uint8_t *area, int32_t teams, int32_t *q)
{
    uint32_t used = number(area + 16);
    q[0] = dice(40) == 0 ? around(8) : (int32_t)dice(7) + 1;
    q[2] = dice(12) == 0 ? around(20) : (int32_t)dice(used) + 1;
    q[1] = dice(8) == 0 ? around(teams) : (int32_t)dice((uint32_t)teams) + 1;
    q[3] = around(40);
    q[4] = dice(8) == 0 ? one_of(0, 4096, 4097) : (int32_t)dice(9) + 1;
    q[5] = dice(6) == 0 ? one_of(0, 1000000, 1000001) : (int32_t)dice(5);
    q[6] = q[5] == 0 && dice(8) != 0 ? 0 : around(9);
    q[7] = q[5] == 0 && dice(8) != 0 ? 0 : around(9);
    if (q[2] >= 1 && q[2] <= (int32_t)used && dice(8) != 0) {
        const uint8_t *node = area + 20 + 48 * (q[2] - 1);
        q[3] = (int32_t)number(node + 8);
        if (number(node + 12) != 0 && dice(3) != 0)
            q[1] = (int32_t)number(node + 12);
    }
}

/* A copy of the ledger with some bytes changed, or cut short, is judged alike and left alike. */
static void break_it(const uint8_t *area, size_t length, int32_t teams)
{
    size_t kept = dice(3) == 0 ? dice((uint32_t)length + 1) : length, answers = dice(4) == 0 ? dice(30) : 24;
    uint8_t *a = ends[0] - AREA / 2 - kept, *b = ends[1] - AREA / 2 - kept;
    int32_t q[8];
    memcpy(a, area, kept);
    for (uint32_t i = dice(3); i > 0 && kept > 0; i--) {
        uint32_t at = dice(2) == 0 ? dice((uint32_t)kept) : dice(kept < 68 ? (uint32_t)kept : 68);
        a[at] = dice(3) == 0 ? (uint8_t)dice(256) : (uint8_t)(a[at] + one_of(1, 255, 2));
    }
    memcpy(b, a, kept);
    ask(area, teams, q);
    requested(a, b, kept, answers, q);
    counted(a, b, kept);
    broken++;
}

static void garbage(void)
{
    size_t length = dice(400);
    uint8_t *a = ends[0] - length, *b = ends[1] - length;
    int32_t q[8] = {1, 1, 1, 0, 0, 0, 0, 0};
    for (size_t i = 0; i < length; i++)
        a[i] = dice(3) == 0 ? (uint8_t)dice(256) : (uint8_t)dice(2);
    memcpy(b, a, length);
    requested(a, b, length, 24, q);
    counted(a, b, length);
    broken++;
}

static void round_of_calls(void)
{
    int32_t nodes = dice(30) == 0 ? around(1023) : (int32_t)dice(12) + 1, teams = dice(30) == 0 ? around(32) : (int32_t)dice(4) + 1;
    int32_t start = dice(30) == 0 ? around(5) : (int32_t)dice(4), until = start + (int32_t)dice(30), cap = dice(30) == 0 ? around(4096) : 4;
    size_t length = nodes >= 1 && nodes <= 250 ? YOL_LEDGER_BYTES(nodes) + dice(9) : dice(AREA / 3);
    if (dice(20) == 0)
        length -= length < 10 ? length : dice(10);
    uint8_t *a = ends[0] - length, *b = ends[1] - length;
    int32_t q[8], code;
    if (dice(50) == 0)
        until = 2147483647;
    for (size_t i = 0; i < length; i++)
        a[i] = (uint8_t)dice(256);
    memcpy(b, a, length);
    code = yol_open(a, length, start, until, teams, cap, nodes);
    if (code != twin_open(b, length, start, until, teams, cap, nodes))
        differ("the opening's code");
    times[code]++;
    calls++;
    same_bytes("the opened ledger", a, b, length);
    if (code != 0)
        return;
    for (int i = 0; i < 60; i++) {
        ask(a, teams, q);
        requested(a, b, length, 24 + dice(5), q);
        counted(a, b, length);
        if (dice(8) == 0)
            break_it(a, length, teams);
    }
}

int main(int many, char **words)
{
    static const int expected[] = {0, 1, 2, 3, 4, 5, 6, 7, 8, 9, 10, 11, 12, 14, 15, 16, 20, 31, 32, 33, 34, 35, 36, 37};
    if (many != 3)
        return 2;
    seed = 88172645463325252u + (uint64_t)atoi(words[1]);
    for (int i = 0; i < 4; i++)
        ends[i] = guarded();
    for (int i = atoi(words[2]); i > 0; i--) {
        round_of_calls();
        garbage();
    }
    printf("%ld calls and %ld broken or short areas: the library and its twin agree\n", calls, broken);
    for (size_t i = 0; i < sizeof expected / sizeof *expected; i++) {
        printf("code %d: %ld\n", expected[i], times[expected[i]]);
        if (times[expected[i]] == 0) {
            printf("this code never came up\n");
            return 1;
        }
    }
    return 0;
}
