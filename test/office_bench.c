/*
 * Measures a look and an advance, by the library and by its twin in plain C, on full ledgers of some sizes.
 *
 *   office_bench ROUNDS
 *
 * Both are compiled for x86-64 and run in one program, the same way; each number is the least processor time of ROUNDS rounds. In a full
 * ledger every node but the leaves is split and reported, and every leaf is owned.
 */
#define _DEFAULT_SOURCE
#include "office_twin.h"
#include "yolstrady.h"
#include <stdio.h>
#include <stdlib.h>
#include <string.h>
#include <time.h>

enum { MOST = 1023 };

typedef int32_t request(uint8_t *, size_t, uint8_t *, size_t, int32_t, int32_t, int32_t, int32_t, int32_t, int32_t, int32_t, int32_t);

static uint8_t full[YOL_LEDGER_BYTES(MOST)], area[YOL_LEDGER_BYTES(MOST)], answer[YOL_ANSWER_BYTES];

static double now(void)
{
    struct timespec t;
    clock_gettime(CLOCK_PROCESS_CPUTIME_ID, &t);
    return (double)t.tv_sec * 1e9 + (double)t.tv_nsec;
}

static void must(int32_t code)
{
    if (code != 0) {
        fprintf(stderr, "office_bench: code %d\n", code);
        exit(2);
    }
}

static int32_t number(int at)
{
    int32_t n;
    memcpy(&n, answer + at, 4);
    return n;
}

/* Fills the ledger: node after node is taken, stolen where it stands, split and reported. */
static void fill(int32_t nodes)
{
    size_t length = YOL_LEDGER_BYTES(nodes);
    int32_t used = 1;
    must(yol_open(full, length, 0, 2147483647, 2, 1, nodes));
    for (int32_t n = 1; n <= nodes; n++) {
        must(yol_request(full, length, answer, sizeof answer, YOL_OWN, 1, n, 0, 0, 0, 0, 0));
        if (used + 2 > nodes)
            continue;
        must(yol_request(full, length, answer, sizeof answer, YOL_MARK, 2, n, number(8), 0, 0, 0, 0));
        must(yol_request(full, length, answer, sizeof answer, YOL_EXPAND, 2, n, 0, 0, 0, 0, 0));
        must(yol_request(full, length, answer, sizeof answer, YOL_REPORT, 1, n, 0, 0, 3, 1, 2));
        used += 2;
    }
}

/* Nanoseconds for each of some calls on the last node. An advance goes on from where the last one ended. */
static double timed(request *call, int32_t kind, int32_t nodes, int calls)
{
    size_t length = YOL_LEDGER_BYTES(nodes);
    double began;
    memcpy(area, full, length);
    must(call(area, length, answer, sizeof answer, YOL_LOOK, 1, nodes, 0, 0, 0, 0, 0));
    began = now();
    for (int i = 0; i < calls; i++) {
        int32_t position = kind == YOL_LOOK || i == 0 ? number(8) : number(12);
        must(call(area, length, answer, sizeof answer, kind, 1, nodes, position, 1, 0, 0, 0));
    }
    return (now() - began) / calls;
}

static void compare(const char *name, int32_t kind, int32_t nodes, int calls, int rounds)
{
    double ours = 1e18, theirs = 1e18;
    for (int i = 0; i < rounds; i++) {
        double one = timed(yol_request, kind, nodes, calls), other = timed(twin_request, kind, nodes, calls);
        ours = one < ours ? one : ours;
        theirs = other < theirs ? other : theirs;
    }
    printf("%4d nodes, %-7s  library %8.0f ns   plain C %8.0f ns   ratio %.2f\n", nodes, name, ours, theirs, ours / theirs);
}

int main(int many, char **words)
{
    static const int32_t sizes[] = {1023, 15, 3, 1};
    int rounds = many == 2 ? atoi(words[1]) : 20;
    for (int i = 0; i < 4; i++) {
        int calls = 20000 / sizes[i] + 20;
        fill(sizes[i]);
        compare("look", YOL_LOOK, sizes[i], calls, rounds);
        compare("advance", YOL_ADVANCE, sizes[i], calls, rounds);
    }
    return 0;
}
