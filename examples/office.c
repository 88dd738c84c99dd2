/*
 * A lesson kept by an office program: opens a ledger in a byte array, makes a lesson's requests, saves the bytes to a file, loads them
 * again and goes on.
 *
 *   bin/office-library
 *   cc -I include -o office examples/office.c target/staticlib/liboffice.a
 *   ./office lesson.ledger
 */
#include "yolstrady.h"
#include <stdio.h>

enum { NODES = 7, LENGTH = 20 + 48 * NODES };

static uint8_t ledger[LENGTH], answer[YOL_ANSWER_BYTES];

/* A number of an area, whatever the machine's own order of bytes is. */
static int32_t number(const uint8_t *from)
{
    return (int32_t)(from[0] | (uint32_t)from[1] << 8 | (uint32_t)from[2] << 16 | (uint32_t)from[3] << 24);
}

static void ask(const char *what, int32_t kind, int32_t team, int32_t node, int32_t position, int32_t amount)
{
    int32_t code = yol_request(ledger, LENGTH, answer, sizeof answer, kind, team, node, position, amount, 0, 0, 0);
    printf("%s: code %d", what, code);
    if (code == YOL_GRANTED || code == YOL_ALREADY_SPLIT)
        printf(", state %d, from %d, to %d, owner %d, left %d", number(answer + 4), number(answer + 8), number(answer + 12),
               number(answer + 16), number(answer + 20));
    printf("\n");
}

static void tell(const char *what, int32_t node, int32_t team, int32_t count, int32_t first, int32_t last)
{
    printf("%s: code %d\n", what, yol_request(ledger, LENGTH, answer, sizeof answer, YOL_REPORT, team, node, 0, 0, count, first, last));
}

static int save(const char *name)
{
    FILE *file = fopen(name, "wb");
    size_t written = file == NULL ? 0 : fwrite(ledger, 1, LENGTH, file);
    return file != NULL && fclose(file) == 0 && written == LENGTH;
}

static int load(const char *name)
{
    FILE *file = fopen(name, "rb");
    size_t got = file == NULL ? 0 : fread(ledger, 1, LENGTH, file);
    return file != NULL && fclose(file) == 0 && got == LENGTH;
}

int main(int many, char **words)
{
    const char *name = many == 2 ? words[1] : "lesson.ledger";
    printf("open sheets 0 to 4 for two teams: code %d\n", yol_open(ledger, LENGTH, 0, 5, 2, 4, NODES));
    ask("team 1 takes node 1", YOL_OWN, 1, 1, 0, 0);
    ask("team 1 claims one sheet", YOL_ADVANCE, 1, 1, 0, 1);
    ask("team 2 steals the rest", YOL_MARK, 2, 1, 1, 0);
    ask("team 1 claims from what was stolen", YOL_ADVANCE, 1, 1, 1, 1);
    ask("team 2 splits node 1", YOL_EXPAND, 2, 1, 0, 0);
    ask("team 1 splits it too", YOL_EXPAND, 1, 1, 0, 0);
    printf("unclaimed: %d\n", yol_unclaimed(ledger, LENGTH));

    if (!save(name) || yol_open(ledger, LENGTH, 0, 0, 1, 1, 1) != 0 || !load(name)) {
        fprintf(stderr, "office: %s cannot be saved and loaded\n", name);
        return 2;
    }
    printf("saved, and loaded again\n");
    ask("team 1 takes node 2", YOL_OWN, 1, 2, 0, 0);
    ask("team 1 claims both its sheets", YOL_ADVANCE, 1, 2, 1, 4);
    ask("team 2 takes node 3", YOL_OWN, 2, 3, 0, 0);
    ask("team 2 claims both its sheets", YOL_ADVANCE, 2, 3, 3, 4);
    printf("unclaimed: %d\n", yol_unclaimed(ledger, LENGTH));
    tell("team 1 reports node 1: one find, label 7", 1, 1, 1, 7, 7);
    tell("team 1 reports node 2: none", 2, 1, 0, 0, 0);
    tell("team 2 reports node 3: two, labels 4 to 5", 3, 2, 2, 4, 5);
    ask("push node 1 too early", YOL_PUSH, 1, 1, 0, 0);
    ask("push node 2", YOL_PUSH, 1, 2, 0, 0);
    ask("push node 3", YOL_PUSH, 1, 3, 0, 0);
    ask("push node 1", YOL_PUSH, 1, 1, 0, 0);
    printf("all finds: %d, first label %d, last label %d\n", number(ledger + 20 + 32), number(ledger + 20 + 36), number(ledger + 20 + 40));
    return 0;
}
