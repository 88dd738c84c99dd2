/*
 * The three calls of include/yolstrady.h in plain C, written from the documents alone: the library is compared with it byte by byte, and
 * measured against it. It makes the same tests as the library, each as a C programmer would, and leaves at the first that fails.
 * It is for little-endian machines.
 */
#include "office_twin.h"
#include <string.h>

enum { HEAD = 20, NODE = 48, ANSWER = 24, ROOM_MOST = 1023, LABEL_MOST = 1000000 };

struct head {
    uint32_t start, until, teams, nodes, used;
};

struct finds {
    uint32_t count, first, last;
};

struct node {
    uint32_t start, until;
    int32_t progress;
    uint32_t owner, left;
    struct finds own, joined;
    uint32_t stage;
};

struct answer {
    uint32_t code, state, from, to, owner, left;
};

_Static_assert(sizeof(struct head) == HEAD, "five numbers");
_Static_assert(sizeof(struct node) == NODE, "twelve numbers");
_Static_assert(sizeof(struct answer) == ANSWER, "six numbers");

static struct node read_node(const uint8_t *area, uint32_t n)
{
    struct node x;
    memcpy(&x, area + HEAD + NODE * (size_t)(n - 1), NODE);
    return x;
}

static void write_node(uint8_t *area, uint32_t n, const struct node *x)
{
    memcpy(area + HEAD + NODE * (size_t)(n - 1), x, NODE);
}

static uint32_t position_of(const struct node *x)
{
    return x->progress < 0 ? (uint32_t)(-(x->progress + 1)) : (uint32_t)x->progress;
}

static int is_completed(const struct node *x)
{
    return x->progress >= 0 && (uint32_t)x->progress == x->until;
}

static int state_of(const struct node *x)
{
    if (is_completed(x))
        return 3;
    if (x->progress < 0)
        return x->left != 0 ? 5 : 4;
    return x->owner == 0 ? 1 : 2;
}

static int is_nothing(const struct finds *f)
{
    return (f->count | f->first | f->last) == 0;
}

static int may_be_reported(const struct finds *f)
{
    if (f->count > LABEL_MOST || f->first > LABEL_MOST || f->last > LABEL_MOST)
        return 0;
    return f->count != 0 || (f->first | f->last) == 0;
}

/* Adds a part behind what was joined so far. */
static void join(uint64_t *count, struct finds *sum, const struct finds *part)
{
    if (part->count != 0) {
        if (*count == 0)
            sum->first = part->first;
        sum->last = part->last;
    }
    *count += part->count;
}

static uint64_t join_all(struct finds *sum, const struct node *x, const struct node *a, const struct node *b)
{
    uint64_t count = 0;
    sum->first = sum->last = 0;
    join(&count, sum, &x->own);
    if (x->left != 0) {
        join(&count, sum, &a->joined);
        join(&count, sum, &b->joined);
    }
    sum->count = (uint32_t)count;
    return count;
}

/* 36 */
static int is_unready(const struct node *x, const struct node *a, const struct node *b)
{
    return !is_completed(x) && (x->left == 0 || a->stage != 2 || b->stage != 2);
}

/* ---- well formed ---- */

static int alone_is_good(const struct node *x, uint32_t teams)
{
    uint32_t position = position_of(x);
    if (position < x->start || position > x->until || (x->progress < 0 && position == x->until))
        return 0;
    if (x->owner > teams || (x->owner == 0 && (x->progress < 0 || position != x->start)))
        return 0;
    if (x->start == x->until && x->owner != 0)
        return 0;
    return teams != 1 || x->progress >= 0;
}

static int stage_is_good(const struct node *x, const struct node *a, const struct node *b)
{
    struct finds sum;
    if (x->start == x->until && (x->stage != 2 || !is_nothing(&x->own) || !is_nothing(&x->joined)))
        return 0;
    switch (x->stage) {
    case 0:
        return is_nothing(&x->own) && is_nothing(&x->joined);
    case 1:
        return (x->progress < 0 || is_completed(x)) && may_be_reported(&x->own) && is_nothing(&x->joined);
    case 2:
        if (!may_be_reported(&x->own) || is_unready(x, a, b))
            return 0;
        return join_all(&sum, x, a, b) == x->joined.count && sum.first == x->joined.first && sum.last == x->joined.last;
    }
    return 0;
}

static int children_are_good(const struct node *x, const struct node *a, const struct node *b)
{
    uint32_t position = position_of(x), middle = position + (x->until - position) / 2;
    return a->start == position && a->until == middle && b->start == middle && b->until == x->until;
}

/* 0, or 1, or 37. Fills in the ledger's numbers and the count of STOLEN nodes. */
static int judge(const uint8_t *area, size_t length, struct head *h, uint32_t *stolen)
{
    uint8_t parents[ROOM_MOST / 2 + 1];
    static const struct node nothing;
    if (length < HEAD)
        return 37;
    memcpy(h, area, HEAD);
    if (h->nodes >= 1 && h->nodes <= ROOM_MOST && length < HEAD + NODE * (size_t)h->nodes)
        return 37;
    if (h->start > h->until || h->until > 2147483647 || h->teams < 1 || h->teams > 32 || h->nodes < 1 || h->nodes > ROOM_MOST)
        return 1;
    if (h->used % 2 != 1 || h->used > h->nodes)
        return 1;
    memset(parents, 0, h->used / 2 + 1);
    *stolen = 0;
    for (uint32_t n = 1; n <= h->used; n++) {
        struct node x = read_node(area, n), a = nothing, b = nothing;
        if (n == 1 && (x.start != h->start || x.until != h->until))
            return 1;
        if (!alone_is_good(&x, h->teams))
            return 1;
        if (x.left != 0) {
            if (x.progress >= 0 || x.left % 2 != 0 || x.left <= n || x.left >= h->used || parents[x.left / 2]++ != 0)
                return 1;
            a = read_node(area, x.left);
            b = read_node(area, x.left + 1);
            if (!children_are_good(&x, &a, &b))
                return 1;
        }
        if (!stage_is_good(&x, &a, &b))
            return 1;
        *stolen += state_of(&x) == 4;
    }
    for (uint32_t c = 2; c < h->used; c += 2)
        if (parents[c / 2] != 1)
            return 1;
    if (h->used + 2 * *stolen > h->nodes)
        return 1;
    for (uint32_t n = h->used + 1; n <= h->nodes; n++) {
        struct node x = read_node(area, n);
        if (memcmp(&x, &nothing, NODE) != 0)
            return 1;
    }
    return 0;
}

/* ---- the requests ---- */

static struct node fresh(uint32_t start, uint32_t until)
{
    struct node x = {.start = start, .until = until, .progress = (int32_t)start, .stage = start == until ? 2 : 0};
    return x;
}

static int own(struct node *x, uint32_t team, struct answer *out)
{
    if (x->owner != 0)
        return 5;
    if (is_completed(x))
        return 6;
    x->owner = team;
    out->from = x->start;
    out->to = x->until;
    return 0;
}

static int advance(struct node *x, uint32_t team, int32_t position, int32_t amount, struct answer *out)
{
    if (amount < 1 || amount > 4096)
        return 7;
    if (x->owner != team)
        return 8;
    if (x->progress < 0)
        return 9;
    if (is_completed(x))
        return 6;
    if (x->progress != position)
        return 10;
    out->from = (uint32_t)position;
    out->to = x->until - (uint32_t)position < (uint32_t)amount ? x->until : (uint32_t)position + (uint32_t)amount;
    x->progress = (int32_t)out->to;
    return 0;
}

static int mark(struct node *x, uint32_t team, int32_t position, int room, struct answer *out)
{
    if (x->owner == 0)
        return 11;
    if (x->owner == team)
        return 12;
    if (x->progress < 0)
        return 9;
    if (is_completed(x))
        return 6;
    if (x->progress != position)
        return 10;
    if (!room)
        return 14;
    x->progress = -position - 1;
    out->from = (uint32_t)position;
    out->to = x->until;
    return 0;
}

static int expand(uint8_t *area, struct head *h, struct node *x, struct answer *out)
{
    uint32_t position = position_of(x), middle = position + (x->until - position) / 2;
    if (x->progress >= 0)
        return 15;
    out->from = middle;
    if (x->left != 0) {
        out->left = x->left;
        return 16;
    }
    struct node a = fresh(position, middle), b = fresh(middle, x->until);
    x->left = out->left = h->used + 1;
    write_node(area, h->used + 1, &a);
    write_node(area, h->used + 2, &b);
    h->used += 2;
    memcpy(area + 16, &h->used, 4);
    return 0;
}

static int report(struct node *x, uint32_t team, int32_t count, int32_t first, int32_t last)
{
    struct finds f = {(uint32_t)count, (uint32_t)first, (uint32_t)last};
    if (x->owner != team)
        return 8;
    if (x->progress >= 0 && !is_completed(x))
        return 31;
    if (x->stage != 0)
        return 32;
    if (count < 0 || first < 0 || last < 0 || !may_be_reported(&f))
        return 33;
    x->own = f;
    x->stage = 1;
    return 0;
}

static int push(const uint8_t *area, struct node *x)
{
    struct node a = {0}, b = {0};
    if (x->stage == 2)
        return 34;
    if (x->stage != 1)
        return 35;
    if (x->left != 0) {
        a = read_node(area, x->left);
        b = read_node(area, x->left + 1);
    }
    if (is_unready(x, &a, &b))
        return 36;
    join_all(&x->joined, x, &a, &b);
    x->stage = 2;
    return 0;
}

int32_t twin_request(uint8_t *ledger, size_t length, uint8_t *answer, size_t answer_length, int32_t kind, int32_t team, int32_t node,
                     int32_t position, int32_t amount, int32_t count, int32_t first, int32_t last)
{
    struct head h;
    struct answer out = {0};
    uint32_t stolen = 0;
    int code = judge(ledger, length, &h, &stolen);
    if (code == 37 || answer_length < ANSWER)
        return 37;
    if (code != 0)
        return code;
    if (kind < 1 || kind > 7)
        return 2;
    if (team < 1 || (uint32_t)team > h.teams)
        return 3;
    if (node < 1 || (uint32_t)node > h.used)
        return 4;
    struct node x = read_node(ledger, (uint32_t)node);
    switch (kind) {
    case 1:
        code = own(&x, (uint32_t)team, &out);
        break;
    case 2:
        code = advance(&x, (uint32_t)team, position, amount, &out);
        break;
    case 3:
        code = mark(&x, (uint32_t)team, position, h.used + 2 * stolen + 2 <= h.nodes, &out);
        break;
    case 4:
        code = expand(ledger, &h, &x, &out);
        break;
    case 5:
        out.state = (uint32_t)state_of(&x);
        out.from = position_of(&x);
        out.to = x.until;
        out.owner = x.owner;
        out.left = x.left;
        break;
    case 6:
        code = report(&x, (uint32_t)team, count, first, last);
        break;
    default:
        code = push(ledger, &x);
    }
    if (code == 0 && kind != 5)
        write_node(ledger, (uint32_t)node, &x);
    if (code == 0 || code == 16) {
        out.code = (uint32_t)code;
        memcpy(answer, &out, ANSWER);
    }
    return code;
}

int32_t twin_unclaimed(const uint8_t *ledger, size_t length)
{
    struct head h;
    uint32_t stolen, sum = 0;
    int code = judge(ledger, length, &h, &stolen);
    if (code != 0)
        return -code;
    for (uint32_t n = 1; n <= h.used; n++) {
        struct node x = read_node(ledger, n);
        if (x.left == 0)
            sum += x.until - position_of(&x);
    }
    return (int32_t)sum;
}

int32_t twin_open(uint8_t *ledger, size_t length, int32_t start, int32_t until, int32_t teams, int32_t cap, int32_t nodes)
{
    if (start < 0 || until < start || teams < 1 || teams > 32 || cap < 1 || cap > 4096 || nodes < 1 || nodes > ROOM_MOST)
        return 20;
    if (length < HEAD + NODE * (size_t)nodes)
        return 37;
    struct head h = {(uint32_t)start, (uint32_t)until, (uint32_t)teams, (uint32_t)nodes, 1};
    struct node root = fresh(h.start, h.until);
    memset(ledger, 0, HEAD + NODE * (size_t)nodes);
    memcpy(ledger, &h, HEAD);
    write_node(ledger, 1, &root);
    return 0;
}
