/*
 * The twin of `sheets`: a second, independent program for the same document.
 *
 * It reads a schedule text from standard input and writes the listing, or one
 * `refused CODE LINE`, to standard output.  It was written from document 01
 * alone and shares no code with the proved program, so that a misreading in
 * one of the two shows up as a difference.  It is also the baseline of the
 * benchmark, so it does each step in constant time and writes its output once.
 *
 * It includes no header, because the Rattle kit's C compiler, which builds it
 * for x86-64 on any machine, comes without headers.  The two system calls are
 * declared by hand; the types are those of every 64-bit Linux.
 *
 * Well-formedness (code 1) is not tested here: a run starts from a well-formed
 * ledger and every granted request keeps it so.
 */

long read(int file, void *bytes, unsigned long count);
long write(int file, const void *bytes, unsigned long count);

_Static_assert(sizeof(int) == 4, "sheet numbers are held in 32 bits");
_Static_assert(sizeof(long) == 8, "the system calls count in 64 bits");

enum {
    TEXT_LIMIT = 65535,
    /* Two numbers have a byte between them, so a text holds no more of them. */
    NUMBERS_LIMIT = (TEXT_LIMIT + 1) / 2,
    HEADER_LEAST = 5,
    /* A sixth number names the program. */
    HEADER_MOST = 6,
    DIGITS_LIMIT = 10,
    NUMBER_LIMIT = 2147483647,
    TEAMS_LIMIT = 32,
    CAP_LIMIT = 4096,
    AMOUNT_LIMIT = 4096,
    NODES_LIMIT = 1023,
    /* The open line is the longest, and no step prints more than one line. */
    LINE_LIMIT = 42,
    OUTPUT_LIMIT = (NUMBERS_LIMIT + 2) * LINE_LIMIT
};

/* The codes, named by what was found.  Those that no run can give are absent. */
enum {
    GRANTED = 0,
    NODE_UNKNOWN = 4,
    HAS_OWNER = 5,
    IS_COMPLETED = 6,
    AMOUNT_BAD = 7,
    NOT_THE_OWNER = 8,
    IS_NEGATIVE = 9,
    POSITION_STALE = 10,
    NO_OWNER = 11,
    IS_THE_OWNER = 12,
    NO_ROOM_TO_STEAL = 14,
    NOT_NEGATIVE = 15,
    HAS_CHILDREN = 16,
    OPENING_BAD = 20,
    TEXT_LONG = 21,
    BYTE_BAD = 22,
    NUMBER_BAD = 23,
    HEADER_BAD = 24,
    TEAM_BAD = 26
};

enum { AVAILABLE = 1, OWNED = 2, COMPLETED = 3, STOLEN = 4, EXPANDED = 5 };

enum place { SEEK, TAKE, WORK, CLAIM, MARK, SPLIT, STOPPED };

enum side { LEFT, RIGHT };

/* How every team looks for work.  A header of five numbers names none, which
 * means the scan. */
enum { PROGRAM_NOT_GIVEN = 0, SCAN = 1, GREATEST = 2 };

struct fault {
    int code;
    int line;
};

struct header {
    int start, until, teams, cap, nodes;
    int program;
};

struct node {
    int start, until, progress, owner, left;
};

struct answer {
    int code, state, from, to, owner, left;
};

struct record {
    enum place place;
    enum side side;
    int node, position, size;
    /* What a search for the greatest rest has found so far: the node, 0 for
     * none, its rest, whether nobody owned it, and the position read there. */
    int best, best_rest, best_free, best_position;
};

static unsigned char text[TEXT_LIMIT + 1];
static int text_length;

/* Every number of the text in order, each with the line it stands in. */
static int numbers[NUMBERS_LIMIT];
static int lines[NUMBERS_LIMIT];
static int numbers_count;

/* Slot 0 stays unused, so that a node's number is its index. */
static struct node table[NODES_LIMIT + 1];
static int used;
/* The count of STOLEN nodes is kept as it changes; counting them afresh for
 * each mark would make a step slower in a bigger table. */
static int stolen;

static struct record records[TEAMS_LIMIT + 1];
static struct header run;
static int header_count;

static char output[OUTPUT_LIMIT];
static int output_length;

/* ---- Output ---- */

static void put_byte(char byte)
{
    output[output_length++] = byte;
}

static void put_word(const char *word)
{
    while (*word != '\0')
        put_byte(*word++);
}

/* Writes a space and the number, which is never negative here. */
static void put_number(int number)
{
    char digits[DIGITS_LIMIT];
    int count = 0;

    do {
        digits[count++] = (char)('0' + number % 10);
        number /= 10;
    } while (number > 0);
    put_byte(' ');
    while (count > 0)
        put_byte(digits[--count]);
}

/* Returns whether all of the output was taken. */
static int flush_output(void)
{
    int done = 0;

    while (done < output_length) {
        long wrote = write(1, output + done, (unsigned long)(output_length - done));

        if (wrote <= 0)
            return 0;
        done += (int)wrote;
    }
    return 1;
}

static void put_refusal(struct fault fault)
{
    put_word("refused");
    put_number(fault.code);
    put_number(fault.line);
    put_byte('\n');
}

static void put_open_line(void)
{
    put_word("open");
    put_number(run.start);
    put_number(run.until);
    put_number(run.teams);
    put_number(run.cap);
    put_number(run.nodes);
    if (run.program != PROGRAM_NOT_GIVEN)
        put_number(run.program);
    put_byte('\n');
}

static void put_batch_line(int team, int node, struct answer answer)
{
    put_word("batch");
    put_number(team);
    put_number(node);
    put_number(answer.from);
    put_number(answer.to);
    put_byte('\n');
}

static void put_split_line(int node, struct answer answer)
{
    put_word("split");
    put_number(node);
    put_number(answer.left);
    put_number(answer.from);
    put_byte('\n');
}

/* ---- Text ---- */

/* Reads up to one byte more than a text may have, which is enough to see that
 * it is too long.  Returns whether reading went well. */
static int read_text(void)
{
    while (text_length <= TEXT_LIMIT) {
        long got = read(0, text + text_length, (unsigned long)(TEXT_LIMIT + 1 - text_length));

        if (got < 0)
            return 0;
        if (got == 0)
            return 1;
        text_length += (int)got;
    }
    return 1;
}

static int is_digit(unsigned char byte)
{
    return byte >= '0' && byte <= '9';
}

static int is_blank(unsigned char byte)
{
    return byte == ' ' || byte == '\t' || byte == '\r';
}

/* Keeps the number that starts at `at` and returns the place after its last
 * digit, or -1 if it has too many digits or is too great.  Leading zeros count
 * as digits, for the document speaks of digits and makes no exception. */
static int scan_number(int at, int line)
{
    int first = at;
    long value = 0;

    while (at < text_length && is_digit(text[at])) {
        /* Ten digits fit into 64 bits, and no digit after them is added. */
        if (at - first < DIGITS_LIMIT)
            value = value * 10 + (text[at] - '0');
        at++;
    }
    if (at - first > DIGITS_LIMIT || value > NUMBER_LIMIT)
        return -1;
    numbers[numbers_count] = (int)value;
    lines[numbers_count] = line;
    numbers_count++;
    return at;
}

/* Returns the place of the line end that closes the comment, or the text's end. */
static int skip_comment(int at)
{
    while (at < text_length && text[at] != '\n')
        at++;
    return at;
}

/* Collects the numbers and finds the earliest byte with 22 or 23.  A number is
 * judged as a whole before any byte after it, so the first fault met in this
 * order is the one whose byte comes first. */
static struct fault scan_text(void)
{
    int at = 0;
    int line = 1;

    while (at < text_length) {
        unsigned char byte = text[at];

        if (is_digit(byte)) {
            at = scan_number(at, line);
            if (at < 0)
                return (struct fault){NUMBER_BAD, line};
        } else if (byte == '#') {
            at = skip_comment(at);
        } else if (byte == '\n') {
            line++;
            at++;
        } else if (is_blank(byte)) {
            at++;
        } else {
            return (struct fault){BYTE_BAD, line};
        }
    }
    return (struct fault){0, 0};
}

static int limits_hold(struct header header)
{
    /* The scanner lets no negative number and none over the limit through. */
    return header.start <= header.until
        && header.teams >= 1 && header.teams <= TEAMS_LIMIT
        && header.cap >= 1 && header.cap <= CAP_LIMIT
        && header.nodes >= 1 && header.nodes <= NODES_LIMIT;
}

/* Takes the header from the numbers, or finds 24 or 20. */
static struct fault judge_header(void)
{
    int count = 0;

    if (numbers_count == 0)
        return (struct fault){HEADER_BAD, 0};
    while (count < numbers_count && lines[count] == lines[0])
        count++;
    if (count < HEADER_LEAST || count > HEADER_MOST)
        return (struct fault){HEADER_BAD, lines[0]};
    header_count = count;
    run = (struct header){numbers[0], numbers[1], numbers[2], numbers[3], numbers[4],
                          PROGRAM_NOT_GIVEN};
    if (!limits_hold(run))
        return (struct fault){OPENING_BAD, lines[0]};
    if (count == HEADER_LEAST)
        return (struct fault){0, 0};
    run.program = numbers[5];
    if (run.program != SCAN && run.program != GREATEST)
        return (struct fault){OPENING_BAD, lines[0]};
    return (struct fault){0, 0};
}

static struct fault judge_schedule(void)
{
    for (int i = header_count; i < numbers_count; i++)
        if (numbers[i] < 1 || numbers[i] > run.teams)
            return (struct fault){TEAM_BAD, lines[i]};
    return (struct fault){0, 0};
}

/* Judges the whole text in the document's order before anything is run. */
static struct fault judge_text(void)
{
    struct fault fault;

    if (text_length > TEXT_LIMIT)
        return (struct fault){TEXT_LONG, 0};
    fault = scan_text();
    if (fault.code == 0)
        fault = judge_header();
    if (fault.code == 0)
        fault = judge_schedule();
    return fault;
}

/* ---- Ledger ---- */

/* Reads the position back from a mark without ever negating the least int. */
static int position_of(const struct node *node)
{
    return node->progress < 0 ? -(node->progress + 1) : node->progress;
}

static int state_of(const struct node *node)
{
    if (node->progress == node->until)
        return COMPLETED;
    if (node->progress < 0)
        return node->left != 0 ? EXPANDED : STOLEN;
    return node->owner == 0 ? AVAILABLE : OWNED;
}

static struct answer refuse(int code)
{
    return (struct answer){.code = code};
}

static int is_node(int node)
{
    return node >= 1 && node <= used;
}

static struct node fresh_node(int start, int until)
{
    return (struct node){.start = start, .until = until, .progress = start};
}

static void open_ledger(void)
{
    table[1] = fresh_node(run.start, run.until);
    used = 1;
    for (int team = 1; team <= run.teams; team++)
        records[team] = (struct record){.place = SEEK, .side = LEFT, .node = 1, .size = 1};
}

static struct answer look(int number)
{
    const struct node *node;

    if (!is_node(number))
        return refuse(NODE_UNKNOWN);
    node = &table[number];
    return (struct answer){
        .state = state_of(node),
        .from = position_of(node),
        .to = node->until,
        .owner = node->owner,
        .left = node->left,
    };
}

static struct answer own(int team, int number)
{
    struct node *node;

    if (!is_node(number))
        return refuse(NODE_UNKNOWN);
    node = &table[number];
    if (node->owner != 0)
        return refuse(HAS_OWNER);
    if (state_of(node) == COMPLETED)
        return refuse(IS_COMPLETED);
    node->owner = team;
    return (struct answer){.from = node->start, .to = node->until};
}

static struct answer advance(int team, int number, int position, int amount)
{
    struct node *node;

    if (!is_node(number))
        return refuse(NODE_UNKNOWN);
    node = &table[number];
    if (amount < 1 || amount > AMOUNT_LIMIT)
        return refuse(AMOUNT_BAD);
    if (node->owner != team)
        return refuse(NOT_THE_OWNER);
    if (node->progress < 0)
        return refuse(IS_NEGATIVE);
    if (state_of(node) == COMPLETED)
        return refuse(IS_COMPLETED);
    if (position != node->progress)
        return refuse(POSITION_STALE);
    /* The rest is compared with the amount, because position + amount may
     * leave the range of an int. */
    if (node->until - position < amount)
        node->progress = node->until;
    else
        node->progress = position + amount;
    return (struct answer){.from = position, .to = node->progress};
}

static struct answer mark(int team, int number, int position)
{
    struct node *node;

    if (!is_node(number))
        return refuse(NODE_UNKNOWN);
    node = &table[number];
    if (node->owner == 0)
        return refuse(NO_OWNER);
    if (node->owner == team)
        return refuse(IS_THE_OWNER);
    if (node->progress < 0)
        return refuse(IS_NEGATIVE);
    if (state_of(node) == COMPLETED)
        return refuse(IS_COMPLETED);
    if (position != node->progress)
        return refuse(POSITION_STALE);
    if (used + 2 * stolen + 2 > run.nodes)
        return refuse(NO_ROOM_TO_STEAL);
    node->progress = -position - 1;
    stolen++;
    return (struct answer){.from = position, .to = node->until};
}

static struct answer expand(int number)
{
    struct node *node;
    int position, middle;

    if (!is_node(number))
        return refuse(NODE_UNKNOWN);
    node = &table[number];
    if (node->progress >= 0)
        return refuse(NOT_NEGATIVE);
    position = position_of(node);
    middle = position + (node->until - position) / 2;
    /* The late splitter is told where the children are, as the first one was. */
    if (node->left != 0)
        return (struct answer){.code = HAS_CHILDREN, .from = middle, .left = node->left};
    node->left = used + 1;
    table[used + 1] = fresh_node(position, middle);
    table[used + 2] = fresh_node(middle, node->until);
    used += 2;
    stolen--;
    return (struct answer){.from = middle, .left = node->left};
}

/* ---- The team program ---- */

/* A move sets the fields it names and keeps the others. */
static void go(struct record *record, enum place place, int node)
{
    record->place = place;
    record->node = node;
}

static void go_at(struct record *record, enum place place, int node, int position)
{
    go(record, place, node);
    record->position = position;
}

static void go_beside(struct record *record, enum place place, int node, enum side side)
{
    go(record, place, node);
    record->side = side;
}

static void take_child(struct record *record, int left)
{
    go(record, TAKE, record->side == LEFT ? left : left + 1);
}

/* Every return to node 1 begins a new search, which has found nothing. */
static void seek_anew(struct record *record)
{
    go(record, SEEK, 1);
    record->best = 0;
    record->best_rest = 0;
}

static void keep_if_greater(int team, struct record *record, struct answer seen)
{
    int rest = seen.to - seen.from;
    int is_free = seen.state == AVAILABLE;

    if (!is_free && !(seen.state == OWNED && seen.owner != team))
        return;
    /* On equal rests the lower number stays, which was met first. */
    if (rest <= record->best_rest)
        return;
    record->best = record->node;
    record->best_rest = rest;
    record->best_free = is_free;
    record->best_position = seen.from;
}

static void seek_greatest(int team, struct record *record)
{
    struct answer seen = look(record->node);

    if (seen.code == NODE_UNKNOWN) {
        if (record->best == 0)
            record->place = STOPPED;
        else if (record->best_free)
            go(record, TAKE, record->best);
        else
            go_at(record, MARK, record->best, record->best_position);
    } else if (seen.state == STOLEN) {
        go_beside(record, SPLIT, record->node, RIGHT);
    } else {
        keep_if_greater(team, record, seen);
        go(record, SEEK, record->node + 1);
    }
}

static void seek_by_number(int team, struct record *record)
{
    int node = record->node;
    struct answer seen = look(node);

    if (seen.code == NODE_UNKNOWN)
        record->place = STOPPED;
    else if (seen.state == AVAILABLE)
        go(record, TAKE, node);
    else if (seen.state == OWNED && seen.owner != team)
        go_at(record, MARK, node, seen.from);
    else if (seen.state == STOLEN)
        go_beside(record, SPLIT, node, RIGHT);
    else
        go(record, SEEK, node + 1);
}

static void step_seek(int team, struct record *record)
{
    if (run.program == GREATEST)
        seek_greatest(team, record);
    else
        seek_by_number(team, record);
}

static void step_take(int team, struct record *record)
{
    if (own(team, record->node).code != GRANTED) {
        seek_anew(record);
        return;
    }
    record->size = 1;
    record->place = WORK;
}

static void step_work(int team, struct record *record)
{
    int node = record->node;
    struct answer seen = look(node);

    if (seen.state == OWNED && seen.owner == team)
        go_at(record, CLAIM, node, seen.from);
    else if (seen.state == STOLEN)
        go_beside(record, SPLIT, node, LEFT);
    else if (seen.state == EXPANDED)
        go(record, TAKE, seen.left);
    else
        seek_anew(record);
}

static void step_claim(int team, struct record *record)
{
    int node = record->node;
    struct answer answer = advance(team, node, record->position, record->size);

    if (answer.code == IS_NEGATIVE) {
        go_beside(record, SPLIT, node, LEFT);
        return;
    }
    record->place = WORK;
    if (answer.code != GRANTED)
        return;
    put_batch_line(team, node, answer);
    record->size = 2 * record->size < run.cap ? 2 * record->size : run.cap;
}

static void step_mark(int team, struct record *record)
{
    int node = record->node;
    int code = mark(team, node, record->position).code;

    if (code == GRANTED)
        go_beside(record, SPLIT, node, RIGHT);
    else if (run.program == GREATEST)
        seek_anew(record);
    else if (code == NO_ROOM_TO_STEAL)
        go(record, SEEK, node + 1);
    else
        go(record, SEEK, node);
}

static void step_split(struct record *record)
{
    int node = record->node;
    struct answer answer = expand(node);

    if (answer.code == GRANTED) {
        put_split_line(node, answer);
        take_child(record, answer.left);
    } else if (answer.code == HAS_CHILDREN) {
        take_child(record, answer.left);
    } else {
        seek_anew(record);
    }
}

static void step(int team)
{
    struct record *record = &records[team];

    switch (record->place) {
    case SEEK: step_seek(team, record); break;
    case TAKE: step_take(team, record); break;
    case WORK: step_work(team, record); break;
    case CLAIM: step_claim(team, record); break;
    case MARK: step_mark(team, record); break;
    case SPLIT: step_split(record); break;
    case STOPPED: break;
    }
}

/* ---- The run ---- */

static int unclaimed_count(void)
{
    int sum = 0;

    /* The nodes without children have ranges apart from each other, so the sum
     * is at most the whole range and fits. */
    for (int i = 1; i <= used; i++)
        if (table[i].left == 0)
            sum += table[i].until - position_of(&table[i]);
    return sum;
}

static int stopped_count(void)
{
    int count = 0;

    for (int team = 1; team <= run.teams; team++)
        count += records[team].place == STOPPED;
    return count;
}

static void run_schedule(void)
{
    open_ledger();
    put_open_line();
    for (int i = header_count; i < numbers_count; i++)
        step(numbers[i]);
    put_word("left");
    put_number(unclaimed_count());
    put_word(" stopped");
    put_number(stopped_count());
    put_byte('\n');
}

int main(void)
{
    struct fault fault;

    if (!read_text())
        return 1;
    fault = judge_text();
    if (fault.code != 0)
        put_refusal(fault);
    else
        run_schedule();
    return flush_output() ? 0 : 1;
}
