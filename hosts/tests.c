/* The library as a C host sees it.
 *
 *     tests STREAM...
 *
 * A stream holds sheets with their answers, each led by a line: the kind, `events`, `check` or `bundle`, the bytes of the
 * sheet and those of the answer. Each call is made three times: the lent parts stand at the start of memory that may be
 * touched, at its end, and between guard bytes. Afterwards the sheet and every byte that the answer does not name must
 * be as they were. Each event sheet is also given line by line, its lines at these places in turn, and has to give the
 * same; and as a clause of bundles, which have to give what their clauses do, as those of the stream have. Prints what
 * fails, and last how many calls passed and failed; exit 1 if any failed or a stream is malformed.
 */
#define _DEFAULT_SOURCE
#include <pthread.h>
#include <stdio.h>
#include <stdlib.h>
#include <string.h>
#include <sys/mman.h>
#include <unistd.h>

#include "fenomirask.h"

enum {
    GUARD = 64,
    ROOM = FENOMIRASK_SHEET_BYTES, /* the room for which a stream's answers hold */
    LARGE_ROOM = 1 << 20,          /* room for every answer */
    SHOWN = 20,
    SPOILT_EACH = 8,    /* numbers that are spoilt in the state of each sheet of a stream */
    SPOILT_STEP = 1009, /* how many further the next one is: a prime, so that each number has its turn */
    LEAST_SPOILT = 64,  /* changes of one number that a state has to refuse, and others that it has to take */
    THREADS = 4         /* for each way to the answers */
};

/* Sizes of docs/RULES.md, section 3, for which the header has no constant; behind each its rule. */
enum {
    LAST_REGISTER = FENOMIRASK_REGISTERS - 1, /* 3.4 and 3.5; the same for slots, arguments and cells */
    LAST_CHUNK = 255,                         /* 3.6 */
    LAST_COUNT = 65535,                       /* 3.7 */
    LAST_COUNTER = LAST_REGISTER + 1,         /* 3.11 */
    STEPS = 256                               /* 3.15 */
};

/* How the header codes two numbers as one: a refusal as -(LINE_WEIGHT * line + number), a use as USE_WEIGHT * context +
 * register. A context is 0 in the head, or a chunk behind one of the other two. */
enum { LINE_WEIGHT = 16, USE_WEIGHT = 256, MIDDLE = 256, LAST_GOAL = 512, LAST_CONTEXT = LAST_GOAL + LAST_CHUNK };

#define USE(context, number) (USE_WEIGHT * (context) + (number))

/* A text and its bytes, without the zero behind it. */
#define TEXT(text) (text), sizeof(text) - 1

/* What an event sheet, or a clause, without lines prints. */
#define NO_LINES_END "end\t1\t0\n"

typedef int64_t sheet_function(const uint8_t *sheet, size_t sheet_bytes, uint8_t *out, size_t out_bytes);

enum { EVENTS, CHECK, BUNDLE, FUNCTIONS };

/* The exported functions that answer whole sheets and bundles. */
static const struct function {
    const char *word;
    sheet_function *answer;
} functions[FUNCTIONS] = {
    [EVENTS] = {"events", fenomirask_events},
    [CHECK] = {"check", fenomirask_check},
    [BUNDLE] = {"bundle", fenomirask_bundle},
};

static size_t passed, failed;

static void count(int good, const char *what, const char *word, size_t room, int64_t got, int64_t wanted)
{
    if (good) {
        passed++;
        return;
    }
    failed++;
    if (failed <= SHOWN)
        printf("failed: %s, %s, room %zu: got %lld, wanted %lld%s\n", what, word, room, (long long)got,
               (long long)wanted, got == wanted ? ", but other bytes" : "");
}

/* ---- Memory to lend */

/* Bytes between two pages that may not be touched. */
struct area {
    uint8_t *start;
    size_t bytes;
};

static struct area sheets, rooms, states;

static struct area new_area(size_t least)
{
    size_t page = (size_t)sysconf(_SC_PAGESIZE);
    struct area area;
    uint8_t *all;
    area.bytes = (least + 2 * GUARD + page - 1) / page * page;
    all = mmap(NULL, area.bytes + 2 * page, PROT_NONE, MAP_PRIVATE | MAP_ANONYMOUS, -1, 0);
    if (all == MAP_FAILED || mprotect(all + page, area.bytes, PROT_READ | PROT_WRITE) != 0) {
        perror("tests");
        exit(2);
    }
    area.start = all + page;
    return area;
}

enum placement { AT_START, AT_END, BETWEEN, PLACEMENTS };

static const uint8_t fills[PLACEMENTS] = {0xA5, 0x5A, 0xFF};

static size_t offset_of(struct area area, size_t bytes, enum placement placement)
{
    return placement == AT_START ? 0 : placement == AT_END ? area.bytes - bytes : GUARD;
}

/* A part of so many bytes, with the guard bytes that have place beside it: from `*first`, `*all` bytes. */
static uint8_t *lend(struct area area, size_t bytes, enum placement placement, uint8_t **first, size_t *all)
{
    size_t offset = offset_of(area, bytes, placement);
    size_t from = offset < GUARD ? 0 : offset - GUARD;
    size_t to = area.bytes - offset - bytes < GUARD ? area.bytes : offset + bytes + GUARD;
    *first = area.start + from;
    *all = to - from;
    memset(*first, fills[placement], *all);
    return area.start + offset;
}

/* Whether a lent part starts with the text, if one is given, and every other byte behind it and of its guards is still the
 * fill. */
static int is_left(const uint8_t *first, size_t all, const uint8_t *part, const uint8_t *text, size_t bytes,
                   uint8_t fill)
{
    size_t before = (size_t)(part - first), i;
    for (i = 0; i < before; i++)
        if (first[i] != fill)
            return 0;
    for (i = before + bytes; i < all; i++)
        if (first[i] != fill)
            return 0;
    return text == NULL || bytes == 0 || memcmp(part, text, bytes) == 0;
}

/* ---- Calls */

/* The answer with which a line is refused. */
static int64_t refused_at(size_t line, int refusal)
{
    return -(int64_t)(LINE_WEIGHT * line + (size_t)refusal);
}

/* The answer must be `wanted`; if it is a count, `text` must be written. */
static void expect(const char *what, const struct function *f, const void *sheet, size_t sheet_bytes, size_t room,
                   int64_t wanted, const void *text)
{
    int placement;
    for (placement = 0; placement < PLACEMENTS; placement++) {
        uint8_t *first_in, *first_out;
        size_t all_in, all_out;
        uint8_t *in = lend(sheets, sheet_bytes, (enum placement)placement, &first_in, &all_in);
        uint8_t *out = lend(rooms, room, (enum placement)placement, &first_out, &all_out);
        uint8_t fill = fills[placement];
        int64_t got;
        if (sheet_bytes != 0)
            memcpy(in, sheet, sheet_bytes);
        got = f->answer(in, sheet_bytes, out, room);
        count(got == wanted && is_left(first_in, all_in, in, sheet, sheet_bytes, fill)
                  && is_left(first_out, all_out, out, text, wanted < 0 ? 0 : (size_t)wanted, fill),
              what, f->word, room, got, wanted);
    }
}

/* A sheet that is answered with the text: with large room, with exact room, and where there is a text with one byte less
 * and with none. */
static void expect_text(const char *what, const struct function *f, const void *sheet, size_t sheet_bytes, size_t room,
                        const void *text, size_t bytes)
{
    expect(what, f, sheet, sheet_bytes, room, (int64_t)bytes, text);
    expect(what, f, sheet, sheet_bytes, bytes, (int64_t)bytes, text);
    if (bytes == 0)
        return;
    expect(what, f, sheet, sheet_bytes, bytes - 1, -FENOMIRASK_NO_ROOM, "");
    expect(what, f, sheet, sheet_bytes, 0, -FENOMIRASK_NO_ROOM, "");
}

/* A sheet that is refused whatever the room. */
static void expect_refusal(const char *what, const struct function *f, const void *sheet, size_t sheet_bytes,
                           size_t line, int refusal)
{
    int64_t wanted = refused_at(line, refusal);
    expect(what, f, sheet, sheet_bytes, ROOM, wanted, "");
    expect(what, f, sheet, sheet_bytes, 1, wanted, "");
    expect(what, f, sheet, sheet_bytes, 0, wanted, "");
    count(FENOMIRASK_REFUSED(wanted) && FENOMIRASK_LINE(wanted) == line && FENOMIRASK_REFUSAL(wanted) == refusal,
          "the header's macros", f->word, 0, wanted, wanted);
}

/* A sheet whose answer is longer than ROOM: what is written with exact room is what is written with more. */
static void expect_longer(const char *what, const struct function *f, const uint8_t *sheet, size_t sheet_bytes)
{
    static uint8_t text[LARGE_ROOM];
    int64_t got = f->answer(sheet, sheet_bytes, text, sizeof text);
    count(got > ROOM, what, f->word, sizeof text, got, ROOM + 1);
    if (got > ROOM)
        expect_text(what, f, sheet, sheet_bytes, LARGE_ROOM, text, (size_t)got);
}

/* ---- Sheets of the tests' own */

/* A line so many times over; the bytes of them all. */
static size_t repeat(uint8_t *at, const char *line, size_t times)
{
    size_t bytes = strlen(line), i;
    for (i = 0; i < times; i++)
        memcpy(at + i * bytes, line, bytes);
    return times * bytes;
}

/* Good lines of exactly so many bytes that print nothing; how many lines they are. */
static size_t put_silent(uint8_t *at, size_t bytes)
{
    static const char line[] = "reset\n", longer[] = "tail\t0\n"; /* longer by one byte */
    size_t longer_lines = bytes % strlen(line), used = repeat(at, longer, longer_lines);
    size_t lines = (bytes - used) / strlen(line);
    used += repeat(at + used, line, lines);
    count(used == bytes, "lines that print nothing", "bytes", 0, (int64_t)used, (int64_t)bytes);
    return lines + longer_lines;
}

/* Where the line behind this one starts, or the bytes end. */
static size_t next_line(const uint8_t *sheet, size_t sheet_bytes, size_t at)
{
    const uint8_t *feed = memchr(sheet + at, '\n', sheet_bytes - at);
    return feed == NULL ? sheet_bytes : (size_t)(feed - sheet) + 1;
}

/* The sheet of rule 24.1, and what it prints. */
static const char first[] = "temp\tl1\t1\tl1:2\nperm\t1\nhead\t0\t1\nvar\tf\ts\th\t0\nvar\tf\ts\th\t1\n";
static const char first_ends[] = "at\tx1\nget_variable\ty1\t2\nat\ty1\nend\t3\t1\n";

static void whole_sheets(void)
{
    static const char *const empty[] = {[EVENTS] = NO_LINES_END, [CHECK] = "accepted\n"};
    static const char tenth[] = "h\t1\t0\nh\t2\t0\nget_value\tx1\t2\n";
    static const char uncalled[] = "g\t1\t0\nput_variable\tx5\t1\n";
    static uint8_t sheet[2 * FENOMIRASK_SHEET_BYTES];
    const struct function *events = &functions[EVENTS], *check = &functions[CHECK];
    const size_t full = FENOMIRASK_SHEET_BYTES;
    size_t bytes, lines;
    int i;

    for (i = EVENTS; i <= CHECK; i++) {
        const struct function *f = &functions[i];
        expect_text("an empty sheet", f, "", 0, ROOM, empty[i], strlen(empty[i]));
        memset(sheet, '\n', sizeof sheet);
        expect_refusal("one LF", f, sheet, 1, 1, FENOMIRASK_UNKNOWN_FORM);
        expect_refusal("a full sheet of LFs", f, sheet, full, 1, FENOMIRASK_UNKNOWN_FORM);
        expect_refusal("an LF too many", f, sheet, full + 1, 0, FENOMIRASK_FULL);
        expect_refusal("twice as many LFs", f, sheet, 2 * full, 0, FENOMIRASK_FULL);
        memset(sheet, 0xFF, sizeof sheet);
        expect_refusal("a full sheet and no LF", f, sheet, full, 1, FENOMIRASK_UNKNOWN_FORM);
        expect_refusal("a byte too many and no LF", f, sheet, full + 1, 0, FENOMIRASK_FULL);
    }

    expect_text("sheet 1", events, first, strlen(first), ROOM, first_ends, strlen(first_ends));
    expect_refusal("sheet 1 without its last LF", events, first, strlen(first) - 1, 5, FENOMIRASK_UNKNOWN_FORM);
    lines = put_silent(sheet, full);
    expect_text("a full sheet of good lines", events, sheet, full, ROOM, TEXT(NO_LINES_END));
    expect_refusal("its last LF missing", events, sheet, full - 1, lines, FENOMIRASK_UNKNOWN_FORM);
    put_silent(sheet, full + 1);
    expect_refusal("good lines, a byte too many", events, sheet, full + 1, 0, FENOMIRASK_FULL);

    expect_text("sheet 10", check, tenth, strlen(tenth), ROOM, "accepted\n", FENOMIRASK_CHECK_ROOM);
    bytes = (size_t)(strstr(tenth, "get_value") - tenth);
    expect_text("sheet 10, nothing", check, tenth, bytes, ROOM, "rejected\n", FENOMIRASK_CHECK_ROOM);
    expect_refusal("sheet 10 without its last LF", check, tenth, strlen(tenth) - 1, 3, FENOMIRASK_UNKNOWN_FORM);
    expect_refusal("a goal step with no call", check, uncalled, strlen(uncalled), 2, FENOMIRASK_FORBIDDEN_ORDER);
    bytes = repeat(sheet, "call\n", STEPS);
    expect_text("as many calls as there may be", check, sheet, bytes, ROOM, "accepted\n", FENOMIRASK_CHECK_ROOM);
    repeat(sheet, "call\n", sizeof sheet / strlen("call\n"));
    expect_refusal("a full sheet, too many steps", check, sheet, full, STEPS + 1, FENOMIRASK_FULL);
    expect_refusal("a byte too many, too many steps", check, sheet, full + 1, 0, FENOMIRASK_FULL);
}

/* ---- What a call leaves */

/* A check sheet that is accepted, or rejected. */
static void expect_verdict(const char *what, const char *sheet, int accepted)
{
    const char *text = accepted ? "accepted\n" : "rejected\n";
    expect_text(what, &functions[CHECK], sheet, strlen(sheet), ROOM, text, FENOMIRASK_CHECK_ROOM);
}

static const struct verdict {
    const char *what, *sheet;
    int accepted;
} verdicts[] = {
    {"sheet 12", "g\t1\t0\nput_variable\tx5\t1\ncall\ng\t1\t0\nput_value\tx5\t1\ncall\n", 0},
    {"sheet 12 with a slot", "g\t1\t0\nput_variable\ty1\t1\ncall\ng\t1\t0\nput_value\ty1\t1\ncall\n", 1},
    {"a call with no goal steps", "h\t1\t0\ncall\ng\t1\t0\ncall\n", 0},
    {"the same without it", "h\t1\t0\ng\t1\t0\ncall\n", 1},
    {"a subterm read behind a call", "h\t1\t0\ncall\ngd\t0\nset_value\tx1\ncall\n", 0},
    {"a subterm read before it", "h\t1\t0\ngd\t0\nset_value\tx1\ncall\n", 1},
    {"a slot from the start", "h\t1\t0\nget_variable\ty1\t1\ncall\ng\t2\t0\nput_value\ty1\t2\ncall\n", 1},
    {"a slot written behind the call",
     "h\t1\t0\nget_variable\ty1\t1\ncall\ng\t2\t0\nget_variable\ty1\t1\nput_value\ty1\t2\ncall\n", 0},
    {"a register written behind the call", "call\ng\t1\t0\nput_variable\tx5\t1\ng\t2\t0\nput_value\tx5\t2\ncall\n", 1},
};

/* A head step, as many calls as then fit on a sheet, and a goal with its call; each step with its instruction, if any. */
static void expect_behind_calls(const char *what, const char *get, const char *put, int accepted)
{
    char sheet[STEPS * sizeof "call\n" + 128];
    size_t bytes = (size_t)sprintf(sheet, "h\t1\t0\n%s", get);
    bytes += repeat((uint8_t *)sheet + bytes, "call\n", STEPS - 3);
    sprintf(sheet + bytes, "g\t1\t0\n%scall\n", put);
    expect_verdict(what, sheet, accepted);
}

/* Every register is lost at a call, which reads its arguments before, and every slot is kept. */
static void spoilt_registers(void)
{
    char what[64], sheet[128], get[64], put[64];
    size_t i;
    int k;
    for (i = 0; i < sizeof verdicts / sizeof verdicts[0]; i++)
        expect_verdict(verdicts[i].what, verdicts[i].sheet, verdicts[i].accepted);
    for (k = 1; k <= LAST_REGISTER; k++) {
        snprintf(what, sizeof what, "register %d at a call", k);
        snprintf(sheet, sizeof sheet, "h\t%d\t0\ng\t%d\t0\ncall\n", k, k);
        expect_verdict(what, sheet, 1);
        snprintf(what, sizeof what, "register %d behind a call", k);
        snprintf(sheet, sizeof sheet, "h\t%d\t0\ng\t%d\t0\ncall\ng\t%d\t0\ncall\n", k, k, k);
        expect_verdict(what, sheet, 0);
        snprintf(what, sizeof what, "slot %d behind a call", k);
        snprintf(sheet, sizeof sheet, "h\t1\t0\nget_variable\ty%d\t1\ncall\ng\t1\t0\nput_value\ty%d\t1\ncall\n", k, k);
        expect_verdict(what, sheet, 1);
    }
    expect_behind_calls("a register behind many calls", "", "", 0);
    sprintf(get, "get_variable\ty%d\t1\n", LAST_REGISTER);
    sprintf(put, "put_value\ty%d\t1\n", LAST_REGISTER);
    expect_behind_calls("a slot behind many calls", get, put, 1);
}

/* ---- One line at a time */

/* Whether two states have the same numbers. The bytes between the counters' last two are no part of a state. */
static int same_state(const FenomiraskState *a, const FenomiraskState *b)
{
    size_t gap = offsetof(FenomiraskCounters, open_branches) + sizeof a->counters.open_branches;
    size_t behind = offsetof(FenomiraskCounters, in_use);
    return memcmp(a, b, gap) == 0
           && memcmp((const uint8_t *)a + behind, (const uint8_t *)b + behind, sizeof *a - behind) == 0;
}

/* One call with lent parts, fenomirask_event or, where `line` is NULL, fenomirask_end. Afterwards `state` is the state
 * and `text` what was written. `*kept` says whether all that may not change is as it was. */
static int64_t call(FenomiraskState *state, const void *line, size_t line_bytes, size_t room, enum placement placement,
                    uint8_t *text, int *kept)
{
    uint8_t *first_state, *first_line, *first_out;
    size_t all_state, all_line, all_out;
    uint8_t fill = fills[placement];
    uint8_t *lent_state = lend(states, sizeof *state, placement, &first_state, &all_state);
    uint8_t *lent_line = lend(sheets, line_bytes, placement, &first_line, &all_line);
    uint8_t *out = lend(rooms, room, placement, &first_out, &all_out);
    FenomiraskState *lent = (FenomiraskState *)(void *)lent_state;
    int64_t got;
    memcpy(lent, state, sizeof *state);
    if (line != NULL && line_bytes != 0)
        memcpy(lent_line, line, line_bytes);
    got = line == NULL ? fenomirask_end(lent, out, room) : fenomirask_event(lent, lent_line, line_bytes, out, room);
    *kept = got <= (int64_t)room && is_left(first_line, all_line, lent_line, line, line_bytes, fill)
            && is_left(first_out, all_out, out, NULL, got < 0 ? 0 : (size_t)got, fill)
            && is_left(first_state, all_state, lent_state, NULL, sizeof *state, fill)
            && ((line != NULL && got >= 0) || same_state(lent, state));
    if (got > 0 && got <= (int64_t)room && got <= FENOMIRASK_EVENT_ROOM)
        memcpy(text, out, (size_t)got);
    memcpy(state, lent, sizeof *state);
    return got;
}

/* The call must be answered with `wanted`, and `text` written if that is a count; at each placement, and with the same
 * state afterwards, which `state` is then. */
static void expect_call(const char *what, FenomiraskState *state, const void *line, size_t line_bytes, size_t room,
                        int64_t wanted, const void *text)
{
    FenomiraskState before = *state, after = *state;
    int placement;
    for (placement = 0; placement < PLACEMENTS; placement++) {
        uint8_t got_text[FENOMIRASK_EVENT_ROOM];
        int kept;
        int64_t got;
        *state = before;
        got = call(state, line, line_bytes, room, (enum placement)placement, got_text, &kept);
        if (placement == 0)
            after = *state;
        count(kept && got == wanted && same_state(state, &after)
                  && (wanted <= 0 || memcmp(got_text, text, (size_t)wanted) == 0),
              what, line == NULL ? "end" : "event", room, got, wanted);
    }
}

/* A line, or with NULL the end, that is answered with the text: with no room, one byte less than it needs, and as much;
 * the last with the state that it had before. */
static void expect_line(FenomiraskState *state, const char *line, const char *text)
{
    char what[64];
    size_t line_bytes = line == NULL ? 0 : strlen(line), bytes = strlen(text);
    FenomiraskState large = *state;
    snprintf(what, sizeof what, "%.*s", line == NULL ? 3 : (int)line_bytes - 1, line == NULL ? "end" : line);
    expect_call(what, &large, line, line_bytes, FENOMIRASK_EVENT_ROOM, (int64_t)bytes, text);
    if (bytes != 0) {
        expect_call(what, state, line, line_bytes, 0, -FENOMIRASK_NO_ROOM, "");
        expect_call(what, state, line, line_bytes, bytes - 1, -FENOMIRASK_NO_ROOM, "");
    }
    expect_call(what, state, line, line_bytes, bytes, (int64_t)bytes, text);
    count(same_state(state, &large), what, "the state with more room", bytes, 0, 0);
}

/* A line that is refused whatever the room. */
static void expect_refused(const char *what, FenomiraskState *state, const void *line, size_t line_bytes,
                           int64_t wanted)
{
    static const size_t some[] = {FENOMIRASK_EVENT_ROOM, 1, 0};
    size_t i;
    for (i = 0; i < sizeof some / sizeof some[0]; i++)
        expect_call(what, state, line, line_bytes, some[i], wanted, "");
}

/* So it is on line 1. */
static void expect_line_refusal(const char *what, FenomiraskState *state, const void *line, size_t line_bytes,
                                int refusal)
{
    expect_refused(what, state, line, line_bytes, refused_at(1, refusal));
}

static void expect_number(const char *what, uint64_t got, uint64_t wanted)
{
    count(got == wanted, what, "a number of the state", 0, (int64_t)got, (int64_t)wanted);
}
#define EXPECT(field, wanted) expect_number(#field, s.field, wanted)

/* A fresh clause over any bytes: all numbers are as the header says. */
static void fresh_states(void)
{
    static const uint8_t over[] = {0x00, 0xAA, 0xFF};
    FenomiraskState wanted;
    size_t i;
    int placement;
    memset(&wanted, 0, sizeof wanted);
    wanted.counters.arg_c = wanted.counters.temp_lb = wanted.counters.perm_lb = 1;
    for (i = 0; i < FENOMIRASK_REGISTERS; i++)
        wanted.mappings[i] = FENOMIRASK_NO_VARIABLE;
    for (i = 0; i < sizeof over; i++)
        for (placement = 0; placement < PLACEMENTS; placement++) {
            uint8_t *first;
            size_t all;
            uint8_t *lent = lend(states, sizeof wanted, (enum placement)placement, &first, &all);
            memset(lent, over[i], sizeof wanted);
            fenomirask_fresh((FenomiraskState *)(void *)lent);
            count(is_left(first, all, lent, NULL, sizeof wanted, fills[placement])
                      && same_state((FenomiraskState *)(void *)lent, &wanted),
                  "a fresh clause", "fresh", over[i], 0, 0);
        }
}

/* States that sheets reach, in each of which many tables count. */
static const char *const reached[] = {
    "",
    "perm\t3\nperm\t4\ntemp\tm7\t2\tl1:2,m3:4,h:5\ntemp\tm7\t9\tm7:6\ntemp\tl9\t9\t-\ntemp\th\t1\th:63\nsets\nargs\t4\n"
    "tail\t1\ngive\t9\ngive\t10\nopen\t11\t12\t3\ntake\nvar\tf\ts\tm7\t0\nvar\tq\td\tm7\t2\narm\t13\t14\nsafe\t0\n"
    "var\tf\ts\tm7\t1\nincr\t1\n",
    "perm\t3\nperm\t4\nperm\t5\ntemp\tl1\t2\tl1:2\ntemp\tl1\t9\tl1:6\nsets\nhead\t0\t1\t-\nvar\tf\ts\th\t0\n"
    "var\tf\ts\th\t1\nfree\t8\t1\nfree\t9\t0\nvar\tf\ts\tm10\t2\nfree\t9\t2\nopen\t1\t2\t3\nopen\t4\t5\t6\n",
};
enum { REACHED = sizeof reached / sizeof reached[0] };

static FenomiraskState reach(const char *sheet)
{
    FenomiraskState state;
    uint8_t out[FENOMIRASK_EVENT_ROOM];
    fenomirask_fresh(&state);
    while (*sheet != 0) {
        size_t bytes = (size_t)(strchr(sheet, '\n') - sheet) + 1;
        int64_t got = fenomirask_event(&state, (const uint8_t *)sheet, bytes, out, sizeof out);
        count(got >= 0, "a line of a state that is reached", "event", sizeof out, got, 0);
        sheet += bytes;
    }
    return state;
}

/* What events write is found where the header says. Each number that is not 0 differs from its neighbours. */
static void fields(void)
{
    FenomiraskState s;
    fenomirask_fresh(&s);
    expect_line(&s, "perm\t3\n", "");
    EXPECT(counters.records, 1);
    EXPECT(counters.events_seen, 0);
    EXPECT(records[0].kind, 1);
    EXPECT(records[0].place, 0);
    EXPECT(records[0].pending, 1);
    EXPECT(records[0].to_perm_var_num, FENOMIRASK_NO_VARIABLE);
    EXPECT(records[0].num_occurrences, 3);
    EXPECT(records[0].running_count, 0);
    expect_line(&s, "perm\t4\n", "");
    expect_line(&s, "temp\tm7\t2\tl1:2,m3:4,h:5\n", "");
    EXPECT(counters.records, 3);
    EXPECT(records[2].kind, 0);
    EXPECT(records[2].context, 1);
    EXPECT(records[2].chunk, 7);
    EXPECT(records[2].to_perm_var_num, FENOMIRASK_NO_VARIABLE);
    EXPECT(records[2].num_occurrences, 2);
    EXPECT(use_counts[2], 3);
    EXPECT(use_sets[2][0], USE(LAST_GOAL + 1, 2));
    EXPECT(use_sets[2][1], USE(MIDDLE + 3, 4));
    EXPECT(use_sets[2][2], USE(0, 5));
    expect_line(&s, "temp\tl9\t9\t-\n", "");
    EXPECT(records[3].context, 2);
    EXPECT(records[3].chunk, 9);
    EXPECT(use_counts[3], 0);
    expect_line(&s, "sets\n", "");
    EXPECT(counters.events_seen, 1);
    EXPECT(conflict[2], 1 << 1);
    expect_line(&s, "args\t4\n", "");
    EXPECT(counters.arg_c, 1);
    EXPECT(counters.temp_lb, 5);
    expect_line(&s, "tail\t1\n", "");
    EXPECT(counters.in_tail_position, 1);
    expect_line(&s, "give\t9\n", "");
    expect_line(&s, "give\t10\n", "");
    EXPECT(counters.freed_registers, 2);
    EXPECT(freed_registers[0], 9);
    EXPECT(freed_registers[1], 10);
    expect_line(&s, "open\t11\t12\t3\n", "");
    EXPECT(counters.open_branches, 1);
    EXPECT(branch_rows[0].start, 11);
    EXPECT(branch_rows[0].span, 12);
    EXPECT(branch_rows[0].num_branches, 3);
    EXPECT(branch_rows[0].current_branch_idx, 0);
    expect_line(&s, "var\tf\ts\tm7\t0\n", "get_variable\ty1\t1\nat\ty1\n");
    EXPECT(counters.arg_c, 2);
    EXPECT(counters.perm_lb, 2);
    EXPECT(counters.in_use, 1 << 1);
    EXPECT(records[0].place, 1);
    EXPECT(records[0].pending, 0);
    EXPECT(records[0].running_count, 1);
    EXPECT(branch_sets[0].subsumed_hits, 1 << 0);
    expect_line(&s, "var\tq\td\tm7\t2\n", "set_variable\tx2\nat\tx2\n");
    EXPECT(counters.in_use, 1 << 1 | 1 << 2);
    EXPECT(records[2].place, 2);
    EXPECT(records[2].safety.code, 2);
    EXPECT(mappings[2], 2);
    expect_line(&s, "arm\t13\t14\n", "");
    EXPECT(branch_rows[0].start, 13);
    EXPECT(branch_rows[0].span, 14);
    EXPECT(branch_rows[0].current_branch_idx, 1);
    expect_line(&s, "safe\t0\n", "");
    EXPECT(records[0].safety.code, 1);
    EXPECT(records[0].safety.start, 13);
    EXPECT(records[0].safety.span, 14);
    EXPECT(records[0].deep.code, 1);
    EXPECT(records[0].deep.start, 13);
    EXPECT(records[0].deep.span, 14);
    expect_line(&s, "var\tf\ts\tm7\t1\n", "get_variable\tx4\t2\nget_variable\ty2\t2\nat\ty2\n");
    EXPECT(mappings[2], FENOMIRASK_NO_VARIABLE);
    EXPECT(mappings[4], 2);
    EXPECT(records[2].place, 4);
    EXPECT(records[1].place, 2);
    EXPECT(branch_sets[0].subsumed_hits, 1 << 0 | 1 << 1);
    expect_line(&s, "incr\t1\n", "");
    EXPECT(records[1].running_count, 2);
    expect_line(&s, "take\n", "");
    EXPECT(branch_sets[0].shallow_safety, 1 << 1);
    EXPECT(branch_sets[0].deep_safety, 1 << 1);
    EXPECT(branch_sets[0].subsumed_hits, 0);
    expect_line(&s, "free\t8\t1\n", "");
    expect_line(&s, "free\t9\t0\n", "");
    EXPECT(counters.first_freed_slot, 0);
    EXPECT(counters.freed_slots, 2);
    EXPECT(freed_slots[0].chunk, 8);
    EXPECT(freed_slots[0].variable, 1);
    EXPECT(freed_slots[1].chunk, 9);
    EXPECT(freed_slots[1].variable, 0);
    expect_line(&s, "next\n", "");
    expect_line(&s, "open\t21\t22\t23\n", "");
    EXPECT(counters.open_branches, 2);
    EXPECT(branch_rows[1].start, 21);
    EXPECT(branch_rows[1].span, 22);
    EXPECT(branch_rows[1].num_branches, 23);
    expect_line(&s, NULL, "end\t5\t2\n");

    s = reach(reached[2]);
    EXPECT(counters.arity, 3);
    EXPECT(counters.first_freed_slot, 1);
    EXPECT(counters.freed_slots, 2);
    EXPECT(no_use[3], 1 << 6);
    EXPECT(no_use[4], 1 << 2);
}

/* Lines that are refused, each with the state as it was; the same state takes a good line then. */
static void single_lines(void)
{
    char line[64], text[64];
    FenomiraskState s, bad;
    fenomirask_fresh(&s);
    expect_line_refusal("no byte", &s, TEXT(""), FENOMIRASK_UNKNOWN_FORM);
    expect_line_refusal("an LF", &s, TEXT("\n"), FENOMIRASK_UNKNOWN_FORM);
    expect_line_refusal("no LF", &s, TEXT("perm\t1"), FENOMIRASK_UNKNOWN_FORM);
    expect_line_refusal("two LFs", &s, TEXT("perm\t1\n\n"), FENOMIRASK_UNKNOWN_FORM);
    expect_line_refusal("two lines", &s, TEXT("perm\t1\nperm\t2\n"), FENOMIRASK_UNKNOWN_FORM);
    expect_line_refusal("a byte behind the LF", &s, TEXT("perm\t1\np"), FENOMIRASK_UNKNOWN_FORM);
    expect_line_refusal("a zero behind the LF", &s, TEXT("perm\t1\n\0"), FENOMIRASK_UNKNOWN_FORM);
    expect_line_refusal("no variable", &s, TEXT("safe\t0\n"), FENOMIRASK_OUTSIDE_SIZE);
    expect_line_refusal("no open branch", &s, TEXT("take\n"), FENOMIRASK_RUST_STOPS);
    expect_line(&s, NULL, NO_LINES_END);
    expect_line(&s, "perm\t1\n", "");
    expect_line(&s, "reset\n", "");
    expect_line_refusal("a record after an event", &s, TEXT("perm\t1\n"), FENOMIRASK_FORBIDDEN_ORDER);
    expect_line_refusal("a record after an event", &s, TEXT("temp\th\t1\t-\n"), FENOMIRASK_FORBIDDEN_ORDER);
    sprintf(line, "args\t%d\n", LAST_REGISTER);
    expect_line(&s, line, "");
    expect_line(&s, "var\tf\ts\th\t0\n", "get_variable\ty1\t1\nat\ty1\n");
    sprintf(text, "end\t%d\t1\n", LAST_COUNTER);
    expect_line(&s, NULL, text);
    memset(&bad, 0xAA, sizeof bad);
    expect_call("no state, no line, no room", &bad, "", 0, 0, -FENOMIRASK_OUTSIDE_SIZE, "");
    expect_call("no state", &bad, TEXT("reset\n"), FENOMIRASK_EVENT_ROOM, -FENOMIRASK_OUTSIDE_SIZE, "");
    expect_call("no state", &bad, NULL, 0, FENOMIRASK_EVENT_ROOM, -FENOMIRASK_OUTSIDE_SIZE, "");
    expect_call("no state, no room", &bad, NULL, 0, 0, -FENOMIRASK_OUTSIDE_SIZE, "");
    fenomirask_fresh(&bad);
    expect_line(&bad, NULL, NO_LINES_END);
}

/* A line of so many bytes, its LF counted: the start, and more behind it as often as there is place. */
static void put_long_line(uint8_t *line, size_t bytes, const char *start, const char *more)
{
    size_t at = repeat(line, start, 1);
    at += repeat(line + at, more, (bytes - 1 - at) / strlen(more));
    at += repeat(line + at, "\n", 1);
    count(at == bytes, "a line's length", start, 0, (int64_t)at, (int64_t)bytes);
}

/* A line as long as a sheet may be is judged as any other. One byte more, LF or no LF, and it is refused as a sheet is,
 * before it is looked at and after the state. */
static void long_lines(void)
{
    static uint8_t line[2 * FENOMIRASK_SHEET_BYTES];
    const size_t full = FENOMIRASK_SHEET_BYTES;
    FenomiraskState s, bad;
    fenomirask_fresh(&s);
    memset(&bad, 0xAA, sizeof bad);
    memset(line, '\n', sizeof line);
    expect_line_refusal("as many LFs as a sheet may have", &s, line, full, FENOMIRASK_UNKNOWN_FORM);
    expect_refused("an LF too many", &s, line, full + 1, -FENOMIRASK_FULL);
    expect_refused("twice as many LFs", &s, line, 2 * full, -FENOMIRASK_FULL);
    memset(line, 'a', sizeof line);
    expect_line_refusal("as many bytes and no LF", &s, line, full, FENOMIRASK_UNKNOWN_FORM);
    expect_refused("a byte too many and no LF", &s, line, full + 1, -FENOMIRASK_FULL);
    expect_refused("twice as many bytes and no LF", &s, line, 2 * full, -FENOMIRASK_FULL);
    put_long_line(line, full, "a", "a");
    expect_line_refusal("an unknown word", &s, line, full, FENOMIRASK_UNKNOWN_FORM);
    expect_refused("no state, an unknown word", &bad, line, full, -FENOMIRASK_OUTSIDE_SIZE);
    put_long_line(line, full + 1, "a", "a");
    expect_refused("a byte too many, an unknown word", &s, line, full + 1, -FENOMIRASK_FULL);
    expect_refused("no state, a byte too many", &bad, line, full + 1, -FENOMIRASK_OUTSIDE_SIZE);
    put_long_line(line, full - 1, "head", "\t-");
    expect_line_refusal("a byte less, too many arguments", &s, line, full - 1, FENOMIRASK_FULL);
    put_long_line(line, full + 1, "head", "\t-");
    expect_refused("a byte too many, too many arguments", &s, line, full + 1, -FENOMIRASK_FULL);
    put_long_line(line, full, "temp\tm100\t1\th:1", ",h:1");
    expect_line_refusal("too many uses", &s, line, full, FENOMIRASK_FULL);
    put_long_line(line, full + 1, "temp\th\t1\th:1", ",h:1");
    expect_refused("a byte too many, too many uses", &s, line, full + 1, -FENOMIRASK_FULL);
    expect_line(&s, "perm\t1\n", "");
}

/* ---- States that are none */

static int is_within(uint32_t n, uint32_t least, uint32_t most)
{
    return least <= n && n <= most;
}

static int has(uint64_t set, unsigned n)
{
    return (set >> n & 1) != 0;
}

static int is_use(uint32_t use)
{
    uint32_t context = use / USE_WEIGHT;
    return is_within(use % USE_WEIGHT, 1, LAST_REGISTER) && (context == 0 || is_within(context, MIDDLE, LAST_CONTEXT));
}

/* Whether the members of a set are variables, and if wanted permanent ones. */
static int are_variables(const FenomiraskState *s, uint64_t set, int permanent)
{
    unsigned v;
    for (v = 0; v < FENOMIRASK_VARIABLES; v++)
        if (has(set, v) && (v >= s->counters.records || (permanent && s->records[v].kind == 0)))
            return 0;
    return 1;
}

/* Whether the header calls a state valid. */
static int is_valid(const FenomiraskState *s)
{
    const FenomiraskCounters *c = &s->counters;
    unsigned i, j;
    if (!is_within(c->arg_c, 1, LAST_COUNTER) || !is_within(c->temp_lb, 1, LAST_COUNTER)
        || !is_within(c->perm_lb, 1, LAST_COUNTER) || c->arity > LAST_REGISTER || c->in_tail_position > 1
        || c->records > FENOMIRASK_VARIABLES || c->events_seen > 1 || c->freed_registers > FENOMIRASK_FREED_REGISTERS
        || c->first_freed_slot >= FENOMIRASK_FREED_SLOTS || c->freed_slots > FENOMIRASK_FREED_SLOTS
        || c->open_branches > FENOMIRASK_OPEN_BRANCHES || has(c->in_use, 0))
        return 0;
    for (i = 0; i < c->records; i++) {
        const FenomiraskRecord *r = &s->records[i];
        if (r->kind > 1 || r->context > 2 || r->chunk > LAST_CHUNK || r->place > LAST_REGISTER || r->pending > 1
            || r->safety.code > 2 || r->deep.code > 2
            || (r->to_perm_var_num != FENOMIRASK_NO_VARIABLE && r->to_perm_var_num >= c->records)
            || r->num_occurrences > LAST_COUNT || r->running_count > LAST_COUNT || s->use_counts[i] > FENOMIRASK_USES
            || has(s->no_use[i], 0) || has(s->conflict[i], 0))
            return 0;
        for (j = 0; j < s->use_counts[i]; j++)
            if (!is_use(s->use_sets[i][j]))
                return 0;
    }
    for (i = 0; i < FENOMIRASK_REGISTERS; i++) {
        uint32_t v = s->mappings[i];
        if (v != FENOMIRASK_NO_VARIABLE && (v >= c->records || s->records[v].kind != 0))
            return 0;
    }
    for (i = 0; i < c->freed_registers; i++)
        if (!is_within(s->freed_registers[i], 1, LAST_REGISTER))
            return 0;
    for (i = 0; i < c->freed_slots; i++) {
        const FenomiraskFreedSlot *freed = &s->freed_slots[(c->first_freed_slot + i) % FENOMIRASK_FREED_SLOTS];
        if (freed->chunk > LAST_CHUNK || freed->variable >= c->records)
            return 0;
    }
    for (i = 0; i < c->open_branches; i++) {
        const FenomiraskBranchSets *sets = &s->branch_sets[i];
        if (s->branch_rows[i].num_branches > LAST_COUNT || s->branch_rows[i].current_branch_idx > LAST_COUNT
            || !are_variables(s, sets->shallow_safety, 0) || !are_variables(s, sets->deep_safety, 0)
            || !are_variables(s, sets->subsumed_hits, 1))
            return 0;
    }
    return 1;
}

/* The lines that a state is tried with in turn, NULL being the end. */
static const char *const tried[] = {"reset\n", "sets\n", "x\n", "take\n", "next\n", NULL};
enum { TRIED = sizeof tried / sizeof tried[0] };

/* Calls with a state that is valid or not; a valid one may refuse the line, but not for the state. */
static void expect_validity(const char *what, const FenomiraskState *state, int valid, unsigned turn)
{
    const char *line = tried[turn % TRIED];
    FenomiraskState s = *state;
    uint8_t text[FENOMIRASK_EVENT_ROOM];
    int kept;
    int64_t got = call(&s, line, line == NULL ? 0 : strlen(line), turn % 7 == 0 ? 0 : sizeof text,
                       (enum placement)(turn % PLACEMENTS), text, &kept);
    count(kept && (got == -FENOMIRASK_OUTSIDE_SIZE) == !valid, what, valid ? "a valid state" : "no valid state", turn,
          got, valid ? 0 : -FENOMIRASK_OUTSIDE_SIZE);
}

/* Numbers at the sizes and past them. */
static const uint32_t numbers[] = {
    0,
    1,
    2,
    3,
    FENOMIRASK_OPEN_BRANCHES,
    FENOMIRASK_OPEN_BRANCHES + 1,
    LAST_REGISTER,
    LAST_COUNTER,
    LAST_COUNTER + 1,
    FENOMIRASK_FREED_SLOTS - 1,
    FENOMIRASK_FREED_SLOTS,
    FENOMIRASK_FREED_SLOTS + 1,
    LAST_CHUNK,
    LAST_CHUNK + 1,
    LAST_COUNT,
    LAST_COUNT + 1,
    USE(LAST_CONTEXT, USE_WEIGHT - 1),
    USE(LAST_CONTEXT + 1, 0),
    USE(LAST_CONTEXT + 1, LAST_REGISTER),
    INT32_MAX,
    UINT32_MAX,
};
enum { NUMBERS = sizeof numbers / sizeof numbers[0] };

/* The bytes of a number, those that are no part of a state, and the numbers that a set may have. */
enum {
    NUMBER_BYTES = sizeof(uint32_t),
    GAP = offsetof(FenomiraskCounters, open_branches) + NUMBER_BYTES,
    SET_NUMBERS = 64
};

/* Whether the number at an offset is the half of a set. */
static int is_set(size_t at)
{
    return at == offsetof(FenomiraskState, counters.in_use)
           || (at >= offsetof(FenomiraskState, no_use) && at < offsetof(FenomiraskState, mappings))
           || at >= offsetof(FenomiraskState, branch_sets);
}

/* A state with one number changed. Returns the bytes of the number. */
static size_t spoilt(FenomiraskState *s, const FenomiraskState *good, size_t at, unsigned i)
{
    *s = *good;
    if (is_set(at)) {
        uint64_t set = i == 0 ? ~(uint64_t)1 : (uint64_t)1 << (i - 1) % SET_NUMBERS;
        memcpy((uint8_t *)s + at, &set, sizeof set);
        return sizeof set;
    }
    memcpy((uint8_t *)s + at, &numbers[i % NUMBERS], NUMBER_BYTES);
    return NUMBER_BYTES;
}

/* Every number of a state, changed to each of some values, alone. */
static void spoil_all(const char *what, const FenomiraskState *good)
{
    size_t at = 0, refused = 0, taken = 0;
    unsigned turn = 0;
    count(is_valid(good), what, "a state that is reached", 0, 0, 0);
    while (at < sizeof *good) {
        size_t bytes = NUMBER_BYTES;
        unsigned i;
        if (at == GAP) {
            at += NUMBER_BYTES;
            continue;
        }
        for (i = 0; i < NUMBERS; i++) {
            FenomiraskState s;
            int valid;
            bytes = spoilt(&s, good, at, i);
            valid = is_valid(&s);
            *(valid ? &taken : &refused) += 1;
            /* a value that does not matter is tried once in four times */
            if (!valid || (at / NUMBER_BYTES + turn) % 4 == 0 || i == NUMBERS - 1)
                expect_validity(what, &s, valid, turn);
            turn++;
        }
        at += bytes;
    }
    count(refused > LEAST_SPOILT && taken > LEAST_SPOILT, what, "states that are none", 0, (int64_t)refused, (int64_t)taken);
}

/* The last number that is inside its size and the first that is not, of each field that has a size. */
static void spoil_bounds(void)
{
#define AT(field) offsetof(FenomiraskState, field), #field
    /* Of the state that is spoilt: its variables, the first ones permanent, its freed registers, and the uses of variable 2. */
    enum { RECORDS = 6, PERMANENT = 2, FREED = 2, USES = 3 };
    static const struct {
        size_t at;
        const char *field;
        uint32_t inside, outside;
    } bounds[] = {
        {AT(counters.arg_c), 1, 0},
        {AT(counters.arg_c), LAST_COUNTER, LAST_COUNTER + 1},
        {AT(counters.temp_lb), 1, 0},
        {AT(counters.temp_lb), LAST_COUNTER, LAST_COUNTER + 1},
        {AT(counters.perm_lb), 1, 0},
        {AT(counters.perm_lb), LAST_COUNTER, LAST_COUNTER + 1},
        {AT(counters.arity), LAST_REGISTER, LAST_REGISTER + 1},
        {AT(counters.in_tail_position), 1, 2},
        {AT(counters.records), RECORDS, FENOMIRASK_VARIABLES + 1},
        {AT(counters.records), FENOMIRASK_VARIABLES, 1},
        {AT(counters.events_seen), 1, 2},
        {AT(counters.freed_registers), FREED, FREED + 1},
        {AT(counters.first_freed_slot), FENOMIRASK_FREED_SLOTS - 1, FENOMIRASK_FREED_SLOTS},
        {AT(counters.freed_slots), FENOMIRASK_FREED_SLOTS, FENOMIRASK_FREED_SLOTS + 1},
        {AT(counters.open_branches), FENOMIRASK_OPEN_BRANCHES, FENOMIRASK_OPEN_BRANCHES + 1},
        {AT(counters.in_use), 1 << 1, 1 << 0},
        {AT(records[0].kind), 1, 2},
        {AT(records[2].kind), 0, 1},
        {AT(records[2].context), 2, 3},
        {AT(records[2].chunk), LAST_CHUNK, LAST_CHUNK + 1},
        {AT(records[0].place), LAST_REGISTER, LAST_REGISTER + 1},
        {AT(records[0].pending), 1, 2},
        {AT(records[0].safety.code), 2, 3},
        {AT(records[0].deep.code), 2, 3},
        {AT(records[2].to_perm_var_num), RECORDS - 1, RECORDS},
        {AT(records[2].to_perm_var_num), FENOMIRASK_NO_VARIABLE, FENOMIRASK_NO_VARIABLE - 1},
        {AT(records[0].num_occurrences), LAST_COUNT, LAST_COUNT + 1},
        {AT(records[0].running_count), LAST_COUNT, LAST_COUNT + 1},
        {AT(use_sets[2][0]), USE(0, 1), USE(0, 0)},
        {AT(use_sets[2][0]), USE(0, LAST_REGISTER), USE(0, LAST_REGISTER + 1)},
        {AT(use_sets[2][0]), USE(MIDDLE, 1), USE(MIDDLE - 1, 1)},
        {AT(use_sets[2][0]), USE(LAST_CONTEXT, LAST_REGISTER), USE(LAST_CONTEXT + 1, 1)},
        {AT(use_counts[2]), USES, USES + 1},
        {AT(use_counts[2]), 0, FENOMIRASK_USES + 1},
        {AT(no_use[2]), 1 << 1, 1 << 0},
        {AT(conflict[2]), 1 << 1, 1 << 0},
        {AT(mappings[0]), RECORDS - 1, RECORDS},
        {AT(mappings[1]), FENOMIRASK_NO_VARIABLE, FENOMIRASK_NO_VARIABLE + 1},
        {AT(mappings[LAST_REGISTER]), PERMANENT, PERMANENT - 1},
        {AT(freed_registers[1]), 1, 0},
        {AT(freed_registers[1]), LAST_REGISTER, LAST_REGISTER + 1},
        {AT(branch_rows[0].num_branches), LAST_COUNT, LAST_COUNT + 1},
        {AT(branch_rows[0].current_branch_idx), LAST_COUNT, LAST_COUNT + 1},
        {AT(branch_sets[0].shallow_safety), (1 << RECORDS) - 1, 1 << RECORDS},
        {AT(branch_sets[0].deep_safety), (1 << RECORDS) - 1, 1 << RECORDS},
        {AT(branch_sets[0].subsumed_hits), (1 << PERMANENT) - 1, 1 << PERMANENT},
    };
    FenomiraskState good = reach(reached[1]), s;
    unsigned i, turn;
    for (i = 0; i < sizeof bounds / sizeof bounds[0]; i++)
        for (turn = 0; turn < TRIED; turn++) {
            s = good;
            memcpy((uint8_t *)&s + bounds[i].at, &bounds[i].inside, NUMBER_BYTES);
            expect_validity(bounds[i].field, &s, 1, turn);
            memcpy((uint8_t *)&s + bounds[i].at, &bounds[i].outside, NUMBER_BYTES);
            expect_validity(bounds[i].field, &s, 0, turn);
        }
}

static void spoilt_states(void)
{
    int i;
    spoil_bounds();
    for (i = 0; i < REACHED; i++) {
        FenomiraskState good = reach(reached[i]);
        char what[64];
        snprintf(what, sizeof what, "state %d, one number changed", i);
        spoil_all(what, &good);
    }
}

/* An event sheet line by line, as fenomirask_events answers it. */
static int64_t by_lines(const uint8_t *sheet, size_t sheet_bytes, uint8_t *out, size_t room)
{
    FenomiraskState state;
    uint8_t text[FENOMIRASK_EVENT_ROOM];
    size_t at = 0, line = 0, written = 0;
    int ended = 0;
    if (sheet_bytes > FENOMIRASK_SHEET_BYTES)
        return -FENOMIRASK_FULL;
    fenomirask_fresh(&state);
    while (!ended) {
        int64_t got;
        ended = at == sheet_bytes;
        if (ended) {
            got = fenomirask_end(&state, text, sizeof text);
        } else {
            size_t bytes = next_line(sheet, sheet_bytes, at) - at;
            got = fenomirask_event(&state, sheet + at, bytes, text, sizeof text);
            at += bytes;
            line++;
        }
        if (FENOMIRASK_REFUSED(got))
            return FENOMIRASK_LINE(got) == 1 ? refused_at(line, FENOMIRASK_REFUSAL(got)) : got;
        if (written + (size_t)got <= room)
            memcpy(out + written, text, (size_t)got);
        written += (size_t)got;
    }
    return written <= room ? (int64_t)written : -FENOMIRASK_NO_ROOM;
}

/* A sheet of a stream line by line, with guards: to the same answer, and no state is refused on the way. Each line that
 * prints something is given with too little room first, and at the end the state is spoilt here and there. */
static void expect_by_lines(const char *what, const struct function *f, const uint8_t *sheet, size_t sheet_bytes,
                            int64_t wanted)
{
    static uint8_t whole[LARGE_ROOM], text[LARGE_ROOM + 2 * FENOMIRASK_EVENT_ROOM];
    static unsigned turn;
    static size_t spoilt_at;
    FenomiraskState state, s;
    size_t at = 0, line = 0, written = 0, bytes;
    int64_t got = 0;
    int kept, i;
    if (sheet_bytes > FENOMIRASK_SHEET_BYTES)
        return;
    if (wanted >= 0 || wanted == -FENOMIRASK_NO_ROOM)
        wanted = f->answer(sheet, sheet_bytes, whole, sizeof whole);
    fenomirask_fresh(&state);
    while (at < sheet_bytes && written <= LARGE_ROOM) {
        bytes = next_line(sheet, sheet_bytes, at) - at;
        s = state;
        line++;
        got = call(&state, sheet + at, bytes, FENOMIRASK_EVENT_ROOM, (enum placement)(turn++ % PLACEMENTS),
                   text + written, &kept);
        count(kept && (got >= 0 || FENOMIRASK_LINE(got) == 1), what, "a line", line, got, 0);
        if (got > 0 && turn % 4 == 0) {
            uint8_t none[FENOMIRASK_EVENT_ROOM];
            int64_t short_got =
                call(&s, sheet + at, bytes, (size_t)got - 1, (enum placement)(turn % PLACEMENTS), none, &kept);
            count(kept && short_got == -FENOMIRASK_NO_ROOM, what, "a line, room", (size_t)got - 1, short_got,
                  -FENOMIRASK_NO_ROOM);
        }
        if (got < 0)
            break;
        written += (size_t)got;
        at += bytes;
    }
    if (got < 0) {
        got = refused_at(FENOMIRASK_LINE(got) + line - 1, FENOMIRASK_REFUSAL(got));
        count(got == wanted, what, "line by line", line, got, wanted);
        got = call(&state, NULL, 0, FENOMIRASK_EVENT_ROOM, AT_END, text, &kept);
        count(kept && got > 0, what, "the end after a refusal", 0, got, 0);
    } else {
        got =
            call(&state, NULL, 0, FENOMIRASK_EVENT_ROOM, (enum placement)(turn++ % PLACEMENTS), text + written, &kept);
        written += got < 0 ? 0 : (size_t)got;
        count(kept && got > 0 && (int64_t)written == wanted && memcmp(text, whole, written) == 0, what, "line by line",
              line, (int64_t)written, wanted);
    }
    for (i = 0; i < SPOILT_EACH; i++) {
        spoilt_at = (spoilt_at + NUMBER_BYTES * SPOILT_STEP) % sizeof state;
        if (spoilt_at == GAP || (is_set(spoilt_at) && spoilt_at % sizeof(uint64_t) != 0))
            continue;
        spoilt(&s, &state, spoilt_at, turn);
        expect_validity(what, &s, is_valid(&s), turn++);
    }
}

/* ---- Bundles */

static const char opening[] = "clause\n";
enum { OPENING = sizeof opening - 1 };

/* Whether a line has the word `clause`; with its LF, and whatever follows it. */
static int opens(const uint8_t *line, size_t bytes)
{
    return bytes >= OPENING && (memcmp(line, opening, OPENING) == 0 || memcmp(line, "clause\t", OPENING) == 0);
}

/* Where the lines from here on up to the next `clause` end. */
static size_t clause_end(const uint8_t *bundle, size_t bundle_bytes, size_t at)
{
    while (at < bundle_bytes && !opens(bundle + at, bundle_bytes - at))
        at = next_line(bundle, bundle_bytes, at);
    return at;
}

/* What a clause prints: the answer to its lines, or its `no` line. Returns the bytes. */
static size_t put_clause_text(const uint8_t *lines, size_t bytes, uint8_t *text)
{
    int64_t got = fenomirask_events(lines, bytes, text, LARGE_ROOM);
    count(!FENOMIRASK_REFUSED(got) || FENOMIRASK_LINE(got) > 0, "a clause is refused at a line", "events", LARGE_ROOM, got, 0);
    return FENOMIRASK_REFUSED(got)
               ? (size_t)sprintf((char *)text, "no\t%zu\t%d\n", FENOMIRASK_LINE(got), FENOMIRASK_REFUSAL(got))
               : (size_t)got;
}

/* A bundle that may not be refused but for the room: it prints what its clauses do, one call each. */
static void expect_clauses(const char *what, const uint8_t *bundle, size_t bundle_bytes)
{
    static uint8_t text[2 * LARGE_ROOM];
    size_t at = 0, bytes = 0;
    while (at < bundle_bytes && bytes <= LARGE_ROOM) {
        size_t from = at + OPENING;
        at = clause_end(bundle, bundle_bytes, from);
        bytes += put_clause_text(bundle + from, at - from, text + bytes);
    }
    count(at == bundle_bytes, what, "all clauses", LARGE_ROOM, (int64_t)at, (int64_t)bundle_bytes);
    expect_text(what, &functions[BUNDLE], bundle, bundle_bytes, bytes + FENOMIRASK_EVENT_ROOM, text, bytes);
    if (bytes > ROOM)
        expect(what, &functions[BUNDLE], bundle, bundle_bytes, ROOM, -FENOMIRASK_NO_ROOM, "");
}

/* Puts a clause of these lines at the end of a bundle. Returns its bytes then. */
static size_t put_clause(uint8_t *bundle, size_t bundle_bytes, const void *lines, size_t bytes)
{
    memcpy(bundle + bundle_bytes, opening, OPENING);
    if (bytes != 0)
        memcpy(bundle + bundle_bytes + OPENING, lines, bytes);
    return bundle_bytes + OPENING + bytes;
}

/* Whether a sheet may be a clause: its lines are whole, none has the word `clause`, and a bundle has place for them. */
static int may_be_clause(const uint8_t *sheet, size_t bytes)
{
    return bytes + OPENING <= FENOMIRASK_SHEET_BYTES && (bytes == 0 || sheet[bytes - 1] == '\n')
           && clause_end(sheet, bytes, 0) == bytes;
}

/* Two sheets as bundles: the first alone, both, and both in the other order. */
static void expect_as_clauses(const char *what, const uint8_t *one, size_t one_bytes, const uint8_t *other,
                              size_t other_bytes)
{
    static uint8_t bundle[2 * FENOMIRASK_SHEET_BYTES];
    size_t bytes;
    if (!may_be_clause(one, one_bytes))
        return;
    expect_clauses(what, bundle, put_clause(bundle, 0, one, one_bytes));
    if (!may_be_clause(other, other_bytes) || 2 * OPENING + one_bytes + other_bytes > FENOMIRASK_SHEET_BYTES)
        return;
    bytes = put_clause(bundle, 0, one, one_bytes);
    expect_clauses(what, bundle, put_clause(bundle, bytes, other, other_bytes));
    bytes = put_clause(bundle, 0, other, other_bytes);
    expect_clauses(what, bundle, put_clause(bundle, bytes, one, one_bytes));
}

/* Which refusal of a bundle comes first, and what is a clause's own line. */
static void bundle_lines(void)
{
    static const struct {
        const char *what, *bundle;
        int refusal;
    } refused[] = {
        {"an LF", "\n", FENOMIRASK_FORBIDDEN_ORDER},
        {"no clause", "perm\t1\n", FENOMIRASK_FORBIDDEN_ORDER},
        {"a line before the first clause", "perm\t1\nclause\n", FENOMIRASK_FORBIDDEN_ORDER},
        {"an empty line before the first clause", "\nclause\n", FENOMIRASK_FORBIDDEN_ORDER},
        {"a longer word first", "clauses\n", FENOMIRASK_FORBIDDEN_ORDER},
        {"a shorter word first", "claus\n", FENOMIRASK_FORBIDDEN_ORDER},
        {"a blank behind the first word", "clause \n", FENOMIRASK_FORBIDDEN_ORDER},
        {"a blank before the first word", " clause\n", FENOMIRASK_FORBIDDEN_ORDER},
        {"a CR behind the first word", "clause\r\nclause\n", FENOMIRASK_FORBIDDEN_ORDER},
        {"a capital first", "Clause\nclause\n", FENOMIRASK_FORBIDDEN_ORDER},
        {"an empty field first", "\tclause\n", FENOMIRASK_FORBIDDEN_ORDER},
        {"an empty field more", "clause\t\n", FENOMIRASK_UNKNOWN_FORM},
        {"a field more", "clause\t1\n", FENOMIRASK_UNKNOWN_FORM},
        {"fields more, behind a clause", "clause\nperm\t1\nclause\t1\t2\nclause\n", FENOMIRASK_UNKNOWN_FORM},
        {"a field more, behind a refused clause", "clause\nx\nclause\t\n", FENOMIRASK_UNKNOWN_FORM},
        {"a stray line before a field more", "x\nclause\t1\n", FENOMIRASK_FORBIDDEN_ORDER},
        {"a longer word before a field more", "clauses\nclause\t1\n", FENOMIRASK_FORBIDDEN_ORDER},
        {"`clause` without LF", "clause", FENOMIRASK_UNKNOWN_FORM},
        {"a field more without LF", "clause\t1", FENOMIRASK_UNKNOWN_FORM},
        {"a last line without LF", "clause\nperm\t1", FENOMIRASK_UNKNOWN_FORM},
        {"a last `clause` without LF", "clause\nclause", FENOMIRASK_UNKNOWN_FORM},
        {"a stray line without LF", "x", FENOMIRASK_UNKNOWN_FORM},
        {"a stray line, and the last without LF", "x\nclause\nreset", FENOMIRASK_UNKNOWN_FORM},
    };
    static const struct {
        const char *what, *bundle, *text;
    } answered[] = {
        {"no byte", "", ""},
        {"an empty clause", "clause\n", NO_LINES_END},
        {"two empty clauses", "clause\nclause\n", NO_LINES_END NO_LINES_END},
        {"an empty line", "clause\n\n", "no\t1\t1\n"},
        {"a longer word", "clause\nclauses\nclause\n", "no\t1\t1\n" NO_LINES_END},
        {"a shorter word", "clause\nclaus\nclause\n", "no\t1\t1\n" NO_LINES_END},
        {"a blank behind the word", "clause\nreset\nclause \nclause\n", "no\t2\t1\n" NO_LINES_END},
        {"a blank before the word", "clause\n clause\n", "no\t1\t1\n"},
        {"a CR behind the word", "clause\nclause\r\n", "no\t1\t1\n"},
        {"a capital", "clause\nClause\n", "no\t1\t1\n"},
        {"an empty field before the word", "clause\n\tclause\n", "no\t1\t1\n"},
        {"what is refused goes no further", "clause\nx\nperm\t1\nclause\nperm\t1\n", "no\t1\t1\n" NO_LINES_END},
        {"records behind another's events", "clause\nreset\nclause\nperm\t1\n", NO_LINES_END NO_LINES_END},
        {"another clause's variable", "clause\nperm\t1\nclause\nsafe\t0\n", NO_LINES_END "no\t1\t3\n"},
    };
    size_t i;
    for (i = 0; i < sizeof refused / sizeof refused[0]; i++) {
        const char *bundle = refused[i].bundle;
        expect_refusal(refused[i].what, &functions[BUNDLE], bundle, strlen(bundle), 0, refused[i].refusal);
    }
    for (i = 0; i < sizeof answered / sizeof answered[0]; i++) {
        const char *bundle = answered[i].bundle, *text = answered[i].text;
        expect_text(answered[i].what, &functions[BUNDLE], bundle, strlen(bundle), ROOM, text, strlen(text));
        expect_clauses(answered[i].what, (const uint8_t *)bundle, strlen(bundle));
    }
}

/* Bundles as long as they may be, and one byte more. */
static void long_bundles(void)
{
    static uint8_t bundle[2 * FENOMIRASK_SHEET_BYTES];
    const struct function *f = &functions[BUNDLE];
    const size_t full = FENOMIRASK_SHEET_BYTES, rest = full - OPENING;
    char refused[64];
    size_t bytes = (size_t)sprintf(refused, "no\t1\t%d\n", FENOMIRASK_FULL);
    memset(bundle, '\n', sizeof bundle);
    expect_refusal("a full bundle of LFs", f, bundle, full, 0, FENOMIRASK_FORBIDDEN_ORDER);
    expect_refusal("an LF too many", f, bundle, full + 1, 0, FENOMIRASK_FULL);
    expect_refusal("twice as many LFs", f, bundle, 2 * full, 0, FENOMIRASK_FULL);
    memset(bundle, 0xFF, sizeof bundle);
    expect_refusal("a full bundle and no LF", f, bundle, full, 0, FENOMIRASK_UNKNOWN_FORM);
    expect_refusal("a byte too many and no LF", f, bundle, full + 1, 0, FENOMIRASK_FULL);
    repeat(bundle, "clause\t1\n", 1);
    expect_refusal("a byte too many, a field more", f, bundle, full + 1, 0, FENOMIRASK_FULL);

    repeat(bundle, opening, 1);
    put_silent(bundle + OPENING, rest);
    expect_text("a full bundle of good lines", f, bundle, full, ROOM, TEXT(NO_LINES_END));
    expect_refusal("its last LF missing", f, bundle, full - 1, 0, FENOMIRASK_UNKNOWN_FORM);
    bundle[full] = '\n';
    expect_refusal("lines, a byte too many", f, bundle, full + 1, 0, FENOMIRASK_FULL);

    put_long_line(bundle + OPENING, rest, "head", "\t-");
    expect_text("a line as long as it may be, too many arguments", f, bundle, full, ROOM, refused, bytes);
    put_long_line(bundle + OPENING, rest, "temp\th\t1\th:1", ",h:1");
    expect_text("a line as long as it may be, too many uses", f, bundle, full, ROOM, refused, bytes);
    put_long_line(bundle, full, "clause\t", "-");
    expect_refusal("a `clause` line as long as it may be", f, bundle, full, 0, FENOMIRASK_UNKNOWN_FORM);
}

/* A clause that prints as much again with each of so many marks. Returns its bytes. */
static size_t put_printing(uint8_t *at, size_t marks)
{
    size_t bytes = (size_t)sprintf((char *)at, "%stemp\tl1\t%d\t-\nargs\t8\nvar\tq\td\tm1\t0\n", opening, LAST_COUNT);
    return bytes + repeat(at + bytes, "var\tf\td\th\t0\n", marks);
}

/* What such a clause prints with few marks, in bytes. */
static int64_t printed_by(size_t marks)
{
    uint8_t clause[256], text[1024];
    size_t bytes = put_printing(clause, marks);
    return fenomirask_events(clause + OPENING, bytes - OPENING, text, sizeof text);
}

/* How many lines there are. */
static size_t lines_of(const uint8_t *lines, size_t bytes)
{
    size_t at, number = 0;
    for (at = 0; at < bytes; at = next_line(lines, bytes, at))
        number++;
    return number;
}

/* Answers as long as a bundle may be, and longer; what a refused clause printed counts nowhere. */
static void long_bundle_answers(void)
{
    static uint8_t bundle[2 * FENOMIRASK_SHEET_BYTES], text[LARGE_ROOM];
    const struct function *f = &functions[BUNDLE];
    const size_t ends = ROOM / strlen(NO_LINES_END);
    const size_t marks = ROOM / (size_t)(printed_by(1) - printed_by(0)) + 1; /* they print more than ROOM */
    char late[64];
    size_t bytes, text_bytes;

    bytes = repeat(bundle, opening, ends);
    text_bytes = repeat(text, NO_LINES_END, ends);
    count(text_bytes == ROOM, "an answer's length", f->word, 0, (int64_t)text_bytes, ROOM);
    expect_text("as many empty clauses as have room", f, bundle, bytes, LARGE_ROOM, text, text_bytes);
    bytes = repeat(bundle, opening, ends + 1);
    text_bytes = repeat(text, NO_LINES_END, ends + 1);
    expect("one more", f, bundle, bytes, ROOM, -FENOMIRASK_NO_ROOM, "");
    expect_text("one more", f, bundle, bytes, LARGE_ROOM, text, text_bytes);
    bytes = repeat(bundle, opening, FENOMIRASK_SHEET_BYTES / OPENING);
    expect_clauses("as many clauses as there may be", bundle, bytes);

    bytes = put_printing(bundle, marks);
    expect_clauses("one clause that prints too much", bundle, bytes);
    expect_longer("one clause that prints too much", f, bundle, bytes);
    /* the clause has one line fewer than the bundle, and a further one is refused */
    sprintf(late, "no\t%zu\t%d\n%s", lines_of(bundle, bytes), FENOMIRASK_UNKNOWN_FORM, NO_LINES_END);
    bytes += repeat(bundle + bytes, "x\nclause\n", 1);
    expect_text("so one, refused at its end", f, bundle, bytes, ROOM, late, strlen(late));
    expect_text("so one, refused at its end", f, bundle, bytes, LARGE_ROOM, late, strlen(late));

    bytes = put_printing(bundle, marks);
    bytes += put_printing(bundle + bytes, marks * 2 / 3);
    bytes += repeat(bundle + bytes, "x\n", 1);
    expect_longer("too much, and a long clause refused at its end", f, bundle, bytes);
    expect_clauses("too much, and a long clause refused at its end", bundle, bytes);
    bytes += repeat(bundle + bytes, opening, 1);
    expect_clauses("the same, and a clause behind it", bundle, bytes);
    bytes = put_printing(bundle, marks * 2 / 3);
    bytes += repeat(bundle + bytes, "x\n", 1);
    bytes += put_printing(bundle + bytes, marks);
    expect_longer("a long clause refused at its end, and too much", f, bundle, bytes);
    expect_clauses("a long clause refused at its end, and too much", bundle, bytes);
}

/* Four clauses in each order: their answers stand in that order, whatever is before them. */
static void exchanged_clauses(void)
{
    static char crowded[64], crowded_ends[64];
    static const struct {
        const char *lines, *text;
    } clauses[] = {
        {"", NO_LINES_END},
        {first, first_ends},
        {"perm\t1\nreset\nperm\t1\n", "no\t3\t2\n"},
        {crowded, crowded_ends},
    };
    enum { CLAUSES = sizeof clauses / sizeof clauses[0], ORDERS = 1 << 2 * CLAUSES };
    unsigned order, orders = 0;
    sprintf(crowded, "open\t1\t2\t3\nargs\t%d\ngive\t5\n", LAST_REGISTER);
    sprintf(crowded_ends, "end\t%d\t0\n", LAST_COUNTER);
    for (order = 0; order < ORDERS; order++) {
        uint8_t bundle[1024], text[1024];
        size_t bytes = 0, text_bytes = 0, i;
        unsigned taken = 0;
        for (i = 0; i < CLAUSES; i++)
            taken |= 1U << (order >> 2 * i) % CLAUSES;
        if (taken != (1U << CLAUSES) - 1)
            continue;
        orders++;
        for (i = 0; i < CLAUSES; i++) {
            unsigned at = (order >> 2 * i) % CLAUSES;
            bytes = put_clause(bundle, bytes, clauses[at].lines, strlen(clauses[at].lines));
            text_bytes += repeat(text + text_bytes, clauses[at].text, 1);
        }
        expect_text("clauses in each order", &functions[BUNDLE], bundle, bytes, ROOM, text, text_bytes);
    }
    count(orders == 24, "clauses in each order", "orders", 0, orders, 24);
}

/* ---- Sheets of a stream */

struct sheet {
    const struct function *function;
    const uint8_t *sheet, *text;
    size_t sheet_bytes, text_bytes;
    int64_t wanted; /* with ROOM bytes of room */
};

struct stream {
    const char *path;
    struct sheet *sheets;
    size_t count;
};

static void malformed(const char *path, size_t number)
{
    printf("malformed: %s, sheet %zu\n", path, number);
    exit(1);
}

static uint8_t *read_all(const char *path, size_t *bytes)
{
    FILE *file = fopen(path, "rb");
    uint8_t *data = NULL;
    size_t room = 0, got;
    *bytes = 0;
    if (file == NULL) {
        perror(path);
        exit(2);
    }
    do {
        room = room * 2 + ROOM;
        data = realloc(data, room + 1);
        if (data == NULL) {
            perror(path);
            exit(2);
        }
        got = fread(data + *bytes, 1, room - *bytes, file);
        *bytes += got;
    } while (*bytes == room);
    fclose(file);
    data[*bytes] = 0;
    return data;
}

/* The number that a printed answer stands for. A bundle's answer may start with the `no` line of a clause, which is never on
 * line 0. */
static int64_t wanted_of(const struct function *f, const uint8_t *text, size_t bytes)
{
    const char *refused = f == &functions[BUNDLE] ? "no\t0\t" : "no\t";
    char told[32] = "";
    unsigned long line;
    int refusal;
    if (bytes < strlen(refused) || memcmp(text, refused, strlen(refused)) != 0)
        return (int64_t)bytes;
    memcpy(told, text, bytes < sizeof told ? bytes : sizeof told - 1);
    if (sscanf(told, "no\t%lu\t%d", &line, &refusal) != 2)
        return 0;
    return refused_at(line, refusal);
}

static struct stream read_stream(const char *path)
{
    struct stream stream = {path, NULL, 0};
    size_t bytes, at = 0;
    const uint8_t *data = read_all(path, &bytes);
    while (at < bytes) {
        char word[16];
        struct sheet one;
        int used = 0, i;
        if (sscanf((const char *)data + at, "%15[a-z]\t%zu\t%zu%n", word, &one.sheet_bytes, &one.text_bytes, &used) != 3
            || data[at + (size_t)used] != '\n')
            malformed(path, stream.count + 1);
        at += (size_t)used + 1;
        one.function = NULL;
        for (i = 0; i < FUNCTIONS; i++)
            if (strcmp(word, functions[i].word) == 0)
                one.function = &functions[i];
        if (one.function == NULL || one.sheet_bytes > bytes - at || one.text_bytes > bytes - at - one.sheet_bytes
            || (one.text_bytes == 0 && one.function != &functions[BUNDLE])
            || one.sheet_bytes > 2 * FENOMIRASK_SHEET_BYTES || one.text_bytes > ROOM)
            malformed(path, stream.count + 1);
        one.sheet = data + at;
        one.text = one.sheet + one.sheet_bytes;
        one.wanted = wanted_of(one.function, one.text, one.text_bytes);
        at += one.sheet_bytes + one.text_bytes;
        if ((stream.count & (stream.count - 1)) == 0)
            stream.sheets = realloc(stream.sheets, (2 * stream.count + 1) * sizeof one);
        if (stream.sheets == NULL) {
            perror(path);
            exit(2);
        }
        stream.sheets[stream.count++] = one;
    }
    return stream;
}

static void run_stream(const struct stream *stream)
{
    const struct sheet none = {&functions[EVENTS], (const uint8_t *)"", NULL, 0, 0, 0}, *last = &none;
    size_t i;
    for (i = 0; i < stream->count; i++) {
        const struct sheet *one = &stream->sheets[i];
        char what[64];
        snprintf(what, sizeof what, "sheet %zu of the stream", i + 1);
        if (one->wanted >= 0)
            expect_text(what, one->function, one->sheet, one->sheet_bytes, ROOM, one->text, one->text_bytes);
        else
            expect_refusal(what, one->function, one->sheet, one->sheet_bytes, FENOMIRASK_LINE(one->wanted),
                           FENOMIRASK_REFUSAL(one->wanted));
        if (one->wanted == -FENOMIRASK_NO_ROOM)
            expect_longer(what, one->function, one->sheet, one->sheet_bytes);
        if (one->function == &functions[BUNDLE] && (one->wanted >= 0 || one->wanted == -FENOMIRASK_NO_ROOM))
            expect_clauses(what, one->sheet, one->sheet_bytes);
        if (one->function == &functions[EVENTS]) {
            expect_by_lines(what, one->function, one->sheet, one->sheet_bytes, one->wanted);
            expect_as_clauses(what, one->sheet, one->sheet_bytes, last->sheet, last->sheet_bytes);
            last = one;
        }
    }
}

/* ---- Threads at once, each with no more stack than the header says */

/* An event sheet as the only clause of a bundle, where it may be one, as fenomirask_events answers it. */
static int64_t in_bundle(const uint8_t *sheet, size_t sheet_bytes, uint8_t *out, size_t room)
{
    uint8_t *bundle;
    int64_t got;
    if (!may_be_clause(sheet, sheet_bytes))
        return fenomirask_events(sheet, sheet_bytes, out, room);
    bundle = malloc(OPENING + sheet_bytes);
    if (bundle == NULL) {
        printf("tests: no memory\n");
        exit(2);
    }
    got = fenomirask_bundle(bundle, put_clause(bundle, 0, sheet, sheet_bytes), out, room);
    free(bundle);
    return got < 0 ? got : wanted_of(&functions[EVENTS], out, (size_t)got);
}

/* Whose sheets a thread takes, and how it gets the answers. */
static const struct work {
    const struct function *function;
    sheet_function *answer;
    size_t stack;
} works[] = {
    {&functions[EVENTS], fenomirask_events, FENOMIRASK_EVENTS_STACK},
    {&functions[CHECK], fenomirask_check, FENOMIRASK_CHECK_STACK},
    {&functions[BUNDLE], fenomirask_bundle, FENOMIRASK_BUNDLE_STACK},
    {&functions[EVENTS], by_lines, FENOMIRASK_EVENT_STACK},
    {&functions[EVENTS], in_bundle, FENOMIRASK_BUNDLE_STACK},
};
enum { WORKS = sizeof works / sizeof works[0] };

struct thread {
    const struct stream *stream;
    const struct work *work;
    uint8_t *out;
    size_t passed, failed;
};

static void *run_thread(void *lent)
{
    struct thread *thread = lent;
    size_t i;
    for (i = 0; i < thread->stream->count; i++) {
        const struct sheet *one = &thread->stream->sheets[i];
        int64_t got;
        if (one->function != thread->work->function)
            continue;
        got = thread->work->answer(one->sheet, one->sheet_bytes, thread->out, ROOM);
        if (got == one->wanted && (got < 0 || memcmp(thread->out, one->text, one->text_bytes) == 0))
            thread->passed++;
        else
            thread->failed++;
    }
    return NULL;
}

static void run_threads(const struct stream *stream)
{
    struct thread threads[WORKS * THREADS];
    pthread_t ids[WORKS * THREADS];
    int i;
    for (i = 0; i < WORKS * THREADS; i++) {
        struct thread fresh = {stream, &works[i % WORKS], malloc(ROOM), 0, 0};
        pthread_attr_t attributes;
        threads[i] = fresh;
        if (fresh.out == NULL || pthread_attr_init(&attributes) != 0
            || pthread_attr_setstacksize(&attributes, fresh.work->stack) != 0
            || pthread_create(&ids[i], &attributes, run_thread, &threads[i]) != 0) {
            printf("tests: no thread\n");
            exit(2);
        }
        pthread_attr_destroy(&attributes);
    }
    for (i = 0; i < WORKS * THREADS; i++) {
        pthread_join(ids[i], NULL);
        free(threads[i].out);
        passed += threads[i].passed;
        failed += threads[i].failed;
        if (threads[i].failed != 0)
            printf("failed: %zu sheets in thread %d\n", threads[i].failed, i + 1);
    }
}

int main(int words, char **paths)
{
    int i;
    sheets = new_area(2 * FENOMIRASK_SHEET_BYTES);
    rooms = new_area(LARGE_ROOM);
    states = new_area(sizeof(FenomiraskState));
    whole_sheets();
    spoilt_registers();
    fresh_states();
    fields();
    single_lines();
    long_lines();
    spoilt_states();
    bundle_lines();
    long_bundles();
    long_bundle_answers();
    exchanged_clauses();
    for (i = 1; i < words; i++) {
        struct stream stream = read_stream(paths[i]);
        run_stream(&stream);
        run_threads(&stream);
        printf("%zu sheets of a stream\n", stream.count);
    }
    printf("%zu passed, %zu failed\n", passed, failed);
    return failed != 0;
}
