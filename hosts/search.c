/* Asks the library for registers, with states at their ends, and compares each answer with a plain walk: rules 8.2, 8.3 and, with
 * nothing freed before, 8.5.
 *
 *     search [WALK]
 *
 * Every start of the search, argument counter and arity at their ends, and sets in use and to be avoided of many shapes: the
 * state is lent to `fenomirask_event` with a line that needs a register, and the walk tests the registers from `temp_lb` up one
 * by one. Compared are the text, what is put in use and `temp_lb`; where no register is left, the refusal and the whole state.
 * WALK names a walk that is wrong, `late`, `end` or `slots`, for those who want to see that it is told from the right one.
 *
 * Prints how many searches were compared, how many found a register, and how many differ, the first few of them with what was
 * asked and what came of it. Exit 1 where any differ, 2 where the words are none of these.
 */
#include <inttypes.h>
#include <stdio.h>
#include <string.h>

#include "fenomirask.h"

enum { MIDDLE = 32, LAST_REGISTER = FENOMIRASK_REGISTERS - 1, LAST_COUNTER = LAST_REGISTER + 1, NONE = 0 };
enum { FIRST_NEW_SLOT = MIDDLE + 1 }; /* so that the slots up to the middle have been given */
enum { SHOWN = 5 };

#define ONE(r) (UINT64_C(1) << (r))
#define FROM(r) (~UINT64_C(0) << (r)) /* r and all after it */
#define ALL FROM(1)
#define UP_TO(r) (ALL & ~(FROM(r) << 1))

/* What needs a register: a variable with a use, one without, chosen apart or not, or another term. */
enum kind { WITH_USE, APART, NOT_APART, OTHER_TERM, KINDS };
static const char *const records[KINDS] = {"temp\tl1\t9\tl1:32\n", "temp\tl1\t9\t-\n", "temp\tl1\t9\t-\n", "temp\tl1\t9\t-\n"};
static const char *const lines[KINDS] = {"var\tq\td\tl1\t0\n", "var\tq\td\tl1\t0\n", "var\tq\ts\tl1\t0\n", "anon\tq\td\tl1\n"};
enum { USED = MIDDLE }; /* the register of the use */

/* What a search is asked with. */
struct search {
    enum kind kind;
    uint32_t start, arg_c, arity;
    uint64_t in_use, no_use, conflict;
};

/* The walk, and what is wrong with it. */
static enum { RIGHT, LATE, END, SLOTS } walk = RIGHT;

static uint64_t compared, found, differ;

static int has(uint64_t set, uint32_t n)
{
    return (set >> n & 1) != 0;
}

/* ---- The walk */

static uint32_t last_argument(const struct search *s)
{
    return walk == END && s->arity > 0 ? s->arity - 1 : s->arity;
}

static int is_argument(const struct search *s, uint32_t r)
{
    return s->kind != OTHER_TERM && s->arg_c <= r && r <= last_argument(s);
}

static int is_in_set(const struct search *s, uint32_t r)
{
    return has(s->in_use, r) && !(walk == SLOTS && r < FIRST_NEW_SLOT);
}

static int is_avoided(const struct search *s, uint32_t r)
{
    switch (s->kind) {
    case WITH_USE:
    case APART:
        return has(s->no_use, r) || has(s->conflict, r);
    case NOT_APART:
        return has(s->no_use, r);
    default:
        return 0;
    }
}

/* The register of the use, or else the least that is free, or else NONE. */
static uint32_t walked(const struct search *s)
{
    if (s->kind == WITH_USE && !is_argument(s, USED) && !is_in_set(s, USED))
        return USED;
    for (uint32_t r = s->start + (walk == LATE); r <= LAST_REGISTER; r++)
        if (!is_argument(s, r) && !is_in_set(s, r) && !is_avoided(s, r))
            return r;
    return NONE;
}

/* ---- The call */

static int64_t call(FenomiraskState *state, const char *line, uint8_t *out)
{
    return fenomirask_event(state, (const uint8_t *)line, strlen(line), out, FENOMIRASK_EVENT_ROOM);
}

static void make_state(FenomiraskState *state, const struct search *s)
{
    uint8_t out[FENOMIRASK_EVENT_ROOM];
    fenomirask_fresh(state);
    call(state, records[s->kind], out);
    state->counters.temp_lb = s->start;
    state->counters.arg_c = s->arg_c;
    state->counters.arity = s->arity;
    state->counters.perm_lb = FIRST_NEW_SLOT;
    state->counters.in_use = s->in_use;
    state->no_use[0] = s->no_use;
    state->conflict[0] = s->conflict;
}

/* Whether two states have the same numbers. The bytes between the counters' last two are no part of a state. */
static int same_state(const FenomiraskState *a, const FenomiraskState *b)
{
    size_t gap = offsetof(FenomiraskCounters, open_branches) + sizeof a->counters.open_branches;
    size_t behind = offsetof(FenomiraskCounters, in_use);
    return memcmp(a, b, gap) == 0
           && memcmp((const uint8_t *)a + behind, (const uint8_t *)b + behind, sizeof *a - behind) == 0;
}

static size_t put_text(char *text, size_t room, const struct search *s, uint32_t r)
{
    int bytes = s->kind == NOT_APART
                    ? snprintf(text, room, "put_variable\tx%" PRIu32 "\t%" PRIu32 "\nat\tx%" PRIu32 "\n", r, s->arg_c, r)
                    : snprintf(text, room, "set_variable\tx%" PRIu32 "\nat\tx%" PRIu32 "\n", r, r);
    return (size_t)bytes;
}

/* Whether an answer and what the call left are those of the register. */
static int is_chosen(const struct search *s, uint32_t r, int64_t answer, const uint8_t *out, const FenomiraskState *after)
{
    char text[FENOMIRASK_EVENT_ROOM];
    size_t bytes = put_text(text, sizeof text, s, r);
    return answer == (int64_t)bytes && memcmp(out, text, bytes) == 0 && after->counters.in_use == (s->in_use | ONE(r))
           && after->counters.temp_lb == (s->kind == OTHER_TERM ? r + 1 : s->start);
}

static int is_refused(int64_t answer, const FenomiraskState *before, const FenomiraskState *after)
{
    return FENOMIRASK_REFUSED(answer) && FENOMIRASK_LINE(answer) == 1
           && FENOMIRASK_REFUSAL(answer) == FENOMIRASK_NO_REGISTER && same_state(before, after);
}

/* A text in one line. */
static void show_text(const char *text, size_t bytes)
{
    for (size_t i = 0; i < bytes; i++)
        if (text[i] == '\n')
            fputs(" / ", stdout);
        else
            putchar(text[i] == '\t' ? ' ' : text[i]);
}

static void show(const struct search *s, uint32_t r, int64_t answer, const uint8_t *out, const FenomiraskState *after)
{
    show_text(records[s->kind], strlen(records[s->kind]));
    show_text(lines[s->kind], strlen(lines[s->kind]));
    printf("temp_lb %" PRIu32 ", arg_c %" PRIu32 ", arity %" PRIu32 ", in use %016" PRIx64 ", no-use %016" PRIx64
           ", conflict %016" PRIx64 ": the walk finds %" PRIu32 "; the answer is %" PRId64 " ",
           s->start, s->arg_c, s->arity, s->in_use, s->no_use, s->conflict, r, answer);
    if (!FENOMIRASK_REFUSED(answer))
        show_text((const char *)out, (size_t)answer);
    printf("and leaves temp_lb %" PRIu32 ", in use %016" PRIx64 "\n", after->counters.temp_lb, after->counters.in_use);
}

static void compare(const struct search *s)
{
    FenomiraskState before, after;
    uint8_t out[FENOMIRASK_EVENT_ROOM];
    uint32_t r = walked(s);
    make_state(&before, s);
    after = before;
    int64_t answer = call(&after, lines[s->kind], out);
    int same = r == NONE ? is_refused(answer, &before, &after) : is_chosen(s, r, answer, out, &after);
    compared++;
    found += r != NONE;
    differ += !same;
    if (!same && differ <= SHOWN)
        show(s, r, answer, out, &after);
}

/* ---- The ends */

static const uint32_t counters[] = {1, 2, MIDDLE, LAST_REGISTER - 1, LAST_REGISTER, LAST_COUNTER};
static const uint32_t arities[] = {0, 1, 2, MIDDLE, LAST_REGISTER - 1, LAST_REGISTER};
static const uint64_t sets[] = {
    0,
    ONE(1),
    ONE(2),
    ONE(MIDDLE),
    ONE(LAST_REGISTER - 1),
    ONE(LAST_REGISTER),
    ALL,
    ALL & ~ONE(1),
    ALL & ~ONE(2),
    ALL & ~ONE(MIDDLE),
    ALL & ~ONE(LAST_REGISTER - 1),
    ALL & ~ONE(LAST_REGISTER),
    FROM(3),
    FROM(MIDDLE),
    FROM(MIDDLE + 1),
    FROM(LAST_REGISTER - 1),
    UP_TO(2),
    UP_TO(MIDDLE),
    UP_TO(LAST_REGISTER - 2),
    UINT64_C(0x5555555555555554), /* every second, from 2 */
    UINT64_C(0xaaaaaaaaaaaaaaaa), /* every second, from 1 */
};
#define COUNT(array) (sizeof(array) / sizeof(array)[0])

/* Sets that change from search to search: a number that goes round (Knuth's), without bit 0. */
static uint64_t next_set(void)
{
    static uint64_t state = 1;
    state = state * UINT64_C(6364136223846793005) + UINT64_C(1442695040888963407);
    return (state ^ state >> 29) & ALL;
}

/* At level `s` a mark takes an argument: with the counter at its end it is refused before any search. */
static int may_be_asked(const struct search *s)
{
    return s->kind != NOT_APART || s->arg_c < LAST_COUNTER;
}

static void compare_sets(struct search s)
{
    for (size_t i = 0; i < COUNT(sets); i++) {
        s.in_use = sets[i];
        s.no_use = sets[(i + s.start) % COUNT(sets)];
        s.conflict = 0;
        compare(&s);
        s.no_use = 0;
        s.conflict = sets[(i + s.arg_c) % COUNT(sets)];
        compare(&s);
        s.no_use = next_set() & next_set();
        s.conflict = next_set() & next_set() & next_set();
        compare(&s);
        s.in_use = next_set() & next_set();
        compare(&s);
    }
}

static int read_words(int count, char **words)
{
    static const char *const names[] = {"", "late", "end", "slots"};
    if (count == 1)
        return 1;
    for (int i = LATE; count == 2 && i <= SLOTS; i++)
        if (strcmp(words[1], names[i]) == 0) {
            walk = i;
            return 1;
        }
    return 0;
}

int main(int count, char **words)
{
    if (!read_words(count, words)) {
        fputs("search: the words are `late`, `end` or `slots`, or none\n", stderr);
        return 2;
    }
    for (int kind = 0; kind < KINDS; kind++)
        for (uint32_t start = 1; start <= LAST_COUNTER; start++)
            for (size_t i = 0; i < COUNT(counters); i++)
                for (size_t j = 0; j < COUNT(arities); j++) {
                    struct search s = {kind, start, counters[i], arities[j], 0, 0, 0};
                    if (may_be_asked(&s))
                        compare_sets(s);
                }
    printf("%" PRIu64 " searches compared, %" PRIu64 " found a register, %" PRIu64 " differ\n", compared, found, differ);
    return differ != 0;
}
