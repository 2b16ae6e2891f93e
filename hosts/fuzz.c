/* A target for libFuzzer: two builds of the library answer each input, and are held to the header and to each other.
 *
 * fenomirask_* is the library as every host links it. watched_* is the same module, compiled once more with a counter on
 * each edge and a check of each access; tests/fuzz makes it, and says with FUNCTION what is called: EVENTS, CHECK, BUNDLE or
 * LINE.
 *
 * An input is two bytes of room, the lower first, and a sheet. Where that is given line by line, a line of eight bytes
 * that starts with byte 0 also spoils a number of the state: two bytes are its place, four the number.
 */
#include <stdio.h>
#include <stdlib.h>
#include <string.h>

#include "fenomirask.h"

#define HOLD(condition) \
    ((condition) ? (void)0 : (fprintf(stderr, "fuzz.c:%d: does not hold: %s\n", __LINE__, #condition), abort()))
#define BUILD(watched, name) ((watched) ? watched_##name : fenomirask_##name)

extern __typeof__(fenomirask_events) watched_events, watched_check, watched_bundle;
extern __typeof__(fenomirask_fresh) watched_fresh;
extern __typeof__(fenomirask_event) watched_event;
extern __typeof__(fenomirask_end) watched_end;
extern int LLVMFuzzerTestOneInput(const uint8_t *input, size_t bytes);

enum { HEAD_BYTES = 2, SPOIL_BYTES = 8, NUMBERS = sizeof(FenomiraskState) / sizeof(uint32_t) };
enum { OPENING = sizeof "clause\n" - 1 };
enum { ONE_FILL = 0x35, OTHER_FILL = 0xca, INVALID = -FENOMIRASK_OUTSIDE_SIZE };
enum { LINE_WEIGHT = 16 }; /* the header's: a refusal is -(16 * line + number) */

/* A call, and what it was answered. */
typedef struct Call {
    enum { EVENTS, CHECK, BUNDLE, LINE, END } function;
    const uint8_t *sheet;
    size_t bytes, lines;
    FenomiraskState state;
    int64_t number;
    uint8_t *out;
} Call;

/* The four bytes before `in_use` are no part of a state. */
static int same_state(const FenomiraskState *one, const FenomiraskState *other)
{
    size_t from = offsetof(FenomiraskState, counters.in_use);
    return memcmp(one, other, from - sizeof(uint32_t)) == 0 &&
           memcmp((const char *)one + from, (const char *)other + from, sizeof *one - from) == 0;
}

/* Where a call is repeated, the library's frames lie on these bytes: no answer may come from what lay there. */
__attribute__((noinline, no_sanitize("address"))) static void fill_stack(uint8_t fill)
{
    uint8_t stack[FENOMIRASK_BUNDLE_STACK];
    memset(stack, fill, sizeof stack);
    __asm__ volatile("" : : "r"(stack) : "memory");
}

/* A call, each part in so many bytes and not one more, held to what the header promises of it alone. */
static Call answered(Call call, int watched, size_t room, uint8_t fill)
{
    uint8_t *sheet = memcpy(malloc(call.bytes), call.sheet, call.bytes), *out = memset(malloc(room), fill, room);
    FenomiraskState *state = memcpy(malloc(sizeof *state), &call.state, sizeof *state);
    if (fill == OTHER_FILL)
        fill_stack(fill);
    int64_t number = call.function == EVENTS   ? BUILD(watched, events)(sheet, call.bytes, out, room)
                     : call.function == CHECK  ? BUILD(watched, check)(sheet, call.bytes, out, room)
                     : call.function == BUNDLE ? BUILD(watched, bundle)(sheet, call.bytes, out, room)
                     : call.function == LINE   ? BUILD(watched, event)(state, sheet, call.bytes, out, room)
                                               : BUILD(watched, end)(state, out, room);
    HOLD(number <= (int64_t)room && memcmp(sheet, call.sheet, call.bytes) == 0);
    if (FENOMIRASK_REFUSED(number)) {
        HOLD(FENOMIRASK_REFUSAL(number) >= FENOMIRASK_UNKNOWN_FORM && FENOMIRASK_REFUSAL(number) <= FENOMIRASK_NO_ROOM);
        HOLD(FENOMIRASK_LINE(number) <= call.lines && same_state(state, &call.state));
    }
    size_t from = FENOMIRASK_REFUSED(number) ? 0 : (size_t)number;
    HOLD(from == room || (out[from] == fill && memcmp(out + from, out + from + 1, room - from - 1) == 0));
    call.number = number;
    call.out = out;
    call.state = *state;
    free(state);
    free(sheet);
    return call;
}

/* Counts the lines of a call. Returns the room that its answer needs at most. */
static size_t most_room(Call *call)
{
    call->lines = call->bytes > 0 && call->sheet[call->bytes - 1] != '\n';
    for (size_t at = 0; at < call->bytes; at++)
        call->lines += call->sheet[at] == '\n';
    return FENOMIRASK_EVENT_ROOM * (call->lines + (call->function != LINE));
}

/* The answer with as much room as can be needed; both builds repeat it, and with the input's room as far as that will do.
 * A line, of which there are many, is repeated once by each build. */
static Call held(Call call, size_t room)
{
    size_t most = most_room(&call);
    Call answer = answered(call, 1, most, ONE_FILL);
    HOLD(answer.number != -FENOMIRASK_NO_ROOM);
    for (int turn = 0; turn < 4; turn += call.function < LINE ? 1 : 3) {
        size_t lent = turn % 2 ? most : room;
        int fits = answer.number <= (int64_t)lent;
        Call again = answered(call, turn < 2, lent, turn % 2 ? OTHER_FILL : ONE_FILL);
        HOLD(again.number == (fits ? answer.number : -FENOMIRASK_NO_ROOM));
        HOLD(FENOMIRASK_REFUSED(again.number) || memcmp(again.out, answer.out, (size_t)again.number) == 0);
        HOLD(same_state(&again.state, fits ? &answer.state : &call.state));
        free(again.out);
    }
    return answer;
}

/* Line by line an event sheet is answered as it is whole, up to the first line that is refused. */
static void hold_lines(const Call *whole, size_t room)
{
    Call call = {.function = LINE, .sheet = whole->sheet};
    int64_t line = 1, written = 0, refused = 0, valid = 1;
    FenomiraskState fresh;
    fenomirask_fresh(memset(&call.state, ONE_FILL, sizeof call.state));
    watched_fresh(memset(&fresh, OTHER_FILL, sizeof fresh));
    HOLD(same_state(&fresh, &call.state));
    for (size_t left = whole->bytes; call.function == LINE; left -= call.bytes, line++) {
        const uint8_t *feed = memchr(call.sheet += call.bytes, '\n', left);
        call.function = left > 0 ? LINE : END;
        call.bytes = feed == NULL ? left : (size_t)(feed + 1 - call.sheet);
        int spoils = call.bytes == SPOIL_BYTES && call.sheet[0] == 0;
        if (spoils)
            memcpy((uint32_t *)&call.state + (call.sheet[1] | call.sheet[2] << 8) % NUMBERS, call.sheet + 3, sizeof(uint32_t));
        call = held(call, room % (FENOMIRASK_EVENT_ROOM + 1));
        valid = spoils ? call.number != INVALID : valid;
        HOLD(valid ? call.number >= 0 || FENOMIRASK_LINE(call.number) > 0 : call.number == INVALID);
        if (refused == 0 && FENOMIRASK_REFUSED(call.number))
            refused = -LINE_WEIGHT * line - (spoils ? FENOMIRASK_UNKNOWN_FORM : FENOMIRASK_REFUSAL(call.number));
        HOLD(refused != 0 || whole->number < 0 || memcmp(whole->out + written, call.out, (size_t)call.number) == 0);
        written += call.number;
        free(call.out);
    }
    HOLD(whole->number == (refused == 0 ? written : refused));
}

/* Whether the line that starts with these bytes has the word `clause`. */
static int opens(const uint8_t *line, size_t left)
{
    return left >= OPENING && (memcmp(line, "clause\n", OPENING) == 0 || memcmp(line, "clause\t", OPENING) == 0);
}

/* Of whole lines the bytes of those before the first with the word `clause`. */
static size_t until_clause(const uint8_t *lines, size_t bytes)
{
    size_t at = 0;
    while (at < bytes && !opens(lines + at, bytes - at))
        at = (size_t)((const uint8_t *)memchr(lines + at, '\n', bytes - at) + 1 - lines);
    return at;
}

/* The refusal of a bundle that has all the room it needs, or 0. */
static int wrong_with(const uint8_t *bundle, size_t bytes)
{
    if (bytes > FENOMIRASK_SHEET_BYTES)
        return FENOMIRASK_FULL;
    if (bytes > 0 && bundle[bytes - 1] != '\n')
        return FENOMIRASK_UNKNOWN_FORM;
    if (until_clause(bundle, bytes) > 0)
        return FENOMIRASK_FORBIDDEN_ORDER;
    for (size_t at = 0; at < bytes; at += until_clause(bundle + at, bytes - at)) {
        at += OPENING;
        if (bundle[at - 1] != '\n')
            return FENOMIRASK_UNKNOWN_FORM;
    }
    return 0;
}

/* A bundle is refused as a whole, or answered as its clauses are, one call each; a refused one with its `no` line. */
static void hold_clauses(const Call *whole)
{
    int64_t written = 0;
    int wrong = wrong_with(whole->sheet, whole->bytes);
    HOLD(wrong == 0 ? whole->number >= 0 : whole->number == -wrong);
    for (size_t at = 0; wrong == 0 && at < whole->bytes;) {
        Call clause = {.function = EVENTS, .sheet = whole->sheet + at + OPENING};
        clause.bytes = until_clause(clause.sheet, whole->bytes - at - OPENING);
        clause = answered(clause, 0, most_room(&clause), ONE_FILL);
        if (FENOMIRASK_REFUSED(clause.number)) {
            size_t line = FENOMIRASK_LINE(clause.number);
            int refusal = FENOMIRASK_REFUSAL(clause.number);
            HOLD(line > 0);
            clause.number = snprintf((char *)clause.out, FENOMIRASK_EVENT_ROOM, "no\t%zu\t%d\n", line, refusal);
        }
        HOLD(clause.number <= whole->number - written);
        HOLD(memcmp(whole->out + written, clause.out, (size_t)clause.number) == 0);
        written += clause.number;
        at += OPENING + clause.bytes;
        free(clause.out);
    }
    HOLD(wrong != 0 || whole->number == written);
}

/* The register that a check sheet that is answered names last as `x` and a number; 1 where there is none. */
static unsigned long last_register(const Call *whole)
{
    size_t at = whole->bytes;
    while (at > 0 && whole->sheet[at - 1] != 'x')
        at--;
    return at == 0 ? 1 : strtoul((const char *)whole->sheet + at, NULL, 10);
}

/* What a register held before a call must not matter: the answer stays the same where, under the first step after each call,
 * another register is copied over it. A step that is full already refuses the copy. */
static void hold_spoilt(const Call *whole)
{
    enum { CALL = sizeof "call\n" - 1 };
    char copy[64];
    unsigned long lost = last_register(whole), other = lost % (FENOMIRASK_REGISTERS - 1) + 1;
    size_t copy_bytes = (size_t)snprintf(copy, sizeof copy, "get_variable\tx%lu\t%lu\n", lost, other);
    uint8_t *sheet = malloc(whole->bytes + whole->lines * copy_bytes);
    Call copied = {.function = CHECK, .sheet = sheet};
    int calls = 0;
    for (size_t at = 0, bytes; at < whole->bytes; at += bytes) {
        const uint8_t *line = whole->sheet + at;
        bytes = (size_t)((const uint8_t *)memchr(line, '\n', whole->bytes - at) + 1 - line);
        memcpy(sheet + copied.bytes, line, bytes);
        copied.bytes += bytes;
        int behind_call = calls;
        calls = bytes == CALL && memcmp(line, "call\n", CALL) == 0;
        if (behind_call && !calls) {
            memcpy(sheet + copied.bytes, copy, copy_bytes);
            copied.bytes += copy_bytes;
        }
    }
    size_t room = most_room(&copied);
    copied = answered(copied, 0, room, ONE_FILL);
    HOLD(FENOMIRASK_REFUSED(copied.number) ? FENOMIRASK_REFUSAL(copied.number) == FENOMIRASK_FULL
                                           : memcmp(copied.out, whole->out, FENOMIRASK_CHECK_ROOM) == 0);
    free(copied.out);
    free(sheet);
}

int LLVMFuzzerTestOneInput(const uint8_t *input, size_t bytes)
{
    if (bytes < HEAD_BYTES)
        return -1;
    Call call = {.function = FUNCTION == LINE ? EVENTS : FUNCTION, .sheet = input + HEAD_BYTES, .bytes = bytes - HEAD_BYTES};
    size_t room = input[0] + 256u * input[1];
    call = held(call, room);
    size_t last = call.number > 0 ? (size_t)call.number - 1 : 0;
    while (last > 0 && call.out[last - 1] != '\n')
        last--;
    if (!FENOMIRASK_REFUSED(call.number) && call.function == EVENTS)
        HOLD(memcmp(call.out + last, "end\t", 4) == 0);
    if (!FENOMIRASK_REFUSED(call.number) && call.function == CHECK) {
        HOLD(call.number == FENOMIRASK_CHECK_ROOM);
        HOLD(memcmp(call.out, "accepted\n", FENOMIRASK_CHECK_ROOM) == 0 ||
             memcmp(call.out, "rejected\n", FENOMIRASK_CHECK_ROOM) == 0);
        hold_spoilt(&call);
    }
    if (FUNCTION == LINE && call.bytes <= FENOMIRASK_SHEET_BYTES)
        hold_lines(&call, room);
    if (FUNCTION == BUNDLE)
        hold_clauses(&call);
    free(call.out);
    return 0;
}
