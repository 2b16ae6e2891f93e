/* Fenomirask for a C host: the static library libfenomirask.a, x86-64.
 *
 * Fenomirask chooses the registers for Prolog clauses, and checks that compiled instructions put each variable where it
 * belongs. What a sheet is, and what each answer means, is in docs/RULES.md; sections 17 and 23 there are about this library.
 *
 * Every function takes parts of memory that the host lends for the time of the call, each as a pointer and a count of
 * bytes. The host sees to it that
 *
 *   - so many bytes may be read there, and at `out` also written;
 *   - no lent part overlaps another that is written;
 *   - no pointer is null, even where the count is 0: any pointer to an object of the host will do then;
 *   - nobody else writes to a lent part, nor reads one that is written, during the call.
 *
 * In return nothing else is read or written but the caller's stack. The library keeps no pointer past the call, has no
 * global state, takes no memory from a heap, makes no system call, and every call ends: any number of threads may call
 * at once, each with parts of its own.
 * It needs memcpy and memset from the host's C library, nothing else.
 */
#ifndef FENOMIRASK_H
#define FENOMIRASK_H

#include <stddef.h>
#include <stdint.h>

#ifdef __cplusplus
extern "C" {
#endif

/* ---- Answers
 *
 * An answer that is not negative is the count of bytes written to the start of `out`; the bytes past them are as they
 * were. A negative answer is a refusal, -(16 * line + refusal), and every byte of `out` is as it was. Lines count from
 * 1; line 0 stands for the whole sheet or bundle. In a sheet the first bad line decides, and in a line the order is that of
 * rule 4.12. A call with one line counts it as line 1; there line 0 stands for the state, the length or the room.
 */

/* Whether an answer is a refusal. */
#define FENOMIRASK_REFUSED(answer) ((answer) < 0)

/* The line of a refusal, from 1, or 0 for the whole sheet. Only for an answer that is a refusal. */
#define FENOMIRASK_LINE(answer) ((size_t)(-(answer) / 16))

/* The number of a refusal, one of FenomiraskRefusal. Only for an answer that is a refusal. */
#define FENOMIRASK_REFUSAL(answer) ((int)(-(answer) % 16))

/* The refusal numbers: rules 4.1 to 4.9. */
enum FenomiraskRefusal {
    /* form: the line's word is unknown, it has too many or too few fields or one that is malformed, or its LF is missing */
    FENOMIRASK_UNKNOWN_FORM = 1,
    /* order: the line may not stand where it does */
    FENOMIRASK_FORBIDDEN_ORDER = 2,
    /* size: a number is too large or too small, or no record has the number of the variable */
    FENOMIRASK_OUTSIDE_SIZE = 3,
    /* the original would stop here: `arm` or `take` while no branch is open; `close` of more branches than are open, or of a
     * temporary; an occurrence to be recorded past the last arm; `safe` of a variable that is Pending */
    FENOMIRASK_RUST_STOPS = 4,
    /* no register up to 63 can be chosen */
    FENOMIRASK_NO_REGISTER = 5,
    /* no slot up to 63 is left */
    FENOMIRASK_NO_SLOT = 6,
    /* full: the sheet, a list, a table or a count is at its limit */
    FENOMIRASK_FULL = 7,
    /* a mark came where the original holds that none can: never given, as is proved */
    FENOMIRASK_UNREACHABLE_MARK = 8,
    /* room: the answer is longer than the room for it; found last, so a sheet that is refused otherwise never meets it */
    FENOMIRASK_NO_ROOM = 9
};

/* ---- Sizes */

enum {
    /* A sheet or bundle that is longer is refused, FENOMIRASK_FULL on line 0. */
    FENOMIRASK_SHEET_BYTES = 65536,
    /* The answer to a check sheet, `accepted` or `rejected` and an LF. */
    FENOMIRASK_CHECK_ROOM = 9,
    /* No event prints more, nor does fenomirask_end. */
    FENOMIRASK_EVENT_ROOM = 256,
    /* A thread with so much stack may call. fenomirask_events takes about 350 KB of it, for a short sheet too,
     * fenomirask_check about 75, fenomirask_bundle about 360, and fenomirask_event as much as fenomirask_events; a thread
     * that may call it may call fenomirask_fresh and fenomirask_end. Look at what your threads have: with musl a thread
     * has 128 KiB unless it asks for more (pthread_attr_setstacksize), which is enough for fenomirask_check alone. */
    FENOMIRASK_EVENTS_STACK = 393216,
    FENOMIRASK_CHECK_STACK = 98304,
    FENOMIRASK_BUNDLE_STACK = 393216,
    FENOMIRASK_EVENT_STACK = 393216,

    /* Variables of a clause, numbered from 0. */
    FENOMIRASK_VARIABLES = 64,
    /* In the place of a variable's number: no variable. */
    FENOMIRASK_NO_VARIABLE = 64,
    /* Uses of one variable. */
    FENOMIRASK_USES = 16,
    /* Registers and slots are 1 to 63; a table with a place for each starts with a place for 0. */
    FENOMIRASK_REGISTERS = 64,
    /* Entries of the list of freed registers, and of the queue of freed slots. */
    FENOMIRASK_FREED_REGISTERS = 64,
    FENOMIRASK_FREED_SLOTS = 128,
    /* Branches open at a time. */
    FENOMIRASK_OPEN_BRANCHES = 16
};

/* ---- Whole sheets */

/* The answer to an event sheet: the instructions and registers of its events, and its `end` line.
 * Where it is FENOMIRASK_NO_ROOM, the same sheet with more room is answered; answers may be longer than sheets. */
int64_t fenomirask_events(const uint8_t *sheet, size_t sheet_bytes, uint8_t *out, size_t out_bytes);

/* The answer to a check sheet: `accepted` or `rejected`, and an LF. A `call` reads its arguments and then leaves an arbitrary
 * number in every register; what is needed after it has to stand in a slot. */
int64_t fenomirask_check(const uint8_t *sheet, size_t sheet_bytes, uint8_t *out, size_t out_bytes);

/* The answer to a bundle, in which a line `clause` begins each clause: for each in turn the answer of fenomirask_events to
 * its lines alone, the line after `clause` being line 1. A clause that is refused is answered with one line in place of
 * that, `no`, the line and the refusal's number, with tabs between, and the next one goes on. An empty bundle is answered with
 * no byte, which is 0; a clause without lines with `end`.
 *
 * A bundle is refused as a whole or not at all, on line 0: in this order FENOMIRASK_FULL, where it has more bytes than
 * FENOMIRASK_SHEET_BYTES; FENOMIRASK_UNKNOWN_FORM, where its last byte is no LF; FENOMIRASK_FORBIDDEN_ORDER, where a line
 * stands before the first whose word is `clause`; FENOMIRASK_UNKNOWN_FORM, where a `clause` line has more fields; and
 * FENOMIRASK_NO_ROOM, where the answers of all clauses together are longer than the lent part. Of a clause that is refused
 * only its `no` line counts there. */
int64_t fenomirask_bundle(const uint8_t *sheet, size_t sheet_bytes, uint8_t *out, size_t out_bytes);

/* ---- The state of a clause
 *
 * A host that makes its events one after another keeps a FenomiraskState, and does not write a sheet first:
 *
 *     FenomiraskState state;
 *     uint8_t out[FENOMIRASK_EVENT_ROOM];
 *     fenomirask_fresh(&state);
 *     for each line of the clause, with its LF:
 *         answer = fenomirask_event(&state, line, line_bytes, out, sizeof out);
 *     answer = fenomirask_end(&state, out, sizeof out);
 *
 * The texts, one after another, are the answer of fenomirask_events to the lines as a sheet, save that a sheet has at
 * most FENOMIRASK_SHEET_BYTES and a clause any number of lines. A refused line changes nothing, so the host may give
 * another instead. The state is the host's own memory: it may be copied to try a line and be put back, kept on disk, or
 * moved, and fenomirask_fresh makes a clause of it again.
 *
 * A host needs to know no field. They are named for those that look at a state or keep it: each is a number or a set of
 * numbers, and the library refuses, with FENOMIRASK_OUTSIDE_SIZE on line 0 and before all else, what is no state. A
 * valid state is one in which
 *
 *   - every counter is as said below;
 *   - so is every number of a table, as far as the table counts: the rows of the variables 0 to records - 1 (in them
 *     as many uses as use_counts says), every mapping, the first freed_registers of the list, the freed_slots entries
 *     from first_freed_slot on, and the first open_branches of the branches;
 *   - what names a variable names one below records.
 *
 * What lies past a count is not looked at; every number of 32 bits will do there, and for `start`, `span` and `unused`
 * everywhere. What fenomirask_fresh makes is valid, and so is what fenomirask_event leaves of a valid state.
 *
 * A set is a word of 64 bits: it has the number n if bit n is 1, counted from the lowest.
 */

/* Whether a value in a variable may lie on the stack, so that handing it on has to be guarded. */
typedef struct FenomiraskSafety {
    /* 0 it may (Needed); 1 not within the branch that guarded it last (LocallyUnneeded); 2 nowhere
     * (GloballyUnneeded) */
    uint32_t code;
    /* that branch, where the code is 1, else 0; any number */
    uint32_t start;
    uint32_t span;
} FenomiraskSafety;

/* The record of a variable. */
typedef struct FenomiraskRecord {
    /* 0 temporary, 1 permanent */
    uint32_t kind;
    /* of a temporary, where its term stands: 0 in the head, 1 in the middle of a chunk, 2 in its last goal; else 0 */
    uint32_t context;
    /* that chunk, 0 to 255; 0 in the head */
    uint32_t chunk;
    /* the register of a temporary, the slot of a permanent variable, 1 to 63; 0 where it has none */
    uint32_t place;
    /* of a permanent variable: 0 Done, 1 Pending, that is not begun, freed, or waiting for the next arm; with a slot or
     * with none; else 0 */
    uint32_t pending;
    /* of a temporary its safety, of a permanent variable that as an argument */
    FenomiraskSafety safety;
    /* of a permanent variable its safety as a subterm */
    FenomiraskSafety deep;
    /* of a temporary: the permanent variable that it was moved to, or FENOMIRASK_NO_VARIABLE */
    uint32_t to_perm_var_num;
    /* its occurrences, and the running count of them, 0 to 65,535 */
    uint32_t num_occurrences;
    uint32_t running_count;
    /* any numbers; they stay as they are */
    uint32_t unused[2];
} FenomiraskRecord;

/* An entry of the queue of freed slots. */
typedef struct FenomiraskFreedSlot {
    /* the chunk in which the slot was freed, 0 to 255 */
    uint32_t chunk;
    /* the variable whose slot it was */
    uint32_t variable;
} FenomiraskFreedSlot;

/* An open branch, its numbers. */
typedef struct FenomiraskBranchRow {
    /* the branch's number; any number */
    uint32_t start;
    uint32_t span;
    /* its arms, and the index of the current one from 0, 0 to 65,535 */
    uint32_t num_branches;
    uint32_t current_branch_idx;
} FenomiraskBranchRow;

/* An open branch, its sets of variables. */
typedef struct FenomiraskBranchSets {
    /* those that have to be guarded after it, as an argument and as a subterm */
    uint64_t shallow_safety;
    uint64_t deep_safety;
    /* those that its current arm recorded; permanent variables alone */
    uint64_t subsumed_hits;
} FenomiraskBranchSets;

/* The numbers that are no table. Between open_branches and in_use lie four bytes that are no part of the state. */
typedef struct FenomiraskCounters {
    /* the counter of arguments, 1 to 64 */
    uint32_t arg_c;
    /* the register from which a free one is searched, and the next new slot, 1 to 64 */
    uint32_t temp_lb;
    uint32_t perm_lb;
    /* the arguments of the head, 0 to 63; 0 from the first goal on */
    uint32_t arity;
    /* 1 in tail position, else 0 */
    uint32_t in_tail_position;
    /* variables of the clause so far, 0 to 64 */
    uint32_t records;
    /* 0 as long as lines of variables are allowed, 1 from the first other line on */
    uint32_t events_seen;
    /* entries of the list of freed registers, 0 to 64 */
    uint32_t freed_registers;
    /* where the queue of freed slots starts, 0 to 127, and its entries, 0 to 128 */
    uint32_t first_freed_slot;
    uint32_t freed_slots;
    /* branches that are open, 0 to 16 */
    uint32_t open_branches;
    /* the registers in use; a set without 0 */
    uint64_t in_use;
} FenomiraskCounters;

/* The state of a clause. */
typedef struct FenomiraskState {
    FenomiraskCounters counters;
    /* a record for each variable */
    FenomiraskRecord records[FENOMIRASK_VARIABLES];
    /* the uses of each variable in order: 256 * context + register, the register 1 to 63, the context 0 in the head,
     * 256 + chunk in the middle of a chunk, 512 + chunk in its last goal */
    uint32_t use_sets[FENOMIRASK_VARIABLES][FENOMIRASK_USES];
    /* how many of them count, 0 to 16 */
    uint32_t use_counts[FENOMIRASK_VARIABLES];
    /* of each variable: registers that it should not take, and those of its conflicts; sets without 0 */
    uint64_t no_use[FENOMIRASK_VARIABLES];
    uint64_t conflict[FENOMIRASK_VARIABLES];
    /* the temporary whose value stands in each register, or FENOMIRASK_NO_VARIABLE; entry 0, which is no register's,
     * is tested too */
    uint32_t mappings[FENOMIRASK_REGISTERS];
    /* a list with its last at the end: registers, 1 to 63 */
    uint32_t freed_registers[FENOMIRASK_FREED_REGISTERS];
    /* a queue that goes round: after entry 127 comes entry 0 */
    FenomiraskFreedSlot freed_slots[FENOMIRASK_FREED_SLOTS];
    /* the open branches, the outermost at 0 */
    FenomiraskBranchRow branch_rows[FENOMIRASK_OPEN_BRANCHES];
    FenomiraskBranchSets branch_sets[FENOMIRASK_OPEN_BRANCHES];
} FenomiraskState;

/* The library's own layout: a compiler that lays a state out otherwise refuses this header. */
#if defined(__cplusplus) && __cplusplus >= 201103L
#define FENOMIRASK_HOLDS(name, condition) static_assert(condition, #name)
#elif !defined(__cplusplus) && defined(__STDC_VERSION__) && __STDC_VERSION__ >= 201112L
#define FENOMIRASK_HOLDS(name, condition) _Static_assert(condition, #name)
#else
#define FENOMIRASK_HOLDS(name, condition) typedef char fenomirask_holds_##name[(condition) ? 1 : -1]
#endif
#define FENOMIRASK_SIZE(type, bytes) FENOMIRASK_HOLDS(type##_bytes, sizeof(type) == (bytes))
#define FENOMIRASK_FIELD(type, field, at) FENOMIRASK_HOLDS(type##_##field, offsetof(type, field) == (at))

FENOMIRASK_SIZE(FenomiraskSafety, 12);
FENOMIRASK_FIELD(FenomiraskSafety, code, 0);
FENOMIRASK_FIELD(FenomiraskSafety, start, 4);
FENOMIRASK_FIELD(FenomiraskSafety, span, 8);

FENOMIRASK_SIZE(FenomiraskRecord, 64);
FENOMIRASK_FIELD(FenomiraskRecord, kind, 0);
FENOMIRASK_FIELD(FenomiraskRecord, context, 4);
FENOMIRASK_FIELD(FenomiraskRecord, chunk, 8);
FENOMIRASK_FIELD(FenomiraskRecord, place, 12);
FENOMIRASK_FIELD(FenomiraskRecord, pending, 16);
FENOMIRASK_FIELD(FenomiraskRecord, safety, 20);
FENOMIRASK_FIELD(FenomiraskRecord, deep, 32);
FENOMIRASK_FIELD(FenomiraskRecord, to_perm_var_num, 44);
FENOMIRASK_FIELD(FenomiraskRecord, num_occurrences, 48);
FENOMIRASK_FIELD(FenomiraskRecord, running_count, 52);
FENOMIRASK_FIELD(FenomiraskRecord, unused, 56);

FENOMIRASK_SIZE(FenomiraskFreedSlot, 8);
FENOMIRASK_FIELD(FenomiraskFreedSlot, chunk, 0);
FENOMIRASK_FIELD(FenomiraskFreedSlot, variable, 4);

FENOMIRASK_SIZE(FenomiraskBranchRow, 16);
FENOMIRASK_FIELD(FenomiraskBranchRow, start, 0);
FENOMIRASK_FIELD(FenomiraskBranchRow, span, 4);
FENOMIRASK_FIELD(FenomiraskBranchRow, num_branches, 8);
FENOMIRASK_FIELD(FenomiraskBranchRow, current_branch_idx, 12);

FENOMIRASK_SIZE(FenomiraskBranchSets, 24);
FENOMIRASK_FIELD(FenomiraskBranchSets, shallow_safety, 0);
FENOMIRASK_FIELD(FenomiraskBranchSets, deep_safety, 8);
FENOMIRASK_FIELD(FenomiraskBranchSets, subsumed_hits, 16);

FENOMIRASK_SIZE(FenomiraskCounters, 56);
FENOMIRASK_FIELD(FenomiraskCounters, arg_c, 0);
FENOMIRASK_FIELD(FenomiraskCounters, temp_lb, 4);
FENOMIRASK_FIELD(FenomiraskCounters, perm_lb, 8);
FENOMIRASK_FIELD(FenomiraskCounters, arity, 12);
FENOMIRASK_FIELD(FenomiraskCounters, in_tail_position, 16);
FENOMIRASK_FIELD(FenomiraskCounters, records, 20);
FENOMIRASK_FIELD(FenomiraskCounters, events_seen, 24);
FENOMIRASK_FIELD(FenomiraskCounters, freed_registers, 28);
FENOMIRASK_FIELD(FenomiraskCounters, first_freed_slot, 32);
FENOMIRASK_FIELD(FenomiraskCounters, freed_slots, 36);
FENOMIRASK_FIELD(FenomiraskCounters, open_branches, 40);
FENOMIRASK_FIELD(FenomiraskCounters, in_use, 48);

FENOMIRASK_SIZE(FenomiraskState, 11704);
FENOMIRASK_FIELD(FenomiraskState, counters, 0);
FENOMIRASK_FIELD(FenomiraskState, records, 56);
FENOMIRASK_FIELD(FenomiraskState, use_sets, 4152);
FENOMIRASK_FIELD(FenomiraskState, use_counts, 8248);
FENOMIRASK_FIELD(FenomiraskState, no_use, 8504);
FENOMIRASK_FIELD(FenomiraskState, conflict, 9016);
FENOMIRASK_FIELD(FenomiraskState, mappings, 9528);
FENOMIRASK_FIELD(FenomiraskState, freed_registers, 9784);
FENOMIRASK_FIELD(FenomiraskState, freed_slots, 10040);
FENOMIRASK_FIELD(FenomiraskState, branch_rows, 11064);
FENOMIRASK_FIELD(FenomiraskState, branch_sets, 11320);

#undef FENOMIRASK_FIELD
#undef FENOMIRASK_SIZE
#undef FENOMIRASK_HOLDS

/* ---- One line at a time
 *
 * The state is lent as every part is, and has to stand where a FenomiraskState may. */

/* Makes a fresh clause of the state, whatever was there: no bytes of it are looked at. */
void fenomirask_fresh(FenomiraskState *state);

/* The answer to one line of an event sheet, its LF included: what its event prints, often nothing.
 *
 * The refusals are, in this order, FENOMIRASK_OUTSIDE_SIZE on line 0, where the state is not valid; FENOMIRASK_FULL on
 * line 0, where the bytes are more than FENOMIRASK_SHEET_BYTES, LF or no LF; the line's own on line 1, of which
 * FENOMIRASK_UNKNOWN_FORM also where the LF is missing or anything stands after it; and FENOMIRASK_NO_ROOM on line 0,
 * which never comes with FENOMIRASK_EVENT_ROOM bytes. A refusal leaves the state, as well as `out`, as it was. */
int64_t fenomirask_event(FenomiraskState *state, const uint8_t *line, size_t line_bytes, uint8_t *out,
                         size_t out_bytes);

/* The `end` line of the clause as it is. The state is only read, so that further lines may follow. Refused where the
 * state is not valid, FENOMIRASK_OUTSIDE_SIZE on line 0, and where room is missing, FENOMIRASK_NO_ROOM on line 0. */
int64_t fenomirask_end(const FenomiraskState *state, uint8_t *out, size_t out_bytes);

#ifdef __cplusplus
}
#endif

#endif
