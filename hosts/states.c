/* Gives event sheets line by line to the library, and shows the state that each leaves.
 *
 *     states
 *
 * Standard input holds sheets in frames: a decimal byte count, an LF, and so many bytes. For each a frame is written with what
 * `oracle --state` prints of the sheet, as oracle/README.md says: its answer and its final state, or its refusal. Exit 2 where
 * the input holds no frames, or the output cannot be written.
 */
#define _POSIX_C_SOURCE 200809L
#include <inttypes.h>
#include <stdio.h>
#include <stdlib.h>
#include <string.h>

#include "fenomirask.h"

enum {
    MOST_BYTES = 1 << 20,         /* of a sheet that is read, and room for every answer */
    ROOM = FENOMIRASK_SHEET_BYTES /* the room that the judge lends for an answer */
};

/* The codes of a state, as the header has them in words. */
enum { TEMPORARY, PERMANENT };
enum { HEAD, MID, LAST };
enum { DONE, PENDING };
enum { NEEDED, LOCALLY_UNNEEDED, GLOBALLY_UNNEEDED };
/* A use has its register in the lowest byte, its chunk in the next, and above them the code of its context. */
enum { BYTE = 256 };

static uint8_t sheet[MOST_BYTES], out[MOST_BYTES];
static FILE *text; /* what is shown of one sheet */

static void stop(const char *reason)
{
    fprintf(stderr, "states: %s\n", reason);
    exit(2);
}

/* ---- Fields and lists */

static void put_field(uint32_t n)
{
    fprintf(text, "\t%" PRIu32, n);
}

static void put_line(const char *word, uint32_t n)
{
    fprintf(text, "%s\t%" PRIu32 "\n", word, n);
}

/* What stands before an entry of a list that has so many before it. */
static void put_before_entry(uint32_t entries)
{
    fputc(entries == 0 ? '\t' : ',', text);
}

/* What stands for a list, where it has no entries. */
static void put_if_empty(uint32_t entries)
{
    if (entries == 0)
        fputs("\t-", text);
}

static void put_set(uint64_t set)
{
    uint32_t entries = 0;
    for (uint32_t n = 0; set != 0; n++, set >>= 1)
        if (set & 1) {
            put_before_entry(entries++);
            fprintf(text, "%" PRIu32, n);
        }
    put_if_empty(entries);
}

/* ---- Records */

static void put_context(uint32_t context, uint32_t chunk)
{
    if (context == HEAD)
        fputc('h', text);
    else
        fprintf(text, "%c%" PRIu32, context == MID ? 'm' : 'l', chunk);
}

static void put_uses(const uint32_t *uses, uint32_t count)
{
    for (uint32_t i = 0; i < count; i++) {
        uint32_t context = uses[i] / BYTE;
        put_before_entry(i);
        put_context(context / BYTE, context % BYTE);
        fprintf(text, ":%" PRIu32, uses[i] % BYTE);
    }
    put_if_empty(count);
}

static void put_safety(FenomiraskSafety safety)
{
    if (safety.code == LOCALLY_UNNEEDED)
        fprintf(text, "\tlocal:%" PRIu32 ":%" PRIu32, safety.start, safety.span);
    else
        fputs(safety.code == NEEDED ? "\tneeded" : "\tglobal", text);
}

static void put_variable(uint32_t variable)
{
    if (variable == FENOMIRASK_NO_VARIABLE)
        fputs("\t-", text);
    else
        put_field(variable);
}

static void put_temporary(const FenomiraskRecord *record)
{
    fputc('\t', text);
    put_context(record->context, record->chunk);
    put_field(record->place);
    put_safety(record->safety);
    put_variable(record->to_perm_var_num);
}

static void put_permanent(const FenomiraskRecord *record)
{
    put_field(record->place);
    if (record->pending == PENDING) {
        fputs("\tpending\t-\t-", text);
        return;
    }
    fputs("\tdone", text);
    put_safety(record->safety);
    put_safety(record->deep);
}

static void put_record(const FenomiraskState *state, uint32_t variable)
{
    const FenomiraskRecord *record = &state->records[variable];
    int is_temporary = record->kind == TEMPORARY;
    fputs(is_temporary ? "temp" : "perm", text);
    put_field(variable);
    if (is_temporary)
        put_temporary(record);
    else
        put_permanent(record);
    put_field(record->num_occurrences);
    put_field(record->running_count);
    if (is_temporary) {
        put_uses(state->use_sets[variable], state->use_counts[variable]);
        put_set(state->no_use[variable]);
        put_set(state->conflict[variable]);
    }
    fputc('\n', text);
}

/* ---- The other tables */

static void put_counters(const FenomiraskCounters *counters)
{
    put_line("arg_c", counters->arg_c);
    put_line("temp_lb", counters->temp_lb);
    put_line("perm_lb", counters->perm_lb);
    put_line("arity", counters->arity);
    put_line("tail", counters->in_tail_position);
}

static void put_registers(const FenomiraskState *state)
{
    for (uint32_t r = 0; r < FENOMIRASK_REGISTERS; r++)
        if (state->mappings[r] != FENOMIRASK_NO_VARIABLE)
            fprintf(text, "mapping\t%" PRIu32 "\t%" PRIu32 "\n", r, state->mappings[r]);
    fputs("in_use", text);
    put_set(state->counters.in_use);
    fputs("\nfreed_registers", text);
    for (uint32_t i = 0; i < state->counters.freed_registers; i++) {
        put_before_entry(i);
        fprintf(text, "%" PRIu32, state->freed_registers[i]);
    }
    put_if_empty(state->counters.freed_registers);
    fputc('\n', text);
}

static void put_freed_slots(const FenomiraskState *state)
{
    const FenomiraskCounters *counters = &state->counters;
    fputs("freed_slots", text);
    for (uint32_t i = 0; i < counters->freed_slots; i++) {
        FenomiraskFreedSlot slot = state->freed_slots[(counters->first_freed_slot + i) % FENOMIRASK_FREED_SLOTS];
        put_before_entry(i);
        fprintf(text, "%" PRIu32 ":%" PRIu32, slot.chunk, slot.variable);
    }
    put_if_empty(counters->freed_slots);
    fputc('\n', text);
}

static void put_branch(const FenomiraskBranchRow *row, const FenomiraskBranchSets *sets)
{
    fputs("branch", text);
    put_field(row->start);
    put_field(row->span);
    put_field(row->num_branches);
    put_field(row->current_branch_idx);
    put_set(sets->shallow_safety);
    put_set(sets->deep_safety);
    put_set(sets->subsumed_hits);
    fputc('\n', text);
}

static void put_state(const FenomiraskState *state)
{
    for (uint32_t variable = 0; variable < state->counters.records; variable++)
        put_record(state, variable);
    put_counters(&state->counters);
    put_registers(state);
    put_freed_slots(state);
    for (uint32_t i = 0; i < state->counters.open_branches; i++)
        put_branch(&state->branch_rows[i], &state->branch_sets[i]);
}

/* ---- Sheets */

static void put_refusal(size_t line, int64_t answer)
{
    fprintf(text, "no\t%zu\t%d\n", line, FENOMIRASK_REFUSAL(answer));
}

/* Gives a sheet to a fresh clause line by line, and shows what comes of it. Length and room are the whole sheet's: by lines a
 * clause may have more (rule 17.8), so these two refusals are asked of the whole sheet. */
static void show_sheet(size_t sheet_bytes)
{
    static FenomiraskState state;
    size_t written = 0, line = 0, line_bytes;
    int64_t answer = fenomirask_events(sheet, sheet_bytes, out, ROOM);
    if (FENOMIRASK_REFUSED(answer) && FENOMIRASK_LINE(answer) == 0) {
        put_refusal(0, answer);
        return;
    }
    fenomirask_fresh(&state);
    for (size_t at = 0; at < sheet_bytes; at += line_bytes) {
        const uint8_t *feed = memchr(sheet + at, '\n', sheet_bytes - at);
        line_bytes = feed == NULL ? sheet_bytes - at : (size_t)(feed - (sheet + at)) + 1;
        line++;
        answer = fenomirask_event(&state, sheet + at, line_bytes, out + written, sizeof out - written);
        if (FENOMIRASK_REFUSED(answer)) {
            put_refusal(FENOMIRASK_LINE(answer) == 0 ? 0 : line, answer);
            return;
        }
        written += (size_t)answer;
    }
    answer = fenomirask_end(&state, out + written, sizeof out - written);
    if (FENOMIRASK_REFUSED(answer)) {
        put_refusal(0, answer);
        return;
    }
    fwrite(out, 1, written + (size_t)answer, text);
    put_state(&state);
}

static void write_frame(size_t sheet_bytes)
{
    char *shown;
    size_t shown_bytes;
    if ((text = open_memstream(&shown, &shown_bytes)) == NULL)
        stop("there is no memory");
    show_sheet(sheet_bytes);
    if (fclose(text) != 0)
        stop("there is no memory");
    printf("%zu\n", shown_bytes);
    fwrite(shown, 1, shown_bytes, stdout);
    free(shown);
}

int main(void)
{
    size_t sheet_bytes;
    int found;
    while ((found = scanf("%zu", &sheet_bytes)) == 1) {
        if (getchar() != '\n' || sheet_bytes > sizeof sheet || fread(sheet, 1, sheet_bytes, stdin) != sheet_bytes)
            stop("the input holds no frames, or one that is too long");
        write_frame(sheet_bytes);
    }
    if (found != EOF || ferror(stdin))
        stop("the input holds no frames, or did not come whole");
    if (fflush(stdout) != 0 || ferror(stdout))
        stop("the output cannot be written");
    return 0;
}
