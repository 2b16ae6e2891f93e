/* An example of a host: answers a sheet from a file or from standard input.
 *
 *     example events|lines|check|bundle [FILE]
 *
 * `lines` answers an event sheet as `events` does, but gives it line by line, as a host does that has no sheet.
 * Prints the answer, or the line and the refusal in words; exit 0 with an answer, 1 with a refusal, 2 with neither. The
 * answer to a bundle is one even where a clause of it is refused.
 */
#include <stdio.h>
#include <string.h>

#include "fenomirask.h"

enum { LINE_WEIGHT = 16 }; /* of the header: a refusal is -(16 * line + its number) */

static const char *const refusals[] = {
    "", /* there is no refusal 0 */
    "form: the line's word is unknown, it has too many or too few fields or one that is malformed, or its LF is missing",
    "order: the line may not stand where it does",
    "size: a number is too large or too small, or no record has the number of the variable",
    "the original would stop here",
    "no register up to 63 can be chosen",
    "no slot up to 63 is left",
    "full: the sheet, a list, a table or a count is at its limit",
    "a mark came where the original holds that none can",
    "room: the answer is longer than the room for it",
};

/* One byte more than a sheet may have: a longer one is read so far, and refused by the library. */
static uint8_t sheet[FENOMIRASK_SHEET_BYTES + 1];
static uint8_t out[1 << 20];

/* The answer to an event sheet, as that of fenomirask_events. */
static int64_t lines(const uint8_t *sheet, size_t sheet_bytes, uint8_t *out, size_t out_bytes)
{
    static FenomiraskState state;
    size_t at = 0, line = 0, written = 0;
    int64_t answer;
    if (sheet_bytes > FENOMIRASK_SHEET_BYTES)
        return -FENOMIRASK_FULL; /* a clause may have any number of lines; a sheet has only so many bytes */
    fenomirask_fresh(&state);
    while (at < sheet_bytes) {
        const uint8_t *feed = memchr(sheet + at, '\n', sheet_bytes - at);
        size_t line_bytes = feed == NULL ? sheet_bytes - at : (size_t)(feed - (sheet + at)) + 1;
        line++;
        answer = fenomirask_event(&state, sheet + at, line_bytes, out + written, out_bytes - written);
        if (FENOMIRASK_REFUSED(answer))
            return FENOMIRASK_LINE(answer) == 1 ? -(int64_t)(LINE_WEIGHT * line) - FENOMIRASK_REFUSAL(answer) : answer;
        written += (size_t)answer;
        at += line_bytes;
    }
    answer = fenomirask_end(&state, out + written, out_bytes - written);
    return FENOMIRASK_REFUSED(answer) ? answer : (int64_t)written + answer;
}

static const struct {
    const char *word;
    int64_t (*answer)(const uint8_t *sheet, size_t sheet_bytes, uint8_t *out, size_t out_bytes);
} modes[] = {
    {"events", fenomirask_events},
    {"lines", lines},
    {"check", fenomirask_check},
    {"bundle", fenomirask_bundle},
};
enum { MODES = sizeof modes / sizeof modes[0] };

int main(int count, char **words)
{
    FILE *file = stdin;
    size_t sheet_bytes;
    int64_t answer;
    int mode = 0;

    while (count >= 2 && mode < MODES && strcmp(words[1], modes[mode].word) != 0)
        mode++;
    if (count < 2 || count > 3 || mode == MODES) {
        fprintf(stderr, "usage: example events|lines|check|bundle [FILE]\n");
        return 2;
    }
    if (count == 3 && (file = fopen(words[2], "rb")) == NULL) {
        perror(words[2]);
        return 2;
    }
    sheet_bytes = fread(sheet, 1, sizeof sheet, file);
    if (ferror(file)) {
        perror("example");
        return 2;
    }
    answer = modes[mode].answer(sheet, sheet_bytes, out, sizeof out);
    if (FENOMIRASK_REFUSED(answer))
        printf("line %zu: %s\n", FENOMIRASK_LINE(answer), refusals[FENOMIRASK_REFUSAL(answer)]);
    else
        fwrite(out, 1, (size_t)answer, stdout);
    if (fflush(stdout) != 0 || ferror(stdout)) {
        perror("example");
        return 2;
    }
    return FENOMIRASK_REFUSED(answer) ? 1 : 0;
}
