/* Says the records of a GFF3 text while it still comes by standard input, each as soon as its line has ended: column 1, start, end and
 * column 9. A line that is refused or too long is said on standard error by its number, and the lines behind it are read on.
 *
 *     tail -n +1 -f annotation.gff3 | arrivals
 *
 * The status is 0 at the end of the input, and 2 where the input could not be read or the output not be written.
 */
#define _POSIX_C_SOURCE 200809L

#include "gff3_lines.h"

#include <errno.h>
#include <inttypes.h>
#include <stdio.h>
#include <unistd.h>

/* What is kept while a text comes: the line that is begun, and how many line feeds have come, those of blank lines among them. */
typedef struct {
    uint8_t hold[GFF3_HOLD_LENGTH];
    gff3_state state;
    uint64_t feeds;
} arriving;

/* Columns 1 and 9 are said as they stand, percent-encoded. Answers the number of the first refusal, or 0. */
static uint64_t say_record(const uint8_t *line, size_t len)
{
    const gff3_unfolded record = gff3_judge(line, len);
    if (record.refused != 0) {
        return record.refused;
    }
    const gff3_bounds bounds = gff3_index(line, len).bounds;
    const gff3_place name = gff3_column(line, len, bounds, GFF3_COLUMN_REFERENCE_SEQUENCE_NAME);
    const gff3_place attributes = gff3_column(line, len, bounds, GFF3_COLUMN_ATTRIBUTES);

    fwrite(line + name.start, 1, name.end - name.start, stdout);
    printf(": %" PRIu64 " to %" PRIu64 ", ", record.start, record.end);
    fwrite(line + attributes.start, 1, attributes.end - attributes.start, stdout);
    putchar('\n');
    fflush(stdout);
    return 0;
}

/* What a call answered: the line of this number, or a line that is too long, or neither yet. */
static void answered(arriving *text, gff3_part got, uint64_t number)
{
    uint64_t refused = got.refused;

    text->state = got.state;
    if (got.has_line && gff3_kind(text->hold, got.length) == GFF3_KIND_RECORD) {
        refused = say_record(text->hold, got.length);
    }
    if (refused != 0) {
        fprintf(stderr, "line %" PRIu64 ": %s\n", number, gff3_reason(refused));
    }
}

static uint64_t count_feeds(const uint8_t *part, size_t len)
{
    uint64_t feeds = 0;

    for (size_t at = 0; at < len; at++) {
        feeds += part[at] == '\n';
    }
    return feeds;
}

/* Says every record whose line ends in the part. A call takes a byte at least, but where it refuses the hold or the state. */
static void take(arriving *text, const uint8_t *part, size_t len)
{
    size_t taken = 1;

    for (size_t at = 0; at < len && taken > 0; at += taken) {
        const gff3_part got = gff3_take_part(text->state, text->hold, sizeof text->hold, part + at, len - at);
        taken = got.taken;
        text->feeds += count_feeds(part + at, taken);
        answered(text, got, text->feeds);
    }
}

/* Waits for the next bytes, and answers how many have come: 0 at the end, below 0 where the read failed. One that a signal interrupts has
 * not failed, and is made again. */
static ssize_t come(uint8_t *part, size_t room)
{
    ssize_t count;

    do {
        count = read(STDIN_FILENO, part, room);
    } while (count < 0 && errno == EINTR);
    return count;
}

int main(void)
{
    static arriving text; /* of zeros: no line is begun */
    static uint8_t part[65536];
    ssize_t count = 0;

    while (!ferror(stdout) && (count = come(part, sizeof part)) > 0) {
        take(&text, part, (size_t)count);
    }
    /* A read that failed is not the end of the text, so that a line which is begun is not said. */
    if (count < 0) {
        perror("arrivals: standard input");
        return 2;
    }
    if (!ferror(stdout)) {
        answered(&text, gff3_end_parts(text.state, text.hold, sizeof text.hold), text.feeds + 1);
    }
    if (ferror(stdout)) {
        fputs("arrivals: standard output cannot be written\n", stderr);
        return 2;
    }
    return 0;
}
