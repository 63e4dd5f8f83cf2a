/* Reads a GFF3 text line by line, and prints columns 1, 4 and 5 and the ID of each record. */
#include "gff3_lines.h"

#include <inttypes.h>
#include <stdio.h>

static const char annotation[] =
    "##gff-version 3\n"
    "# a gene of two exons, and lines that are refused\n"
    "\n"
    "chr%201\tlab\tgene\t1050\t9000\t.\t+\t.\tID=gene%2C1;Name=EDEN\n"
    "chr%201\tlab\texon\t1050\t1500\t.\t+\t.\tParent=gene%2C1;ID=exon1\r\n"
    "chr%201\tlab\texon\t7000\t9000\t.\t+\t.\tParent=gene%2C1\n"
    "chr%201\tlab\texon\t0\t9000\t.\t+\t.\tID=exon3\n"
    "chr%201\tlab\texon\t1\t2\t.\t+\t.\tID\n"
    "chr%201\tlab\n";

/* A decoded text may hold any byte, NUL too, so it goes with its length. */
typedef struct {
    uint8_t bytes[64];
    size_t length;
} decoded;

/* The ID of a record, empty where it has none; answers the number of the first refusal, or 0. */
static uint64_t read_id(const uint8_t *line, size_t len, gff3_bounds bounds, decoded *id)
{
    static const uint8_t tag[] = {'I', 'D'};

    const gff3_place column = gff3_column(line, len, bounds, GFF3_COLUMN_ATTRIBUTES);
    const uint8_t *attributes = line + column.start;
    const gff3_found found = gff3_find_tag(attributes, column.end - column.start, tag, sizeof tag);
    if (found.refused != 0) {
        return found.refused;
    }
    const gff3_written written = gff3_decode(attributes + found.start, found.end - found.start, id->bytes, sizeof id->bytes);
    id->length = written.length;
    return written.refused;
}

/* Prints a record, or answers the number of the first refusal. */
static uint64_t print_record(const uint8_t *line, size_t len)
{
    decoded name;
    decoded id;

    const gff3_record_fields record = gff3_record(line, len);
    if (record.refused != 0) {
        return record.refused;
    }
    const gff3_written written =
        gff3_text(line, len, record.bounds, GFF3_COLUMN_REFERENCE_SEQUENCE_NAME, name.bytes, sizeof name.bytes);
    if (written.refused != 0) {
        return written.refused;
    }
    const uint64_t refused = read_id(line, len, record.bounds, &id);
    if (refused != 0) {
        return refused;
    }

    fwrite(name.bytes, 1, written.length, stdout);
    printf(": %" PRIu64 " to %" PRIu64 "%s", record.start, record.end, id.length == 0 ? "" : ", ");
    fwrite(id.bytes, 1, id.length, stdout);
    putchar('\n');
    return 0;
}

/* The number of the line that begins at a place: one more than the line feeds before it, those of blank lines among them. */
static unsigned line_number(const uint8_t *text, size_t start)
{
    unsigned number = 1;

    for (size_t at = 0; at < start; at++) {
        number += text[at] == '\n';
    }
    return number;
}

int main(void)
{
    const uint8_t *text = (const uint8_t *)annotation;
    const size_t len = sizeof annotation - 1;

    for (gff3_line line = gff3_next_line(text, len, 0); !line.done; line = gff3_next_line(text, len, line.next)) {
        const uint8_t *bytes = text + line.start;
        const size_t count = line.end - line.start;

        if (gff3_kind(bytes, count) == GFF3_KIND_RECORD) {
            const uint64_t refused = print_record(bytes, count);
            if (refused != 0) {
                printf("line %u: %s\n", line_number(text, line.start), gff3_reason(refused));
            }
        }
    }
    return 0;
}
