/* Moves the records of a GFF3 text by 1,000 bases: reads each line, changes its start and end, and writes it again. Directives and
 * comments stay as they are, and a line that is refused is written as `! ` and the reason. */
#include "gff3_lines.h"

#include <stdio.h>

static const char annotation[] =
    "##gff-version 3\n"
    "# a gene, a part of it, and lines that are refused\n"
    "chr%201\tlab\tgene\t1050\t9000\t.\t+\t.\tID=gene%2c1;b;Name=EDEN,eden\n"
    "chr%201\tlab\tCDS\t0001201\t1500\t-1.50e3\t+\t0\tParent=gene%2c1\r\n"
    "chr%201\tlab\tCDS\t1201\t1500\t.\t+\t.\tParent=gene%2c1\n"
    "chr%201\tlab\texon\t1\t18446744073709550616\t.\t+\t.\tID=exon1\n"
    "chr%201\tlab\texon\t1\t2\t.\t+\t.\tID\n"
    "chr%201\tlab\n";

enum { BASES = 1000, ROOM = 4096 };

/* A text may hold any byte, NUL too, so it is printed by its length. */
static void print_line(const uint8_t *text, size_t len)
{
    fwrite(text, 1, len, stdout);
    putchar('\n');
}

/* Writes the line of a record that is moved, and answers the number of the first refusal, or 0. A sum of over 64 bits would wrap: it is no
 * position. */
static uint64_t print_shifted(const uint8_t *line, size_t len)
{
    uint8_t sheet[ROOM];
    uint8_t moved[ROOM];

    const gff3_unfolded record = gff3_unfold(line, len, sheet, sizeof sheet);
    if (record.refused != 0) {
        return record.refused;
    }
    if (record.start > UINT64_MAX - BASES || record.end > UINT64_MAX - BASES) {
        return GFF3_REFUSED_POSITION;
    }
    const gff3_written written = gff3_write_record(sheet, record.length, record.start + BASES, record.end + BASES, record.strand,
                                                   record.phase, moved, sizeof moved);
    if (written.refused != 0) {
        return written.refused;
    }
    print_line(moved, written.length);
    return 0;
}

int main(void)
{
    const uint8_t *text = (const uint8_t *)annotation;
    const size_t len = sizeof annotation - 1;

    for (gff3_line line = gff3_next_line(text, len, 0); !line.done; line = gff3_next_line(text, len, line.next)) {
        const uint8_t *bytes = text + line.start;
        const size_t count = line.end - line.start;

        if (gff3_kind(bytes, count) != GFF3_KIND_RECORD) {
            print_line(bytes, count);
            continue;
        }
        const uint64_t refused = print_shifted(bytes, count);
        if (refused != 0) {
            printf("! %s\n", gff3_reason(refused));
        }
    }
    return 0;
}
