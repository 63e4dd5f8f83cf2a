/* Prints the morning's sheet of a GFF3 text: what its lines are, why lines are refused, and how long its records are. */
#include "gff3_lines.h"

#include <inttypes.h>
#include <stdio.h>

static const char annotation[] =
    "##gff-version 3\n"
    "# a gene of two exons, and lines that are refused\n"
    "\n"
    "chr%201\tlab\tgene\t1050\t9000\t.\t+\t.\tID=gene%2C1;Name=EDEN\n"
    "chr%201\tlab\texon\t1050\t1500\t.\t+\t.\tParent=gene%2C1;ID=exon1\r\n"
    "chr%201\tlab\texon\t7000\t9000\t.\t+\t.\tParent=gene%2C1\n"
    "chr%201\tlab\texon\t9000\t7000\t.\t+\t.\tParent=gene%2C1\n"
    "chr%201\tlab\texon\t0\t9000\t.\t+\t.\tID=exon3\n"
    "chr%201\tlab\texon\t1\t2\t.\t+\t.\tID\n"
    "chr%201\tlab\n";

static void print_count(const char *label, uint64_t count)
{
    printf("%-12s %6" PRIu64 "\n", label, count);
}

/* Lines that are refused by a number, with its reason in words. */
static void print_refused(unsigned number, uint64_t count)
{
    if (count != 0) {
        printf("refused by %2u %5" PRIu64 "  %s\n", number, count, gff3_reason(number));
    }
}

static void print_report(const gff3_morning *report)
{
    print_count("records", report->records);
    print_count("reversed", report->reversed);
    print_count("directives", report->directives);
    print_count("comments", report->comments);
    print_refused(GFF3_REFUSED_COLUMNS, report->refused_columns);
    print_refused(GFF3_REFUSED_POSITION, report->refused_position);
    print_refused(GFF3_REFUSED_STRAND, report->refused_strand);
    print_refused(GFF3_REFUSED_PHASE, report->refused_phase);
    print_refused(GFF3_REFUSED_ATTRIBUTE, report->refused_attribute);
    print_refused(GFF3_REFUSED_SCORE, report->refused_score);
    print_refused(GFF3_REFUSED_TOO_LONG, report->refused_too_long);
    print_count("sum", report->sum);
    for (unsigned i = 0; i < 64; i++) {
        if (report->lengths[i] != 0) {
            printf("%6" PRIu64 " of a length from %" PRIu64 " to %" PRIu64 "\n", report->lengths[i], UINT64_C(1) << i, UINT64_MAX >> (63 - i));
        }
    }
}

int main(void)
{
    const gff3_morning report = gff3_report((const uint8_t *)annotation, sizeof annotation - 1);

    if (report.refused != 0) {
        printf("%s\n", gff3_reason(report.refused));
        return 1;
    }
    print_report(&report);
    return 0;
}
