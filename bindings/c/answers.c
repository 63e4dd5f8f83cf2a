/* Calls every function through the header, and holds what it answers to the rules. It is C and C++ alike, and tools/bindings builds it as
 * both. */
#include "gff3_lines.h"

#include <stdio.h>
#include <string.h>

static unsigned failed = 0;

static void hold(int holds, const char *fact, int line)
{
    if (!holds) {
        printf("answers.c:%d: does not hold: %s\n", line, fact);
        failed++;
    }
}

#define HOLD(fact) hold((fact), #fact, __LINE__)

/* A text as a call takes it, and a place or an output as a text. */
#define TEXT(s) (const uint8_t *)(s), sizeof(s) - 1
#define IS(bytes, count, s) ((count) == sizeof(s) - 1 && memcmp((bytes), (s), sizeof(s) - 1) == 0)

#define RECORD "sq%200\tlab\tCDS\t8\t13\t-1e3\t-\t2\tID=a%2Cb;c=1,2"

static uint8_t out[256];
static uint8_t sheet[256];

static void lines(void)
{
    const gff3_line line = gff3_next_line(TEXT("a\r\nb"), 0);
    const gff3_line last = gff3_next_line(TEXT("a\r\nb"), line.next);
    const gff3_line done = gff3_next_line(TEXT("a\r\nb"), last.next);
    const gff3_line beyond = gff3_next_line(TEXT("a\r\nb"), SIZE_MAX);
    const gff3_line behind_blank = gff3_next_line(TEXT("\n\r\n \n\n"), 0);
    const gff3_line blank = gff3_next_line(TEXT("\n\r\n \n\n"), behind_blank.next);
    const gff3_line between = gff3_next_line(TEXT("a\r\nb"), 2);
    const gff3_line none = gff3_next_line(NULL, 0, 0);

    HOLD(line.done == 0 && line.start == 0 && line.end == 1 && line.next == 3);
    HOLD(last.done == 0 && last.start == 3 && last.end == 4 && last.next == 4);
    HOLD(done.done == 1 && done.start == 0 && done.end == 0 && done.next == 4);
    HOLD(beyond.done == 1 && beyond.start == 0 && beyond.end == 0 && beyond.next == 4);
    HOLD(none.done == 1 && none.next == 0);
    HOLD(behind_blank.done == 0 && behind_blank.start == 3 && behind_blank.end == 4 && behind_blank.next == 5);
    HOLD(blank.done == 1 && blank.start == 0 && blank.end == 0 && blank.next == 6);
    HOLD(between.done == 0 && between.start == 3 && between.end == 4 && between.next == 4);

    HOLD(gff3_kind(TEXT("##a b")) == GFF3_KIND_DIRECTIVE);
    HOLD(gff3_kind(TEXT("#a")) == GFF3_KIND_COMMENT);
    HOLD(gff3_kind(TEXT("")) == GFF3_KIND_RECORD);

    const gff3_comment_text comment = gff3_comment(TEXT("#a"));
    const gff3_directive_text directive = gff3_directive(TEXT("##a  b"));
    HOLD(comment.is == 1 && comment.start == 1 && comment.end == 2);
    HOLD(directive.is == 1 && directive.key_start == 2 && directive.key_end == 3);
    HOLD(directive.has_value == 1 && directive.value_start == 4 && directive.value_end == 6);
}

/* A text, handed in as a part. */
#define TAKE(state, s) gff3_take_part((state), text_hold, sizeof text_hold, TEXT(s))
#define END(state) gff3_end_parts((state), text_hold, sizeof text_hold)
#define IS_STATE(state, h, t) ((state).held == (h) && (state).tail == (t))

static uint8_t text_hold[GFF3_HOLD_LENGTH];
static const gff3_state fresh = {0, GFF3_TAIL_FITS};

static void parts(void)
{
    const gff3_part none = gff3_take_part(fresh, text_hold, sizeof text_hold, NULL, 0);
    gff3_part begun = TAKE(fresh, "ab\r");
    const gff3_part line = TAKE(begun.state, "\nc\n");
    HOLD(none.refused == 0 && none.has_line == 0 && none.taken == 0 && IS_STATE(none.state, 0, GFF3_TAIL_FITS));
    HOLD(begun.refused == 0 && begun.has_line == 0 && begun.length == 0 && begun.taken == 3);
    HOLD(IS_STATE(begun.state, 2, GFF3_TAIL_WAITS));
    HOLD(line.refused == 0 && line.has_line == 1 && line.taken == 1 && IS(text_hold, line.length, "ab"));
    HOLD(IS_STATE(line.state, 0, GFF3_TAIL_FITS));

    const gff3_part blank = TAKE(fresh, "\n\r\n\r");
    HOLD(blank.refused == 0 && blank.has_line == 0 && blank.length == 0 && blank.taken == 4);
    HOLD(IS_STATE(blank.state, 0, GFF3_TAIL_WAITS));
    const gff3_part behind_blank = TAKE(blank.state, "\n\nc\nd");
    HOLD(behind_blank.has_line == 1 && behind_blank.taken == 4 && IS(text_hold, behind_blank.length, "c"));
    HOLD(END(blank.state).has_line == 1 && IS(text_hold, 1, "\r"));
    begun = TAKE(fresh, "ab\r");
    const gff3_part kept = TAKE(begun.state, "\r\n");
    HOLD(kept.has_line == 1 && kept.taken == 2 && IS(text_hold, kept.length, "ab\r"));
    const gff3_part other = TAKE(begun.state, "c");
    HOLD(IS_STATE(other.state, 4, GFF3_TAIL_FITS) && IS(text_hold, other.state.held, "ab\rc"));

    const gff3_part last = END(begun.state);
    HOLD(last.refused == 0 && last.has_line == 1 && last.taken == 0 && IS(text_hold, last.length, "ab\r"));
    HOLD(IS_STATE(last.state, 0, GFF3_TAIL_FITS));
    const gff3_part done = END(fresh);
    HOLD(done.refused == 0 && done.has_line == 0 && done.length == 0 && IS_STATE(done.state, 0, GFF3_TAIL_FITS));
}

static void long_lines(void)
{
    const gff3_state full = {GFF3_HOLD_LENGTH, GFF3_TAIL_FITS};
    const gff3_part fits = TAKE(full, "\r\n");
    const gff3_part more = TAKE(full, "ab");
    const gff3_part refused = TAKE(more.state, "c\nd\n");
    HOLD(fits.refused == 0 && fits.has_line == 1 && fits.length == GFF3_HOLD_LENGTH && fits.taken == 2);
    HOLD(more.refused == 0 && more.has_line == 0 && more.taken == 2 && IS_STATE(more.state, GFF3_HOLD_LENGTH, GFF3_TAIL_LONG));
    HOLD(refused.refused == GFF3_REFUSED_LINE_TOO_LONG && refused.has_line == 0 && refused.length == 0 && refused.taken == 2);
    HOLD(IS_STATE(refused.state, 0, GFF3_TAIL_FITS));

    const gff3_part last = END(more.state);
    HOLD(last.refused == GFF3_REFUSED_LINE_TOO_LONG && last.has_line == 0 && last.length == 0 && last.taken == 0);
    HOLD(IS_STATE(last.state, 0, GFF3_TAIL_FITS));
    HOLD(END(TAKE(full, "\r").state).refused == GFF3_REFUSED_LINE_TOO_LONG);
    HOLD(END(full).length == GFF3_HOLD_LENGTH);

    const gff3_state unknown = {1, 3};
    HOLD(TAKE(unknown, "\n").refused == GFF3_REFUSED_LINE_TOO_LONG);
    HOLD(END(unknown).refused == GFF3_REFUSED_LINE_TOO_LONG);
}

static void refused_holds(void)
{
    const gff3_state beyond = {GFF3_HOLD_LENGTH + 1, 7};
    const gff3_part taken = TAKE(beyond, "a\n");
    const gff3_part ended = END(beyond);
    const gff3_part too_short = gff3_take_part(fresh, text_hold, sizeof text_hold - 1, TEXT("a\n"));
    HOLD(taken.refused == GFF3_REFUSED_HOLD && taken.has_line == 0 && taken.length == 0 && taken.taken == 0);
    HOLD(IS_STATE(taken.state, GFF3_HOLD_LENGTH + 1, 7));
    HOLD(ended.refused == GFF3_REFUSED_HOLD && ended.has_line == 0 && ended.length == 0 && IS_STATE(ended.state, GFF3_HOLD_LENGTH + 1, 7));
    HOLD(too_short.refused == GFF3_REFUSED_HOLD && too_short.taken == 0 && IS_STATE(too_short.state, 0, GFF3_TAIL_FITS));
    HOLD(gff3_end_parts(fresh, NULL, 0).refused == GFF3_REFUSED_HOLD);
}

static void columns(void)
{
    const gff3_indexed indexed = gff3_index(TEXT(RECORD));
    const gff3_bounds bounds = indexed.bounds;
    HOLD(indexed.refused == 0 && bounds.reference_sequence_name_end == 7);
    HOLD(gff3_index(TEXT("a\tb")).refused == GFF3_REFUSED_COLUMNS);

    const gff3_place type = gff3_column(TEXT(RECORD), bounds, GFF3_COLUMN_TYPE);
    HOLD(type.refused == 0 && IS(&RECORD[type.start], type.end - type.start, "CDS"));
    HOLD(gff3_column(TEXT(RECORD), bounds, 0).refused == GFF3_REFUSED_COLUMNS);
    HOLD(gff3_column(TEXT(RECORD), bounds, 10).refused == GFF3_REFUSED_COLUMNS);
    HOLD(gff3_column(TEXT(RECORD "\t"), bounds, GFF3_COLUMN_TYPE).refused == 0);
    HOLD(gff3_column(TEXT("a" RECORD), bounds, GFF3_COLUMN_TYPE).refused == GFF3_REFUSED_COLUMNS);

    HOLD(gff3_start(TEXT(RECORD), bounds).value == 8);
    HOLD(gff3_end(TEXT(RECORD), bounds).value == 13);
    HOLD(gff3_strand(TEXT(RECORD), bounds).value == GFF3_STRAND_REVERSE);
    HOLD(gff3_phase(TEXT(RECORD), bounds).value == 2);
    const gff3_score_text score = gff3_score(TEXT(RECORD), bounds);
    HOLD(score.refused == 0 && score.missing == 0 && IS(&RECORD[score.start], score.end - score.start, "-1e3"));

    const gff3_written name = gff3_text(TEXT(RECORD), bounds, GFF3_COLUMN_REFERENCE_SEQUENCE_NAME, out, sizeof out);
    HOLD(name.refused == 0 && IS(out, name.length, "sq 0"));
    HOLD(gff3_text(TEXT(RECORD), bounds, 0, out, sizeof out).refused == GFF3_REFUSED_COLUMNS);
    HOLD(gff3_text(TEXT(RECORD), bounds, GFF3_COLUMN_START, out, sizeof out).refused == GFF3_REFUSED_COLUMNS);
    const gff3_written room = gff3_text(TEXT(RECORD), bounds, GFF3_COLUMN_REFERENCE_SEQUENCE_NAME, out, 3);
    HOLD(room.refused == GFF3_REFUSED_ROOM && room.length == 4);
}

#define COLUMNS(start, end, score, strand, phase, column) "s\t.\tg\t" start "\t" end "\t" score "\t" strand "\t" phase "\t" column

/* Whether a record is refused by a number, and every other field is 0. The struct has no gaps. */
static int is_refused(gff3_record_fields record, uint64_t number)
{
    gff3_record_fields refused;

    memset(&refused, 0, sizeof refused);
    refused.refused = number;
    return memcmp(&record, &refused, sizeof refused) == 0;
}

static void whole_records(void)
{
    const gff3_record_fields record = gff3_record(TEXT(RECORD));
    const gff3_bounds bounds = record.bounds;
    HOLD(record.refused == 0 && record.start == 8 && record.end == 13);
    HOLD(record.score_missing == 0 && record.score_start == 20 && record.score_end == 24);
    HOLD(record.strand == GFF3_STRAND_REVERSE && record.phase == 2);
    HOLD(bounds.reference_sequence_name_end == 7 && bounds.source_end == 11 && bounds.type_end == 15 && bounds.start_end == 17);
    HOLD(bounds.end_end == 20 && bounds.score_end == 25 && bounds.strand_end == 27 && bounds.phase_end == 29);

    const gff3_record_fields dots = gff3_record(TEXT(COLUMNS("9", "8", ".", ".", ".", "")));
    HOLD(dots.refused == 0 && dots.start == 9 && dots.end == 8 && dots.bounds.phase_end == 16);
    HOLD(dots.score_missing == 1 && dots.score_start == 0 && dots.score_end == 0);
    HOLD(dots.strand == GFF3_STRAND_NONE && dots.phase == GFF3_PHASE_NONE);

    HOLD(is_refused(gff3_record(NULL, 0), GFF3_REFUSED_COLUMNS));
    HOLD(is_refused(gff3_record(TEXT("s\t.\tg\t0\t0\tx\tx\tx")), GFF3_REFUSED_COLUMNS));
    HOLD(is_refused(gff3_record(TEXT(COLUMNS("0", "8", "x", "x", "x", "a"))), GFF3_REFUSED_POSITION));
    HOLD(is_refused(gff3_record(TEXT(COLUMNS("8", "0", "x", "x", "x", "a"))), GFF3_REFUSED_POSITION));
    HOLD(is_refused(gff3_record(TEXT(COLUMNS("8", "8", "x", "x", "x", "a"))), GFF3_REFUSED_SCORE));
    HOLD(is_refused(gff3_record(TEXT(COLUMNS("8", "8", "1", "x", "x", "a"))), GFF3_REFUSED_STRAND));
    HOLD(is_refused(gff3_record(TEXT(COLUMNS("8", "8", "1", "?", "x", "a"))), GFF3_REFUSED_PHASE));
    HOLD(gff3_record(TEXT(COLUMNS("8", "8", "1", "?", "0", "a"))).refused == 0);
}

static void attributes(void)
{
    const gff3_field field = gff3_next_field(TEXT("a=1;b=2"), 0);
    const gff3_field last = gff3_next_field(TEXT("a=1;b=2"), field.next);
    const gff3_field done = gff3_next_field(TEXT("a=1;b=2"), last.next);
    const gff3_field beyond = gff3_next_field(TEXT("a=1;b=2"), SIZE_MAX);
    const gff3_field refused = gff3_next_field(TEXT("a=1;b"), 4);
    HOLD(field.refused == 0 && field.done == 0 && field.tag_start == 0 && field.tag_end == 1);
    HOLD(field.value_start == 2 && field.value_end == 3 && field.next == 4);
    HOLD(last.tag_start == 4 && last.value_end == 7 && last.next == 7);
    HOLD(done.refused == 0 && done.done == 1 && done.value_end == 0 && done.next == 7);
    HOLD(beyond.done == 1 && beyond.next == 7);
    HOLD(refused.refused == GFF3_REFUSED_ATTRIBUTE && refused.done == 0 && refused.tag_start == 0 && refused.next == 4);

    const gff3_found found = gff3_find_tag(TEXT("a=1;%62=2"), TEXT("b"));
    HOLD(found.refused == 0 && found.found == 1 && found.start == 8 && found.end == 9);
    HOLD(gff3_find_tag(TEXT("a=1;b"), TEXT("c")).refused == GFF3_REFUSED_ATTRIBUTE);
    HOLD(gff3_no_attributes(TEXT(".")) == 1);
    HOLD(gff3_no_attributes(TEXT("a=1")) == 0);
}

static void values(void)
{
    const gff3_value value = gff3_next_value(TEXT("1,2"), 0, 0);
    const gff3_value last = gff3_next_value(TEXT("1,2"), value.next, value.out);
    const gff3_value done = gff3_next_value(TEXT("1,2"), last.next, last.out);
    const gff3_value beyond = gff3_next_value(TEXT("1,2"), SIZE_MAX, 7);
    const gff3_value early = gff3_next_value(TEXT("1,2"), 1, 2);
    const gff3_value empty = gff3_next_value(TEXT("1,"), 2, 0);

    HOLD(value.done == 0 && value.start == 0 && value.end == 1 && value.next == 2 && value.out == 0);
    HOLD(last.done == 0 && last.start == 2 && last.end == 3 && last.next == 3 && last.out == 1);
    HOLD(done.done == 1 && done.start == 0 && done.end == 0 && done.next == 3 && done.out == 1);
    HOLD(beyond.done == 1 && beyond.start == 0 && beyond.end == 0 && beyond.next == 3 && beyond.out == 1);
    HOLD(early.done == 1 && early.start == 0 && early.end == 0 && early.next == 1 && early.out == 1);
    HOLD(empty.done == 0 && empty.start == 2 && empty.end == 2 && empty.next == 2 && empty.out == 1);
}

static void typed_values(void)
{
    const gff3_version_value version = gff3_version(TEXT("3.1.26"));
    const gff3_region_value region = gff3_region(TEXT("sq0 8 13"));
    const gff3_build_value build = gff3_build(TEXT("NCBI B36"));

    HOLD(version.refused == 0 && version.parts == 3 && version.major == 3 && version.minor == 1 && version.patch == 26);
    HOLD(gff3_version(TEXT("")).refused == GFF3_REFUSED_EMPTY);
    HOLD(region.refused == 0 && region.name_start == 0 && region.name_end == 3 && region.start == 8 && region.end == 13);
    HOLD(gff3_region(TEXT("sq0 8")).refused == GFF3_REFUSED_REGION_END_MISSING);
    HOLD(build.refused == 0 && build.source_start == 0 && build.source_end == 4 && build.name_start == 5 && build.name_end == 8);
    HOLD(gff3_build(TEXT("NCBI")).refused == GFF3_REFUSED_BUILD_NAME_MISSING);
}

static void coding(void)
{
    HOLD(IS(out, gff3_decode(TEXT("a%00b%2"), out, sizeof out).length, "a\0b%2"));
    HOLD(IS(out, gff3_encode(GFF3_SET_NAME, TEXT("a b;"), out, sizeof out).length, "a%20b%3B"));
    HOLD(IS(out, gff3_encode(GFF3_SET_COLUMN, TEXT("a b;\t"), out, sizeof out).length, "a b;%09"));
    HOLD(IS(out, gff3_encode(GFF3_SET_ATTRIBUTE, TEXT("a b;"), out, sizeof out).length, "a b%3B"));
    HOLD(IS(out, gff3_encode(0, TEXT("a b;"), out, sizeof out).length, "a%20b%3B"));
    HOLD(IS(out, gff3_encode(4, TEXT("a b;"), out, sizeof out).length, "a%20b%3B"));
    HOLD(gff3_position(TEXT("18446744073709551615")).value == UINT64_MAX);
    HOLD(gff3_position(TEXT("18446744073709551616")).refused == GFF3_REFUSED_POSITION);
}

static void records(void)
{
    const gff3_unfolded judged = gff3_judge(TEXT(RECORD));
    const gff3_unfolded record = gff3_unfold(TEXT(RECORD), sheet, sizeof sheet);
    HOLD(judged.refused == 0 && judged.length == record.length);
    HOLD(record.refused == 0 && record.start == 8 && record.end == 13 && record.strand == GFF3_STRAND_REVERSE && record.phase == 2);

    const gff3_written line = gff3_write_record(sheet, record.length, 8, 13, record.strand, record.phase, out, sizeof out);
    HOLD(line.refused == 0 && IS(out, line.length, RECORD));
    HOLD(gff3_write_record(sheet, record.length, 8, 13, 0, GFF3_PHASE_NONE, out, sizeof out).refused == GFF3_REFUSED_PHASE_MISSING);

    gff3_directive_value value;
    memset(&value, 0, sizeof value);
    value.kind = GFF3_VALUE_REGION;
    value.start = 8;
    value.end = 13;
    const gff3_written region = gff3_write_directive(TEXT("sequence-region"), value, TEXT("sq0"), NULL, 0, out, sizeof out);
    HOLD(region.refused == 0 && IS(out, region.length, "##sequence-region sq0 8 13"));
    value.kind = 5;
    const gff3_written none = gff3_write_directive(TEXT("FASTA"), value, NULL, 0, NULL, 0, out, sizeof out);
    HOLD(none.refused == 0 && IS(out, none.length, "##FASTA"));

    HOLD(IS(out, gff3_write_comment(TEXT("a"), out, sizeof out).length, "#a"));
    HOLD(gff3_write_comment(TEXT("a\n"), out, sizeof out).refused == GFF3_REFUSED_TEXT);
}

#define LINE(start, end, score, strand, phase, column) COLUMNS(start, end, score, strand, phase, column) "\n"
#define MOST "18446744073709551615"

/* Lines by hand: two directives, a comment, a blank line, five records, of which one is reversed, and each refusal but 24. */
static void reports(void)
{
    static const char text[] = "##gff-version x\r\n##FASTA\n# a\n\n" LINE("8", "13", ".", "+", ".", "a=1") LINE("9", "8", ".", "+", ".", ".")
        LINE("7", "7", "1", "?", "2", "") LINE("1", "8", ".", "-", ".", ".") LINE("3", "6", ".", ".", ".", "b=;") "s\n"
        LINE("0", "6", ".", ".", ".", ".") LINE("3", "-6", ".", ".", ".", ".") LINE("3", "6", "", ".", ".", ".")
        LINE("3", "6", ".", "++", ".", ".") LINE("3", "6", ".", ".", "3", ".") LINE("3", "6", ".", ".", ".", "a");
    const gff3_morning all = gff3_report(TEXT(text));
    const gff3_morning none = gff3_report(NULL, 0);
    const gff3_morning most = gff3_report(TEXT(LINE("1", MOST, ".", "+", ".", ".") LINE(MOST, "1", ".", "+", ".", ".")));
    const gff3_morning passed = gff3_report(TEXT(LINE("1", MOST, ".", "+", ".", ".") "# a\n" LINE("1", "1", ".", "+", ".", ".")));
    uint64_t counted = 0;

    HOLD(all.refused == 0 && all.records == 5 && all.directives == 2 && all.comments == 1 && all.reversed == 1);
    HOLD(all.sum == 6 + 1 + 8 + 4);
    HOLD(all.refused_columns == 1 && all.refused_position == 2 && all.refused_score == 1 && all.refused_strand == 1);
    HOLD(all.refused_phase == 1 && all.refused_attribute == 1 && all.refused_too_long == 0);
    HOLD(all.lengths[0] == 1 && all.lengths[1] == 0 && all.lengths[2] == 2 && all.lengths[3] == 1);
    for (size_t i = 0; i < sizeof all.lengths / sizeof all.lengths[0]; i++) {
        counted += all.lengths[i];
        HOLD(none.lengths[i] == 0 && passed.lengths[i] == 0);
    }
    HOLD(counted + all.reversed == all.records);
    HOLD(none.refused == 0 && none.records == 0 && none.sum == 0);
    HOLD(most.refused == 0 && most.records == 2 && most.reversed == 1 && most.sum == UINT64_MAX && most.lengths[63] == 1);
    HOLD(passed.refused == GFF3_REFUSED_SUM && passed.records == 0 && passed.comments == 0 && passed.sum == 0);
}

static void reasons(void)
{
    HOLD(strcmp(gff3_reason(0), "not refused") == 0);
    HOLD(strcmp(gff3_reason(GFF3_REFUSED_SCORE), "not a score") == 0);
    HOLD(strcmp(gff3_reason(GFF3_REFUSED_LINE_TOO_LONG), "the line has more than 65,536 bytes") == 0);
    HOLD(strcmp(gff3_reason(GFF3_REFUSED_HOLD - 1), "unknown refusal") == 0);
    HOLD(strcmp(gff3_reason(GFF3_REFUSED_HOLD + 1), "unknown refusal") == 0);
    HOLD(strcmp(gff3_reason(UINT64_MAX), "unknown refusal") == 0);
}

int main(void)
{
    lines();
    parts();
    long_lines();
    refused_holds();
    columns();
    whole_records();
    attributes();
    values();
    typed_values();
    coding();
    records();
    reports();
    reasons();
    return failed == 0 ? 0 : 1;
}
