/* GFF3 lines, read and written with proof. docs/RULES.md of the project has the rules (RULES 16: the calls in C), and the crates c_lines
 * to c_report state what each call answers.
 *
 * Every function takes any bytes and numbers, ends, and keeps nothing: what one call has to know of the one before it is handed in, and any
 * number of threads may call. A pointer may be null where its length is 0. An output buffer, or a hold, may not overlap a text of the same
 * call.
 *
 * Places are offsets into the text that was handed in: from `start`, before `end`; a text is never copied, but for a line that comes in
 * parts. Where `done` or `missing` is 1, or `is`, `has_value` or `found` is 0, every field behind it is 0, but for a cursor; so is `length`
 * where `has_line` is 0.
 *
 * A walk over lines, attributes or values goes by a cursor: begin with 0, and hand `next` of each answer to the next call. A cursor
 * beyond its text counts as at its end. `next` is never beyond the text, so `text + next` is a legal pointer. Where the lines are done, it
 * is the text's length; where a walk over attributes or values is done or refused, the cursor handed in, or the text's length where that
 * was beyond it. Another call with it answers the same.
 *
 * `refused` is 0, or the number of a refusal, and then every other field is 0, but for `next`, for `taken` and `state` of a text that comes
 * in parts, and for `length` with GFF3_REFUSED_ROOM, which is the length needed. Of several refusals, the one that a function's comment
 * names first is given. A refused call changes no byte of its output buffer, and a call that is not refused changes none past the length
 * that it reports. A hold is no output buffer: it keeps a line that is begun, and a call may change it also where it hands out no line.
 */
#ifndef GFF3_LINES_H
#define GFF3_LINES_H

#include <stddef.h>
#include <stdint.h>

#define GFF3_LINES_VERSION "0.6.0"

#ifdef __cplusplus
extern "C" {
#endif

/* ---- refusals and limits ---- */

enum {
    GFF3_REFUSED_COLUMNS = 1,               /* the line has fewer than eight tabs, the bounds are not its own, or there is no such column */
    GFF3_REFUSED_POSITION = 2,              /* not a position, or a position of zero */
    GFF3_REFUSED_STRAND = 3,                /* not a strand */
    GFF3_REFUSED_PHASE = 4,                 /* not a phase */
    GFF3_REFUSED_ATTRIBUTE = 5,             /* text is left in column 9 without an equals sign */
    GFF3_REFUSED_EMPTY = 6,                 /* the text of a version, a region or a build is empty */
    GFF3_REFUSED_MAJOR = 7,                 /* the version's major part is not a number */
    GFF3_REFUSED_MINOR = 8,                 /* the version's minor part is not a number */
    GFF3_REFUSED_PATCH = 9,                 /* the version's patch part is not a number, or stands without a minor part */
    GFF3_REFUSED_REGION_NAME_MISSING = 10,  /* the region has no name */
    GFF3_REFUSED_REGION_START_MISSING = 11, /* the region has no start */
    GFF3_REFUSED_REGION_START = 12,         /* the region's start is not a position */
    GFF3_REFUSED_REGION_END_MISSING = 13,   /* the region has no end */
    GFF3_REFUSED_REGION_END = 14,           /* the region's end is not a position */
    GFF3_REFUSED_BUILD_SOURCE_MISSING = 15, /* the build has no source */
    GFF3_REFUSED_BUILD_NAME_MISSING = 16,   /* the build has no name */
    GFF3_REFUSED_SCORE = 17,                /* not a score */
    GFF3_REFUSED_PHASE_MISSING = 18,        /* a CDS has no phase */
    GFF3_REFUSED_KEY = 19,                  /* the directive's key has white space in it */
    GFF3_REFUSED_TEXT = 20,                 /* a text that would not read back: a line end in it, a comment that begins with #, or a
                                               region's or build's name that is empty or has white space in it */
    GFF3_REFUSED_VALUE_KEY = 21,            /* a version, a region or a build under another directive's key */
    GFF3_REFUSED_ROOM = 22,                 /* the buffer is too short */
    GFF3_REFUSED_SHEET = 23,                /* not a field sheet */
    GFF3_REFUSED_TOO_LONG = 24,             /* the line or the text is too long */
    GFF3_REFUSED_LINE_TOO_LONG = 25,        /* the line has more than 65,536 bytes */
    GFF3_REFUSED_SUM = 26,                  /* the lengths add up to more than 18446744073709551615 */
    GFF3_REFUSED_HOLD = 34                  /* the hold has not 65,536 bytes, or the state says that it holds more */
};

/* The most bytes of a line to unfold; and of a text to encode, a sheet to write, or a text of a comment or a directive to write. More are
 * refused by GFF3_REFUSED_TOO_LONG. */
enum { GFF3_MOST_LINE = 4194304, GFF3_MOST_TEXT = 1048576 };

/* The length of a hold, and the most bytes of a line that comes in parts. A line of more is refused by GFF3_REFUSED_LINE_TOO_LONG. */
enum { GFF3_HOLD_LENGTH = 65536 };

/* ---- in C alone ---- */

/* What a refusal says, in words: the text beside its number above; "not refused" for 0, and "unknown refusal" for a number that is none. */
const char *gff3_reason(uint64_t refused);

/* ---- lines ---- */

/* The next line from `at` on, without its line feed and one carriage return just before it, and the cursor behind it. Blank lines, which
 * have no byte then, are skipped, so that a line handed out has one; a line of spaces is handed out. The number of a line is one more than
 * the line feeds before `start`. `done` is 1 where no line is left; `next` is then `text_len`. */
typedef struct {
    uint64_t done;
    size_t start;
    size_t end;
    size_t next;
} gff3_line;

gff3_line gff3_next_line(const uint8_t *text, size_t text_len, size_t at);

/* What a line is: `##` begins a directive, else `#` a comment; every other line, the empty one included, is a record. */
enum { GFF3_KIND_DIRECTIVE = 0, GFF3_KIND_COMMENT = 1, GFF3_KIND_RECORD = 2 };

uint32_t gff3_kind(const uint8_t *line, size_t line_len);

/* The text of a comment; `is` is 0 where the line is none. */
typedef struct {
    uint64_t is;
    size_t start;
    size_t end;
} gff3_comment_text;

gff3_comment_text gff3_comment(const uint8_t *line, size_t line_len);

/* The key and the value of a directive; `is` is 0 where the line is none, and `has_value` where no white space follows the key. */
typedef struct {
    uint64_t is;
    size_t key_start;
    size_t key_end;
    uint64_t has_value;
    size_t value_start;
    size_t value_end;
} gff3_directive_text;

gff3_directive_text gff3_directive(const uint8_t *line, size_t line_len);

/* ---- lines of a text that comes in parts ---- */

/* A text from a pipe or a socket comes in parts of any length. Its lines are those that gff3_next_line finds in the whole text, wherever
 * the parts are cut, and each is handed out as soon as its line feed has come. One rule is added: a line of more than GFF3_HOLD_LENGTH
 * bytes, without its line ending, is not handed out but refused, once, when its ending comes. The lines behind it are handed out as ever.
 *
 * The caller lends a hold of GFF3_HOLD_LENGTH bytes, whatever is in it, and begins with the state {0, GFF3_TAIL_FITS}. Each later call gets
 * the state that the last one answered, the hold as that one left it, and the bytes that are not yet taken. When all are taken and no more
 * come, the end call hands out the last line, if it has no line feed:
 *
 *     static uint8_t hold[GFF3_HOLD_LENGTH], part[4096];
 *     gff3_state state = {0, GFF3_TAIL_FITS};
 *
 *     for (size_t len; (len = fill(part, sizeof part)) > 0;) {
 *         for (size_t at = 0, taken = 1; at < len && taken > 0; at += taken) {
 *             const gff3_part got = gff3_take_part(state, hold, GFF3_HOLD_LENGTH, part + at, len - at);
 *             taken = got.taken;
 *             state = got.state;
 *             if (got.has_line) {
 *                 use(hold, got.length);
 *             } else if (got.refused) {
 *                 say(gff3_reason(got.refused));
 *             }
 *         }
 *     }
 *     const gff3_part last = gff3_end_parts(state, hold, GFF3_HOLD_LENGTH);
 *     ...the same with `last`
 *
 * A line stands in the hold until the next call with that hold. Two texts may come side by side, each with its own state and hold.
 */

/* What was taken of the line that is begun and not ended: `hold[..held]`; behind it, by GFF3_TAIL_WAITS, one carriage return that stands
 * nowhere in the hold, since a line feed may follow; by GFF3_TAIL_LONG, more bytes than the hold takes. Where `held` and `tail` are 0, no
 * line is begun. */
enum { GFF3_TAIL_FITS = 0, GFF3_TAIL_WAITS = 1, GFF3_TAIL_LONG = 2 };

typedef struct {
    size_t held;
    uint64_t tail;      /* any other number counts as GFF3_TAIL_LONG, so that no line is handed out by it */
} gff3_state;

/* Where `has_line` and `refused` are 0, the whole part is taken and no line has ended; of the end call, no line was begun. */
typedef struct {
    uint64_t refused;   /* 0, 25 or 34 */
    uint64_t has_line;  /* 1: the line is the hold's first `length` bytes */
    size_t length;
    size_t taken;       /* bytes of the part; 0 in the end call and with 34 */
    gff3_state state;   /* for the next call; with 34 the one handed in, as it was */
} gff3_part;

/* Takes blank lines, and then the part up to its next line feed, that included, or all of it where it has none. An empty part changes
 * nothing. The number of a line that has ended is that of the line feeds taken so far. Refusals 34, 25. With 34, which a hold of
 * GFF3_HOLD_LENGTH bytes and a state as above never give, nothing changes and nothing is taken, so that a loop which goes by `taken` has
 * to end there. In every other case one byte at least is taken of a part that has any. With 25 the line is taken up to its line feed, and
 * the state is that of a new line. */
gff3_part gff3_take_part(gff3_state state, uint8_t *hold, size_t hold_len, const uint8_t *part, size_t part_len);

/* The end of the text: the line that is begun, with a carriage return at its end if it has one. The state is then that of a new text, but
 * with 34, which changes nothing. Refusals 34, 25. */
gff3_part gff3_end_parts(gff3_state state, uint8_t *hold, size_t hold_len);

/* ---- columns of a record ---- */

/* One past each of the first eight tabs, where columns 1 to 8 end; column 9 is the rest. */
typedef struct {
    size_t reference_sequence_name_end;
    size_t source_end;
    size_t type_end;
    size_t start_end;
    size_t end_end;
    size_t score_end;
    size_t strand_end;
    size_t phase_end;
} gff3_bounds;

/* Refusal 1: fewer than eight tabs. */
typedef struct {
    uint64_t refused;
    gff3_bounds bounds;
} gff3_indexed;

gff3_indexed gff3_index(const uint8_t *line, size_t line_len);

/* A record in one call, which indexes the line once: its bounds, and columns 4 to 8 as their readers below have them. Where `score_missing`
 * is 1, `score_start` and `score_end` are 0. Refusals 1, 2 (start, then end), 17, 3, 4. Of a line that is refused by another number than
 * 1, gff3_index has the bounds, and the readers the columns that are not refused. */
typedef struct {
    uint64_t refused;
    gff3_bounds bounds;
    uint64_t start;
    uint64_t end;
    uint64_t score_missing;  /* 1 where column 6 is a dot */
    size_t score_start;      /* the place of the score token */
    size_t score_end;
    uint32_t strand;         /* GFF3_STRAND_NONE to GFF3_STRAND_UNKNOWN */
    uint32_t phase;          /* 0 to 2, or GFF3_PHASE_NONE */
} gff3_record_fields;

gff3_record_fields gff3_record(const uint8_t *line, size_t line_len);

/* The readers below take a line and its bounds, and refuse 1 where they are not the line's own. */

/* The columns by their numbers. */
enum {
    GFF3_COLUMN_REFERENCE_SEQUENCE_NAME = 1,
    GFF3_COLUMN_SOURCE = 2,
    GFF3_COLUMN_TYPE = 3,
    GFF3_COLUMN_START = 4,
    GFF3_COLUMN_END = 5,
    GFF3_COLUMN_SCORE = 6,
    GFF3_COLUMN_STRAND = 7,
    GFF3_COLUMN_PHASE = 8,
    GFF3_COLUMN_ATTRIBUTES = 9
};

/* A raw column, as a place. Refusal 1, also where `column` is not 1 to 9. */
typedef struct {
    uint64_t refused;
    size_t start;
    size_t end;
} gff3_place;

gff3_place gff3_column(const uint8_t *line, size_t line_len, gff3_bounds bounds, uint32_t column);

/* The strands: . + - ? */
enum { GFF3_STRAND_NONE = 0, GFF3_STRAND_FORWARD = 1, GFF3_STRAND_REVERSE = 2, GFF3_STRAND_UNKNOWN = 3 };

/* A phase is 0, 1 or 2, or none. */
enum { GFF3_PHASE_NONE = 3 };

/* A number. Start and end: refusals 1, 2. Strand: refusals 1, 3. Phase: refusals 1, 4. */
typedef struct {
    uint64_t refused;
    uint64_t value;
} gff3_number;

gff3_number gff3_start(const uint8_t *line, size_t line_len, gff3_bounds bounds);
gff3_number gff3_end(const uint8_t *line, size_t line_len, gff3_bounds bounds);
gff3_number gff3_strand(const uint8_t *line, size_t line_len, gff3_bounds bounds);
gff3_number gff3_phase(const uint8_t *line, size_t line_len, gff3_bounds bounds);

/* The score token as a place; `missing` is 1 where the column is a dot. Refusals 1, 17. */
typedef struct {
    uint64_t refused;
    uint64_t missing;
    size_t start;
    size_t end;
} gff3_score_text;

gff3_score_text gff3_score(const uint8_t *line, size_t line_len, gff3_bounds bounds);

/* What a writer into a lent buffer answers. */
typedef struct {
    uint64_t refused;
    size_t length;
} gff3_written;

/* One of columns 1 to 3, percent-decoded. Refusals 1, also where `column` is not 1 to 3, and 22. */
gff3_written gff3_text(const uint8_t *line, size_t line_len, gff3_bounds bounds, uint32_t column, uint8_t *out, size_t out_len);

/* ---- column 9 ---- */

/* The attribute at a cursor, as it stands, and the cursor behind it. `done` is 1 where none is left. Refusal 5. */
typedef struct {
    uint64_t refused;
    uint64_t done;
    size_t tag_start;
    size_t tag_end;
    size_t value_start;
    size_t value_end;
    size_t next;
} gff3_field;

gff3_field gff3_next_field(const uint8_t *column, size_t column_len, size_t at);

/* The next of the values of an attribute, as it stands, and the cursor behind it, which has two parts: `next`, and `out`, which is 1 where
 * the last value is out. Begin with 0 and 0; any `out` but 0 says that the last value is out. `done` is 1 where none is left; `out` is 1
 * then. */
typedef struct {
    uint64_t done;
    size_t start;
    size_t end;
    size_t next;
    uint64_t out;
} gff3_value;

gff3_value gff3_next_value(const uint8_t *value, size_t value_len, size_t at, uint64_t out);

/* The raw value of the first attribute whose decoded tag is `tag`. `found` is 0 where it is absent. Refusal 5, where it comes before a
 * match. */
typedef struct {
    uint64_t refused;
    uint64_t found;
    size_t start;
    size_t end;
} gff3_found;

gff3_found gff3_find_tag(const uint8_t *column, size_t column_len, const uint8_t *tag, size_t tag_len);

/* 1 where the column is a dot or has no byte. */
uint32_t gff3_no_attributes(const uint8_t *column, size_t column_len);

/* ---- typed values of directives ---- */

/* `gff-version`: `parts` says how many of major, minor and patch are there, and one that is not is 0. Refusals 6, 7, 8, 9. */
typedef struct {
    uint64_t refused;
    uint64_t parts;
    uint64_t major;
    uint64_t minor;
    uint64_t patch;
} gff3_version_value;

gff3_version_value gff3_version(const uint8_t *text, size_t text_len);

/* `sequence-region`; the name is a place. Refusals 6, 10, 11, 12, 13, 14. */
typedef struct {
    uint64_t refused;
    size_t name_start;
    size_t name_end;
    uint64_t start;
    uint64_t end;
} gff3_region_value;

gff3_region_value gff3_region(const uint8_t *text, size_t text_len);

/* `genome-build`, as places. Refusals 6, 15, 16. */
typedef struct {
    uint64_t refused;
    size_t source_start;
    size_t source_end;
    size_t name_start;
    size_t name_end;
} gff3_build_value;

gff3_build_value gff3_build(const uint8_t *text, size_t text_len);

/* ---- percent coding, numbers ---- */

/* A text, percent-decoded; it is not longer than the text. Refusal 22. */
gff3_written gff3_decode(const uint8_t *text, size_t text_len, uint8_t *out, size_t out_len);

/* The set of bytes that are escaped: of column 1, of columns 2 and 3, of tags and values in column 9. */
enum { GFF3_SET_NAME = 1, GFF3_SET_COLUMN = 2, GFF3_SET_ATTRIBUTE = 3 };

/* A text, percent-encoded, at most three bytes for each. A set that does not exist counts as GFF3_SET_NAME, which escapes all that the other
 * two do. Refusals 24, 22. */
gff3_written gff3_encode(uint32_t set, const uint8_t *text, size_t text_len, uint8_t *out, size_t out_len);

/* A position, as columns 4 and 5 have it: 1 to 18446744073709551615. Refusal 2. */
gff3_number gff3_position(const uint8_t *text, size_t text_len);

/* ---- the sheet of a record ---- */

/* A sheet holds the texts of a record, each after its count of bytes, and a count is four bytes, low byte first: column 1, source, type,
 * score (a count of 0: missing), and the count of attributes; then of each attribute its tag, the count of its values, which is not 0,
 * and its values. Nothing follows. All but the score is percent-decoded. Start, end, strand and phase stand beside it as numbers.
 *
 * A line is taken as a record without a look at its kind. `length` is that of the sheet, at most ten bytes for each of the line's, and 26:
 * a buffer of that length needs no second call, and is filled without measuring the sheet first. */
typedef struct {
    uint64_t refused;
    size_t length;
    uint64_t start;
    uint64_t end;
    uint32_t strand;
    uint32_t phase;
} gff3_unfolded;

/* The numbers, and how long the sheet is. Refusals 24, 1, 2 (start, then end), 17, 3, 4, 5. */
gff3_unfolded gff3_judge(const uint8_t *line, size_t line_len);

/* The same, and the sheet itself. Refusals 24, 1, 2, 17, 3, 4, 5, 22. */
gff3_unfolded gff3_unfold(const uint8_t *line, size_t line_len, uint8_t *sheet, size_t sheet_len);

/* ---- lines written, without a line feed ---- */

/* The line of a sheet and its numbers, at most three bytes for each of the sheet's; no attributes are written as a dot. Refusals 24, 23, 2,
 * 17, 3, 4, 18, 22; 2 for a start or an end of zero, 3 and 4 for a strand or a phase above 3. */
gff3_written gff3_write_record(const uint8_t *sheet, size_t sheet_len, uint64_t start, uint64_t end, uint32_t strand, uint32_t phase,
                               uint8_t *out, size_t out_len);

/* The value of a directive. A text, a region's name and a build's source go into the call as `first`, and a build's name as `second`;
 * `start` and `end` are a region's. The minor and the patch of a version are there where `has_minor`, `has_patch` is not 0. What the kind
 * does not name is not looked at. Another kind counts as GFF3_VALUE_NONE. */
enum { GFF3_VALUE_NONE = 0, GFF3_VALUE_TEXT = 1, GFF3_VALUE_VERSION = 2, GFF3_VALUE_REGION = 3, GFF3_VALUE_BUILD = 4 };

typedef struct {
    uint32_t kind;
    uint32_t major;
    uint32_t has_minor;
    uint32_t minor;
    uint32_t has_patch;
    uint32_t patch;
    uint64_t start;
    uint64_t end;
} gff3_directive_value;

/* `##`, the key, and a space and the value where there is one. A version, region or build is written under its own key alone
 * (`gff-version`, `sequence-region`, `genome-build`), a text under any. Refusals 24, 21, 19, 20, 9, 2, 22; 9 for a patch without a minor,
 * 2 for a region's start or end of zero. */
gff3_written gff3_write_directive(const uint8_t *key, size_t key_len, gff3_directive_value value, const uint8_t *first, size_t first_len,
                                  const uint8_t *second, size_t second_len, uint8_t *out, size_t out_len);

/* `#` and the text. Refusals 24, 20, 22. */
gff3_written gff3_write_comment(const uint8_t *text, size_t text_len, uint8_t *out, size_t out_len);

/* ---- a text counted ---- */

/* The lines of a text by what they are: records, directives, comments, and lines of kind record that gff3_unfold refuses, by its number
 * (24, 1, 2, 17, 3, 4, 5). `reversed` are records whose start lies above their end; every other record has the length end minus start
 * plus 1. `sum` is all these lengths added up, and `lengths[i]` says how many of them are at least 2^i and below 2^(i + 1). */
typedef struct {
    uint64_t refused;
    uint64_t records;
    uint64_t directives;
    uint64_t comments;
    uint64_t reversed;
    uint64_t sum;
    uint64_t refused_too_long;
    uint64_t refused_columns;
    uint64_t refused_position;
    uint64_t refused_score;
    uint64_t refused_strand;
    uint64_t refused_phase;
    uint64_t refused_attribute;
    uint64_t lengths[64];
} gff3_morning;

/* The report of a whole text. Records, directives, comments and refused lines add up to the lines that gff3_next_line hands out, and
 * `lengths` and `reversed` to the records. Refusal 26, and then all is 0. */
gff3_morning gff3_report(const uint8_t *text, size_t text_len);

#ifdef __cplusplus
}
#endif

#endif
