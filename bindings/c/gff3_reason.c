/* The words of the refusals: the texts of the header's table. */
#include "gff3_lines.h"

const char *gff3_reason(uint64_t refused)
{
    static const char *const reasons[] = {
        [0] = "not refused",
        [GFF3_REFUSED_COLUMNS] = "the line has fewer than eight tabs, the bounds are not its own, or there is no such column",
        [GFF3_REFUSED_POSITION] = "not a position, or a position of zero",
        [GFF3_REFUSED_STRAND] = "not a strand",
        [GFF3_REFUSED_PHASE] = "not a phase",
        [GFF3_REFUSED_ATTRIBUTE] = "text is left in column 9 without an equals sign",
        [GFF3_REFUSED_EMPTY] = "the text of a version, a region or a build is empty",
        [GFF3_REFUSED_MAJOR] = "the version's major part is not a number",
        [GFF3_REFUSED_MINOR] = "the version's minor part is not a number",
        [GFF3_REFUSED_PATCH] = "the version's patch part is not a number, or stands without a minor part",
        [GFF3_REFUSED_REGION_NAME_MISSING] = "the region has no name",
        [GFF3_REFUSED_REGION_START_MISSING] = "the region has no start",
        [GFF3_REFUSED_REGION_START] = "the region's start is not a position",
        [GFF3_REFUSED_REGION_END_MISSING] = "the region has no end",
        [GFF3_REFUSED_REGION_END] = "the region's end is not a position",
        [GFF3_REFUSED_BUILD_SOURCE_MISSING] = "the build has no source",
        [GFF3_REFUSED_BUILD_NAME_MISSING] = "the build has no name",
        [GFF3_REFUSED_SCORE] = "not a score",
        [GFF3_REFUSED_PHASE_MISSING] = "a CDS has no phase",
        [GFF3_REFUSED_KEY] = "the directive's key has white space in it",
        [GFF3_REFUSED_TEXT] = "a text that would not read back: a line end in it, a comment that begins with #, or a region's or "
            "build's name that is empty or has white space in it",
        [GFF3_REFUSED_VALUE_KEY] = "a version, a region or a build under another directive's key",
        [GFF3_REFUSED_ROOM] = "the buffer is too short",
        [GFF3_REFUSED_SHEET] = "not a field sheet",
        [GFF3_REFUSED_TOO_LONG] = "the line or the text is too long",
        [GFF3_REFUSED_LINE_TOO_LONG] = "the line has more than 65,536 bytes",
        [GFF3_REFUSED_SUM] = "the lengths add up to more than 18446744073709551615",
        [GFF3_REFUSED_HOLD] = "the hold has not 65,536 bytes, or the state says that it holds more",
    };
    /* A number between two refusals that is none itself has no text. */
    const char *const reason = refused < sizeof reasons / sizeof reasons[0] ? reasons[refused] : NULL;

    return reason != NULL ? reason : "unknown refusal";
}
