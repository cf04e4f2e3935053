/* The sheet of a scheme file from C: standard input is the file, standard output its sheet, or the line REFUSED. Each line that clavirost_sheet_part
   prints is compared with what clavirost_sheet_line prints for the set by itself. */
#include <stdint.h>
#include <stdio.h>
#include <string.h>
#include "clavirost.h"

#define PLACES 65536

static uint8_t file[1537], out[PLACES], line[256];
static uint32_t labels[CLAVIROST_LABELS], entries[CLAVIROST_ENTRIES], p, n, next;
static size_t d, e;

/* Whether the text is the lines of the next sets. */
static int same_lines(const uint8_t *text, size_t length)
{
    for (size_t at = 0, size = 0; at < length; at += size, next++) {
        if (clavirost_sheet_line(p, n, d, e, labels, d, entries, d * e, next, line, sizeof line, &size) != CLAVIROST_DONE) return 0;
        if (length - at < size || memcmp(text + at, line, size)) return 0;
    }
    return 1;
}

int main(void)
{
    size_t length = fread(file, 1, sizeof file, stdin), size = 0;
    uint32_t read = clavirost_read(file, length, labels, CLAVIROST_LABELS, entries, CLAVIROST_ENTRIES, &p, &n, &d, &e);
    for (uint32_t k = 0; clavirost_sheet_part(file, length, k, out, PLACES, &size) == CLAVIROST_DONE && size > 0; k++) {
        fwrite(out, 1, size, stdout);
        if (k > 0 && !same_lines(out, size)) return 1;
    }
    return read == CLAVIROST_DONE && next != 1u << n;
}
