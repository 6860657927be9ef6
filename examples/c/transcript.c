/* Judges two transcripts of the text `&notit;x`: a right one, and one whose first row forgets its error.
   cc -std=c99 -Iinclude examples/c/transcript.c target/staticlib/libexports.a -o transcript */
#include <stdio.h>

#include "plankskein.h"

/* A number as its four bytes, the lowest first. */
#define NUMBER(n) (n) & 255, (n) >> 8 & 255, (n) >> 16 & 255, (n) >> 24 & 255

static const uint8_t source[] = {'&', 'n', 'o', 't', 'i', 't', ';', 'x'};
static const uint8_t text[] = {0xC2, 0xAC, 'i', 't', ';', 'x'};
static const uint8_t errors[] = {NUMBER(PLANKSKEIN_NO_SEMICOLON), NUMBER(0)};

static void judge(const uint8_t *rows, size_t length)
{
    static const char *const verdicts[] = {"accepted", "a: no source", "b: no piece end", "c: text differs", "d: errors differ", "e: remains"};
    uint8_t report[PLANKSKEIN_REPORT];
    uint32_t answer = plankskein_check(PLANKSKEIN_TEXT, source, sizeof source, rows, length, text, sizeof text, errors, sizeof errors, report,
                                       sizeof report);
    if (answer == PLANKSKEIN_DONE) {
        printf("%s, row %d\n", verdicts[report[4]], report[8]);
    } else {
        printf("answer %d, place %d\n", (int)answer, report[12]);
    }
}

int main(void)
{
    /* A row: source bytes, text bytes, errors. */
    static const uint8_t right[] = {NUMBER(4), NUMBER(2), NUMBER(1), NUMBER(4), NUMBER(4), NUMBER(0)};
    static const uint8_t wrong[] = {NUMBER(4), NUMBER(2), NUMBER(0), NUMBER(4), NUMBER(4), NUMBER(0)};
    judge(right, sizeof right);
    judge(wrong, sizeof wrong);
    return 0;
}
