/* Decodes the value of an attribute: prints its text, and code and place of each error.
   cc -std=c99 -Iinclude examples/c/attribute.c target/staticlib/libexports.a -o attribute */
#include <stdio.h>
#include <string.h>

#include "plankskein.h"

static uint32_t number(const uint8_t *b) { return b[0] | (uint32_t)b[1] << 8 | (uint32_t)b[2] << 16 | (uint32_t)b[3] << 24; }

int main(int argc, char **argv)
{
    static uint8_t text[PLANKSKEIN_TEXT_ROOM(4096)], errors[PLANKSKEIN_ERROR_ROOM(4096)], report[PLANKSKEIN_REPORT];
    const char *value = argc > 1 ? argv[1] : "?a=1&copy=2&amp;b=&#128";
    uint32_t answer, i;

    answer = plankskein_decode(PLANKSKEIN_ATTRIBUTE, (const uint8_t *)value, strlen(value), text, sizeof text, errors, sizeof errors, report,
                               sizeof report);
    if (answer != PLANKSKEIN_DONE && answer != PLANKSKEIN_CONTEXT_END) {
        printf("answer %u, place %u\n", (unsigned)answer, (unsigned)number(report + 12));
        return 1;
    }
    printf("%.*s\n", (int)number(report + 4), (const char *)text);
    for (i = 0; i < number(report + 8); i++) {
        printf("error %u at %u\n", (unsigned)number(errors + 8 * i), (unsigned)number(errors + 8 * i + 4));
    }
    return 0;
}
