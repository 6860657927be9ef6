/* Ours, through the C exports: reads frames of sources and writes frames of answers, as rust/witness/src/main.rs tells. Rooms are just those that
   the header asks for. Another answer than 0 and 7 becomes one code, 200 and the answer, which no witness gives. */
#include <stddef.h>
#include <stdint.h>

#include "plankskein.h"

/* The kit has no headers: these two are the C library's. */
long read(int, void *, size_t);
long write(int, const void *, size_t);

#define MOST (96u << 20)
#define REFUSED 200

static uint8_t frame[MOST], answers[MOST], errors[PLANKSKEIN_ERROR_ROOM(PLANKSKEIN_LONGEST)], report[PLANKSKEIN_REPORT];

static size_t number_at(const uint8_t *bytes)
{
    return bytes[0] | (size_t)bytes[1] << 8 | (size_t)bytes[2] << 16 | (size_t)bytes[3] << 24;
}

static void put_number(uint8_t *bytes, size_t number)
{
    size_t i;
    for (i = 0; i < 4; i++) bytes[i] = (uint8_t)(number >> (8 * i));
}

/* Reads so many bytes; 0 at the end of the input. */
static int read_all(uint8_t *bytes, size_t length)
{
    while (length > 0) {
        long count = read(0, bytes, length);
        if (count <= 0) return 0;
        bytes += count;
        length -= (size_t)count;
    }
    return 1;
}

static int write_all(const uint8_t *bytes, size_t length)
{
    while (length > 0) {
        long count = write(1, bytes, length);
        if (count <= 0) return 0;
        bytes += count;
        length -= (size_t)count;
    }
    return 1;
}

/* One call, whose text goes straight to the answers. Gives the answer's length. */
static size_t answer(uint8_t kind, const uint8_t *source, size_t length, uint8_t *out)
{
    int decodes = kind == 'T' || kind == 'A';
    uint32_t context = kind == 'T' || kind == 't' ? PLANKSKEIN_TEXT : PLANKSKEIN_ATTRIBUTE;
    uint32_t given = decodes ? plankskein_decode(context, source, length, out + 4, PLANKSKEIN_TEXT_ROOM(length), errors,
                                                 PLANKSKEIN_ERROR_ROOM(length), report, sizeof report)
                             : plankskein_escape(context, source, length, out + 4, PLANKSKEIN_ESCAPE_ROOM(length), report, sizeof report);
    int done = (given == PLANKSKEIN_DONE || given == PLANKSKEIN_CONTEXT_END) && number_at(report) == given;
    size_t text = done ? number_at(report + 4) : 0, count = done ? number_at(report + 8) : 1, i;
    uint8_t *codes = out + 4 + text;
    put_number(out, text);
    put_number(codes, count);
    for (i = 0; i < count; i++) codes[4 + i] = done ? (uint8_t)number_at(errors + 8 * i) : (uint8_t)(REFUSED + given);
    return 4 + text + 4 + count;
}

int main(void)
{
    uint8_t head[4];
    while (read_all(head, 4)) {
        size_t length = number_at(head), at = 0, end = 0;
        if (length > MOST || !read_all(frame, length)) return 1;
        while (at < length) {
            size_t size = number_at(frame + at + 1);
            if (end + PLANKSKEIN_ESCAPE_ROOM(size) + PLANKSKEIN_TEXT_ROOM(size) + 4096 > MOST) return 1;
            end += answer(frame[at], frame + at + 5, size, answers + end);
            at += 5 + size;
        }
        put_number(head, end);
        if (!write_all(head, 4) || !write_all(answers, end)) return 1;
    }
    return 0;
}
