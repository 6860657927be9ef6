/* Every answer that the exports give, with rooms exactly full, one short, and looked at as a whole afterwards: what must not be written keeps its
   contents. What is expected comes from document 01. Ends with 1 where something differs. */
#include <stdio.h>
#include <string.h>

#include "plankskein.h"

#define UNUSED 0xA5
#define EDGE 32
#define MOST 600000

/* A number as four bytes; and bytes with their length, as words, as a list, as none, and as those of a report. */
#define NUMBER(n) (uint8_t)(n), (uint8_t)((n) >> 8), (uint8_t)((n) >> 16), (uint8_t)((n) >> 24)
#define BYTES(s) (const uint8_t *)(s), sizeof(s) - 1
#define LIST(...) (const uint8_t[]){__VA_ARGS__}, sizeof((const uint8_t[]){__VA_ARGS__})
#define NOTHING (const uint8_t *)"", 0
#define REPORT(answer, second, third, place) LIST(NUMBER(answer), NUMBER(second), NUMBER(third), NUMBER(place))

static unsigned checks, wrong;

static void expect(int holds, const char *name, const char *what)
{
    checks++;
    if (!holds) {
        wrong++;
        printf("%s: %s differs\n", name, what);
    }
}

/* A room of some length between two edges; all of it is unused at first. */
struct room {
    uint8_t bytes[EDGE + MOST + EDGE];
    size_t length;
};

static uint8_t *make(struct room *room, size_t length)
{
    memset(room->bytes, UNUSED, EDGE + length + EDGE);
    room->length = length;
    return room->bytes + EDGE;
}

/* The room begins with what is expected, and all else in it and around it is unused. */
static int holds(const struct room *room, const uint8_t *expected, size_t length)
{
    size_t i;
    for (i = 0; i < EDGE + room->length + EDGE; i++) {
        uint8_t byte = i >= EDGE && i - EDGE < length ? expected[i - EDGE] : UNUSED;
        if (room->bytes[i] != byte) return 0;
    }
    return length <= room->length;
}

static struct room text_room, error_room, report_room;

static void decode(const char *name, uint32_t context, const uint8_t *source, size_t source_length, size_t text_length, size_t errors_length,
                   size_t report_length, uint32_t answer, const uint8_t *text, size_t text_bytes, const uint8_t *errors, size_t error_bytes,
                   const uint8_t *report, size_t report_bytes)
{
    uint8_t *t = make(&text_room, text_length), *e = make(&error_room, errors_length), *r = make(&report_room, report_length);
    expect(plankskein_decode(context, source, source_length, t, text_length, e, errors_length, r, report_length) == answer, name, "decode's answer");
    expect(holds(&text_room, text, text_bytes), name, "decode's text");
    expect(holds(&error_room, errors, error_bytes), name, "decode's errors");
    expect(holds(&report_room, report, report_bytes), name, "decode's report");
}

static void escape(const char *name, uint32_t mode, const uint8_t *input, size_t input_length, size_t out_length, size_t report_length,
                   uint32_t answer, const uint8_t *out, size_t out_bytes, const uint8_t *report, size_t report_bytes)
{
    uint8_t *o = make(&text_room, out_length), *r = make(&report_room, report_length);
    expect(plankskein_escape(mode, input, input_length, o, out_length, r, report_length) == answer, name, "escape's answer");
    expect(holds(&text_room, out, out_bytes), name, "escape's text");
    expect(holds(&report_room, report, report_bytes), name, "escape's report");
}

static void check(const char *name, uint32_t context, const uint8_t *source, size_t source_length, const uint8_t *rows, size_t rows_length,
                  const uint8_t *text, size_t text_length, const uint8_t *errors, size_t errors_length, size_t report_length, uint32_t answer,
                  const uint8_t *report, size_t report_bytes)
{
    uint8_t *r = make(&report_room, report_length);
    expect(plankskein_check(context, source, source_length, rows, rows_length, text, text_length, errors, errors_length, r, report_length) == answer,
           name, "check's answer");
    expect(holds(&report_room, report, report_bytes), name, "check's report");
}

/* 65,536 bytes `a`, and one more. */
static uint8_t many[PLANKSKEIN_LONGEST + 1];

#define ROOMS(n) PLANKSKEIN_TEXT_ROOM(n), PLANKSKEIN_ERROR_ROOM(n)

static void decoding(void)
{
    decode("nothing", 0, NOTHING, ROOMS(0), 16, 0, NOTHING, NOTHING, REPORT(0, 0, 0, 0));
    decode("M2", 0, BYTES("&amp;lt;"), ROOMS(8), 16, 0, BYTES("&lt;"), NOTHING, REPORT(0, 4, 0, 0));
    decode("M3", 0, BYTES("&notit;x"), ROOMS(8), 16, 0, BYTES("\xC2\xACit;x"), LIST(NUMBER(2), NUMBER(0)), REPORT(0, 6, 1, 0));
    decode("M5", 1, BYTES("&not=1"), ROOMS(6), 16, 0, BYTES("&not=1"), NOTHING, REPORT(0, 6, 0, 0));
    decode("M8", 0, BYTES("&#128"), ROOMS(5), 16, 0, BYTES("\xE2\x82\xAC"), LIST(NUMBER(2), NUMBER(0), NUMBER(3), NUMBER(0)), REPORT(0, 3, 2, 0));
    decode("M9 and M11", 0, BYTES("&#x;&abc;"), ROOMS(9), 16, 0, BYTES("&#x;&abc;"), LIST(NUMBER(1), NUMBER(0), NUMBER(4), NUMBER(4)),
           REPORT(0, 9, 2, 0));
    decode("a control", 0, BYTES("a\x01"), ROOMS(2), 16, 0, BYTES("a\x01"), LIST(NUMBER(5), NUMBER(1)), REPORT(0, 2, 1, 0));
    decode("the end of text", 0, BYTES("a\"<b"), ROOMS(4), 16, 7, BYTES("a\""), NOTHING, REPORT(7, 2, 0, 2));
    decode("the end of an attribute", 1, BYTES("&lt<\"b"), ROOMS(6), 16, 7, BYTES("<<"), LIST(NUMBER(2), NUMBER(0)), REPORT(7, 2, 1, 4));
    decode("an ill-formed byte", 0, BYTES("&lt\xE2" "A"), ROOMS(5), 16, 1, NOTHING, NOTHING, REPORT(1, 0, 0, 3));
    decode("an incomplete character", 0, BYTES("ab\xF0\x9F"), ROOMS(4), 16, 1, NOTHING, NOTHING, REPORT(1, 0, 0, 2));
    decode("NUL", 0, (const uint8_t *)"a\0b", 3, ROOMS(3), 16, 2, NOTHING, NOTHING, REPORT(2, 0, 0, 1));
    decode("a fault past the end", 0, BYTES("a<\xFF"), ROOMS(3), 16, 7, BYTES("a"), NOTHING, REPORT(7, 1, 0, 1));

    /* Rooms: more, one byte or number short, and odd last bytes. */
    decode("more room", 0, BYTES("&lt"), 1000, 1001, 16, 0, BYTES("<"), LIST(NUMBER(2), NUMBER(0)), REPORT(0, 1, 1, 0));
    decode("text room one short", 0, BYTES("abc"), 66, 56, 16, 9, NOTHING, NOTHING, REPORT(9, 67, 0, 0));
    decode("error room one short", 0, BYTES("abc"), 67, 55, 16, 9, NOTHING, NOTHING, REPORT(9, 67, 0, 0));
    decode("odd last bytes", 0, BYTES("a&#"), 67, 59, 16, 0, BYTES("a&#"), LIST(NUMBER(1), NUMBER(1)), REPORT(0, 3, 1, 0));
    decode("9 before 1", 0, BYTES("a\xFF"), 65, 48, 16, 9, NOTHING, NOTHING, REPORT(9, 66, 0, 0));
    decode("no rooms", 0, NOTHING, 0, 0, 16, 9, NOTHING, NOTHING, REPORT(9, 64, 0, 0));
    decode("the longest", 0, many, PLANKSKEIN_LONGEST, ROOMS(PLANKSKEIN_LONGEST), 16, 0, many, PLANKSKEIN_LONGEST, NOTHING,
           REPORT(0, 65536, 0, 0));
    decode("too long", 0, many, PLANKSKEIN_LONGEST + 1, ROOMS(PLANKSKEIN_LONGEST + 1), 16, 3, NOTHING, NOTHING, REPORT(3, 0, 0, 0));
    decode("3 before 9", 1, many, PLANKSKEIN_LONGEST + 1, 0, 0, 16, 3, NOTHING, NOTHING, REPORT(3, 0, 0, 0));

    /* 5, before all else. */
    decode("report of 15", 0, BYTES("abc"), ROOMS(3), 15, 5, NOTHING, NOTHING, NOTHING);
    decode("report of 17", 0, BYTES("abc"), ROOMS(3), 17, 5, NOTHING, NOTHING, NOTHING);
    decode("no report", 1, BYTES("abc"), ROOMS(3), 0, 5, NOTHING, NOTHING, NOTHING);
    decode("context 2", 2, BYTES("abc"), ROOMS(3), 16, 5, NOTHING, NOTHING, NOTHING);
    decode("context 256", 256, BYTES("abc"), ROOMS(3), 16, 5, NOTHING, NOTHING, NOTHING);
    decode("context 4294967295", 4294967295u, many, PLANKSKEIN_LONGEST + 1, 0, 0, 16, 5, NOTHING, NOTHING, NOTHING);
}

static void escaping(void)
{
    escape("nothing", 0, NOTHING, 0, 16, 0, NOTHING, REPORT(0, 0, 0, 0));
    escape("in text", 0, BYTES("<\"&\xC2\xA0>"), 22, 16, 0, BYTES("&lt;\"&amp;&nbsp;&gt;"), REPORT(0, 20, 0, 0));
    escape("text room full", 0, BYTES("a<b"), 6, 16, 0, BYTES("a&lt;b"), REPORT(0, 6, 0, 0));
    escape("text room one short", 0, BYTES("a<b"), 5, 16, 9, NOTHING, REPORT(9, 6, 0, 0));
    escape("in an attribute", 1, BYTES("<\">"), 14, 16, 0, BYTES("&lt;&quot;&gt;"), REPORT(0, 14, 0, 0));
    escape("attribute room one short", 1, BYTES("<\">"), 13, 16, 9, NOTHING, REPORT(9, 14, 0, 0));
    escape("NUL is copied", 0, (const uint8_t *)"\0", 1, 2, 16, 0, (const uint8_t *)"\0", 1, REPORT(0, 1, 0, 0));
    escape("an ill-formed byte", 0, BYTES("<\xC2" "A"), 20, 16, 1, NOTHING, REPORT(1, 0, 0, 1));
    escape("1 before 9", 1, BYTES("<<\xE2\x82"), 0, 16, 1, NOTHING, REPORT(1, 0, 0, 2));
    escape("the longest", 0, many, PLANKSKEIN_LONGEST, PLANKSKEIN_LONGEST, 16, 0, many, PLANKSKEIN_LONGEST, REPORT(0, 65536, 0, 0));
    escape("too long", 0, many, PLANKSKEIN_LONGEST + 1, PLANKSKEIN_ESCAPE_ROOM(PLANKSKEIN_LONGEST + 1), 16, 3, NOTHING, REPORT(3, 0, 0, 0));
    escape("report of 15", 0, BYTES("abc"), 10, 15, 5, NOTHING, NOTHING);
    escape("report of 17", 1, BYTES("abc"), 10, 17, 5, NOTHING, NOTHING);
    escape("mode 2", 2, BYTES("abc"), 10, 16, 5, NOTHING, NOTHING);
    escape("mode 4294967295", 4294967295u, many, PLANKSKEIN_LONGEST + 1, 0, 16, 5, NOTHING, NOTHING);
}

/* The source `&notit;x`: the pieces `&not` with an error, `i`, `t`, `;` and `x`. */
#define SOURCE BYTES("&notit;x")
#define ITS_TEXT BYTES("\xC2\xACit;x")
#define ITS_ERRORS LIST(NUMBER(2), NUMBER(0))
#define ROW(source, text, errors) NUMBER(source), NUMBER(text), NUMBER(errors)

static void checking(void)
{
    check("nothing", 0, NOTHING, NOTHING, NOTHING, NOTHING, 16, 0, REPORT(0, 0, 0, 0));
    check("one row", 0, SOURCE, LIST(ROW(8, 6, 1)), ITS_TEXT, ITS_ERRORS, 16, 0, REPORT(0, 0, 0, 0));
    check("two rows", 0, SOURCE, LIST(ROW(4, 2, 1), ROW(4, 4, 0)), ITS_TEXT, ITS_ERRORS, 16, 0, REPORT(0, 0, 0, 0));
    check("up to the end of an attribute", 1, BYTES("a\"\xFF"), LIST(ROW(1, 1, 0)), BYTES("a"), NOTHING, 16, 0, REPORT(0, 0, 0, 0));
    check("a, an empty row", 0, SOURCE, LIST(ROW(8, 6, 1), ROW(0, 0, 0)), ITS_TEXT, ITS_ERRORS, 16, 0, REPORT(0, 1, 1, 0));
    check("a, past the covered part", 0, SOURCE, LIST(ROW(9, 6, 1)), ITS_TEXT, ITS_ERRORS, 16, 0, REPORT(0, 1, 0, 0));
    check("b", 0, SOURCE, LIST(ROW(3, 2, 1), ROW(5, 4, 0)), ITS_TEXT, ITS_ERRORS, 16, 0, REPORT(0, 2, 0, 0));
    check("c", 0, SOURCE, LIST(ROW(4, 2, 1), ROW(4, 3, 0)), ITS_TEXT, ITS_ERRORS, 16, 0, REPORT(0, 3, 1, 0));
    check("c, text runs out", 0, BYTES("ab"), LIST(ROW(2, 2, 0)), BYTES("a"), NOTHING, 16, 0, REPORT(0, 3, 0, 0));
    check("d", 0, SOURCE, LIST(ROW(4, 2, 1), ROW(4, 4, 0)), ITS_TEXT, LIST(NUMBER(2), NUMBER(256)), 16, 0, REPORT(0, 4, 0, 0));
    check("d, errors run out", 0, SOURCE, LIST(ROW(8, 6, 1)), ITS_TEXT, NOTHING, 16, 0, REPORT(0, 4, 0, 0));
    check("e, source remains", 0, SOURCE, LIST(ROW(4, 2, 1)), ITS_TEXT, ITS_ERRORS, 16, 0, REPORT(0, 5, 1, 0));
    check("e, text remains", 0, BYTES("a"), LIST(ROW(1, 1, 0)), BYTES("ab"), NOTHING, 16, 0, REPORT(0, 5, 1, 0));
    check("e, errors remain", 0, BYTES("a"), LIST(ROW(1, 1, 0)), BYTES("a"), ITS_ERRORS, 16, 0, REPORT(0, 5, 1, 0));
    check("no rows", 0, SOURCE, NOTHING, ITS_TEXT, ITS_ERRORS, 16, 0, REPORT(0, 5, 0, 0));
    check("an ill-formed byte", 0, BYTES("ab\xFF"), NOTHING, NOTHING, NOTHING, 16, 1, REPORT(1, 0, 0, 2));
    check("NUL", 0, (const uint8_t *)"a\0", 2, NOTHING, NOTHING, NOTHING, 16, 2, REPORT(2, 0, 0, 1));
    check("too long", 0, many, PLANKSKEIN_LONGEST + 1, NOTHING, NOTHING, NOTHING, 16, 3, REPORT(3, 0, 0, 0));
    check("3 before 10", 0, many, PLANKSKEIN_LONGEST + 1, LIST(1), NOTHING, NOTHING, 16, 3, REPORT(3, 0, 0, 0));
    check("rows not in threes", 0, SOURCE, LIST(NUMBER(8), NUMBER(6)), ITS_TEXT, ITS_ERRORS, 16, 10, REPORT(10, 0, 0, 0));
    check("rows no whole numbers", 0, SOURCE, LIST(ROW(8, 6, 1), 0), ITS_TEXT, ITS_ERRORS, 16, 10, REPORT(10, 0, 0, 0));
    check("errors not in pairs", 0, SOURCE, LIST(ROW(8, 6, 1)), ITS_TEXT, LIST(NUMBER(2)), 16, 10, REPORT(10, 0, 0, 0));
    check("errors no whole numbers", 0, SOURCE, LIST(ROW(8, 6, 1)), ITS_TEXT, LIST(NUMBER(2), 0, 0, 0), 16, 10, REPORT(10, 0, 0, 0));
    check("10 before 1", 0, BYTES("\xFF"), LIST(1, 2), NOTHING, NOTHING, 16, 10, REPORT(10, 0, 0, 0));
    check("report of 15", 0, SOURCE, LIST(ROW(8, 6, 1)), ITS_TEXT, ITS_ERRORS, 15, 5, NOTHING);
    check("report of 17", 0, SOURCE, LIST(ROW(8, 6, 1)), ITS_TEXT, ITS_ERRORS, 17, 5, NOTHING);
    check("context 2", 2, SOURCE, LIST(ROW(8, 6, 1)), ITS_TEXT, ITS_ERRORS, 16, 5, NOTHING);
    check("context 4294967295", 4294967295u, many, PLANKSKEIN_LONGEST + 1, LIST(1), NOTHING, NOTHING, 16, 5, NOTHING);
}

/* Where a length is 0 a pointer may be NULL. */
static void pointing_nowhere(void)
{
    uint8_t *r = make(&report_room, 16);
    expect(plankskein_decode(0, NULL, 0, NULL, 0, NULL, 0, r, 16) == 9, "NULL", "decode's answer");
    expect(holds(&report_room, REPORT(9, 64, 0, 0)), "NULL", "decode's report");
    r = make(&report_room, 16);
    expect(plankskein_escape(1, NULL, 0, NULL, 0, r, 16) == 0, "NULL", "escape's answer");
    expect(holds(&report_room, REPORT(0, 0, 0, 0)), "NULL", "escape's report");
    r = make(&report_room, 16);
    expect(plankskein_check(1, NULL, 0, NULL, 0, NULL, 0, NULL, 0, r, 16) == 0, "NULL", "check's answer");
    expect(holds(&report_room, REPORT(0, 0, 0, 0)), "NULL", "check's report");
    expect(plankskein_check(1, NULL, 0, NULL, 0, NULL, 0, NULL, 0, NULL, 0) == 5, "NULL", "check's answer without a report");
}

int main(void)
{
    memset(many, 'a', sizeof many);
    decoding();
    escaping();
    checking();
    pointing_nowhere();
    printf("C: %u checks, %u wrong\n", checks, wrong);
    return wrong != 0;
}
