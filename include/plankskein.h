/* Plankskein for C: decode, escape and check. Link with libexports.a, which `./archive` writes to target/staticlib (x86-64 Linux).

   Bytes are passed as a pointer and a length. Each function answers for any bytes, any numbers and any lengths; nothing is asked of the caller but
   that each pointer is valid for its length, and that no buffer that is written (text, errors, out, report) overlaps another one of the same call.
   Where a length is 0 the pointer may be NULL. Nothing is allocated and nothing is kept between calls, so threads may call at the same time. The
   archive calls nothing but memcpy, and a call takes less than 1 KiB of stack, beside what a dynamic linker takes to find memcpy at the first call.

   Numbers in buffers are four bytes each, the lowest first, whatever the machine.

   The report is PLANKSKEIN_REPORT bytes, four numbers: the answer; text bytes, or the verdict; errors, or the row; the place. A number that an answer
   does not name is 0. The answer is returned as well. On PLANKSKEIN_WRONG_USE nothing is written at all, on any other answer the report is. Of a room
   only what is written changes: bytes after it keep their contents. */
#ifndef PLANKSKEIN_H
#define PLANKSKEIN_H

#include <stddef.h>
#include <stdint.h>

#ifdef __cplusplus
extern "C" {
#endif

/* The length of a report, in bytes. */
#define PLANKSKEIN_REPORT 16

/* The longest source or input, in bytes. */
#define PLANKSKEIN_LONGEST 65536

/* Rooms, in bytes, for a source or an input of n bytes: those that decoding asks for, and one that escaping never outgrows. */
#define PLANKSKEIN_TEXT_ROOM(n) ((n) + 64)
#define PLANKSKEIN_ERROR_ROOM(n) (4 * (2 * (n) + 8))
#define PLANKSKEIN_ESCAPE_ROOM(n) (6 * (n))

/* What a source is: it ends before a `<` as text, before a `"` as the value of an attribute. */
enum plankskein_context {
    PLANKSKEIN_TEXT = 0,
    PLANKSKEIN_ATTRIBUTE = 1
};

/* The answers. (4, 6 and 8 are answers of the chunk decoder, which is not exported.) */
enum plankskein_answer {
    PLANKSKEIN_DONE = 0,         /* all was read; for a check: see the verdict */
    PLANKSKEIN_ILL_FORMED = 1,   /* an ill-formed byte, or an incomplete character at the end; place: its character's first byte */
    PLANKSKEIN_NUL = 2,          /* a NUL where a character begins; its place */
    PLANKSKEIN_TOO_LONG = 3,     /* a source or an input of more than PLANKSKEIN_LONGEST bytes */
    PLANKSKEIN_WRONG_USE = 5,    /* another report length than PLANKSKEIN_REPORT, or another context or mode than 0 and 1 */
    PLANKSKEIN_CONTEXT_END = 7,  /* the context's end was met, and all before it was read; its place */
    PLANKSKEIN_ROOM_ASKED = 9,   /* a room is too small, and nothing was written to any; text bytes: how many are asked for */
    PLANKSKEIN_NOT_WHOLE = 10    /* rows are not in threes or errors not in pairs, or their bytes are no whole numbers */
};

/* The codes of errors. */
enum plankskein_code {
    PLANKSKEIN_NO_DIGITS = 1,         /* `&#`, `&#x` or `&#X` without a digit */
    PLANKSKEIN_NO_SEMICOLON = 2,      /* a reference without its `;` */
    PLANKSKEIN_BAD_NUMBER = 3,        /* a number for NUL, a surrogate, a control, a noncharacter, or past the last character */
    PLANKSKEIN_UNKNOWN_NAME = 4,      /* `&`, letters or digits and `;` that are no name */
    PLANKSKEIN_BAD_CHARACTER = 5      /* a control or a noncharacter in the source */
};

/* The verdicts of a check: accepted, or why a row is wrong, by the first reason that applies to the first wrong row. Rows count from 0. */
enum plankskein_verdict {
    PLANKSKEIN_ACCEPTED = 0,          /* every row is right and nothing remains; the row is 0 */
    PLANKSKEIN_A_NO_SOURCE = 1,       /* a: the row has no source bytes, or goes past the covered part */
    PLANKSKEIN_B_NO_PIECE_END = 2,    /* b: the row does not end where a piece ends */
    PLANKSKEIN_C_TEXT_DIFFERS = 3,    /* c: its text differs or runs out */
    PLANKSKEIN_D_ERRORS_DIFFER = 4,   /* d: its errors differ or run out */
    PLANKSKEIN_E_REMAINS = 5          /* e: after the last row covered source, text or errors remain; the row is the row count */
};

/* Decodes a whole source into text, and into errors as pairs of numbers, code and place. Report: answer, text bytes, errors, place.
   Room is asked for PLANKSKEIN_TEXT_ROOM and PLANKSKEIN_ERROR_ROOM of the source's length; the last one to three bytes of an error room that are no
   whole number don't count. Answers: 0, 1, 2, 3, 5, 7, 9. */
uint32_t plankskein_decode(uint32_t context, const uint8_t *source, size_t source_length, uint8_t *text, size_t text_length, uint8_t *errors,
                           size_t errors_length, uint8_t *report, size_t report_length);

/* Escapes all of an input, as text or (mode PLANKSKEIN_ATTRIBUTE) as the value of an attribute. Report: answer, text bytes, 0, place.
   With 9 the text bytes are the exact length of the result. Answers: 0, 1, 3, 5, 9. */
uint32_t plankskein_escape(uint32_t mode, const uint8_t *input, size_t input_length, uint8_t *out, size_t out_length, uint8_t *report,
                           size_t report_length);

/* Judges a transcript of a source: rows of three numbers (source bytes, text bytes, errors), the text, and errors as pairs of numbers, code and
   place. Report: answer, verdict, row, place. Answers: 0, 1, 2, 3, 5, 10. */
uint32_t plankskein_check(uint32_t context, const uint8_t *source, size_t source_length, const uint8_t *rows, size_t rows_length,
                          const uint8_t *text, size_t text_length, const uint8_t *errors, size_t errors_length, uint8_t *report,
                          size_t report_length);

#ifdef __cplusplus
}
#endif

#endif
