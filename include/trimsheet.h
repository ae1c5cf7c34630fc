/*
 * Trim sheets by FORTRAN format: the calls for a console host, for C99, C11 and C++.
 *
 * Link with libconsole.a: cc -I<this folder> host.c libconsole.a. It is for x86-64 Linux, on processors of level x86-64-v2 or later, and
 * needs memcpy and memset of the C library, and nothing else.
 *
 * Threads. No global state and no heap: calls may be made from several threads at once on separate buffers, each with `records` of
 * its own. A format or a list text may be shared, as long as nothing writes to it.
 *
 * Stack. As measured, on 36 inputs, small and largest: no call takes more than 32 KB (32,768 bytes), trimsheet_write_slices up to 31,232
 * bytes, trimsheet_check_slice up to 9,744; under a format of up to 64 bytes and 64 items met, repeats counted, up to 7,672 and 1,104. The
 * inline functions below add some 100 bytes. Where the C library is linked dynamically, the first call has its functions bound, which takes
 * some 3 KB more under such short formats.
 *
 * Limits. A format has at most 1,024 bytes, groups to level 4, and at most 4,096 fields and other items, repeats counted (its size). A
 * record is 1 to 255 columns wide; there are as many as the buffer holds. A list has at most 64 elements; integers and the units of
 * decimals have a magnitude of at most 10^18 - 1, decimals 0 to 9 places, texts 1 to 64 bytes. What a format is, and which of several
 * refusals comes first, stands in docs/RULES.md ('The format', 'Plus signs', 'Checks by place').
 *
 * List text. A line for each element, single blanks between its parts:
 *
 *     I n        the integer n
 *     D u s      the decimal u / 10^s
 *     L T        true; L F, false
 *     A text     the text: the rest of the line, bytes 32 to 126
 *
 * n and u have an optional - and 1 to 18 digits, no +; leading zeros count as digits, and -0 is 0. s is one digit. Each line ends in a
 * line feed, which the last line may lack. A carriage return is a byte like others, so a line that ends in both is refused. An empty line
 * is no element, at the end too; no bytes at all are the empty list.
 */
#ifndef TRIMSHEET_H
#define TRIMSHEET_H

#include <stddef.h>
#include <stdint.h>

/* The version of this header: 1.1.1, as 10000 * 1 + 100 * 1 + 1. The archive has none in it: take both from one checkout. */
#define TRIMSHEET_VERSION 10101

#ifdef __cplusplus
extern "C" {
#endif

/*
 * The numbers of refusals. A call that refuses answers the number negated: compare `answer == -TRIMSHEET_KIND`, or take what
 * trimsheet_refusal_of gives. (A variable of this type may be unsigned in C, so it is not to be negated.)
 */
enum trimsheet_refusal {
    TRIMSHEET_RECORD_WIDTH = 1,   /* the width is not 1 to 255 */
    TRIMSHEET_FORMAT_LENGTH = 2,  /* the format is over 1,024 bytes */
    TRIMSHEET_FORMAT_GRAMMAR = 3, /* the format is not of the grammar */
    TRIMSHEET_FORMAT_RANGE = 4,   /* a number of the format is out of its range */
    TRIMSHEET_FORMAT_SIZE = 5,    /* the format's size is over 4,096 (Limits, above) */
    TRIMSHEET_ELEMENT = 6,        /* a line is no element, or an element is outside its limits; or there are over 64 */
    TRIMSHEET_KIND = 7,           /* an element's kind does not suit its field */
    TRIMSHEET_COLUMN = 8,         /* a field or literal passes the last column, X goes more than one past it, or T past it */
    TRIMSHEET_NO_RECORD = 9,      /* the buffer holds no record, or none is left */
    TRIMSHEET_NO_FIELD = 10,      /* elements are left, and the part of the format to return to has no field */
    TRIMSHEET_TOO_LARGE = 11,     /* a decimal's units, rounded to the places of its field, are over 10^18 - 1 */
    TRIMSHEET_FIELD_TEXT = 12,    /* in reading only, which has no call here: what stands in the columns is no such field */
    TRIMSHEET_TEXT_AREA = 13      /* in reading only: the texts wanted are longer together than the text area */
};

/* The refusal of an answer below 0. */
static inline enum trimsheet_refusal trimsheet_refusal_of(int64_t answer) { return (enum trimsheet_refusal)-answer; }

/*
 * What libconsole.a exports. A host in C or C++ calls the functions below instead; one in another language calls these, and gives each
 * pointer an address: here none may be null, not even where the length after it is 0.
 */
int64_t trimsheet_write_slices(size_t width, const uint8_t *format, size_t format_len, const uint8_t *list_text,
                               size_t list_text_len, uint8_t *records, size_t records_len);
int64_t trimsheet_check_slice(const uint8_t *format, size_t format_len);

/*
 * Pointers. Each pointer points to at least as many bytes as the length after it says, at most 2^63 - 1, which can be read and, for
 * `records`, written. Where that length is 0 the pointer may be anything, null too. `records` must not overlap the other two.
 * While a call runs, nothing else writes to any of these bytes, or reads those of `records`. Beyond that and the stack nothing is
 * asked of a caller, and a call ends on every input.
 */

/*
 * Writes the list of a list text under a format into records of `width` bytes, from the first byte of `records` on. Answers
 * the number of records written; or the number of the refusal, negated, and then no byte of `records` has changed.
 */
static inline int64_t trimsheet_write(size_t width, const uint8_t *format, size_t format_len, const uint8_t *list_text,
                                      size_t list_text_len, uint8_t *records, size_t records_len)
{
    uint8_t none[1] = {0};
    return trimsheet_write_slices(width, format_len == 0 ? none : format, format_len, list_text_len == 0 ? none : list_text,
                                  list_text_len, records_len == 0 ? none : records, records_len);
}

/* Checks a format. Answers 0 where it is accepted, or the number of the refusal, negated. */
static inline int64_t trimsheet_check(const uint8_t *format, size_t format_len)
{
    uint8_t none[1] = {0};
    return trimsheet_check_slice(format_len == 0 ? none : format, format_len);
}

#ifdef __cplusplus
}
#endif

#endif
