/* What the header's inline functions pass on, and its names: the two functions that the archive exports are here instead, and look. */
#include "trimsheet.h"
#include "trimsheet.h" /* twice does no harm */

#include <stdio.h>

/* The numbers passed, far beyond those of a sheet. */
#define WIDTH ((size_t)1 << 40 | 257)
#define FORMAT_LEN ((size_t)1 << 41 | 1)
#define TEXT_LEN ((size_t)1 << 42 | 2)
#define RECORDS_LEN ((size_t)1 << 43 | 3)
#define ANSWER (-((int64_t)1 << 44) - 5)

static uint8_t bytes[3];
static int empty;
static int failed;

static void expect(const char *what, int holds)
{
    if (holds)
        return;
    printf("%s%s\n", what, empty ? ", lengths 0" : "");
    failed = 1;
}

int64_t trimsheet_write_slices(size_t width, const uint8_t *format, size_t format_len, const uint8_t *list_text,
                               size_t list_text_len, uint8_t *records, size_t records_len)
{
    expect("width", width == WIDTH);
    expect("format", empty ? format != NULL : format == bytes);
    expect("format's length", format_len == (empty ? 0 : FORMAT_LEN));
    expect("list text", empty ? list_text != NULL : list_text == bytes + 1);
    expect("list text's length", list_text_len == (empty ? 0 : TEXT_LEN));
    expect("records", empty ? records != NULL : records == bytes + 2);
    expect("records' length", records_len == (empty ? 0 : RECORDS_LEN));
    return ANSWER;
}

int64_t trimsheet_check_slice(const uint8_t *format, size_t format_len)
{
    expect("format checked", empty ? format != NULL : format == bytes);
    expect("its length", format_len == (empty ? 0 : FORMAT_LEN));
    return ANSWER;
}

int main(void)
{
    static const int names[] = {
        TRIMSHEET_RECORD_WIDTH, TRIMSHEET_FORMAT_LENGTH, TRIMSHEET_FORMAT_GRAMMAR, TRIMSHEET_FORMAT_RANGE, TRIMSHEET_FORMAT_SIZE,
        TRIMSHEET_ELEMENT,      TRIMSHEET_KIND,          TRIMSHEET_COLUMN,         TRIMSHEET_NO_RECORD,    TRIMSHEET_NO_FIELD,
        TRIMSHEET_TOO_LARGE,    TRIMSHEET_FIELD_TEXT,    TRIMSHEET_TEXT_AREA,
    };
    for (int i = 0; i < 13; i++)
        expect("a name's number", names[i] == i + 1);
    expect("a refusal's number", trimsheet_refusal_of(-9) == TRIMSHEET_NO_RECORD);
    expect("answer of write", trimsheet_write(WIDTH, bytes, FORMAT_LEN, bytes + 1, TEXT_LEN, bytes + 2, RECORDS_LEN) == ANSWER);
    expect("answer of check", trimsheet_check(bytes, FORMAT_LEN) == ANSWER);
    empty = 1;
    expect("answer of write", trimsheet_write(WIDTH, NULL, 0, NULL, 0, NULL, 0) == ANSWER);
    expect("answer of check", trimsheet_check(NULL, 0) == ANSWER);
    if (!failed)
        puts("the header passes on what it is given, and an address for no byte");
    return failed;
}
