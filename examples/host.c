/* A console host: checks a designer's format when it comes in, and writes a sheet under it. */
#include <stdio.h>
#include <string.h>

#include "trimsheet.h"

enum { WIDTH = 20, RECORDS = 4 };

static const uint8_t *bytes(const char *text) { return (const uint8_t *)text; }

/* A refusal in words. */
static const char *words(enum trimsheet_refusal why)
{
    switch (why) {
    case TRIMSHEET_RECORD_WIDTH: return "no such record width";
    case TRIMSHEET_FORMAT_LENGTH: return "the format is too long";
    case TRIMSHEET_FORMAT_GRAMMAR: return "the format is not well formed";
    case TRIMSHEET_FORMAT_RANGE: return "a number of the format is out of range";
    case TRIMSHEET_FORMAT_SIZE: return "the format has too many items, repeats counted";
    case TRIMSHEET_ELEMENT: return "a line of the list is no element";
    case TRIMSHEET_KIND: return "an element does not suit its field";
    case TRIMSHEET_COLUMN: return "the format goes past the last column";
    case TRIMSHEET_NO_RECORD: return "the buffer has no record left";
    case TRIMSHEET_NO_FIELD: return "the format has no field for the elements left";
    case TRIMSHEET_TOO_LARGE: return "a decimal is too large for its field's places";
    case TRIMSHEET_FIELD_TEXT:
    case TRIMSHEET_TEXT_AREA: break; /* in reading only */
    }
    return "another reason";
}

/* A format that comes in from outside. */
static void check(const char *format)
{
    int64_t answer = trimsheet_check(bytes(format), strlen(format));
    if (answer == 0)
        printf("%s is accepted\n", format);
    else
        printf("%s is refused with %d: %s\n", format, (int)-answer, words(trimsheet_refusal_of(answer)));
}

/* A sheet of records of 20 columns. A list text may be NULL where it has no byte. */
static void write_sheet(const char *format, const char *list_text)
{
    uint8_t records[RECORDS * WIDTH];
    size_t list_text_len = list_text == NULL ? 0 : strlen(list_text);
    int64_t answer = trimsheet_write(WIDTH, bytes(format), strlen(format), bytes(list_text), list_text_len, records,
                                     sizeof records);
    if (answer < 0) {
        printf("refused with %d: %s\n", (int)-answer, words(trimsheet_refusal_of(answer)));
        return;
    }
    for (int64_t i = 0; i < answer; i++)
        printf("[%.*s]\n", WIDTH, (const char *)records + i * WIDTH);
}

int main(void)
{
    check("(I4,2X,F6.2,1X,L1,1X,A3)");
    check("(I5,F8)");
    check("(I65)");
    write_sheet("(I4,2X,F6.2,1X,L1,1X,A3)", "I 7\nD -1255 3\nL T\nA FOH\n");
    write_sheet("(I4,2X,F6.2)", "I 7\nD -1255 3\nI 12\nD 99999999 2\n");
    write_sheet("('NO TRIMS')", NULL);
    write_sheet("(I4)", "I 7\nD -1255 3\n");
    write_sheet("(I4)", "I 1\nI 2\nI 3\nI 4\nI 5\n");
    return 0;
}
