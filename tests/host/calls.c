/* The C calls through the header: each refusal that they can give, by its name; SP, SS and S; null pointers with length 0. */
#include <stdio.h>
#include <string.h>

#include "trimsheet.h"

static int failed;

static void expect(const char *what, int64_t answer, int64_t wanted)
{
    if (answer == wanted)
        return;
    printf("%s: %d, and not %d\n", what, (int)answer, (int)wanted);
    failed = 1;
}

static const uint8_t *bytes(const char *text) { return (const uint8_t *)text; }

/* Writes into a buffer of one record of 20 columns; a refusal leaves it as it was. */
static int64_t written(size_t width, const char *format, const char *list_text)
{
    uint8_t records[20];
    uint8_t before[20];
    int64_t answer;
    memset(records, '#', sizeof records);
    memcpy(before, records, sizeof before);
    answer = trimsheet_write(width, bytes(format), strlen(format), bytes(list_text), strlen(list_text), records, sizeof records);
    if (answer < 0 && memcmp(records, before, sizeof records) != 0)
        expect("a refusal that changes a byte", 1, 0);
    return answer;
}

static void each_refusal(void)
{
    char long_format[1026];
    memset(long_format, ' ', sizeof long_format - 1);
    long_format[sizeof long_format - 1] = '\0';
    expect("a width of 0", written(0, "(I4)", ""), -TRIMSHEET_RECORD_WIDTH);
    expect("1,025 bytes", written(20, long_format, ""), -TRIMSHEET_FORMAT_LENGTH);
    expect("no digit after the point", written(20, "(F8.)", ""), -TRIMSHEET_FORMAT_GRAMMAR);
    expect("a width of 65", written(20, "(I65)", ""), -TRIMSHEET_FORMAT_RANGE);
    expect("17 times 255 fields", written(20, "(17(255I4))", ""), -TRIMSHEET_FORMAT_SIZE);
    expect("a small letter", written(20, "(I4)", "i 7\n"), -TRIMSHEET_ELEMENT);
    expect("a decimal under I", written(20, "(I4)", "D 7 0\n"), -TRIMSHEET_KIND);
    expect("T past the last column", written(20, "(T21)", ""), -TRIMSHEET_COLUMN);
    expect("a buffer of no record", written(21, "(I4)", ""), -TRIMSHEET_NO_RECORD);
    expect("a slash", written(20, "(/)", ""), -TRIMSHEET_NO_RECORD);
    expect("no field", written(20, "(1X)", "I 7\n"), -TRIMSHEET_NO_FIELD);
    expect("rounded units of 10^18", written(20, "(F20.1)", "D 100000000000000000 0\n"), -TRIMSHEET_TOO_LARGE);
    expect("an accepted sheet", written(20, "(I4)", "I 7\n"), 1);
    expect("1,025 bytes, checked", trimsheet_check(bytes(long_format), 1025), -TRIMSHEET_FORMAT_LENGTH);
    expect("no digit after the point, checked", trimsheet_check(bytes("(F8.)"), 5), -TRIMSHEET_FORMAT_GRAMMAR);
    expect("a width of 65, checked", trimsheet_check(bytes("(I65)"), 5), -TRIMSHEET_FORMAT_RANGE);
    expect("17 times 255 fields, checked", trimsheet_check(bytes("(17(255I4))"), 11), -TRIMSHEET_FORMAT_SIZE);
    expect("an accepted format", trimsheet_check(bytes("(I4)"), 4), 0);
}

/* SP, SS and S in the format of both calls. */
static void sign_settings(void)
{
    static const char format[] = "(SP,I4,SS,I4,SP,I2,S,I4)";
    static const char list_text[] = "I 7\nI 7\nI 10\nI 0\n";
    static const char line[] = "  +7   7**   0      ";
    uint8_t records[20];
    int64_t answer =
        trimsheet_write(20, bytes(format), strlen(format), bytes(list_text), strlen(list_text), records, sizeof records);
    expect("SP, SS, SP and S", answer, 1);
    expect("its record", memcmp(records, line, sizeof records), 0);
    expect("no comma after SP", written(20, "(SPI4)", "I 7\n"), -TRIMSHEET_FORMAT_GRAMMAR);
    expect("nothing but SP to return to", written(20, "(I4,(SP))", "I 7\nI 7\n"), -TRIMSHEET_NO_FIELD);
    expect("SP, checked", trimsheet_check(bytes("(SP,I4)"), 7), 0);
    expect("S alone, checked", trimsheet_check(bytes("(S)"), 3), 0);
    expect("SP with a repeat, checked", trimsheet_check(bytes("(3SP)"), 5), -TRIMSHEET_FORMAT_GRAMMAR);
    expect("4,097 settings, checked", trimsheet_check(bytes("(16(255(SP)),17(SP))"), 20), -TRIMSHEET_FORMAT_SIZE);
}

/* A pointer of no byte: null, and one that points nowhere. */
static void no_bytes(uint8_t *nowhere)
{
    static const char trim[] = "TRIM                ";
    uint8_t records[20];
    expect("no format, checked", trimsheet_check(nowhere, 0), -TRIMSHEET_FORMAT_GRAMMAR);
    expect("no bytes at all", trimsheet_write(20, nowhere, 0, nowhere, 0, nowhere, 0), -TRIMSHEET_FORMAT_GRAMMAR);
    expect("no bytes and no width", trimsheet_write(0, nowhere, 0, nowhere, 0, nowhere, 0), -TRIMSHEET_RECORD_WIDTH);
    expect("no records", trimsheet_write(20, bytes("(I4)"), 4, bytes("I 7"), 3, nowhere, 0), -TRIMSHEET_NO_RECORD);
    expect("no list text", trimsheet_write(20, bytes("('TRIM')"), 8, nowhere, 0, records, sizeof records), 1);
    expect("its record", memcmp(records, trim, sizeof records), 0);
}

int main(void)
{
    each_refusal();
    sign_settings();
    no_bytes(NULL);
    no_bytes((uint8_t *)1);
    if (!failed)
        puts("each refusal has its name, SP, SS and S are known, and a pointer of no byte may be null");
    return failed;
}
