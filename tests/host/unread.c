/* What the calls do not look at: bytes that cannot be read stand where nothing may be read. A call that looked at one of them would
 * end this program with a fault. */
#define _DEFAULT_SOURCE
#include <stdio.h>
#include <string.h>
#include <sys/mman.h>

#include "trimsheet.h"

enum { PAGE = 4096, PAGES = 4 };

/* As long as the caller says, though only the bytes before `wall` can be read. */
static const size_t LONG = (size_t)1 << 30;

static uint8_t *wall;
static int failed;

/* The last bytes before the wall. */
static const uint8_t *before_wall(const char *text, size_t length)
{
    return (const uint8_t *)memcpy(wall - length, text, length);
}

static void expect(const char *what, int64_t answer, int64_t wanted)
{
    if (answer == wanted)
        return;
    printf("%s: %d, and not %d\n", what, (int)answer, (int)wanted);
    failed = 1;
}

int main(void)
{
    static const uint8_t format[] = "(I4)";
    uint8_t records[20];
    uint8_t *pages = mmap(NULL, PAGES * PAGE, PROT_READ | PROT_WRITE, MAP_PRIVATE | MAP_ANONYMOUS, -1, 0);
    if (pages == MAP_FAILED || mprotect(pages + (PAGES - 1) * PAGE, PAGE, PROT_NONE) != 0) {
        puts("no pages");
        return 1;
    }
    wall = pages + (PAGES - 1) * PAGE;

    /* Row 1: neither the format nor the list text is looked at. */
    expect("width 0", trimsheet_write(0, wall, LONG, wall, LONG, records, sizeof records), -1);
    expect("width 256", trimsheet_write(256, wall, LONG, wall, LONG, records, sizeof records), -1);

    /* Row 2: a format that is too long is not looked at. */
    expect("a long format", trimsheet_write(20, wall, 1025, format, 0, records, sizeof records), -2);
    expect("a long format, checked", trimsheet_check(wall, LONG), -2);

    /* Row 6: of a line no more than its 67th byte, whatever it begins with. */
    const char *letters = "IDLA?";
    for (const char *letter = letters; *letter != '\0'; letter++) {
        char line[67];
        memset(line, '1', sizeof line);
        line[0] = *letter;
        line[1] = ' ';
        expect("a long line", trimsheet_write(20, format, 4, before_wall(line, sizeof line), LONG, records, sizeof records), -6);
    }

    /* Row 6: of more than 64 lines nothing after the 64th. */
    char lines[64 * 4];
    for (int i = 0; i < 64; i++)
        memcpy(lines + i * 4, "I 7\n", 4);
    expect("more than 64 lines", trimsheet_write(20, format, 4, before_wall(lines, sizeof lines), LONG, records, sizeof records), -6);

    if (!failed)
        puts("nothing is looked at that cannot matter");
    return failed;
}
