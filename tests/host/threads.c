/* Calls from several threads at once, each on buffers of its own: each thread's sheet is its own. */
#include <pthread.h>
#include <stdio.h>
#include <string.h>

#include "trimsheet.h"

enum { THREADS = 4, CALLS = 20000, WIDTH = 40 };

/* A thread's sheet: its list text, and the record wanted. */
struct sheet {
    char list_text[40];
    char record[WIDTH + 1];
    int wrong;
};

static const uint8_t *bytes(const char *text) { return (const uint8_t *)text; }

static void *write_often(void *argument)
{
    static const char format[] = "('DIMMER',I6,3(1X,F8.2),1X)";
    struct sheet *sheet = (struct sheet *)argument;
    uint8_t records[WIDTH];
    for (int call = 0; call < CALLS; call++) {
        memset(records, '#', sizeof records);
        int64_t answer = trimsheet_write(WIDTH, bytes(format), strlen(format), bytes(sheet->list_text), strlen(sheet->list_text),
                                         records, sizeof records);
        if (answer != 1 || memcmp(records, sheet->record, WIDTH) != 0 || trimsheet_check(bytes(format), strlen(format)) != 0)
            sheet->wrong++;
    }
    return NULL;
}

int main(void)
{
    pthread_t threads[THREADS];
    struct sheet sheets[THREADS];
    int wrong = 0;
    for (int i = 0; i < THREADS; i++) {
        snprintf(sheets[i].list_text, sizeof sheets[i].list_text, "I %d\nD -%d25 1\n", i + 1, i + 1);
        snprintf(sheets[i].record, sizeof sheets[i].record, "DIMMER%6d   -%d2.50%19s", i + 1, i + 1, "");
        sheets[i].wrong = 0;
    }
    for (int i = 0; i < THREADS; i++) {
        if (pthread_create(&threads[i], NULL, write_often, &sheets[i]) != 0)
            return 1;
    }
    for (int i = 0; i < THREADS; i++) {
        pthread_join(threads[i], NULL);
        wrong += sheets[i].wrong;
    }
    if (wrong != 0)
        printf("%d calls of several threads at once gave another sheet\n", wrong);
    else
        puts("calls of several threads at once give each its sheet");
    return wrong != 0;
}
