/* Judges standard input and prints the report lines: the instrument called from C. */
#include "rostblume.h"
#include <stdio.h>
#include <stdlib.h>

int main(void)
{
    static uint8_t text[ROSTBLUME_TEXT + 1];
    size_t length = fread(text, 1, sizeof text, stdin);
    size_t room = rostblume_room(text, length);
    uint8_t *reports = calloc(room, 1);
    if (!reports)
        return 9;
    uint8_t number = rostblume_judge(text, length, reports, room);
    /* What is written ends before the first byte that is still 0. */
    size_t written = 0;
    while (written < room && reports[written])
        written++;
    fwrite(reports, 1, written, stdout);
    free(reports);
    return number;
}
