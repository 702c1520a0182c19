/* How much stack a call of the archive takes, from C: for each text of a stream on standard input (three times four bytes, the highest
   first: its length, a limit that is not looked at, the room of the buffer, of which 5,016 bytes count; and then the text) rostblume_judge runs on a stack of its
   own that was filled with one byte before, and the deepest byte that has another afterwards counts. */
#include "rostblume.h"
#include <stdio.h>
#include <string.h>
#include <ucontext.h>

enum { STACK = 1 << 20, PAINT = 0xA5 };
static unsigned char stack[STACK] __attribute__((aligned(4096)));
static uint8_t text[ROSTBLUME_TEXT + 1], report[24 * ROSTBLUME_REPORT];
static size_t length, room;
static ucontext_t caller, callee;

static void call(void) { rostblume_judge(text, length, report, room); }

static long used(void)
{
    memset(stack, PAINT, sizeof stack);
    getcontext(&callee);
    callee.uc_stack.ss_sp = stack;
    callee.uc_stack.ss_size = sizeof stack;
    callee.uc_link = &caller;
    makecontext(&callee, call, 0);
    swapcontext(&caller, &callee);
    size_t at = 0;
    while (at < sizeof stack && stack[at] == PAINT)
        at++;
    return (long)(sizeof stack - at);
}

static size_t number(const unsigned char *b) { return (size_t)b[0] << 24 | b[1] << 16 | b[2] << 8 | b[3]; }

int main(void)
{
    unsigned char head[12];
    long deepest = 0;
    while (fread(head, 1, sizeof head, stdin) == sizeof head) {
        length = number(head);
        room = number(head + 8);
        if (room > sizeof report)
            room = sizeof report;
        if (length > sizeof text || fread(text, 1, length, stdin) != length)
            return 1;
        long now = used();
        deepest = now > deepest ? now : deepest;
    }
    printf("%ld\n", deepest);
    return 0;
}
