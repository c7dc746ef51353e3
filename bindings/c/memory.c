/* Opens worlds until memory is refused; run it as `(ulimit -v 120000; ./memory)`. The refusal is an answer, the worlds
 * that are there go on, and after their closing there is memory for about as many again. */
#include "dine.h"
#include <stdio.h>
#include <string.h>

enum { SITES = 64, WORLDS_MAX = 100000 };
static char text[SITES * 64];
static dine_handle plan, worlds[WORLDS_MAX];

static long open_all(void) {
    int64_t status = DINE_OK;
    long count = 0;
    while (count < WORLDS_MAX && (status = dine_world_open(&plan, &worlds[count])) == DINE_OK)
        count++;
    return status == DINE_MEMORY ? count : 0;
}

int main(void) {
    char *at = text + sprintf(text, "version = 1\n");
    for (int i = 0; i < SITES; i++)
        at += sprintf(at, "[[site]]\nname = \"s%d\"\njobs = [{ name = \"x\" }]\n", i);
    if (dine_plan_open((const uint8_t *)text, strlen(text), &plan) != DINE_OK)
        return 1;
    long count = open_all();
    int64_t events = dine_world_finish(&worlds[0]);
    for (long i = 0; i < count; i++)
        dine_close(&worlds[i]);
    long again = open_all();
    printf("%ld worlds, %lld events, again %ld worlds\n", count, (long long)events, again);
    return count > 0 && events > 0 && again >= count * 9 / 10 ? 0 : 1;
}
