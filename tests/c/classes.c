/* Compares the four C calls with a plain computation of the rules: every length, class and place,
 * and a band of bad input beyond each. Prints one line, and ends with status 1 at the first difference. */
#include "classes.h"

#include <stdio.h>
#include <stdlib.h>

enum { CLASSES = 32, LONGEST_CLASSED = 1792, PAGE_BYTES = 512, BAND = 4096 };

static const uint32_t far_out[] = {65535u, 65536u, 0x7fffffffu, 0x80000000u, 0xfffffffeu, 0xffffffffu};
enum { FAR_OUT = sizeof far_out / sizeof far_out[0] };

static unsigned long compared = 0;

static uint32_t size_of(uint32_t c)
{
    uint32_t i = c / 4 + 1;
    uint32_t k = c % 4 + 4;
    return k << i;
}

static uint32_t pages_of(uint32_t c)
{
    return c % 4 + 4;
}

static uint32_t class_of(uint32_t length)
{
    if (length == 0)
        return COGYRUNDAL_OUTSIDE;
    for (uint32_t c = 0; c < CLASSES; c++)
        if (size_of(c) >= length)
            return c;
    return COGYRUNDAL_OUTSIDE;
}

static uint32_t slot_of(uint32_t c, uint32_t place)
{
    if (c >= CLASSES || place >= pages_of(c) * PAGE_BYTES)
        return COGYRUNDAL_OUTSIDE;
    return place / size_of(c);
}

static void same(const char *call, uint32_t a, uint32_t b, uint32_t got, uint32_t want)
{
    compared++;
    if (got != want) {
        printf("c calls: %s(%u, %u) answered %u, not %u\n", call, (unsigned)a, (unsigned)b, (unsigned)got, (unsigned)want);
        exit(1);
    }
}

static void compare_length(uint32_t length)
{
    same("class_of_length", length, 0, cogyrundal_class_of_length(length), class_of(length));
}

static void compare_place(uint32_t c, uint32_t place)
{
    same("slot_of_place", c, place, cogyrundal_slot_of_place(c, place), slot_of(c, place));
}

static void compare_class(uint32_t c)
{
    int known = c < CLASSES;
    same("size_of_class", c, 0, cogyrundal_size_of_class(c), known ? size_of(c) : COGYRUNDAL_OUTSIDE);
    same("pages_of_class", c, 0, cogyrundal_pages_of_class(c), known ? pages_of(c) : COGYRUNDAL_OUTSIDE);
    uint32_t places = known ? pages_of(c) * PAGE_BYTES : 0;
    for (uint32_t place = 0; place < places + BAND; place++)
        compare_place(c, place);
    for (int j = 0; j < FAR_OUT; j++)
        compare_place(c, far_out[j]);
}

int main(void)
{
    for (uint32_t length = 0; length <= LONGEST_CLASSED + BAND; length++)
        compare_length(length);
    for (uint32_t c = 0; c < 2 * CLASSES; c++)
        compare_class(c);
    for (int j = 0; j < FAR_OUT; j++) {
        compare_length(far_out[j]);
        compare_class(far_out[j]);
    }
    printf("c calls: %lu answers compared\n", compared);
    return 0;
}
