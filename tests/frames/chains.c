/*
 * What W5 complains of: the walls of a row of rooms numbered by following each chain back to its start. A wall that nothing comes before has number 1, any
 * other 1 plus the largest before it; so the last wall's number is also how many calls are under way at once. The word is how many rooms there are.
 */
#include <stddef.h>
#include <stdint.h>
#include <stdio.h>
#include <stdlib.h>

#define MOST 1001

/* Wall `before` comes before wall `after`. */
struct rule {
    uint16_t before;
    uint16_t after;
};

static struct rule rules[MOST];
static size_t rules_many;
static uint16_t numbers[MOST];
static size_t nested;
static size_t most_nested;
static uintptr_t lowest = UINTPTR_MAX;

__attribute__((noinline)) static uint16_t number_of(size_t wall)
{
    uint16_t largest = 0;
    const uintptr_t here = (uintptr_t)__builtin_frame_address(0);
    lowest = here < lowest ? here : lowest;
    nested++;
    most_nested = nested > most_nested ? nested : most_nested;
    for (size_t i = 0; i < rules_many && numbers[wall] == 0; i++) {
        if (rules[i].after == wall) {
            const uint16_t number = number_of(rules[i].before);
            largest = number > largest ? number : largest;
        }
    }
    if (numbers[wall] == 0) {
        numbers[wall] = (uint16_t)(largest + 1);
    }
    nested--;
    return numbers[wall];
}

int main(int count, char **words)
{
    const size_t rooms = count > 1 ? strtoul(words[1], NULL, 10) : 60;
    if (rooms == 0 || rooms >= MOST) {
        return 2;
    }
    for (size_t room = 0; room < rooms; room++) {
        rules[room] = (struct rule){(uint16_t)room, (uint16_t)(room + 1)};
    }
    rules_many = rooms;
    const uintptr_t top = (uintptr_t)__builtin_frame_address(0);
    const uint16_t last = number_of(rooms);
    printf("  %5zu rooms in a row by chains: %4zu calls under way at once, %6zu bytes; the last wall has number %u\n", rooms, most_nested,
        (size_t)(top - lowest), last);
    return last == rooms + 1 && most_nested == rooms + 1 ? 0 : 1;
}
