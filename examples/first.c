#include <stdio.h>
#include <tailsprig.h>

/* Prints the bits of one CM: the menu of an end that has V.32 bis, V.22 bis and V.21 for data, and wants LAPM. */
int main(void)
{
    struct tailsprig_record own = {
        .functions[TAILSPRIG_FUNCTION_DATA - 1] = {.available = 1, .items = TAILSPRIG_V32BIS | TAILSPRIG_V22BIS | TAILSPRIG_V21},
        .home = TAILSPRIG_FUNCTION_DATA,
        .lapm = 1,
    };
    const uint8_t no_blocks[1] = {0}; /* no field: a length of 0, and a pointer that is not NULL all the same */
    uint8_t menu[TAILSPRIG_MENU_MOST], line[TAILSPRIG_MOST_BITS];
    int32_t octets = tailsprig_cm(own, TAILSPRIG_FUNCTION_DATA, no_blocks, 0, menu, sizeof menu);
    int32_t bits = octets < 0 ? octets : tailsprig_write(TAILSPRIG_MENU, menu, (size_t)octets, 1, line, sizeof line);

    if (bits < 0) {
        printf("refusal %d\n", (int)-bits);
        return 1;
    }
    for (int32_t i = 0; i < bits; i++)
        putchar('0' + line[i]);
    putchar('\n');
    return 0;
}
