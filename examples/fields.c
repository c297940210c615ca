#include <stdio.h>
#include <string.h>
#include <tailsprig.h>

/*
 * The firmware level of a logger, out of its CM; and ours, into a CM of our own. Loggers of one maker say it in a block with these codes:
 * the rest of the block are the level's two numbers. Exits with 1 where a level is not what it should be.
 */
enum { COUNTRY = 0xB5 };
static const uint8_t PROVIDER[] = {'R', 'V', 'S', 'D'};

/* A CM as it was heard. Its field has a block of someone else, and then the maker's with level 4.19. */
static const uint8_t HEARD[] = {
    0xC1, 0x45, 0x13, 0x90, 0x2A, 0x0F, 0x14, 0xD0, 0xD7, 0x11, 0x90, 0x10, 0xD4, 0x10,
    0x50, 0x50, 0x55, 0x51, 0x10, 0x51, 0xD1, 0x52, 0x93, 0x12, 0x91, 0x50, 0x90, 0x51,
    0x10,
};

/* Our own block, for level 2.7: its length, the country code, the length of the provider code, that code, the rest. */
static const uint8_t OURS[] = {8, COUNTRY, 4, 'R', 'V', 'S', 'D', 2, 7};

static bool is_the_makers(const uint8_t *octets, struct tailsprig_block block)
{
    return block.country.size == 1 && octets[block.country.place] == COUNTRY && block.provider.size == sizeof PROVIDER &&
           memcmp(octets + block.provider.place, PROVIDER, sizeof PROVIDER) == 0 && block.rest.size == 2;
}

/* Prints the level that a CM carries, and says whether it is this one. */
static bool says_level(const uint8_t *cm, size_t cm_len, uint8_t major, uint8_t minor)
{
    uint8_t octets[TAILSPRIG_FIELD_MOST];
    int32_t len = tailsprig_fields(cm, cm_len, octets, sizeof octets);

    /* Where the field is not refused all blocks fit, so there is one at each of these places. */
    for (int32_t at = 0; at < len;) {
        struct tailsprig_block block = tailsprig_block_at(octets, (size_t)len, (size_t)at);
        const uint8_t *rest = octets + block.rest.place;

        if (is_the_makers(octets, block)) {
            printf("level %u.%u\n", rest[0], rest[1]);
            return rest[0] == major && rest[1] == minor;
        }
        at += (int32_t)block.whole.size;
    }
    printf("no level\n");
    return false;
}

int main(void)
{
    struct tailsprig_record own = {
        .functions[TAILSPRIG_FUNCTION_DATA - 1] = {.available = 1, .items = TAILSPRIG_V32BIS | TAILSPRIG_V22BIS | TAILSPRIG_V21},
        .home = TAILSPRIG_FUNCTION_DATA,
        .lapm = 1,
    };
    uint8_t menu[TAILSPRIG_MENU_MOST];
    int32_t octets = tailsprig_cm(own, TAILSPRIG_FUNCTION_DATA, OURS, sizeof OURS, menu, sizeof menu);

    if (octets < 0) {
        printf("refusal %d\n", (int)-octets);
        return 1;
    }
    printf("heard: ");
    bool heard = says_level(HEARD, sizeof HEARD, 4, 19);
    printf("our CM:");
    for (int32_t i = 0; i < octets; i++)
        printf(" %02X", menu[i]);
    printf("\nread back: ");
    return says_level(menu, (size_t)octets, 2, 7) && heard ? 0 : 1;
}
