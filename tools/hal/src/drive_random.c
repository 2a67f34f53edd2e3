/*
 * Writes a random script: what a correct framework may do, and what our two HALs shall lack. It opens a camera once or
 * twice, configures it a few times, sends bursts with fences, flushes now and then, also while requests are sent and
 * from several threads, and closes it, also while the camera has requests.
 */
#include "drive.h"

#include <inttypes.h>
#include <stdio.h>

struct dice {
    uint64_t state;
};

/* A number from 0 to below the count. */
static unsigned int roll(struct dice *dice, unsigned int count)
{
    uint64_t mixed = dice->state += UINT64_C(0x9E3779B97F4A7C15);

    mixed = (mixed ^ (mixed >> 30)) * UINT64_C(0xBF58476D1CE4E5B9);
    mixed = (mixed ^ (mixed >> 27)) * UINT64_C(0x94D049BB133111EB);
    return (unsigned int)((mixed ^ (mixed >> 31)) % count);
}

static bool chance(struct dice *dice, unsigned int percent)
{
    return roll(dice, 100) < percent;
}

#define STREAMS 4

/* The small camera HAL's own: what it lacks. */
static void write_environment(struct dice *dice)
{
    static const char *const kinds[] = { "request", "result", "buffer" };
    char comma = ' ';

    printf("env FAKE_PARTIALS %u\n", 1 + roll(dice, 4));
    printf("env FAKE_MAX_BUFFERS %u\n", 1 + roll(dice, 5));
    printf("env FAKE_FRAME_US %u\n", 200 + roll(dice, 1500));
    printf("env FAKE_FENCE_MS %u\n", 5 + roll(dice, 60));
    if (chance(dice, 30))
        printf("env FAKE_EARLY 1\n");
    if (chance(dice, 10))
        printf("env FAKE_DIE_AFTER %u\n", 1 + roll(dice, 30));
    if (chance(dice, 30))
        return;
    printf("env FAKE_DROP");
    for (size_t i = 0; i < 3; i++)
        if (chance(dice, 60) || (i == 2 && comma == ' ')) {
            printf("%c%s:%u", comma, kinds[i], 2 + roll(dice, 9));
            comma = ',';
        }
    printf("\n");
}

/* The reference HAL's: faults, and whether its frames wait. Dice of its own: so the rest of a seed's script stays. */
static void write_reference_environment(uint64_t seed)
{
    static const char *const kinds[] = { "request", "result", "buffer" };
    struct dice dice = { ~seed };
    const char *before = "env PAUVIGRE_FAULTS ";

    if (chance(&dice, 90))
        printf("env PAUVIGRE_FAST 1\n");
    for (unsigned int i = roll(&dice, 8); i > 0; i--) {
        unsigned int kind = roll(&dice, 3);

        printf("%s%s %u", before, kinds[kind], roll(&dice, 60));
        if (kind == 2)
            printf(" %u", roll(&dice, STREAMS));
        before = ", ";
    }
    if (chance(&dice, 10)) {
        printf("%sdevice %u", before, roll(&dice, 60));
        before = ", ";
    }
    if (before[0] == ',')
        printf("\n");
}

static void write_streams(struct dice *dice)
{
    static const char *const formats[STREAMS] = { "YUV", "IMPL", "BLOB", "RAW16" };

    for (unsigned int i = 0; i < STREAMS; i++)
        printf("stream %u %s %ux%u\n", i, formats[i], 32 + 32 * roll(dice, 8), 32 + 32 * roll(dice, 8));
}

/* Some of the streams, at least one; gives them as bits. */
static unsigned int write_choice(struct dice *dice, unsigned int from)
{
    unsigned int chosen = 0;

    while (chosen == 0)
        for (unsigned int i = 0; i < STREAMS; i++)
            if ((from >> i & 1) != 0 && chance(dice, 60))
                chosen |= 1u << i;
    for (unsigned int i = 0; i < STREAMS; i++)
        if ((chosen >> i & 1) != 0)
            printf(" %u", i);
    return chosen;
}

/* A device may wait for fences that are never signalled as long as it wants: few requests have them, and then comes a
 * flush. */
static void write_burst(struct dice *dice, unsigned int streams)
{
    bool never = chance(dice, 5);

    printf("burst %u", 1 + roll(dice, never ? 3 : 8));
    write_choice(dice, streams);
    if (chance(dice, 25))
        printf(" gap %u", roll(dice, 3));
    if (never)
        printf(" fence never");
    else if (chance(dice, 30))
        printf(" fence %u", chance(dice, 50) ? 0 : roll(dice, 25));
    if (chance(dice, 20))
        printf(" settings");
    printf("\n%s", never ? "flush\n" : "");
}

static void write_step(struct dice *dice, unsigned int streams)
{
    switch (roll(dice, 12)) {
    case 0: printf("flush\n"); break;
    case 1:
        printf("later %u flush\n", roll(dice, 12));
        if (chance(dice, 40))
            printf("later %u flush\n", roll(dice, 25));
        write_burst(dice, streams);
        printf("join\n");
        break;
    case 2: printf("sleep %u\n", roll(dice, 15)); break;
    case 3: printf("drain\n"); break;
    case 4: printf("template %u\n", 1 + roll(dice, 6)); break;
    default: write_burst(dice, streams); break;
    }
}

static void write_session(struct dice *dice)
{
    unsigned int configurations = 1 + roll(dice, 3);

    printf("open\ninit\n");
    if (chance(dice, 90))
        printf("template 1\n");
    for (unsigned int i = 0; i < configurations; i++) {
        unsigned int streams, steps = 1 + roll(dice, 6);

        printf("configure");
        streams = write_choice(dice, (1u << STREAMS) - 1);
        printf("\n");
        for (unsigned int step = 0; step < steps; step++)
            write_step(dice, streams);
        if (chance(dice, 30))
            printf("flush\n");
    }
    printf("close\n");
}

void drive_write_random(uint64_t seed)
{
    struct dice dice = { seed };
    unsigned int sessions = 1 + (unsigned int)chance(&dice, 25);

    printf("# the script of seed %" PRIu64 "\n", seed);
    write_environment(&dice);
    write_reference_environment(seed);
    write_streams(&dice);
    for (unsigned int i = 0; i < sessions; i++)
        write_session(&dice);
}
