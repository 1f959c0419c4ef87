/* Plays a show file of levels on a host made by numbers, twice, and prints the log of both runs: the state lasts from one run to the next.
 *
 *     (cd crates/driver && rt lib)
 *     mkdir -p target && cc -Iinclude examples/play.c crates/driver/out/libdriver.a -o target/play
 *     target/play crates/playback/data/level.show
 */
#include "nuvkerd.h"
#include <stdio.h>
#include <stdlib.h>

#define LONGEST 65536
#define CELLS 8

static uint8_t show[LONGEST + 1];
static nuvkerd_record log_records[LONGEST / 32];

static void must(const char *what, uint32_t refusal)
{
    if (refusal != 0) {
        fprintf(stderr, "play: %s: refusal %u\n", what, refusal);
        exit(1);
    }
}

/* The rig of crates/playback/data/level.setup. */
static nuvkerd_rig level_rig(void)
{
    uint32_t refusal;
    nuvkerd_rig rig = nuvkerd_rig_new(NUVKERD_LEVELS, 1, CELLS, &refusal);
    must("rig", refusal);
    must("grant", nuvkerd_rig_grant(&rig, 0, 0, 3));
    must("grant", nuvkerd_rig_grant(&rig, 1, 0, 1));
    must("grant", nuvkerd_rig_grant(&rig, 2, 0, 0));
    must("grant", nuvkerd_rig_grant(&rig, 4, 1, 3));
    must("grant", nuvkerd_rig_grant(&rig, 5, 1, 3));
    must("grant", nuvkerd_rig_grant(&rig, 6, 1, 1));
    must("grant", nuvkerd_rig_grant(&rig, 7, 1, 1));
    must("swap", nuvkerd_rig_swap(&rig, 3));
    must("port", nuvkerd_rig_port(&rig, 2, 0x01, 0x02));
    return rig;
}

static void print_log(nuvkerd_outcome outcome)
{
    for (uint32_t i = 0; i < outcome.commands; i++) {
        const nuvkerd_record *r = &log_records[i];
        printf("%5u  part %u  kind %u  ", r->place, r->part, r->kind);
        if (r->refusal != 0)
            printf("refusal %u, detail %u\n", r->refusal, r->detail);
        else {
            printf("done, missed %u:", r->missed);
            for (unsigned k = 0; k < r->count; k++)
                printf(" %u", r->words[2 * k]);
            printf("\n");
        }
    }
    printf("%u commands\n", outcome.commands);
}

int main(int argc, char **argv)
{
    if (argc != 2) {
        fprintf(stderr, "play: usage: play SHOW\n");
        return 1;
    }
    FILE *file = fopen(argv[1], "rb");
    if (file == NULL) {
        perror(argv[1]);
        return 1;
    }
    size_t length = fread(show, 1, sizeof show, file);
    fclose(file);

    nuvkerd_rig rig = level_rig();
    uint32_t cells[2 * CELLS] = {128, 0, 128, 0, 255, 0, [14] = 255};
    uint32_t refusal;
    nuvkerd_host host = nuvkerd_make(&rig, cells, 2 * CELLS, &refusal);
    must("making", refusal);

    for (int run = 1; run <= 2; run++) {
        nuvkerd_outcome outcome = nuvkerd_run(&host, cells, 2 * CELLS, show, length, log_records, LONGEST / 32);
        must(argv[1], outcome.refusal);
        printf("run %d\n", run);
        print_log(outcome);
    }
    for (unsigned n = 0; n < CELLS; n++)
        printf("cell %u: %u\n", n, cells[2 * n]);
    return 0;
}
