/* Millions of chains a second by the calls of c/ckd.h: library KIND COUNT, where KIND is n (a no-operation), r (define extent, locate
 * record and read of 4,096 bytes, from the cache, which are copied out), or l (turns of a loop). One device, one track, one thread; what
 * ended is forgotten every 16 chains. */
#include <ckd.h>
#include <stdio.h>
#include <stdlib.h>
#include <time.h>

enum { SIZE = 4096, PARAMETERS = 16, COUNT = 8 };

static const uint8_t reading[PARAMETERS] = {0x40, 0xc0}, at[PARAMETERS] = {0x06, [3] = 1, [12] = 1};
static const uint8_t formatting[PARAMETERS] = {0xc0, 0xc0}, before[PARAMETERS] = {0x03, [3] = 1};
static const uint8_t record[COUNT + SIZE] = {[4] = 1, 0, SIZE >> 8, SIZE & 0xff};
static const struct ckd_ccw nothing[] = {{0x03, 0, 1, NULL, 0}};
static const struct ckd_ccw reads[] = {
    {0x63, CKD_CHAIN, 16, reading, PARAMETERS}, {0x47, CKD_CHAIN, 16, at, PARAMETERS}, {0x06, 0, SIZE, NULL, 0}};
static const struct ckd_ccw formats[] = {{0x63, CKD_CHAIN, 16, formatting, PARAMETERS},
                                         {0x47, CKD_CHAIN, 16, before, PARAMETERS},
                                         {0x1d, 0, COUNT + SIZE, record, sizeof record}};

static void is_done(uint32_t result)
{
    if (result == CKD_OK)
        return;
    fprintf(stderr, "library: %s\n", ckd_result_text(result));
    exit(1);
}

static void run(struct ckd_subsystem *subsystem, const struct ckd_ccw *ccws, size_t number)
{
    struct ckd_refusal refusal;
    uint16_t ordinal;
    is_done(ckd_plan(subsystem, 0, 1, ccws, number, &refusal));
    is_done(ckd_start(subsystem, 0, 1, &ordinal));
    is_done(ckd_run(subsystem, 0, 8));
}

/* So many turns of a loop, of one multiplication and one addition each, which wait for each other. */
static uint64_t turn(long turns)
{
    uint64_t x = 1;
    for (long at = 0; at < turns; at += 1)
        x = x * 6364136223846793005u + 1442695040888963407u;
    return x;
}

static void do_chains(struct ckd_subsystem *subsystem, bool is_read, long chains)
{
    static uint8_t sent[SIZE];
    size_t told = SIZE;
    for (long chain = 0; chain < chains; chain += 1) {
        run(subsystem, is_read ? reads : nothing, is_read ? 3 : 1);
        if (is_read)
            is_done(ckd_last_data(subsystem, 0, sent, sizeof sent, &told));
        if (told != SIZE)
            is_done(CKD_NO_END);
        if (chain % 16 == 15)
            is_done(ckd_forget(subsystem, 0));
    }
}

int main(int count, char **arguments)
{
    struct ckd_subsystem subsystem = {0};
    struct timespec begin, end;
    volatile uint64_t turned;
    if (count != 3)
        return 2;
    long times = atol(arguments[2]);
    is_done(ckd_open(&subsystem, 4, 4));
    is_done(ckd_add_memory(&subsystem, 0, 3390, 1));
    run(&subsystem, formats, 3);
    do_chains(&subsystem, true, 16);
    clock_gettime(CLOCK_PROCESS_CPUTIME_ID, &begin);
    if (arguments[1][0] == 'l')
        turned = turn(times);
    else
        do_chains(&subsystem, arguments[1][0] == 'r', times);
    clock_gettime(CLOCK_PROCESS_CPUTIME_ID, &end);
    (void)turned;
    double seconds = (double)(end.tv_sec - begin.tv_sec) + (double)(end.tv_nsec - begin.tv_nsec) / 1e9;
    printf("%.3f\n", (double)times / seconds / 1e6);
    is_done(ckd_close(&subsystem));
    return 0;
}
