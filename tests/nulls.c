/*
 * Gives NULL to each call of c/ckd.h wherever it takes a pointer: each time it must answer CKD_NULL, or go on where a
 * length of 0 goes with the pointer. Prints the calls that don't, and ends with their count.
 */
#include <ckd.h>
#include <stdio.h>

static int wrong;

static void answers(uint32_t wanted, uint32_t result, const char *call)
{
    if (result == wanted)
        return;
    fprintf(stderr, "nulls: %s: %s\n", call, ckd_result_text(result));
    wrong += 1;
}

#define REFUSES(call) answers(CKD_NULL, call, #call)
#define TAKES(call) answers(CKD_OK, call, #call)

static void give_no_subsystem(void)
{
    static const struct ckd_ccw no_operation = {0x03, 0, 1, NULL, 0};
    struct ckd_refusal refusal;
    struct ckd_end end;
    struct ckd_counts counts;
    const int descriptor = 0;
    const struct ckd_file file = {&descriptor};
    const uint32_t call = 1;
    uint8_t bytes[1];
    uint16_t half;
    uint32_t did;
    size_t count;
    REFUSES(ckd_open(NULL, 1, 1));
    REFUSES(ckd_add_memory(NULL, 0, 3390, 1));
    REFUSES(ckd_add_faulty(NULL, 0, 3390, 1, &call, 1, &call, 1));
    REFUSES(ckd_add_image(NULL, 0, file));
    REFUSES(ckd_plan(NULL, 0, 1, &no_operation, 1, &refusal));
    REFUSES(ckd_left(NULL, 0, 1, &half));
    REFUSES(ckd_forget(NULL, 0));
    REFUSES(ckd_start(NULL, 0, 1, &half));
    REFUSES(ckd_step(NULL, 0));
    REFUSES(ckd_run(NULL, 0, 1));
    REFUSES(ckd_last_end(NULL, 0, &end));
    REFUSES(ckd_last_data(NULL, 0, bytes, 1, &count));
    REFUSES(ckd_background(NULL, 0, &did));
    REFUSES(ckd_reset(NULL, 0, 1));
    REFUSES(ckd_pair(NULL, 0, 1));
    REFUSES(ckd_suspend(NULL, 0));
    REFUSES(ckd_resume(NULL, 0));
    REFUSES(ckd_part_memory(NULL, 0));
    REFUSES(ckd_part_image(NULL, 0, file));
    REFUSES(ckd_lose_cache(NULL));
    REFUSES(ckd_lose_store(NULL));
    REFUSES(ckd_lose_power(NULL));
    REFUSES(ckd_repair_cache(NULL));
    REFUSES(ckd_repair_store(NULL));
    REFUSES(ckd_lose_side(NULL, 0, CKD_SIDE_A));
    REFUSES(ckd_replace_memory(NULL, 0, CKD_SIDE_A));
    REFUSES(ckd_replace_image(NULL, 0, CKD_SIDE_A, file));
    REFUSES(ckd_counts(NULL, 0, &counts));
    REFUSES(ckd_flush(NULL));
    REFUSES(ckd_close(NULL));
}

static void give_nowhere_to_read(struct ckd_subsystem *subsystem)
{
    static const struct ckd_ccw no_data = {0x63, 0, 16, NULL, 16};
    const struct ckd_file no_file = {NULL};
    struct ckd_refusal refusal;
    REFUSES(ckd_add_faulty(subsystem, 1, 3390, 1, NULL, 1, NULL, 0));
    REFUSES(ckd_add_faulty(subsystem, 1, 3390, 1, NULL, 0, NULL, 1));
    REFUSES(ckd_add_image(subsystem, 1, no_file));
    REFUSES(ckd_plan(subsystem, 0, 1, NULL, 1, &refusal));
    REFUSES(ckd_plan(subsystem, 0, 1, &no_data, 1, &refusal));
    REFUSES(ckd_part_image(subsystem, 0, no_file));
    REFUSES(ckd_replace_image(subsystem, 0, CKD_SIDE_A, no_file));
    TAKES(ckd_add_faulty(subsystem, 2, 3390, 1, NULL, 0, NULL, 0));
}

static void give_nowhere_to_write(struct ckd_subsystem *subsystem)
{
    static const struct ckd_ccw no_operation = {0x03, 0, 1, NULL, 0};
    uint8_t bytes[1];
    size_t count;
    REFUSES(ckd_plan(subsystem, 0, 1, &no_operation, 1, NULL));
    REFUSES(ckd_left(subsystem, 0, 1, NULL));
    REFUSES(ckd_start(subsystem, 0, 1, NULL));
    REFUSES(ckd_last_end(subsystem, 0, NULL));
    REFUSES(ckd_last_data(subsystem, 0, NULL, 1, &count));
    REFUSES(ckd_last_data(subsystem, 0, bytes, 1, NULL));
    REFUSES(ckd_background(subsystem, 0, NULL));
    REFUSES(ckd_counts(subsystem, 0, NULL));
}

/* Words without data, and no room for what was sent, are no reason to refuse. */
static void go_on(struct ckd_subsystem *subsystem)
{
    static struct ckd_ccw many[300];
    struct ckd_refusal refusal = {0, 0};
    uint16_t ordinal;
    size_t count;
    many[0] = (struct ckd_ccw){0x03, 0, 1, NULL, 0};
    TAKES(ckd_plan(subsystem, 0, 1, many, 1, &refusal));
    TAKES(ckd_start(subsystem, 0, 1, &ordinal));
    TAKES(ckd_run(subsystem, 0, 1));
    TAKES(ckd_last_data(subsystem, 0, NULL, 0, &count));
    answers(CKD_BAD_PROGRAM, ckd_plan(subsystem, 0, 1, NULL, 0, &refusal), "a program without words");
    answers(CKD_WHY_EMPTY, refusal.why, "why it is refused");
    answers(CKD_BAD_PROGRAM, ckd_plan(subsystem, 0, 1, many, 300, &refusal), "a program of 300 words");
    answers(CKD_WHY_TOO_LONG, refusal.why, "why it is refused");
}

int main(void)
{
    struct ckd_subsystem subsystem = {0};
    give_no_subsystem();
    TAKES(ckd_open(&subsystem, 1, 1));
    TAKES(ckd_add_memory(&subsystem, 0, 3390, 1));
    give_nowhere_to_read(&subsystem);
    give_nowhere_to_write(&subsystem);
    go_on(&subsystem);
    TAKES(ckd_close(&subsystem));
    return wrong;
}
