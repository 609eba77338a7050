/*
 * Runs a deck from standard input by the calls of the library, and prints how each command ended: the lines END, DATA
 * and SENSE that `ckd run` has in its report. A deck's language is in docs/FORMATS.md. What isn't one of its lines is
 * passed over, so give it a deck that `ckd check` takes.
 */
#include <ckd.h>
#include <stdio.h>
#include <stdlib.h>
#include <string.h>

enum { DEVICES = 16, MOST_WORDS = 256, MOST_BYTES = 65536, MOST_FAULTS = 1024 };

static struct ckd_subsystem subsystem;
static struct {
    unsigned path, ordinal;
} running[DEVICES];

/* The devices that are declared, and which reads and writes of each one's volume fail. */
static struct {
    bool is_there;
    unsigned geometry, cylinders;
    uint32_t reads[MOST_FAULTS], writes[MOST_FAULTS];
    size_t read_count, write_count;
} declared[DEVICES];

/* The program that is read. */
static struct {
    unsigned path, device;
    struct ckd_ccw ccws[MOST_WORDS];
    uint8_t bytes[MOST_WORDS * MOST_BYTES];
    size_t word_count, byte_count;
} program;

static void fail(const char *line, uint32_t result)
{
    fprintf(stderr, "deck: %s: %s\n", line, ckd_result_text(result));
    exit(1);
}

static void print_bytes(const char *name, const uint8_t *bytes, size_t count)
{
    printf("%s ", name);
    for (size_t at = 0; at < count; at += 1)
        printf("%02X", bytes[at]);
    printf("\n");
}

static void print_end(unsigned device)
{
    static const char *const notes[] = {"-", "IL", "LIMIT"};
    static uint8_t sent[1 << 21];
    struct ckd_end end;
    size_t count = 0;
    uint32_t result = ckd_last_end(&subsystem, device, &end);
    if (result == CKD_OK)
        result = ckd_last_data(&subsystem, device, sent, sizeof sent, &count);
    if (result != CKD_OK)
        fail("an end", result);
    printf("END %u %u %u %u %02X %u %s\n", running[device].path, device, running[device].ordinal, end.index, end.status,
           end.residual, notes[end.note]);
    if (count > 0)
        print_bytes("DATA", sent, count);
    if (end.has_sense)
        print_bytes("SENSE", end.sense, sizeof end.sense);
}

/* One step. Whether there was one to do. */
static bool step(unsigned device)
{
    uint32_t result = ckd_step(&subsystem, device);
    if (result == CKD_OK)
        print_end(device);
    else if (result != CKD_PART && result != CKD_IDLE)
        fail("a step", result);
    return result != CKD_IDLE;
}

/* One piece of work. Whether there may be another. */
static bool work(unsigned device)
{
    uint32_t did = CKD_DID_NOTHING;
    uint32_t result = ckd_background(&subsystem, device, &did);
    if (result != CKD_OK && result != CKD_PART)
        fail("work", result);
    if (did == CKD_DID_SECOND && result == CKD_OK)
        print_end(device);
    return did != CKD_DID_NOTHING && did != CKD_DID_FAULT && did != CKD_DID_BAD_BYTES;
}

static void start(unsigned path, unsigned device)
{
    uint16_t ordinal;
    if (ckd_start(&subsystem, device, path, &ordinal) == CKD_OK) {
        running[device].path = path;
        running[device].ordinal = ordinal;
    }
}

/* The losses and repairs, which name the cache, the store, or a side of a device. */
static void lose(const char *line)
{
    unsigned device;
    char side;
    if (strncmp(line, "FAIL CACHE", 10) == 0)
        ckd_lose_cache(&subsystem);
    else if (strncmp(line, "FAIL STORE", 10) == 0)
        ckd_lose_store(&subsystem);
    else if (strncmp(line, "REPAIR CACHE", 12) == 0)
        ckd_repair_cache(&subsystem);
    else if (strncmp(line, "REPAIR STORE", 12) == 0)
        ckd_repair_store(&subsystem);
    else if (strncmp(line, "POWER", 5) == 0)
        ckd_lose_power(&subsystem);
    else if (sscanf(line, "FAIL VOLUME %u %c", &device, &side) == 2)
        ckd_lose_side(&subsystem, device, side - 'A');
    else if (sscanf(line, "REPLACE %u %c", &device, &side) == 2)
        ckd_replace_memory(&subsystem, device, side - 'A');
}

/* An event line. An order that is refused changes nothing, and its answer is no end. */
static void event(const char *line)
{
    unsigned first, second;
    if (sscanf(line, "START %u %u", &first, &second) == 2)
        start(first, second);
    else if (sscanf(line, "STEP %u", &first) == 1)
        step(first);
    else if (sscanf(line, "RUN %u", &first) == 1)
        while (step(first))
            ;
    else if (sscanf(line, "BACK %u", &first) == 1)
        work(first);
    else if (sscanf(line, "SETTLE %u", &first) == 1)
        while (work(first))
            ;
    else if (sscanf(line, "RESET %u %u", &first, &second) == 2)
        ckd_reset(&subsystem, second, first);
    else if (sscanf(line, "PAIR %u %u", &first, &second) == 2)
        ckd_pair(&subsystem, first, second);
    else if (sscanf(line, "UNPAIR %u", &first) == 1)
        ckd_part_memory(&subsystem, first);
    else if (sscanf(line, "SUSPEND %u", &first) == 1)
        ckd_suspend(&subsystem, first);
    else if (sscanf(line, "RESUME %u", &first) == 1)
        ckd_resume(&subsystem, first);
    else
        lose(line);
}

/* A device, which is added once all of its faults are read. */
static void declare_device(unsigned device, unsigned geometry, unsigned cylinders)
{
    if (device >= DEVICES)
        fail("a device", CKD_BAD_DEVICE);
    declared[device].is_there = true;
    declared[device].geometry = geometry;
    declared[device].cylinders = cylinders;
}

static void add_devices(void)
{
    for (unsigned device = 0; device < DEVICES; device += 1) {
        if (!declared[device].is_there)
            continue;
        uint32_t result = ckd_add_faulty(&subsystem, device, declared[device].geometry, declared[device].cylinders,
                                         declared[device].reads, declared[device].read_count, declared[device].writes,
                                         declared[device].write_count);
        if (result != CKD_OK)
            fail("a device", result);
        declared[device].is_there = false;
    }
}

/* A read or a write of a declared device's volume that fails. */
static void declare_fault(const char *line)
{
    unsigned device, call;
    if (sscanf(line, "FAULT %u READ %u", &device, &call) == 2 && device < DEVICES && declared[device].read_count < MOST_FAULTS)
        declared[device].reads[declared[device].read_count++] = call;
    else if (sscanf(line, "FAULT %u WRITE %u", &device, &call) == 2 && device < DEVICES && declared[device].write_count < MOST_FAULTS)
        declared[device].writes[declared[device].write_count++] = call;
    else
        fail(line, CKD_BAD_DEVICE);
}

/* A word of the program that is read. */
static void word(const char *line)
{
    unsigned command, flags, count, byte;
    int at = 0, step = 0;
    if (sscanf(line, "CCW %2x %2x %u%n", &command, &flags, &count, &at) != 3 || program.word_count == MOST_WORDS)
        fail(line, CKD_BAD_PROGRAM);
    uint8_t *data = program.bytes + program.byte_count;
    size_t length = 0;
    for (; length < MOST_BYTES - 1 && sscanf(line + at, " %2x%n", &byte, &step) == 1; at += step)
        data[length++] = byte;
    program.ccws[program.word_count++] = (struct ckd_ccw){command, flags, count, data, length};
    program.byte_count += length;
}

static void plan(void)
{
    struct ckd_refusal refusal;
    uint32_t result = ckd_plan(&subsystem, program.device, program.path, program.ccws, program.word_count, &refusal);
    if (result != CKD_OK)
        fail("a program", result);
}

/* A line before EVENTS. */
static void declare(const char *line)
{
    static unsigned frames, slots;
    unsigned first, second, third;
    uint32_t result = CKD_OK;
    if (sscanf(line, "CACHE %u", &frames) == 1)
        return;
    if (sscanf(line, "STORE %u", &slots) == 1)
        result = ckd_open(&subsystem, frames, slots);
    else if (sscanf(line, "DEVICE %u %u %u", &first, &second, &third) == 3)
        declare_device(first, second, third);
    else if (strncmp(line, "FAULT", 5) == 0)
        declare_fault(line);
    else if (sscanf(line, "PROGRAM %u %u", &program.path, &program.device) == 2)
        program.word_count = program.byte_count = 0;
    else if (strncmp(line, "CCW", 3) == 0)
        word(line);
    else if (strncmp(line, "END", 3) == 0)
        plan();
    if (result != CKD_OK)
        fail(line, result);
}

int main(void)
{
    static char line[1 << 20];
    bool has_events = false;
    while (fgets(line, sizeof line, stdin) != NULL) {
        const char *words = line + strspn(line, " ");
        if (line[0] == '*')
            continue;
        if (strncmp(words, "PROGRAM", 7) == 0 || strncmp(words, "EVENTS", 6) == 0)
            add_devices();
        if (has_events)
            event(words);
        else if (strncmp(words, "EVENTS", 6) == 0)
            has_events = true;
        else
            declare(words);
    }
    for (unsigned device = 0; device < DEVICES; device += 1)
        for (unsigned path = 1; path <= 4; path += 1)
            ckd_reset(&subsystem, device, path);
    uint32_t result = ckd_close(&subsystem);
    if (result != CKD_OK)
        fail("not closed", result);
    return 0;
}
