/*
 * Takes chains from standard input, and answers them as a device on a disk image: emulate FILE. A line is one of
 *
 *     CCW command flags count bytes      a word: command, flags and the bytes that are given to it in hexadecimal
 *     GO                                 the words up to here are a chain: it runs
 *
 * Three commands of a real device are no part of the library's, and the host answers them in front of it, as each
 * emulator has to: read IPL (02), read device characteristics (64) and read configuration data (FA).
 */
#include <ckd.h>
#include <fcntl.h>
#include <stdio.h>
#include <stdlib.h>
#include <string.h>

enum { MOST_WORDS = 256, MOST_BYTES = 65536, DEVICE = 0, PATH = 1, FRAMES = 16, SLOTS = 16 };

struct chain {
    struct ckd_ccw ccws[MOST_WORDS];
    uint8_t bytes[MOST_BYTES];
    size_t word_count, byte_count;
};

static void fail(const char *what, uint32_t result)
{
    fprintf(stderr, "emulate: %s: %s\n", what, ckd_result_text(result));
    exit(1);
}

static void print_bytes(const char *name, const uint8_t *bytes, size_t count)
{
    printf("%s ", name);
    for (size_t at = 0; at < count; at += 1)
        printf("%02X", bytes[at]);
    printf("\n");
}

static void add_word(struct chain *chain, uint8_t command, uint8_t flags, uint16_t count, const uint8_t *data, size_t length)
{
    if (chain->word_count == MOST_WORDS)
        fail("the chain is too long", CKD_BAD_PROGRAM);
    chain->ccws[chain->word_count++] = (struct ckd_ccw){command, flags, count, data, length};
}

/* Tells how the last command ended. Whether the program is over. */
static bool print_end(struct ckd_subsystem *subsystem)
{
    static uint8_t sent[65536];
    struct ckd_end end;
    size_t count;
    uint32_t result = ckd_last_end(subsystem, DEVICE, &end);
    if (result != CKD_OK)
        fail("no end", result);
    printf("END %u %02X %u\n", end.index, end.status, end.residual);
    if (end.has_sense)
        print_bytes("SENSE", end.sense, sizeof end.sense);
    if (end.sent > 0 && ckd_last_data(subsystem, DEVICE, sent, sizeof sent, &count) == CKD_OK)
        print_bytes("DATA", sent, count);
    return end.over;
}

/* The chain runs to its end; then the device does what no command waited for, and forgets the chain. */
static void run(struct ckd_subsystem *subsystem, const struct chain *chain)
{
    struct ckd_refusal refusal;
    uint16_t ordinal;
    uint32_t did = CKD_DID_NOTHING;
    uint32_t result = ckd_plan(subsystem, DEVICE, PATH, chain->ccws, chain->word_count, &refusal);
    if (result == CKD_BAD_PROGRAM) {
        printf("BAD %u %u\n", refusal.word, refusal.why);
        return;
    }
    if (result == CKD_OK)
        result = ckd_start(subsystem, DEVICE, PATH, &ordinal);
    if (result != CKD_OK)
        fail("not started", result);
    do {
        result = ckd_step(subsystem, DEVICE);
        if (result != CKD_OK)
            fail("a command", result);
    } while (!print_end(subsystem));
    do {
        result = ckd_background(subsystem, DEVICE, &did);
    } while (result == CKD_OK && did != CKD_DID_NOTHING && did != CKD_DID_FAULT && did != CKD_DID_BAD_BYTES);
    result = ckd_forget(subsystem, DEVICE);
    if (result != CKD_OK)
        fail("not forgotten", result);
}

/* Read IPL: seek to the first track, and read the 24 bytes of its first record. */
static void read_ipl(struct ckd_subsystem *subsystem, uint16_t count)
{
    static struct chain chain;
    const uint8_t extent[16] = {0x40, 0xc0};
    const uint8_t locate[16] = {0x06, 0, 0, 1, 0, 0, 0, 0, 0, 0, 0, 0, 1};
    chain.word_count = 0;
    add_word(&chain, 0x63, CKD_CHAIN, 16, extent, 16);
    add_word(&chain, 0x47, CKD_CHAIN, 16, locate, 16);
    add_word(&chain, 0x06, CKD_SUPPRESS_LENGTH, count, NULL, 0);
    run(subsystem, &chain);
}

/* Read device characteristics: a storage control 3990-3, a 3390, its cylinders, its tracks in each. The rest is zeros. */
static void read_characteristics(struct ckd_subsystem *subsystem, uint16_t count)
{
    struct ckd_counts counts;
    uint8_t told[64] = {0x39, 0x90, 0xc2, 0x33, 0x90, 0x02};
    uint32_t result = ckd_counts(subsystem, DEVICE, &counts);
    if (result != CKD_OK)
        fail("no counts", result);
    told[12] = counts.cylinders >> 8;
    told[13] = counts.cylinders & 0xff;
    told[15] = 15;
    printf("HOST 0 0C %u\n", count > sizeof told ? (unsigned)(count - sizeof told) : 0);
    print_bytes("DATA", told, count < sizeof told ? count : sizeof told);
}

/* Read configuration data: one node, of a device that a host of this example would name itself. */
static void read_configuration(uint16_t count)
{
    const uint8_t told[32] = {0xcc, 0x01, 0x01, 0x00, 0xf0, 0xf0, 0xf3, 0xf3, 0xf9, 0xf0};
    printf("HOST 0 0C %u\n", count > sizeof told ? (unsigned)(count - sizeof told) : 0);
    print_bytes("DATA", told, count < sizeof told ? count : sizeof told);
}

/* What the host answers itself, or else the device. */
static void answer(struct ckd_subsystem *subsystem, const struct chain *chain)
{
    struct ckd_ccw first = chain->word_count > 0 ? chain->ccws[0] : (struct ckd_ccw){0};
    if (first.command == 0x02)
        read_ipl(subsystem, first.count);
    else if (first.command == 0x64)
        read_characteristics(subsystem, first.count);
    else if (first.command == 0xfa)
        read_configuration(first.count);
    else
        run(subsystem, chain);
}

/* A line's word. Its bytes stand behind those of the lines before it. */
static void take_word(struct chain *chain, const char *line)
{
    unsigned command, flags, count, byte;
    const uint8_t *data = chain->bytes + chain->byte_count;
    size_t before = chain->byte_count;
    int at = 0, step = 0;
    if (sscanf(line, "CCW %x %x %u %n", &command, &flags, &count, &at) != 3 || at == 0)
        fail("a line is bad", CKD_BAD_PROGRAM);
    for (; chain->byte_count < MOST_BYTES && sscanf(line + at, " %2x%n", &byte, &step) == 1; at += step)
        chain->bytes[chain->byte_count++] = byte;
    if (chain->byte_count == MOST_BYTES)
        fail("the chain is too long", CKD_BAD_PROGRAM);
    add_word(chain, command, flags, count, data, chain->byte_count - before);
}

int main(int count, char **arguments)
{
    static struct chain chain;
    static char line[200000];
    struct ckd_subsystem subsystem = {0};
    int file = count == 2 ? open(arguments[1], O_RDWR) : -1;
    if (file < 0)
        return fprintf(stderr, "emulate: no file to read and write\n"), 2;
    uint32_t result = ckd_open(&subsystem, FRAMES, SLOTS);
    if (result == CKD_OK)
        result = ckd_add_image(&subsystem, DEVICE, (struct ckd_file){&file});
    if (result != CKD_OK)
        fail("not opened", result);
    while (fgets(line, sizeof line, stdin) != NULL) {
        if (strncmp(line, "CCW ", 4) == 0) {
            take_word(&chain, line);
        } else if (strncmp(line, "GO", 2) == 0) {
            answer(&subsystem, &chain);
            chain.word_count = chain.byte_count = 0;
        }
    }
    result = ckd_flush(&subsystem);
    if (result == CKD_OK)
        result = ckd_close(&subsystem);
    if (result != CKD_OK)
        fail("not closed", result);
    return 0;
}
