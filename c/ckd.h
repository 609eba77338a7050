/*
 * ckd.h - count-key-data devices behind the cache and the nonvolatile store of a 3990, for emulators.
 *
 * LINK        c/make_library makes c/out/libckd.a. Then: cc program.c -I c c/out/libckd.a
 *
 * SUBSYSTEMS  A struct ckd_subsystem is the caller's memory, of any kind. Zeros are a closed one:
 *
 *                 struct ckd_subsystem subsystem = {0};
 *
 *             ckd_open opens it without devices, ckd_add_memory and ckd_add_image add some, ckd_close closes it.
 *             Between open and close it may be moved but not copied, and nothing in it may be read or written by
 *             the caller. Its devices share the frames of its cache and the slots of its store. There may be any
 *             number of subsystems.
 *
 * THREADS     One call at a time for one subsystem, and all its calls in one thread. Several subsystems may be
 *             called in several threads at once, each in its own. The library starts no thread, takes no lock,
 *             and may not be called from a signal handler.
 *
 * MEMORY      The library takes memory by malloc, and ckd_close frees all that a subsystem has. What a call is
 *             given is the caller's again when it returns; nothing of it is kept. A pointer that is NULL is refused
 *             (CKD_NULL), but where it goes with a length of 0. What the pointers of one call lead to may not overlap,
 *             but for what is only read. Lengths count elements.
 *
 * RESULTS     Each call answers an enum ckd_result. By an answer that refuses, nothing was changed; each
 *             subsystem stays usable after any answer. No call aborts. CKD_NO_MEMORY: the same call may be made
 *             again when there is memory; of ckd_step, ckd_run and ckd_background a track may have come into the
 *             cache.
 *
 * PROOFS      What a call does is proved, of the call of its name behind ckd_c_, but not that it refuses NULL: these
 *             are lines of C (c/calls.c), which tests/try_c tries.
 *
 * NUMBERS     Devices are numbered from 0 to 15, and channel paths from 1 to 4, as the deck language and the
 *             messages of the control do.
 *
 * FORGET      A device keeps what it knows of programs that ended, until ckd_forget: a path has 65,535 programs at
 *             most between two such calls.
 */
#ifndef CKD_H
#define CKD_H

#include <stdbool.h>
#include <stddef.h>
#include <stdint.h>

#ifdef __cplusplus
extern "C" {
#endif

enum ckd_result {
    CKD_OK = 0,
    CKD_CLOSED = 1,        /* the subsystem isn't open */
    CKD_OPEN = 2,          /* it is open already */
    CKD_NO_MEMORY = 3,     /* memory is lacking */
    CKD_BAD_DEVICE = 4,    /* a device's number isn't one from 0 to 15 */
    CKD_BAD_PATH = 5,      /* a path isn't one from 1 to 4 */
    CKD_BAD_SIDE = 6,      /* a side isn't one of enum ckd_side */
    CKD_BAD_GEOMETRY = 7,  /* it is neither 3380 nor 3390 */
    CKD_BAD_CYLINDERS = 8, /* it isn't one from 1 to 4369 */
    CKD_BAD_IMAGE = 9,     /* the file is no image that is taken: not plain, in several files, or of another length */
    CKD_FILE_FAULT = 10,   /* a call of the file failed */
    CKD_NULL = 11,         /* a pointer is NULL, and no length is 0 that goes with it */
    CKD_BAD_PROGRAM = 12,  /* a word is bad: struct ckd_refusal says which, and why */
    CKD_NO_DEVICE = 13,    /* no device of this number is there */
    CKD_NOT_LAST = 14,     /* a device of this number, or of one above, is there */
    CKD_NOT_ALIKE = 15,    /* another model, or another count of cylinders */
    CKD_PLAN_FULL = 16,    /* the path has 65,535 programs */
    CKD_IDLE = 17,         /* no program runs */
    CKD_RUNNING = 18,      /* a program runs still */
    CKD_PART = 19,         /* a part of a write is done, and no command ended */
    CKD_NO_END = 20,       /* no command of the program has ended */
    CKD_WAITS = 21,        /* tracks wait that ckd_background is to recover first */
    CKD_LENT = 22,         /* the device's volume is lent to another's pair */
    CKD_BUSY = 23,         /* a program of another path runs */
    CKD_NOT_PLANNED = 24,  /* the path has no program that waits */
    CKD_SHUT = 25,         /* another path holds the device, and keeps out the programs of all paths */
    CKD_RESERVED = 26,     /* another path holds the device, and keeps out this program */
    CKD_SAME = 27,         /* both devices are the same */
    CKD_PAIRED = 28,       /* one of the devices is a pair */
    CKD_UNPAIRED = 29,     /* the device is no pair */
    CKD_NO_SIDE = 30,      /* side B of a device that is no pair */
    CKD_DOWN = 31,         /* it is lost */
    CKD_UP = 32,           /* it isn't lost */
    CKD_NOT_LEVEL = 33,    /* tracks of side A are still to be copied from side B */
    CKD_HALF = 34,         /* a write is half done: ckd_step does its second part */
    CKD_HELD = 35,         /* side B is held already */
    CKD_NOT_HELD = 36      /* side B isn't held */
};

/* The name of an answer. */
static inline const char *ckd_result_text(uint32_t result)
{
    static const char *const texts[] = {
        "ok", "the subsystem isn't open", "the subsystem is open already", "no memory",
        "no such device number", "no such path", "no such side", "neither 3380 nor 3390",
        "not 1 to 4369 cylinders", "no image that is taken", "a call of the file failed",
        "a pointer is NULL", "a word is bad", "no such device",
        "a device of this number or above is there", "another model or size", "the path's plan is full",
        "no program runs", "a program runs still", "a part of a write is done", "no command has ended",
        "tracks wait for the background", "the volume is lent", "a program of another path runs",
        "no program waits", "the device is shut", "the device is reserved", "both devices are the same",
        "it is a pair already", "it is no pair", "there is no such side", "it is lost", "it isn't lost",
        "side A lacks tracks", "a write is half done", "side B is held", "side B isn't held"};
    return result < sizeof texts / sizeof *texts ? texts[result] : "no such answer";
}

/* A subsystem, or none. Its members are the library's. */
struct ckd_subsystem {
    bool is_open;
    void *place;
};

/* Where the caller has the descriptor of an open file. It is read there during the call alone. */
struct ckd_file {
    const int *descriptor;
};

/*
 * ckd_open - opens a subsystem without devices.
 *
 * frames   how many tracks its cache holds
 * slots    how many tracks' changed bytes its nonvolatile store holds
 *
 * CKD_OK, CKD_OPEN, CKD_NO_MEMORY
 */
uint32_t ckd_open(struct ckd_subsystem *subsystem, uint16_t frames, uint16_t slots);

/*
 * ckd_add_memory - adds a device of empty tracks in memory.
 * ckd_add_faulty - the same, for tests of what stands above: some of its volume's calls fail.
 * ckd_add_image  - adds a device on the disk image in an open file.
 *
 * device          its number, above those of all devices that are there
 * geometry        3380 or 3390
 * cylinders       1 to 4369, with 15 tracks each; 86,048 bytes are set aside for each track, and resident once written
 * reads, writes   which of the volume's reads and writes fail, counted from 1 on, also in a pair. They are copied.
 * file            where the caller has a descriptor that was opened to read and write, of a plain CKD image in one
 *                 file. The library duplicates it twice, and closes these two at ckd_close: the caller's own stays
 *                 the caller's, and may be closed at once. Nobody else may write the file meanwhile (take a lock).
 *                 The library reads and writes by pread and pwrite, and makes a call again that a signal interrupts.
 *
 * CKD_OK, CKD_CLOSED, CKD_BAD_DEVICE, CKD_NOT_LAST, CKD_LENT (add devices before any are paired), CKD_NO_MEMORY; in
 * memory CKD_BAD_GEOMETRY, CKD_BAD_CYLINDERS; on an image CKD_BAD_IMAGE, CKD_FILE_FAULT. Only the head of an image
 * is read: a track that is none is a data check later.
 */
uint32_t ckd_add_memory(struct ckd_subsystem *subsystem, uint8_t device, uint32_t geometry, uint16_t cylinders);
uint32_t ckd_add_faulty(struct ckd_subsystem *subsystem, uint8_t device, uint32_t geometry, uint16_t cylinders,
                        const uint32_t *reads, size_t read_count, const uint32_t *writes, size_t write_count);
uint32_t ckd_add_image(struct ckd_subsystem *subsystem, uint8_t device, struct ckd_file file);

enum ckd_flags {
    CKD_SKIP = 0x10,            /* what the command sends isn't kept */
    CKD_SUPPRESS_LENGTH = 0x20, /* another count than the area's is no incorrect length */
    CKD_CHAIN = 0x40            /* command chaining: the next word follows */
};

/*
 * A channel command word. count is the byte count, from 1 on. data is where its bytes are, and length how many: what
 * a write, a control command or a search sends, the rest up to the count being zeros; none at a read or a sense. Of a
 * transfer in channel (08) count is the index of the word that follows it.
 */
struct ckd_ccw {
    uint8_t command;
    uint8_t flags;
    uint16_t count;
    const uint8_t *data;
    size_t length;
};

enum ckd_why {
    CKD_WHY_EMPTY = 1,          /* there are no words */
    CKD_WHY_TOO_LONG = 2,       /* there are more than 256 */
    CKD_WHY_BAD_COMMAND = 3,    /* a code's low digit is 0, or it is 8 and the code isn't 08 */
    CKD_WHY_BAD_FLAGS = 4,      /* another flag than those of enum ckd_flags */
    CKD_WHY_TIC_FIRST = 5,      /* the first word is a transfer */
    CKD_WHY_TARGET = 6,         /* a transfer leads to no word */
    CKD_WHY_TIC_TO_TIC = 7,     /* a transfer leads to a transfer */
    CKD_WHY_ZERO_COUNT = 8,     /* the count is zero */
    CKD_WHY_TOO_MUCH_DATA = 9,  /* more bytes are given than the count, or any to a transfer */
    CKD_WHY_DATA_ON_INPUT = 10, /* a read or a sense is given bytes */
    CKD_WHY_PAST_END = 11       /* the word behind a chained one isn't there */
};

/* Which word is bad, from 0 on, and an enum ckd_why. */
struct ckd_refusal {
    uint16_t word;
    uint32_t why;
};

/*
 * ckd_plan - plans a channel program for a path of a device, behind those that the path has. The words and their
 *            bytes are copied. Programs may be planned at any time, also while one runs.
 *
 * ccws, number   the words
 * refusal        is written at CKD_BAD_PROGRAM alone
 *
 * CKD_OK, CKD_CLOSED, CKD_BAD_DEVICE, CKD_NO_DEVICE, CKD_BAD_PATH, CKD_BAD_PROGRAM, CKD_PLAN_FULL, CKD_NO_MEMORY
 */
uint32_t ckd_plan(struct ckd_subsystem *subsystem, uint8_t device, uint8_t path, const struct ckd_ccw *ccws, size_t number,
                  struct ckd_refusal *refusal);

/*
 * ckd_left   - tells how many programs of a path wait to be started.
 *              CKD_OK, CKD_CLOSED, CKD_BAD_DEVICE, CKD_NO_DEVICE, CKD_BAD_PATH
 * ckd_forget - puts away what happened to a device so far: its memory is that of a few programs again, ordinals
 *              begin anew, and there is no last end. Programs that wait to be started stay.
 *              CKD_OK, CKD_CLOSED, CKD_BAD_DEVICE, CKD_NO_DEVICE, CKD_RUNNING (a program runs), CKD_NO_MEMORY
 */
uint32_t ckd_left(struct ckd_subsystem *subsystem, uint8_t device, uint8_t path, uint16_t *programs);
uint32_t ckd_forget(struct ckd_subsystem *subsystem, uint8_t device);

/*
 * ckd_start - starts the next program of a path. Nothing of it is done yet.
 *
 * ordinal   is written at CKD_OK: which of the path's programs it is, from 1 on
 *
 * CKD_OK, CKD_CLOSED, CKD_BAD_DEVICE, CKD_NO_DEVICE, CKD_BAD_PATH, CKD_RUNNING (the path's own program runs), CKD_LENT,
 * CKD_BUSY, CKD_NOT_PLANNED, CKD_SHUT, CKD_RESERVED, CKD_NO_MEMORY
 */
uint32_t ckd_start(struct ckd_subsystem *subsystem, uint8_t device, uint8_t path, uint16_t *ordinal);

/*
 * ckd_step - does one command of the program that runs. CKD_OK: it ended, and ckd_last_end tells how. CKD_PART: of
 *            a write to both sides of a pair one part is done, and no command ended by it.
 * ckd_run  - goes on with the program that runs until it is over (CKD_OK), for at most so many commands and parts;
 *            where it isn't over then, CKD_RUNNING. ckd_last_end tells the last command's end alone.
 *
 * CKD_OK, CKD_CLOSED, CKD_BAD_DEVICE, CKD_NO_DEVICE, CKD_NO_MEMORY; of ckd_step CKD_PART, CKD_IDLE, of ckd_run
 * CKD_RUNNING
 */
uint32_t ckd_step(struct ckd_subsystem *subsystem, uint8_t device);
uint32_t ckd_run(struct ckd_subsystem *subsystem, uint8_t device, uint32_t most);

/*
 * How a command ended: its word's index from 0 on, the residual count, how many bytes it sent (ckd_last_data
 * copies them; skipped ones aren't kept), the unit status (0C: channel end and device end; 0E: with unit
 * check), an incorrect length (note 1) or that the chain met a limit of the control (note 2), whether the
 * program is over, and the 32 sense bytes of a unit check.
 */
struct ckd_end {
    size_t sent;
    uint16_t index;
    uint16_t residual;
    uint8_t status;
    uint8_t note;
    uint8_t over;
    uint8_t has_sense;
    uint8_t sense[32];
};

/*
 * ckd_last_end  - tells how the command of a device ended that ended last, of the program that runs or else ran
 *                 last.
 * ckd_last_data - copies the bytes that it sent, as many as there is room for; count is how many.
 *
 * CKD_OK, CKD_CLOSED, CKD_BAD_DEVICE, CKD_NO_DEVICE, CKD_NO_END; else nothing is written
 */
uint32_t ckd_last_end(struct ckd_subsystem *subsystem, uint8_t device, struct ckd_end *end);
uint32_t ckd_last_data(struct ckd_subsystem *subsystem, uint8_t device, uint8_t *bytes, size_t room, size_t *count);

enum ckd_did {
    CKD_DID_NOTHING = 0,   /* nothing waits */
    CKD_DID_RECOVER = 1,   /* a track that a loss left behind is whole again */
    CKD_DID_COPY = 2,      /* a track went to the other side of a pair */
    CKD_DID_STAGE = 3,     /* a track came into the cache ahead */
    CKD_DID_SKIP = 4,      /* it needn't come any more */
    CKD_DID_DESTAGE = 5,   /* a changed track was written to the volume */
    CKD_DID_HALF = 6,      /* one side of a pair was written: the next call does the second part */
    CKD_DID_FAULT = 7,     /* a call of the volume failed */
    CKD_DID_BAD_BYTES = 8, /* the volume delivered what is no track */
    CKD_DID_SECOND = 9     /* the second part of a write was done: CKD_OK where a command ended by it, else CKD_PART */
};

/*
 * ckd_background - does one piece of work of a device that no command waits for, and tells which: an enum ckd_did.
 *                  Call it while the device is idle, and until it tells CKD_DID_NOTHING before ckd_flush and
 *                  ckd_close.
 *
 * CKD_OK, CKD_PART, CKD_CLOSED, CKD_BAD_DEVICE, CKD_NO_DEVICE, CKD_NO_MEMORY (a track that was to be staged isn't any
 * more)
 */
uint32_t ckd_background(struct ckd_subsystem *subsystem, uint8_t device, uint32_t *did);

/*
 * ckd_reset - resets a path of a device: its program is cut, and what it reserved is free.
 *             CKD_OK, CKD_CLOSED, CKD_BAD_DEVICE, CKD_NO_DEVICE, CKD_BAD_PATH
 */
uint32_t ckd_reset(struct ckd_subsystem *subsystem, uint8_t device, uint8_t path);

enum ckd_side {
    CKD_SIDE_A = 0,
    CKD_SIDE_B = 1
};

/*
 * Duplex pairs: a device writes to the volumes of two, and reads either.
 *
 * ckd_pair      the volume of the second device becomes side B of the first, to which the background copies each
 *               track. The second is lent from then on, and starts no program.
 * ckd_suspend   side B is held: writes leave it out
 * ckd_resume    it isn't held any more, and the background copies what it lacks
 * ckd_part_..   side B leaves the device, and the device that had lent its volume has a new one, in memory with
 *               empty tracks, or on an image of the same model and size
 *
 * CKD_OK, CKD_CLOSED, CKD_BAD_DEVICE, CKD_NO_DEVICE, or the rule that refuses it: of ckd_pair CKD_SAME, CKD_LENT,
 * CKD_PAIRED, CKD_RUNNING, CKD_NOT_ALIKE, CKD_DOWN; of ckd_suspend CKD_UNPAIRED, CKD_HALF, CKD_DOWN, CKD_HELD; of
 * ckd_resume CKD_UNPAIRED, CKD_NOT_HELD; of ckd_part_.. CKD_UNPAIRED, CKD_RUNNING, CKD_HALF, CKD_DOWN, CKD_NOT_LEVEL, and
 * of the volume CKD_NOT_ALIKE, CKD_BAD_IMAGE, CKD_FILE_FAULT, CKD_NO_MEMORY
 */
uint32_t ckd_pair(struct ckd_subsystem *subsystem, uint8_t first, uint8_t second);
uint32_t ckd_suspend(struct ckd_subsystem *subsystem, uint8_t device);
uint32_t ckd_resume(struct ckd_subsystem *subsystem, uint8_t device);
uint32_t ckd_part_memory(struct ckd_subsystem *subsystem, uint8_t device);
uint32_t ckd_part_image(struct ckd_subsystem *subsystem, uint8_t device, struct ckd_file file);

/*
 * Losses, for tests of what stands above. What was written and acknowledged stands in the cache and the store:
 * the loss of one leaves the other, and the background recovers. What stood in the lost one alone is lost; a
 * command that looks at such a track ends with equipment check.
 *
 * ckd_lose_cache, ckd_repair_cache   the cache is lost, and gives no frames until it is repaired
 * ckd_lose_store, ckd_repair_store   the same of the nonvolatile store
 * ckd_lose_power                     the cache is empty, the store keeps what it has, and programs that ran are cut
 * ckd_lose_side, ckd_replace_..      a side of a device is lost, an enum ckd_side; it has a new volume, in memory
 *                                    with empty tracks, or on an image of the same model and size
 *
 * CKD_OK, CKD_CLOSED, CKD_DOWN (it is lost already); of a repair CKD_UP, CKD_WAITS; of a side CKD_BAD_DEVICE,
 * CKD_NO_DEVICE, CKD_BAD_SIDE, CKD_LENT, CKD_NO_SIDE, and of a new volume CKD_UP, CKD_HALF, CKD_NOT_ALIKE, CKD_BAD_IMAGE,
 * CKD_FILE_FAULT, CKD_NO_MEMORY
 */
uint32_t ckd_lose_cache(struct ckd_subsystem *subsystem);
uint32_t ckd_lose_store(struct ckd_subsystem *subsystem);
uint32_t ckd_lose_power(struct ckd_subsystem *subsystem);
uint32_t ckd_repair_cache(struct ckd_subsystem *subsystem);
uint32_t ckd_repair_store(struct ckd_subsystem *subsystem);
uint32_t ckd_lose_side(struct ckd_subsystem *subsystem, uint8_t device, uint8_t side);
uint32_t ckd_replace_memory(struct ckd_subsystem *subsystem, uint8_t device, uint8_t side);
uint32_t ckd_replace_image(struct ckd_subsystem *subsystem, uint8_t device, uint8_t side, struct ckd_file file);

/*
 * How many reads and writes of its volumes a device made; how many of its tracks are lost, wait for the
 * background, have changes in the nonvolatile store, and are in the cache; and how many cylinders it has.
 */
struct ckd_counts {
    uint64_t reads;
    uint64_t writes;
    size_t lost;
    uint16_t waiting;
    uint16_t patched;
    uint16_t framed;
    uint16_t cylinders;
};

/* ckd_counts - tells these. CKD_OK, CKD_CLOSED, CKD_BAD_DEVICE, CKD_NO_DEVICE */
uint32_t ckd_counts(struct ckd_subsystem *subsystem, uint8_t device, struct ckd_counts *counts);

/*
 * ckd_flush - waits until what was written to the images has reached the disk (fdatasync). What stands in the
 *             cache and the store alone isn't written: ckd_background writes it. CKD_OK, CKD_CLOSED, CKD_FILE_FAULT
 * ckd_close - closes the subsystem, and frees all that it had. What stands in the cache and the store alone is
 *             gone. CKD_OK, CKD_CLOSED, CKD_RUNNING: a program runs on a device, and nothing is closed (ckd_reset
 *             cuts it)
 */
uint32_t ckd_flush(struct ckd_subsystem *subsystem);
uint32_t ckd_close(struct ckd_subsystem *subsystem);

#ifdef __cplusplus
}
#endif

#endif
