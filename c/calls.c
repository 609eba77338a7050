/*
 * The calls of ckd.h. Each refuses what is NULL, and hands the rest to the proved call that has its name behind ckd_c_
 * (crates/ckd_c). These lines are C: they are tried, and nothing of them is proved.
 */
#include "ckd.h"

enum { MOST_CCWS = 256 };

/* What is pointed to where there is nothing to point to. It is never read. */
static const uint32_t nothing;
static const uint8_t no_byte;

uint32_t ckd_c_open(struct ckd_subsystem *subsystem, uint16_t frames, uint16_t slots);
uint32_t ckd_c_add_memory(struct ckd_subsystem *subsystem, uint8_t device, uint32_t geometry, uint16_t cylinders);
uint32_t ckd_c_add_faulty(struct ckd_subsystem *subsystem, uint8_t device, uint32_t geometry, uint16_t cylinders,
                          const uint32_t *reads, size_t read_count, const uint32_t *writes, size_t write_count);
uint32_t ckd_c_add_image(struct ckd_subsystem *subsystem, uint8_t device, struct ckd_file file);
uint32_t ckd_c_plan(struct ckd_subsystem *subsystem, uint8_t device, uint8_t path, const struct ckd_ccw *ccws, size_t number,
                    struct ckd_refusal *refusal);
uint32_t ckd_c_left(struct ckd_subsystem *subsystem, uint8_t device, uint8_t path, uint16_t *programs);
uint32_t ckd_c_forget(struct ckd_subsystem *subsystem, uint8_t device);
uint32_t ckd_c_start(struct ckd_subsystem *subsystem, uint8_t device, uint8_t path, uint16_t *ordinal);
uint32_t ckd_c_step(struct ckd_subsystem *subsystem, uint8_t device);
uint32_t ckd_c_run(struct ckd_subsystem *subsystem, uint8_t device, uint32_t most);
uint32_t ckd_c_last_end(struct ckd_subsystem *subsystem, uint8_t device, struct ckd_end *end);
uint32_t ckd_c_last_data(struct ckd_subsystem *subsystem, uint8_t device, uint8_t *bytes, size_t room, size_t *count);
uint32_t ckd_c_background(struct ckd_subsystem *subsystem, uint8_t device, uint32_t *did);
uint32_t ckd_c_reset(struct ckd_subsystem *subsystem, uint8_t device, uint8_t path);
uint32_t ckd_c_pair(struct ckd_subsystem *subsystem, uint8_t first, uint8_t second);
uint32_t ckd_c_suspend(struct ckd_subsystem *subsystem, uint8_t device);
uint32_t ckd_c_resume(struct ckd_subsystem *subsystem, uint8_t device);
uint32_t ckd_c_part_memory(struct ckd_subsystem *subsystem, uint8_t device);
uint32_t ckd_c_part_image(struct ckd_subsystem *subsystem, uint8_t device, struct ckd_file file);
uint32_t ckd_c_lose_cache(struct ckd_subsystem *subsystem);
uint32_t ckd_c_lose_store(struct ckd_subsystem *subsystem);
uint32_t ckd_c_lose_power(struct ckd_subsystem *subsystem);
uint32_t ckd_c_repair_cache(struct ckd_subsystem *subsystem);
uint32_t ckd_c_repair_store(struct ckd_subsystem *subsystem);
uint32_t ckd_c_lose_side(struct ckd_subsystem *subsystem, uint8_t device, uint8_t side);
uint32_t ckd_c_replace_memory(struct ckd_subsystem *subsystem, uint8_t device, uint8_t side);
uint32_t ckd_c_replace_image(struct ckd_subsystem *subsystem, uint8_t device, uint8_t side, struct ckd_file file);
uint32_t ckd_c_counts(struct ckd_subsystem *subsystem, uint8_t device, struct ckd_counts *counts);
uint32_t ckd_c_flush(struct ckd_subsystem *subsystem);
uint32_t ckd_c_close(struct ckd_subsystem *subsystem);

uint32_t ckd_open(struct ckd_subsystem *subsystem, uint16_t frames, uint16_t slots)
{
    return subsystem == NULL ? CKD_NULL : ckd_c_open(subsystem, frames, slots);
}

uint32_t ckd_add_memory(struct ckd_subsystem *subsystem, uint8_t device, uint32_t geometry, uint16_t cylinders)
{
    return subsystem == NULL ? CKD_NULL : ckd_c_add_memory(subsystem, device, geometry, cylinders);
}

uint32_t ckd_add_faulty(struct ckd_subsystem *subsystem, uint8_t device, uint32_t geometry, uint16_t cylinders,
                        const uint32_t *reads, size_t read_count, const uint32_t *writes, size_t write_count)
{
    if (subsystem == NULL || (reads == NULL && read_count > 0) || (writes == NULL && write_count > 0))
        return CKD_NULL;
    return ckd_c_add_faulty(subsystem, device, geometry, cylinders, reads == NULL ? &nothing : reads, read_count,
                            writes == NULL ? &nothing : writes, write_count);
}

uint32_t ckd_add_image(struct ckd_subsystem *subsystem, uint8_t device, struct ckd_file file)
{
    return subsystem == NULL || file.descriptor == NULL ? CKD_NULL : ckd_c_add_image(subsystem, device, file);
}

/* Copies words, of which those without data point to a byte. Whether all others point to their data. */
static bool point(struct ckd_ccw *pointing, const struct ckd_ccw *ccws, size_t number)
{
    for (size_t at = 0; at < number; at += 1) {
        pointing[at] = ccws[at];
        if (ccws[at].data != NULL)
            continue;
        if (ccws[at].length > 0)
            return false;
        pointing[at].data = &no_byte;
    }
    return true;
}

uint32_t ckd_plan(struct ckd_subsystem *subsystem, uint8_t device, uint8_t path, const struct ckd_ccw *ccws, size_t number,
                  struct ckd_refusal *refusal)
{
    /* One word too many is refused as several are. */
    struct ckd_ccw pointing[MOST_CCWS + 1];
    size_t count = number > MOST_CCWS ? MOST_CCWS + 1 : number;
    if (subsystem == NULL || refusal == NULL || (ccws == NULL && number > 0) || !point(pointing, ccws, count))
        return CKD_NULL;
    return ckd_c_plan(subsystem, device, path, pointing, count, refusal);
}

uint32_t ckd_left(struct ckd_subsystem *subsystem, uint8_t device, uint8_t path, uint16_t *programs)
{
    return subsystem == NULL || programs == NULL ? CKD_NULL : ckd_c_left(subsystem, device, path, programs);
}

uint32_t ckd_forget(struct ckd_subsystem *subsystem, uint8_t device)
{
    return subsystem == NULL ? CKD_NULL : ckd_c_forget(subsystem, device);
}

uint32_t ckd_start(struct ckd_subsystem *subsystem, uint8_t device, uint8_t path, uint16_t *ordinal)
{
    return subsystem == NULL || ordinal == NULL ? CKD_NULL : ckd_c_start(subsystem, device, path, ordinal);
}

uint32_t ckd_step(struct ckd_subsystem *subsystem, uint8_t device)
{
    return subsystem == NULL ? CKD_NULL : ckd_c_step(subsystem, device);
}

uint32_t ckd_run(struct ckd_subsystem *subsystem, uint8_t device, uint32_t most)
{
    return subsystem == NULL ? CKD_NULL : ckd_c_run(subsystem, device, most);
}

uint32_t ckd_last_end(struct ckd_subsystem *subsystem, uint8_t device, struct ckd_end *end)
{
    return subsystem == NULL || end == NULL ? CKD_NULL : ckd_c_last_end(subsystem, device, end);
}

uint32_t ckd_last_data(struct ckd_subsystem *subsystem, uint8_t device, uint8_t *bytes, size_t room, size_t *count)
{
    uint8_t no_room = 0;
    if (subsystem == NULL || count == NULL || (bytes == NULL && room > 0))
        return CKD_NULL;
    return ckd_c_last_data(subsystem, device, bytes == NULL ? &no_room : bytes, room, count);
}

uint32_t ckd_background(struct ckd_subsystem *subsystem, uint8_t device, uint32_t *did)
{
    return subsystem == NULL || did == NULL ? CKD_NULL : ckd_c_background(subsystem, device, did);
}

uint32_t ckd_reset(struct ckd_subsystem *subsystem, uint8_t device, uint8_t path)
{
    return subsystem == NULL ? CKD_NULL : ckd_c_reset(subsystem, device, path);
}

uint32_t ckd_pair(struct ckd_subsystem *subsystem, uint8_t first, uint8_t second)
{
    return subsystem == NULL ? CKD_NULL : ckd_c_pair(subsystem, first, second);
}

uint32_t ckd_suspend(struct ckd_subsystem *subsystem, uint8_t device)
{
    return subsystem == NULL ? CKD_NULL : ckd_c_suspend(subsystem, device);
}

uint32_t ckd_resume(struct ckd_subsystem *subsystem, uint8_t device)
{
    return subsystem == NULL ? CKD_NULL : ckd_c_resume(subsystem, device);
}

uint32_t ckd_part_memory(struct ckd_subsystem *subsystem, uint8_t device)
{
    return subsystem == NULL ? CKD_NULL : ckd_c_part_memory(subsystem, device);
}

uint32_t ckd_part_image(struct ckd_subsystem *subsystem, uint8_t device, struct ckd_file file)
{
    return subsystem == NULL || file.descriptor == NULL ? CKD_NULL : ckd_c_part_image(subsystem, device, file);
}

uint32_t ckd_lose_cache(struct ckd_subsystem *subsystem)
{
    return subsystem == NULL ? CKD_NULL : ckd_c_lose_cache(subsystem);
}

uint32_t ckd_lose_store(struct ckd_subsystem *subsystem)
{
    return subsystem == NULL ? CKD_NULL : ckd_c_lose_store(subsystem);
}

uint32_t ckd_lose_power(struct ckd_subsystem *subsystem)
{
    return subsystem == NULL ? CKD_NULL : ckd_c_lose_power(subsystem);
}

uint32_t ckd_repair_cache(struct ckd_subsystem *subsystem)
{
    return subsystem == NULL ? CKD_NULL : ckd_c_repair_cache(subsystem);
}

uint32_t ckd_repair_store(struct ckd_subsystem *subsystem)
{
    return subsystem == NULL ? CKD_NULL : ckd_c_repair_store(subsystem);
}

uint32_t ckd_lose_side(struct ckd_subsystem *subsystem, uint8_t device, uint8_t side)
{
    return subsystem == NULL ? CKD_NULL : ckd_c_lose_side(subsystem, device, side);
}

uint32_t ckd_replace_memory(struct ckd_subsystem *subsystem, uint8_t device, uint8_t side)
{
    return subsystem == NULL ? CKD_NULL : ckd_c_replace_memory(subsystem, device, side);
}

uint32_t ckd_replace_image(struct ckd_subsystem *subsystem, uint8_t device, uint8_t side, struct ckd_file file)
{
    return subsystem == NULL || file.descriptor == NULL ? CKD_NULL : ckd_c_replace_image(subsystem, device, side, file);
}

uint32_t ckd_counts(struct ckd_subsystem *subsystem, uint8_t device, struct ckd_counts *counts)
{
    return subsystem == NULL || counts == NULL ? CKD_NULL : ckd_c_counts(subsystem, device, counts);
}

uint32_t ckd_flush(struct ckd_subsystem *subsystem)
{
    return subsystem == NULL ? CKD_NULL : ckd_c_flush(subsystem);
}

uint32_t ckd_close(struct ckd_subsystem *subsystem)
{
    return subsystem == NULL ? CKD_NULL : ckd_c_close(subsystem);
}
