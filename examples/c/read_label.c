/* Reads the label of the volume in a disk image: read_label FILE. It is the key VOL1 of record 3 of the first track. */
#include <ckd.h>
#include <fcntl.h>
#include <stdio.h>

int main(int count, char **arguments)
{
    /* Define extent: cylinder 0, head 0, no writes. Locate record: read the key and data of record 3 of that track. */
    static const uint8_t extent[16] = {0x40, 0xc0}, locate[16] = {[0] = 0x06, [3] = 1, [12] = 3};
    static const struct ckd_ccw ccws[] = {
        {0x63, CKD_CHAIN, 16, extent, 16}, {0x47, CKD_CHAIN, 16, locate, 16}, {0x0e, CKD_SUPPRESS_LENGTH, 84, NULL, 0}};
    struct ckd_subsystem subsystem = {0};
    struct ckd_refusal refusal;
    uint8_t label[84] = {0};
    uint16_t ordinal;
    size_t sent;
    uint32_t result;
    int file = count == 2 ? open(arguments[1], O_RDWR) : -1;
    if (file < 0)
        return fprintf(stderr, "read_label: no file to read and write\n"), 2;
    if ((result = ckd_open(&subsystem, 1, 1)) || (result = ckd_add_image(&subsystem, 0, (struct ckd_file){&file})) ||
        (result = ckd_plan(&subsystem, 0, 1, ccws, 3, &refusal)) || (result = ckd_start(&subsystem, 0, 1, &ordinal)) ||
        (result = ckd_run(&subsystem, 0, 3)) || (result = ckd_last_data(&subsystem, 0, label, sizeof label, &sent)))
        return fprintf(stderr, "read_label: %s\n", ckd_result_text(result)), 1;
    for (size_t at = 8; at < 14; at += 1)
        printf("%02X", label[at]);
    printf("\n");
    return ckd_close(&subsystem) != CKD_OK;
}
