/*
 * boot IMAGE MEMORY FRAMES [FAIL [STOP]]: resumes the image of the swap area in the file IMAGE, as a boot loader would,
 * into a buffer of FRAMES page frames, which it writes to the file MEMORY at the end. Call number FAIL, counted from 0,
 * is reported as failed; before call number STOP it breaks off.
 *
 * Prints how it ended. Status 0: each page was placed. 1: refused or failed. 2: wrong words or a file. 3: broken off.
 */
#include <stdio.h>
#include <stdlib.h>
#include <string.h>

#include "swsusp.h"

struct disk {
    FILE *file;
    uint64_t blocks;
};

static int read_block(struct disk *disk, uint64_t block, uint8_t *page)
{
    return fseek(disk->file, (long)(block * SWSUSP_PAGE), SEEK_SET) == 0 &&
           fread(page, SWSUSP_PAGE, 1, disk->file) == 1;
}

static int write_block(struct disk *disk, uint64_t block, const uint8_t *page)
{
    return fseek(disk->file, (long)(block * SWSUSP_PAGE), SEEK_SET) == 0 &&
           fwrite(page, SWSUSP_PAGE, 1, disk->file) == 1;
}

/* Makes a call. A real boot loader flushes the disk's cache at a sync, and keeps pages off its own page frames. */
static int make(struct disk *disk, const struct swsusp_call *call, uint8_t *page, uint8_t *memory)
{
    switch (call->kind) {
    case SWSUSP_SYNC:
        return fflush(disk->file) == 0;
    case SWSUSP_READ:
        return read_block(disk, call->first, page);
    case SWSUSP_WRITE:
        return write_block(disk, call->first, page);
    default:
        memcpy(memory + call->first * SWSUSP_PAGE, page, SWSUSP_PAGE);
        return 1;
    }
}

static int save(const char *name, const uint8_t *memory, uint64_t frames)
{
    FILE *file = fopen(name, "wb");
    int whole = file != NULL && fwrite(memory, SWSUSP_PAGE, frames, file) == frames;

    return (file == NULL || fclose(file) == 0) && whole;
}

/* Resumes the image call by call, and returns the number of calls that were made. */
static uint64_t resume(struct disk *disk, uint64_t frames, uint64_t fail, uint64_t stop, uint8_t *memory,
                       struct swsusp_call *call)
{
    const struct swsusp_range range = {0, frames};
    const struct swsusp_machine machine = {.present = frames, .blocks = disk->blocks, .identity = SWSUSP_ANY_KERNEL};
    static struct swsusp_resume state;
    static uint8_t page[SWSUSP_PAGE];
    uint64_t made = 0;

    swsusp_resume_begin(&state);
    for (;;) {
        uint32_t code;

        swsusp_resume_next(&state, call);
        if (call->kind >= SWSUSP_DONE || made == stop)
            return made;
        if (made != fail && make(disk, call, page, memory))
            code = swsusp_resume_answer(&state, &machine, &range, 1, page, sizeof page);
        else
            code = swsusp_resume_fail(&state);
        if (code != SWSUSP_OK) {
            fprintf(stderr, "boot: code %u\n", (unsigned)code);
            exit(2);
        }
        made++;
    }
}

int main(int argc, char **argv)
{
    struct swsusp_call call;
    struct disk disk = {argc < 4 ? NULL : fopen(argv[1], "r+b"), 0};
    uint64_t frames = argc < 4 ? 0 : strtoull(argv[3], NULL, 10);
    uint8_t *memory = frames == 0 ? NULL : calloc(frames, SWSUSP_PAGE);
    uint64_t made;

    if (disk.file == NULL || memory == NULL || fseek(disk.file, 0, SEEK_END) != 0) {
        fprintf(stderr, "boot IMAGE MEMORY FRAMES [FAIL [STOP]]\n");
        return 2;
    }
    disk.blocks = (uint64_t)ftell(disk.file) / SWSUSP_PAGE;
    made = resume(&disk, frames, argc < 5 ? UINT64_MAX : strtoull(argv[4], NULL, 10),
                  argc < 6 ? UINT64_MAX : strtoull(argv[5], NULL, 10), memory, &call);
    if (fclose(disk.file) != 0 || !save(argv[2], memory, frames))
        return 2;
    free(memory);
    printf("%llu calls: kind %u reason %u first %llu second %llu\n", (unsigned long long)made, (unsigned)call.kind,
           (unsigned)call.reason, (unsigned long long)call.first, (unsigned long long)call.second);
    return call.kind == SWSUSP_DONE ? 0 : call.kind > SWSUSP_DONE ? 1 : 3;
}
