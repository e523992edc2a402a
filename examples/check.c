/*
 * check IMAGE [FAIL [STOP]]: checks the image of the swap area in the file IMAGE, as a boot loader would, and prints
 * what is wrong with it in the words of `swsusp_image check`. Read number FAIL, counted from 0, is reported as failed;
 * before read number STOP it breaks off.
 *
 * Status 0: nothing is wrong. 1: something is, or there is no image. 2: wrong words or a file. 3: broken off.
 */
#include <inttypes.h>
#include <stdio.h>
#include <stdlib.h>

#include "swsusp.h"

/* What is wrong with a block, or with a unit's stream. */
static const char *const BLOCK[] = {"", "", " is beyond the file", " is beyond the last page", " is a bad page",
                                    " is named already", " can't be read"};
static const char *const STREAM[] = {"", "a stream of another version", "the input is too short",
                                     "the output is too long", "a match before the begin", "a bad end marker",
                                     "bytes after the end"};

static void print_area(const struct swsusp_finding *f)
{
    printf("header: the area has ");
    switch (f->fault) {
    case SWSUSP_FAULT_VERSION:
        printf("version %" PRIu64, f->first);
        break;
    case SWSUSP_FAULT_BAD_COUNT:
        printf("%" PRIu64 " bad pages", f->first);
        break;
    case SWSUSP_FAULT_LAST_ZERO:
        printf("last page 0");
        break;
    default:
        printf("bad page %" PRIu64 " is no slot", f->first);
    }
}

static void print_place(const struct swsusp_finding *f)
{
    printf("map %" PRIu32 " block %" PRIu64 " entry %" PRIu32 ": ", f->map, f->at, f->entry);
}

static void print_word(const struct swsusp_finding *f)
{
    printf("numbers page %" PRIu64 " word %" PRIu64 ": %" PRIu64, f->first, f->second, f->third);
}

/* Prints a finding of a unit or of the checksum. */
static void print_unit(const struct swsusp_finding *f)
{
    if (f->kind == SWSUSP_FOUND_CHECKSUM) {
        printf("checksum 0x%08" PRIx64 ", but the units have 0x%08" PRIx64, f->first, f->second);
        return;
    }
    printf("unit %" PRIu64 " ", f->first);
    if (f->kind == SWSUSP_FOUND_UNIT_LENGTH) {
        print_place(f);
        printf("length %" PRIu64, f->second);
    } else {
        printf("byte %" PRIu64 ": %s", f->second, STREAM[f->fault]);
    }
}

/* Prints a finding in the words of `swsusp_image check`. */
static void print_finding(const struct swsusp_finding *f)
{
    switch (f->kind) {
    case SWSUSP_FOUND_HEADER_UNREAD:
        printf("header block %" PRIu64 ": can't be read", f->first);
        break;
    case SWSUSP_FOUND_ORIGINAL_SIGNATURE:
        printf("header: the original signature is no swap area's");
        break;
    case SWSUSP_FOUND_AREA:
        print_area(f);
        break;
    case SWSUSP_FOUND_LAST_PAGE:
        printf("header: last page %" PRIu64 ", but the file has %" PRIu64 " blocks", f->first, f->second);
        break;
    case SWSUSP_FOUND_COMPRESSED:
        printf("header: flags %" PRIu64 ", a compressed image, which can't be read yet", f->first);
        break;
    case SWSUSP_FOUND_MAP:
        printf("map %" PRIu32 ": block %" PRIu64 "%s", f->map, f->first, BLOCK[f->fault]);
        break;
    case SWSUSP_FOUND_ENDS:
        printf("map %" PRIu32 ": no next map, though the image has %" PRIu64 " pages", f->map, f->first);
        break;
    case SWSUSP_FOUND_AFTER_MAPS:
        printf("map %" PRIu32 " block %" PRIu64 ": after the last map", f->map, f->first);
        break;
    case SWSUSP_FOUND_ENTRY:
        print_place(f);
        printf("block %" PRIu64 "%s", f->first, BLOCK[f->fault]);
        break;
    case SWSUSP_FOUND_AFTER_PAGES:
        print_place(f);
        printf("block %" PRIu64 " after the last page", f->first);
        break;
    case SWSUSP_FOUND_NO_END:
        printf("info page name %" PRIu64 ": no end", f->first);
        break;
    case SWSUSP_FOUND_MAGIC:
        printf("info page: the header of an architecture, but with magic 0x%016" PRIx64, f->first);
        break;
    case SWSUSP_FOUND_COUNTS:
        printf("info page: image pages %" PRIu64 ", but pages %" PRIu64, f->first, f->second);
        break;
    case SWSUSP_FOUND_SIZE:
        printf("info page: size %" PRIu64 ", but pages %" PRIu64, f->first, f->second);
        break;
    case SWSUSP_FOUND_NUMBER:
        print_word(f);
        printf(" is no page frame");
        break;
    case SWSUSP_FOUND_ORDER:
        print_word(f);
        printf(" after %" PRIu64, f->fourth);
        break;
    case SWSUSP_FOUND_END:
        print_word(f);
        printf(" after the last number");
        break;
    case SWSUSP_FOUND_DATA_PAGES:
        printf("number pages: data pages %" PRIu64 ", but pages %" PRIu64, f->first, f->second);
        break;
    case SWSUSP_FOUND_UNIT_SIZE:
        printf("unit %" PRIu64 ": %" PRIu64 " bytes, but %" PRIu64 " are wanted", f->first, f->second, f->third);
        break;
    default:
        print_unit(f);
    }
    putchar('\n');
}

static int read_block(FILE *file, uint64_t block, uint8_t *page)
{
    return fseek(file, (long)(block * SWSUSP_PAGE), SEEK_SET) == 0 && fread(page, SWSUSP_PAGE, 1, file) == 1;
}

/* Ends the program if a call returned another code than SWSUSP_OK, or had more findings than were kept. */
static void must(uint32_t code, const struct swsusp_findings *findings)
{
    if (code != SWSUSP_OK || findings->count > SWSUSP_FINDINGS) {
        fprintf(stderr, "check: code %u, %" PRIu64 " findings\n", (unsigned)code, findings->count);
        exit(2);
    }
}

/* Checks the image read by read, and returns the number of findings. */
static uint64_t check(FILE *file, uint32_t blocks, uint64_t fail, uint64_t stop, uint64_t *words,
                      struct swsusp_call *call)
{
    static struct swsusp_check state;
    static struct swsusp_findings findings;
    static uint8_t page[SWSUSP_PAGE];
    size_t room = SWSUSP_WORDS(blocks);
    uint64_t made, found = 0;

    must(swsusp_check_begin(&state, blocks, 0, words, room), &findings);
    for (made = 0;; made++) {
        must(swsusp_check_next(&state, call), &findings);
        if (call->kind != SWSUSP_READ || made == stop)
            return found;
        if (made != fail && read_block(file, call->first, page))
            must(swsusp_check_answer(&state, words, room, page, sizeof page, &findings), &findings);
        else
            must(swsusp_check_fail(&state, words, room, &findings), &findings);
        for (uint64_t i = 0; i < findings.count; i++)
            print_finding(&findings.found[i]);
        found += findings.count;
    }
}

int main(int argc, char **argv)
{
    FILE *file = argc < 2 || argc > 4 ? NULL : fopen(argv[1], "rb");
    long size = file != NULL && fseek(file, 0, SEEK_END) == 0 ? ftell(file) : -1;
    uint32_t blocks = size < 0 ? 0 : (uint32_t)(size / SWSUSP_PAGE);
    uint64_t *words = size < 0 ? NULL : malloc(SWSUSP_WORDS(blocks) * sizeof *words);
    struct swsusp_call end;
    uint64_t found;

    if (words == NULL) {
        fprintf(stderr, "usage: check IMAGE [FAIL [STOP]]\n");
        return 2;
    }
    found = check(file, blocks, argc > 2 ? strtoull(argv[2], NULL, 10) : UINT64_MAX,
                  argc > 3 ? strtoull(argv[3], NULL, 10) : UINT64_MAX, words, &end);
    free(words);
    fclose(file);
    if (end.kind == SWSUSP_REFUSED)
        printf("no image\n");
    return end.kind == SWSUSP_READ ? 3 : end.kind == SWSUSP_REFUSED || found != 0;
}
