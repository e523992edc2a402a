/* What boot.c and check.c don't call: the codes of wrong arguments, a header block's facts, and the end of an image. */
#include <assert.h>
#include <stdio.h>
#include <string.h>

#include "swsusp.h"

static uint8_t page[SWSUSP_PAGE];

static void seek(FILE *file, uint64_t block)
{
    assert(fseek(file, (long)(block * SWSUSP_PAGE), SEEK_SET) == 0);
}

static uint32_t answer(struct swsusp_resume *resume, struct swsusp_machine machine, struct swsusp_range range)
{
    return swsusp_resume_answer(resume, &machine, &range, 1, page, sizeof page);
}

/* Each wrong argument has its code, and leaves the state as it is. */
static void border(void)
{
    const struct swsusp_machine right = {.present = 16, .blocks = 6};
    const struct swsusp_range all = {0, 16}, empty = {3, 3};
    const struct swsusp_range apart[2] = {{8, 16}, {0, 8}};
    struct swsusp_machine wrong = right;
    struct swsusp_resume resume, before;

    swsusp_resume_begin(&resume);
    before = resume;
    assert(swsusp_resume_answer(&resume, &right, &all, 1, page, SWSUSP_PAGE - 1) == SWSUSP_BAD_PAGE);
    assert(answer(&resume, right, empty) == SWSUSP_BAD_MEMORY);
    assert(swsusp_resume_answer(&resume, &right, apart, 2, page, sizeof page) == SWSUSP_BAD_MEMORY);
    wrong.identity = 3;
    assert(answer(&resume, wrong, all) == SWSUSP_BAD_IDENTITY);
    wrong = right;
    wrong.present = 0;
    assert(answer(&resume, wrong, all) == SWSUSP_BAD_PRESENT);
    wrong.present = UINT64_C(1) << 52;
    assert(answer(&resume, wrong, all) == SWSUSP_BAD_PRESENT);
    wrong = right;
    wrong.header = 6;
    assert(answer(&resume, wrong, all) == SWSUSP_BAD_HEADER);
    assert(memcmp(&resume, &before, sizeof resume) == 0);
    resume.stage = 13;
    assert(answer(&resume, right, all) == SWSUSP_BAD_STATE && swsusp_resume_fail(&resume) == SWSUSP_BAD_STATE);
    resume = before;
    resume.given = 1;
    assert(answer(&resume, right, all) == SWSUSP_BAD_STATE);
    memset(&resume, 0xff, sizeof resume);
    assert(answer(&resume, right, all) == SWSUSP_BAD_STATE);
    resume = before;
    assert(answer(&resume, right, all) == SWSUSP_OK);
}

/* After an end neither the state nor the buffer changes. */
static void after_end(void)
{
    const struct swsusp_machine machine = {.present = 16, .blocks = 6};
    const struct swsusp_range all = {0, 16};
    struct swsusp_resume resume, before;
    uint8_t kept[SWSUSP_PAGE];

    swsusp_resume_begin(&resume);
    assert(swsusp_resume_fail(&resume) == SWSUSP_OK);
    before = resume;
    memset(page, 7, sizeof page);
    memcpy(kept, page, sizeof page);
    assert(answer(&resume, machine, all) == SWSUSP_OK && swsusp_resume_fail(&resume) == SWSUSP_OK);
    assert(memcmp(&resume, &before, sizeof resume) == 0 && memcmp(page, kept, sizeof page) == 0);
}

/* The same for a check. */
static void check_border(void)
{
    static struct swsusp_findings findings, found;
    struct swsusp_check check, before;
    uint64_t words[2] = {1, 2};
    struct swsusp_call call = {0, 0, 0, 7};

    memset(&check, 7, sizeof check);
    before = check;
    assert(swsusp_check_begin(&check, 64, 3, words, 1) == SWSUSP_BAD_WORDS);
    assert(swsusp_check_begin(&check, UINT32_MAX, 3, words, 2) == SWSUSP_BAD_WORDS);
    assert(swsusp_check_begin(&check, 0, 3, words, 0) == SWSUSP_BAD_WORDS);
    assert(memcmp(&check, &before, sizeof check) == 0);
    assert(SWSUSP_WORDS(63) == 1 && SWSUSP_WORDS(64) == 2 && SWSUSP_WORDS(UINT32_MAX) == 67108864);
    assert(swsusp_check_begin(&check, 64, 3, words, 2) == SWSUSP_OK);
    before = check;
    memset(&findings, 7, sizeof findings);
    found = findings;
    assert(swsusp_check_answer(&check, words, 1, page, SWSUSP_PAGE - 1, &findings) == SWSUSP_BAD_PAGE);
    assert(swsusp_check_answer(&check, words, 1, page, sizeof page, &findings) == SWSUSP_BAD_WORDS);
    assert(swsusp_check_fail(&check, words, 1, &findings) == SWSUSP_BAD_WORDS);
    for (check.stage = 0; check.stage < 6; check.stage += 5) {
        assert(swsusp_check_next(&check, &call) == SWSUSP_BAD_STATE);
        assert(swsusp_check_answer(&check, words, 2, page, sizeof page, &findings) == SWSUSP_BAD_STATE);
        assert(swsusp_check_fail(&check, words, 2, &findings) == SWSUSP_BAD_STATE);
    }
    check.stage = before.stage;
    assert(memcmp(&check, &before, sizeof check) == 0 && memcmp(&findings, &found, sizeof found) == 0);
    assert(words[0] == 1 && words[1] == 2 && call.kind == 0 && call.second == 7);

    assert(swsusp_check_next(&check, &call) == SWSUSP_OK && call.kind == SWSUSP_READ && call.first == 3);
    assert(swsusp_check_fail(&check, words, 2, &findings) == SWSUSP_OK && findings.count == 1);
    assert(findings.found[0].kind == SWSUSP_FOUND_HEADER_UNREAD && findings.found[0].first == 3);
    assert(memcmp(&findings.found[1], &found.found[1], sizeof found - 64) == 0);
    assert(swsusp_check_next(&check, &call) == SWSUSP_OK && call.kind == SWSUSP_DONE);
    before = check;
    assert(swsusp_check_fail(&check, words, 2, &findings) == SWSUSP_OK && findings.count == 0);
    assert(swsusp_check_answer(&check, words, 2, page, sizeof page, &findings) == SWSUSP_OK && findings.count == 0);
    assert(memcmp(&check, &before, sizeof check) == 0);
    assert(swsusp_check_begin(&check, 64, 64, words, 2) == SWSUSP_OK && swsusp_check_next(&check, &call) == SWSUSP_OK);
    assert(call.kind == SWSUSP_REFUSED && call.reason == SWSUSP_NO_IMAGE);
    /* Numbers that the library never wrote are read without an access outside the memory that it was lent. */
    memset(&check, 0xff, sizeof check);
    check.blocks = 64;
    for (check.stage = 1; check.stage < 5; check.stage++)
        assert(swsusp_check_answer(&check, words, 2, page, sizeof page, &findings) == SWSUSP_OK);
}

/* Returns the kind of the file's header block. */
static uint32_t kind(FILE *file)
{
    struct swsusp_header header;

    seek(file, 0);
    assert(fread(page, sizeof page, 1, file) == 1);
    assert(swsusp_inspect(page, sizeof page - 1, &header) == SWSUSP_BAD_PAGE);
    assert(swsusp_inspect(page, sizeof page, &header) == SWSUSP_OK);
    assert(header.last_page == 1599 && header.bad_pages == 0 && header.fault == 0);
    assert((header.first_map != 0) == (header.kind == SWSUSP_IMAGE));
    return header.kind;
}

/* Gives the image up, and returns how that ended. */
static struct swsusp_call discard(FILE *file, int fail)
{
    struct swsusp_discard discard;
    struct swsusp_call call;
    int made = 0;

    swsusp_discard_begin(&discard, 0);
    for (swsusp_discard_next(&discard, &call); call.kind < SWSUSP_DONE; swsusp_discard_next(&discard, &call)) {
        if (made++ == fail) {
            assert(swsusp_discard_fail(&discard) == SWSUSP_OK);
            continue;
        }
        seek(file, call.first);
        if (call.kind == SWSUSP_READ)
            assert(fread(page, sizeof page, 1, file) == 1);
        if (call.kind == SWSUSP_WRITE)
            assert(fwrite(page, sizeof page, 1, file) == 1);
        assert(swsusp_discard_answer(&discard, page, 1) == SWSUSP_BAD_PAGE);
        assert(swsusp_discard_answer(&discard, page, sizeof page) == SWSUSP_OK);
    }
    return call;
}

int main(int argc, char **argv)
{
    FILE *file = argc < 2 ? NULL : fopen(argv[1], "r+b");
    struct swsusp_discard bad = {{8, 0, 0, 0}};
    struct swsusp_call end;

    assert(file != NULL);
    border();
    check_border();
    after_end();
    assert(swsusp_discard_answer(&bad, page, sizeof page) == SWSUSP_BAD_STATE);
    assert(swsusp_discard_fail(&bad) == SWSUSP_BAD_STATE);
    assert(kind(file) == SWSUSP_IMAGE);
    end = discard(file, 0);
    assert(end.kind == SWSUSP_FAILED && end.first == SWSUSP_SAME && kind(file) == SWSUSP_IMAGE);
    end = discard(file, 1);
    assert(end.kind == SWSUSP_FAILED && end.first == SWSUSP_UNSURE && kind(file) == SWSUSP_IMAGE);
    end = discard(file, -1);
    assert(end.kind == SWSUSP_DONE && end.first == 0 && kind(file) == SWSUSP_AREA);
    end = discard(file, -1);
    assert(end.kind == SWSUSP_REFUSED && end.reason == SWSUSP_NO_IMAGE && kind(file) == SWSUSP_AREA);
    memset(page, 0, sizeof page);
    assert(fclose(file) == 0);
    puts("border");
    return 0;
}
