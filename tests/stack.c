/*
 * stack IMAGE FRAMES: measures how much stack a call of the library takes. Resumes the image of the file IMAGE without
 * writing to it, and makes each call on a stack of its own that was painted before. Prints the most bytes that each
 * function takes, including those of the change of stacks, which the line `nothing` shows; status 1 above 64 KiB.
 */
#define _XOPEN_SOURCE 700
#include <assert.h>
#include <stdio.h>
#include <stdlib.h>
#include <string.h>
#include <ucontext.h>

#include "swsusp.h"

#define ROOM (256 * 1024)
#define PAINT 0xa5

static uint8_t stack[ROOM], page[SWSUSP_PAGE];
static struct swsusp_resume resume;
static struct swsusp_discard discarding;
static struct swsusp_machine machine;
static struct swsusp_range range;
static struct swsusp_call call;
static struct swsusp_header header;
static struct swsusp_check checking;
static struct swsusp_findings findings;
static uint64_t words[1024];
static uint32_t code;

static void resume_begin(void) { swsusp_resume_begin(&resume); }
static void resume_next(void) { swsusp_resume_next(&resume, &call); }
static void resume_answer(void) { code = swsusp_resume_answer(&resume, &machine, &range, 1, page, sizeof page); }
static void resume_fail(void) { code = swsusp_resume_fail(&resume); }
static void discard_begin(void) { swsusp_discard_begin(&discarding, 0); }
static void discard_next(void) { swsusp_discard_next(&discarding, &call); }
static void discard_answer(void) { code = swsusp_discard_answer(&discarding, page, sizeof page); }
static void discard_fail(void) { code = swsusp_discard_fail(&discarding); }
static void check_begin(void) { code = swsusp_check_begin(&checking, (uint32_t)machine.blocks, 0, words, 1024); }
static void check_next(void) { code = swsusp_check_next(&checking, &call); }
static void check_answer(void) { code = swsusp_check_answer(&checking, words, 1024, page, sizeof page, &findings); }
static void check_fail(void) { code = swsusp_check_fail(&checking, words, 1024, &findings); }
static void inspect(void) { code = swsusp_inspect(page, sizeof page, &header); }
static void nothing(void) { }

/* Returns how many bytes of the painted stack a call changes. */
static size_t taken(void (*function)(void))
{
    ucontext_t here, there;
    size_t clean = 0;

    memset(stack, PAINT, sizeof stack);
    assert(getcontext(&there) == 0);
    there.uc_stack.ss_sp = stack;
    there.uc_stack.ss_size = sizeof stack;
    there.uc_link = &here;
    makecontext(&there, function, 0);
    code = SWSUSP_OK;
    assert(swapcontext(&here, &there) == 0);
    assert(code == SWSUSP_OK);
    while (clean < sizeof stack && stack[clean] == PAINT)
        clean++;
    return sizeof stack - clean;
}

static size_t most_of(size_t most, size_t bytes) { return bytes > most ? bytes : most; }

static void read_block(FILE *file, uint64_t block)
{
    assert(fseek(file, (long)(block * SWSUSP_PAGE), SEEK_SET) == 0 && fread(page, sizeof page, 1, file) == 1);
}

/* Returns the most that a reply to a call takes in a whole resume. */
static size_t answers(FILE *file)
{
    size_t most = 0;

    for (resume_begin(); resume_next(), call.kind < SWSUSP_DONE; most = most_of(most, taken(resume_answer)))
        if (call.kind == SWSUSP_READ)
            read_block(file, call.first);
    assert(call.kind == SWSUSP_DONE);
    return most;
}

static size_t discard_answers(FILE *file)
{
    size_t most = 0;

    for (discard_begin(); discard_next(), call.kind < SWSUSP_DONE; most = most_of(most, taken(discard_answer)))
        if (call.kind == SWSUSP_READ)
            read_block(file, call.first);
    assert(call.kind == SWSUSP_DONE);
    return most;
}

static size_t check_answers(FILE *file)
{
    size_t most = 0;

    for (check_begin(); check_next(), call.kind < SWSUSP_DONE; most = most_of(most, taken(check_answer)))
        read_block(file, call.first);
    assert(call.kind == SWSUSP_DONE);
    return most;
}

/* Returns the most that a failure takes, of the header's read or of a later read. */
static size_t check_failures(FILE *file)
{
    size_t most;

    check_begin();
    most = taken(check_fail);
    check_begin();
    read_block(file, 0);
    check_answer();
    return most_of(most, taken(check_fail));
}

static int told(const char *name, size_t bytes)
{
    printf("%-16s %zu\n", name, bytes);
    return bytes > 64 * 1024;
}

int main(int argc, char **argv)
{
    FILE *file = argc < 3 ? NULL : fopen(argv[1], "rb");
    int deep = 0;

    assert(file != NULL && fseek(file, 0, SEEK_END) == 0);
    machine.blocks = (uint64_t)ftell(file) / SWSUSP_PAGE;
    machine.present = range.end = strtoull(argv[2], NULL, 10);
    deep |= told("nothing", taken(nothing));
    deep |= told("resume_begin", taken(resume_begin));
    deep |= told("resume_next", taken(resume_next));
    deep |= told("resume_answer", answers(file));
    resume_begin();
    deep |= told("resume_fail", taken(resume_fail));
    deep |= told("discard_begin", taken(discard_begin));
    deep |= told("discard_next", taken(discard_next));
    deep |= told("discard_answer", discard_answers(file));
    discard_begin();
    deep |= told("discard_fail", taken(discard_fail));
    deep |= told("check_begin", taken(check_begin));
    deep |= told("check_next", taken(check_next));
    deep |= told("check_answer", check_answers(file));
    deep |= told("check_fail", check_failures(file));
    read_block(file, 0);
    deep |= told("inspect", taken(inspect));
    return deep || fclose(file) != 0;
}
