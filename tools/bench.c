/* bench.c: does what `swsusp` does, without a proof and without a check of what it reads, as a measure for `swsusp`.
 *
 * bench hibernate AREA < DUMP, bench resume AREA < LOADER > DUMP, bench export < DUMP > STREAM, bench import AREA < STREAM:
 * the same work over the same files, by the tables of docs/FORMATS.md. bench claims PAGES: what a script prints that boots
 * and claims PAGES page frames. bench cycle PAGES: the same, and then a hibernation and a resume, step by step over a disk in
 * memory that keeps what is synced apart. The input must be in order: faults aren't looked for.
 */
#include <fcntl.h>
#include <stdint.h>
#include <stdio.h>
#include <stdlib.h>
#include <string.h>
#include <unistd.h>

enum { PAGE = 4096, ENTRIES = 511, NUMBERS = 512, PIECE = 65536, NAMES = 390, FREE = 1, UNSAVED = 4 | 8 | 16 | 32 };

struct machine {
    uint32_t version_code, slots, frame_table, slot_table, hw_sig, frames;
    char names[NAMES];
    unsigned char *memory;
};

struct image {
    uint64_t count, pages;
    uint64_t *numbers;
    unsigned char **data; /* the page of each number */
};

/* A disk is a file, or memory: the blocks as they read, those that a power cut leaves, and which ones differ. */
struct disk {
    int file;
    unsigned char *blocks, *durable;
    uint64_t *unsynced, count;
};

/* The operation that a script plays: how many of its steps are made, and of how many. A resume doesn't print how many. */
static struct {
    const char *word;
    uint64_t done, of;
} script;

static void need(int done, const char *what)
{
    if (!done) {
        fprintf(stderr, "bench: %s\n", what);
        exit(1);
    }
}

static void *room(size_t count, size_t size)
{
    void *made = calloc(count ? count : 1, size);
    need(made != NULL, "no memory");
    return made;
}

static void get(void *into, size_t size)
{
    need(fread(into, 1, size, stdin) == size, "input ends");
}

static void put(const void *from, size_t size)
{
    need(fwrite(from, 1, size, stdout) == size, "output fails");
}

/* Prints the reply to a step after which more follow: each call of a disk in memory is one. */
static void reply(void)
{
    if (script.done == script.of)
        return;
    if (strcmp(script.word, "loading") == 0)
        printf("loading %llu\n", (unsigned long long)script.done);
    else
        printf("%s %llu of %llu\n", script.word, (unsigned long long)script.done, (unsigned long long)script.of);
    script.done++;
}

static void begin_steps(const char *word, uint64_t of)
{
    script.word = word;
    script.done = 0;
    script.of = of;
    reply();
}

static void read_block(struct disk *d, uint64_t b, void *into)
{
    if (d->blocks) {
        memcpy(into, d->blocks + PAGE * b, PAGE);
        reply();
    } else {
        need(pread(d->file, into, PAGE, (off_t)(PAGE * b)) == PAGE, "read fault");
    }
}

static void write_block(struct disk *d, uint64_t b, const void *from)
{
    if (d->blocks) {
        memcpy(d->blocks + PAGE * b, from, PAGE);
        d->unsynced[d->count++] = b;
        reply();
    } else {
        need(pwrite(d->file, from, PAGE, (off_t)(PAGE * b)) == PAGE, "write fault");
    }
}

static void sync_disk(struct disk *d)
{
    for (uint64_t k = 0; k < d->count; k++)
        memcpy(d->durable + PAGE * d->unsynced[k], d->blocks + PAGE * d->unsynced[k], PAGE);
    d->count = 0;
    if (d->blocks)
        reply();
    else
        need(fsync(d->file) == 0, "sync fault");
}

static unsigned char *frame(struct machine *m, uint64_t p)
{
    return m->memory + PAGE * p;
}

static uint32_t entry(struct machine *m, uint32_t table, uint64_t i)
{
    uint32_t found;
    memcpy(&found, frame(m, table) + 4 * i, 4);
    return found;
}

static int is_free(struct machine *m, uint64_t p)
{
    return (entry(m, m->frame_table, p) & FREE) != 0;
}

static int is_saved(struct machine *m, uint64_t p)
{
    return (entry(m, m->frame_table, p) & (FREE | UNSAVED)) == 0;
}

static void read_dump(struct machine *m)
{
    uint32_t head[6], zone[2], records;
    char magic[8], gap[2];

    get(magic, sizeof magic);
    get(head, sizeof head);
    need(memcmp(magic, "SWSUDMP1", 8) == 0 && head[5] == 1, "no such dump");
    get(m->names, NAMES);
    get(gap, sizeof gap);
    get(zone, sizeof zone);
    get(&records, sizeof records);
    m->version_code = head[0];
    m->slots = head[1];
    m->frame_table = head[2];
    m->slot_table = head[3];
    m->hw_sig = head[4];
    m->frames = zone[0] + zone[1];
    m->memory = room(m->frames, PAGE);
    for (uint32_t k = 0; k < records; k++) {
        uint32_t p;
        get(&p, sizeof p);
        get(frame(m, p), PAGE);
    }
}

static int is_zeros(const unsigned char *page)
{
    return page[0] == 0 && memcmp(page, page + 1, PAGE - 1) == 0;
}

static void write_dump(struct machine *m)
{
    uint32_t head[6] = { m->version_code, m->slots, m->frame_table, m->slot_table, m->hw_sig, 1 };
    uint32_t zone[2] = { 0, m->frames }, records = 0;

    for (uint32_t p = 0; p < m->frames; p++)
        records += !is_zeros(frame(m, p));
    put("SWSUDMP1", 8);
    put(head, sizeof head);
    put(m->names, NAMES);
    put("\0", 2);
    put(zone, sizeof zone);
    put(&records, sizeof records);
    for (uint32_t p = 0; p < m->frames; p++) {
        if (!is_zeros(frame(m, p))) {
            put(&p, sizeof p);
            put(frame(m, p), PAGE);
        }
    }
}

static void set_counts(struct image *i, uint64_t count)
{
    i->count = count;
    i->pages = count + (count + NUMBERS - 1) / NUMBERS + 1;
    i->numbers = room(count, sizeof *i->numbers);
    i->data = room(count, sizeof *i->data);
}

/* The atomic copy: each saved page goes to a free page frame, the lowest first. */
static void copy_saved(struct machine *m, struct image *i)
{
    uint64_t count = 0, to = 0;

    for (uint64_t p = 0; p < m->frames; p++)
        count += is_saved(m, p);
    set_counts(i, count);
    count = 0;
    for (uint64_t p = 0; p < m->frames; p++) {
        if (!is_saved(m, p))
            continue;
        while (!is_free(m, to))
            to++;
        i->numbers[count] = p;
        i->data[count++] = memcpy(frame(m, to++), frame(m, p), PAGE);
    }
}

/* Page k of the stream. */
static const void *stream_page(struct machine *m, struct image *i, uint64_t k, unsigned char *made)
{
    uint64_t lists = i->pages - i->count - 1;

    if (k > lists)
        return i->data[k - lists - 1];
    memset(made, 0, PAGE);
    if (k == 0) {
        uint64_t sizes[5] = { m->frames, 0, i->count, i->pages, PAGE * i->pages };
        memcpy(made, m->names, NAMES);
        memcpy(made + 392, &m->version_code, 4);
        memcpy(made + 400, sizes, sizeof sizes);
        return made;
    }
    uint64_t first = NUMBERS * (k - 1), count = i->count - first < NUMBERS ? i->count - first : NUMBERS;
    memcpy(made, i->numbers + first, 8 * count);
    if (count < NUMBERS)
        memset(made + 8 * count, 255, 8);
    return made;
}

/* Returns the next free slot, in ascending order: of this machine's area, or of a fresh one. */
static uint64_t next_slot(struct machine *m, uint64_t slot)
{
    do
        slot++;
    while (m && entry(m, m->slot_table, slot) != 0);
    return slot;
}

struct writer {
    struct disk *disk;
    struct machine *slots;
    uint64_t slot, first, at, filled;
    uint64_t map[NUMBERS];
};

static void begin_map(struct writer *w)
{
    w->at = w->slot = next_slot(w->slots, w->slot);
    w->first = w->first ? w->first : w->at;
    w->filled = 0;
    memset(w->map, 0, sizeof w->map);
}

static void write_page(struct writer *w, const void *page)
{
    w->slot = next_slot(w->slots, w->slot);
    w->map[w->filled++] = w->slot;
    write_block(w->disk, w->slot, page);
    if (w->filled == ENTRIES) {
        uint64_t full = w->at;
        uint64_t link = next_slot(w->slots, w->slot);
        w->map[ENTRIES] = link;
        write_block(w->disk, full, w->map);
        begin_map(w);
    }
}

/* Writes the last map and syncs; then writes the mark and syncs it. */
static void mark_image(struct writer *w, uint32_t hw_sig)
{
    unsigned char header[PAGE];
    uint32_t flags = hw_sig ? 10 : 2;

    write_block(w->disk, w->at, w->map);
    sync_disk(w->disk);
    read_block(w->disk, 0, header);
    if (hw_sig)
        memcpy(header + 4056, &hw_sig, 4);
    memcpy(header + 4064, &w->first, 8);
    memcpy(header + 4072, &flags, 4);
    memcpy(header + 4076, header + 4086, 10);
    memcpy(header + 4086, "S1SUSPEND", 10);
    write_block(w->disk, 0, header);
    sync_disk(w->disk);
}

static void hibernate(struct machine *m, struct disk *d, struct image *i)
{
    struct writer w = { .disk = d, .slots = m };
    unsigned char made[PAGE];

    copy_saved(m, i);
    if (d->blocks)
        begin_steps("more", i->pages + i->pages / ENTRIES + 1 + 4);
    begin_map(&w);
    for (uint64_t k = 0; k < i->pages; k++)
        write_page(&w, stream_page(m, i, k, made));
    mark_image(&w, m->hw_sig);
}

struct reader {
    struct disk *disk;
    uint64_t next, taken;
    uint64_t map[NUMBERS];
};

static void read_page(struct reader *r, void *into)
{
    if (r->taken == ENTRIES) {
        read_block(r->disk, r->next, r->map);
        r->next = r->map[ENTRIES];
        r->taken = 0;
    }
    read_block(r->disk, r->map[r->taken++], into);
}

/* Clears the mark and syncs that; then reads the image into free page frames, and copies each page to its place. */
static uint64_t resume(struct machine *m, struct disk *d)
{
    struct reader r = { .disk = d, .taken = ENTRIES };
    struct image i;
    unsigned char page[PAGE];
    uint64_t count, to = 0;

    sync_disk(d);
    read_block(d, 0, page);
    need(memcmp(page + 4086, "S1SUSPEND", 10) == 0, "no image");
    memcpy(&r.next, page + 4064, 8);
    memcpy(page + 4086, page + 4076, 10);
    write_block(d, 0, page);
    sync_disk(d);
    read_page(&r, page);
    memcpy(&count, page + 416, 8);
    set_counts(&i, count);
    for (uint64_t k = 0; k < count; k += NUMBERS) {
        read_page(&r, page);
        memcpy(i.numbers + k, page, 8 * (count - k < NUMBERS ? count - k : NUMBERS));
    }
    unsigned char *wanted = room(m->frames, 1);
    for (uint64_t k = 0; k < count; k++)
        wanted[i.numbers[k]] = 1;
    /* A page whose page frame is free goes there at once; any other waits in a free page frame that no page wants. A script's
     * pages wait in the highest page frames (crates/placement/specs/Plan.antt). */
    for (uint64_t k = 0; k < count; k++) {
        uint64_t at = i.numbers[k];
        if (d->blocks) {
            at = m->frames - count + k;
        } else if (!is_free(m, at)) {
            while (!is_free(m, to) || wanted[to])
                to++;
            at = to++;
        }
        i.data[k] = frame(m, at);
        read_page(&r, i.data[k]);
    }
    for (uint64_t p = 0; p < m->frames; p++)
        if (is_free(m, p))
            wanted[p] |= 2;
    for (uint64_t k = 0; k < count; k++)
        if (i.data[k] != frame(m, i.numbers[k]))
            memcpy(frame(m, i.numbers[k]), i.data[k], PAGE);
    for (uint64_t p = 0; p < m->frames; p++)
        if (wanted[p] == 2)
            memset(frame(m, p), 0, PAGE);
    free(wanted);
    free(i.numbers);
    free(i.data);
    return count;
}

static void export_stream(struct machine *m)
{
    struct image i;
    unsigned char made[PAGE];

    copy_saved(m, &i);
    for (uint64_t k = 0; k < i.pages; k++)
        put(stream_page(m, &i, k, made), PAGE);
}

static uint64_t import_stream(struct disk *d)
{
    struct writer w = { .disk = d };
    unsigned char page[PAGE];
    uint64_t count, pages;

    get(page, PAGE);
    memcpy(&count, page + 416, 8);
    memcpy(&pages, page + 424, 8);
    begin_map(&w);
    write_page(&w, page);
    for (uint64_t k = 1; k < pages; k++) {
        get(page, PAGE);
        write_page(&w, page);
    }
    mark_image(&w, 0);
    return count;
}

/* Boots a machine of 4,096 page frames, whose tables are in the first ones, with a disk of 3,001 blocks, both in memory. Claims
 * `pages` page frames. */
static void claim(struct machine *m, struct disk *d, uint64_t pages)
{
    uint32_t bad = 131072, flags = 0;

    m->slots = 3001;
    m->slot_table = 4;
    m->frames = 4096;
    m->memory = room(m->frames, PAGE);
    d->blocks = room(m->slots, PAGE);
    d->durable = room(m->slots, PAGE);
    d->unsynced = room(2 * m->slots, sizeof *d->unsynced);
    memcpy(d->blocks + 4086, "SWAPSPACE2", 10);
    memcpy(frame(m, m->slot_table), &bad, 4);
    begin_steps("more", 2);
    reply();
    printf("booted image no\n");
    for (uint32_t p = 7; p < m->frames; p++) {
        uint32_t is_free = FREE;
        memcpy(frame(m, 0) + 4 * p, &is_free, 4);
    }
    for (uint32_t p = 16; p < 16 + pages; p++) {
        memset(frame(m, p), 0, PAGE);
        memcpy(frame(m, 0) + 4 * p, &flags, 4);
        printf("ok\n");
    }
}

/* Hibernates, and resumes with a loader to which every page frame is free. */
static void cycle(struct machine *m, struct disk *d)
{
    struct image i;

    hibernate(m, d, &i);
    printf("hibernated %llu\n", (unsigned long long)i.count);
    for (uint32_t p = 0; p < m->frames; p++) {
        uint32_t flags = FREE;
        memcpy(frame(m, 0) + 4 * p, &flags, 4);
    }
    begin_steps("loading", 4 + (i.pages + ENTRIES - 1) / ENTRIES + i.pages);
    printf("resumed %llu\n", (unsigned long long)resume(m, d));
}

int main(int count, char **words)
{
    static char input[PIECE], output[PIECE];
    const char *command = count > 1 ? words[1] : "";
    struct machine m = { 0 };
    struct image i;
    struct disk d = { .file = -1 };
    int has_area = !strcmp(command, "hibernate") || !strcmp(command, "resume") || !strcmp(command, "import");

    int plays = !strcmp(command, "claims") || !strcmp(command, "cycle");

    need(count == (has_area || plays ? 3 : 2), "hibernate AREA, resume AREA, export, import AREA, claims PAGES, cycle PAGES");
    setvbuf(stdin, input, _IOFBF, sizeof input);
    setvbuf(stdout, output, _IOFBF, sizeof output);
    if (has_area) {
        d.file = open(words[2], O_RDWR);
        need(d.file >= 0, "no such area");
    }
    if (!strcmp(command, "hibernate")) {
        read_dump(&m);
        hibernate(&m, &d, &i);
        printf("hibernated %llu\n", (unsigned long long)i.count);
    } else if (!strcmp(command, "resume")) {
        read_dump(&m);
        resume(&m, &d);
        write_dump(&m);
        need(fflush(stdout) == 0 && (fsync(1) == 0 || !isatty(1)), "output fails");
    } else if (!strcmp(command, "export")) {
        read_dump(&m);
        export_stream(&m);
    } else if (!strcmp(command, "import")) {
        printf("imported %llu\n", (unsigned long long)import_stream(&d));
    } else {
        need(plays, "no such command");
        claim(&m, &d, strtoull(words[2], NULL, 10));
        if (!strcmp(command, "cycle"))
            cycle(&m, &d);
    }
    need(fflush(stdout) == 0, "output fails");
    return 0;
}
