/* bench_lzo.c: compressed images by liblzo2, to measure `swsusp_image` and to try it with another compressor's images.
 *
 * bench_lzo pack PLAIN NEW [KIND]: writes the image of the area PLAIN compressed into the file NEW, as the kernel's
 * save_image_lzo does (kernel/power/swap.c): by lzo1x_1_compress, as the kernel, or by lzo1x_999_compress if KIND is 999.
 * bench_lzo page AREA P: reads such an image, expands each unit once by lzo1x_decompress_safe, compares the checksum, and
 * writes the page of page frame P, as `swsusp_image page` does.
 * The input must be in order: faults aren't looked for.
 */
#include <fcntl.h>
#include <lzo/lzo1x.h>
#include <stdint.h>
#include <stdio.h>
#include <stdlib.h>
#include <string.h>
#include <unistd.h>

enum { PAGE = 4096, ENTRIES = 511, UNIT = 32 * PAGE, MOST = UNIT + UNIT / 16 + 64 + 3 + 2, BLOCKS = 8 + MOST + PAGE };

/* The pages that a chain names, the info page first. */
struct chain {
    int file;
    unsigned char header[PAGE];
    uint64_t count, *blocks;
};

static void need(int done, const char *what)
{
    if (!done) {
        fprintf(stderr, "bench_lzo: %s\n", what);
        exit(1);
    }
}

static void *room(size_t count, size_t size)
{
    void *made = calloc(count, size);
    need(made != NULL, "no memory");
    return made;
}

static void read_block(int file, uint64_t b, void *into)
{
    need(pread(file, into, PAGE, (off_t)(PAGE * b)) == PAGE, "read fault");
}

static void write_block(int file, uint64_t b, const void *from)
{
    need(pwrite(file, from, PAGE, (off_t)(PAGE * b)) == PAGE, "write fault");
}

static struct chain chain_of(const char *path)
{
    struct chain c = {.file = open(path, O_RDONLY), .count = 0};
    uint64_t map[ENTRIES + 1], at, size;
    need(c.file >= 0, "open fault");
    size = (uint64_t)lseek(c.file, 0, SEEK_END) / PAGE;
    c.blocks = room(size, sizeof *c.blocks);
    read_block(c.file, 0, c.header);
    for (memcpy(&at, c.header + 4064, 8); at; at = map[ENTRIES]) {
        read_block(c.file, at, map);
        for (int i = 0; i < ENTRIES && map[i]; i++) {
            need(c.count < size, "a chain without an end");
            c.blocks[c.count++] = map[i];
        }
    }
    return c;
}

/* Returns the number of pages of the image after the info page, which the info page gives. */
static uint64_t pages_of(const unsigned char *info)
{
    uint64_t pages;
    memcpy(&pages, info + 424, 8);
    return pages - 1;
}

/* The kernel's crc32_le: no inversion before or after. */
static uint32_t crc_of(uint32_t crc, const unsigned char *bytes, size_t size)
{
    static uint32_t table[256];
    if (!table[1])
        for (uint32_t i = 0; i < 256; i++) {
            uint32_t r = i;
            for (int k = 0; k < 8; k++)
                r = r & 1 ? r >> 1 ^ 0xedb88320u : r >> 1;
            table[i] = r;
        }
    while (size--)
        crc = crc >> 8 ^ table[(crc ^ *bytes++) & 255];
    return crc;
}

/* Writes blocks one after another, each named by a map. */
struct writer {
    int file;
    uint64_t next, at, map[ENTRIES + 1];
    int entries;
};

static void put_page(struct writer *w, const void *page)
{
    if (w->entries == ENTRIES) {
        w->map[ENTRIES] = w->next;
        write_block(w->file, w->at, w->map);
        w->at = w->next++;
        memset(w->map, 0, sizeof w->map);
        w->entries = 0;
    }
    write_block(w->file, w->next, page);
    w->map[w->entries++] = w->next++;
}

static void pack(const char *from, const char *to, int best)
{
    struct chain c = chain_of(from);
    struct writer w = {.file = open(to, O_RDWR | O_CREAT | O_TRUNC, 0666), .next = 2, .at = 1};
    unsigned char *unit = room(1, UNIT), *packed = room(1, BLOCKS), info[PAGE];
    void *work = room(1, best ? LZO1X_999_MEM_COMPRESS : LZO1X_1_MEM_COMPRESS);
    uint64_t pages, done = 0, first = 1;
    uint32_t crc = 0, flags, last;
    need(w.file >= 0, "open fault");
    read_block(c.file, c.blocks[0], info);
    put_page(&w, info);
    for (pages = pages_of(info); done < pages;) {
        uint64_t now = pages - done < 32 ? pages - done : 32, length;
        lzo_uint size = 0;
        for (uint64_t i = 0; i < now; i++)
            read_block(c.file, c.blocks[1 + done + i], unit + PAGE * i);
        memset(packed, 0, BLOCKS);
        need((best ? lzo1x_999_compress : lzo1x_1_compress)(unit, PAGE * now, packed + 8, &size, work) == LZO_E_OK, "compressor");
        crc = crc_of(crc, unit, PAGE * now);
        memcpy(packed, &(uint64_t){length = size}, 8);
        for (uint64_t at = 0; at < 8 + length; at += PAGE)
            put_page(&w, packed + at);
        done += now;
    }
    write_block(w.file, w.at, w.map);
    /* Flag 2 says that an image isn't compressed, flag 4 that it has a checksum. */
    memcpy(&flags, c.header + 4072, 4);
    flags = (flags & ~2u) | 4;
    memcpy(c.header + 4072, &flags, 4);
    memcpy(c.header + 4064, &first, 8);
    memcpy(c.header + 4060, &crc, 4);
    last = (uint32_t)w.next - 1;
    memcpy(c.header + 1028, &last, 4);
    write_block(w.file, 0, c.header);
    need(fsync(w.file) == 0, "sync fault");
}

/* Reads the compressed bytes of the next unit, whose first page is number `at` of the chain. */
static uint64_t read_unit(const struct chain *c, uint64_t *at, unsigned char *packed)
{
    uint64_t length;
    read_block(c->file, c->blocks[(*at)++], packed);
    memcpy(&length, packed, 8);
    need(length <= MOST, "length");
    for (uint64_t have = PAGE; have < 8 + length; have += PAGE)
        read_block(c->file, c->blocks[(*at)++], packed + have);
    return length;
}

/* Reads the whole image, and writes the page of one of its page frames: the words of the number pages are in its first units. */
static void page(const char *path, uint64_t frame)
{
    struct chain c = chain_of(path);
    unsigned char *unit = room(1, UNIT), *packed = room(1, BLOCKS), info[PAGE], found[PAGE];
    uint64_t at = 1, pages, saved, numbers, place = 0, wanted_at = UINT64_MAX;
    uint32_t crc = 0, wanted;
    int is_found = 0;
    read_block(c.file, c.blocks[0], info);
    memcpy(&saved, info + 416, 8);
    numbers = saved / 512 + 1;
    for (pages = pages_of(info); pages;) {
        uint64_t now = pages < 32 ? pages : 32, length = read_unit(&c, &at, packed);
        lzo_uint size = UNIT;
        need(lzo1x_decompress_safe(packed + 8, length, unit, &size, NULL) == LZO_E_OK && size == PAGE * now, "unit");
        crc = crc_of(crc, unit, size);
        for (uint64_t i = 0; i < now; i++, place++) {
            for (uint64_t k = 0; place < numbers && k < 512 && 512 * place + k < saved; k++)
                if (memcmp(unit + PAGE * i + 8 * k, &frame, 8) == 0)
                    wanted_at = numbers + 512 * place + k;
            if (place == wanted_at) {
                memcpy(found, unit + PAGE * i, PAGE);
                is_found = 1;
            }
        }
        pages -= now;
    }
    memcpy(&wanted, c.header + 4060, 4);
    need(crc == wanted, "checksum");
    need(is_found && fwrite(found, 1, PAGE, stdout) == PAGE, "no page");
}

int main(int count, char **words)
{
    need(lzo_init() == LZO_E_OK, "liblzo2");
    if (count >= 4 && strcmp(words[1], "pack") == 0)
        pack(words[2], words[3], count > 4 && strcmp(words[4], "999") == 0);
    else if (count == 4 && strcmp(words[1], "page") == 0)
        page(words[2], strtoull(words[3], NULL, 10));
    else
        need(0, "pack PLAIN NEW [999] or page AREA P");
    return 0;
}
