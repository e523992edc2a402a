/*
 * The only program of the lab's initramfs, process 1 of the machine. The kernel's command line says what it does:
 *
 *   lab.mode=hibernate  fills pages, swaps to the disk, lets some pages out, and hibernates. When the machine is resumed it goes on
 *                       from there, looks at the pages again, and prints the word that this boot was handed.
 *   lab.mode=resume     asks the kernel to resume the disk's image. If the kernel refuses, it says so.
 *   lab.mode=cases      does that again and again, each time with other blocks of the disk damaged, as a third disk says. That disk has
 *                       for each case a page with its name (64 bytes), the number of blocks and the blocks (8 bytes each), then the
 *                       damaged pages, then the pages as they were, which are written back: the header block is always among them.
 *                       A page of zeros ends the list.
 *   lab.mode=swap       asks the kernel to swap to the disk, and says whether it does.
 *
 *   lab.disk=NAME       the disk with the swap area, by its name in /dev
 *   lab.word=NAME       the disk with the word: 16 bytes, read past the page cache, since a resumed machine's cache is an old one
 *   lab.cases=NAME      the disk with the cases
 *   lab.pages=N         how many pages get a pattern and stay in memory
 *   lab.fill=N          how many further pages are used, to bring the image to a certain size
 *   lab.used=N          how many pages get a pattern and are let out to the swap area
 *   lab.sig=N           the machine's hardware signature, which only firmware with ACPI has. It is written at lab.sigat=ADDRESS,
 *                       the physical address of the kernel's swsusp_hardware_signature
 *   lab.power=WORD      how the machine is switched off after the image, for /sys/power/disk ("shutdown" by default)
 *
 * Each line that it prints begins with "lab: ". It ends by switching the machine off.
 */
#define _GNU_SOURCE
#include <errno.h>
#include <fcntl.h>
#include <stdint.h>
#include <stdio.h>
#include <stdlib.h>
#include <string.h>
#include <sys/mman.h>
#include <sys/mount.h>
#include <sys/reboot.h>
#include <sys/stat.h>
#include <sys/swap.h>
#include <sys/syscall.h>
#include <sys/sysmacros.h>
#include <unistd.h>

#define PAGE 4096UL
#define WORDS (PAGE / 8)

static char line[4096];

/* Returns the value of a setting of the kernel's command line, or `without` if it isn't set. */
static const char *setting(const char *name, const char *without)
{
    static char values[16][64];
    static int used;
    const char *at = line;
    size_t length = strlen(name);

    while (at && *at) {
        if (!strncmp(at, name, length) && at[length] == '=') {
            size_t size = strcspn(at + length + 1, " \n");
            char *value = values[used++ % 16];

            if (size > 63)
                size = 63;
            memcpy(value, at + length + 1, size);
            value[size] = 0;
            return value;
        }
        at = strchr(at, ' ');
        at = at ? at + 1 : 0;
    }
    return without;
}

static unsigned long number(const char *name)
{
    return strtoul(setting(name, "0"), 0, 0);
}

static void power_off(void)
{
    fflush(stdout);
    sync();
    reboot(RB_POWER_OFF);
    for (;;)
        pause();
}

static void fail(const char *what)
{
    printf("lab: failed: %s, errno %d\n", what, errno);
    power_off();
}

/* Writes a text into a file of the kernel. */
static int put(const char *file, const char *text)
{
    int fd = open(file, O_WRONLY);
    ssize_t written;

    if (fd < 0)
        return -1;
    written = write(fd, text, strlen(text));
    close(fd);
    return written < 0 ? -1 : 0;
}

/* Loads the modules that the initramfs has, in the order of their names. */
static void load_modules(void)
{
    for (int k = 0; k < 100; k++) {
        char file[32];
        int fd;

        snprintf(file, sizeof file, "/modules/%02d.ko", k);
        fd = open(file, O_RDONLY);
        if (fd < 0)
            return;
        if (syscall(SYS_finit_module, fd, "", 0) < 0)
            printf("lab: module %d isn't taken, errno %d\n", k, errno);
        close(fd);
    }
}

/* Returns word i of page k of a set, mixed so that no two pages, and no two words of a page, are alike. */
static uint64_t word_of(unsigned set, unsigned long k, unsigned long i)
{
    uint64_t x = ((uint64_t)set << 56) + ((uint64_t)k << 16) + i;

    x = (x ^ x >> 30) * 0xbf58476d1ce4e5b9ULL;
    x = (x ^ x >> 27) * 0x94d049bb133111ebULL;
    return x ^ x >> 31;
}

static uint64_t *fill(unsigned set, unsigned long pages)
{
    uint64_t *at = mmap(0, (pages + 1) * PAGE, PROT_READ | PROT_WRITE, MAP_PRIVATE | MAP_ANONYMOUS, -1, 0);

    if (at == MAP_FAILED)
        fail("no memory");
    for (unsigned long k = 0; k < pages; k++)
        for (unsigned long i = 0; i < WORDS; i++)
            at[k * WORDS + i] = word_of(set, k, i);
    return at;
}

static unsigned long good(unsigned set, const uint64_t *at, unsigned long pages)
{
    unsigned long count = 0;

    for (unsigned long k = 0; k < pages; k++) {
        unsigned long i = 0;

        while (i < WORDS && at[k * WORDS + i] == word_of(set, k, i))
            i++;
        count += i == WORDS;
    }
    return count;
}

/* Returns what the kernel's page table says of page k: bit 63 if it is in a page frame, bit 62 if it is in a slot. */
static uint64_t entry_of(const uint64_t *at, unsigned long k)
{
    int fd = open("/proc/self/pagemap", O_RDONLY);
    uint64_t entry = 0;

    if (fd < 0 || pread(fd, &entry, 8, ((uintptr_t)at / PAGE + k) * 8) != 8)
        fail("pagemap");
    close(fd);
    return entry;
}

/* Prints in which page frames or slots the pages are, one run per line: "lab: frames SET FIRST PLACE COUNT". */
static unsigned long tell(unsigned set, const uint64_t *at, unsigned long pages, int swapped)
{
    unsigned long found = 0, first = 0, count = 0;
    uint64_t place = 0;

    for (unsigned long k = 0; k <= pages; k++) {
        uint64_t entry = k < pages ? entry_of(at, k) : 0;
        int there = swapped ? entry >> 62 == 1 : entry >> 63 == 1;
        /* A slot's entry has the area's number in its lowest five bits. */
        uint64_t now = swapped ? (entry & ((1ULL << 55) - 1)) >> 5 : entry & ((1ULL << 55) - 1);

        found += there;
        if (count && there && now == place + count && k == first + count) {
            count++;
            continue;
        }
        if (count)
            printf("lab: %s %u %lu %llu %lu\n", swapped ? "slots" : "frames", set, first, (unsigned long long)place, count);
        count = there;
        first = k;
        place = now;
    }
    return found;
}

/* Gives the kernel a hardware signature, as its firmware would. */
static void sign(void)
{
    uint32_t sig = number("lab.sig");
    off_t at = strtoull(setting("lab.sigat", "0"), 0, 0);
    int fd;

    if (!sig)
        return;
    fd = open("/dev/mem", O_RDWR);
    if (fd < 0 || pwrite(fd, &sig, 4, at) != 4)
        fail("the signature");
    close(fd);
}

static void say_word(void)
{
    char file[32];
    void *page;
    int fd;

    snprintf(file, sizeof file, "/dev/%s", setting("lab.word", "sdb"));
    fd = open(file, O_RDONLY | O_DIRECT);
    if (posix_memalign(&page, PAGE, PAGE) || fd < 0 || read(fd, page, PAGE) != (ssize_t)PAGE)
        fail("the word");
    printf("lab: resumed, word %.16s\n", (char *)page);
    close(fd);
}

static void hibernate(const char *disk)
{
    unsigned long pages = number("lab.pages"), used = number("lab.used"), more = number("lab.fill"), out = 0;
    uint64_t *kept = fill(1, pages), *let = fill(2, used);

    fill(3, more);
    if (swapon(disk, 0))
        fail("swapon");
    /* The kernel lets out what it can at once; it is asked again for pages that are still on their way. */
    for (int k = 0; k < 50 && out < used; k++) {
        madvise(let, used * PAGE, MADV_PAGEOUT);
        usleep(100000);
        out = 0;
        for (unsigned long page = 0; page < used; page++)
            out += entry_of(let, page) >> 62 == 1;
    }
    printf("lab: patterns %lu in memory, %lu of %lu let out\n", tell(1, kept, pages, 0), tell(2, let, used, 1), used);
    sign();
    sync();
    if (put("/sys/power/disk", setting("lab.power", "shutdown")))
        fail("/sys/power/disk");
    fflush(stdout);
    if (put("/sys/power/state", "disk")) {
        printf("lab: not hibernated, errno %d\n", errno);
        power_off();
    }
    /* From here on the machine is a resumed one. */
    say_word();
    printf("lab: patterns good %lu of %lu, let out good %lu of %lu\n", good(1, kept, pages), pages, good(2, let, used), used);
    power_off();
}

static int disk_of(const char *name, int flags)
{
    char file[32];
    int fd;

    snprintf(file, sizeof file, "/dev/%s", name);
    /* Past the page cache, as the kernel's own hibernation code does. */
    fd = open(file, flags | O_DIRECT);
    if (fd < 0)
        fail(file);
    return fd;
}

static void ask(const char *device)
{
    printf("lab: asks for the image\n");
    fflush(stdout);
    put("/sys/power/resume", device);
}

/* Copies a case's pages from their place on its disk to their blocks. */
static void lay(int from, off_t at, int to, const uint64_t *blocks, uint64_t count, void *page)
{
    for (uint64_t k = 0; k < count; k++)
        if (pread(from, page, PAGE, at + k * PAGE) != (ssize_t)PAGE || pwrite(to, page, PAGE, blocks[k] * PAGE) != (ssize_t)PAGE)
            fail("a case's page");
}

static int marked(int disk, char *page)
{
    if (pread(disk, page, PAGE, 0) != (ssize_t)PAGE)
        fail("the header block");
    return !memcmp(page + PAGE - 10, "S1SUSPEND", 10);
}

static void try_cases(const char *disk, const char *device)
{
    int from = disk_of(setting("lab.cases", "sdc"), O_RDONLY), to = disk_of(disk, O_RDWR);
    uint64_t *head;
    char *page;
    off_t at = 0;

    if (posix_memalign((void **)&head, PAGE, PAGE) || posix_memalign((void **)&page, PAGE, PAGE))
        fail("no memory");
    while (pread(from, head, PAGE, at) == (ssize_t)PAGE && head[8] && head[8] <= 500) {
        uint64_t count = head[8];
        int before, after;

        lay(from, at + PAGE, to, head + 9, count, page);
        before = marked(to, page);
        ask(device);
        after = marked(to, page);
        /* A kernel that finds an image clears its mark before it reads on. */
        printf("lab: %s, case %.63s\n", after ? "left alone" : before ? "refused" : "overlooked", (char *)head);
        lay(from, at + PAGE + count * PAGE, to, head + 9, count, page);
        at += PAGE + 2 * count * PAGE;
    }
    printf("lab: no more cases\n");
}

int main(void)
{
    char disk[32], file[64], device[32] = "";
    const char *mode, *name;
    int fd;

    setvbuf(stdout, 0, _IOLBF, 0);
    mount("proc", "/proc", "proc", 0, 0);
    mount("sysfs", "/sys", "sysfs", 0, 0);
    mount("devtmpfs", "/dev", "devtmpfs", 0, 0);
    fd = open("/proc/cmdline", O_RDONLY);
    if (fd < 0 || read(fd, line, sizeof line - 1) < 0)
        fail("the command line");
    close(fd);
    load_modules();
    mode = setting("lab.mode", "");
    name = setting("lab.disk", "sda");
    snprintf(disk, sizeof disk, "/dev/%s", name);
    for (int k = 0; access(disk, F_OK); k++) {
        if (k == 200)
            fail(disk);
        usleep(50000);
    }

    if (!strcmp(mode, "hibernate"))
        hibernate(disk);
    if (!strcmp(mode, "swap")) {
        if (swapon(disk, 0))
            printf("lab: no swap, errno %d\n", errno);
        else
            printf("lab: swaps\n");
        power_off();
    }
    snprintf(file, sizeof file, "/sys/class/block/%s/dev", name);
    fd = open(file, O_RDONLY);
    if (fd < 0 || read(fd, device, sizeof device - 1) < 0)
        fail(file);
    sign();
    if (!strcmp(mode, "cases")) {
        try_cases(name, device);
        power_off();
    }
    ask(device);
    printf("lab: not resumed\n");
    power_off();
}
