/*
 * libswsusp: the image of a hibernated Linux, for a boot loader or an initramfs.
 *
 * The library makes no call of its own and takes no memory: it says which call of the disk comes next, and the caller
 * reports how that call went. All it keeps lies in the caller's struct swsusp_resume, struct swsusp_discard or struct
 * swsusp_check, which may lie anywhere, be copied and be moved. Two threads may not use one such struct at once.
 * libswsusp(3) describes each function.
 *
 * Each pointer must hold what it says, and no two pointers of a call may overlap; none may be NULL. Every other
 * argument is tested, and refused with a code.
 */
#ifndef SWSUSP_H
#define SWSUSP_H

#include <stddef.h>
#include <stdint.h>

#ifdef __cplusplus
extern "C" {
#endif

/* The number of bytes of a block of the disk, of a page frame and of the caller's buffer. */
#define SWSUSP_PAGE 4096

/* How many words of 64 bits the caller lends to a check of a disk of `blocks` blocks. */
#define SWSUSP_WORDS(blocks) ((size_t)(blocks) / 64 + 1)

/* How many findings of one call are kept. */
#define SWSUSP_FINDINGS 1100

/* What the functions return. Unless it is SWSUSP_OK, nothing was changed. */
enum {
    SWSUSP_OK = 0,
    SWSUSP_BAD_STATE = 1,    /* the state isn't one that the library wrote */
    SWSUSP_BAD_PAGE = 2,     /* the buffer doesn't have SWSUSP_PAGE bytes */
    SWSUSP_BAD_MEMORY = 3,   /* a range of page frames is empty, or begins before the end of the one before it */
    SWSUSP_BAD_PRESENT = 4,  /* there are no page frames, or 2^52 and more */
    SWSUSP_BAD_HEADER = 5,   /* the header's block isn't one of the disk's */
    SWSUSP_BAD_IDENTITY = 6, /* none of SWSUSP_ANY_KERNEL, SWSUSP_SAME_KERNEL and SWSUSP_SAME_ARCHITECTURE */
    SWSUSP_BAD_WORDS = 7     /* the caller lends fewer words than SWSUSP_WORDS says */
};

/* What comes next: the kind of a call. */
enum {
    SWSUSP_SYNC = 1,    /* what was written must be on the disk before the answer */
    SWSUSP_READ = 2,    /* block `first` must be read into the buffer */
    SWSUSP_WRITE = 3,   /* the buffer must be written to block `first` */
    SWSUSP_PLACE = 4,   /* the buffer is the page of page frame `first` */
    SWSUSP_DONE = 5,    /* an end: each page was handed out, `first` of them */
    SWSUSP_REFUSED = 6, /* an end: the image isn't resumed, for the cause `reason` */
    SWSUSP_FAILED = 7   /* an end: the call `reason` (SWSUSP_SYNC to SWSUSP_PLACE) failed, and leaves `first` */
};

/* Why an image isn't resumed: the reason of SWSUSP_REFUSED, by the names of swsusp-replies(7). */
enum {
    SWSUSP_NO_IMAGE = 1,
    SWSUSP_COMPRESSED = 2,    /* flags `first` */
    SWSUSP_HW_MISMATCH = 3,   /* the image's signature `first`, the machine's `second` */
    SWSUSP_NO_CHAIN = 4,
    SWSUSP_BAD_BLOCK = 5,     /* block `first` */
    SWSUSP_CHAIN_ENDS = 6,    /* after map `first`, counted from 1 */
    SWSUSP_MISMATCH = 7,      /* field `first`: SWSUSP_VERSION_CODE to SWSUSP_MACHINE */
    SWSUSP_ARCHITECTURE_MISMATCH = 8,
    SWSUSP_MEMORY_SIZE = 9,   /* the image's page frames `first`, the machine's `second` */
    SWSUSP_BAD_COUNTS = 10,   /* page frames saved `first`, pages of the stream `second` */
    SWSUSP_BAD_PFN = 11,      /* page frame `first` is no memory */
    SWSUSP_PFN_ORDER = 12,    /* page frame `second` isn't above `first`, the one before it */
    SWSUSP_PFN_END = 13,      /* the word `first` follows the last page frame's number */
    SWSUSP_NO_ORIGINAL = 14   /* only from swsusp_discard_next: the signature under the mark is an image's too */
};

/* The field of SWSUSP_MISMATCH. */
enum {
    SWSUSP_VERSION_CODE = 1,
    SWSUSP_SYSNAME = 2,
    SWSUSP_RELEASE = 3,
    SWSUSP_VERSION = 4,
    SWSUSP_MACHINE = 5
};

/* What a failed call leaves: `first` of SWSUSP_FAILED. */
enum {
    SWSUSP_SAME = 1,   /* the disk is as it was */
    SWSUSP_UNSURE = 2, /* the image is there, or it was taken back */
    SWSUSP_GONE = 3    /* the image was taken back */
};

/* What the image's identity is compared with. */
enum {
    SWSUSP_ANY_KERNEL = 0,       /* with nothing */
    SWSUSP_SAME_KERNEL = 1,      /* with version_code and names, of which nodename and domainname may differ */
    SWSUSP_SAME_ARCHITECTURE = 2 /* with the bytes of architecture */
};

/* The next call, or an end. Numbers that a kind doesn't name are 0. */
struct swsusp_call {
    uint32_t kind;
    uint32_t reason;
    uint64_t first;
    uint64_t second;
};

/* The page frames from start up to before end are memory. */
struct swsusp_range {
    uint64_t start;
    uint64_t end;
};

/* The machine that is resumed, and the place of its swap area. */
struct swsusp_machine {
    uint64_t present;            /* how many page frames the kernel counts (num_physpages), below 2^52 */
    uint64_t blocks;             /* how many blocks of SWSUSP_PAGE bytes the disk has */
    uint64_t header;             /* the block of the area's header */
    uint32_t hardware_signature; /* compared if the image has one */
    uint32_t identity;           /* SWSUSP_ANY_KERNEL, SWSUSP_SAME_KERNEL or SWSUSP_SAME_ARCHITECTURE */
    uint32_t version_code;       /* LINUX_VERSION_CODE */
    uint8_t names[6][65];        /* sysname, nodename, release, version, machine, domainname, filled with zero bytes */
    uint8_t architecture[390];   /* the first bytes of the info page, if the architecture has a header of its own */
};

/* A resume. Its fields are the library's. */
struct swsusp_resume {
    uint32_t stage;
    uint32_t has_last;
    struct swsusp_call call;
    uint32_t mark_last;
    uint32_t mark_count;
    uint64_t mark_first;
    uint32_t mark_flags;
    uint32_t mark_hw_sig;
    uint64_t saved;
    uint64_t pages;
    uint64_t page;
    uint64_t given;
    uint64_t last;
    uint64_t with_data;
    uint64_t again;
    uint64_t frame;
    uint8_t map[SWSUSP_PAGE];
    uint8_t numbers[SWSUSP_PAGE];
};

/* Giving up an image that isn't resumed. Its field is the library's. */
struct swsusp_discard {
    struct swsusp_call call;
};

/* What the header block of an area is. */
enum {
    SWSUSP_IMAGE = 1,    /* an image: first_map, last_page, bad_pages, flags and hardware_signature, untested */
    SWSUSP_AREA = 2,     /* a version 1 swap area without an image: last_page and bad_pages */
    SWSUSP_OLD_AREA = 3, /* a version 0 swap area */
    SWSUSP_NO_AREA = 4,  /* no signature of a swap area */
    SWSUSP_BAD_AREA = 5  /* a version 1 swap area that can't be used: fault and number */
};

/* Why a version 1 swap area can't be used. */
enum {
    SWSUSP_FAULT_VERSION = 1,   /* another version: `number` */
    SWSUSP_FAULT_BAD_COUNT = 2, /* too many bad pages: `number` of them */
    SWSUSP_FAULT_LAST_ZERO = 3, /* no slot but the header's */
    SWSUSP_FAULT_BAD_ENTRY = 4  /* the bad page `number` is no slot */
};

/* What a header block says. Numbers that its kind doesn't name are 0. */
struct swsusp_header {
    uint64_t first_map;
    uint32_t kind;
    uint32_t last_page;
    uint32_t bad_pages;
    uint32_t flags;
    uint32_t hardware_signature;
    uint32_t fault;
    uint32_t number;
};

/* A check of an image. Its fields are the library's. */
struct swsusp_check {
    uint64_t at;
    uint64_t next;
    uint64_t entry;
    uint64_t image_pages;
    uint64_t pages;
    uint64_t previous;
    uint64_t counted;
    uint32_t stage;
    uint32_t block;
    uint32_t blocks;
    uint32_t header;
    uint32_t last;
    uint32_t skips_zeros;
    uint32_t maps;
    uint32_t over;
    uint32_t has_counts;
    uint32_t has_previous;
    uint32_t has_counted;
    uint32_t bad[630];
    uint8_t map[SWSUSP_PAGE];
};

/*
 * What is wrong with an image: the kind of a finding. Maps, number pages and units count from 1, entries of a map and
 * words of a number page from 0.
 */
enum {
    SWSUSP_FOUND_HEADER_UNREAD = 1,      /* block `first`, the header's, can't be read */
    SWSUSP_FOUND_ORIGINAL_SIGNATURE = 2, /* the original signature is no swap area's */
    SWSUSP_FOUND_AREA = 3,               /* taken back, the area couldn't be used: `fault`, one of SWSUSP_FAULT_VERSION
                                            to SWSUSP_FAULT_BAD_ENTRY, with the number `first` */
    SWSUSP_FOUND_LAST_PAGE = 4,          /* the last page is `first`, but the disk has `second` blocks */
    SWSUSP_FOUND_COMPRESSED = 5,         /* flags `first`: a compressed image, whose pages aren't read */
    SWSUSP_FOUND_MAP = 6,                /* map `map` lies in block `first` with `fault` */
    SWSUSP_FOUND_ENDS = 7,               /* map `map` is the last one, but the image has `first` pages */
    SWSUSP_FOUND_AFTER_MAPS = 8,         /* map `map` in block `first` comes after the last one */
    SWSUSP_FOUND_ENTRY = 9,              /* `entry` of map `map`, in block `at`, names block `first` with `fault` */
    SWSUSP_FOUND_AFTER_PAGES = 10,       /* `entry` of map `map`, in block `at`: block `first` after the last page */
    SWSUSP_FOUND_NO_END = 11,            /* name `first` of the info page, from 0, has no end */
    SWSUSP_FOUND_MAGIC = 12,             /* the info page has an architecture's header, but with magic `first` */
    SWSUSP_FOUND_COUNTS = 13,            /* the info page says image_pages `first`, but pages `second` */
    SWSUSP_FOUND_SIZE = 14,              /* the info page says size `first`, but pages `second` */
    SWSUSP_FOUND_NUMBER = 15,            /* number page `first`, word `second`: `third` is no page frame */
    SWSUSP_FOUND_ORDER = 16,             /* number page `first`, word `second`: `third` comes after `fourth` */
    SWSUSP_FOUND_END = 17,               /* number page `first`, word `second`: `third` after the last number */
    SWSUSP_FOUND_DATA_PAGES = 18,        /* the numbers have `first` data pages, but pages are `second` */
    /* Of a compressed image's units, which this check doesn't read: */
    SWSUSP_FOUND_UNIT_LENGTH = 19,       /* unit `first`, at `entry` of map `map` in block `at`, has length `second` */
    SWSUSP_FOUND_UNIT_STREAM = 20,       /* unit `first`, byte `second`: the stream has `fault` */
    SWSUSP_FOUND_UNIT_SIZE = 21,         /* unit `first` has `second` bytes, but `third` are wanted */
    SWSUSP_FOUND_CHECKSUM = 22           /* the header's checksum is `first`, that of the units `second` */
};

/* Why a block that is named can't be a page of the image: `fault` of SWSUSP_FOUND_MAP and SWSUSP_FOUND_ENTRY. */
enum {
    SWSUSP_BLOCK_ZERO = 1,        /* block 0: no block is named */
    SWSUSP_BLOCK_BEYOND_FILE = 2, /* beyond the disk */
    SWSUSP_BLOCK_BEYOND_LAST = 3, /* beyond the last page of the area */
    SWSUSP_BLOCK_BAD = 4,         /* a bad page of the area */
    SWSUSP_BLOCK_AGAIN = 5,       /* named already, or the header block */
    SWSUSP_BLOCK_UNREAD = 6       /* it can't be read */
};

/* What is wrong with a unit's stream: `fault` of SWSUSP_FOUND_UNIT_STREAM. */
enum {
    SWSUSP_STREAM_VERSIONED = 1,
    SWSUSP_STREAM_INPUT_TOO_SHORT = 2,
    SWSUSP_STREAM_OUTPUT_TOO_LONG = 3,
    SWSUSP_STREAM_BEFORE_BEGIN = 4,
    SWSUSP_STREAM_BAD_END = 5,
    SWSUSP_STREAM_BEHIND_END = 6
};

/* A finding. Numbers that its kind doesn't name are 0. */
struct swsusp_finding {
    uint32_t kind;
    uint32_t fault;
    uint32_t map;
    uint32_t entry;
    uint64_t at;
    uint64_t first;
    uint64_t second;
    uint64_t third;
    uint64_t fourth;
};

/* The findings of one call: how many there were, and as many of the first ones as there is room for. */
struct swsusp_findings {
    uint64_t count;
    struct swsusp_finding found[SWSUSP_FINDINGS];
};

/* A compiler that lays a struct out differently from the library is refused. */
#if defined(__cplusplus)
#define SWSUSP_SIZE(name, size) static_assert(sizeof(struct name) == (size), #name)
#else
#define SWSUSP_SIZE(name, size) _Static_assert(sizeof(struct name) == (size), #name)
#endif
SWSUSP_SIZE(swsusp_call, 24);
SWSUSP_SIZE(swsusp_range, 16);
SWSUSP_SIZE(swsusp_machine, 816);
SWSUSP_SIZE(swsusp_resume, 8312);
SWSUSP_SIZE(swsusp_discard, 24);
SWSUSP_SIZE(swsusp_header, 40);
SWSUSP_SIZE(swsusp_check, 6720);
SWSUSP_SIZE(swsusp_finding, 56);
SWSUSP_SIZE(swsusp_findings, 61608);

/*
 * Begins a resume: writes all of *resume, whatever it held. The first call is SWSUSP_SYNC.
 */
void swsusp_resume_begin(struct swsusp_resume *resume);

/*
 * Gives the call to make, or how the resume ended, in *call. It changes nothing else, so it may be called again.
 */
void swsusp_resume_next(const struct swsusp_resume *resume, struct swsusp_call *call);

/*
 * Reports that the pending call was made. `page` is the caller's buffer: after SWSUSP_READ it has what the disk gave,
 * and if the next call is SWSUSP_WRITE or SWSUSP_PLACE, it has that call's page. Between an answer and the call that
 * needs the page the buffer must stay as it is. `memory` has `ranges` ranges, ascending, none empty; they may touch.
 * The same machine and ranges are lent to each call. After an end nothing changes.
 *
 * Returns SWSUSP_OK, after an end too; or SWSUSP_BAD_PAGE, SWSUSP_BAD_IDENTITY, SWSUSP_BAD_MEMORY, SWSUSP_BAD_PRESENT,
 * SWSUSP_BAD_HEADER or SWSUSP_BAD_STATE, the first that applies in this order, and then nothing was changed.
 */
uint32_t swsusp_resume_answer(struct swsusp_resume *resume, const struct swsusp_machine *machine,
                              const struct swsusp_range *memory, size_t ranges, uint8_t *page, size_t size);

/*
 * Reports that the pending call failed: the next one is SWSUSP_FAILED. After an end nothing changes.
 *
 * Returns SWSUSP_OK; or SWSUSP_BAD_STATE, and then nothing was changed.
 */
uint32_t swsusp_resume_fail(struct swsusp_resume *resume);

/*
 * Begins to give up the image whose header is in block `header`: writes all of *discard. The first call is the read of
 * that block.
 */
void swsusp_discard_begin(struct swsusp_discard *discard, uint64_t header);

/*
 * Gives the call to make, or how the discard ended, in *call: SWSUSP_READ, SWSUSP_WRITE and SWSUSP_SYNC, and then
 * SWSUSP_DONE; SWSUSP_REFUSED with SWSUSP_NO_IMAGE or SWSUSP_NO_ORIGINAL, and nothing was written; or SWSUSP_FAILED.
 */
void swsusp_discard_next(const struct swsusp_discard *discard, struct swsusp_call *call);

/*
 * Reports that the pending call was made. `page` is the caller's buffer, as for swsusp_resume_answer. After an end
 * nothing changes.
 *
 * Returns SWSUSP_OK, after an end too; or SWSUSP_BAD_PAGE or else SWSUSP_BAD_STATE, and then nothing was changed.
 */
uint32_t swsusp_discard_answer(struct swsusp_discard *discard, uint8_t *page, size_t size);

/*
 * Reports that the pending call failed: the next one is SWSUSP_FAILED, with reason 0. After an end nothing changes.
 *
 * Returns SWSUSP_OK; or SWSUSP_BAD_STATE, and then nothing was changed.
 */
uint32_t swsusp_discard_fail(struct swsusp_discard *discard);

/*
 * Says what the header block is that the caller has read into `page`: writes all of *header.
 *
 * Returns SWSUSP_OK; or SWSUSP_BAD_PAGE, and then nothing was changed.
 */
uint32_t swsusp_inspect(const uint8_t *page, size_t size, struct swsusp_header *header);

/*
 * Begins a check of the image whose header is in block `header` of a disk of `blocks` blocks: writes all of *check. It
 * reads the blocks that swsusp_image(8) `check` reads, each once, and finds the same; but of a compressed image it
 * reads only the header block, and finds that the image is compressed.
 *
 * `words` has `room` words, at least SWSUSP_WORDS(blocks); what they hold doesn't matter. The same words are lent to
 * each call, and nobody else writes them until the check is over.
 *
 * Returns SWSUSP_OK; or SWSUSP_BAD_WORDS, and then nothing was changed.
 */
uint32_t swsusp_check_begin(struct swsusp_check *check, uint32_t blocks, uint32_t header, const uint64_t *words,
                            size_t room);

/*
 * Gives in *call the block to read (SWSUSP_READ), or how the check ended: SWSUSP_DONE, or SWSUSP_REFUSED
 * with SWSUSP_NO_IMAGE if the header block has no mark of an image or isn't on the disk. It changes nothing else.
 *
 * Returns SWSUSP_OK; or SWSUSP_BAD_STATE, and then nothing was changed.
 */
uint32_t swsusp_check_next(const struct swsusp_check *check, struct swsusp_call *call);

/*
 * Reports that the pending read was made, into the buffer `page`, and writes to *findings what this call found. What
 * all answers and failures of a check find, one after another, is what is wrong with the image. After the end nothing
 * is found, and *check stays.
 *
 * Returns SWSUSP_OK, after the end too; or SWSUSP_BAD_PAGE, SWSUSP_BAD_WORDS or SWSUSP_BAD_STATE, the first that
 * applies in this order, and then nothing was changed.
 */
uint32_t swsusp_check_answer(struct swsusp_check *check, uint64_t *words, size_t room, const uint8_t *page, size_t size,
                             struct swsusp_findings *findings);

/*
 * Reports that the pending read failed, which is a finding, and writes to *findings what this call found. The check
 * goes on. After the end nothing is found, and *check stays.
 *
 * Returns SWSUSP_OK, after the end too; or SWSUSP_BAD_WORDS or else SWSUSP_BAD_STATE, and then nothing was changed.
 */
uint32_t swsusp_check_fail(struct swsusp_check *check, uint64_t *words, size_t room, struct swsusp_findings *findings);

#ifdef __cplusplus
}
#endif

#endif
