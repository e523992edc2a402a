"""Images whose pages of zeros have no data page, and their twins in the plain format, which have a data page for each page frame."""
import struct

from harness import check, check_refused, check_same, run
from image_tests import END, ENTRIES, Built, compared, paged, ran_over, streamed, words
from inputs import PAGE, Machine
from inputs import area as fresh_area

MARKED = 2**63


class Zeroed(Built):
    """A plain image in which the pages of some saved page frames, given by their places from 0, are zeros."""

    flags = 2

    def __init__(self, saved, zeros):
        # Both twins have the area of the plain image, so that they differ only in the image.
        super().__init__(saved, flags=self.flags)
        self.zeros = set(zeros)
        lists = (saved + 511) // 512
        self.data = [bytes(PAGE) if k in self.zeros else bytes([1 + p % 255]) * PAGE for k, p in enumerate(self.numbers)]
        stored = self.stored()
        listed = [self.listed(k) for k in range(lists)]
        counts = len(stored) + lists + 1
        info = self.info(saved)
        info = info[:424] + struct.pack("<QQ", counts, counts * PAGE) + info[440:]
        pages = [info, *listed, *stored]
        for at, b in enumerate(self.maps):
            named = self.places[: len(pages)][at * ENTRIES : (at + 1) * ENTRIES]
            link = self.maps[at + 1] if at < len(pages) // ENTRIES else 0
            self.blocks[b] = words(named + [0] * (ENTRIES - len(named)) + [link])
        self.places = self.places[: len(pages)]
        for b, page in zip(self.places, pages):
            self.blocks[b] = page

    def stored(self):
        return self.data

    def number(self, k):
        return self.numbers[k]

    def listed(self, page):
        found = [self.number(k) for k in range(512 * page, min(512 * page + 512, len(self.numbers)))]
        return words(found + [END] * (len(found) < 512))


class Skipped(Zeroed):
    """The same page frames in an image whose pages of zeros have no data page."""

    flags = 258

    def stored(self):
        return [page for k, page in enumerate(self.data) if k not in self.zeros]

    def number(self, k):
        return self.numbers[k] + MARKED * (k in self.zeros)


TWINS = [(1, {0}), (8, {0, 3, 7}), (8, set(range(8))), (8, ()), (513, {511, 512}), (600, set(range(0, 600, 7))), (1500, set(range(300, 1100)))]


def twins(saved, zeros):
    return Zeroed(saved, zeros), Skipped(saved, zeros)


def test_stream_is_that_of_the_plain_twin():
    for saved, zeros in TWINS:
        plain, skipped = twins(saved, zeros)
        for built in [plain, skipped]:
            check(ran_over(built, "check")[0], 0, b"whole\n")
            ran, before, after = ran_over(built, "stream")
            check(ran, 0, streamed(plain))
            check_same("the area", after, before)


def test_pages_of_page_frames():
    for saved, zeros in TWINS:
        _, skipped = twins(saved, zeros)
        for k in {0, saved // 2, saved - 1, *list(zeros)[:3]}:
            ran, before, after = paged(skipped, skipped.numbers[k])
            check(ran, 0, skipped.data[k])
            check_same("the area", after, before)
        check_refused(paged(skipped, 10**6)[0], f"no page {10**6}", 1)


def test_core_loader_and_machine_are_those_of_the_plain_twin():
    for saved, zeros in [(8, {0, 3, 7}), (600, set(range(0, 600, 7)))]:
        plain, skipped = twins(saved, zeros)
        for command in ["core", "loader", "machine"]:
            wanted = ran_over(plain, command)[0]
            check_same("the status of " + command, wanted[0], 0)
            ran, before, after = ran_over(skipped, command)
            check(ran, 0, wanted[1])
            check_same("the area", after, before)


def test_twins_differ_in_their_flags_alone():
    for saved, zeros in TWINS:
        plain, skipped = twins(saved, zeros)
        check(compared(plain, skipped), 1, b"header flags 2 258\n")
        check(compared(skipped, plain), 1, b"header flags 258 2\n")
        check(compared(skipped, skipped), 0, b"same\n")
    check(compared(Skipped(8, {3}), Skipped(8, {4})), 1, b"page 3\npage 4\n")
    check(compared(Skipped(8, {7}), Skipped(7, {3})), 1, b"page 3\nframe 7 first alone\n")


def test_damage_stops_a_stream_before_it():
    plain, skipped = twins(1500, set(range(300, 1100)))
    # The entries of number page 2, and of the data pages of places 299 and 1100; the latter is data page 300 of the stream.
    for entry, front in [(2, 2), (1 + 3 + 299, 1 + 3 + 299), (1 + 3 + 300, 1 + 3 + 1100)]:
        damaged = Skipped(1500, skipped.zeros)
        damaged.put_entry(1, entry, 0)
        ran, before, after = ran_over(damaged, "stream")
        check_refused((ran[0], b"", ran[2]), f"map 1 block {damaged.maps[0]} entry {entry}: block 0", 1)
        check_same("the stream", ran[1], streamed(plain)[: front * PAGE])
        check_same("the area", after, before)
    # The last damage comes after the data page of place 299, and the number of a page of zeros says what it is.
    check(paged(damaged, damaged.numbers[299])[0], 0, damaged.data[299])
    ran, _, _ = paged(damaged, damaged.numbers[400])
    check(ran, 0, bytes(PAGE))


def test_a_number_of_data_pages_that_is_wrong_refuses():
    built = Skipped(600, {5, 590})
    built.put_word(built.places[2], 20, built.numbers[532] + MARKED)
    line = f"number pages: data pages 597, but pages {600 - 2 + 3}"
    for command in ["stream", "core", "loader"]:
        ran = ran_over(built, command)[0]
        check_same("the note of " + command, (ran[0], ran[2]), (1, line + "\n"))
    # The page frame's number comes before the number page with the wrong number; its data page comes after it.
    check_refused(paged(built, built.numbers[0])[0], line, 1)
    check(paged(built, built.numbers[5])[0], 0, bytes(PAGE))


def test_a_hibernation_that_skips_zeros_moves_as_a_plain_image():
    machine = Machine()
    saved, loader = machine.saved(), machine.loader(1000)
    _, exported, _ = run("swsusp", "export", stdin=saved)
    with fresh_area() as skipped, fresh_area() as plain, fresh_area() as moved:
        check_same("the status", run("swsusp", "hibernate", "--skip-zeros", skipped.path, stdin=saved)[0], 0)
        check_same("the status", run("swsusp", "hibernate", plain.path, stdin=saved)[0], 0)
        ran = run("swsusp_image", "stream", skipped.path)
        check(ran, 0, exported)
        check_same("the status of the import", run("swsusp", "import", moved.path, stdin=ran[1])[0], 0)
        check(run("swsusp_image", "differ", plain.path, moved.path), 0, b"same\n")
        check(run("swsusp_image", "core", skipped.path), 0, run("swsusp_image", "core", plain.path)[1])
        first = run("swsusp", "resume", skipped.path, stdin=loader)
        check_same("the status of a resume", first[0], 0)
        check_same("what is restored", run("swsusp", "resume", moved.path, stdin=loader), first)
