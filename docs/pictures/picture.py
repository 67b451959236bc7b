# Writes image.svg (the layout of the stored image) and run.svg (a run with a cut and a recovery) beside itself.
from html import escape
from pathlib import Path

# The requirements' sizes, in bytes and places. Every offset, total and number of stores is worked out from these.
RECORD, HEADER, CHECKPOINT_PLACES, LOG_PLACES, POSITIONS, POSITION = 28, 16, 256, 64, 8, 2
CHECKPOINT_AT = HEADER
LOG_AT = CHECKPOINT_AT + CHECKPOINT_PLACES * RECORD
TOTAL = LOG_AT + LOG_PLACES * RECORD
WRITE_STORES, CHECKPOINT_STORES = RECORD + 1, RECORD + 2  # one record's bytes, then the log count, or both counts
CUT_AFTER = CHECKPOINT_STORES - 1

WIDTH, LEFT, RIGHT, PITCH = 900, 24, 876, 18  # the picture, its margins, from line to line of text
STYLE = """
text{font:12px system-ui,-apple-system,"Segoe UI",Roboto,"Noto Sans","Helvetica Neue",Arial,sans-serif;fill:#1b1b1b}
.mid{text-anchor:middle}.bold,.head,.title,.alarm{font-weight:700}.bold{font-size:13px}.head{font-size:14px}
.title{font-size:20px}.quiet{fill:#4d4d4d}.alarm{fill:#9c3d00}
.paper{fill:#fdfdfb}.panel{fill:#f2f2ee}.field{fill:#fff;stroke:#555}.plain{fill:#e6e6e6;stroke:#444}
.checkpoint{fill:#b5d5f0;stroke:#005a8f}.log{fill:#fbe2ad;stroke:#8a5a00}
.empty{fill:#fff;stroke:#808080;stroke-dasharray:3 3}.zoom{fill:#f2f2ee;stroke:#808080;stroke-dasharray:4 3}
.rule{stroke:#c9c9c9}.way{stroke:#333;stroke-width:1.5;fill:none}.up{stroke:#333;stroke-width:3;fill:#333}
.cut,.down{stroke:#c04a00;stroke-width:3;fill:#fff}.down{stroke-dasharray:5 4}
"""


class Picture:
    """An SVG picture in the making."""

    def __init__(self):
        self.parts = []

    def text(self, x, y, kind, *lines):
        for i, words in enumerate(lines):
            place = f'x="{x:g}" y="{y + PITCH * i:g}"' + f' class="{kind}"' * bool(kind)
            self.parts.append(f"<text {place}>{escape(words, quote=False)}</text>")

    def box(self, x, y, width, height, kind, *lines, words=""):
        """A box with lines of text in its middle."""
        self.parts.append(f'<rect x="{x:g}" y="{y:g}" width="{width:g}" height="{height:g}" class="{kind}"/>')
        self.text(x + width / 2, y + height / 2 + 4.5 - PITCH / 2 * (len(lines) - 1), f"mid {words}".strip(), *lines)

    def path(self, kind, d):
        self.parts.append(f'<path class="{kind}" d="{d}"/>')

    def save(self, name, height, title, description):
        head = f"""<svg xmlns="http://www.w3.org/2000/svg" width="{WIDTH}" height="{height}"
 viewBox="0 0 {WIDTH} {height}" role="img" aria-labelledby="title desc">
<title id="title">{escape(title)}</title>
<desc id="desc">{escape(description)}</desc>
<style>{STYLE}</style>
<rect width="{WIDTH}" height="{height}" rx="8" class="paper"/>"""
        Path(__file__).with_name(name).write_text("\n".join([head, *self.parts, "</svg>\n"]), encoding="utf-8")


def bytes_of(size):
    return "1 byte" if size == 1 else f"{size:,} bytes"


def header_fields():
    """Of each field: size, width in the picture, lines in its box, lines below it."""
    fields = [(1, "N", "1 to 8"), (1, "own number", "below N"),
              (2, "checkpoint count", f"0 to {CHECKPOINT_PLACES}"), (2, "checkpoint offset", f"{CHECKPOINT_AT}"),
              (2, "log count", f"0 to {LOG_PLACES}"), (2, "log offset", f"{LOG_AT:,}"),
              (2, "total", f"{TOTAL:,}"), (4, "four zero bytes", "0 0 0 0")]
    byte = (RIGHT - LEFT) / HEADER
    return [(size, byte * size, name.rsplit(" ", 1), [holds, bytes_of(size)]) for size, name, holds in fields]


def record_fields():
    """The same of a record; the lines below are an example's bytes, in hexadecimal, and its number."""
    fields = [(1, 60, "origin", 0), (1, 60, "phone", 5), (2, 76, "cell", 300), (4, 112, "value", 7),
              (4, 112, "phone time", 900), *[(POSITION, 54, f"T[{i}]", int(i == 0)) for i in range(POSITIONS)]]
    return [(size, width, [name, bytes_of(size)], [number.to_bytes(size, "little").hex(" ").upper(), f"{number}"])
            for size, width, name, number in fields]


def field_row(picture, y, fields, total):
    x, at = LEFT, 0
    for size, width, inside, below in fields:
        picture.text(x + width / 2, y, "mid quiet", f"{at}" if size == 1 else f"{at}–{at + size - 1}")
        picture.box(x, y + 7, width, 46, "field", *inside)
        picture.text(x + width / 2, y + 71, "mid", *below)
        x, at = x + width, at + size
    assert (round(x), at) == (RIGHT, total)


def bar_part(picture, x, y, width, kind, heading, size, slots):
    """A part of the bar: above its name and size, below its places as slots of one width."""
    picture.box(x, y, width, 44, kind, heading, size, words="bold")
    for i, lines in enumerate(slots):
        picture.box(x + width / len(slots) * i, y + 44, width / len(slots), 44, kind, *lines)


def area_part(picture, x, y, width, kind, at, places, first_places):
    slots = [[f"place {p}", f"byte {at + RECORD * p:,}"] for p in (*range(first_places), places - 1)]
    slots.insert(-1, ["…"])
    heading = f"{kind.capitalize()}: bytes {at:,} to {at + places * RECORD - 1:,}"
    bar_part(picture, x, y, width, kind, heading, f"{places} places × {RECORD} = {bytes_of(places * RECORD)}", slots)


def image_picture():
    picture, checkpoint_x, log_x, t_x = Picture(), 108, 576, 444
    slot = (log_x - checkpoint_x) / 5
    picture.text(LEFT, 36, "title", f"The stored image: {TOTAL:,} bytes")
    picture.text(LEFT, 57, "", "Not to scale. Above a field stand its byte places, from 0. Numbers are little-endian.")
    picture.text(LEFT, 84, "head", f"Header, {bytes_of(HEADER)}")
    field_row(picture, 106, header_fields(), HEADER)
    picture.path("zoom", f"M{LEFT} 206H{RIGHT}L{checkpoint_x} 236H{LEFT}Z")
    picture.path("zoom", f"M{checkpoint_x + slot:g} 324h{slot:g}L{RIGHT} 354H{LEFT}Z")
    header_slots = [["bytes", f"0 to {HEADER - 1}"]]
    bar_part(picture, LEFT, 236, checkpoint_x - LEFT, "plain", "Header", bytes_of(HEADER), header_slots)
    area_part(picture, checkpoint_x, 236, log_x - checkpoint_x, "checkpoint", CHECKPOINT_AT, CHECKPOINT_PLACES, 3)
    area_part(picture, log_x, 236, RIGHT - log_x, "log", LOG_AT, LOG_PLACES, 2)
    picture.text(LEFT, 380, "head", f"One record, {RECORD} bytes: the same in a checkpoint place and in a log place")
    t_size = bytes_of(POSITIONS * POSITION)
    picture.text((t_x + RIGHT) / 2, 403, "mid", f"timestamp T, {t_size}: {POSITIONS} positions of {POSITION}")
    picture.path("way", f"M{t_x + 2} 414v-5H{RIGHT - 2}v5")
    field_row(picture, 426, record_fields(), RECORD)
    picture.text(
        LEFT, 546, "",
        "Below the record: an example, in hexadecimal and in numbers. The write's number is T at its origin, here 1.",
        f"Checkpoint place p begins at byte {CHECKPOINT_AT} + {RECORD} × p, log place p at {LOG_AT:,} + {RECORD} × p.",
        "Bytes past a count mean nothing. A store is one record byte, or one two-byte count, "
        "which is stored whole or not at all.")
    picture.save("image.svg", 602, f"The stored image, {bytes_of(TOTAL)}", (
        f"A header of {HEADER} bytes, {CHECKPOINT_PLACES} checkpoint places of {RECORD} bytes from byte "
        f"{CHECKPOINT_AT}, {LOG_PLACES} log places from byte {LOG_AT:,}. The header and one record are enlarged."))


# The time line, the words and the two panels of run.svg; then the middles of its columns.
TIME_X, WORDS_X, MEMORY_X, MEMORY_WIDTH, IMAGE_X, IMAGE_WIDTH = 36, 60, 438, 216, 662, 214
V_X, CR_X, HISTORY_X, CHECKPOINT_X, LOG_X = 468, 542, 622, 716, 822


def records(picture, x, y, numbers, kind, shown):
    """The records that count, by write number, and places past the count."""
    for i in range(shown):
        number = [f"{n}" for n in numbers[i:i + 1]]
        picture.box(x + 2 - 14 * shown + 28 * i, y, 24, 24, kind if number else "empty", *number, words="bold")


def memory_cells(picture, y, memory):
    if memory is None:
        words = "down: V zero, CR empty", "only the image counts"
        picture.box(MEMORY_X + 8, y + 9, MEMORY_WIDTH - 16, 48, "empty", *words, words="alarm")
        return
    v, cr, history = memory
    picture.text(V_X, y + 38, "mid", v)
    picture.text(CR_X, y + 47 - PITCH / 2 * len(cr), "mid", *cr)
    records(picture, HISTORY_X, y + 22, history, "plain", 1)


def image_cells(picture, y, checkpoint, log):
    for x, numbers, kind in ((CHECKPOINT_X, checkpoint, "checkpoint"), (LOG_X, log, "log")):
        picture.text(x, y + 13, "mid", f"count {len(numbers)}")
        records(picture, x, y + 22, numbers, kind, 2)


def checkpoint_stores(picture, y):
    """The checkpoint's stores in order, and where power is cut."""
    count_x, cut_x, last_x, y = WORDS_X + 16 * RECORD, 650, 662, y + 72
    picture.box(MEMORY_X, y - 8, RIGHT - MEMORY_X, 84.5, "paper")
    picture.text(WORDS_X, y + 10, "quiet", f"stores 1 to {RECORD}: the record, from byte {CHECKPOINT_AT} of the image")
    for i in range(RECORD):
        picture.box(WORDS_X + 16 * i, y + 17, 16, 24, "checkpoint")
    picture.text(count_x, y + 10, "quiet", f"store {CUT_AFTER}")
    picture.box(count_x, y + 17, 130, 24, "checkpoint", "checkpoint count 1")
    picture.text(last_x, y + 10, "quiet", f"store {CHECKPOINT_STORES}: not made")
    picture.box(last_x, y + 17, 120, 24, "empty", "log count 0")
    picture.path("cut", f"M{cut_x} {y + 6}v43")
    picture.text(cut_x, y + 64, "mid alarm", "power is cut here")


def recovery_ways(picture, y):
    """What recovery takes: the checkpoint's write, and not the log's."""
    picture.path("way", f"M{CHECKPOINT_X - 29} {y + 34}H{HISTORY_X + 16}m6 -5l-6 5l6 5")
    picture.path("way", f"M{LOG_X - 14} {y + 49}v14H{HISTORY_X}v-13m-5 6l5 -6l5 6")
    picture.path("cut", f"M{IMAGE_X + IMAGE_WIDTH / 2 - 7:g} {y + 56}l14 14m0 -14l-14 14")
    picture.text(IMAGE_X + IMAGE_WIDTH / 2, y + 85, "mid quiet", "number 1 is at most V[own] = 1")


# Memory when up: V, CR in lines, the history's write numbers.
FRESH, WRITTEN = ("[0,0]", ["empty"], []), ("[1,0]", ["empty"], [1])
READ, READ_ANEW = (("[1,0]", ["phone 5", f"RW[5] = {rw}"], [1]) for rw in (1, 0))
# A step: height, what else is drawn; memory (none while down), checkpoint and log after it; title, lines.
RUN = [
    (66, None, FRESH, [], [], "Server 0 of N = 2 starts anew", "Both counts are zero."),
    (80, None, WRITTEN, [], [1], "Phone 5 writes cell 300, value 7",
     f"{WRITE_STORES} stores: {RECORD} record bytes, then log count 1.",
     "Reply: V = [1,0]. W is raised to [1,0], R stays [0,0]."),
    (80, None, READ, [], [1], "Phone 5 reads cell 300 with R = [0,0]",
     "First read: phone 5 enters CR, RW[5] = nWrites = 1.", "No stores. Reply: value 7 and V. R is raised to [1,0]."),
    (158, checkpoint_stores, READ, [], [1], "Phone 5 reads cell 300 again, with R = [1,0]",
     "Second read, RW[5] above zero: a checkpoint is due.",
     f"{CHECKPOINT_STORES} stores. On the right: before the first of them."),
    (80, None, None, [1], [1], f"Power is cut after {CUT_AFTER} of these {CHECKPOINT_STORES} stores",
     "The server is down. No reply goes out.", "Write 1 stands in the checkpoint and in the log."),
    (108, recovery_ways, WRITTEN, [1], [1], "Recovery", "The history is the checkpoint's write, and V counts it.",
     "The log's record is not taken again.", "The server is up. The image is not touched."),
    (74, None, READ_ANEW, [1], [1], "Phone 5 reads cell 300 with R = [1,0]",
     "V is not below R: served. Reply: value 7 and V.", "A first read again: phone 5 enters CR, RW[5] = nWrites = 0."),
]


def panels(picture, y, height):
    memory, image = (MEMORY_X, MEMORY_WIDTH, "Memory, lost by a cut"), (IMAGE_X, IMAGE_WIDTH, "Image, stored")
    for x, width, heading in (memory, image):
        picture.box(x, y, width, height, "panel")
        picture.text(x + width / 2, y + 20, "mid head", heading)
    for x, name in ((V_X, "V"), (CR_X, "CR"), (HISTORY_X, "history"), (CHECKPOINT_X, "checkpoint"), (LOG_X, "log")):
        picture.text(x, y + 40, "mid quiet", name)


def step_row(picture, y, is_last, height, more, memory, checkpoint, log, title, *lines):
    if not is_last:
        picture.path("up" if memory else "down", f"M{TIME_X} {y + 10}v{height}")
        picture.path("rule", f"M{WORDS_X} {y + height - 9}H{RIGHT}")
    picture.path("up" if memory else "cut", f"M{TIME_X - 6} {y + 10}a6 6 0 1 0 12 0a6 6 0 1 0 -12 0z")
    picture.text(WORDS_X, y + 15, "head", title)
    picture.text(WORDS_X, y + 34, "", *lines)
    memory_cells(picture, y, memory)
    image_cells(picture, y, checkpoint, log)
    if more:
        more(picture, y)


def run_picture():
    picture, y = Picture(), 122
    end = y + sum(height for height, *_ in RUN)
    picture.text(LEFT, 36, "title", "A run with a cut and a recovery")
    picture.text(LEFT, 57, "", "Time goes from top to bottom. On the right: what memory and image hold after the step.")
    panels(picture, 72, end - 72)
    for step in RUN:
        step_row(picture, y, step is RUN[-1], *step)
        y += step[0]
    picture.text(
        WORDS_X, end + 28, "", "The number in a box is the write's number. A dashed box is a place past the count.",
        "Write 1: origin 0, number 1, phone 5, cell 300, value 7, T = [1,0].",
        "R and W are the vectors of the phone's session: of its reads, and of its own writes. "
        "Its choice is 1: a read carries R.",
        f"The same checkpoint cut after {RECORD} stores leaves counts 0 and 1; after {CHECKPOINT_STORES}, "
        "counts 1 and 0. Each recovers one write.")
    picture.save("run.svg", end + 84 + PITCH, "A run with a cut and a recovery", (
        "Server 0 of two serves a write and a read of phone 5. A second read takes a checkpoint; power is cut after "
        f"{CUT_AFTER} of its {CHECKPOINT_STORES} stores, and both counts are 1. Recovery takes the write from the "
        "checkpoint and not again from the log. The phone's next read is served: value 7."))


if __name__ == "__main__":
    image_picture()
    run_picture()
