"""The texts that `heapsuite convert` has to write, worked out slowly from the rules of conversion: the items of a profile one by
one, each different list looked for among all items, and each line of a tree by the front that it stands for. It takes well-formed
files alone; what can't be converted is an `Unconverted`."""

import json
from collections import namedtuple

from oracle_reports import joined, shown
from oracle_trace import children_of, fronts_with_costs

MOST = 1 << 62
DEPTH = 200
PARTS = {"tl": "bklt", "gb": "bklt", "gbk": "bklt", "eb": "bklt", "ebk": "bklt", "rb": "bkacc", "wb": "bkacc"}

# An item is a list of texts, the innermost first, and a number.
Item = namedtuple("Item", "texts number")
Snapshot = namedtuple("Snapshot", "mark lines")


class Unconverted(Exception):
    """Why a profile can't be converted: the status, and the text of the message."""

    def __init__(self, status, text):
        super().__init__(text)
        self.status, self.text = status, text


def refuse_large(number):
    if number > MOST:
        raise Unconverted(6, b"figures too large")


def folded(items):
    """A line for each list whose items have a sum, where the first of these items stands."""
    refuse_large(sum(item.number for item in items))
    lines, seen = [], []
    for item in items:
        if item.number and item.texts not in seen:
            seen.append(item.texts)
            path = b";".join(text.replace(b";", b":") for text in reversed(item.texts)) if item.texts else b"(no stack)"
            lines.append(b"%s %d" % (path, sum(other.number for other in items if other.texts == item.texts)))
    return joined(lines) if lines else b""


def point_items(profile, key):
    """An item for each point of a DHAT profile."""
    if not profile.get(PARTS.get(key), True):
        raise Unconverted(1, b"no figures for " + key.encode())
    return [Item(tuple(shown(profile["ftbl"][frame]) for frame in point["fs"]), point[key]) for point in profile["pps"]]


def folded_of_dhat(document, key):
    return folded(point_items(json.loads(document), key))


def tree_lines(items):
    """The lines of a Massif tree over the items, none of them gathered."""
    sums, least = fronts_with_costs([item.texts for item in items], [item.number for item in items], DEPTH)
    children, lines = children_of(sums), []

    def walk(front, label):
        below = sorted(children.get(front, []), key=lambda child: (-sums[child], least[child]))
        lines.append(b"%sn%d: %d %s" % (b" " * len(front), len(below), sums.get(front, 0), label))
        for child in below:
            walk(child, child[-1])

    walk((), b"(heap allocation functions) malloc/new/new[], --alloc-fns, etc.")
    return lines


def massif_of_dhat(document):
    profile = json.loads(document)
    end = profile["te"]
    items = {key: point_items(profile, key) for key in ("gb", "eb")}
    heap = {key: sum(item.number for item in items[key]) for key in items}
    for number in end, *heap.values():
        refuse_large(number)
    command = shown(profile["cmd"]) if profile["cmd"] else b"(none)"
    lines = [b"desc: heapsuite convert", b"cmd: " + command, b"time_unit: " + (b"i" if profile["tu"] == "instrs" else b"e")]
    for number, (time, key, mark) in enumerate([(min(profile.get("tg", end), end), "gb", b"peak"), (end, "eb", b"detailed")]):
        lines += [b"#-----------", b"snapshot=%d" % number, b"#-----------", b"time=%d" % time, b"mem_heap_B=%d" % heap[key],
                  b"mem_heap_extra_B=0", b"mem_stacks_B=0", b"heap_tree=" + mark, *tree_lines(items[key])]
    return joined(lines)


def snapshots(file):
    """The snapshots of a Massif file: the marks, and for each line of a tree its children, its bytes and its label."""
    read = []
    for line in file.split(b"\n"):
        if line.startswith(b"heap_tree="):
            read.append(Snapshot(line[10:], []))
        elif line.lstrip(b" ").startswith(b"n") and read:
            count, _, rest = line.lstrip(b" ")[1:].partition(b": ")
            number, _, label = rest.partition(b" ")
            read[-1].lines.append((int(count), int(number), label.lstrip(b" ")))
    return read


def shown_label(label):
    masked = bytes(ord("?") if byte < 32 else byte for byte in label)
    return b"?" + masked[1:] if label[:1] in (b"", b" ") else masked


def tree_items(lines):
    """An item for each line of a tree, whose levels follow from the counts: the labels below the root, and what its children
    leave of its bytes."""
    items, place = [], 0

    def walk(above):
        nonlocal place
        count, number, label = lines[place]
        place += 1
        texts = above + (shown_label(label),) if place > 1 else ()
        mine = len(items)
        items.append(None)
        below = sum(walk(texts) for _ in range(count))
        items[mine] = Item(texts, max(0, number - below))
        return number

    walk(())
    return items


def chosen(read, number):
    """The snapshot with the number; without one the last peak, or else the last detailed one."""
    if number is not None:
        return read[number] if number < len(read) and read[number].lines else None
    for mark in b"peak", b"detailed":
        marked = [snapshot for snapshot in read if snapshot.mark == mark]
        if marked:
            return marked[-1]
    return None


def folded_of_massif(file, number):
    snapshot = chosen(snapshots(file), number)
    if snapshot is None:
        raise Unconverted(1, b"no tree")
    return folded(tree_items(snapshot.lines))
