"""Rows of several texts put together by several processors: all texts are cut at the same panes, and what lies between
two cuts is a range, which a `streamjob rows` of its own puts together. Each range goes to its place in the file of all
rows, which is known from the texts. Where each is rows in order, with as many numbers in all, so is the whole, since in
each text the row before a cut is before its pane, and the one behind it is not. Where something is not as it should be,
one `rows` of the whole texts tells."""
import concurrent.futures
import contextlib
import fcntl
import mmap
import os
import stat
import subprocess

# Fewer bytes for each processor are put together sooner by one.
LEAST = 1 << 20


def pane_at(text, place):
    """The start and the key of the row whose line begins at a place."""
    start, _, key, _ = text[place : text.find(b"\n", place)].split(b" ", 3)
    return int(start), int(key)


def line_at(text, place):
    """Where the line begins in which a place lies."""
    return text.rfind(b"\n", 0, place) + 1


def first_from(text, pane):
    """Where the first row begins that is not before a pane, in a text of rows in order. In any text the row before that
    place, if there is one, is before the pane, and the one at it is not: both were looked at."""
    low, high = 0, len(text)
    while low < high:
        middle = line_at(text, (low + high) // 2)
        if pane_at(text, middle) < pane:
            low = text.find(b"\n", middle) + 1 or high
        else:
            high = middle
    return low


@contextlib.contextmanager
def mapped(paths):
    """The texts of files, as they lie in the page cache."""
    with contextlib.ExitStack() as held:
        yield [held.enter_context(mmap.mmap(held.enter_context(open(path, "rb")).fileno(), 0, access=mmap.ACCESS_READ)) for path in paths]


def cuts_of(texts, count):
    """For each text the places at which it is cut into so many ranges: its begin, further ones, and its end. All are
    cut at the same panes, which are those of lines at even steps through each."""
    panes = sorted(pane_at(text, line_at(text, len(text) * step // count)) for text in texts for step in range(1, count))
    bounds = [panes[len(panes) * step // count] for step in range(1, count)]
    return [[0, *(first_from(text, bound) for bound in bounds), len(text)] for text in texts]


def copied(path, begin, end, to):
    with open(path, "rb") as source, open(to, "wb") as target:
        while begin < end:
            begin += os.sendfile(target.fileno(), source.fileno(), begin, end - begin)


def put_range(program, pieces, folder, target, place):
    """Puts the pieces of a range together, at a place of a file; returns whether they are rows in order."""
    names = []
    for number, (path, begin, end) in enumerate(pieces):
        names.append(folder / f"{place}.{number}")
        copied(path, begin, end, names[-1])
    out = os.open(target, os.O_WRONLY)
    try:
        os.lseek(out, place, os.SEEK_SET)
        return subprocess.run([program, "rows", *names], stdin=subprocess.DEVNULL, stdout=out, stderr=subprocess.DEVNULL, check=False).returncode == 0
    finally:
        os.close(out)


def widths_at(text, places):
    """How many spaces the lines have that begin at these places."""
    return {text[place : text.find(b"\n", place)].count(b" ") for place in places}


def ranges_of(texts, count):
    """For each range, by the place of its rows among all, the places at which it begins and ends in each text."""
    cuts = cuts_of(texts, count)
    return {sum(begins): [*zip(begins, ends)] for begins, ends in zip([*zip(*cuts)], [*zip(*cuts)][1:]) if begins != ends}


def are_put(program, paths, folder, processors, target, base):
    """Puts ranges of the texts together, from a place of a file on; returns whether all are rows in order."""
    with mapped(paths) as texts, concurrent.futures.ThreadPoolExecutor(processors) as pool:
        ranges = ranges_of(texts, processors)
        pieces = [[(path, *ends) for path, ends in zip(paths, range_)] for range_ in ranges.values()]
        put = pool.map(lambda place, piece: put_range(program, piece, folder, target, base + place), ranges, pieces)
        if not all(put):
            return False
    with mapped([target]) as (text,):
        return len(widths_at(text, [base + place for place in ranges])) == 1


def sizes_of(paths):
    """How many bytes each file has; none has any where one is not there, of which `rows` is to tell."""
    try:
        return {path: os.path.getsize(path) for path in paths}
    except OSError:
        return {}


def is_place(out):
    """Whether a range can be written at its own place of a stream: of a file that is not written at its end alone."""
    return stat.S_ISREG(os.fstat(out.fileno()).st_mode) and not fcntl.fcntl(out.fileno(), fcntl.F_GETFL) & os.O_APPEND


def put_together(program, paths, out, folder, processors):
    """Writes what `rows` of the files prints to a stream that is a file, by so many processors, with files in a folder
    that is not there yet. Returns whether it did: nothing is written, and one `rows` is to be asked, where the stream
    is none, where there are few rows, and where they are not in order."""
    sizes = sizes_of(paths)
    length = sum(sizes.values())
    processors = min(processors, length // LEAST)
    if processors < 2 or not is_place(out):
        return False
    out.flush()
    number = out.fileno()
    base, size = os.lseek(number, 0, os.SEEK_CUR), os.fstat(number).st_size
    with contextlib.suppress(OSError, ValueError):
        folder.mkdir()
        if are_put(program, [path for path in paths if sizes[path]], folder, processors, f"/proc/self/fd/{number}", base):
            os.lseek(number, base + length, os.SEEK_SET)
            return True
    os.ftruncate(number, size)
    return False
