"""Logs of a package, by what docs/STOPS.md tells of their bytes."""
import collections
import struct

PAGE, HEAD, RUN = 512, 25, 12
# A run of pages in a log: where it stands, the number of its first page, how many they are, and their bytes.
Run = collections.namedtuple("Run", "at first count pages")


def runs_of(log):
    """The runs of pages in a log of the second form."""
    at, found = HEAD, []
    for _ in range(struct.unpack_from("<Q", log, 17)[0]):
        first, count = struct.unpack_from("<QI", log, at)
        found.append(Run(at, first, count, log[at + RUN : at + RUN + PAGE * count]))
        at += RUN + PAGE * count
    return found


def open_log(form, old, new):
    """An open log of the first form or the second that makes one home file of another, by the pages that differ; none is in a run with
    another."""
    count = struct.pack("<I", 1) if form == 2 else b""
    places = [at for at in range(0, len(new), PAGE) if old[at : at + PAGE] != new[at : at + PAGE]]
    pages = [struct.pack("<Q", at // PAGE) + count + new[at : at + PAGE].ljust(PAGE, b"\0") for at in places]
    return b"\1MSISTG0%d" % form + struct.pack("<QQ", len(new), len(pages)) + b"".join(pages)
