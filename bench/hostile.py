"""hostile.py [KERZHOMA]: times documents and tables that are made to be slow, through the command line, beside ordinary reports.

KERZHOMA is the command line's program; without it, target/dist/bin/kerzhoma. The inputs are made in target/hostile.
A row has the least processor time of three runs of `kerzhoma list`, one where it takes more than two seconds, and how many times
the ordinary report's that is: of 11,000 cases, or, where the row says so, one of the same size."""
import os
import resource
import struct
import subprocess
import sys

TOP = os.path.dirname(os.path.dirname(os.path.abspath(__file__)))
PROGRAM = sys.argv[1] if len(sys.argv) > 1 else os.path.join(TOP, "target/dist/bin/kerzhoma")
FOLDER = os.path.join(TOP, "target/hostile")
os.makedirs(FOLDER, exist_ok=True)
START, EMPTY, END = 0, 1, 2


class Table:
    """A table of events, each text of its own."""

    def __init__(self):
        self.events, self.attributes, self.source = [], [], bytearray()

    def put(self, text):
        at = len(self.source)
        self.source += text
        return at, len(text)

    def tag(self, kind, name, attributes=()):
        first = len(self.attributes) // 5
        for key, value in attributes:
            self.attributes += [0, *self.put(key), *self.put(value)]
        self.events += [kind, *self.put(name), first, len(attributes)]

    def bytes(self):
        words = [len(self.events) // 5, len(self.attributes) // 5, len(self.source), *self.events, *self.attributes]
        return struct.pack("<%dI" % len(words), *words) + bytes(self.source)


def suite(keys):
    """A table of one suite with these extras."""
    t = Table()
    t.tag(START, b"testsuites")
    t.tag(START, b"testsuite", [(b"name", b"s")] + [(k, b"v") for k in keys])
    t.tag(END, b"testsuite")
    t.tag(END, b"testsuites")
    return t.bytes()


def document(element, keys, before=b"", value=b""):
    """An XML document with these attributes of one element."""
    attributes = b"".join(b" " + k + b'="' + value + b'"' for k in keys)
    opened = b'<testsuites name="a"><testsuite name="s"'
    if element == "testsuite":
        return opened + attributes + b"/></testsuites>"
    if element == "testcase":
        return opened + b"><testcase name=\"c\"" + attributes + b"/></testsuite></testsuites>"
    case = b'><testcase name="c"><failure/>' + before + b"<rerunFailure" + attributes + b"/></testcase>"
    return opened + case + b"</testsuite></testsuites>"


def ordinary(size=None):
    """A report of 11,000 cases, or of so many bytes with longer texts."""
    out, put, i = [b'<testsuites name="run" tests="11000">\n'], 0, 0
    text = b"" if size is None else b"[INFO] connected to database; took 12 ms\n" * 40
    while (i < 11000 if size is None else put < size):
        part = b'  <testsuite name="suite%d" tests="100" failures="10">\n' % (i // 100)
        for _ in range(100):
            name = b'    <testcase name="module::tests::case_%d" classname="crate::module" time="0.%03d"' % (i, i % 1000)
            if i % 10 == 0:
                part += name + b'><failure message="left == right" type="panic">at line %d</failure></testcase>\n' % i
            elif text:
                part += name + b"><system-out>" + text + b"</system-out></testcase>\n"
            else:
                part += name + b"/>\n"
            i += 1
        part += b"  </testsuite>\n"
        out.append(part)
        put += len(part)
    return b"".join(out) + b"</testsuites>\n"


def hashed(h, text):
    """The hash of crates/chains."""
    for b in text:
        h = (h * 16777619 + h // 65536 + b) % 4294967296
    return h


def colliding(n, prefix):
    """n keys with one hash: pairs of six-letter blocks that lead from one hash to one hash, chained."""
    h, blocks, x = hashed(0, prefix), [], 88172645463325252
    while 1 << len(blocks) < n:
        seen = {}
        while True:
            x ^= x << 13 & 0xFFFFFFFFFFFFFFFF
            x ^= x >> 7
            x ^= x << 17 & 0xFFFFFFFFFFFFFFFF
            y, word = x, bytearray()
            for _ in range(6):
                word.append(97 + y % 26)
                y //= 26
            word, g = bytes(word), hashed(h, word)
            if seen.get(g, word) != word:
                blocks.append((seen[g], word))
                h = g
                break
            seen[g] = word
    return [prefix + b"".join(pair[i >> b & 1] for b, pair in enumerate(blocks)) for i in range(n)]


def short(n):
    """n keys of three letters."""
    letters = b"abcdefghijklmnopqrstuvwxyzABCDEFGHIJKLMNOPQRSTUVWXYZ_"
    return [bytes((letters[i // 2809 % 53], letters[i // 53 % 53], letters[i % 53])) for i in range(n)]


def long(n, size):
    return [b"p" * (size - 6) + b"%06d" % i for i in range(n)]


def timed(name, what):
    path = os.path.join(FOLDER, name)
    with open(path, "wb") as f:
        f.write(what)
    best = None
    for _ in range(3):
        before = resource.getrusage(resource.RUSAGE_CHILDREN)
        run = subprocess.run([PROGRAM, "list", path], stdout=subprocess.DEVNULL, stderr=subprocess.DEVNULL)
        after = resource.getrusage(resource.RUSAGE_CHILDREN)
        if run.returncode not in (0, 1):
            sys.exit("%s list %s ends with %d" % (PROGRAM, path, run.returncode))
        spent = after.ru_utime + after.ru_stime - before.ru_utime - before.ru_stime
        best = spent if best is None else min(best, spent)
        if best > 2:
            break
    return best, run.returncode


ROWS = [
    ("extras.bin", "one suite with 60,000 extras, a table", lambda: suite([b"k%06d" % i for i in range(60000)])),
    ("lengths.bin", "the same, keys of a hundred lengths", lambda: suite([b"k%06d" % i + b"x" * (i % 100) for i in range(60000)])),
    ("references.bin", "the same, keys spelled with `&#97;`", lambda: suite([b"&#97;%06d" % i for i in range(60000)])),
    ("most.bin", "62,000 extras, a table", lambda: suite([b"k%06d" % i for i in range(62000)])),
    ("spelled.bin", "62,000 extras, keys spelled with `&#97;`", lambda: suite([b"&#97;%06d" % i for i in range(62000)])),
    ("hash.bin", "60,000 extras whose keys share a hash, a table", lambda: suite(colliding(60000, b""))),
    ("spelled-hash.bin", "60,000 extras whose cleaned keys share a hash, `&#97;` before each", lambda: suite([b"&#97;" + k[1:] for k in colliding(60000, b"a")])),
    ("again.bin", "30,000 extras, keys spelled with `&#97;`, and each again with `&#x61;`", lambda: suite([b"&#%s;%06d" % (c, i) for c in (b"97", b"x61") for i in range(30000)])),
    ("twice.bin", "60,000 extras, the second is the first, spelled otherwise", lambda: suite([b"a", b"&#97;"] + [b"k%06d" % i for i in range(59998)])),
    ("ampersands.bin", "a key of 131,072 ampersands behind 60,000 extras, a table", lambda: suite([b"k%06d" % i for i in range(60000)] + [b"&" * 131072])),
    ("ampersand.bin", "a key of 131,072 ampersands behind nine extras, a table", lambda: suite([b"k%06d" % i for i in range(9)] + [b"&" * 131072])),
    ("case.xml", "XML of 1.2 MB: one case with 6,000 extras, keys of 200 bytes", lambda: document("testcase", long(6000, 200))),
    ("reruns.xml", "XML of 3 MB: 65,390 reruns, the last with 10,000 attributes of 200 bytes", lambda: document("rerun", long(10000, 200), b"<rerunFailure/>" * 65390)),
    ("short.xml", "XML of 1.2 MB: 63,036 reruns, the last with 40,000 attributes of 3 bytes", lambda: document("rerun", short(40000), b"<rerunFailure/>" * 63036)),
    ("full.xml", "XML of 1 MB: 65,520 reruns, the last with 60,000 attributes of 7 bytes", lambda: document("rerun", [b"k%06d" % i for i in range(60000)], b"<rerunFailure/>" * 65520)),
    ("full-hash.xml", "the same, with 32,000 whose keys share a hash", lambda: document("rerun", colliding(32000, b""), b"<rerunFailure/>" * 65520)),
]


def main():
    base, _ = timed("ordinary.xml", ordinary())
    print("| input | s | times the ordinary |\n|-|-|-|")
    print("| ordinary report of 11,000 cases | %.3f | 1 |" % base, flush=True)
    for name, what, make in ROWS:
        spent, status = timed(name, make())
        print("| %s%s | %.3f | %.1f |" % (what, " (refused)" if status else "", spent, spent / base), flush=True)
    keys = colliding(32000, b"p" * 150)
    hostile = document("testsuite", keys)
    base, _ = timed("ordinary-large.xml", ordinary(len(hostile)))
    print("| ordinary report of %.1f MB | %.3f | 1 |" % (len(hostile) / 1e6, base), flush=True)
    for name, what, made in [
        ("bucket.xml", "32,000 extras whose keys share a hash and a prefix of 150 bytes", hostile),
        ("ignored.xml", "the same as attributes of a rerun", document("rerun", keys)),
    ]:
        spent, status = timed(name, made)
        print("| XML of %.1f MB: %s%s | %.3f | %.1f |" % (len(made) / 1e6, what, " (refused)" if status else "", spent, spent / base), flush=True)


main()
