"""documents.py FOLDER [NAME..]: reports of 0.1, 1, 2 and 16 MB, of 2 and 16 MB with a third of the bytes beyond ASCII (u2, u16), and documents
that are hard on a tokenizer, for bench/xml/tokenizing.c and bench/bars; all, or those of that name."""
import os
import random
import sys

LIMIT = 16777216
folder = sys.argv[1]
os.makedirs(folder, exist_ok=True)


def report(size):
    """A report of that size with at most 65,536 events: texts are longer in a long one."""
    rand, out, put, case = random.Random(3), [], 0, 0
    text = 4000 if size > 2_500_000 else 300
    out.append('<?xml version="1.0" encoding="UTF-8"?>\n<testsuites name="run" tests="9" failures="1" errors="0" '
               'uuid="45c7f8ae-0a48-4a1f-9b1f-5b8f0a8a5c1d" timestamp="2021-04-01T10:52:37.000-08:00" time="5.001">\n')
    while put < size:
        s = '    <testsuite name="suite%d" tests="10" disabled="0" errors="0" failures="1">\n' % case
        for i in range(10):
            case += 1
            s += ('        <testcase name="module::tests::case_number_%d" classname="crate::module" '
                  'timestamp="2021-04-01T10:52:37.000-08:00" time="0.%03d">\n' % (case, rand.randrange(1000)))
            if i == 0:
                words = ["abc def", " at line 12\n", "value = 5, ", "expected ", "\n   stack backtrace: "]
                s += ('            <failure message="assertion failed: left == right" type="panic">thread main panicked at '
                      'src/lib.rs:%d:5:\n%s&lt;x&gt;</failure>\n' % (case, "".join(rand.choice(words) for _ in range(text // 10))))
            else:
                words = ["running 1 test\n", "ok. ", "[INFO] connected to database; took 12 ms\n"]
                s += '            <system-out>%s</system-out>\n' % "".join(rand.choice(words) for _ in range(text // 40))
            s += '        </testcase>\n'
        s += '    </testsuite>\n'
        out.append(s)
        put += len(s)
    out.append('</testsuites>\n')
    return "".join(out).encode()


def beyond(size):
    """The same with some Cyrillic words: about a third of the bytes are beyond ASCII."""
    rand, out, put, case = random.Random(5), [], 0, 0
    text = 4000 if size > 2_500_000 else 300
    out.append('<?xml version="1.0" encoding="UTF-8"?>\n<testsuites name="прогон" tests="9" failures="1" errors="0" time="5.001">\n')
    while put < size:
        s = '    <testsuite name="набор%d" tests="10" disabled="0" errors="0" failures="1">\n' % case
        for i in range(10):
            case += 1
            s += ('        <testcase name="проверка::случай_%d" classname="crate::module" '
                  'timestamp="2021-04-01T10:52:37.000-08:00" time="0.%03d">\n' % (case, rand.randrange(1000)))
            if i == 0:
                words = ["ожидалось ", " at line 12\n", "значение = 5, ", "expected ", "\n   stack backtrace: ", "found here "]
                s += ('            <failure message="ожидалось: left == right" type="panic">thread main panicked at '
                      'src/lib.rs:%d:5:\n%s&lt;x&gt;</failure>\n' % (case, "".join(rand.choice(words) for _ in range(text // 10))))
            else:
                words = ["running 1 test\n", "ok. ", "[INFO] соединение с базой; took 12 ms\n", "готово "]
                if text == 4000:
                    words = ["running 1 test\n", "ok, taken. ", "[INFO] соединение с базой; took 12 ms\n", "done in time "]
                s += '            <system-out>%s</system-out>\n' % "".join(rand.choice(words) for _ in range(text // 40))
            s += '        </testcase>\n'
        s += '    </testsuite>\n'
        out.append(s)
        put += len(s.encode())
    out.append('</testsuites>\n')
    return "".join(out).encode()


def filled(before, part, behind, size=LIMIT):
    """As many parts as the size has room for."""
    return before + part * ((size - len(before) - len(behind)) // len(part)) + behind


def nested(n):
    return b"<a>" * n + b"</a>" * n


def twice(size):
    name = b"n" * (size // 2 - 4)
    return b"<" + name + b"></" + name + b">"


# a sixteenth of the limit beside the whole, to compare bytes a second
SIXTEENTH = LIMIT // 16
documents = {
    "r0.1": report(100_000),
    "r1": report(1_000_000),
    "r2": report(2_000_000),
    "r16": report(16_600_000),
    "u2": beyond(2_000_000),
    "u16": beyond(16_600_000),
    # one name; one name twice
    "name1": filled(b"<", b"n", b"/>", SIXTEENTH),
    "name": filled(b"<", b"n", b"/>"),
    "names1": twice(SIXTEENTH),
    "names": twice(LIMIT),
    # elements within each other, closed and not
    "nested8": nested(8000),
    "nested32": nested(32000),
    "nested65": b"<a>" * 65000 + b"</a>" * 535,
    # 65,536 elements and no room for the next
    "elements": filled(b"<a>", b"<b/>", b"</a>"),
    "brackets1": filled(b"<a>", b"]", b"</a>", SIXTEENTH),
    "brackets": filled(b"<a>", b"]", b"</a>"),
    # references: no room for the 65,536th in content; in a value they are no events
    "references": filled(b"<a>", b"&#x0;", b"</a>"),
    "references16": b"<a>" + b"&#x0;" * 16000 + b"</a>",
    "references65": b"<a>" + b"&#x0;" * 65000 + b"</a>",
    "value1": filled(b"<a b='", b"&#x0;", b"'/>", SIXTEENTH),
    "value": filled(b"<a b='", b"&#x0;", b"'/>"),
    "attributes16": b"<a " + b" ".join(b"a%d='v'" % i for i in range(16000)) + b"/>",
    "attributes65": b"<a " + b" ".join(b"a%d='v'" % i for i in range(65000)) + b"/>",
    # characters of two, three and four bytes
    "two": filled(b"<a>", "привет".encode(), b"</a>"),
    "three": filled(b"<a>", "日本語".encode(), b"</a>"),
    "four": filled(b"<a>", "😀".encode(), b"</a>"),
    "threename": filled(b"<", "日".encode(), b"/>"),
    "text": filled(b"<a>", b"x", b"</a>"),
    "dashes": filled(b"<!--", b"- ", b"--><a/>"),
    "white": filled(b"", b" ", b"<a/>"),
    "section": filled(b"<a><![CDATA[", b"]] ", b"]]></a>"),
    # one byte over the limit
    "over": b"<a>" + b"x" * (LIMIT - 6) + b"</a>",
}
for name, document in documents.items():
    if len(sys.argv) > 2 and name not in sys.argv[2:]:
        continue
    with open(os.path.join(folder, name + ".xml"), "wb") as f:
        f.write(document)
