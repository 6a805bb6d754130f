"""Text: reader 3, `text`, `desc` and `mluc`.

Our line is `value text`, `value desc` or `value mluc` with numbers, or an absence or a refusal; then ` |`, and the words
lent, which hold the records of `mluc`. The oracle prints the decoded strings. So a line is checked twice: the whole of
it against `modelled`, written from docs/SCOPE.md, and the ranges that it gives, decoded as the Rust decodes, against the
oracle. Refusal 14 is ours alone: there the oracle is held against the model's answer with slots enough.

The strings of `mluc` are copied by moxcms, once for each record, so the generated tags are short: at most some 200
records of at most some 3,000 bytes each, whatever the count says.
"""

import struct
from collections.abc import Iterator
from random import Random

from compare.jobs import MOST_WORDS, Job
from compare.model import LAST_U32, Answer, NoValue, refuse, with_lent

READER = 3
READERS = (READER,)
KINDS = ("value text", "value desc", "value mluc", "absent", "refused 1", "refused 2", "refused 14")
WORDS = 4  # of a record
HEADERS_AT = 16
HEADER = struct.Struct(">2s2sII")  # language, country, length, offset

# What `answers` must print, by docs/SCOPE.md


def modelled(job: Job) -> Answer:
    """The answer with slots enough."""
    try:
        size = job.size or 12
        _absent(when=size < 4)
        end = job.offset + size
        refuse(1, when=end > len(job.profile))
        tag = job.profile[job.offset : end]
        _absent(when=len(tag) < 8)
        readers = {b"text": _text, b"desc": _desc, b"mluc": _mluc}
        _absent(when=tag[:4] not in readers)
        return readers[tag[:4]](tag)
    except NoValue as no_value:
        return Answer(no_value.text)


def model_line(job: Job) -> str:
    return with_lent(modelled(job), job.words, WORDS)


def _absent(when: bool) -> None:
    if when:
        raise NoValue("absent")


def _text(tag: bytes) -> Answer:
    return Answer(f"value text 8 {len(tag[8:].rstrip(bytes(1)))}")


def _desc(tag: bytes) -> Answer:
    refuse(2, when=len(tag) < 12)
    (length,) = struct.unpack_from(">I", tag, 8)
    unicode_at = 12 + length
    refuse(2, when=unicode_at > len(tag))
    ascii_length = len(tag[12:unicode_at].rstrip(bytes(1)))
    language, start, units = 0, 0, 0
    if unicode_at + 8 <= len(tag):
        found, count = struct.unpack_from(">II", tag, unicode_at)
        string = unicode_at + 8
        if count == 0:
            language = found
        elif string + 2 * count <= len(tag):
            language, start, units = found, string, count
            while units and tag[start + 2 * units - 2 : start + 2 * units] == bytes(2):
                units -= 1
    return Answer(f"value desc 12 {ascii_length} {language} {start} {2 * units}")


def _mluc(tag: bytes) -> Answer:
    refuse(2, when=len(tag) < 28)
    (count,) = struct.unpack_from(">I", tag, 8)
    records = []
    for number in range(max(count, 1)):
        at = 28 + 12 * (number - 1)
        refuse(2, when=at + 12 > len(tag))
        language, country, length, start = struct.unpack_from(">HHII", tag, at)
        _absent(when=start + length > len(tag))
        records.append([language, country, start, length - length % 2])
    return Answer(f"value mluc {len(records)}", records)


# What our line says in the oracle's words


def kind(line: str) -> str:
    text, bar, _ = line.partition(" |")
    start = " ".join(text.split(" ")[:2])
    return start if bar and start in KINDS and (text == start or start.startswith("value")) else "other"


def oracle_job(job: Job) -> Job:
    return job


def expected(job: Job, line: str) -> str:
    model = model_line(job)
    if line != model:
        return f"the model says {model}"
    text, _, lent = line.partition(" |")
    words = [int(word) for word in lent.split()]
    if text == "refused 14":
        answer = modelled(job)
        text, words = answer.text, answer.words()
    if text.startswith("refused"):
        return "error InvalidProfile"
    if not text.startswith("value"):
        return text

    tag = job.profile[job.offset : job.offset + (job.size or 12)]
    _, found, *numbers = text.split(" ")
    numbers = [int(number) for number in numbers]
    if found == "text":
        return f"value text {utf8(_range(tag, *numbers))}"
    if found == "desc":
        ascii_start, ascii_length, language, start, length = numbers
        return (
            f"value desc ascii={utf8(_range(tag, ascii_start, ascii_length))} lang={language}"
            f" unicode={utf16(_range(tag, start, length))} script=-1 mac="
        )
    (count,) = numbers
    records = [_record(tag, *words[at : at + WORDS]) for at in range(0, WORDS * count, WORDS)]
    return f"value mluc {count}[{';'.join(records)}]"


def _range(tag: bytes, start: int, length: int) -> bytes:
    return tag[start : start + length]


def _record(tag: bytes, language: int, country: int, start: int, length: int) -> str:
    codes = (utf8(code.to_bytes(2)) for code in (language, country))
    return ",".join((*codes, utf16(_range(tag, start, length))))


def utf8(data: bytes) -> str:
    """As Rust's String::from_utf8_lossy: a replacement for each longest part of a sequence that goes no further."""
    return data.decode("utf-8", "replace").encode().hex()


def utf16(data: bytes) -> str:
    """As Rust's String::from_utf16_lossy: a replacement for each surrogate that has no partner."""
    units = struct.unpack(f">{len(data) // 2}H", data)
    characters, at = [], 0
    while at < len(units):
        unit = units[at]
        at += 1
        if 0xD800 <= unit < 0xDC00 and at < len(units) and 0xDC00 <= units[at] < 0xE000:
            unit = 0x10000 + (unit - 0xD800) * 0x400 + (units[at] - 0xDC00)
            at += 1
        elif 0xD800 <= unit < 0xE000:
            unit = 0xFFFD
        characters.append(chr(unit))
    return "".join(characters).encode().hex()


# Elements


def text_tag(string: bytes, reserved=bytes(4)) -> bytes:
    return b"text" + reserved + string


def desc_tag(ascii_string: bytes, behind=b"", count: int | None = None, reserved=bytes(4)) -> bytes:
    count = len(ascii_string) if count is None else count
    return b"desc" + reserved + struct.pack(">I", count) + ascii_string + behind


def unicode_part(language: int, string: bytes, count: int | None = None) -> bytes:
    return struct.pack(">II", language, len(string) // 2 if count is None else count) + string


def header(code: bytes, length: int, start: int) -> bytes:
    return HEADER.pack(code[:2], code[2:], length, start)


def mluc_tag(headers: list[bytes], strings=b"", count: int | None = None, record_size=12, reserved=bytes(4)) -> bytes:
    count = len(headers) if count is None else count
    return b"mluc" + reserved + struct.pack(">II", count, record_size) + b"".join(headers) + strings


def localized(*strings: bytes, **more) -> bytes:
    """A tag with these strings one behind the other."""
    start, headers = HEADERS_AT + HEADER.size * len(strings), []
    for number, string in enumerate(strings):
        headers.append(header(b"en" + bytes((0x41 + number % 26, 0x41)), len(string), start))
        start += len(string)
    return mluc_tag(headers, b"".join(strings), **more)


# Random jobs

OTHER_TYPES = (b"Text", b"texT", b"txet", b"des ", b"desC", b"mlud", b"nluc", b"curv", b"mAB ", b"sf32", bytes(4))
# whole sequences of UTF-8 and their parts, what UTF-8 has not, and units of UTF-16 and halves of surrogate pairs
PIECES = (
    b"\0", b"\0", b"\0\0", b"\0\0\0", b"A", b"ab", b"\x7f", b"\x80", b"\xbf", b"\xc0\x80", b"\xc3\xa9", b"\xc3", b"\xe2\x82\xac",
    b"\xe2\x82", b"\xed\xa0\x80", b"\xef\xbb\xbf", b"\xf0\x9f\x98\x80", b"\xf0\x9f\x98", b"\xf4\x90\x80\x80", b"\xff", b"\xfe\xff",
    b"\0A", b"\0\xe9", b"\x20\xac", b"\xd8\x3d\xde\x00", b"\xd8\x3d", b"\xde\x00", b"\xdb\xff\xdf\xff", b"\xff\xfe", b"\xff\xff",
)
LENGTHS = (0, 0, 1, 1, 2, 3, 4, 5, 8, 12, 30)


def generate(rng: Random) -> Job:
    tag = rng.choices((_random_text, _random_desc, _random_mluc), (2, 3, 5))[0](rng)
    if rng.random() < 0.04:
        tag = rng.choice(OTHER_TYPES) + tag[4:]
    exact = len(tag)
    if rng.random() < 0.1:
        at = rng.randrange(exact)
        tag = tag[:at] + rng.randbytes(1) + tag[at + 1 :]
    front = rng.randbytes(rng.choice((0, 0, 0, 1, 2, 3, 7, 40)))
    profile = front + tag + rng.randbytes(rng.choice((0, 0, 0, 1, 5, 20)))
    if rng.random() < 0.05:
        profile = profile[: rng.randrange(len(profile))]
    offset = len(front) if rng.random() < 0.85 else rng.choice((
        0, len(profile), len(profile) + 1, max(len(profile) - 4, 0), LAST_U32, rng.randrange(len(profile) + 3),
    ))
    return Job(READER, offset, _size(rng, exact, offset, len(profile)), profile, words=_words(rng, tag))


def _string(rng: Random) -> bytes:
    string = b"".join(rng.choice(PIECES) for _ in range(rng.choice(LENGTHS)))
    if rng.random() < 0.2:
        string += rng.randbytes(rng.choice(LENGTHS))
    return string + bytes(rng.choice((0, 0, 0, 1, 1, 2, 3, 8)))


def _random_text(rng: Random) -> bytes:
    return text_tag(_string(rng), _reserved(rng))


def _random_desc(rng: Random) -> bytes:
    ascii_string, string = _string(rng), _string(rng)
    language = rng.choice((0, 0x656E5553, rng.randrange(2**32)))
    units = len(string) // 2
    count = units if rng.random() < 0.7 else rng.choice((0, max(units - 1, 0), units + 1, 2**31, 2**31 - 1, LAST_U32))
    behind = unicode_part(language, string, count) + bytes(rng.choice((0, 0, 1, 70, 70)))
    if rng.random() < 0.2:
        behind = behind[: rng.randrange(12)]
    length = len(ascii_string)
    if rng.random() < 0.2:
        length = rng.choice((0, max(length - 1, 0), length + 1, length + len(behind), length + len(behind) + 1, LAST_U32, LAST_U32 - 12))
    tag = desc_tag(ascii_string, behind, length, _reserved(rng))
    return tag[: rng.randrange(8, 13)] if rng.random() < 0.04 else tag


def _random_mluc(rng: Random) -> bytes:
    records = rng.choice((1, 1, 1, 2, 2, 3, 5, 12, 40)) if rng.random() < 0.98 else rng.randrange(100, 200)
    strings = b"".join(_string(rng) for _ in range(min(records, 20)))
    first, end = HEADERS_AT + HEADER.size * records, HEADERS_AT + HEADER.size * records + len(strings)
    headers, bad = [], rng.random() < 0.15
    for number in range(records):
        code = rng.choice((b"enUS", b"deDE", b"\0\0\0\0", b"\xc3\xa9\xff\x80", rng.randbytes(4)))
        start = rng.choice((first, rng.randrange(end + 1), rng.randrange(first, end + 1), end))
        length = rng.choice((0, 1, end - start, rng.randrange(end - start + 1), rng.randrange(end - start + 1)))
        if bad and rng.random() < 2 / records:
            start, length = rng.choice((
                (end, 1), (end + 1, 0), (start, end - start + 1), (LAST_U32, LAST_U32), (LAST_U32, 1), (1, LAST_U32), (LAST_U32, 0), (2**31, 2**31),
            ))
        headers.append(header(code, length, start))
    count = records if rng.random() < 0.75 else rng.choice((0, 0, records - 1, records + 1, records + 2, 2**31, LAST_U32, rng.randrange(2**32)))
    record_size = rng.choice((12, 12, 12, 0, 16, LAST_U32))
    tag = mluc_tag(headers, strings, count, record_size, _reserved(rng))
    return tag[: rng.randrange(8, 30)] if rng.random() < 0.05 else tag


def _reserved(rng: Random) -> bytes:
    return bytes(4) if rng.random() < 0.9 else rng.randbytes(4)


def _size(rng: Random, exact: int, offset: int, length: int) -> int:
    if rng.random() < 0.82:
        return exact
    room = length - offset
    size = rng.choice((
        0, rng.randrange(1, 4), rng.randrange(4, 8), rng.randrange(8, 13), 27, 28, exact - 1, exact - rng.randrange(2, 20),
        exact + 1, exact + rng.randrange(2, 50), room, room + 1,
        2**32 - offset + rng.randrange(-2, length + 4),  # a sum of 32 bits would come round to the profile
        LAST_U32 - rng.randrange(16),
    ))
    return min(max(0, size), LAST_U32)


def _words(rng: Random, tag: bytes) -> int:
    """Mostly as many as the tag's records need, as far as headers fit in."""
    records = 0
    if tag[:4] == b"mluc" and len(tag) >= 28:
        (count,) = struct.unpack_from(">I", tag, 8)
        records = min(max(count, 1), (len(tag) - HEADERS_AT) // HEADER.size)
    exact = WORDS * records
    choices = (exact, exact + 1, exact + 3, exact + rng.randrange(4, 20), exact - 1, exact - WORDS, 0)
    return min(max(0, rng.choices(choices, (30, 12, 12, 20, 7, 4, 4))[0]), MOST_WORDS)


# Every job of some small sets

ODD = mluc_tag([header(b"enUS", 5, 28)], b"\0A\0B\0", count=0)  # the worked case of docs/SCOPE.md, 33 bytes
TWO = localized(b"\0A\0B", b"\xd8\x3d\xde\x00\0")
PLAIN = text_tag(b"A\0b\0\0")
BOTH = desc_tag(b"ab\0", unicode_part(0x656E5553, b"\0A\0B\0\0") + b"\x01\x02")


def exhaustive() -> Iterator[Job]:
    """Sizes, offsets and words around a few small tags; tags a byte away; strings of every two bytes and their ends."""
    for base in (ODD, TWO, PLAIN, BOTH):
        for front in (0, 3):
            profile = bytes(front) + base + b"\x01\x02\x03"
            for offset in range(4):
                for size in range(len(base) + 9):
                    yield Job(READER, offset, size, profile, words=9)
        for words in range(14):
            yield Job(READER, 0, len(base), base, words=words)
        for at in range(len(base)):
            for byte in range(256):
                tag = base[:at] + bytes((byte,)) + base[at + 1 :]
                yield Job(READER, 0, len(tag), tag, words=11)
    for base, fields in ((TWO, (8, 20, 24, 32, 36)), (BOTH, (8, 19))):
        for at in fields:
            for number in (*range(len(base) + 2), 2**31, LAST_U32):
                tag = base[:at] + struct.pack(">I", number) + base[at + 4 :]
                yield Job(READER, 0, len(tag), tag, words=11)
    for first in range(256):
        for second in (0, 0x41, 0x7F, 0x80, 0x8F, 0x90, 0x9F, 0xA0, 0xBF, 0xC0, 0xDC, 0xE0, 0xF0, 0xFF):
            pair = bytes((first, second))
            for string in (pair, pair + b"\x80", pair + bytes(1), bytes(2) + pair):
                for tag in (text_tag(string), desc_tag(string, unicode_part(1, string * 2)), localized(string, string + pair)):
                    yield Job(READER, 0, len(tag), tag, words=8)


# Real profiles


def from_tag(profile: bytes, offset: int, size: int) -> list[Job]:
    if profile[offset : offset + 4] not in (b"text", b"desc", b"mluc"):
        return []
    return [Job(READER, offset, size, profile, words=words) for words in (0, 3, 4, 400, MOST_WORDS)]


# The hand-picked cases


def stored() -> list[tuple[str, Job]]:
    groups = {"tag": _tag_cases, "text": _text_cases, "desc": _desc_cases, "mluc": _mluc_cases}
    return [(f"{group}: {comment}", job) for group, cases in groups.items() for comment, job in cases()]


def _job(profile: bytes, offset=0, size=None, words=0) -> Job:
    return Job(READER, offset, len(profile) - offset if size is None else size, profile, words=words)


def _tag_cases() -> Iterator[tuple[str, Job]]:
    yield "empty profile, size 0", _job(b"", size=0)
    for size in (0, 1, 3, 4, 7, 8, 12, 13, 14, LAST_U32):
        yield f"13 bytes, size {size}", _job(PLAIN, size=size)
        yield f"2 bytes, size {size}", _job(PLAIN[:2], size=size)
    yield "12 bytes, size 0", _job(PLAIN[:12], size=0)
    yield "11 bytes, size 0", _job(PLAIN[:11], size=0)
    yield "at an odd offset, bytes behind", _job(bytes(5) + PLAIN + bytes(2), offset=5, size=len(PLAIN))
    yield "offset past the profile", _job(PLAIN, offset=14, size=8)
    yield "offset 2^32 - 1", _job(PLAIN, offset=LAST_U32, size=13)
    yield "offset + size is 2^32 + 13", _job(bytes(14) + PLAIN, offset=14, size=LAST_U32)
    for signature in (b"Text", b"tex\0", b"dese", b"mlub", b"sf32", bytes(4)):
        yield f"type {signature!r}", _job(signature + TWO[4:], words=8)
    yield "other type, past the profile", _job(b"sf32" + TWO[4:], size=len(TWO) + 1)


def _text_cases() -> Iterator[tuple[str, Job]]:
    strings = {
        "no byte": b"", "all zero": bytes(4), "zeros inside and behind": b"A\0b\0\0", "no zero at the end": b"Ab", "a zero in front": b"\0A",
        "not UTF-8": b"\xff\xc3", "cut in a sequence": b"\xe2\x82\0", "UTF-8": "é€😀".encode(),
    }
    for what, string in strings.items():
        yield what, _job(text_tag(string))
    yield "reserved bytes set, words left alone", _job(text_tag(b"A", b"\xff" * 4), words=9)


def _desc_cases() -> Iterator[tuple[str, Job]]:
    yield "ASCII and Unicode", _job(BOTH)
    yield "the same, words left alone", _job(BOTH, words=5)
    yield "a ScriptCode part", _job(desc_tag(b"ab\0", unicode_part(0, b"") + bytes(70)))
    for length in (8, 11, 12):
        yield f"{length} bytes", _job(desc_tag(b"", count=0)[:length])
    yield "ASCII to the end", _job(desc_tag(b"abc"))
    yield "ASCII a byte past the tag", _job(desc_tag(b"abc", count=4))
    yield "ASCII of 2^32 - 1 bytes", _job(desc_tag(b"abc", bytes(16), count=LAST_U32))
    yield "ASCII all zero", _job(desc_tag(bytes(3), unicode_part(7, b"\0A")))
    yield "7 bytes behind the ASCII", _job(desc_tag(b"a", b"\xff" * 7))
    yield "Unicode of length 0 keeps the language", _job(desc_tag(b"a", unicode_part(7, b"")))
    yield "Unicode a byte short", _job(desc_tag(b"a", unicode_part(7, b"\0A\0", count=2)))
    yield "Unicode of 2^31 units", _job(desc_tag(b"a", unicode_part(7, b"\0A", count=2**31)))
    yield "Unicode of 2^32 - 1 units", _job(desc_tag(b"a", unicode_part(7, b"\0A", count=LAST_U32)))
    yield "Unicode all zero", _job(desc_tag(b"ab", unicode_part(7, bytes(4))))
    yield "Unicode with zeros inside", _job(desc_tag(b"a", unicode_part(LAST_U32, b"\0A\0\0\0B\0\0")))
    yield "Unicode that ends in a zero byte", _job(desc_tag(b"a", unicode_part(7, b"\x41\0")))
    yield "Unicode with lone surrogates", _job(desc_tag(b"a", unicode_part(7, b"\xd8\x3d\0A\xde\x00\xd8\x3d")))


def _mluc_cases() -> Iterator[tuple[str, Job]]:
    yield "count 0, length 5", _job(ODD, words=4)
    for words in (0, 3, 7, 8):
        yield f"count 0, length 5, {words} words", _job(ODD, words=words)
    yield "count 0, a byte short", _job(ODD[:-1], words=4)
    yield "two records", _job(TWO, words=8)
    yield "two records, a word too few", _job(TWO, words=7)
    yield "two records, three words more", _job(TWO, words=11)
    yield "two records, count 1", _job(TWO[:11] + b"\x01" + TWO[12:], words=8)
    yield "two records, count 3: the third header in the strings", _job(TWO[:11] + b"\x03" + TWO[12:], words=12)
    for length in (8, 11, 12, 16, 27, 28):
        yield f"{length} bytes", _job(mluc_tag([header(b"enUS", 0, 28)])[:length], words=4)
    yield "count 2, no second header", _job(mluc_tag([header(b"enUS", 0, 28)], count=2), words=8)
    yield "count 2, a second header of 11 bytes", _job(mluc_tag([header(b"enUS", 0, 28)], bytes(11), count=2), words=8)
    yield "count 2, a second header of 12 bytes", _job(mluc_tag([header(b"enUS", 0, 28)], bytes(12), count=2), words=8)
    yield "count 2, string 0 past the tag and no second header", _job(mluc_tag([header(b"enUS", 1, 28)], count=2), words=8)
    yield "string 1 past the tag", _job(mluc_tag([header(b"enUS", 2, 40), header(b"deDE", 3, 40)], b"\0A"), words=8)
    yield "string 1 past the tag, no words", _job(mluc_tag([header(b"enUS", 2, 40), header(b"deDE", 3, 40)], b"\0A"))
    yield "count 2^32 - 1", _job(mluc_tag([header(b"enUS", 0, 28)], count=LAST_U32), words=4)
    yield "count 2^32 - 1, no words", _job(mluc_tag([header(b"enUS", 0, 28)] * 9, count=LAST_U32))
    for start, length in ((28, 0), (29, 0), (28, 1), (LAST_U32, LAST_U32), (LAST_U32, 0), (0, LAST_U32), (1, LAST_U32), (0, 28), (27, 1)):
        yield f"a string of {length} bytes at {start}", _job(mluc_tag([header(b"enUS", length, start)]), words=4)
    yield "a record size of 16", _job(mluc_tag([header(b"enUS", 0, 28)] * 2, record_size=16), words=8)
    yield "nothing is trimmed", _job(localized(b"\0A\0\0\0\0", bytes(4)), words=8)
    yield "codes that are not ASCII", _job(mluc_tag([header(b"\xc3\xa9\xff\x80", 0, 28)]), words=4)
    yield "lone surrogates", _job(localized(b"\xd8\x3d\0A\xde\x00\xd8\x3d"), words=4)
    yield "reserved bytes set", _job(localized(b"\0A", reserved=b"\xff" * 4), words=4)
    yield "at an odd offset, bytes behind", _job(bytes(3) + TWO + bytes(9), offset=3, size=len(TWO), words=8)
