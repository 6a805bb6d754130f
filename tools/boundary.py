"""The library's boundary as names.toml has it: what the functions take and answer, and the readers as a person asks for them. For tools that call
the library, or write of it."""

import ctypes
import re
import subprocess
import tomllib
from collections.abc import Iterable, Iterator
from dataclasses import dataclass
from pathlib import Path

TOOLS = Path(__file__).resolve().parent
TABLE = tomllib.loads((TOOLS / "names.toml").read_text("utf-8"))

STATUSES: dict[str, int] = {name: number for name, (number, _) in TABLE["statuses"].items()}
REFUSALS: dict[int, str] = {number: words for number, words in TABLE["refusals"].values()}
WALKS: dict[str, int] = {name: number for name, (number, _) in TABLE["walks"].items()}
NUMBERS: dict[str, int] = {name: number for name, (number, _) in TABLE["numbers"].items()}
ANSWERS: dict[str, dict] = {answer["prefix"]: answer for answer in TABLE["answers"]}
FUNCTIONS: dict[str, dict] = {function["name"]: function for function in TABLE["functions"]}

C_NUMBERS = {"u8": ctypes.c_uint8, "u16": ctypes.c_uint16, "u32": ctypes.c_uint32, "u64": ctypes.c_uint64}
SLICE = re.compile(r"&(?:mut )?\[(\w+)\]")


@dataclass(frozen=True, slots=True)
class Field:
    """One or several words of an answer, which have one name."""

    name: str
    place: int
    count: int
    signed: bool


def fields_of(prefix: str) -> list[Field]:
    """The fields of an answer in their order, those that stand in front of it too."""
    answer = ANSWERS[prefix]
    fields = fields_of(answer["after"]) if "after" in answer else []
    for text in answer["words"]:
        name, *rest = text.split()
        count = int(rest[0]) if rest and rest[0].isdigit() else 1
        fields.append(Field(name, words_in(fields), count, "signed" in rest))
    return fields


def words_in(fields: list[Field]) -> int:
    return fields[-1].place + fields[-1].count if fields else 0


def record_words(prefix: str) -> int:
    """How many words a record of this answer has."""
    return ANSWERS[prefix]["record"]


def library() -> ctypes.CDLL:
    """The library for the machine at hand, which is made first if need be."""
    made = subprocess.run([TOOLS / "archive", "host"], stdin=subprocess.DEVNULL, stdout=subprocess.PIPE, text=True, check=True)
    return ctypes.CDLL(str(Path(made.stdout.splitlines()[-1]) / "lib/libkhalyksor.so"))


def short_numbers(numbers: Iterable[int]) -> ctypes.Array:
    """Numbers of 16 bits, as coordinates, or to be lent as results."""
    numbers = tuple(numbers)
    return (ctypes.c_uint16 * len(numbers))(*numbers)


def lent(words: int) -> ctypes.Array:
    """So many words of 32 bits, to be lent as slots."""
    return (ctypes.c_uint32 * words)()


def call(loaded: ctypes.CDLL, name: str, **values: int | bytes | ctypes.Array) -> tuple[int, ctypes.Array]:
    """Calls a function that has a status: gives it, and `out`, which has as many words as the function asks for."""
    out = (ctypes.c_uint64 * (words_in(fields_of(FUNCTIONS[name]["most"])) if "most" in FUNCTIONS[name] else 0))()
    arguments = []
    for parameter, kind in FUNCTIONS[name]["parameters"].items():
        value = out if parameter == "out" else values[parameter]
        if not (slice_of := SLICE.fullmatch(kind)):
            arguments.append(C_NUMBERS[kind](value))
            continue
        if isinstance(value, bytes):
            value = (C_NUMBERS[slice_of[1]] * len(value)).from_buffer_copy(value)
        arguments += [value, ctypes.c_uint64(len(value))]
    function = loaded[name]
    function.restype = ctypes.c_uint32
    return function(*arguments), out


def answer_in(name: str, out: ctypes.Array) -> str:
    """The prefix of the answer that a function wrote: of one that reads several types the first word tells which."""
    room = FUNCTIONS[name]["room"]
    for prefix, answer in ANSWERS.items():
        if answer.get("after") == room and type_name(out[0]) in (TABLE["types"][of] for of in answer["types"]):
            return prefix
    return room


def type_name(signature: int) -> str:
    return signature.to_bytes(4, "big").decode("latin-1")


def shown(word: int, signed: bool) -> str:
    """A word in decimal; a signed one is a number of 32 bits in two's complement."""
    return str(word - (1 << 32) if signed and word >> 31 else word)


def line(name: str, status: int, out: ctypes.Array) -> str:
    """What a function answered, as the program `answers` prints it; a refusal with its words."""
    if status in REFUSALS:
        return f"refused {status}: {REFUSALS[status]}"
    if status != STATUSES["VALUE"]:
        return next(word.lower() for word, number in STATUSES.items() if number == status)
    prefix = answer_in(name, out)
    words = [shown(out[field.place + i], field.signed) for field in fields_of(prefix) for i in range(field.count)]
    if "types" in ANSWERS[prefix]:
        words[0] = type_name(out[0]).rstrip(" ")
    return " ".join(("value", *words))


def records(name: str, out: ctypes.Array, slots: ctypes.Array) -> Iterator[str]:
    """The records of a value, a line each."""
    prefix = answer_in(name, out)
    if "records" not in ANSWERS[prefix]:
        return
    record, counts = ANSWERS[prefix]["records"]["of"], ANSWERS[prefix]["records"]["counts"]
    length = record_words(record)
    signed = [field.signed for field in fields_of(record) for _ in range(field.count)][:length]
    for number in range(sum(out[field.place] for field in fields_of(prefix) if field.name in counts)):
        yield " ".join(map(shown, slots[length * number : length * (number + 1)], signed))


# ---- the readers

LUT = "khalyksor_read_lut_tag"
TRC = "khalyksor_read_trc_tag"

# function and walk of each reader, in the order of the numbers that the jobs of `answers` have
READERS = {
    "lut": (LUT, "CRATE"),
    "trc": (TRC, "CRATE"),
    "text": ("khalyksor_read_string_tag", ""),
    "chad": ("khalyksor_read_chad_tag", ""),
    "sig": ("khalyksor_read_tech_tag", ""),
    "dtim": ("khalyksor_read_date_time_tag", ""),
    "meas": ("khalyksor_read_meas_tag", ""),
    "view": ("khalyksor_read_viewing_conditions", ""),
    "xyz": ("khalyksor_read_xyz_tag", ""),
    "cicp": ("khalyksor_read_cicp_tag", ""),
    "lut-book": (LUT, "BOOK"),
    "trc-book": (TRC, "BOOK"),
    "entry": (LUT, "CRATE"),
    "evaluate": (LUT, "CRATE"),
}
MLUC_RECORD_BYTES = 12  # in the profile
MOST_COORDINATES = next(field.count for field in fields_of("MAB") if field.name == "GRID")


@dataclass(frozen=True, slots=True)
class Question:
    """What one call of one reader asks for. Only the reader `entry` has an index and a channel, and only `evaluate` coordinates."""

    reader: str
    profile: bytes
    offset: int
    size: int
    limit: int
    points: int
    index: bytes = b""
    channel: int = 0
    coordinates: tuple[int, ...] = ()


def colour(tag: bytes, lut: ctypes.Array, coordinates: tuple[int, ...], library: ctypes.CDLL) -> str:
    """The line of an evaluation, with a result for each output."""
    (outputs,) = (lut[field.place] for field in fields_of("LUT") if field.name == "OUTPUTS")
    results = short_numbers([0] * outputs)
    function = "khalyksor_evaluate"
    status, out = call(library, function, tag=tag, lut=lut, coordinates=short_numbers(coordinates), results=results)
    if status == STATUSES["VALUE"]:
        return " ".join(map(str, ("value", outputs, *results)))
    return line(function, status, out)


def answer(asked: Question, library: ctypes.CDLL) -> list[str]:
    """The lines of the answer. The slots suffice for every tag."""
    function, walk = READERS[asked.reader]
    if function == LUT:
        words = NUMBERS["LUT_RECORDS"] * record_words("CURVE")
    else:
        words = (min(asked.size, len(asked.profile)) // MLUC_RECORD_BYTES + 1) * record_words("MLUC_RECORD")
    slots = lent(words)
    given = {
        "profile": asked.profile,
        "offset": asked.offset,
        "size": asked.size,
        "limit": asked.limit,
        "points": asked.points,
        "walk": WALKS.get(walk, 0),
        "slots": slots,
    }
    status, out = call(library, function, **given)
    value = status == STATUSES["VALUE"]
    tag = asked.profile[asked.offset : asked.offset + asked.size]
    if value and asked.reader == "evaluate":
        return [colour(tag, out, asked.coordinates, library)]
    if value and asked.reader == "entry":
        function, lut = "khalyksor_entry_at", out
        status, out = call(library, function, tag=tag, lut=lut, index=asked.index, channel=asked.channel)
        value = False
    first = line(function, status, out)
    return [first, *records(function, out, slots)] if value else [first]
