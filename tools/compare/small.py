"""The small readers, a family each: 4 `chad`, 5 `sig `, 6 `dtim`, 7 `meas`, 8 `view`, 9 `XYZ ` and 10 `cicp`.

Our line is `value` and the fields as raw integers, or an answer without fields. A line is checked twice: against what
docs/SCOPE.md says of the job, which tells the refusals apart and the default from a value, and, turned into moxcms's
names and floats, against the oracle. The two part in one place: moxcms refuses the matrix codes 18 to 255 of `cicp`.
"""

import struct
from collections.abc import Callable, Iterator
from dataclasses import dataclass
from random import Random

from compare.curve import BEHIND_LENGTHS, FRONT_LENGTHS, LAST_U32, float_text, random_offset
from compare.jobs import HOUSE_CURVE_LIMIT, HOUSE_GRID_LIMIT, MOST_WORDS, NO_LIMIT, Job
from compare.model import NoValue, refuse

Fields = tuple[int, ...]


# What we must answer, by docs/SCOPE.md: each function has the checks of that page in the page's order


def absent(when: bool) -> None:
    if when:
        raise NoValue("absent")


def chad(profile: bytes, offset: int, size: int) -> Fields:
    refuse(1, when=offset + size > len(profile))
    refuse(1, when=offset + 8 > len(profile))
    absent(when=size < 8)
    absent(when=(size - 8) // 4 != 9)
    refuse(17, when=profile[offset : offset + 4] != b"sf32")
    refuse(17, when=size != 44)
    return struct.unpack_from(">9i", profile, offset + 8)


def sig(profile: bytes, offset: int, size: int) -> Fields:
    refuse(2, when=size < 12)
    refuse(1, when=offset + size > len(profile))
    absent(when=profile[offset : offset + 4] != b"sig ")
    return struct.unpack_from(">I", profile, offset + 8)


def dtim(profile: bytes, offset: int, size: int) -> Fields:
    absent(when=size < 20)
    refuse(1, when=offset + size > len(profile))
    absent(when=profile[offset : offset + 4] != b"dtim")
    return tuple(profile[8:20])


def meas(profile: bytes, offset: int, size: int) -> Fields:
    absent(when=size < 12)
    refuse(1, when=offset + size > len(profile))
    absent(when=profile[offset : offset + 4] != b"meas")
    refuse(1, when=offset + 36 > len(profile))
    return struct.unpack_from(">I3i3I", profile, offset + 8)


def view(profile: bytes, offset: int, size: int) -> Fields:
    absent(when=size < 36)
    refuse(1, when=offset + 36 > len(profile))
    absent(when=profile[offset : offset + 4] != b"view")
    return struct.unpack_from(">6iI", profile, offset + 8)


def xyz(profile: bytes, offset: int, size: int) -> Fields:
    if size < 12:
        raise NoValue("default")
    refuse(1, when=offset + size > len(profile))
    if profile[offset : offset + 4] != b"XYZ ":
        raise NoValue("default")
    refuse(2, when=size < 20)
    return struct.unpack_from(">3i", profile, offset + 8)


def cicp(profile: bytes, offset: int, size: int) -> Fields:
    absent(when=size < 12)
    refuse(1, when=offset + size > len(profile))
    absent(when=profile[offset : offset + 4] != b"cicp")
    return tuple(profile[offset + 8 : offset + 12])


# The fields in the oracle's words, with moxcms's names (its profile.rs and cicp.rs)

OBSERVERS = {1: "D50", 2: "D65"}
GEOMETRIES = {1: "D45to45", 2: "D0to0"}
ILLUMINANTS = dict(enumerate(("D50", "D65", "D93", "F2", "D55", "A", "EquiPower", "F8"), start=1))
TECHNOLOGIES = {
    b"fscn": "FilmScanner",
    b"dcam": "DigitalCamera",
    b"rscn": "ReflectiveScanner",
    b"ijet": "InkJetPrinter",
    b"twax": "ThermalWaxPrinter",
    b"epho": "ElectrophotographicPrinter",
    b"esta": "ElectrostaticPrinter",
    b"dsub": "DyeSublimationPrinter",
    b"rpho": "PhotographicPaperPrinter",
    b"fprn": "FilmWriter",
    b"vidm": "VideoMonitor",
    b"vidc": "VideoCamera",
    b"pjtv": "ProjectionTelevision",
    b"CRT ": "CathodeRayTubeDisplay",
    b"PMD ": "PassiveMatrixDisplay",
    b"AMD ": "ActiveMatrixDisplay",
    b"LCD ": "LiquidCrystalDisplay",
    b"OLED": "OrganicLedDisplay",
    b"KPCD": "PhotoCd",
    b"imgs": "PhotographicImageSetter",
    b"grav": "Gravure",
    b"offs": "OffsetLithography",
    b"silk": "Silkscreen",
    b"flex": "Flexography",
    b"mpfs": "MotionPictureFilmScanner",
    b"mpfr": "MotionPictureFilmRecorder",
    b"dmpc": "DigitalMotionPictureCamera",
    b"dcpj": "DigitalCinemaProjector",
}
PRIMARIES = {
    1: "Bt709", 2: "Unspecified", 4: "Bt470M", 5: "Bt470Bg", 6: "Bt601", 7: "Smpte240", 8: "GenericFilm", 9: "Bt2020",
    10: "Xyz", 11: "Smpte431", 12: "Smpte432", 22: "Ebu3213",
}
TRANSFERS = {
    1: "Bt709", 2: "Unspecified", 4: "Bt470M", 5: "Bt470Bg", 6: "Bt601", 7: "Smpte240", 8: "Linear", 9: "Log100",
    10: "Log100sqrt10", 11: "Iec61966", 12: "Bt1361", 13: "Srgb", 14: "Bt202010bit", 15: "Bt202012bit", 16: "Smpte2084",
    17: "Smpte428", 18: "Hlg",
}
MATRICES = (
    "Identity", "Bt709", "Unspecified", "Reserved", "Fcc", "Bt470Bg", "Smpte170m", "Smpte240m", "YCgCo", "Bt2020Ncl",
    "Bt2020Cl", "Smpte2085", "ChromaticityDerivedNCL", "ChromaticityDerivedCL", "ICtCp", "IPtC2", "YCgCoRe", "YCgCoRo",
)


def doubles(numbers: Fields) -> str:
    return ",".join(f"{struct.pack('>d', number / 65536).hex()}/{number}" for number in numbers)


def floats(numbers: Fields) -> str:
    return ",".join(map(float_text, numbers))


def flare_text(flare: int) -> str:
    """The bits of the 32-bit float that moxcms makes of the flare: the number as a float, over 65535."""
    (number,) = struct.unpack(">f", struct.pack(">f", flare))
    return struct.pack(">f", number / 65535).hex()


def chad_said(*numbers: int) -> str:
    return f"value {doubles(numbers)}"


def sig_said(signature: int) -> str:
    return f"value {TECHNOLOGIES.get(struct.pack('>I', signature), f'Unknown({signature})')}"


def dtim_said(*date: int) -> str:
    return "value " + " ".join(map(str, struct.unpack(">6H", bytes(date))))


def meas_said(observer: int, x: int, y: int, z: int, geometry: int, flare: int, illuminant: int) -> str:
    return (
        f"value observer={OBSERVERS.get(observer, 'Unknown')} backing={floats((x, y, z))}"
        f" geometry={GEOMETRIES.get(geometry, 'Unknown')} flare={flare_text(flare)}"
        f" illuminant={ILLUMINANTS.get(illuminant, 'Unknown')}"
    )


def view_said(*numbers: int) -> str:
    *xyzs, number = numbers
    return (
        f"value illuminant={floats(tuple(xyzs[:3]))} surround={floats(tuple(xyzs[3:]))}"
        f" observer={OBSERVERS.get(number, 'Unknown')}"
    )


def xyz_said(*numbers: int) -> str:
    return f"value {doubles(numbers)}"


def cicp_said(primaries: int, transfer: int, matrix: int, full: int) -> str:
    if matrix >= len(MATRICES):
        return "error InvalidCicp"
    return (
        f"value primaries={PRIMARIES.get(primaries, 'Reserved')} transfer={TRANSFERS.get(transfer, 'Reserved')}"
        f" matrix={MATRICES[matrix]} full={str(full == 1).lower()}"
    )


# Random fields


def random_number(rng: Random) -> int:
    """A 32-bit word: a number of the standard's, a small one, one near a border, any."""
    return rng.choice((
        rng.randrange(10),
        rng.randrange(2**32),
        rng.randrange(-300, 300) % 2**32,
        (rng.randrange(-3, 4) * 65536 + rng.randrange(-1, 2)) % 2**32,
        (rng.choice((1, -1)) * (2**24 + rng.randrange(-4, 5))) % 2**32,  # where a 32-bit float begins to round
        rng.choice((0x7FFFFFFF, 0x80000000, LAST_U32, 0xF6D6, 0x10000, 0xD32D)),
    ))


def random_words(count: int) -> Callable[[Random], bytes]:
    return lambda rng: struct.pack(f">{count}I", *(random_number(rng) for _ in range(count)))


def random_signature(rng: Random) -> bytes:
    known = rng.choice(list(TECHNOLOGIES))
    at = rng.randrange(4)
    return rng.choice((known, known, known[:at] + rng.randbytes(1) + known[at + 1 :], rng.randbytes(4)))


def random_codes(rng: Random) -> bytes:
    return bytes(rng.choice((rng.randrange(25), rng.randrange(256), 1, 1)) for _ in range(4))


def words(*numbers: int) -> bytes:
    return struct.pack(f">{len(numbers)}I", *(number % 2**32 for number in numbers))


# A family

NEAR_TYPES = (
    b"sf32", b"sig ", b"dtim", b"meas", b"view", b"XYZ ", b"cicp", b"sf16", b"sig\0", b"SIG ", b"dtin", b"Meas",
    b"wiev", b"xyz ", b"XYZ\0", b"cicP", b"curv", bytes(4), b"\xff" * 4,
)
BORDERS = (0, 4, 7, 8, 9, 11, 12, 13, 16, 19, 20, 21, 24, 28, 35, 36, 37, 40, 43, 44, 45, 46, 47, 48, 52)
HEAD = 8  # bytes in front of the fields


@dataclass(frozen=True, slots=True)
class Family:
    """One small reader. `fields` are some fields of a whole element, `others` more for the exhaustive set."""

    reader: int
    signature: bytes
    answer: Callable[[bytes, int, int], Fields]
    said: Callable[..., str]
    random_fields: Callable[[Random], bytes]
    fields: bytes
    others: tuple[bytes, ...]
    KINDS: tuple[str, ...]

    @property
    def READERS(self) -> tuple[int, ...]:
        return (self.reader,)

    def kind(self, line: str) -> str:
        if line in self.KINDS and line != "value":
            return line
        return "value" if line.startswith("value ") else "other"

    def oracle_job(self, job: Job) -> Job:
        return job

    def expected(self, job: Job, line: str) -> str:
        try:
            fields = self.answer(job.profile, job.offset, job.size)
        except NoValue as answer:
            if line != answer.text:
                return f"the model says {answer.text}"
            if line == "default":
                return self.said(0, 0, 0)
            return "error InvalidProfile" if line.startswith("refused") else line
        modelled = " ".join(map(str, ("value", *fields)))
        return self.said(*fields) if line == modelled else f"the model says {modelled}"

    def element(self, fields: bytes | None = None, signature: bytes | None = None, reserved: bytes = bytes(4)) -> bytes:
        return (signature or self.signature) + reserved + (self.fields if fields is None else fields)

    def generate(self, rng: Random) -> Job:
        signature = self.signature if rng.random() < 0.85 else rng.choice(NEAR_TYPES)
        reserved = rng.randbytes(4) if rng.random() < 0.2 else bytes(4)
        element = self.element(self.random_fields(rng), signature, reserved)
        exact = len(element)
        if rng.random() < 0.1:
            element = element[: rng.randrange(len(element) + 1)]
        front = rng.randbytes(rng.choice(FRONT_LENGTHS))
        profile = front + element + rng.randbytes(rng.choice(BEHIND_LENGTHS))
        offset = random_offset(rng, len(front), len(profile))
        return Job(
            reader=self.reader,
            offset=offset,
            size=_random_size(rng, exact, offset, len(profile)),
            profile=profile,
            curve_limit=rng.choice((0, HOUSE_CURVE_LIMIT, NO_LIMIT)),
            grid_limit=rng.choice((0, HOUSE_GRID_LIMIT, NO_LIMIT)),
            words=rng.choice((0, 0, 0, 9, MOST_WORDS)),
        )

    def exhaustive(self) -> Iterator[Job]:
        """Offsets, sizes and ends of the profile around a whole element; types a byte away; more fields."""
        whole = self.element()
        for front in (0, 3):
            profile = bytes(range(1, front + 1)) + whole + b"\x01\x02\x03"
            for offset in range(7):
                for size in range(55):
                    yield Job(self.reader, offset, size, profile)
        for length in range(len(whole)):
            for size in range(55):
                yield Job(self.reader, 0, size, whole[:length])
        for at in range(4):
            for byte in range(256):
                yield Job(self.reader, 0, len(whole), whole[:at] + bytes([byte]) + whole[at + 1 :])
        for fields in self.others:
            element = self.element(fields)
            yield Job(self.reader, 0, len(element), element)

    def from_tag(self, profile: bytes, offset: int, size: int) -> list[Job]:
        """A small reader is tried on every tag of a real profile: of most types it answers that there is none."""
        return [Job(self.reader, offset, tried, profile) for tried in (size, 0, 12, 20, 36, 44)]

    def stored(self) -> list[tuple[str, Job]]:
        name = self.signature.decode()
        return [(f"{name!r}, {comment}", job) for comment, job in self._cases()]

    def _job(self, profile: bytes, offset: int = 0, size: int | None = None) -> Job:
        """By default the whole profile is the tag."""
        return Job(self.reader, offset, len(profile) if size is None else size, profile)

    def _cases(self) -> Iterator[tuple[str, Job]]:
        whole = self.element()
        long = whole + b"\x01" * 40
        yield "whole", self._job(whole)
        yield "all zero", self._job(self.element(bytes(len(self.fields))))
        yield "all ones", self._job(self.element(b"\xff" * len(self.fields)))
        yield "reserved bytes set", self._job(self.element(reserved=b"\xde\xad\xbe\xef"))
        for size in BORDERS:
            yield f"size {size}, bytes behind", self._job(long, size=size)
        for size in (0, 7, 8, 12, 20, 36, 44):
            yield f"size {size} at the very end", self._job(bytes(3) + whole[:size], offset=3, size=size)
            yield f"size {size}, a byte short", self._job(bytes(3) + whole[: max(0, size - 1)], offset=3, size=size)
        yield "offset past the profile", self._job(whole, offset=len(whole) + 1, size=0)
        yield "offset and size 2^32 - 1", self._job(whole, offset=LAST_U32, size=LAST_U32)
        yield "size 2^32 - 1", self._job(whole, size=LAST_U32)
        yield "21 bytes in front", self._job(bytes(range(21)) + whole, offset=21, size=len(whole))
        yield "offset + size passes 2^32", self._job(bytes(21) + whole, offset=21, size=LAST_U32 - 8)
        for signature in (b"curv", self.signature.swapcase(), self.signature[::-1]):
            foreign = self.element(signature=signature)
            yield f"type {signature!r}", self._job(foreign)
            yield f"type {signature!r}, size 11", self._job(foreign, size=11)
            yield f"type {signature!r}, past the profile", self._job(foreign, size=len(foreign) + 1)


def _random_size(rng: Random, exact: int, offset: int, length: int) -> int:
    if rng.random() < 0.5:
        return exact
    room = length - offset
    size = rng.choice((
        rng.choice(BORDERS),
        rng.choice(BORDERS),
        rng.choice(BORDERS),
        exact - 1,
        exact + 1,
        room - 1,
        room,
        room + 1,
        2**32 - offset + rng.randrange(-2, length + 4),  # a sum of 32 bits would come round to the profile
        LAST_U32 - rng.randrange(16),
    ))
    return min(max(0, size), LAST_U32)


def _each(fields: bytes, at: int, values: range) -> Iterator[bytes]:
    """The fields with each of these numbers as the word at an offset."""
    for value in values:
        yield fields[:at] + words(value) + fields[at + 4 :]


NINE = words(65536, -65536, 1, -1, 2**24 + 1, -(2**24) - 1, 2**31 - 1, -(2**31), 0)
DATE = struct.pack(">6H", 2024, 2, 29, 12, 30, 15)
MEASUREMENT = words(1, 63190, 65536, -1, 2, 655, 2)
CONDITIONS = words(63190, 65536, 54061, -1, 2**24 + 1, 0, 1)
VIEW_NUMBERS = tuple(_each(CONDITIONS, 24, range(12)))
MEAS_NUMBERS = tuple(
    changed for at, values in ((0, range(12)), (16, range(12)), (20, range(65530, 65542)), (24, range(12)))
    for changed in _each(MEASUREMENT, at, values)
)
CODES = bytes((1, 13, 0, 1))
EVERY_CODE = tuple(CODES[:at] + bytes([code]) + CODES[at + 1 :] for at in range(4) for code in range(256))
SIGNATURES = (*TECHNOLOGIES, *(known[::-1] for known in TECHNOLOGIES), *(known.swapcase() for known in TECHNOLOGIES))

FAMILIES = {
    "chad": Family(
        4, b"sf32", chad, chad_said, random_words(9), NINE,
        tuple(words(*range(k, k + 9)) for k in range(64)),
        ("value", "absent", "refused 1", "refused 17"),
    ),
    "sig": Family(
        5, b"sig ", sig, sig_said, random_signature, b"LCD ", SIGNATURES, ("value", "absent", "refused 1", "refused 2")
    ),
    "dtim": Family(
        6, b"dtim", dtim, dtim_said, lambda rng: rng.randbytes(12), DATE, (bytes(12),), ("value", "absent", "refused 1")
    ),
    "meas": Family(
        7, b"meas", meas, meas_said, random_words(7), MEASUREMENT, MEAS_NUMBERS, ("value", "absent", "refused 1")
    ),
    "view": Family(
        8, b"view", view, view_said, random_words(7), CONDITIONS, VIEW_NUMBERS, ("value", "absent", "refused 1")
    ),
    "xyz": Family(
        9, b"XYZ ", xyz, xyz_said, random_words(3), words(63190, 65536, -1), (words(1, 2, 3, 4, 5, 6),),
        ("value", "default", "refused 1", "refused 2"),
    ),
    "cicp": Family(
        10, b"cicp", cicp, cicp_said, random_codes, CODES, EVERY_CODE, ("value", "absent", "refused 1")
    ),
}
