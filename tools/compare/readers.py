"""The families of readers that are compared: a module each, or as the small readers an object each. A family offers

READERS                        the reader numbers of its jobs
KINDS                          the kinds of answer; `generate` must reach each of them with each reader
kind(line)                     the kind of one of our lines, or "other"
expected(job, line)            the line that the oracle prints if `line`, our answer to `job`, is right
oracle_job(job)                the job to put to the oracle for `job`
generate(rng)                  a random job
exhaustive()                   every job of some small set
stored()                       the hand-picked cases: pairs of a comment and a job
from_tag(profile, start, size) the jobs to make of a real profile's tag; none if the family has no use for its type
"""

from compare import curve, entry, evaluate, lut, small, text

FAMILIES = {"curve": curve, "lut": lut, "text": text, **small.FAMILIES, "entry": entry, "evaluate": evaluate}
FAMILY_OF_READER = {reader: family for family in FAMILIES.values() for reader in family.READERS}
