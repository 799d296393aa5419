"""Where storage layouts put an object by its id."""
import hashlib
import re
import urllib.parse

HASHED = "0004-hashed-n-tuple-storage-layout"
HASHED_AND_NAMED = "0003-hash-and-id-n-tuple-storage-layout"
CLEAN = "0011-direct-clean-path-layout"
TUPLES = {"digestAlgorithm": "sha256", "tupleSize": 3, "numberOfTuples": 3}
# What a clean path replaces by a space, and what by an underscore.
SPACES = re.compile("[\t\n\x20\x85\xa0\u1680\u2000-\u200f\u2028\u2029\u202f\u205f\u3000]")
UNCLEAN = re.compile(r"""[\x00-\x1f\x7f*?:\[\]"<>|(){}&'!;#@]""")


def tuples(digest: str) -> list[str]:
    return [digest[:3], digest[3:6], digest[6:9]]


def hashed(name: str) -> str:
    """The place by layout 0004: a digest below its first digits."""
    digest = hashlib.sha256(name.encode()).hexdigest()
    return "/".join([*tuples(digest), digest])


def hashed_and_named(name: str) -> str:
    """The place by layout 0003: the id, with percent signs, below the first digits of a digest."""
    escaped = re.sub(r"%[0-9A-F]{2}", lambda it: it[0].lower(),
                     urllib.parse.quote(name, safe="").replace(".", "%2E").replace("~", "%7E"))
    return "/".join([*tuples(hashlib.sha256(name.encode()).hexdigest()), escaped])


def clean(name: str) -> str:
    """The place by layout 0011, which also cleans paths below content directories."""
    parts = [UNCLEAN.sub("_", SPACES.sub(" ", part)).lstrip("-~ ").rstrip(" ")
             for part in name.split("/")]
    return "/".join(part for part in parts if part)
