"""A storage root of many small files: each object has one version of fifty pages."""
import os

from shared import layouts
from shared.library import Object, declare

PAGES = 50


def make_many(root: str, count: int = 400) -> list[Object]:
    declare(root, "1.1", layouts.HASHED_AND_NAMED, layouts.TUPLES)
    objects = []
    for number in range(count):
        name = "urn:example:volume/%d" % number
        pages = {"pages/%04d.xml" % page: b"<page volume='%d' number='%d'/>\n" % (number, page)
                 for page in range(1, PAGES + 1)}
        place = layouts.hashed_and_named(name)
        objects.append(Object(place, os.path.join(root, place), "sha512", "content", [pages], name,
                              fixity=()).make())
    return objects
