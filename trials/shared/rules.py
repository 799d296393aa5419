"""What docs/RULES.md says."""
import re

from common import TOP
from shared.nights import read


def codes_of_rules():
    """The codes of the table in docs/RULES.md."""
    table = read(TOP + "/docs/RULES.md").split("\n## Codes\n")[1].split("\n## ")[0]
    rows = [row.split("|")[1] for row in table.splitlines() if row.startswith("|")]
    return {code for row in rows for code in re.findall(r"\bok\b|[ES]\d+", row)}
