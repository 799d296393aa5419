"""What the pages show: commands, each with its output where the page shows one."""
import re

# A block between fences, an indented one, or a table.
PART = re.compile(r"^```\w*\n(?P<fenced>(?:.*\n)*?)```$"
                  r"|(?P<indented>(?:^    .*\n(?:\n+(?=    ))?)+)"
                  r"|(?P<table>(?:^\|.*\|\n)+)", re.MULTILINE)
# A command of several lines has its further lines indented.
COMMAND = re.compile(r"^\S.*\n(?:[ ]+.*\n)*", re.MULTILINE)
# A command after `$ `, and what it prints, up to the next one.
SHOWN = re.compile(r"^\$ (.*\n(?:[ ]+.*\n)*)((?:(?!\$ ).*\n)*)", re.MULTILINE)
# The times and the user of a line for cron.
CRON = re.compile(r"(?:[0-9*/,-]+ ){5}\S+ (?=/|cd /)")


def blocks_of_markdown(text):
    """The blocks of a page, in its order; a command in a table is a block."""
    blocks = []
    for part in PART.finditer(text):
        if part["table"]:
            blocks += commands_of_table(part["table"])
        else:
            block = part["fenced"] or re.sub(r"^    ", "", part["indented"], flags=re.MULTILINE)
            blocks.append(block)
    return blocks


def commands_of_table(table):
    """What the column `command` has in the rows of a table."""
    rows = [[cell.strip() for cell in row.strip("|").split(" | ")] for row in table.splitlines()]
    if "command" not in rows[0]:
        return []
    column = rows[0].index("command")
    return [row[column].strip("`") + "\n" for row in rows[2:]]


def blocks_of_manual(text):
    """The examples of a manual page."""
    examples = text.split("\n.SH EXAMPLES\n")[1].split("\n.SH ")[0]
    found = re.findall(r"^\.EX\n((?:.*\n)*?)\.EE$", examples, re.MULTILINE)
    return [block.replace("\\-", "-").replace("\\e", "\\").replace("\\&", "") for block in found]


def commands_of(block):
    """The commands of a block, each with what the page says that it prints, or None."""
    if block.startswith("$ "):
        return SHOWN.findall(block)
    return [(CRON.sub("", command), None) for command in COMMAND.findall(block)]
