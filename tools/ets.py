"""What `tools/from-ets` and `tools/to-ets` share: the forms of ETS' export of group addresses, and how its titles become names of a project.

A title of ETS is any text, and a name of a project has at most 32 signs of few kinds. Where they differ, the title stands behind the name as the
line's comment, and a group range's title is a comment of its own line; `tools/to-ets` takes both back.
"""
import re
import unicodedata

from texts import NAME, NOT_TEXT, group_text

# The forms of a CSV file, as ETS names them: how many columns have the titles, and how many the address.
FORMS = {"1/1": (1, 1), "1/3": (1, 3), "3/1": (3, 1), "3/3": (3, 3)}
SEPARATORS = {"tab": "\t", "comma": ",", "semicolon": ";"}

# The columns behind titles and address.
REST = ["Central", "Unfiltered", "Description", "DatapointType", "Security"]

NAMESPACE = "http://knx.org/xml/ga-export/01"

# Letters that stay more than one letter without their accent.
LETTERS = str.maketrans({"ä": "ae", "ö": "oe", "ü": "ue", "Ä": "Ae", "Ö": "Oe", "Ü": "Ue", "ß": "ss", "æ": "ae", "Æ": "Ae", "ø": "o", "Ø": "O", "ł": "l", "Ł": "L", "đ": "d", "Đ": "D"})

# A comment that is a group range: its address and its title.
RANGE = re.compile(r"(\d{1,2})/(?:-|([0-7]))/- (.+)", re.ASCII)


def range_text(main, middle):
    return f"{main}/{'-' if middle is None else middle}/-"


def range_title(main, middle):
    """The title of a group range that has none of its own."""
    return f"{main}" if middle is None else f"{main}/{middle}"


def range_of(comment):
    """The main and middle group and the title that a comment names, or None."""
    match = RANGE.fullmatch(comment)
    if not match or int(match[1]) > 31:
        return None
    return int(match[1]), None if match[2] is None else int(match[2]), match[3]


def plain(title):
    """A title as a comment may hold it: without signs that no text has, and without blanks at its ends."""
    return NOT_TEXT.sub(" ", title).strip()


def name_for(title, group):
    """The name that a group with this title gets: itself where it is a name, else without accents and with `-` for each run of other signs."""
    if NAME.fullmatch(title):
        return title
    letters = unicodedata.normalize("NFKD", unicodedata.normalize("NFC", title).translate(LETTERS))
    letters = "".join(sign for sign in letters if not unicodedata.combining(sign))
    return re.sub(r"[^A-Za-z0-9_.]+", "-", letters).strip("-")[:32].rstrip("-") or group_text(group).replace("/", "-")


def title_of(name, comment, group):
    """The title of a group: what stands behind its name, where that has this name."""
    return comment if comment and name_for(comment, group) == name else name
