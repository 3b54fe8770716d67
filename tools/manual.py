"""The man page and the completions of bash, made of README.md, docs/guide.md and docs/formats.md, for `tools/package`."""
import pathlib
import re
import textwrap

ROOT = pathlib.Path(__file__).resolve().parent.parent

# The sections of the guide that stand in the man page, with their titles there.
SECTIONS = {"Options and jobs": "OPTIONS AND JOBS", "Commissioning a real line": "COMMISSIONING A REAL LINE", "What to do after each status": "EXIT STATUS"}

FILES = [
    ("/usr/share/doc/knx/guide.md", "the guide, from an empty file to a line that is loaded"),
    ("/usr/share/doc/knx/formats.md", "the texts, the frames, the refusals and the statuses"),
    ("/usr/share/doc/knx/built", "the commit, the toolchain and the checksum of the program"),
    ("/usr/share/doc/knx/examples", "projects, a catalogue and scripts"),
    ("/usr/share/knx/tools", "scripts beside the program: from ETS and to it, to Home Assistant, what changed, which gateways there are, what devices tell and hold, a run as a page"),
]

COMMAND = re.compile(r"^\| `(knx (\w+)([^`]*))` \| (.*) \|$", re.MULTILINE)
FENCE = re.compile(r" *```")
BULLET = r"\(bu"
ITEM = re.compile(r"( *)(-|\d+\.) +(.*)")


def read(name):
    return (ROOT / name).read_text(encoding="utf-8")


def commands():
    """Each command of docs/formats.md: its words, its name, the words behind that, and what it does."""
    return COMMAND.findall(read("docs/formats.md").split("\n## ")[1])


def section(name):
    return re.search(rf"^## {re.escape(name)}\n(.*?)(?=^## |\Z)", read("docs/guide.md"), re.MULTILINE | re.DOTALL)[1]


def plain(text):
    """Text without what roff would take for a request."""
    return text.replace("\\", "\\e").replace("-", "\\-").replace("'", "\\(aq").replace("`", "\\(ga").replace("./knx", "knx")


def inline(text):
    """A line of a page: what is code or bold there is bold, and of a link its text stays."""
    text = re.sub(r"\[([^\]]+)\]\([^)]+\)", r"\1", text)
    parts = re.split(r"`([^`]+)`|\*\*([^*]+)\*\*", text)
    told = "".join(plain(part) if place % 3 == 0 else f"\\fB{plain(part)}\\fR" for place, part in enumerate(parts) if part)
    return f"\\&{told}" if told.startswith(".") else told


def cells(line):
    return [cell.strip() for cell in line.strip().strip("|").split(" | ")]


def table(lines):
    """Each row as a paragraph: the first cell, then a line for each of the others, with its head where there are several."""
    heads, rows = cells(lines[0]), [cells(line) for line in lines[2:]]
    for first, *others in rows:
        if len(heads) > 2:
            others = [f"{head}: {cell}" for head, cell in zip(heads[1:], others) if cell]
        yield from [".TP 7", inline(first) or "\\&"]
        for place, other in enumerate(others):
            yield from [".br"] * (place > 0) + [inline(other)]


def code(lines):
    return [".IP", ".nf", *(f"\\&{plain(line)}" for line in textwrap.dedent("\n".join(lines)).split("\n")), ".fi"]


def page(text):
    """The lines of a page as roff."""
    lines, told = text.split("\n"), []
    while lines:
        line = lines.pop(0)
        if FENCE.match(line):
            end = next(place for place, other in enumerate(lines) if FENCE.match(other))
            told += code(lines[:end])
            del lines[: end + 1]
        elif line.lstrip().startswith("|"):
            rows = [line]
            while lines and lines[0].lstrip().startswith("|"):
                rows.append(lines.pop(0))
            told += table(rows)
        elif line.startswith("### "):
            told.append(f'.SS "{plain(line[4:])}"')
        elif match := ITEM.fullmatch(line):
            told += [f".IP {match[2].replace('-', BULLET)} 4", inline(with_rest(match[3], lines))]
        elif line.strip():
            told += [".PP", inline(with_rest(line.lstrip("> "), lines))]
    return told


def with_rest(line, lines):
    """A line with those that belong to its paragraph, which are taken from the others."""
    while lines and lines[0].strip() and not (FENCE.match(lines[0]) or ITEM.fullmatch(lines[0]) or lines[0].lstrip().startswith("|")):
        line = f"{line} {lines.pop(0).strip().lstrip('> ')}"
    return line


def man_page(version, date):
    beginning = re.search(r"^# knx\n(.*?)^## ", read("README.md"), re.MULTILINE | re.DOTALL)[1]
    told = [f'.TH KNX 1 "{date}" "knx {plain(version)}" "User Commands"', ".SH NAME", "knx \\- compile a KNX project and load it into devices", ".SH SYNOPSIS"]
    for place, (words, *_) in enumerate(commands()):
        told += [".br"] * (place > 0) + [f"\\fB{plain(words)}\\fR"]
    told += [".SH DESCRIPTION", *page(beginning), ".SH COMMANDS"]
    for words, _, _, what in commands():
        told += [".TP", f"\\fB{plain(words)}\\fR", inline(what)]
    for name, title in SECTIONS.items():
        told += [f".SH {title}", *page(section(name))]
    told.append(".SH FILES")
    for name, what in FILES:
        told += [".TP", f"\\fB{plain(name)}\\fR", inline(what)]
    return "".join(f"{line}\n" for line in told)


COMPLETION = """# Completions of bash for knx.
_knx() {{
    local cur words cword places options jobs
    _get_comp_words_by_ref -n =: cur words cword
    if [ "$cword" -eq 1 ]; then
        COMPREPLY=($(compgen -W "{names}" -- "$cur"))
        return
    fi
    # the places behind the command: f a file, n the file of the new project, - another word
    case ${{words[1]}} in
{cases}
        *) return ;;
    esac
    local place=$((cword - 2)) new=""
    [ "${{places%%n*}}" = "$places" ] || {{ new=${{places%%n*}} && new=${{words[$((${{#new}} + 2))]}}; }}
    if [ "$place" -lt "${{#places}}" ]; then
        [ "${{places:place:1}}" = - ] || _filedir
    elif [[ $cur == *catalogue=* ]]; then
        cur=${{cur#*=}}
        _filedir
    elif [[ $jobs && $cur == @(load|check):* && -r $new ]]; then
        local kind=${{cur%%:*}}
        COMPREPLY=($(compgen -W "$(sed -n "s/^[ \\t]*device[ \\t]\\+\\([0-9.]*\\).*/$kind:\\1/p" "$new")" -- "$cur"))
        __ltrim_colon_completions "$cur"
    else
        COMPREPLY=($(compgen -W "$options${{jobs:+ load: check:}}" -- "$cur"))
        [[ ${{COMPREPLY[0]}} == *[=:] ]] && compopt -o nospace
    fi
}} &&
    complete -F _knx knx
"""


def completion():
    cases = []
    for _, name, behind, _ in commands():
        words = behind.split()
        places = "".join("n" if word == "NEW" else "f" if word in ("P", "OLD", "SCRIPT") else "-" for word in words if word.isupper())
        options = " ".join(word.strip("[]").rstrip("FN") for word in words if not word.isupper() and word != "[jobs]")
        cases.append(f'        {name}) places={places} options="{options}" jobs={"yes" if "[jobs]" in words else ""} ;;')
    return COMPLETION.format(names=" ".join(name for _, name, _, _ in commands()), cases="\n".join(cases))
