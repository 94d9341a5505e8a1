"""Man pages and completions for bash, made from what the programs say with --help, and from docs/PROTOCOL.md.

Nothing of a page is written here but its frame: a page of another program says what that program says.
"""
import functools
import os
import re
import subprocess
import sys
from dataclasses import dataclass, field
from pathlib import Path

ROOT = Path(__file__).resolve().parent.parent
REQUIREMENTS = "Linux on x86-64 with glibc 2.34 or later, and a processor with SSE4.2 and POPCNT (x86-64-v2)."
OPTION = re.compile(r"^ {2,8}(-\S.*?)(?: {2,}(\S.*))?$")
COMMAND = re.compile(r"^ {2,4}([a-z][\w-]*)(?: {2,}(\S.*))?$")
USAGE = re.compile(r"^usage: ?", re.IGNORECASE)


@dataclass
class Option:
    """An option: how it is written, what stands behind it, and what help says of it."""

    names: list[str]
    value: str = ""
    text: str = ""

    @property
    def choices(self) -> list[str]:
        """The words that may stand behind it, where only some may."""
        return self.value[1:-1].split(",") if self.value.startswith("{") else []


@dataclass
class Help:
    """What a program, or one of its commands, says with --help."""

    name: str
    about: str = ""
    usage: str = ""
    groups: dict[str, list[Option]] = field(default_factory=dict)
    commands: dict[str, str] = field(default_factory=dict)
    tail: str = ""

    def options(self) -> list[Option]:
        return [one for group in self.groups.values() for one in group]


def option_of(words: str, text: str) -> Option:
    """An option, of the words with which help begins its line."""
    parts = [it.split(None, 1) for it in words.split(", -")]
    names = [it[0] if at == 0 else f"-{it[0]}" for at, it in enumerate(parts)]
    return Option(names, parts[-1][1].strip("<>") if len(parts[-1]) > 1 else "", text)


def blocks_of(text: str) -> list[str]:
    return [it for it in re.split(r"\n[ \t]*\n", text.strip("\n")) if it.strip()]


def read_help(name: str, text: str) -> Help:
    """What help says, by its parts: lines of options and commands stand under a heading with a colon."""
    found = Help(name)
    rest: list[str] = []
    for block in blocks_of(text):
        head, *lines = block.split("\n")
        if USAGE.match(head):
            found.usage = " ".join(USAGE.sub("", block).split())
        elif head.endswith(":") and lines and all(it.startswith("  ") for it in lines):
            take(found, head[:-1], lines, rest, block)
        elif not found.about and not rest:
            found.about = " ".join(block.split())
        else:
            rest.append(block)
    found.tail = "\n\n".join(rest)
    return found


def take(found: Help, title: str, lines: list[str], rest: list[str], block: str) -> None:
    """Takes the lines under a heading as options or commands, or the whole as it stands."""
    last: Option | None = None
    command = ""
    if title.lower() in ("commands", "positional arguments"):
        for line in lines:
            match = COMMAND.match(line)
            command = match[1] if match else command
            more = (match[2] or "") if match else line.strip()
            if command:
                found.commands[command] = f"{found.commands.get(command, '')} {more}".strip()
    elif OPTION.match(lines[0]):
        for line in lines:
            match = OPTION.match(line)
            if match:
                last = option_of(match[1], match[2] or "")
                found.groups.setdefault(title, []).append(last)
            elif last:
                last.text = f"{last.text} {line.strip()}".strip()
    else:
        rest.append(block)


def said(words: list[str], executable: str, around: dict[str, str]) -> str:
    ran = subprocess.run(words, executable=executable, env=around, capture_output=True, text=True, check=False)
    if ran.returncode:
        sys.exit(f"{' '.join(words)} ends with status {ran.returncode}: {ran.stderr}")
    return ran.stdout


def helps(words: list[str], executable: str, around: dict[str, str]) -> list[Help]:
    """What a program says of itself, and of each of its commands."""
    name = Path(words[0]).name if len(words) == 1 else "morph"
    main = read_help(name, said([*words, "--help"], executable, around))
    main.commands.pop("help", None)
    return [main, *(read_help(it, said([*words, it, "--help"], executable, around)) for it in main.commands)]


@functools.cache
def helps_of_morphd(program: Path) -> list[Help]:
    return helps(["morphd"], str(program), dict(os.environ))


@functools.cache
def helps_of_morph() -> list[Help]:
    """The shell of the Python package needs no library for its help."""
    around = dict(os.environ, PYTHONPATH=str(ROOT / "python"), COLUMNS="1000", PYTHONDONTWRITEBYTECODE="1")
    return helps([sys.executable, "-m", "morphd"], sys.executable, around)


# ---- the language of man pages


def escaped(text: str) -> str:
    """Text as troff has to read it: no line of it a request, and no hyphen turned into another sign."""
    text = text.replace("\\", "\\(rs").replace("-", "\\-").replace("'", "\\(aq").replace("`", "\\(ga").replace("^", "\\(ha")
    text = text.replace("~", "\\(ti")
    return "\n".join("\\&" + line if line.startswith(".") else line for line in text.split("\n"))


def inline(text: str) -> str:
    """A line of a document: links lose their targets, code and what is strong become bold."""
    text = re.sub(r"\[([^\]]+)\]\([^)]+\)", r"\1", text.replace("\\|", "|"))
    parts = re.split(r"(`[^`]+`|\*\*.+?\*\*)", text)
    return "".join(f"\\fB{escaped(it.strip('`*'))}\\fR" if it[:1] in ("`", "*") and len(it) > 2 else escaped(it) for it in parts)


def verbatim(text: str) -> str:
    return f".PP\n.RS 4\n.nf\n{escaped(text)}\n.fi\n.RE\n"


def table(lines: list[str]) -> str:
    """A row becomes a paragraph, with its first cell before it."""
    rows = [[it.strip() for it in re.split(r"(?<!\\)\|", line.strip()[1:-1])] for line in lines]
    head, made = rows[0], ""
    for row in rows[2:]:
        first = 2 if row[0].isdigit() and len(row) > 2 else 1
        made += f".TP\n\\fB{inline(' '.join(row[:first]))}\\fR\n{inline(row[first])}\n"
        for name, cell in zip(head[first + 1:], row[first + 1:]):
            made += f".br\n{inline(f'{name}: {cell}')}\n"
    return made


def sections(document: str) -> str:
    """The sections of a document in Markdown."""
    made = ""
    for block in re.split(r"(^```.*?^```$|^(?:\|[^\n]*\n)+)", document, flags=re.MULTILINE | re.DOTALL):
        if block.startswith("```"):
            made += verbatim(block.split("\n", 1)[1].rpartition("\n```")[0])
        elif block.startswith("|"):
            made += table(block.strip().split("\n"))
        else:
            for part in blocks_of(block):
                made += f'.SH "{part[3:].upper()}"\n' if part.startswith("## ") else f".PP\n{inline(part)}\n"
    return made


def page_head(name: str, version: str, day: str, about: str) -> str:
    about = about.rstrip(".")
    return (f'.TH {name.upper()} 1 "{day}" "morphd {version}" "User Commands"\n.nh\n.ad l\n.SH NAME\n'
            f"{name} \\- {escaped(about[0].lower() + about[1:])}\n")


def option_lines(options: list[Option]) -> str:
    made = ""
    for one in options:
        behind = f" \\fI{escaped(one.value)}\\fR" if one.value else ""
        made += ".TP\n" + ", ".join(f"\\fB{escaped(it)}\\fR" for it in one.names) + f"{behind}\n{escaped(one.text)}\n"
    return made


def synopsis(all_helps: list[Help], name: str) -> str:
    made = ".SH SYNOPSIS\n"
    for one in all_helps[1:] or all_helps:
        made += f".br\n\\fB{name}\\fR{escaped(one.usage.removeprefix(name))}\n"
    return made


def commands(all_helps: list[Help], shared: list[str]) -> str:
    """Each command with its options, but for those that stand in a section of their own."""
    made = ".SH COMMANDS\n"
    for one in all_helps[1:]:
        made += f'.SS "{escaped(one.name)}"\n{escaped(one.about)}\n'
        made += option_lines([it for it in one.options() if it.names[-1] not in shared])
    return made


def shared_options(all_helps: list[Help]) -> dict[str, Option]:
    """The options that most commands have, with the same words."""
    seen: dict[tuple[str, str], int] = {}
    for one in all_helps[1:]:
        for it in one.options():
            seen[it.names[-1], it.text] = seen.get((it.names[-1], it.text), 0) + 1
    found = {it.names[-1]: it for one in all_helps[1:] for it in one.options()}
    alike = {name for name, _ in seen if sum(other == name for other, _ in seen) == 1}
    return {name: it for name, it in found.items() if name in alike and seen[name, it.text] > 3}


def morphd_page(program: Path, version: str, day: str) -> str:
    """morphd(1): the command line, then the protocol."""
    all_helps = helps_of_morphd(program)
    protocol = (ROOT / "docs/PROTOCOL.md").read_text(encoding="utf-8")
    # Of what stands before the first section, who reads a page has no use for where the definitions are.
    body = sections(protocol.partition("\n## ")[0].partition("\n\n")[2].partition(" Everything here is defined in ")[0] + "\n")
    return "".join((
        page_head("morphd", version, day, all_helps[0].about), synopsis(all_helps, "morphd"), ".SH DESCRIPTION\n",
        body.removeprefix(".PP\n"), commands(all_helps, []), ".SH OPTIONS\n", option_lines(all_helps[0].options()),
        sections("## " + protocol.partition("\n## ")[2]), ".SH REQUIREMENTS\n", escaped(REQUIREMENTS), "\n",
        '.SH "SEE ALSO"\n\\fBmorph\\fR(1), \\fBpbm\\fR(5), \\fBpgm\\fR(5)\n'))


def morph_page(version: str, day: str) -> str:
    """morph(1): the shell of the Python package."""
    all_helps = helps_of_morph()
    main, shared = all_helps[0], shared_options(all_helps)
    name = "\\fBmorph\\fR \\fIOPERATION\\fR"
    usage = f".SH SYNOPSIS\n{name} [\\fIOPTION\\fR].. \\fIFILE\\fR..\n.br\n{name} \\-\\-help\n"
    made = page_head("morph", version, day, main.about) + usage + ".SH DESCRIPTION\n"
    made += escaped(f"{main.about} The operations are:") + "\n"
    made += "".join(f".TP\n\\fB{escaped(name)}\\fR\n{escaped(text)}\n" for name, text in main.commands.items())
    made += ".SH OPTIONS\n" + option_lines(list(shared.values()))
    made += option_lines([it for it in main.options() if it.names[-1] not in shared])
    made += ".SH OPERATIONS\n"
    for one in all_helps[1:]:
        own = [it for it in one.options() if it.names[-1] not in shared]
        others = [it.names[-1] for it in one.options() if it.names[-1] in shared]
        made += f'.SS "{escaped(one.name)}"\n{escaped(one.about)}\n{option_lines(own)}.PP\n'
        made += f"Other options: {', '.join(f'{chr(92)}fB{escaped(it)}{chr(92)}fR' for it in others)}\n"
    for block in blocks_of(main.tail):
        head, _, rest = block.partition(":\n")
        made += f".SH {escaped(head.upper())}\n{verbatim(rest)}" if rest else f".SH NOTES\n{escaped(block)}\n"
    made += ".SH ENVIRONMENT\n.TP\n\\fBMORPHD_LIBRARY\\fR\nthe path of another libmorphd.so.1 than the one that is found\n"
    made += ".TP\n\\fBMORPHD_CPU\\fR\nv2 takes the library's build for x86-64-v2 where it would take that for x86-64-v3\n"
    return made + f'.SH REQUIREMENTS\n{escaped(REQUIREMENTS)}\n.SH "SEE ALSO"\n\\fBmorphd\\fR(1)\n'


# ---- completions

COMPLETION = """\
# Completes the words of %(name)s in bash, and is made from its help.
_%(name)s() {
    local current=${COMP_WORDS[COMP_CWORD]} before=${COMP_WORDS[COMP_CWORD-1]} command= words= word
    for word in "${COMP_WORDS[@]:1:COMP_CWORD-1}"; do
        case $word in %(commands)s) command=$word; break ;; esac
    done
    COMPREPLY=()
    case $command:$before in
%(values)s    esac
    case $command in
%(options)s    esac
    if [[ %(when)s ]]; then
        COMPREPLY=($(compgen -W "$words" -- "$current"))
    fi
}
complete%(files)s -F _%(name)s %(name)s
"""


def completion(name: str, all_helps: list[Help], takes_files: bool) -> str:
    """What bash reads to complete a program's words; other words are files, where the program takes any."""
    main = all_helps[0]
    own = " ".join([*main.commands, *(it for one in main.options() for it in one.names)])
    options, values = f'        "") words="{own}" ;;\n', ""
    for one in all_helps[1:]:
        options += f'        {one.name}) words="{" ".join(it for each in one.options() for it in each.names)}" ;;\n'
        for each in one.options():
            if not each.value or (each.value in ("FILE", "FOLDER") and takes_files):
                continue
            patterns = "|".join(f"{one.name}:{it}" for it in each.names)
            does = f'COMPREPLY=($(compgen -W "{" ".join(each.choices)}" -- "$current")); ' if each.choices else ""
            values += f"        {patterns}) {does}return ;;\n"
    return COMPLETION % {"name": name, "commands": "|".join(main.commands), "values": values, "options": options,
                         "when": "$current == -* || -z $command" if takes_files else "-n $words",
                         "files": " -o bashdefault -o default" * takes_files}
