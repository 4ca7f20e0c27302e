#!/usr/bin/env python3
"""Makes the manual page docs/jvmx.1 and the completion of bash docs/jvmx.bash from the texts of `jvmx help`.

    bench/manual.py          prints which of the two differs from the texts, and ends with 1 if one does. The gate runs it
    bench/manual.py --write  writes both
"""
import re
import sys
from pathlib import Path

sys.dont_write_bytecode = True
sys.path.insert(0, str(Path(__file__).resolve().parent))
from refusals import ROOT, unescaped  # noqa: E402

HELP = ROOT / "crates" / "command_line" / "src" / "help.rt"
# A text of help: its name in the source, and the string.
TEXT = re.compile(r'pub const (?:(\w+)_)?HELP: &str = "((?:[^"\\]|\\.)*)";', re.S)
OPTION = re.compile(r"(?<![-\w])--[a-z]+")

PAGE = r""".\" Made by bench/manual.py from the texts of jvmx help.
.TH JVMX 1 "" "jvmx" "User Commands"
.SH NAME
jvmx \- runs Java class files turn by turn, and reports whether methods were atomic
"""

COMPLETION = """# Completion of jvmx for bash. Made by bench/manual.py from the texts of jvmx help.
#
#     source docs/jvmx.bash

_jvmx() {
    local word=${COMP_WORDS[COMP_CWORD]} words
    if ((COMP_CWORD == 1)); then
        words='COMMANDS help --help --version'
    else
        case ${COMP_WORDS[1]} in
CASES        esac
        [[ $word == -* || ${COMP_WORDS[1]} == help ]] || words=
    fi
    mapfile -t COMPREPLY < <(compgen -W "$words" -- "$word")
    ((COMP_CWORD > 1)) && [[ $word != -* && ${COMP_WORDS[1]} != help ]] &&
        mapfile -t -O "${#COMPREPLY[@]}" COMPREPLY < <(compgen -f -- "$word")
}
complete -o filenames -F _jvmx jvmx
"""


def help_texts(source):
    """Returns the text of each command's help by its name, and the text of all commands under the name ''."""
    return {(name or "").lower(): unescaped(literal) for name, literal in TEXT.findall(source)}


def usage_of(text):
    """Returns the words after `Usage:`, which may take several lines."""
    return re.search(r"^Usage: (.*(?:\n +.*)*)", text, re.M)[1]


def options_of(text):
    """Returns the options of a command in the order of its usage."""
    return list(dict.fromkeys(OPTION.findall(usage_of(text)))) + ["--help"]


def roff_of(text):
    """Returns a text as it stands, for a manual page."""
    lines = text.replace("\\", r"\e").replace("-", r"\-").splitlines()
    return "\n".join(rf"\&{line}" if line[:1] in (".", "'") else line for line in lines)


def page_of(texts):
    """Returns the manual page: a section for each text."""
    heads = {name: f"JVMX {name.upper()}" if name else "DESCRIPTION" for name in texts}
    sections = [f'.SH "{heads[name]}"\n.nf\n{roff_of(text)}\n.fi\n' for name, text in texts.items()]
    return PAGE + "".join(sections)


def completion_of(texts):
    """Returns the script: the names of the commands first, and then a command's options and files."""
    commands = [name for name in texts if name]
    cases = [f"            {name}) words='{' '.join(options_of(texts[name]))}' ;;\n" for name in commands]
    cases.append(f"            help) words='{' '.join(commands)}' ;;\n")
    return COMPLETION.replace("COMMANDS", " ".join(commands), 1).replace("CASES", "".join(cases))


def main():
    """Compares or writes both files."""
    texts = help_texts(HELP.read_text())
    made = {ROOT / "docs" / "jvmx.1": page_of(texts), ROOT / "docs" / "jvmx.bash": completion_of(texts)}
    if sys.argv[1:] == ["--write"]:
        for file, text in made.items():
            file.write_text(text)
        return 0
    stale = [file for file, text in made.items() if not file.is_file() or file.read_text() != text]
    for file in stale:
        print(f"{file.relative_to(ROOT)} isn't that of the texts of help: bench/manual.py --write makes it")
    return int(bool(stale))


if __name__ == "__main__":
    sys.exit(main())
