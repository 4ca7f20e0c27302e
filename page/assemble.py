#!/usr/bin/env python3
"""Joins the modules of this folder into template.html: one file with places for TITLE and DATA.

    page/assemble.py            writes page/template.html
    page/assemble.py --check    says whether page/template.html is that of the modules, and the modules keep the rules

The template's policy forbids all but its own script and style, by their hashes. The modules of script/ are joined in the
order of their imports, without the words `import` and `export`, so no two of them may use one name for two things.
Rules: no function over 40 lines, no line over 160 columns, no word that makes markup or code out of a text.
"""
import base64
import glob
import hashlib
import os
import re
import sys

HERE = os.path.dirname(os.path.abspath(__file__))
STYLES = ["colours", "base", "verdict", "source", "timeline", "state", "transport", "print"]
MOST_LINES, MOST_COLUMNS = 40, 160
FORBIDDEN = ["innerHTML", "outerHTML", "insertAdjacentHTML", "document.write", "eval(", "new Function", "createContextualFragment",
             "DOMParser", "srcdoc", "javascript:", "import(", "fetch(", "XMLHttpRequest", "WebSocket", "http://", "https://"]
ALLOWED = ["http://www.w3.org/2000/svg"]          # the name of a namespace, which nothing loads
IMPORT = re.compile(r'^import \{([^}]*)\} from "\./(\w+)\.js";\n', re.M)
TOP = re.compile(r"^(?:export )?(?:const|let|function) (\w+)", re.M)


def read(*path):
    with open(os.path.join(HERE, *path), encoding="utf-8") as f:
        return f.read()


def modules():
    """Returns the text of each module by its name."""
    names = sorted(os.path.basename(p)[:-3] for p in glob.glob(os.path.join(HERE, "script", "*.js")))
    return {n: read("script", n + ".js") for n in names}


def top_names(text):
    """Returns the names that a module declares, in `const A = 1, B = 2` too."""
    names = set(TOP.findall(text))
    for line in re.findall(r"^(?:export )?(?:const|let) (\w+ = [^;]*);", text, re.M):
        names.update(re.findall(r"(?:^|, )(\w+) = ", line))
    return names


def exported(text):
    lines = "\n".join(re.findall(r"^export (?:const|let|function) [^\n]*", text, re.M))
    return top_names(lines)


def in_order(texts):
    """Returns the modules' names, each after those that it imports."""
    done, path = [], []

    def visit(name):
        if name in done:
            return
        if name in path:
            raise SystemExit("page: modules import each other: " + " ".join(path + [name]))
        path.append(name)
        for _, source in IMPORT.findall(texts[name]):
            visit(source)
        path.pop()
        done.append(name)

    for name in texts:
        visit(name)
    return done


def faults(texts):
    """Returns a sentence for each rule that a module breaks."""
    out, owner = [], {}
    for name, text in texts.items():
        lines, began = text.split("\n"), None
        for number, line in enumerate(lines, 1):
            if len(line) > MOST_COLUMNS:
                out.append("%s.js:%d has %d columns" % (name, number, len(line)))
            if re.match(r"^(export )?(function \w+|const \w+ = .*=> \{$)", line):
                began = number
            elif re.match(r"^\}", line) and began:
                if number - began + 1 > MOST_LINES:
                    out.append("%s.js:%d is a function of %d lines" % (name, began, number - began + 1))
                began = None
        for word in FORBIDDEN:
            plain = text
            for allowed in ALLOWED:
                plain = plain.replace(allowed, "")
            if word in plain:
                out.append("%s.js has %s" % (name, word))
        for n in top_names(text):
            if n in owner:
                out.append("%s.js and %s.js both declare %s" % (owner[n], name, n))
            owner[n] = name
        body = IMPORT.sub("", text).replace("...", " ")
        for wanted, source in IMPORT.findall(text):
            for n in (w.strip() for w in wanted.split(",")):
                if source not in texts or n not in exported(texts[source]):
                    out.append("%s.js imports %s, which %s.js doesn't export" % (name, n, source))
                if not re.search(r"(?<![\w.$])%s(?![\w$])" % re.escape(n), body):
                    out.append("%s.js imports %s, and doesn't use it" % (name, n))
        out += ["%s.js uses %s, and doesn't import it" % (name, n) for n in missing(name, text, texts)]
    return out


def missing(name, text, texts):
    """Returns the exported names of other modules that a module uses without an import of its own."""
    body = re.sub(r"//[^\n]*|\"(?:[^\"\\]|\\.)*\"", "", IMPORT.sub("", text)).replace("...", " ")
    known = {w.strip() for wanted, _ in IMPORT.findall(text) for w in wanted.split(",")} | top_names(text)
    out = []
    for other, source in texts.items():
        for n in sorted(exported(source) - known) if other != name else []:
            if re.search(r"(?<![\w.$])%s\(" % re.escape(n), body):
                out.append(n)
    return out


def script(texts):
    """Returns the script: the modules inside of one function, so that the page has no names of its own."""
    body = []
    for name in in_order(texts):
        text = re.sub(r"^export ", "", IMPORT.sub("", texts[name]), flags=re.M)
        body.append("// script/%s.js\n%s" % (name, re.sub(r"\n{3,}", "\n\n", text).strip()))
    return "\n\"use strict\";\n(() => {\n\n" + "\n\n".join(body) + "\n\n})();\n"


def style():
    return "\n" + "".join("/* style/%s.css */\n%s" % (n, read("style", n + ".css")) for n in STYLES)


def digest(text):
    return "sha256-" + base64.b64encode(hashlib.sha256(text.encode("utf-8")).digest()).decode()


def template(texts):
    parts = {"STYLE": style(), "SCRIPT": script(texts)}
    for name, text in list(parts.items()):
        if "</" in text or "<!--" in text:
            raise SystemExit("page: the %s has </ or <!--" % name.lower())
        parts[name + "_HASH"] = digest(text)
    out = re.sub(r"%(\w+)%", lambda m: parts[m.group(1)], read("page.html"))
    for place in ("@TITLE@", "@DATA@"):
        if out.count(place) != 1:
            raise SystemExit("page: %s is there %d times" % (place, out.count(place)))
    return out


def main():
    texts = modules()
    wrong = faults(texts)
    text = template(texts)
    path = os.path.join(HERE, "template.html")
    if sys.argv[1:] == ["--check"]:
        if not os.path.exists(path) or read("template.html") != text:
            wrong.append("template.html isn't that of the modules: call page/assemble.py")
    elif sys.argv[1:]:
        raise SystemExit("Usage: page/assemble.py [--check]")
    else:
        with open(path, "w", encoding="utf-8") as f:
            f.write(text)
    for w in wrong:
        print("page: " + w, file=sys.stderr)
    sys.exit(1 if wrong else 0)


if __name__ == "__main__":
    main()
