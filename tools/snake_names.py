#!/usr/bin/env python3
"""Turns the project's own definitions, laws, fields and variables to snake case: firstChildOf becomes first_child_of.

usage: python3 tools/snake_names.py        at the top, once, after port.py

Reads crates/*/{src,specs,proofs} and crates/*/must-fail. A name that starts with a capital (a type, a module, a constant of the layout)
stays, and so does a capital after an underscore or a dash (a type within a name, as in `in_List`). Functions of src/ have snake case already.
Where two names would fall together in one scope, SPECIAL says what each is called. Prints what fell together across scopes.
"""

import os
import re
import sys

CAMEL = re.compile(r"(?<![\w'·])[a-z][\w']*")
# the names of rules/specs/Script beside those of call_steps/specs/Request
SPECIAL = {
    "Script·callOf": "script_call_of",
    "Script·answerOf": "script_answer_of",
    # beside the law goes_on of call_steps/proofs/Meeting
    "goesOn": "goes_on_with",
    # beside the field scratch_after of theorem_history/specs/History
    "scratchAfter": "scratch_after_call",
}
# laws that have the name of a definition that they are about
IN_FILES = {
    "crates/script_text/proofs/Scanning.antt": {"is_digit": "digit_is"},
    "crates/script_text/proofs/Steps.antt": {"is_digit": "digit_is"},
}


def snake(name):
    name = re.sub(r"(?<=[a-z0-9'])([A-Z])", lambda m: "_" + m.group(1).lower(), name)
    return name


def is_camel(name):
    return re.search(r"[a-z0-9][A-Z]", name) is not None


def turned(name):
    return re.sub(r"[A-Z]", lambda m: m.group(0).lower(), snake(name)) if not re.search(r"_[A-Z]", name) else snake(name)


def files():
    for folder, dirs, names in os.walk("crates"):
        dirs[:] = sorted(d for d in dirs if d != "out")
        for n in sorted(names):
            if n.endswith((".rt", ".antt", ".edit")):
                yield os.path.join(folder, n)


def main():
    seen, before = {}, set()
    for path in files():
        with open(path, encoding="utf-8") as f:
            text = f.read()
        own = IN_FILES.get(path, {})
        before.update(CAMEL.findall(text))

        def change(m):
            name = m.group(0)
            if name in own:
                return own[name]
            if name in SPECIAL:
                return SPECIAL[name]
            if is_camel(name):
                seen[name] = turned(name)
                return seen[name]
            return name

        new = re.sub(r"Script·(?:callOf|answerOf)(?![\w'])", lambda m: SPECIAL[m.group(0)], text)
        new = CAMEL.sub(change, new)
        if new != text:
            with open(path, "w", encoding="utf-8") as f:
                f.write(new)
    for name, to in sorted(seen.items()):
        if to in before:
            print(f"look: {name} and {to} are one name now")
    print(f"{len(seen)} names turned")


if __name__ == "__main__":
    sys.exit(main())
