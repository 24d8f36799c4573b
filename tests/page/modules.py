#!/usr/bin/python3
"""Prints what is wrong with the modules of the page, in a folder: modules.py PAGE

Each begins by saying what it is for, has its imports and its export in the form that smap-page links, takes what another gives,
and gives nothing that none takes. All are reached from main.js, and none imports itself by way of others.
"""

import re
import sys
from pathlib import Path
from typing import Dict, List, Set

FORM = re.compile(r"// .*\n(?:import \{[^}]*\} from '\./[a-z]+\.js';\n)*(?:export \{[^}]*\};\n)?\n")
IMPORT = re.compile(r"^import \{([^}]*)\} from '\./([a-z]+)\.js';$", re.MULTILINE)
EXPORT = re.compile(r"^export \{([^}]*)\};$", re.MULTILINE)
WORD = re.compile(r"\w+")


def main() -> None:
    texts = {path.stem: path.read_text() for path in sorted(Path(sys.argv[1]).glob("*.js"))}
    given = {name: {word for names in EXPORT.findall(text) for word in WORD.findall(names)} for name, text in texts.items()}
    taken: Dict[str, Set[str]] = {name: set() for name in texts}
    for name, text in texts.items():
        head = FORM.match(text)
        if not head or re.search(r"^(import|export)\b", text[head.end():], re.MULTILINE):
            print(f"{name}.js does not begin with what it is for, its imports and its export")
        for names, other in IMPORT.findall(text):
            for word in WORD.findall(names):
                if word not in given.get(other, set()):
                    print(f"{name}.js takes {word} from {other}.js, which does not give it")
                if head and not re.search(rf"\b{word}\b", text[head.end():]):
                    print(f"{name}.js takes {word} for nothing")
            taken.setdefault(other, set()).update(WORD.findall(names))
    for name in texts:
        if given[name] - taken[name]:
            print(f"{name}.js gives for nothing {sorted(given[name] - taken[name])}")
    done: List[str] = []

    def visit(name: str, above: List[str]) -> None:
        if name in above:
            print(f"a round of modules: {[*above, name]}")
        elif name not in done and name in texts:
            for _, other in IMPORT.findall(texts[name]):
                visit(other, [*above, name])
            done.append(name)

    visit("main", [])
    for name in sorted(set(texts) - set(done)):
        print(f"{name}.js is not reached from main.js")


if __name__ == "__main__":
    main()
