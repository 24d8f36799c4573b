"""`remapping` of the library in Python beside that in node, over the chains of examples/ and what a loader says, and by hand:
remapping.py, where NODE_PATH has the package."""

import json
import subprocess
from pathlib import Path

from smap import LoaderContext, Refused, SourceMap, remapping

EXAMPLES = Path(__file__).resolve().parent.parent.parent / "examples"
reported = 0

# The same in node: a folder, the file of the outer map in it, and options.
NODE = """
const fs = require('node:fs'), path = require('node:path'), smap = require('smap');
const [folder, file, options] = process.argv.slice(1);
const load = (source) => (fs.existsSync(path.join(folder, source + '.map')) ? fs.readFileSync(path.join(folder, source + '.map'), 'utf8') : null);
console.log(String(smap.remapping(fs.readFileSync(path.join(folder, file), 'utf8'), load, JSON.parse(options))));
"""


def same(got, wanted):
    global reported
    assert got == wanted, f"{got!r:.400} in place of {wanted!r:.400}"
    reported += 1


def raised(error, call):
    global reported
    try:
        got = call()
    except error as raised:
        reported += 1
        return raised
    raise AssertionError(f"{got!r:.300} in place of {error.__name__}")


def beside(folder):
    def load(source, context):
        path = EXAMPLES / folder / f"{source}.map"
        return path if path.exists() else None
    return load


# Each map and its loader come to what they do in node.
for folder, file in (("chain/dist", "bundle.js.map"), ("chain/dist", "bundle.min.js.map"), (".", "preset-react.min.js.map"), (".", "receipt.min.js.map")):
    for exclude, decoded in ((False, False), (True, False), (False, True)):
        options = json.dumps({"excludeContent": exclude, "decodedMappings": decoded})
        theirs = subprocess.run(["node", "-e", NODE, str(EXAMPLES / folder), file, options], check=True, capture_output=True, text=True).stdout
        ours = remapping(EXAMPLES / folder / file, beside(folder), exclude_content=exclude, decoded_mappings=decoded)
        same(json.loads(str(ours)), json.loads(theirs))
        same(ours.sources_content is None, exclude)

# What a loader is told, and what it puts into its context.
OUTER = {"version": 3, "sources": ["lib/a.js", "lib/b.js", "lib/c.js", None], "sourcesContent": ["1", "2", "3", None], "names": [], "mappings": "AAAA,CCAA,CCAA,CCAA"}
INNER = {"version": 3, "sources": ["./a.ts"], "sourcesContent": ["4"], "names": [], "mappings": "AAAA"}
told = []


def load(source, context):
    assert isinstance(context, LoaderContext)
    told.append((source, context.importer, context.depth, context.source, context.content, context.ignore))
    if source == "lib/a.js":
        return json.dumps(INNER)
    if source == "lib/b.js":
        context.source, context.content, context.ignore = "b.ts", "5", True
    return None


made = remapping(json.dumps(OUTER), load)
same(told, [("lib/a.js", "", 1, "lib/a.js", None, None), ("lib/a.ts", "lib/a.js", 2, "lib/a.ts", None, None),
            ("lib/b.js", "", 1, "lib/b.js", None, None), ("lib/c.js", "", 1, "lib/c.js", None, None), ("", "", 1, "", None, None)])
same((made.version, made.file, made.names, made.ignore_list), (3, None, [], [made.sources.index("b.ts")]))
same(dict(zip(made.sources, made.sources_content)), {"b.ts": "5", "lib/a.ts": "4", "lib/c.js": "3", None: None})
read = SourceMap(str(made))
same([read.place(0, column).source for column in range(4)], ["lib/a.ts", "b.ts", "lib/c.js", None])

# A list: each map is of the only source of the one before it.
STEPS = [json.dumps({"version": 3, "sources": [f"{step}.js"], "names": [], "mappings": mappings}) for step, mappings in ((1, "AACA"), (2, ";AAEA"))]
asked = []
listed = remapping([*STEPS, SourceMap(json.dumps({**INNER, "mappings": ";;AAAA"}))], lambda source, context: asked.append((source, context.depth)))
same((listed.sources, listed.mappings, asked), (["./a.ts"], "AAAA", [("./a.ts", 1)]))
third = json.dumps({"version": 3, "sources": ["x.ts"], "names": ["f"], "mappings": ";;AAAAA"})
same(remapping((*STEPS, third), lambda source, context: None, decoded_mappings=True).mappings, [[[0, 0, 0, 0, 0]]])
same(str(remapping([third], lambda source, context: None)), '{"version":3,"mappings":";;AAAAA","names":["f"],"sources":["x.ts"],"sourcesContent":[null]}')
same("more than one source" in str(raised(ValueError, lambda: remapping([json.dumps(OUTER), third], load))), True)

# What is refused, and what the loader raises.
same(raised(Refused, lambda: remapping(third, lambda source, context: "[]")).code, "M3")
raised(KeyError, lambda: remapping(third, lambda source, context: {}[source]))
raised(ValueError, lambda: remapping([], load))
raised(TypeError, lambda: remapping(third, None))
raised(TypeError, lambda: remapping(third, lambda source, context: setattr(context, "source", 7)))
raised(TypeError, lambda: remapping(third, lambda source, context: setattr(context, "content", b"")))
raised(ValueError, lambda: remapping('{"version":3,"sections":[{"offset":{"line":900000000,"column":0},"map":{"version":3,"sources":[],"mappings":"A"}}]}',
                                     load, decoded_mappings=True))
print(f"remapping {reported}")
