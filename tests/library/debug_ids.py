"""Debug ids of maps in Python: read, kept where that is asked, and looked up by. The ids are written out here."""

import json

from smap import Maps, SourceMap, compose, compose_all

ID, OTHER = "85314830-023f-4cf1-a267-535f4e37bb17", "00000000-0000-4000-8000-000000000000"
REST = {"version": 3, "sources": ["a.ts"], "names": [], "mappings": "AAAA,IAEC"}

reported = 0


def same(got, wanted):
    global reported
    assert got == wanted, f"{got!r:.300} in place of {wanted!r:.300}"
    reported += 1


def index(members, of):
    return {"version": 3, **members, "sections": [{"offset": {"line": 0, "column": 0}, "map": {**REST, **of}}]}


# What is no text counts as absent; an index map's own decides, and none of its sections.
for members, wanted in [
        ({**REST, "debugId": ID}, ID), ({**REST, "debug_id": ID}, ID), ({"debug_id": OTHER, **REST, "debugId": ID}, ID),
        ({**REST, "debugId": None, "debug_id": ID}, ID), ({**REST, "debugId": 7, "debug_id": ID}, ID),
        ({**REST, "debugId": {"a": [ID]}, "debug_id": [ID]}, None), ({**REST, "debugid": ID, "debugID": ID}, None),
        ({**REST, "debugId": "é\"\\\n😀"}, "é\"\\\n😀"), ({**REST, "debugId": ""}, ""), (REST, None),
        (index({"debugId": ID}, {}), ID), (index({"debug_id": ID}, {"debugId": OTHER}), ID), (index({}, {"debugId": ID}), None)]:
    text = json.dumps(members)
    for given in (text, text.encode(), memoryview(bytearray(text.encode())), json.dumps(members, ensure_ascii=False),
                  text.replace('"debug', '"\\u0064ebug'), ")]}'\n" + text):
        same(SourceMap(given).debug_id, wanted)
same(SourceMap('{"debugId":"a","version":3,"sources":[],"mappings":"","debugId":"b"}').debug_id, "b")

# It is written where that is asked, and not else.
marked, plain = SourceMap(json.dumps({**REST, "debug_id": f'"{ID}'})), SourceMap(json.dumps(REST))
WITHOUT = '{"mappings":"AAAA,IAEC","names":[],"sources":["a.ts"],"version":3}'


def with_id(text, written):
    return (text[:-1] + f',"debugId":{json.dumps(written)}' + "}").encode()


same(marked.write(), WITHOUT.encode())
same(marked.write(debug_id=True), with_id(WITHOUT, f'"{ID}'))
same(plain.write(debug_id=True), WITHOUT.encode())
same(SourceMap(marked.write(debug_id=True)).debug_id, f'"{ID}')

# A composed map has that of the outer one.
inner = SourceMap(json.dumps({**REST, "sources": ["b.ts"], "debugId": OTHER}))
outer = SourceMap(json.dumps({**REST, "mappings": "AAAA", "debugId": ID}))
COMPOSED = '{"mappings":"ACAA","names":[],"sources":["a.ts","b.ts"],"version":3}'
same(compose(outer, 0, inner), COMPOSED.encode())
same(compose(outer, 0, inner, debug_id=True), with_id(COMPOSED, ID))
same(b"debugId" in compose(plain, 0, inner, debug_id=True), False)
same(SourceMap(compose(outer, 0, outer, debug_id=True)).debug_id, ID)
same(compose_all(outer, {"a.ts": inner}), COMPOSED.encode())
same(compose_all(outer, {"a.ts": inner}, debug_id=True), with_id(COMPOSED, ID))

# What maps keep has its id; and one that was added under its id answers for it.
maps = Maps(lambda url: json.dumps({**REST, "debugId": OTHER}), max_bytes=1 << 20)
maps.add(f"debugid:{ID}", SourceMap(json.dumps({**REST, "debugId": ID})))
place = maps.look_up(f"debugid:{ID}", 0, 5)
same((place.source, place.line, place.column), ("a.ts", 2, 1))
same(maps.get(f"debugid:{ID}").debug_id, ID)
same(maps.get("https://e.test/b.js?x").debug_id, OTHER)
maps.add("https://e.test/b.js", json.dumps(REST))
same(maps.get("https://e.test/b.js").debug_id, None)
same(maps.rewrite(f"    at f (debugid:{ID}:1:5)\n".encode()), b"    at f (a.ts:3:2)\n")
same([hasattr(found, "debug_id") for found in (marked, maps.get("https://e.test/b.js"))], [True, True])
print(f"ids {reported}")
