"""What comes out of texts whose places are rewritten anywhere, by hand: places.py has the rule, and places_laws.py compares.

A case is a reason, a text, what comes out of it, and with which words it does so; each by itself. In what comes out `«1:2»` stands for
`webpack:///a.ts:1:2`. Up to line 8 and column 8 the maps lead from each place to the same one of their source; columns behind
lead to column 8.
"""

from __future__ import annotations

from typing import List, NamedTuple, Tuple


class Case(NamedTuple):
    """Words are separated by two blanks; those of a list begin with `list `."""

    why: str
    text: str
    becomes: str
    given: Tuple[str, ...]


CASES: List[Case] = []
SECTIONS: List[Tuple[str, int]] = []


def section(title: str) -> None:
    """The cases from here on have this title."""
    SECTIONS.append((title, len(CASES)))


def case(why: str, text: str, becomes: str, *given: str) -> None:
    """A text becomes another."""
    CASES.append(Case(why, text, becomes.replace("«", "webpack:///a.ts:").replace("»", ""), given))


def stays(why: str, text: str, *given: str) -> None:
    """A text stays."""
    CASES.append(Case(why, text, text, given))


APP = "*app.js=w.map"
X = "*x.js=w.map"
SRV = "/srv/=n/"
SRV_APP = "/srv/app.js=w.map"
SRV_LISTED = "list /srv/app.js=w.map"
H = "https://h/=n/"
H_APP = "https://h/app.js=w.map"
H_LISTED = "list https://h/app.js=w.map"
EX = "https://ex.test/=n/"
EX_APP = "https://ex.test/app.js=w.map"
EX_LISTED = "list https://ex.test/app.js=w.map"

ALL_EX = (APP, EX, EX_APP, EX_LISTED)
ALL_H = (APP, H, H_APP, H_LISTED)
ALL_SRV = (APP, SRV, SRV_APP, SRV_LISTED)

# ---------------------------------------------------------------------------------------------
section("escapes and glued texts")
# ---------------------------------------------------------------------------------------------

LINE_END = "an escape of a line's end begins a virtual line"
case(LINE_END, r'{"stack":"f\nhttps://ex.test/app.js:1:1"}', r'{"stack":"f\n«1:1»"}', *ALL_EX)
case("a name that begins with f is no form feed", r'{"stack":"f\nhttps://ex.test/app.js:1:1"}', r'{"stack":"f\nfile:///f.ts:1:1"}', "*app.js=f.map")
case("a name that begins with t is no TAB", r'{"stack":"f\nhttps://ex.test/app.js:1:1"}', r'{"stack":"f\nturbopack:///t.ts:1:1"}', "*app.js=t.map")
case(LINE_END, r'{"msg":"Error: bad\n/srv/app.js:1:1"}', r'{"msg":"Error: bad\n«1:1»"}', *ALL_SRV)
case("a key is an edge", "caller=/srv/app.js:1:1 msg=x", "caller=«1:1» msg=x", *ALL_SRV)
case("nginx's quotation mark", r"\x22https://ex.test/app.js:1:1\x22", r"\x22«1:1»\x22", *ALL_EX)
case("a colour with an escape, at the beginning of a string", r'{"log":"\u001b[24m/dist/x.js:1:2\n"}', r'{"log":"\u001b[24m«1:2»\n"}', X, "/dist/=n/", "/dist/x.js=w.map")
stays(
    "a colour within a path", r'{"log":"    \u001b[90m(/srv/node_modules/\u001b[4mpkg\u001b[24m/dist/x.js:1:2)"}', X,
)
for sign in (r"\t", r"\r\n", r"\\n", r"\b", r"\f", "#012", "#011", r"\x0A", r"\x0a", r"\x5Cn", r"\x5Cr\x5Cn", r"\u000a", r"\u0009", r"\x5C\x22"):
    case("behind an escape a URL begins", f"x{sign}https://ex.test/app.js:1:1{sign}", f"x{sign}«1:1»{sign}", *ALL_EX)
    case("and a path", f"x{sign}/srv/app.js:1:2{sign}", f"x{sign}«1:2»{sign}", *ALL_SRV)
    case("and a name", f"x{sign}app.js:1:2{sign}", f"x{sign}«1:2»{sign}", APP, "app.js=w.map")

section("brackets, blanks and drives")
NEXT = "in a frame a URL is whole"
BEHIND = "behind a prefix brackets stand in pairs"
case(NEXT, "at f (/srv/posts/[id].js:2:4472)", "at f («2:8»)", SRV, "*[id].js=w.map", "/srv/posts/[id].js=w.map")
case(BEHIND, "web-1 | at f (/srv/posts/[id].js:2:4) {", "web-1 | at f («2:4») {", SRV, "/srv/posts/[id].js=w.map")
stays("a bracket ends the word", "web-1 | at f (/srv/posts/[id].js:2:4) {", "*[id].js=w.map", "*id].js=w.map", "*posts/=n/")
case(BEHIND, "web-1 | (/srv/app/(shop)/[[...all]]/{x}.js:2:4)", "web-1 | («2:4»)", SRV)
stays("they do not", "web-1 | /srv/a)b.js:2:4 /srv/a(b.js:2:4 /srv/a[b.js:2:4 /srv/)a(.js:2:4", SRV)
case("behind what is open a URL begins", "/srv/a(/srv/b.js:2:4)", "/srv/a(«2:4»)", SRV)
SHOP = "(https://h/app/(shop)/x.min.js:2:4)"
stays("a scheme stands before the word", SHOP, "*x.min.js=w.map", "*(shop)/=n/")
case("a name and a prefix are whole", SHOP, "(«2:4»)", H, "https://h/app/(shop)/x.min.js=w.map", "list https://h/app/(shop)/x.min.js=w.map")
case(NEXT, f"    at f {SHOP}", "    at f («2:4»)", "*x.min.js=w.map", H, "*(shop)/=n/")
case("in a string, too", rf'{{"s":"x\n    at f {SHOP}\n"}}', r'{"s":"x\n    at f («2:4»)\n"}', "*x.min.js=w.map", H, "*app/=n/")
stays("a path goes on behind a bracket", "web-1 | at f (/srv/app/(shop)/x.min.js:2:4) {", "*x.min.js=w.map")
stays("it may have blanks", "web-1 | at f (/srv/My App (1)/x.js:2:4) {", X)
stays("it may be relative", "web-1 | at f (app/(shop)/x.js:2:4) {", X)
stays("a path goes on behind a comma", "/a,b/app.js:1:2", APP, "*b/=n/")
case("an apostrophe stands within a word", "/srv/it's/app.js:1:2 b'/srv/app.js:1:3'", "«1:2» b'«1:3»'", APP)
stays("also with blanks", "open /home/bob's Mac/My App/app.js:1:2", APP)
DRIVE = r"C:\Program Files\a\x.js:2:4"
stays("a path with backslashes in no frame", DRIVE, X, r"*\a\=n/")
case("its name is whole", f"x {DRIVE}", "x «2:4»", r"C:\Program Files\a\x.js=w.map")
case(NEXT, f"    at f ({DRIVE})", "    at f («2:4»)", X, r"*\a\=n/", r"C:\Program Files\a\x.js=w.map")
case("in a string a backslash is two", r'{"s":"x\n    at f (C:\\Program Files\\a\\x.js:2:4)\n"}', r'{"s":"x\n    at f («2:4»)\n"}', X, r"*\a\=n/", r"C:\Program Files\a\x.js=w.map")
case("or is named so", r'{"s":"x\n    at f (C:\\dist\\x.js:2:4)\n"}', r'{"s":"x\n    at f («2:4»)\n"}', r"*\\dist\\x.js=w.map", r"*\\dist\\=n/", r"C:\\dist\\x.js=w.map")
case("in a string in a string", r'{"log":"{\"s\":\"x\\n    at f (C:\\\\dist\\\\x.js:2:4)\"}"}', r'{"log":"{\"s\":\"x\\n    at f («2:4»)\"}"}', X)
case(r"in a string \\r is a backslash and an r", r'{"s":"x\n    at f (C:\\routes\\node_modules\\x.js:2:4)\n    at D:\\build\\x.js:2:5"}', r'{"s":"x\n    at f («2:4»)\n    at «2:5»"}', X, r"*\routes\=n/  *\build\=n/")
case("in a string in a string, too", r'{"log":"{\"s\":\"x\\n    at f (C:\\\\routes\\\\x.js:2:4)\\n    at f (/srv/x.js:2:5)\"}"}', r'{"log":"{\"s\":\"x\\n    at f («2:4»)\\n    at f («2:5»)\"}"}', X)
case("or a line's end that was escaped twice", r'{"s":"x\\n    at f (https://h/(shop)/x.js:2:4)\\n    at g (https://h/x.js:2:5)"}', r'{"s":"x\\n    at f («2:4»)\\n    at g («2:5»)"}', X, H)
stays("in no frame", r'{"s":"x: C:\\routes\\x.js:2:4"}', X)
MY_APP = "/Applications/My App.app/x.js:1:2"
for text in (MY_APP, f"({MY_APP})", f"web-1 | at f ({MY_APP}) {{", f'{{"f":"{MY_APP}"}}'):
    stays("a path with blanks in no frame", text, X, "*App.app/=n/", "/Applications/=n/")
    case("its name is whole", text, text.replace(MY_APP, "«1:2»"), "/Applications/My App.app/x.js=w.map")
case(NEXT, f"    at f ({MY_APP})", "    at f («1:2»)", X, "/Applications/=n/")
IPV6 = "http://[::1]:80/x.js:1:2"
stays("a bracket ends the word", f"see {IPV6}", X)
case("a prefix is whole", f"see {IPV6}", "see «1:2»", "http://[::1]:80/=n/", "http://[::1]:80/x.js=w.map")
case(NEXT, f"    at f ({IPV6})", "    at f («1:2»)", X, "http://[::1]:80/=n/")

section("numbers")
stays("a range is no column", "https://ex.test/app.js:1:628-640 app.js:1:2-3", *ALL_EX)
case("of a chain of numbers the last two count", "https://ex.test/app.js?a=1:2:1:6", "«1:6»", *ALL_EX)
stays("what they stand behind is another URL", "x https://ex.test/app.js:1:1:2", *ALL_EX)
case("what they stand behind may be named", "(app.js:1:1:2)", "(«1:2»)", "app.js:1=w.map", "*app.js:1=w.map")
stays("the last number is none", "app.js:1:2:0 app.js:1:2:03 app.js:1:2:4294967296", APP, "app.js=w.map")
stays("numbers that are none", "app.js:0:1 app.js:1:0 app.js:01:1 app.js:1:01 app.js:+1:1 app.js::1 app.js:1: app.js:1", APP, "app.js=w.map")
stays("a number that is too large", "app.js:1:2147483649 app.js:2147483649:1 app.js:1:21474836480", APP, "app.js=w.map")
case("the largest", "app.js:1:2147483648,", "«1:8»,", APP, "app.js=w.map")
case("what is no digit may stand behind", "app.js:1:2x app.js:1:2: app.js:1:2- app.js:1:2.5", "«1:2»x «1:2»: «1:2»- «1:2».5", APP, "app.js=w.map")
stays("a time of day", "12:30:45 app.js 12:30:45.250", APP, "*45=w.map")
stays("a place without an original", "app.js:9:1", APP)
case("each byte is in one piece", "(app.js:1:1 app.js:1:2,app.js:1:3)", "(«1:1» «1:2»,«1:3»)", APP, "app.js=w.map")
stays("a piece begins behind a pair, which is no edge", "x:1:2/srv/app.js:1:6", APP, SRV, SRV_APP)
case("behind it one may begin", "app.js:1:2=/srv/app.js:1:6", "app.js:1:2=«1:6»", SRV, SRV_APP)
IP = "http://[fd00:1:2:3::5]:3000/"
case("no pair stands in the brackets of an address", f"see {IP}app.js:1:2", "see «1:2»", f"{IP}=n/", f"{IP}app.js=w.map", f"list {IP}app.js=w.map")
stays("in no frame a bracket ends the word", f"see {IP}app.js:1:2", APP)
case(NEXT, f"    at f ({IP}app.js:1:2)", "    at f («1:2»)", APP, f"{IP}=n/")
stays("an address alone", "see http://[fd00:1:2:3::5]/ and http://[fe80:1:2::1%25en0]:80/", APP, "*fd00=w.map")

section("sentences and loggers")
case("an address of mail is no function", "mail bob@ex.com failed: https://h/app.js:1:2", "mail bob@ex.com failed: «1:2»", *ALL_H)
case("a sentence is no URL of a frame", "at startup: cannot load https://h/app.js:1:2", "at startup: cannot load «1:2»", *ALL_H)
case("two places in a line that is a frame", "a@https://h/app.js:1:2 b@https://h/app.js:3:4", "a@«1:2» b@«3:4»", *ALL_H)
case("behind a blank in brackets", "(Error: bad /srv/app.js:1:2)", "(Error: bad «1:2»)", *ALL_SRV)
case("a path begins anew", "(/login failed, /srv/app.js:1:2)", "(/login failed, «1:2»)", *ALL_SRV)
case("no frame without a function", "(at /srv/app.js:1:2)", "(at «1:2»)", *ALL_SRV)
case("a scheme begins anew", "(see https://h/app.js:1:2)", "(see «1:2»)", *ALL_H)
case("a bracket is an edge", "[INFO]/srv/app.js:1:2", "[INFO]«1:2»", *ALL_SRV)
case("a bracket is an edge", "f()/srv/app.js:1:2", "f()«1:2»", *ALL_SRV)
case("a colon before a path is one", "f():/srv/app.js:1:2", "f():«1:2»", *ALL_SRV)
case("a sign is one", "**/srv/app.js:1:2**", "**«1:2»**", *ALL_SRV)
case("Markdown's link", "[x](https://h/app.js:1:2)", "[x](«1:2»)", *ALL_H)
case("a URL in brackets", "<https://h/app.js:1:2>", "<«1:2»>", *ALL_H)
case("a string in a string", r'{"log":"{\"stack\":\"f\\nhttps://h/app.js:1:2\"}"}', r'{"log":"{\"stack\":\"f\\n«1:2»\"}"}', *ALL_H)
case("a string in it once more", r'"{\"a\":\"{\\\"b\\\":\\\"f\\\\nhttps://h/app.js:1:2\\\"}\"}"', r'"{\"a\":\"{\\\"b\\\":\\\"f\\\\n«1:2»\\\"}\"}"', *ALL_H)
case("f: and a line's end are no drive", r'{"s":"f:\nhttps://h/app.js:1:1"}', r'{"s":"f:\n«1:1»"}', *ALL_H)
case("q: and a line's end are no drive", r'"q:\n/srv/app.js:1:1"', r'"q:\n«1:1»"', *ALL_SRV)
case("a frame with a drive and a blank", r'{"s":"x\n    at C:\\Program Files\\a\\app.js:1:2\n"}', r'{"s":"x\n    at «1:2»\n"}', APP, r"*\a\=n/", r"C:\Program Files\a\app.js=w.map")
case("a string in a string", r'{"log":"{\"s\":\"x\\n    at C:\\\\Program Files\\\\a\\\\app.js:1:2\\n\"}"}', r'{"log":"{\"s\":\"x\\n    at «1:2»\\n\"}"}', APP)
case("a name with a blank", '{"f":"/Applications/My App.app/app.js:1:2"}', '{"f":"«1:2»"}', "/Applications/My App.app/app.js=w.map")
case("a name with a quotation mark", "see https://h/it's/app.js:1:2", "see «1:2»", "https://h/it's/app.js=w.map", "list https://h/it's/app.js=w.map")
case("an apostrophe is a letter of a word", "see https://h/it's/app.js:1:2", "see «1:2»", APP)
stays("but stands behind no prefix", "see https://h/it's/app.js:1:2", H)
case("an apostrophe ends no virtual line", r'{"s":"x\n    at f (https://h/it\'s/app.js:1:2)"}'.replace(r"\'", "'"), r'{"s":"x\n    at f («1:2»)"}', APP, H)
case("a query with a comma", "x https://h/app.js?v=a,b:1:2 y", "x «1:2» y", H, H_APP, H_LISTED)
stays("a comma ends the word", "x https://h/app.js?v=a,b:1:2 y", APP)
case("a query with an escape", r'"https://h/app.js?v=1\u0026t=2:1:2"', '"«1:2»"', H, H_APP, H_LISTED)
case("an escape in a word", r'"https://h/app.js?v=1\u0026t=2:1:2" "caller\u003d/srv/app.js:1:3"', r'"«1:2»" "caller\u003d«1:3»"', APP)
case("a query with a path", r'"https://h/x.js?v=1\u0026t=/srv/app.js:1:2"', '"«1:2»"', APP, H)
case("an escape of a line's end ends a query", r'"https://h/app.js?v=1\nhttps://h/b.js:1:2"', r'"https://h/app.js?v=1\n«1:2»"', H, "https://h/b.js=w.map", "*b.js=w.map")
stays("so it does of a name", r'"https://h/app.js?v=1\n:1:2" "https://h/app.js?v=1\tx:1:2" "https://h/app.js?v=1\"x:1:2"', H, H_APP, H_LISTED)
case("a piece with a comma", "x /srv/a,b/app.js:1:2", "x «1:2»", SRV, "/srv/a,b/app.js=w.map")
case("several pieces with one", "x https://h/npm/a@1,npm/b@2/app.js:1:2", "x «1:2»", H, "https://h/npm/=n/")
stays("a scheme stands before the word", "x https://h/npm/a@1,npm/b@2/app.js:1:2", APP)
stays("also before a path", "x https://h/a,/b/app.js:1:2", APP)
stays("a letter and an apostrophe before a path", "load'dist/app.js:1:2'", APP)
case("before the @ stands no function", "https://h/npm/a@1/app.js:1:2\n/srv/@me/app.js:1:3\nhttps://me@h/app.js:1:4", "«1:2»\n«1:3»\n«1:4»", APP)
case("but behind it a URL begins", "x/<@/srv/app.js:1:2\nx/<@https://h/app.js:1:3\nx@app.js:1:4", "x/<@«1:2»\nx/<@«1:3»\nx@«1:4»", APP)
case("an evaluated text", "    at eval (eval at f (/srv/app.js:1:2), <anonymous>:1:1)", "    at eval (eval at f («1:2»), <anonymous>:1:1)", *ALL_SRV)
stays("a scheme stands before the word", "x (webpack-internal:///(rsc)/./app.js:1:2)", APP, "webpack-internal:///=n/")
case(NEXT, "    at f (webpack-internal:///(rsc)/./app.js:1:2)", "    at f («1:2»)", APP)
case("its name is whole", "x (webpack-internal:///(rsc)/./app.js:1:2)", "x («1:2»)", "webpack-internal:///(rsc)/./app.js=w.map")
case("an escape of a sign is an edge", r'"x\u003c/srv/app.js:1:2\u003e"', r'"x\u003c«1:2»\u003e"', *ALL_SRV)
case("one of a letter is none", r'"/home/Andr\u00e9/app.js:1:2" "x\u0041/srv/app.js:1:2"', r'"«1:2»" "«1:2»"', APP)
stays("one of a letter is none", r'"x\u0041/srv/app.js:1:2" "\u00e9/srv/app.js:1:2" "https:\u002f\u002fh\u002fapp.js:1:2"', SRV, SRV_APP)
stays("before a path a quotation mark is none", r'"\u201c/srv/app.js:1:2" "https:\u002f\u002fh\u002fapp.js:1:2"', APP)
case(NEXT, r'{"s":"x\n    at f (/home/Andr\u00e9/app.js:1:2)"}', r'{"s":"x\n    at f («1:2»)"}', APP)
case("a colon before a path", "worker1:/srv/app.js:1:2", "worker1:«1:2»", *ALL_SRV)
case("a colon before a path", "ERROR:/srv/app.js:1:2 app.log:12:/srv/app.js:1:2", "ERROR:«1:2» app.log:12:«1:2»", *ALL_SRV)
case("behind a path, as grep prints", "logs/app.log:12:/srv/app.js:1:2 /var/log/xx:/srv/app.js:1:3", "logs/app.log:12:«1:2» /var/log/xx:«1:3»", *ALL_SRV)
stays("but no relative one", "logs/app.log:12:dist/app.js:1:2 logs/app.log:dist/app.js:1:3 ./x:dist/app.js:1:4", APP)
stays("a drive behind a slash", "see /C:/srv/app.js:1:2", *ALL_SRV)
stays("a path behind a path and a sign", "2024/01/01=/srv/app.js:1:2 /login=/srv/app.js:1:3", APP)
case("but behind a letter alone", "see C:/srv/app.js:1:2", "see «1:2»", APP, "C:/srv/=n/")
stays("but behind a letter alone", "see C:/srv/app.js:1:2 file:/srv/app.js:1:2", SRV, SRV_APP)
case("but behind file", "see file:/srv/app.js:1:2", "see «1:2»", APP, "file:/srv/=n/")
case("file as the end of a word", "profile:/srv/app.js:1:2", "profile:«1:2»", *ALL_SRV)
stays("a file and a line before a relative path", "app.log:12:dist/app.js:1:2 ERROR:dist/app.js:1:2", APP, "dist/=n/")
stays("a sign of a difference or a list", "+/srv/app.js:1:2 -/srv/app.js:1:2 __/srv/app.js:1:2__", *ALL_SRV)
stays("a quotation mark that is not ASCII", "“/srv/app.js:1:2” ‘/srv/app.js:1:2’ 加载/srv/app.js:1:2 é/srv/x", *ALL_SRV)
case("a letter that is not ASCII", "größe/app.js:1:2 (мир/app.js:1:3)", "«1:2» («1:3»)", APP)
case("behind any apostrophe a name may begin", "can't load'https://h/app.js:1:2'", "can't load'«1:2»'", *ALL_H)
case("a path that begins anew", "/login failed at ./dist/app.js:1:2, (see ../app.js:1:3)", "/login failed at «1:2», (see «1:3»)", APP)
case("before a scheme", "“https://h/app.js:1:2” _https://h/app.js:1:2_", "“«1:2»” _«1:2»_", APP)
case("pieces of a relative path", "see ./app.js:1:2 ../app.js:1:3 ~/app.js:1:4 _next/app.js:1:5 @me/app.js:1:6", "see «1:2» «1:3» «1:4» «1:5» @«1:6»", APP)

section("kinds of texts")
case("CSV", '7,"no price",https://h/app.js:1:2,500', '7,"no price",«1:2»,500', *ALL_H)
case("CSV", "7,/srv/app.js:1:2,500", "7,«1:2»,500", *ALL_SRV)
case("CSV", "7,dist/app.js:1:2,500", "7,«1:2»,500", APP, "dist/=n/", "dist/app.js=w.map")
case("CSV", "GET,/login,/srv/app.js:1:2,500", "GET,/login,«1:2»,500", *ALL_SRV)
stays("CSV: a path may go on", "GET,/login,dist/app.js:1:2,500", APP)
case("HTML", "<pre>TypeError: x<br>    at f (https://h/app.js:1:2)<br></pre>", "<pre>TypeError: x<br>    at f («1:2»)<br></pre>", *ALL_H)
case("HTML", '<a href="https://h/app.js:1:2">https://h/app.js:1:3</a> <b>/srv/app.js:1:4</b>', '<a href="«1:2»">«1:3»</a> <b>«1:4»</b>', APP)
case("HTML", "&quot;https://h/app.js:1:2&quot; &lt;https://h/app.js:1:2&gt;", "&quot;«1:2»&quot; &lt;«1:2»&gt;", *ALL_H)
case("Markdown", "> `https://h/app.js:1:2`, *https://h/app.js:1:3*", "> `«1:2»`, *«1:3»*", *ALL_H)
case("quoted mail", ">     at total (https://h/app.js:1:2)", ">     at total («1:2»)", *ALL_H)
stays("CSP reports", '{"csp-report":{"source-file":"https://h/app.js","line-number":1,"column-number":2}}', *ALL_H)
case("CSP of a console", "Refused 'https://h/app.js:1:2' by script-src 'self' https://h/app.js:1:3;", "Refused '«1:2»' by script-src 'self' «1:3»;", *ALL_H)
stays("PHP's JSON", r'{"f":"https:\/\/h\/app.js:1:2"}', *ALL_H)
stays("a backslash before an n is a line's end", r"dist\new.js:1:2", "*new.js=w.map", r"*dist\=n/")
stays("a backslash ends the word", r"src\routes\app.js:1:2 C:\new\app.js:1:2 \app.js:1:2 \\server\share\app.js:1:2", APP, r"*\routes\=n/")
stays("a backslash that is escaped, too", r"C:\x5Cdist\x5Capp.js:1:2 C:\u005cdist\u005capp.js:1:2", APP)
case("a date is no path", "2024/01/01 app.js:1:2 2024/01/01,12:05:09,dist/app.js:1:3", "2024/01/01 «1:2» 2024/01/01,12:05:09,«1:3»", APP)
case("a host and its port", "see localhost:8080/app.js:1:2 10.0.2.2:8081/dist/app.js:1:3", "see «1:2» «1:3»", APP)
case("a host and its port", "    at f (localhost:8080/app.js:1:2)", "    at f («1:2»)", APP, "localhost:8080/=n/")
stays("a relative path behind a path", "/login failed at dist/app.js:1:2", APP)
case("one behind none", "failed at dist/app.js:1:2", "failed at «1:2»", APP, "dist/app.js=w.map")
case("a console's", "Uncaught TypeError: o is null    app.js:1:5", "Uncaught TypeError: o is null    «1:5»", APP)
stays("within brackets it may be a path with blanks", "(in app.js:1:2) (dist/My App/app.js:1:2)", APP)
case("node: console.error of an error", "    at f (/srv/app.js:1:2) {", "    at f («1:2») {", *ALL_SRV)
case("node: a cause", "  [cause]: Error: x\n      at f (/srv/app.js:1:2) {\n", "  [cause]: Error: x\n      at f («1:2») {\n", *ALL_SRV)
case("node: ES modules", "    at file:///srv/app.js:1:2 {", "    at «1:2» {", APP, "file:///srv/=n/")
case("Chromium's driver", r'https://h/app.js 1:5 "x\n    at f (https://h/app.js:1:6)"', r'https://h/app.js 1:5 "x\n    at f («1:6»)"', *ALL_H)
case("Firefox", "f@https://h/app.js:1:2\nN/<@https://h/app.js:1:3\n", "f@«1:2»\nN/<@«1:3»\n", *ALL_H)
stays("Firefox: an evaluated text", "f@https://h/app.js line 3 > eval:1:1", *ALL_H)
case("Safari: a URL alone", "https://h/app.js:1:2", "«1:2»", *ALL_H)
case("an extension", "    at f (chrome-extension://id/app.js:1:2) {", "    at f («1:2») {", APP, "chrome-extension://id/=n/")
case("React Native", "f@index.android.bundle:1:6 g (address at index.android.bundle:1:1)", "f@«1:6» g (address at «1:1»)", "*index.android.bundle=w.map")
case("React Native", "    at f (address at index.android.bundle:1:6)", "    at f (address at «1:6»)", "*index.android.bundle=w.map")
case("React Native in development", "x http://h:8081/index.bundle?platform=ios&dev=true:1:2", "x «1:2»", "*index.bundle=w.map", "http://h:8081/index.bundle=w.map", "list http://h:8081/index.bundle=w.map")
case("Electron", "x file:///opt/app.asar/dist/app.js:1:2, /opt/app.asar/dist/app.js:1:3", "x «1:2», «1:3»", APP, "*app.asar/dist/=n/")
case("Jest", "web-1 |     at f (dist/app.js:1:2)", "web-1 |     at f («1:2»)", APP, "dist/=n/")
case("pino", r'{"level":50,"err":{"stack":"TypeError: x\n    at f (https://h/app.js:1:2)\n    at https://h/app.js:1:3"}}', r'{"level":50,"err":{"stack":"TypeError: x\n    at f («1:2»)\n    at «1:3»"}}', *ALL_H)
case("JSON in JSON", r'{"log":"{\"stack\":\"x\\n    at f (https://h/app.js:1:2)\\n\"}"}', r'{"log":"{\"stack\":\"x\\n    at f («1:2»)\\n\"}"}', *ALL_H)
case("Docker", 'web-1  |     at f (https://h/app.js:1:2)', 'web-1  |     at f («1:2»)', *ALL_H)
case("Kubernetes", "2026-11-26T23:59:24.123456789Z stderr F     at f (https://h/app.js:1:2)", "2026-11-26T23:59:24.123456789Z stderr F     at f («1:2»)", *ALL_H)
case("journald", "Nov 26 23:59:24 vm node[123]:     at f (https://h/app.js:1:2)", "Nov 26 23:59:24 vm node[123]:     at f («1:2»)", *ALL_H)
case("syslog", "<11>1 - vm app 7 - - TypeError: x#012    at f (https://h/app.js:1:2)#012    at https://h/app.js:1:3", "<11>1 - vm app 7 - - TypeError: x#012    at f («1:2»)#012    at «1:3»", *ALL_H)
case("pm2 with its colours", "\x1b[31m0|app  | \x1b[39m    at f (https://h/app.js:1:2)", "\x1b[31m0|app  | \x1b[39m    at f («1:2»)", *ALL_H)
case("GitHub Actions", "##[error]    at f (https://h/app.js:1:2)", "##[error]    at f («1:2»)", *ALL_H)
case("AWS Lambda", '{"stack":["x","    at f (/srv/app.js:1:2)","    at /srv/app.js:1:3"]}', '{"stack":["x","    at f («1:2»)","    at «1:3»"]}', *ALL_SRV)
case("logfmt", r'level=error caller=app.js:1:2 path=/login stack="x\n    at f (/srv/app.js:1:3)" at=app.js:1:4', r'level=error caller=«1:2» path=/login stack="x\n    at f («1:3»)" at=«1:4»', APP)
case("nginx", r'"POST /e" 200 "x\x0A    at f (https://h/app.js:1:2)\x0A    at https://h/app.js:1:3\x0A"', r'"POST /e" 200 "x\x0A    at f («1:2»)\x0A    at «1:3»\x0A"', *ALL_H)
case("nginx, JSON", r'"{\x22s\x22:\x22x\x5Cn    at f (https://h/app.js:1:2)\x5Cnhttps://h/app.js:1:3\x22}"', r'"{\x22s\x22:\x22x\x5Cn    at f («1:2»)\x5Cn«1:3»\x22}"', *ALL_H)
stays("Sentry", '{"abs_path":"https://h/app.js","lineno":1,"colno":2}', *ALL_H)
stays("an escaped URL", "GET /e?stack=at%20f%20(https%3A%2F%2Fh%2Fapp.js%3A1%3A2)", *ALL_H)

section("colours")
case("a colour is an edge", "\x1b[36mhttps://h/app.js:1:2\x1b[39m \x1b[1;36mhttps://h/app.js:1:3\x1b[0m\x1b[mhttps://h/app.js:1:4", "\x1b[36m«1:2»\x1b[39m \x1b[1;36m«1:3»\x1b[0m\x1b[m«1:4»", *ALL_H)
case("one with an escape", r'"\u001b[36mhttps://h/app.js:1:2\u001b[39m" "\x1b[36mhttps://h/app.js:1:2" #033[36mhttps://h/app.js:1:2', r'"\u001b[36m«1:2»\u001b[39m" "\x1b[36m«1:2»" #033[36m«1:2»', *ALL_H)
case("at the beginning of a path", "x \x1b[90m/srv/app.js:1:2\x1b[39m \x1b[90mdist/app.js:1:3", "x \x1b[90m«1:2»\x1b[39m \x1b[90mdist/app.js:1:3", SRV, SRV_APP)
case("at the beginning of a path", "x \x1b[90m/srv/app.js:1:2\x1b[39m \x1b[90mdist/app.js:1:3", "x \x1b[90m«1:2»\x1b[39m \x1b[90m«1:3»", APP)
stays("within a path", "x /srv/\x1b[4mapp.js:1:2 dist/\x1b[4mpkg\x1b[24m/app.js:1:3 https://h/\x1b[4mpkg\x1b[24m/app.js:1:4 app.js\x1b[24m:1:5", APP, H)
stays("what is none", "\x1b[36Kdist/https://h/app.js:1:2 [36mapp.js:1:2 \x1b36mapp.js:1:2 \x1b[3:6mapp.js:1:2", H_APP, "app.js=w.map")

section("which URL")
case("the longest name", "x a b.js:1:2", "x «1:2»", "a b.js=w.map  b.js=f.map")
case("the longest of a name and a prefix", "x https://h/a.js?u=https://h/app.js:1:2", "x «1:2»", H, "https://h/=n/  https://h/app.js=f.map")
case("a name before a prefix", "x https://h/app.js:1:2 https://h/b.js:1:3", "x file:///f.ts:1:2 «1:3»", "https://h/=n/  https://h/app.js=f.map")
case("a list before a prefix, without a query too", "x https://h/app.js?v=2:1:2 https://h/b.js:1:3", "x file:///f.ts:1:2 «1:3»", "https://h/=n/  list https://h/app.js=f.map")
case("a prefix before an argument with a query", "x https://h/app.js?v=2:1:2", "x «1:2»", "https://h/=n/  https://h/app.js=f.map")
case("a pattern before an argument with a query", "x https://h/app.js?v=2:1:2", "x «1:2»", "*app.js=w.map  https://h/app.js=f.map")
case("a name before a pattern", "x https://h/app.js:1:2", "x file:///f.ts:1:2", "*app.js=w.map  https://h/app.js=f.map")
case("the longest prefix", "x https://h/a/b.js:1:2", "x «1:2»", "https://h/=f/  https://h/a/=n/")
stays("it has no file", "x https://h/a/../b.js:1:2 https://h//b.js:1:2 https://h/:1:2 https://h/./b.js:1:2", H, "https://h/=n/  https://h/a/=n/")
case("a pattern has one then", "x https://h/a/../b.js:1:2", "x «1:2»", "https://h/=f/  *b.js=w.map")
case("the longest pattern", "x /js/app.js:1:2 /x/app.js:1:3", "x file:///f.ts:1:2 «1:3»", "*app.js=w.map  *js/app.js=f.map")
case("the last scheme of a word", "x http://h/?u=http://two/app.js:1:2 git+ssh://h/app.js:1:3 1.https://h/app.js:1:4", "x http://h/?u=«1:2» «1:3» 1.«1:4»", APP)
stays("no scheme", "x ://h/app.js:1:2 12://h/app.js:1:3", APP)
case("the last edge before the first separator", "x a=b=dist/app.js:1:2 f@g@app.js:1:3 /srv/@me/app.js:1:4 me@/srv/app.js:1:5", "x a=b=«1:2» f@g@«1:3» «1:4» me@«1:5»", APP)
case("a query is no separator of edges", "x app.js?a=b&c=d:1:2 app.js?u=/x:1:3", "x «1:2» «1:3»", APP)
stays("a letter, a digit or a sign of paths before it is no edge", "xhttps://h/app.js:1:2 1https://h/app.js:1:2 _https://h/app.js:1:2 -https://h/app.js:1:2 .https://h/app.js:1:2 /https://h/app.js:1:2 ~https://h/app.js:1:2 $https://h/app.js:1:2 %https://h/app.js:1:2 +https://h/app.js:1:2 :https://h/app.js:1:2 éhttps://h/app.js:1:2", H, H_APP, H_LISTED)
case("any other is", "(https://h/app.js:1:2 =https://h/app.js:1:2 @https://h/app.js:1:2 ,https://h/app.js:1:2 ;https://h/app.js:1:2 |https://h/app.js:1:2 #https://h/app.js:1:2 &https://h/app.js:1:2 ?https://h/app.js:1:2 !https://h/app.js:1:2 *https://h/app.js:1:2 ^https://h/app.js:1:2", "(«1:2» =«1:2» @«1:2» ,«1:2» ;«1:2» |«1:2» #«1:2» &«1:2» ?«1:2» !«1:2» *«1:2» ^«1:2»", *ALL_H)
case("a frame has no other place", "    at /srv/a.js:1:2 (/srv/app.js:1:3)", "    at /srv/a.js:1:2 («1:3»)", SRV, APP + "  *a.js=w.map")
case("but where its URL has no map", "    at /srv/app.js:1:2 (/srv/b.js:1:3)", "    at «1:2» (/srv/b.js:1:3)", APP, SRV_APP)
stays("its place may have no original", "    at /srv/a.js:1:2 (/srv/app.js:9:3)", SRV)
case("a frame's URL by name may hold a pair", "    at /srv/a.js:1:2 x:1:3", "    at «1:3»", "/srv/a.js:1:2 x=w.map")
case("it begins no URL behind a blank", "    at /login failed at /srv/app.js:1:2", "    at /login failed at «1:2»", APP, SRV_APP)
case("nor in brackets there", 'me@/home: see "https://h/app.js:1:2', 'me@/home: see "«1:2»', *ALL_H)
case("a quotation mark in a frame", "    at f (/srv/it\"s/app.js:1:2)", "    at f («1:2»)", APP, SRV)
case("its brackets stand in pairs", "    at [/srv/app.js:1:2\nme@(/srv/app.js:1:3\n    at f (x)(/srv/app.js:1:4)", "    at [«1:2»\nme@(«1:3»\n    at f (x)(«1:4»)", *ALL_SRV)
case("or it is no more than a path", "    at x=/srv/app.js:1:2\nbob@ex.com,/srv/app.js:1:3\nbob@ex.com:/srv/app.js:1:4", "    at x=«1:2»\nbob@ex.com,«1:3»\nbob@ex.com:«1:4»", *ALL_SRV)
stays("and in none", '{"a":"/srv/it":"s/app.js:1:2"}', '/srv/it":"s/app.js=w.map')
stays("a name that is not printed", '{"s":"app.js:1:1"}', "app.js=quote.map", "app.js=backslash.map", "app.js=control.map")
case("frames end in CR", "    at f (/srv/app.js:1:2)\r\n/srv/app.js:1:3\r\n", "    at f («1:2»)\r\n«1:3»\r\n", *ALL_SRV)

section("frames that are no more than a URL")
FOLDER_FIRST = (H, H_LISTED, H_APP, APP)
BOTH = (H, "list https://h/app.js=w.map  list https://h/b.js=w.map", "https://h/app.js=w.map  https://h/b.js=w.map", "*app.js=w.map  *b.js=w.map")
PAIR = "a frame that holds a pair is no folder's, and no list's without its query"
case(PAIR, "app[web.1]: f@https://h/app.js?v=3:1:2#012g@https://h/app.js?v=3:4:5", "app[web.1]: f@«1:2»#012g@«4:5»", *FOLDER_FIRST)
case(PAIR, "f@https://h/app.js?v=3:1:2, g@https://h/app.js?v=3:4:5", "f@«1:2», g@«4:5»", *FOLDER_FIRST)
case(PAIR, "    at f (https://h/app.js?v=3:1:2,https://h/app.js?v=3:4:5)", "    at f («1:2»,«4:5»)", *FOLDER_FIRST)
case("in a string, too", r'{"s":"f@https://h/app.js?v=3:1:2,g@https://h/app.js?v=3:4:5"}', r'{"s":"f@«1:2»,g@«4:5»"}', *FOLDER_FIRST)
case("in a string in a string", r'{"log":"{\"s\":\"f@https://h/app.js?v=3:1:2;g@https://h/app.js?v=3:4:5\"}"}', r'{"log":"{\"s\":\"f@«1:2»;g@«4:5»\"}"}', *FOLDER_FIRST)
case("its name may", "f@https://h/app.js?v=3:1:2;b.js:3:4", "f@«3:4»", "https://h/app.js?v=3:1:2;b.js=w.map", "list https://h/app.js?v=3:1:2;b.js=w.map")
case("on Windows", r"    at f (C:\dist\app.js:1:2, C:\dist\app.js:3:4)", r"    at f («1:2», «3:4»)", r"C:\dist\app.js=w.map", r"list C:\dist\app.js=w.map")
QUERY = "a query has no blank in a frame, either"
case(QUERY, "at https://h/app.js?v=1 failed: https://h/b.js:3:4", "at https://h/app.js?v=1 failed: «3:4»", *BOTH)
case(QUERY, "at https://h/app.js#top failed: https://h/b.js:3:4", "at https://h/app.js#top failed: «3:4»", *BOTH)
case("in a string, too", r'{"s":"x\n    at https://h/app.js?v=1 failed: https://h/b.js:3:4\n"}', r'{"s":"x\n    at https://h/app.js?v=1 failed: «3:4»\n"}', *BOTH)
case("nor an escape of one", r"at https://h/app.js?v=1\tfailed:\thttps://h/b.js:3:4", r"at https://h/app.js?v=1\tfailed:\t«3:4»", *BOTH)
case("nor an escape of one", r'{"s":"x\n    at https://h/app.js?v=1\u0020failed:\u0020https://h/b.js:3:4"}', r'{"s":"x\n    at https://h/app.js?v=1\u0020failed:\u0020«3:4»"}', *BOTH)
case("nor a quotation mark", '"f@https://h/app.js?v=1","x",https://h/b.js:3:4', '"f@https://h/app.js?v=1","x",«3:4»', *BOTH)
case("nor a quotation mark", "f@https://h/app.js?v='1',https://h/b.js:3:4", "f@https://h/app.js?v='1',«3:4»", *BOTH)
case("nor a sign of HTML", "f@https://h/app.js?v=1><b>https://h/b.js:3:4", "f@https://h/app.js?v=1><b>«3:4»", *BOTH[:3])
stays("what stands behind the blank may be no URL", "at https://h/app.js?v=1 failed in b.js:3:4", *BOTH)
stays("in a string, too", r'{"s":"x\n    at https://h/app.js?v=1\tfailed in b.js:3:4\n    at /srv/app.js\u003fv=1 failed in b.js:3:5"}', BOTH[3])
case("but in a path with a #", r"    at C:\C# Projects\app.js:1:2", r"    at «1:2»", APP, r"C:\C# Projects\app.js=w.map")
FUNCTION = "a function of Firefox stands before a URL"
case(FUNCTION, r"at C:\logs\x.log<@dist/app.js:7:5", r"at C:\logs\x.log<@«7:5»", APP)
case("in a string, too", r'{"s":"x\n    at /logs/x.log\u003c@dist/app.js:7:5"}', r'{"s":"x\n    at /logs/x.log\u003c@«7:5»"}', APP)
stays("it is in no folder", r"    at https://h/x.log<@dist/app.js:7:5", H)
case("or in a path that is named", r"    at C:\a<@\app.js:1:2", r"    at «1:2»", r"C:\a<@\app.js=w.map")
case("a path of the user may have an apostrophe", "~/srv/it's/app.js:5:3", "«5:3»", APP)
case("what else stands in a query may do so", "    at f (https://h/app.js?v=1&t=[2]#(3):1:2)", "    at f («1:2»)", *ALL_H)
case("a name may have a blank in its query", "    at https://h/app.js?v=1 b:3:4", "    at «3:4»", "https://h/app.js?v=1 b=w.map", "list https://h/app.js?v=1 b=w.map")
case("a sentence is no folder's", "at /srv/b.js failed at /srv/app.js:3:4", "at /srv/b.js failed at «3:4»", SRV, SRV_LISTED, SRV_APP, APP)
case("a path with blanks is", "    at f (/srv/My App/(shop)/app.js:1:2)", "    at f («1:2»)", SRV, APP)
case("and has no query with one", "    at f (/srv/My App/app.js?v=1:1:2)", "    at f («1:2»)", SRV, APP, "list /srv/My App/app.js=w.map")
SCHEME = "behind a blank a sign begins another URL"
case(SCHEME, "at /login failed url=https://h/app.js:1:2", "at /login failed url=«1:2»", *ALL_H)
case(SCHEME, "at /login failed (url=https://h/app.js:1:2)", "at /login failed (url=«1:2»)", *ALL_H)
case(SCHEME, "at /login url='https://h/app.js:1:2", "at /login url='«1:2»", *ALL_H)
case(SCHEME, r'{"s":"x\n    at /login failed url=https://h/app.js:1:2\n"}', r'{"s":"x\n    at /login failed url=«1:2»\n"}', *ALL_H)
case(SCHEME, r'"at \"/login\" failed url=https://h/app.js:1:2"', r'"at \"/login\" failed url=«1:2»"', *ALL_H)
case(SCHEME, r"    at C:\Program Files\a failed url=https://h/app.js:1:2", r"    at C:\Program Files\a failed url=«1:2»", *ALL_H)
case("also without one right before it", "at /login failed url:https://h/app.js:1:2 _https://h/app.js:1:3", "at /login failed url:«1:2» _«1:3»", APP)
case("without a blank it is of the query", "    at f (https://h/x.js?u=https://h/app.js:1:2)", "    at f («1:2»)", APP, H)
case("a scheme of its own stands behind no sign", "    at f (webpack://My App/app.js:1:2)", "    at f («1:2»)", APP, "webpack://My App/=n/")
TAIL = "behind a frame stands what node prints there"
for tail in (" {", ",", " {\r", ",\r"):
    case(TAIL, rf"    at f (C:\dist\app.js:1:2){tail}", f"    at f («1:2»){tail}", APP, r"C:\dist\app.js=w.map")
    case(TAIL, f"    at async /srv/My App (1)/app.js:1:2{tail}", f"    at async «1:2»{tail}", APP, SRV, "/srv/My App (1)/app.js=w.map")
case("in a string, too", r'{"s":"x\n    at f (C:\\dist\\app.js:1:2) {\n  code: 1"}', r'{"s":"x\n    at f («1:2») {\n  code: 1"}', APP, r"C:\dist\app.js=w.map")
case("in a string of node, too", r"[ 'x\n    at C:\\dist\\app.js:1:2,\n' ]", r"[ 'x\n    at «1:2»,\n' ]", APP, r"C:\dist\app.js=w.map")
for tail in ("  {", " { ", "{", " {}", " }", ",,", ", ", ";", " {\r\r"):
    stays("and nothing else", rf"    at f (C:\dist\app.js:1:2){tail}", APP)
stays("it begins with a blank", r"at f (C:\dist\app.js:1:2) {", APP)
case("else a comma is of a list", "at /login,GET,/srv/app.js:1:2,", "at /login,GET,«1:2»,", *ALL_SRV)
stays("its URL has no quotation mark", '    at f (/srv/My "App"/app.js:1:2),', SRV)
case("it holds no other pair", "    at f (/srv/app.js:1:2, /srv/app.js:1:3) {", "    at f («1:2», «1:3») {", *ALL_SRV)

section("sizes")
case("a word of 2,048 bytes", f"x {'a' * 2041}/app.js:1:2", "x «1:2»", APP)
stays("one of more", f"x {'a' * 2042}/app.js:1:2 /{'a' * 2041}/app.js:1:2", APP)
case("a scheme near its end", f"x {'a' * 3000}=https://h/app.js:1:2", f"x {'a' * 3000}=«1:2»", APP, H)
case("a prefix and 2,048 bytes", f"x /srv/app.js?{'a' * 2041}:1:2", "x «1:2»", SRV)
stays("and one more", f"x /srv/app.js?{'a' * 2042}:1:2", SRV)
case("a name and 2,048 bytes", f"x app.js?{'a' * 2047}:1:2", "x «1:2»", "app.js=w.map", "list app.js=w.map")
stays("and one more", f"x app.js?{'a' * 2048}:1:2", "app.js=w.map", "list app.js=w.map")
case("a name of any length", f"x {'a b' * 1000}:1:2", "x «1:2»", "a b" * 1000 + "=w.map")
case("a long line, from its first blank on", f"{'(' * 70000}/srv/app.js:1:2{' ' * 70000}https://h/app.js:1:3", f"{'(' * 70000}/srv/app.js:1:2{' ' * 70000}«1:3»", APP)
stays("a long line without a blank", "\\" * 70001 + "nhttps://h/app.js:1:2", *ALL_H)
case("a colour of 32 signs, and of more", f"\x1b[{'0' * 32}mhttps://h/app.js:1:2 \x1b[{'0' * 33}mhttps://h/app.js:1:3", f"\x1b[{'0' * 32}m«1:2» \x1b[{'0' * 33}mhttps://h/app.js:1:3", H, H_APP)

section("behind signs and functions")
DIST = ("*app.js=w.map", "C:/dist/=n/", "C:/dist/app.js=w.map", "list C:/dist/app.js=w.map")
case("a drive behind a sign beyond ASCII", "“C:/dist/app.js:1:2” ·c:/dist/app.js:1:3 →C:/dist/app.js:1:4", "“«1:2»” ·c:/dist/app.js:1:3 →«1:4»", *DIST[1:])
case("a drive behind a sign beyond ASCII", "“C:/dist/app.js:1:2” ·c:/dist/app.js:1:3 x,„d:/dist/app.js?v=1:1:4“", "“«1:2»” ·«1:3» x,„«1:4»“", APP)
case("and behind a script without blanks", "加载C:/dist/app.js:1:2，错误：C:/dist/app.js:1:3（C:/dist/app.js:1:4）", "加载«1:2»，错误：«1:3»（«1:4»）", *DIST)
case("an escape of a sign", r'{"s":"\u201cC:/dist/app.js:1:2\u201d \\u201cC:/dist/app.js:1:3\\u201d \ud83d\ude00C:/dist/app.js:1:4"}', r'{"s":"\u201c«1:2»\u201d \\u201c«1:3»\\u201d \ud83d\ude00«1:4»"}', *DIST)
case("file: behind a sign", "“file:/srv/app.js:1:2” 加载file:/srv/app.js:1:3", "“«1:2»” 加载«1:3»", APP, "file:/srv/=n/")
stays("it is no path of its own", "“C:/srv/app.js:1:2” “file:/srv/app.js:1:3” 加载C:/srv/app.js:1:4", *ALL_SRV[1:])
case("behind a letter beyond ASCII the last letter is no drive", "größe:/srv/app.js:1:2 lỗi:/srv/app.js:1:3 profilé:/srv/app.js:1:4", "größe:«1:2» lỗi:«1:3» profilé:«1:4»", *ALL_SRV)
case("nor behind an escape of one", r'{"s":"gr\u00f6\u00dfe:/srv/app.js:1:2 l\u1ed7i:/srv/app.js:1:3"}', r'{"s":"gr\u00f6\u00dfe:«1:2» l\u1ed7i:«1:3»"}', *ALL_SRV)
stays("with blanks or brackets it goes on", "“C:/My App/app.js:1:2” “C:/(shop)/app.js:1:3” “C:/a,b/app.js:1:4”", APP)
stays("with backslashes, too", r"“C:\dist\app.js:1:2”", APP)
case("a drive behind a sign and a colour", "“\x1b[36mC:/dist/app.js:1:2\x1b[39m”", "“\x1b[36m«1:2»\x1b[39m”", *DIST)
case("an angle bracket is in no path", "    at N/<@../x/app.js:8:4\n    at f (N/<@../x/app.js:8:5)", "    at N/<@«8:4»\n    at f (N/<@«8:5»)", APP)
case("nor in a string", r'{"s":"x\n    at N/<@../x/app.js:8:4\n"}', r'{"s":"x\n    at N/<@«8:4»\n"}', APP)
case("its name is whole", "    at N/<@../x/app.js:8:4", "    at «8:4»", "N/<@../x/app.js=w.map")
stays("a path that begins behind a sign in another", "x a/b=../app.js:1:2 a/b=./app.js:1:3 a/b@~/app.js:1:4\n    at f/g@../x/app.js:1:5", APP)
case("but a piece may begin with a dot or one", "x a/.b/app.js:1:2 a/@b/app.js:1:3 a/@.b/app.js:1:4 a/b@1.0/app.js:1:5", "x «1:2» «1:3» «1:4» «1:5»", APP)
stays("a sign before a path", "+./app.js:1:2 ~./app.js:1:3 -../app.js:1:4 _~/app.js:1:5 %./app.js:1:6 $../app.js:1:7 ~~/app.js:1:8 -/app.js:2:1 +dist/app.js:2:2 --x/app.js:2:3", APP)
stays("in a frame, too", "    at +./app.js:1:2\n    at f (~./app.js:1:3)\n+@-../app.js:1:4", APP)
case("dots alone are a piece", ".../dist/app.js:1:2 ./app.js:1:3 ../app.js:1:4 ~/app.js:1:5 ..a/app.js:1:6", "«1:2» «1:3» «1:4» «1:5» «1:6»", APP)
EVAL = "    at eval (eval at f (dist/app.js:1:2), <anonymous>:1:1)"
case("an evaluated text of a relative path", EVAL, "    at eval (eval at f («1:2»), <anonymous>:1:1)", APP, "dist/=n/", "dist/app.js=w.map")
case("in a string", rf'{{"s":"x\n{EVAL}\n"}}', r'{"s":"x\n    at eval (eval at f («1:2»), <anonymous>:1:1)\n"}', APP)
case("one in another", "at eval (eval at g (eval at new A.<computed> [as b] (app.js:1:2), <anonymous>:1:1), <anonymous>:3:4)", "at eval (eval at g (eval at new A.<computed> [as b] («1:2»), <anonymous>:1:1), <anonymous>:3:4)", APP)
stays("with blanks, signs or brackets it may go on", "(eval at f (My App/app.js:1:2) (eval at f (a,b/app.js:1:3) (eval at f (x) (app.js:1:4) (eval at f(g) (app.js:1:5)", APP)
stays("in another call it may, too", "(in f (app.js:1:2)) (evaluated at f (app.js:1:3)) (eval f (app.js:1:4)) (eval at f) (in (app.js:1:5))", APP)
case("Firefox's functions", 'N/<@app.js:1:5\nx N/</<@dist/app.js:1:6 "N/<@./app.js:1:7"', 'N/<@«1:5»\nx N/</<@«1:6» "N/<@«1:7»"', APP)
case("Firefox's functions", r'{"s":"x\nN/\u003c@app.js:1:5\nN/<@dist/app.js:1:6"}', r'{"s":"x\nN/\u003c@«1:5»\nN/<@«1:6»"}', APP)
stays("another may be the beginning of a path", "f/g@app.js:1:5 https://h/<@app.js:1:7 (in N/<@app.js:1:8)", APP)

section("long lines")
STACK = "{0}@https://h/app.js:1:2{3}{1}@https://h/app.js:1:3{3}{2}@https://h/app.js:1:4{3}"
BECOMES = "{0}@«1:2»{3}{1}@«1:3»{3}{2}@«1:4»{3}"
LONG = "a" * 40000, "b" * 40000, "c" * 40000
for sign in (r"\n", r"\r\n", r"\\n", r"\u000a", r"\x0A", "#012", r"\x5Cn"):
    case("before an escape of a line's end", f'{{"s":"{STACK.format(*LONG, sign)}"}}', f'{{"s":"{BECOMES.format(*LONG, sign)}"}}', *ALL_H)
case("without a quotation mark", STACK.format(*LONG, "#012"), BECOMES.format(*LONG, "#012"), *ALL_H)
WINDOWS = r"C:\\dist\\app.js"
case("in a string behind it a backslash is two", rf'{{"s":"{LONG[0]}\nf@{WINDOWS}:1:2\n{LONG[1]}@{WINDOWS}:1:3\ng@{WINDOWS}:1:4"}}', rf'{{"s":"{LONG[0]}\nf@«1:2»\n{LONG[1]}@«1:3»\ng@«1:4»"}}', APP)
case("rather than before a blank", rf'{{"s":"{LONG[0]}\n    at f (/My App/{LONG[1]}/app.js:1:2)"}}', rf'{{"s":"{LONG[0]}\n    at f («1:2»)"}}', APP)
case("a quotation mark comes first", f'{{"s":"{LONG[0]}' + r'\n' + f'","t":"https://h/app.js:1:2","u":"{LONG[1]}"}}', f'{{"s":"{LONG[0]}' + r'\n' + f'","t":"«1:2»","u":"{LONG[1]}"}}', *ALL_H)
stays("what means none", rf'{LONG[0]}\t{LONG[1]}\thttps://h/app.js:1:2', *ALL_H)
case("behind that up to a blank", rf'{LONG[0]}\t{LONG[1]}\thttps://h/app.js:1:2 https://h/app.js:1:3', rf'{LONG[0]}\t{LONG[1]}\thttps://h/app.js:1:2 «1:3»', *ALL_H)

section("hostile shapes")
LAST = " https://h/app.js:1:2"
case("numbers again and again", ":1:2" * 1000 + LAST, ":1:2" * 1000 + " «1:2»", *ALL_H)
case("places again and again", "app.js:1:2 " * 400, "«1:2» " * 400, APP, "app.js=w.map")
case("brackets", "()" * 2000 + "/srv/app.js:1:2", "()" * 2000 + "«1:2»", *ALL_SRV)
case("escaped backslashes", r"\x5C" * 1000 + "nhttps://h/app.js:1:2", r"\x5C" * 1000 + "n«1:2»", *ALL_H)
case("beginnings of addresses", "://[" * 1000 + LAST, "://[" * 1000 + " «1:2»", *ALL_H)
case("strings", '":1:2"' * 700 + LAST, '":1:2"' * 700 + " «1:2»", *ALL_H)
case("beginnings of frames", "at f (@" * 600 + LAST, "at f (@" * 600 + " «1:2»", *ALL_H)
case("prefixes", "https://h/" * 400 + "app.js:1:2", "https://h/" * 399 + "«1:2»", APP)
case("paths behind colons", ":/" * 900 + "srv/app.js:1:2", ":/" * 899 + ":«1:2»", *ALL_SRV)
case("colours", "\x1b[36m" * 700 + LAST[1:], "\x1b[36m" * 700 + "«1:2»", *ALL_H)
case("beginnings of colours", r"\u001b[" * 600 + LAST, r"\u001b[" * 600 + " «1:2»", *ALL_H)
case("apostrophes", "'a" * 2000 + LAST, "'a" * 2000 + " «1:2»", *ALL_H)
