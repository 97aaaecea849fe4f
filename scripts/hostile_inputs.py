"""The inputs of scripts/hostile: texts, import maps and words that are made and then spoiled, nesting and repetition at each
production, files that are no plain files, a site whose allocations are refused, and sites that cost much within the limits."""
import json
import os
import re

from hostile_hashes import after_number, of_one_hash

BASE = "https://a.test/"
MAX_BODY = 1 << 20


# ---- module texts: a grammar with the forms of the language, some of them wrong

GRAMMAR = {
    "Module": ["", "Item", "Item Item", "Item Item Item", "Item Item Item Item Item"],
    "Item": ["import Request ;", "import Fresh from Request ;", "import * as Fresh from Request ;", "import { Ispecs } from Request ;",
             "import Fresh , { Ispecs } from Request ;", "import Fresh , * as Fresh from Request ;", "export * from Request ;",
             "export * as Fresh from Request ;", "export { Especs } from Request ;", "export { Especs } ;", "export Declare",
             "export Func",
             "export default Func", "export default function ( Params ) Body", "export default Init ;", "Func",
             "Func"] + ["Statement"] * 12,
    "Ispecs": ["", "Fresh", "Ext as Fresh", "Fresh , Fresh", "Ext as Fresh , Fresh ,"],
    "Especs": ["", "Name", "Ext as Fresh", "Name , Name as Fresh", "Name as Fresh ,"],
    "Ext": ["Name", "Name", "Name", "Text", "default", "if"],
    "Func": ["function Fresh ( Params ) Body"],
    "Params": ["", "Fresh", "Fresh , Fresh", "Fresh , Fresh , Fresh ,"],
    "Body": ["{ }", "{ Inside }", "{ Inside Inside return Expr ; }", "{ return ; }", "{ return Expr ; }",
        "{ if ( Expr ) { return Expr ; } Inside }"],
    "Inside": ["{ Inside }", "let Fresh = Expr ;", "const Fresh = Expr ;", "Name = Expr ;", "if ( Expr ) { Inside } else { Inside }",
               "try { Inside } catch ( Fresh ) { print ( Expr ) ; }", "throw Expr ;", "print ( Args ) ;", "Expr ;", "Expr ;"],
    "Block": ["{ }", "{ Statement }", "{ Statement Statement }"],
    "Statement": ["Block", ";", "Declare", "Declare", "Declare", "Name = Init ;", "if ( Expr ) Block", "if ( Expr ) Block else Block",
                  "try Block catch ( Fresh ) Block", "try Block catch Block", "throw Expr ;", "await Unary ;", "print ( await Unary ) ;",
                  "print ( Args ) ;", "print ( Args ) ;", "Expr ;",
                  "try { print ( await import ( Request ) ) ; } catch ( Fresh ) { print ( Name ) ; }"],
    "Declare": ["const Fresh = Init ;", "let Fresh ;", "let Fresh = Init ;", "let Fresh = Init , Fresh ;"],
    "Init": ["Expr", "Expr", "await Unary"],
    "Expr": ["Unary", "Unary", "Unary + Unary", "Unary === Unary", "Unary !== Unary + Unary", "Unary && Unary",
        "Unary || Unary && Unary"],
    "Unary": ["Post", "Post", "! Post", "! ! Post"],
    "Post": ["Prim", "Prim", "Prim", "Prim . Name", "Prim . message", "Prim ( Args )", "Name ( Args )"],
    "Prim": ["Text", "Text", "true", "false", "undefined", "Name", "Name", "( Expr )", "print ( Args )", "new Error ( )",
        "new Error ( Expr )",
             "import ( Request )", "import ( Expr )", "import . meta . url"],
    "Args": ["", "Expr", "Expr , Expr", "Expr , Expr ,"],
    "Name": ["a", "b", "c", "f", "$", "_", "as", "from", "é", "x\u0301", "\U00010400", "n0", "n1"],
    "Fresh": ["a", "b", "c", "f", "é"] + ["n%d" % k for k in range(60)],  # names to declare, of which few are the same
    "Request": ['"./a.js"', '"./b.js"', "'./a.js'", '"./b.js"', '"./main.js"', '"./a.js"', '"./b.js"', '"././a.js"', '"./none.js"',
        '"bare"'],
    "Text": ['"x"', "'y'", '""', '"./a.js"', '"\\n\\u{41}"', '"\\ud83d\\ude00"', '"https://b.test/"', '"../../up"', '"then"'],
}
LEAVES = {"Module": "", "Item": ";", "Block": "{ }", "Body": "{ }", "Inside": ";", "Statement": ";", "Expr": "a", "Unary": "a",
    "Post": "a",
          "Prim": '"x"', "Args": "", "Init": "a"}
PIECES = list("{}();,.*+=!\"'\\/@#`<&|?:[]-0") + [
    "===", "!==", "&&", "||", "==", "=>", "...", "//", "/*", "*/", "<!--", "-->", "#!", "await", "import", "export", "default",
    "function", "return",
    "const", "let", "if", "else", "try", "catch", "throw", "new", "Error", "print", "class", "yield", "static", "eval", "arguments",
    "super", "this",
    "then", "\n", "\r\n", "\u2028", "\u2029", "\ufeff", "\u00a0", "\u200d", "\0", "\\u0061", "\\u{61}", '"\\', '"\\ud800"',
    '"\\u{110000}"', '"\\8"']
PLAIN = ["a", "b", "f", "n0", '"x"', "true", "undefined", ";", "!", "+", "await", "print", "{", "}", "(", ")"]
BYTES = [b"\xff", b"\xc3", b"\xed\xa0\x80", b"\xef\xbb\xbf", b"\xf0\x9f\x98\x80", b"\xf4\x90\x80\x80", b"\0", b"\xe2\x80", b"\n", b'"',
    b"\\"]


def grown(dice, word, deep, out):
    """Adds the tokens of a word of the grammar."""
    if word not in GRAMMAR:
        out.append(word)
        return
    if deep <= 0 and word in LEAVES:
        out += LEAVES[word].split()
        return
    for part in dice.choice(GRAMMAR[word]).split(" "):
        if part:
            grown(dice, part, deep - 1, out)


def module_text(dice, spoiled=True):
    """A module text, by tokens or by bytes changed in one place or more, but for one in four."""
    tokens = []
    for _ in range(dice.choice([1, 1, 1, 2, 4])):
        grown(dice, "Module", dice.choice([4, 6, 8, 10]), tokens)
    way = dice.random() if spoiled else 0
    if way > 0.25:
        for _ in range(dice.choice([1, 1, 1, 1, 2, 3, 8])):
            change_list(dice, tokens, lambda: dice.choice(PIECES if way > 0.5 else PLAIN))
    spaces = dice.choice([[" "], [" "], [" ", "\n"], [" ", "\n", "\u2028", "/**/", "/*\n*/", "//\n", "\t"]])
    text = "".join(token + (" " if token == "throw" else dice.choice(spaces)) for token in tokens).encode("utf-8", "surrogatepass")
    return changed_bytes(dice, text) if way > 0.8 else text


def change_list(dice, items, fresh):
    """Deletes, inserts, doubles, exchanges or replaces an item, or repeats a few items many times."""
    if not items:
        items.append(fresh())
        return
    k, j, way = dice.randrange(len(items)), dice.randrange(len(items)), dice.randrange(7)
    if way == 0:
        del items[k]
    elif way == 1:
        items.insert(k, fresh())
    elif way == 2:
        items.insert(k, items[j])
    elif way == 3:
        items[k], items[j] = items[j], items[k]
    elif way == 4:
        items[k] = fresh()
    elif way == 5:
        del items[k:k + dice.choice([2, 3, 10])]
    elif dice.random() < 0.2:
        items[k:k] = items[k:k + dice.choice([1, 2, 3, 5])] * dice.choice([2, 10, 60, 70, 300, 5000])


def changed_bytes(dice, text):
    """Some bytes changed, cut or repeated."""
    text = bytearray(text)
    for _ in range(dice.choice([1, 1, 2, 5])):
        k, way = dice.randint(0, len(text)), dice.randrange(6)
        if way == 0:
            text[k:k] = dice.choice(BYTES)
        elif way == 1:
            del text[k:k + dice.choice([1, 1, 2, 9])]
        elif way == 2 and text:
            text[k % len(text)] = dice.randrange(256)
        elif way == 3 and text:
            text[k % len(text)] ^= 1 << dice.randrange(8)
        elif way == 4:
            del text[k:]
        else:
            j = dice.randint(0, len(text))
            text[k:k] = text[j:j + dice.choice([1, 4, 20])] * dice.choice([1, 1, 2, 100, 3000])
    return bytes(text[:MAX_BODY + 1])


# ---- import maps

MAP_KEYS = ["lib/", "lib/x/", "lib/x.js", "bare", "./a.js", "/a.js", "../a.js", "https://a.test/a.js", "https://a.test/", "https:", "",
    "/", "a b", "é/",
            "\U00010400", "//b.test/", "x:y", "node:fs", "lib//", "%", "lib/%2f/", ".", "..", "./"]
MAP_VALUES = ["/a.js", "./b.js", "/v1/", "https://a.test/b.js", "https://a.test/", "bare", "", "x:", "https://:bad/", "http://[::1]/",
    "//", "/%zz/", None, 7, -1e999,
              True, [], {}, "\ud83d\ude00", "data:,x", "file:///a.js"]
MAP_PIECES = list('{}[],:"\\ \n-+.eE0123456789') + ['"imports"', '"scopes"', '"integrity"', "null", "true", '"\\ud800"', '"\\u0041"',
    "1e999", "NaN", "//",
                                                  "\ufeff", "{}", "[]", '"":""', '"/":"/"', '"a":1', "\x00", "é"]
SPECIFIERS = ["lib/x.js", "lib/x/y.js", "bare", "./a.js", "/b.js", "lib/../../up", "https://a.test/a.js", "lib/https://:x/"]
MAP_MAIN = "".join('try { await import("%s"); print("there"); } catch (e) { print(e); }\n' % word for word in SPECIFIERS).encode()


def import_map(dice):
    """The text of an import map: rarely as it was made, mostly changed."""
    def names():
        return {dice.choice(MAP_KEYS): dice.choice(MAP_VALUES) for _ in range(dice.choice([0, 1, 2, 5]))}
    made = {}
    if dice.random() < 0.9:
        made["imports"] = names() if dice.random() < 0.9 else dice.choice(MAP_VALUES)
    if dice.random() < 0.6:
        scopes = {dice.choice(MAP_KEYS + ["/",
            "/a.js"]): names() if dice.random() < 0.9 else dice.choice(MAP_VALUES) for _ in range(dice.choice([0, 1, 2]))}
        made["scopes"] = scopes if dice.random() < 0.9 else dice.choice(MAP_VALUES)
    text = json.dumps(made if dice.random() < 0.95 else dice.choice(MAP_VALUES), ensure_ascii=dice.random() < 0.5)
    way = dice.random()
    if way > 0.2:
        tokens = re.findall(r'"(?:[^"\\]|\\.)*"|[A-Za-z0-9+-.]+|\s+|.', text)
        for _ in range(dice.choice([1, 1, 1, 2, 4])):
            change_list(dice, tokens, lambda: dice.choice(MAP_PIECES))
        text = "".join(tokens)
    raw = text.encode("utf-8", "surrogatepass")
    return changed_bytes(dice, raw) if way > 0.6 else raw


# ---- words

WORDS = ["run", "gen", "https://a.test/", "main.js", "--map", "map.json", "--workers", "1", "4", "16", "17", "0", "--trace", "--record",
    "--", "-", "", "--map=map.json",
         "--workers=2", "--workers=", "--map=", "--trace=1", "--help", "--version", "-h", "--Trace", "--work", "run ", "Run", "a.test",
         "https:", "https://a.test",
         "http://a.test/x/", "file:///", "../main.js", "main.js#f", "main.js?q", "//b.test/", "a b", "é", "\U00010400", "%", "data:,x",
         "01", "+1", "1e3",
         "4294967296", "99999999999999999999", "2147483647", "2147483648", "3", "64", "4097", "https://user:pw@a.test:99/%2e%2e/x",
         "https://a.test:65536/"]
WORD_LISTS = [["run", BASE, "main.js"], ["run", BASE, "main.js", "--trace"], ["run", BASE, "main.js", "--map", "map.json"],
    ["run", "--workers", "2", BASE, "main.js"],
              ["run", BASE, "main.js", "--record", "--trace"], ["run", "--", BASE, "main.js"], ["gen", "1", "3"],
              ["gen", "7", "16", "--workers=2"]]


def word_list(dice):
    """Words behind the program's name, as bytes without the byte 0."""
    words = list(dice.choice(WORD_LISTS)) if dice.random() < 0.8 else []
    for _ in range(dice.choice([0, 1, 1, 1, 2, 3, 10])):
        change_list(dice, words, lambda: dice.choice(WORDS))
    raw = [word.encode() for word in words[:3000]]
    if raw and dice.random() < 0.4:
        k = dice.randrange(len(raw))
        raw[k] = changed_bytes(dice, raw[k])[:100000]
    return [word.replace(b"\0", b"") for word in raw]


# ---- nesting: (what stands before, each opening, what stands inside, each closing, what stands behind), and whether a depth is P4

DEEP = [
    ("", "(", '"x"', ")", ";", True), ("", "{", "", "}", "", True), ("", "if(true){", "", "}", "", True),
    ("", "if(true){}else{", "", "}", "", True),
    ("", "try{", "", "}catch{}", "", True), ("", "try{throw 1}catch(e){".replace("1", '"x"'), "", "}", "", True),
    ("function f(){", "{", "", "}", "}", True),
    ("function f(a){return a}", "f(", "", ")", ";", True), ("", "print(", "", ")", ";", True), ("", "new Error(", "", ")", ";", True),
    ("", "import(", '"./a.js"', ")", ";", True),
    ("", "!", "true", "", ";", True), ("", "!(", "true", ")", ";", True), ("", "(!", "true", ")", ";", True),
    ("const a=", "(", '"x"', ")", ";", True),
    ("let a;a=", "(", '"x"', ")", ";", True), ("await ", "(", '"x"', ")", ";", True), ("print(await ", "(", '"x"', ")", ");", True),
    ("throw ", "(", '"x"', ")", ";", True),
    ("function f(){return ", "(", '"x"', ")", "}", True), ("export default ", "(", '"x"', ")", ";", True),
    ("if(", "(", '"x"', ")", "){}", True),
    ("export default function(){", "{", "", "}", "}", True), ("export const a=", "(", '"x"', ")", ";", True),
    ("", '""+(', '""', ")", ";", True),
    ("", '"x"===(', '"x"', ")", ";", True), ("", '"x"!==(', '"x"', ")", ";", True), ("", 'true&&(', 'true', ")", ";", True),
    ("", 'false||(', 'true', ")", ";", True),
    ("let a=", "(", '"x"', ")", ";", True), ("const a=await ", "(", '"x"', ")", ";", True), ("await ", "import(", '"./a.js"', ")", ";", True),
    ("let a;", "(", "a", ").b", ";", True), ("function f(){return f}", "(", "f", ")()", ";", True),
    ("export function f(){", "{", "", "}", "}", True),
]
LONG = [  # what may be repeated without depth
    ("let a;a", ".b", "", "", ";"), ("let a;a", "()", "", "", ";"), ('""', '+""', "", "", ";"), ("true", "&&true", "", "", ";"),
    ("true", "||true", "", "", ";"),
    ("true", "===true", "", "", ";"), ("true", "!==true", "", "", ";"), ("function f(){}f(", '"x",', "", "", ");"),
    ("print(", '"",', "", "", ");"), ("", ";", "", "", ""),
    ("", "{}", "", "", ""), ("", "if(true){}else{}", "", "", ""), ("", "try{}catch{}", "", "", ""), ('"', "x", "", "", '";'),
    ('"', "\\u0041", "", "", '";'),
    ('"', "\\\n", "", "", '";'), ("/*", "*", "", "", "*/"), ("//", "/", "", "", ""), ("#!", "!", "", "", ""), ("", "/**/", "", "", ""),
    ("", "\n", "", "", ""),
    ("let ", "a", "", "", ";"), ("print(a", "a", "", "", ");"), ("", "print();", "", "", ""), ("", 'import"./a.js";', "", "", ""),
    ("", 'import{}from"./a.js";', "", "", ""),
    ("", "export{};", "", "", ""), ("", 'export*from"./a.js";', "", "", ""), ("", "await 0;".replace("0", "true"), "", "", ""),
    ("", 'throw"";', "", "", ""),
    ("", "try{throw a;}catch(a){}", "", "", ""), ("", 'try{await import("./none.js")}catch{}', "", "", ""),
    ("", 'import("./a.js");', "", "", ""),
    ("let a", ",a", "", "", ";"), ("let a,b;export{", "a as b,", "", "", "};"), ("import{", "a as b,", "", "", '}from"./a.js";'),
    ("function f(", "a,", "", "", "){}"),
    ("", "!", "", "", ""), ("", "! ", "", "", ""), ("", "(", "", "", ""), ("", ")", "", "", ""), ("", "{", "", "", ""),
    ("", "}", "", "", ""), ("", '"', "", "", ""), ("", "'", "", "", ""),
    ("", "\\", "", "", ""), ("", "`", "", "", ""), ("", "a ", "", "", ""), ("", "a\n", "", "", ""), ("", "\ufeff", "", "", ""),
    ("", "\U00010400", "", "", ";"),
]
NUMBERED = [  # what may be repeated under many names, with what stands before and behind
    ("", form, "") for form in (
        "let a%d;", "function a%d(){}", 'import*as a%d from"./a.js";', 'import{a as a%d}from"./a.js";', "export const a%d=true;",
        'export{a as a%d}from"./a.js";', 'export*as a%d from"./a.js";', 'import"./n%d.js";', 'export*from"./n%d.js";', "try{a%d}catch{}",
        'import("./n%d.js");', "{let a%d;}", 'let a%d="x"+"y";', 'let a%d=new Error("x");')
] + [("{", "let a%d;", "}"), ("{let b", ",a%d", ";}"), ("function f(){", "let a%d;", "}f();"), ("function f(", "a%d,", "){}f();"),
     ("try{throw true}catch(b){", "const a%d=b;", "}"), ('let a,b="b";if(b){', "let a%d=a;", "}"), ("let b;export{", "b as a%d,", "};")]
FILL = 0  # as often as a text of 1 MiB holds


def nested(shape, many, closed):
    before, opening, inside, closing, behind = shape[:5]
    many = many or (MAX_BODY - len((before + inside + behind).encode())) // len((opening + (closing if closed else "")).encode())
    return (before + opening * many + inside + (closing * many if closed else "") + (behind if closed else "")).encode()


def called(what, many, closed):
    return "%s %s times, %s" % (what.strip(), many or "as many", "closed" if closed else "not closed")


def nesting_inputs():
    """Names of inputs with their texts, and whether P4 has to be said, or mustn't be, or None."""
    for shape in DEEP:
        own = sum(shape[0].count(sign) - shape[0].count(end) for sign, end in ("()", "{}")) if shape[1] != "!" else 0
        each = sum(shape[1].count(sign) - shape[1].count(end) for sign, end in ("()", "{}")) or 1
        most = (64 - own) // each
        for many, deep in ((1, False), (most, False), (most + 1, True), (1000, True), (FILL, True)):
            for closed in (True, False):
                yield called(shape[1], many, closed), nested(shape, many, closed), deep
    for shape in LONG:
        for many in (64, 65, 5000, FILL):
            for closed in (True, False):
                yield called(shape[0] + shape[1], many, closed), nested(shape, many, closed), None
    for before, form, behind in NUMBERED:
        for many in (65, 4096, MAX_BODY // (len(form) + 5)):
            text = before + "".join(form % k for k in range(many)) + behind
            yield "%s%s%s %d times" % (before, form, behind, many), text.encode()[:MAX_BODY + 1], None


def map_nesting_inputs():
    for opening, closing in (("[", "]"), ('{"a":', "}"), ('{"imports":', "}"), ('{"scopes":', "}"), ('{"scopes":{"/":', "}}")):
        for many in (1, 62, 63, 64, 65, 126, 127, 128, 1000, MAX_BODY // (len(opening) + len(closing))):
            for inside, closed in (("{}", True), ("", False)):
                text = opening * many + inside + (closing * many if closed else "")
                yield called(opening, many, closed), text.encode()[:MAX_BODY + 1]
    for name, one in (("keys", '"k%d/":"/v%d/"'), ("one text", '"./a%d/../k":"/v%d"'), ("slashes", '"' + "x/" * 400 + '%d/":"/v%d/"'),
        ("null", '"k%d":%d')):
        many = 1000000 // (len(one) + 8)
        yield "many %s" % name, ('{"imports":{' + ",".join(one % (k, k) for k in range(many)) + "}}").encode()
    yield "many scopes", ('{"scopes":{' + ",".join('"/s%d/":{"lib/":"/v/"}' % k for k in range(30000)) + "}}").encode()
    yield "long key", ('{"imports":{"lib/%s":"/a.js"}}' % ("x/" * 500000)).encode()
    yield "long value", ('{"imports":{"lib/":"/%s/"}}' % ("x" * 1000000)).encode()
    yield "too long", b" " * (MAX_BODY - 1) + b"{}"


def graphs():
    """Sites of many modules, each by name and with the status that it ends with."""
    def chain(many, line, foot):
        return {("n%d.js" % k if k else "main.js"): (line % (k + 1) if k + 1 < many else foot).encode() for k in range(many)}
    yield "a chain of 4,096", 0, chain(4096, 'import"./n%d.js";', "")
    yield "a chain of 4,097", 5, chain(4097, 'import"./n%d.js";', "")
    yield "a cycle of 4,096", 0, chain(4096, 'import"./n%d.js";', 'import"./main.js";')
    yield "a cycle of 4,096 that throws", 1, chain(4096, 'import"./n%d.js";', 'import"./main.js";await true;throw"x";')
    yield "a chain of 4,096 awaits", 0, chain(4096, 'import"./n%d.js";await true;', "await true;")
    yield "a chain of 4,096 stars", 0, chain(4096, 'export*from"./n%d.js";', 'export const a="x";')
    yield "a cycle of 4,096 stars", 0, chain(4096, 'export*from"./n%d.js";', 'export*from"./main.js";')
    yield "a chain of 4,096 re-exports", 0, chain(4096, 'export{a}from"./n%d.js";', 'export const a="x";')
    yield "a cycle of 4,096 re-exports", 1, chain(4096, 'export{a}from"./n%d.js";', 'export{a}from"./main.js";')
    yield "a chain of 4,096 awaited import()s", 0, chain(4096, 'await import("./n%d.js");', "")
    yield "a cycle of 64 awaited import()s", 7, chain(64, 'await import("./n%d.js");', 'await import("./main.js");')


# ---- outside

def outside_sites():
    """Names of sites whose entry file is no plain file, each with what makes it in the present folder."""
    def link(to):
        return lambda: os.symlink(to, "a.test/main.js")
    yield "a folder", lambda: os.mkdir("a.test/main.js")
    yield "a link to itself", link("main.js")
    yield "a link to nothing", link("nothing")
    yield "a link to an endless file", link("/dev/zero")
    yield "a link to no bytes", link("/dev/null")
    yield "a file of a terabyte without content", lambda: (open("a.test/main.js", "w").close(), os.truncate("a.test/main.js", 1 << 40))
    yield "a file that mayn't be read", lambda: (open("a.test/main.js", "w").close(), os.chmod("a.test/main.js", 0))


# ---- memory: the site, and what refuses allocations

SITE = {
    "main.js": 'import { b, set } from "./b.js"; import * as all from "./c.js"; import "mapped";\nexport let a = "a"; set("x"); print(b, all, a);\n'
               'let late = await import("./late.js"); print(late.value());\ntry { await import("./none.js"); } catch (e) { print(e); }\n'
               'try { await import("./bad.js"); } catch (e) { print(e); }\nprint(new Error("e" + a).message === "ea");\n',
    "b.js": 'import { c } from "./c.js"; export let b = "b"; export function set(x) { b = x + c(); } await undefined; print("b");\n',
    "c.js": 'import "./main.js"; export * from "./d.js"; export function c() { return "c"; }\nprint("c");\n',
    "d.js": 'export const d = await "d"; export default function () {}\ntry { throw new Error("d"); } catch (e) { print(e); }\n',
    "late.js": 'import { d } from "./d.js"; import "./late2.js"; export function value() { return d + "late"; }\nprint("late");\n',
    "late2.js": 'import "./late.js"; await true; print("late2");\n', "bad.js": 'import { nothing } from "./c.js";\n',
    "m.js": 'print(import.meta.url);\n',
    "map.json": '{"imports":{"mapped":"/m.js"},"scopes":{"/x/":{"y/":"/z/"}}}',
}
REFUSER = r"""
#define _GNU_SOURCE
#include <dlfcn.h>
#include <fcntl.h>
#include <link.h>
#include <stdatomic.h>
#include <stdio.h>
#include <stdlib.h>
#include <sys/mman.h>
#include <unistd.h>
/* In place of the C library's malloc, realloc and calloc: those that the program itself calls are counted, and one is refused. */
static atomic_long here, *calls = &here;
static long at = -1, on;
static uintptr_t from, to;
static void *(*real_malloc)(size_t), *(*real_realloc)(void *, size_t), *(*real_calloc)(size_t, size_t);
static int own(struct dl_phdr_info *info, size_t size, void *data) {
    for (int i = 0; i < info->dlpi_phnum; i++) {
        uintptr_t start = info->dlpi_addr + info->dlpi_phdr[i].p_vaddr;
        if (info->dlpi_phdr[i].p_type != PT_LOAD) continue;
        if (!from || start < from) from = start;
        if (start + info->dlpi_phdr[i].p_memsz > to) to = start + info->dlpi_phdr[i].p_memsz;
    }
    return 1;
}
static void begin(void) {
    real_realloc = dlsym(RTLD_NEXT, "realloc");
    real_calloc = dlsym(RTLD_NEXT, "calloc");
    real_malloc = dlsym(RTLD_NEXT, "malloc");
}
__attribute__((constructor)) static void start(void) {
    const char *one = getenv("REFUSE_AT"), *all = getenv("REFUSE_ON"), *path = getenv("REFUSE_COUNT");
    if (!real_malloc) begin();
    dl_iterate_phdr(own, 0);
    on = all != 0;
    if (one) at = atol(one);
    if (path) {  /* the count stands in a file, since the program may end without leave */
        int file = open(path, O_RDWR | O_CREAT | O_TRUNC, 0600);
        if (ftruncate(file, sizeof here) == 0) calls = mmap(0, sizeof here, PROT_READ | PROT_WRITE, MAP_SHARED, file, 0);
    }
}
static int refused(void *caller) {
    if ((uintptr_t)caller < from || (uintptr_t)caller >= to) return 0;
    long call = ++*calls;
    return at > 0 && (on ? call >= at : call == at);
}
void *malloc(size_t size) { if (!real_malloc) begin(); return refused(__builtin_return_address(0)) ? 0 : real_malloc(size); }
void *realloc(void *old, size_t size) { if (!real_malloc) begin(); return refused(__builtin_return_address(0)) ? 0 : real_realloc(old, size); }
void *calloc(size_t many, size_t size) { if (!real_malloc) begin(); return refused(__builtin_return_address(0)) ? 0 : real_calloc(many, size); }
"""


# ---- dear: what costs most within the limits

def doubled(leaf, times):
    """A body that calls a function 2^times times."""
    text = "function d0() { %s }" % leaf
    for k in range(1, times + 1):
        text += "function d%d() { d%d(); d%d(); }" % (k, k - 1, k - 1)
    return text + "d%d();" % times


def long_text(name):
    """Declares a text of 64 KiB under this name."""
    return 'let %s = "x";' % name + "%s = %s + %s;" % (name, name, name) * 16


def many_files(first, other):
    """Sixteen modules, of which the entry imports the others and has the first text behind that."""
    files = {"m%d.js" % k: other for k in range(1, 16)}
    return dict(files, **{"main.js": "".join('import "./%s";' % name for name in files) + first})


def stars(many):
    """A chain of modules, each of which exports a name and all that the next does, and imports the next as a namespace."""
    line = 'import * as all from "./m%d.js"; export * from "./m%d.js"; export const a%d = "";'
    files = {"m%d.js" % k: line % (k + 1, k + 1, k) for k in range(many - 1)}
    return dict(files, **{"main.js": 'import "./m0.js";', "m%d.js" % (many - 1): ""})


def urls_of_one_hash(is_one):
    """A module that requests 4,000 empty ones 24,000 times, by URLs of over 3,000 bytes."""
    folder = "/".join(["d" * 200] * 15) + "/"
    begin = len(BASE + folder)
    names = [url[begin:].decode() for url in of_one_hash((BASE + folder).encode(), 4000)[0 if is_one else 1]]
    requests = "".join('import"%s%s";' % ("./" * (k // 4000 + 1), names[k % 4000]) for k in range(24000))
    return dict({folder + name: "" for name in names}, **{"main.js": 'import"./%sall.js";' % folder, folder + "all.js": requests})


def requests_of_one_hash(is_one):
    """A module that requests 25,000 others."""
    return {"main.js": b"".join(b"import'%s';" % name for name in of_one_hash(b"./", 25000)[0 if is_one else 1])}


def exports_of_one_hash(is_one):
    """A module that exports 27,000 names, one of which another imports."""
    names = of_one_hash(b"x", 27000, after_number(1))[0 if is_one else 1]
    return {"main.js": b"import{%s as y}from'./m.js';" % names[0], "m.js": b"let x;export{%s}" % b",".join(b"x as %s" % name for name in names)}


def loads_that_fail():
    """4,096 import()s of a module of 7,000 requests, the last of which isn't there."""
    files = {"m%d.js" % k: "" for k in range(60)}
    requests = "".join('import"%sm%d.js";' % ("./" * (k // 60 + 1), k % 60) for k in range(7000))
    return dict(files, **{"main.js": doubled('import("./big.js");', 12), "big.js": requests + 'import"./none.js";'})


NAMES = "".join("let a%d;" % k for k in range(95000))
DEAR = [  # names of sites that cost much, with what makes their files
    ("a function of 250,000 operands, called 128 times", lambda: {"main.js": "let a; " + doubled("||".join(["a"] * 250000) + ";", 7)}),
    ("a function of 970,000 bytes, called behind each of 1,000 awaits", lambda: {
        "main.js": "let a; function f() { if (true) { return; } %s }" % ("a;" * 485000) + "f(); await true;" * 1000}),
    ("an import map of 1 MiB of objects of one member", lambda: {
        "main.js": "", "map.json": '{"x":[%s0]}' % (('{"":' * 120 + "0" + "}" * 120 + ",") * 1741)}),
    ("20,000 comparisons of texts of 64 KiB, called 32 times", lambda: {
        "main.js": long_text("t") + long_text("u") + doubled("||".join(["t !== u"] * 20000) + ";", 5)}),
    ("a function that declares 90,000 names, called once", lambda: {
        "main.js": doubled("let %s;" % ",".join("a%d" % k for k in range(90000)), 0)}),
    ("131,072 errors with messages of 64 KiB", lambda: {"main.js": long_text("t") + doubled("new Error(t);", 17)}),
    ("an error round an error, 8,192 deep", lambda: {"main.js": 'let e = new Error("x");' + doubled("e = new Error(e);", 13)}),
    ("4,096 import()s of a text of 64 KiB", lambda: {"main.js": long_text("t") + doubled("import(t);", 12)}),
    ("900 texts of 64 KiB, all held", lambda: {
        "main.js": long_text("s").replace("s = s + s;", "", 1) + "".join("let t%d = s + s;" % k for k in range(900))}),
    ("16 MiB of log", lambda: {"main.js": long_text("t") + "print(t);" * 255}),
    ("16 MiB of empty statements", lambda: many_files(";" * 1048000, ";" * 1048000)),
    ("16 MiB of statements of two bytes", lambda: many_files("let a;" + "a\n" * 523000, "let a;" + "a\n" * 523000)),
    ("15 MiB of declared names", lambda: many_files("", NAMES)),
    ("a specifier of 100,000 slashes under a key as long", lambda: {
        "main.js": 'import "%sy";' % ("x/" * 100000), "map.json": '{"imports":{"%s":"/"}}' % ("x/" * 100000)}),
    ("4,095 modules that await 200 times each", lambda: dict(
        {"m%d.js" % k: "await true;" * 200 for k in range(1, 4096)},
        **{"main.js": "".join('import"./m%d.js";' % k for k in range(1, 4096))})),
    ("a chain of 2,000 stars, each with its namespace", lambda: stars(2000)),
    ("a member of 1,000 read 131,072 times", lambda: {
        "main.js": 'import * as all from "./m.js";' + doubled("all.a999;", 17),
        "m.js": "export let " + ",".join("a%d" % k for k in range(1000)) + ";"}),
    ("4,000 URLs of one hash, requested 24,000 times", lambda: urls_of_one_hash(True)),
    ("4,000 URLs of other hashes, requested 24,000 times", lambda: urls_of_one_hash(False)),
    ("25,000 specifiers of one hash", lambda: requests_of_one_hash(True)),
    ("25,000 specifiers of other hashes", lambda: requests_of_one_hash(False)),
    ("27,000 exported names of one hash", lambda: exports_of_one_hash(True)),
    ("27,000 exported names of other hashes", lambda: exports_of_one_hash(False)),
    ("4,096 import()s whose loads fail at the last of 7,000 requests", loads_that_fail),
    ("a name of 95,000 read 131,072 times", lambda: {"main.js": NAMES[:1040000].rsplit(";", 1)[0] + ";" + doubled("a90000;", 17)}),
]
