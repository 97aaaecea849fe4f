"""Random import maps, and specifiers that mostly begin as one of their keys does. Not among them is what node 20 reads otherwise than the
URL Standard: `..` behind `no://h/`, of which it makes `no://h`, and `x#f` against `blob:z/`, which it takes."""
import json

KEYS = ["a", "a/", "a/b/", "./x", "/x/", "../y", "https://b.test/", "https://b.test/p/", "b", "lib/", "", "http://H.test:80/Q", "data:x/",
        "https://a.test/", "./", "/", "%61/", "a%2fb", "https://:x/", "file:///f/", "ws://w.test/", "lib", "./x/", "/x", "https://b.test",
        "a/b", "..", "../", ".", "http://1.2.3/", "http://0x7f.1/", "blob:a/", "a//", "https://b.test/p", "A", "a?", "a#/", "mailto:q"]
ADDRESSES = ["./t", "/t/", "https://c.test/", "https://c.test/d/", None, 7, "bare", "../u/", "data:text/x", "https://:bad",
             "HTTP://C.test:80/%7e/", "/t", "./t/", "https://c.test/d?q/", "https://c.test/d#/", "file:///g/", "",
             "https://c.test", "/t/../v/", "no://z/y/", "ws://w/"]
SCOPES = ["/zz/", "./zz/", "/zz/q/", "https://a.test/", "", "../", "https://a.test/zz/q/m.js", "https://:x/", "zz", "zz/", "/zz/q/m.js",
          "https://b.test/", "?", "/zz/r.js"]
RESTS = ["x", "./c", ".././..", "../../e", "%2e%2e/x", "b/c.js", "", "a b", "#f", "?q", "//h.test/", "https://a.test/", "https://:x/", "..",
         "/root", "./", "b", "b/", "p/", "p/q", "d/../../e", "\u00e9", "%zz", "data:k", "y/"]
REFERRERS = ["https://a.test/zz/q/m.js", "https://a.test/zz/r.js", "https://a.test/top.js"]


def longer(dice, text, often):
    return text + dice.choice(RESTS) if dice.random() < often else text


def entries(dice):
    return {longer(dice, dice.choice(KEYS), 0.15): dice.choice(ADDRESSES) for _ in range(dice.randint(0, 5))}


def maybe(dice, value, others):
    return value if dice.random() < 0.98 else dice.choice(others)


def case(dice):
    imports, scopes = entries(dice), {dice.choice(SCOPES): entries(dice) for _ in range(dice.randint(0, 3))}
    keys = [key for part in (imports, *scopes.values()) for key in part] + ["no://h/"]
    specifiers = [longer(dice, dice.choice(keys if dice.random() < 0.6 else KEYS), 0.6) for _ in range(24)]
    scopes = {prefix: maybe(dice, part, [7, None]) for prefix, part in scopes.items()}
    whole = {"imports": maybe(dice, imports, [7, None, [], "x"]), "scopes": maybe(dice, scopes, [[], "x"])}
    text = json.dumps(maybe(dice, whole, [[], None, 7]), ensure_ascii=False)
    specifiers = [text for text in specifiers if not (text.startswith("no:") and ".." in text)]
    return {"map": text, "specifiers": specifiers, "referrers": REFERRERS}
