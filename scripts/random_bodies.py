"""Random modules whose bodies do much: blocks that declare few names or many, functions that call each other, throws, writes and awaits.
They import each other's names, so that some are read before they are set. Every call ends: a function calls only those behind it."""

FEW = ["a", "b", "c", "d", "e"]
MANY = ["w%d" % i for i in range(26)]
DOWN = """function down%d(p) {
    if (p === "xxxxxxxxxxxxxxxxxxxx") { %s }
    const q = down%d(p + "x");
    return "a" + (q === p) + q;
}"""


class Body:
    def __init__(self, dice, i, many):
        self.dice, self.i, self.many = dice, i, many
        self.others = [j for j in range(many) if j != i]
        self.functions = ["f%d%d" % (i, k) for k in range(dice.randint(1, 4))]
        # In a function: which one. How many statements may still nest.
        self.inside, self.left = None, 0

    # ---- expressions

    def name(self, scope):
        return "nope" if self.dice.random() < 0.04 else self.dice.choice(scope)

    def simple(self, scope):
        kind = self.dice.random()
        if kind < 0.55:
            return self.name(scope)
        return self.dice.choice(['"x"', "'y'", '""', '"z1"'] if kind < 0.75 else ["true", "false", "undefined"])

    def flat(self, scope, depth):
        """What `+` joins to a text here and in node alike."""
        compared = "(%s === %s)" % (self.expr(scope, depth + 1), self.expr(scope, depth + 1))
        return self.dice.choice(['"j"', "true", "undefined", compared, "!" + self.simple(scope)])

    def called(self, arguments):
        known = [f for k, f in enumerate(self.functions) if self.inside is None or k > self.inside]
        known += [] if self.inside is not None else ["f%d0" % j for j in self.others]
        return "%s(%s)" % (self.dice.choice(known), ", ".join(arguments)) if known else None

    def chain(self, sign, scope, depth, many):
        return "(%s)" % sign.join(self.expr(scope, depth + 1) for _ in range(many))

    def expr(self, scope, depth=0):
        kind = self.dice.random() if depth < 3 else 0
        if kind < 0.3:
            return self.simple(scope)
        if kind < 0.42:
            return '("t" + %s)' % " + ".join(self.flat(scope, depth) for _ in range(self.dice.randint(1, 3)))
        if kind < 0.52:
            return self.chain(self.dice.choice([" === ", " !== "]), scope, depth, 2)
        if kind < 0.72:
            return self.chain(self.dice.choice([" && ", " || "]), scope, depth, self.dice.randint(2, 3))
        if kind < 0.78:
            return "!" + self.expr(scope, depth + 1)
        if kind < 0.84:
            return "new Error(%s)" % self.flat(scope, depth + 1)
        return self.called([self.expr(scope, depth + 1) for _ in range(self.dice.randint(0, 3))]) or self.simple(scope)

    def awaited(self, scope):
        if self.dice.random() < 0.15:
            return 'import("./m%d.js")' % self.dice.randrange(self.many + 1)
        return self.dice.choice([self.simple(scope), "(%s)" % self.expr(scope, 1)])

    def value(self, scope):
        if self.inside is None and self.dice.random() < 0.15:
            return "await " + self.awaited(scope)
        return self.expr(scope)

    # ---- statements

    def declared(self, name, scope):
        form = self.dice.choice(["let {n} = {v};", "let {n} = {v};", "const {n} = {v};", "let {n};"])
        return form.format(n=name, v=self.value(scope))

    def block(self, scope, depth, taken=()):
        wide = self.dice.random() < 0.12
        names = self.dice.sample(MANY, self.dice.randint(15, 24)) if wide else self.dice.sample(FEW, self.dice.choice([0, 0, 1, 2, 3]))
        names = [name for name in names if name not in taken]
        inner = scope + names * 2
        parts = [self.declared(name, inner) for name in names]
        parts += [self.statement(inner, depth + 1) for _ in range(self.dice.randint(1, 3))]
        if wide:
            parts += ["print(%s);" % ", ".join(self.dice.sample(names, 5)), "%s = %s;" % (self.dice.choice(names), self.expr(inner, 1)),
                      "print(%s);" % ", ".join(names)]
        elif self.dice.random() < 0.5:
            self.dice.shuffle(parts)
        return "{ %s }" % " ".join(parts)

    def nested(self, scope, depth):
        kind, block = self.dice.random(), lambda: self.block(scope, depth)
        if kind < 0.2:
            return "if (%s) %s" % (self.expr(scope), block())
        if kind < 0.4:
            return "if (%s) %s else %s" % (self.expr(scope), block(), block())
        if kind < 0.75:
            return "try %s catch (e) %s" % (block(), self.block(scope + ["e"] * 3, depth, ["e"]))
        return "try %s catch %s" % (block(), block()) if kind < 0.85 else block()

    def statement(self, scope, depth):
        self.left -= 1
        kind = self.dice.random() * (0.5 if self.left < 0 or depth > 3 else 1)
        if kind < 0.3:
            return "print(%s);" % ", ".join(self.expr(scope) for _ in range(self.dice.randint(1, 2)))
        if kind < 0.45:
            return "%s = %s;" % (self.name(scope), self.value(scope))
        if kind < 0.5:
            return "%s;" % (self.called([self.expr(scope, 1)]) or "print()")
        if kind < 0.84:
            return self.nested(scope, depth)
        if kind < 0.89:
            return "throw %s;" % self.expr(scope)
        if self.inside is not None:
            return self.dice.choice(["return;", "return %s;" % self.expr(scope)])
        return self.dice.choice(["await %s;", "print(await %s);"]) % self.awaited(scope)

    # ---- the module

    def function(self, k, scope):
        self.inside, self.left = k, 25
        inner = scope + ["p", "r"] * 2
        lines = ["print(\"in %s\", p);" % self.functions[k]] + [self.statement(inner, 1) for _ in range(self.dice.randint(1, 4))]
        lines += ["return %s;" % self.expr(inner)] if self.dice.random() < 0.6 else []
        self.inside = None
        return "%sfunction %s(p, r) { %s }" % ("" if k else "export ", self.functions[k], " ".join(lines))

    def top(self, scope):
        caught = 'try {{ {} }} catch (x) {{ print("{} caught", x); }}'
        lines = ["export let g%d = %s;" % (self.i, self.value(scope)), "let h%d;" % self.i,
                 'try { print(down%d("")); } catch (e) { print(e); }' % self.i]
        lines += [caught.format(self.statement(scope, 1), self.i) for _ in range(self.dice.randint(3, 7))]
        lines += [self.statement(scope, 1) for _ in range(self.dice.randint(0, 1))]
        if self.dice.random() < 0.4:
            self.dice.shuffle(lines)
        return lines

    def text(self):
        scope = ["g%d" % self.i, "h%d" % self.i] * 2 + ["g%d" % j for j in self.others] + self.functions[:1]
        lines = ['import { f%d0, g%d } from "./m%d.js";' % (j, j, j) for j in self.others]
        lines += [self.function(k, scope) for k in range(len(self.functions))]
        lines.append(DOWN % (self.i, self.dice.choice(['return "end";', 'throw new Error("deep");', "return;"]), self.i))
        self.left = 60
        return "\n".join(lines + ['print("begin %d");' % self.i] + self.top(scope) + ['print("end %d");' % self.i])


def bodies(dice):
    many = dice.randint(1, 3)
    site = {"./m%d.js" % i: Body(dice, i, many).text() for i in range(many)}
    return {"./main.js": 'import "./m0.js"; print("main");', **site}
