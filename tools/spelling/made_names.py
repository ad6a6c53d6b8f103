"""Names that are made by chance, of what C++ and gdb's grammar know: most are right, some are near a right one."""
import random

WORDS = ("unsigned", "signed", "int long", "long unsigned", "int long long", "char unsigned", "signed long int", "int short unsigned",
         "long signed long", "long int unsigned")
INTEGERS = ("int", "unsigned int", "long int", "long unsigned int", "unsigned long", "short int", "short unsigned int", "char",
            "signed char", "unsigned char", "long long int", "long long unsigned int", "unsigned long long")
BUILTINS = ("bool", "void", "double", "float", "wchar_t", "long double", "char16_t", "__int128", "__int128 unsigned")
NAMES = ("A", "B", "std", "N", "basic_string", "_Tp", "vector", "x1", "(anonymous namespace)", "value_type")
QUALIFIERS = ("const", "volatile", "restrict", "const volatile", "volatile const")
NUMBERS = ("0", "1", "2", "42", "-1", "0x1f", "0X2Fu", "017", "0b11", "5u", "7l", "8ul", "9LU", "3ll", "4ull", "-3l", "65535", "0xeL")
CHARACTERS = ("'a'", "'\\n'", "'\\0'", "'\\177'", "'\\''", "'('", "' '", "'\\x41'", "'ab'", "L'a'")
FLOATS = ("1.5", "-2.5f", "1.0e+0", "3e5", "1.5l", "2.", "-0x1e", "1e", "1.5x")
OPERATORS = ("+", "-", "*", "/", "%", "^", "&", "|", "~", "!", "=", "<", ">", "+=", "-=", "*=", "/=", "%=", "^=", "&=", "|=", "<<", ">>",
             "<<=", ">>=", "==", "!=", "<=", ">=", "&&", "||", "++", "--", ",", "->*", "->", "()", "[]", " new", " delete", " new[]",
             " delete[]", "<=>", "\"\" _s", " co_await")
BINARY = ("+", "-", "*", "/", "%", "<<", ">>", "==", "!=", "<=", ">=", "<", "&", "^", "|", "&&", "||", ">")


class Maker:
    """Makes names from one seed.  `odd` says how often something stands that is seldom written."""

    def __init__(self, seed, odd=0.05):
        self.chance = random.Random(seed)
        self.odd = odd

    def pick(self, choices):
        return self.chance.choice(choices)

    def often(self, part):
        return self.chance.random() < part

    def blank(self, part=0.1):
        return " " if self.often(part) else ""

    def qualifiers(self, part):
        return self.pick(QUALIFIERS) if self.often(part) else ""

    def builtin(self):
        if self.often(self.odd):
            return self.pick(WORDS)
        return self.pick(INTEGERS) if self.often(0.7) else self.pick(BUILTINS)

    def name(self, deep):
        """A name with its scopes, each of which may have arguments."""
        parts = [self.pick(NAMES) + (self.arguments(deep - 1) if deep > 0 and self.often(0.4) else "")
                 for _ in range(self.chance.choice((1, 1, 1, 2, 2, 3)))]
        return ("::" if self.often(self.odd) else "") + "::".join(parts)

    def arguments(self, deep):
        if self.often(self.odd / 4):
            return "<>"
        inner = self.pick((",", ", ", ", ", " ,")).join(self.argument(deep) for _ in range(self.chance.choice((1, 1, 2, 2, 3))))
        close = ">" if self.often(self.odd) or not inner.endswith(">") else " >"
        return "<" + self.blank(0.05) + inner + self.blank(0.05) + close

    def argument(self, deep):
        kind = self.chance.random()
        if kind < 0.62:
            return self.type(deep)
        if kind < 0.78:
            return self.literal()
        if kind < 0.92:
            return self.cast(deep)
        return self.address(deep) if self.often(0.7) or not self.often(4 * self.odd) else self.expression(deep)

    def literal(self):
        if self.often(self.odd):
            return self.pick(FLOATS)
        return self.pick(NUMBERS + ("true", "false")) if self.often(0.85) else self.pick(CHARACTERS)

    def cast(self, deep):
        kind = self.pick((self.pick(INTEGERS), "bool", self.name(0), self.name(deep - 1), self.type(0)))
        text = "(%s)%s" % (kind, self.literal())
        return "(%s)" % text if self.often(self.odd) else text

    def address(self, deep):
        text = "&" + self.blank(0.5) + self.name(deep - 1)
        if self.often(self.odd):
            text += self.parameters(0)
        if self.often(0.5):
            text = "(%s)" % text
        return "((%s)%s)" % (self.type(0), text) if self.often(2 * self.odd) else text

    def expression(self, deep):
        if deep <= 0 or self.often(0.4):
            return self.literal()
        kind = self.chance.random()
        if kind < 0.6:
            return self.pick(("%s%s%s", "%s %s %s", "(%s%s%s)")) % (self.expression(deep - 1), self.pick(BINARY), self.expression(deep - 1))
        if kind < 0.8:
            return self.pick("-!~") + self.expression(deep - 1)
        return self.pick(("sizeof(%s)", "sizeof (%s)", "static_cast<%s>(1)")) % self.type(0)

    def type(self, deep):
        specifier = self.builtin() if self.often(0.5) else self.name(deep)
        before, behind = self.qualifiers(0.2), self.qualifiers(0.15)
        return " ".join(part for part in (before, specifier, behind) if part) + self.declarator(deep)

    def pointers(self, count):
        """Pointers, of which the last may be a reference: behind a reference stands nothing more."""
        last = self.often(0.4) if count else 0
        text = "".join(self.pointer() for _ in range(count - last))
        return text + (self.blank(0.3) + self.pick(("&", "&&")) if last else "")

    def pointer(self):
        if self.often(0.15):
            text = " " + self.pick(("::", "", "")) + self.pick(("C", "A<long int>", "N::C")) + "::*"
        else:
            text = self.blank(0.3) + "*"
        return text + self.qualifiers(0.15)

    def declarator(self, deep):
        kind = self.chance.random()
        pointers = self.pointers(self.chance.choice((0, 0, 0, 1, 1, 2)))
        if kind < 0.82:
            return pointers
        if kind < 0.89:
            return pointers + self.blank(0.7) + self.bounds()
        return pointers + self.blank(0.7) + "(" + self.inner(deep) + ")" + (self.parameters(deep - 1) if self.often(0.7) else self.bounds())

    def inner(self, deep):
        text = self.pointers(self.chance.choice((1, 1, 1, 2))).lstrip()
        if self.often(2 * self.odd):
            return text + "(" + self.inner(deep - 1) + ")" + (self.parameters(0) if self.often(0.6) else self.bounds())
        return text + (self.bounds() if self.often(self.odd) else "")

    def bounds(self):
        return "".join("[" + self.pick(("", "3", "5ul", "'a'", "2")) + "]" for _ in range(self.chance.choice((1, 1, 1, 2))))

    def parameters(self, deep):
        count = self.chance.choice((0, 0, 1, 1, 1, 2, 3))
        inside = ", ".join(self.type(deep) for _ in range(count)) if count else self.pick(("", "void"))
        if count and self.often(self.odd):
            inside += self.pick((", ...", ",...", "..."))
        return "(" + inside + ")" + self.pick(("", "", "", " const", " volatile const", " &", " noexcept") if self.often(4 * self.odd) else ("",))

    def operator(self, deep):
        if self.often(0.4):
            return "operator " + self.type(deep)
        return "operator" + self.pick(OPERATORS) + (self.blank(0.3) + self.arguments(deep) if self.often(0.5) else "")

    def function(self, deep):
        """A function's name: with its parameters, behind the type that it returns, or a special one."""
        name = self.name(deep)
        if self.often(0.3):
            name = (self.name(0) + "::" if self.often(0.5) else "") + self.operator(deep)
        elif self.often(0.15):
            name = self.pick(("A::", "")) + "~A" + self.pick(("", "<int>", "<long int>"))
        if self.often(0.3):
            name = self.type(deep) + " " + name
        if self.often(0.7):
            name += self.parameters(deep)
        return name + ("::" + self.name(0) if self.often(2 * self.odd) else "")

    def whole(self, deep=3):
        kind = self.chance.random()
        if kind < 0.55:
            return self.name(deep)
        if kind < 0.75:
            return self.type(deep)
        return self.operator(deep) if kind < 0.85 else self.function(deep)


def made_names(count, seed, odd=0.05, longest=120):
    """So many different names."""
    maker, names = Maker(seed, odd), {}
    while len(names) < count:
        name = maker.whole()
        if len(name) <= longest:
            names[name.encode()] = None
    return list(names)
