"""Cuts an LLVM module, as text, into parts that are compiled side by side: the module of a program that is built
without its proof, as the toolchain makes it to be run with AddressSanitizer.
"""
import re
import zlib

# The most bytes of text of a part, and of a function that is copied into each part that calls it.
PART, SMALL = 4 << 20, 6000
SYMBOL = re.compile(r'@(?:"[^"]*"|[\w.$]+)')
# In these crates a function is compiled with the one before it in the module, which mostly is its caller.
NEAR_CALLER = ("core", "std", "std_alloc", "std_collections", "std_heap", "std_io")
SAID = "a check failed that a proof rules out; this program was built without one"
# What is called where a check fails, in place of a bare trap.
FAILED = f"""@"build::said" = private constant [{len(SAID) + 1} x i8] c"{SAID}\\0A"
define internal void @"build::failed"() cold noinline noreturn nounwind {{
  %r = call i64 @write(i32 2, ptr @"build::said", i64 {len(SAID) + 1})
  call void @llvm.trap()
  unreachable
}}
"""


def plain(text):
    """The text without what fills locals, so that a read before a write shows, and without AddressSanitizer's marks;
    a check that fails says so."""
    text = re.sub(r"\n  call void @llvm\.memset\.p0\.i64\(ptr %r\d+, i8 -86,[^\n]*", "", text)
    text = text.replace(" sanitize_address", "").replace("call void @llvm.trap()", 'call void @"build::failed"()')
    text = re.sub(r'\n(attributes #\d+ = \{)( "frame-pointer"="all" \})', r"\n\1 alwaysinline\2", text)
    return text + (FAILED if "@write(" in text else FAILED + "declare i64 @write(i32, ptr, i64)\n")


class Module:
    """A module: the functions of which it has bodies, and what stands beside them, by their symbols. What is exported
    has a name in C besides, and where something is, what that doesn't reach is left out."""

    def __init__(self, text, exported):
        text = plain(text)
        self.head, self.tail = ("".join(re.findall(f"(?m)^(?:{it}).*\n", text)) for it in ("target ", "attributes|!"))
        self.beside = {SYMBOL.search(it)[0]: it for it in re.findall(r"(?m)^(?:@|declare ).*\n", text)}
        self.bodies = {SYMBOL.search(it)[0]: it for it in re.findall(r"(?ms)^define .*?^\}\n", text)}
        self.named = {symbol: dict.fromkeys(SYMBOL.findall(re.sub(r'\bc"[^"]*"', "", it)))
                      for symbol, it in (self.beside | self.bodies).items()}
        self.exported, self.outside = exported, {*exported, "@main"}
        self.small = {it for it, body in self.bodies.items() if len(body) < SMALL} - self.outside

    def reached(self, symbols, through):
        """What these functions name, and in turn what is named by what passes this test."""
        found, waiting = dict.fromkeys(sorted(symbols)), sorted(symbols)
        while waiting:
            new = [it for it in self.named[waiting.pop()] if it not in found]
            found.update(dict.fromkeys(new))
            waiting += filter(through, new)
        return found

    def part(self, own):
        """The text of a part with these functions: with them stand the small ones that they call."""
        made = [f"@{self.exported[it]} = alias void (), ptr {it}\n" for it in sorted(own) if it in self.exported]
        for symbol in self.reached(own, lambda it: it in self.small or it in self.beside):
            text = self.bodies.get(symbol) or self.beside[symbol]
            if symbol in own - self.outside:
                text = text.replace("define internal ", "define hidden ", 1)
            elif symbol in self.bodies and symbol not in own and symbol not in self.small:
                text = re.sub(r"^define (internal )?(.*) \{", r"declare hidden \2", text.split("\n", 1)[0]) + "\n"
            made.append(text)
        numbers = {}  # so that a part stays as it is where constants of others come or go
        return re.sub(r"@static\.\d+", lambda it: numbers.setdefault(it[0], f"@static.{len(numbers)}"),
                      "".join([self.head, *made, self.tail]))

    def parts(self):
        """The text of each part: the functions of a crate, in several where these are large."""
        groups, near = {}, ""
        wanted = self.reached(self.exported, self.bodies.get) if self.exported else self.bodies
        for symbol in self.bodies:
            crate = symbol.lstrip('@"').split("::", 1)[0]
            near = near if crate in NEAR_CALLER else crate
            if symbol in wanted and symbol not in self.small:
                groups.setdefault(near, []).append(symbol)
        for group in groups.values():
            cuts = -(-sum(len(self.bodies[it]) for it in group) // PART)
            for cut in range(cuts):
                yield self.part({it for it in group if zlib.crc32(it.split("::<")[0].encode()) % cuts == cut})
