#!/usr/bin/env python3
"""compare.py FRAMES FILE.. -- PROGRAM..: holds a pool lister to javap over class files.

FRAMES are those of the class files, in their order. Of javap's text for a file each entry's kind, value and direct references are
taken, and its bootstrap methods; they are opened here, and must be what the listing's line reads as. Besides, a line must say what
javap's own comment behind // says. Javap drops spaces at the end of a line, so no source has a text that ends with one. Status 1 at a
difference.
"""
import re
import struct
import subprocess
import sys

LEVELS = 8
HANDLE_KINDS = ("getField getStatic putField putStatic invokeVirtual invokeStatic invokeSpecial newInvokeSpecial "
                "invokeInterface").split()
BETWEEN = {"Fieldref": " . ", "Methodref": " . ", "InterfaceMethodref": " . ", "NameAndType": " : "}
SINGLE = ("Class", "String", "MethodType", "Module", "Package")
DYNAMIC = ("Dynamic", "InvokeDynamic")


class Different(Exception):
    pass


# ---- javap's side

def units(text):
    """What javap escaped, as modified UTF-8 (JVMS 4.4.7)."""
    plain = re.sub(r"\\(u[0-9a-f]{4}|.)", unescaped, text)
    out = bytearray()
    for (unit,) in struct.iter_unpack(">H", plain.encode("utf-16-be", "surrogatepass")):
        if 0 < unit < 0x80:
            out.append(unit)
        elif unit < 0x800:
            out += bytes((0xC0 | unit >> 6, 0x80 | unit & 0x3F))
        else:
            out += bytes((0xE0 | unit >> 12, 0x80 | unit >> 6 & 0x3F, 0x80 | unit & 0x3F))
    return bytes(out)


def unescaped(match):
    escape = match[1]
    if len(escape) == 5:
        return chr(int(escape[1:], 16))
    return {"t": "\t", "n": "\n", "r": "\r", "b": "\b", "f": "\f"}.get(escape, escape)


def number(kind, text):
    """A number's bits."""
    if kind in ("Integer", "Long"):
        return int(text.rstrip("l"))
    bits, form = {"Float": (">I", ">f"), "Double": (">Q", ">d")}[kind]
    return struct.unpack(bits, struct.pack(form, float(text[:-1])))[0]


class Shown:
    """The entries by slot, as (kind, what it holds, comment), and the bootstrap methods, of javap's text."""

    def __init__(self, text):
        self.entries = {}
        self.methods = []
        section = None
        for line in text.split("\n"):
            if line in ("Constant pool:", "BootstrapMethods:"):
                section = line
            elif section == "Constant pool:" and (match := re.match(r" *#(\d+) = (.*)", line)):
                self.entry(int(match[1]), match[2])
            elif section == "BootstrapMethods:" and (match := re.match(r"  (\d+): #(\d+) ", line)):
                assert int(match[1]) == len(self.methods)
                self.methods.append((int(match[2]), []))
            elif section == "BootstrapMethods:" and (match := re.match(r"      #(\d+)( |$)", line)):
                self.methods[-1][1].append(int(match[1]))
            elif not line.startswith(" "):
                section = None

    def entry(self, slot, text):
        # the kind has 18 columns and a space behind it; a text may begin with spaces itself
        kind, value = text[:18].rstrip(), text[19:]
        comment = None
        if kind == "Utf8":
            held = units(value)
        elif kind in ("Integer", "Long", "Float", "Double"):
            held = number(kind, value)
        else:
            numbers, comment = re.match(r"([#0-9.:]+) *// ?(.*)", value).groups()
            held = [int(n.lstrip("#")) for n in re.split("[.:]", numbers)]
        self.entries[slot] = (kind, held, comment)

    def opened(self, slot, levels):
        """What stands for a slot where so many levels are left."""
        if levels == 0:
            return ("closed", slot)
        if slot not in self.entries:
            return ("bare", slot)
        kind, held, _ = self.entries[slot]
        if not isinstance(held, list):
            return (kind, held)
        if kind in DYNAMIC:
            return (kind, self.opened(held[1], levels - 1), self.method(held[0], levels - 1))
        if kind == "MethodHandle":
            return (kind, held[0], self.opened(held[1], levels - 1))
        return (kind, *(self.opened(n, levels - 1) for n in held))

    def method(self, index, levels):
        if levels == 0:
            return ("closed", index)
        if index >= len(self.methods):
            return ("bare", index)
        handle, arguments = self.methods[index]
        return ("method", self.opened(handle, levels - 1), *(self.opened(a, levels - 1) for a in arguments))


# ---- the listing's side

class Line:
    """Reads a line of the listing from left to right."""

    def __init__(self, text):
        self.text = text
        self.at = 0

    def take(self, pattern):
        match = re.compile(pattern).match(self.text, self.at)
        if not match:
            raise Different(f"no {pattern} at column {self.at}")
        self.at = match.end()
        return match[0]

    def sees(self, text):
        return self.text.startswith(text, self.at)

    def quoted(self):
        quoted = self.take(r'"([^"\\]|\\["\\]|\\x[0-9a-f]{2})*"')[1:-1]
        plain = re.sub(r'\\(x..|.)', lambda m: chr(int(m[1][1:], 16)) if m[1][0] == "x" else m[1], quoted)
        return plain.encode("latin-1")

    def floating(self, kind):
        form, digits = {"Float": (">f", 8), "Double": (">d", 16)}[kind]
        bits = int(self.take("[0-9a-f]{%d} " % digits), 16)
        text = self.take(r"-?0x[01]\.[0-9a-f]+p-?\d+|-?Infinity|NaN")
        shown = struct.pack(form, float.fromhex(text)) if "x" in text else struct.pack(form, float(text))
        if shown != bits.to_bytes(digits // 2, "big"):
            raise Different(f"{text} isn't {bits:x}")
        return bits

    def constant(self):
        kind = self.take(r"\w+ ")[:-1]
        if kind == "Utf8":
            return (kind, self.quoted())
        if kind in ("Integer", "Long"):
            return (kind, int(self.take(r"-?\d+")))
        if kind in ("Float", "Double"):
            return (kind, self.floating(kind))
        if kind in SINGLE:
            return (kind, self.cited())
        if kind in BETWEEN:
            first = self.cited()
            self.take(re.escape(BETWEEN[kind]))
            return (kind, first, self.cited())
        if kind == "MethodHandle":
            word = self.take(r"REF_\w+ |\d+ ")[:-1]
            return (kind, 1 + HANDLE_KINDS.index(word[4:]) if word[0] == "R" else int(word), self.cited())
        if kind in DYNAMIC:
            first = self.cited()
            self.take(" by ")
            return (kind, first, self.method())
        raise Different(f"unknown kind {kind}")

    def cited(self):
        if self.sees('"'):
            return ("Utf8", self.quoted())
        if self.sees("["):
            return ("closed", int(self.take(r"\[\d+\]")[1:-1]))
        if re.match(r"\d", self.text[self.at:]):
            return ("bare", int(self.take(r"\d+")))
        return self.constant()

    def method(self):
        handle = self.cited()
        if not self.sees(" ("):
            return handle
        self.take(r" \(")
        arguments = []
        while not self.sees(")"):
            if arguments:
                self.take(", ")
            arguments.append(self.cited())
        self.take(r"\)")
        return ("method", handle, *arguments)


def as_comment(opened, methods):
    """An opened constant as javap's comment has it, but for quotes."""
    kind, *held = opened
    if kind == "Utf8":
        return held[0]
    if kind in BETWEEN:
        return (b":" if kind == "NameAndType" else b".").join(as_comment(h, methods) for h in held)
    if kind == "MethodHandle":
        return b"REF_" + HANDLE_KINDS[held[0] - 1].encode() + b" " + as_comment(held[1], methods)
    if kind in DYNAMIC:
        return b"#%d:" % methods + as_comment(held[0], methods)
    return b"".join(as_comment(h, methods) for h in held)


def compare_line(shown, slot, text):
    line = Line(text)
    if int(line.take(r"\d+ ")) != slot:
        raise Different("another slot")
    read = line.constant()
    if line.at != len(text):
        raise Different(f"more at column {line.at}")
    wanted = shown.opened(slot, LEVELS)
    if read != wanted:
        raise Different(f"javap has {wanted}")
    kind, held, comment = shown.entries[slot]
    if comment is not None:
        said = as_comment(read, held[0])
        if said.replace(b'"', b"").strip() != units(comment).replace(b'"', b"").strip():
            raise Different(f"javap says {comment}")


def javap(names):
    """A text for each file: the part of the output from its own line at the margin."""
    command = ["javap", "-J-Dfile.encoding=UTF-8", "-J-Dstdout.encoding=UTF-8", "-v", "-p", *names]
    text = subprocess.run(command, capture_output=True, check=True).stdout.decode("utf-8")
    parts = re.split("^Classfile ", text, flags=re.MULTILINE)[1:]
    assert [part.split("\n")[0] for part in parts] == names
    return [Shown(part) for part in parts]


def compare_file(shown, listing, tally):
    lines = listing.decode("ascii").split("\n")[:-1]
    if len(lines) != len(shown.entries):
        raise Different(f"{len(lines)} lines for {len(shown.entries)} entries")
    for slot, text in zip(sorted(shown.entries), lines):
        try:
            compare_line(shown, slot, text)
        except Different as error:
            raise Different(f"line {text}: {error}") from None
        kind = shown.entries[slot][0]
        tally[kind] = tally.get(kind, 0) + 1
        tally["number in brackets"] = tally.get("number in brackets", 0) + bool(re.search(r"[ (]\[\d+\]", text))


def main():
    frames, *names = sys.argv[1:sys.argv.index("--")]
    program = sys.argv[sys.argv.index("--") + 1:]
    with open(frames, "rb") as stream:
        printed = subprocess.run(program, stdin=stream, stdout=subprocess.PIPE, check=False).stdout
    listings = re.findall(rb"(?:[^\n]+\n)*\n", printed)
    failed = abs(len(listings) - len(names))
    tally = {}
    for name, shown, listing in zip(names, javap(names), listings):
        try:
            compare_file(shown, listing[:-1], tally)
        except Different as error:
            print(f"{name}: {error}")
            failed += 1
    for kind, count in sorted(tally.items()):
        print(f"{kind}: {count}")
    print(f"{len(names)} class files, {failed} differ")
    sys.exit(1 if failed or len(names) < 50 else 0)


if __name__ == "__main__":
    main()
