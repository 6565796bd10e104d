#!/usr/bin/env python3
"""compare.py FOLDER: holds javap and a JVM's class loader to FOLDER/made.txt over the class files of FOLDER.

javap must show each file without complaint, with the versions, flags, slots and the number of bootstrap methods that were asked for. The
loader must define those that are marked so, with name, super class and modifiers. Status 1 at a difference.
"""
import os
import re
import subprocess
import sys

ACC_SUPER = 0x20
JAVA = ["-Dfile.encoding=UTF-8", "-Dstdout.encoding=UTF-8"]
NUMBERS = ("minor", "major", "access", "this", "super", "slots", "name", "count")


def made(folder):
    """A class's numbers and names by its file."""
    classes = {}
    with open(os.path.join(folder, "made.txt"), encoding="utf-8") as lines:
        for line in lines:
            file, name, above, defined, *numbers = line.rstrip("\n").split("\t")
            classes[file] = dict(zip(NUMBERS, map(int, numbers)), class_name=name, super_name=above, defined=defined == "1")
    return classes


def shown(folder, files):
    """Of javap's text what it says of each file."""
    paths = [os.path.join(folder, file) for file in files]
    run = subprocess.run(["javap", *("-J" + word for word in JAVA), "-v", "-p", *paths], capture_output=True, check=False)
    errors = run.stderr.decode("utf-8")
    if run.returncode or errors:
        print(f"javap ends with {run.returncode}: {errors[:500]}")
    parts = re.split("^Classfile ", run.stdout.decode("utf-8"), flags=re.MULTILINE)[1:]
    return run.returncode == 0 and not errors, {os.path.basename(part.split("\n")[0]): part for part in parts}


def difference_in_javap(wanted, text):
    def number(pattern):
        return int(re.search(pattern, text)[1], 0)

    reads = {
        "minor": number(r"  minor version: (\d+)"),
        "major": number(r"  major version: (\d+)"),
        "access": number(r"  flags: \((0x[0-9a-f]+)\)"),
        "this": number(r"  this_class: #(\d+) "),
        "super": number(r"  super_class: #(\d+) "),
        "class_name": re.search(r"  this_class: #\d+ +// \"?([^\"\n]*)", text)[1],
        "super_name": re.search(r"  super_class: #\d+ +// \"?([^\"\n]*)", text)[1],
    }
    counts = re.search(r"  interfaces: (\d+), fields: (\d+), methods: (\d+), attributes: (\d+)", text)
    methods = re.findall(r"^  (\d+): #\d+ ", text, re.MULTILINE)
    last_slots = [int(slot) for slot in re.findall(r"^ *#(\d+) = ", text, re.MULTILINE)]
    for what, value in reads.items():
        if value != wanted[what]:
            return f"{what} is {value}"
    if [int(count) for count in counts.groups()] != [0, 0, 0, int(wanted["name"] != 0)]:
        return f"counts are {counts.groups()}"
    if len(methods) != wanted["count"]:
        return f"{len(methods)} bootstrap methods"
    # the last constant begins in the last slot, or is wide
    if not wanted["slots"] - 2 <= last_slots[-1] < wanted["slots"]:
        return f"the last constant is at {last_slots[-1]}"
    return None


def difference_in_loader(wanted, words):
    name, above, modifiers, cut, longer = words
    if name != wanted["class_name"].replace("/", ".") or above != wanted["super_name"].replace("/", "."):
        return f"defined as {name} {above}"
    if int(modifiers) != wanted["access"] & ~ACC_SUPER:
        return f"modifiers are {modifiers}"
    if (cut, longer) != ("true", "true"):
        return "with a byte less or more it is taken too"
    return None


def main():
    folder = sys.argv[1]
    classes = made(folder)
    accepted, texts = shown(folder, classes)
    failed = 0 if accepted else 1
    for file, wanted in classes.items():
        found = difference_in_javap(wanted, texts[file]) if file in texts else "not shown"
        if found:
            print(f"javap, {file}: {found}, wanted {wanted}")
            failed += 1
    defined = [file for file, wanted in classes.items() if wanted["defined"]]
    define = os.path.join(os.path.dirname(os.path.abspath(__file__)), "Define.java")
    paths = [os.path.join(folder, file) for file in defined]
    run = subprocess.run(["java", *JAVA, define, *paths], capture_output=True, check=True)
    lines = [line.split("\t") for line in run.stdout.decode("utf-8").rstrip("\n").split("\n")]
    if [line[0] for line in lines] != defined:
        print("the loader tells of other files")
        failed += 1
    taken = 0
    for file, *words in lines:
        found = difference_in_loader(classes[file], words)
        if found:
            print(f"loader, {file}: {found}, wanted {classes[file]}")
            failed += 1
        else:
            taken += 1
    with_attribute = sum(wanted["name"] != 0 for wanted in classes.values())
    print(f"javap showed {len(texts)} class files, {with_attribute} with BootstrapMethods; a loader defined {taken} of {len(lines)}; {failed} differ")
    sys.exit(1 if failed else 0)


if __name__ == "__main__":
    main()
