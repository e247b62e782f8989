#!/usr/bin/env python3
"""The program on schemas of the greatest size.

Writes texts of at most 1,048,576 bytes: open brackets alone, sums of half a million numbers and of as many variables, a row of
parameters, a row of fields, 4,096 declarations, 4,096 declarations with fields of each other's types, types in one chain, in one
ring, and types of which each exposes many later ones and the last exposes itself. Runs the built program by `read` on each and
prints its line and its processor time. Then by `check` on schemas whose tags and leads take work: many types, large types with long
tags and parameters, a chain of empty tags, leads that pass 64 at every second type, and one computed tag of a text of that size. All
take time in proportion to their size, but for large types, where each two constructors of a type are compared.

Last come schemas that `check` accepts, of many types and fields, by `check` and by `read` at a word for a type: the name of one type,
a word for a type of 4,095 nodes, and one that is mostly white space. What `read` takes beyond `check` goes to the plan and the word.
"""
import os
import resource
import subprocess
import tempfile

HERE = os.path.dirname(os.path.abspath(__file__))
PROGRAM = os.path.join(HERE, "..", "crates", "tlb_cli", "out", "tlb_cli")
BAG = os.path.join(HERE, "..", "examples", "unit.boc")
GREATEST = 1_048_576


def texts():
    yield "open brackets", "a$_ x:" + "(" * (GREATEST - 6)
    yield "sum", "a$_ x:(" + "1+" * 524_270 + "1) = T;"
    yield "parameters", "a$_ = T" + " 1" * 524_280 + ";"
    yield "fields", "a$_ " + "x:# " * 262_140 + "= T;"
    yield "declarations", "".join(f"a$_ = T{i};\n" for i in range(4096))
    yield "sum of variables", "a$_ n:# x:(## (" + "n+" * 524_260 + "n)) = T;"
    yield "fields of types", "".join(f"a$0 {fields(i, 20)} = T{i};\n" for i in range(4096))
    yield "chain", "".join(f"a$_ x:T{i + 1} = T{i};\n" for i in range(4095)) + "a$_ = T4095;"
    yield "ring", "".join(f"a$_ x:T{(i + 1) % 4096} = T{i};\n" for i in range(4096))
    yield "one type of a ring", "".join(f"a{i}$_ x:T{i // 256} y:T{(i + 1) % 16} = T{i % 16};\n" for i in range(4096))
    yield "late cycle", "".join(f"a$_ {fields(i, 20)} = T{i};\n" for i in range(4095)) + "a$_ x:T4095 = T4095;"


def tag_texts():
    yield "types", "".join(f"a$0 = T{i};\n" for i in range(4096))
    yield "large types", "".join(f"a{j}${j:063b} = T{i} 1 2 3 4 5 6 7 8;\n" for i in range(16) for j in range(256))
    yield "chain of empty tags", "".join(f"_ x:T{i + 1} = T{i};\n" for i in range(4094)) + "a$0 = T4094; b$1 = T4094;"
    yield "more than 64 leads", "".join(over_64(i) for i in range(0, 124, 2))
    yield "computed tag", "a {" + "0+" * 524_270 + "0 = 0} = T;"


def plan_texts():
    words = {"large types": "T0 1 2 3 4 5 6 7 8", "more than 64 leads": "T122", "computed tag": "T"}
    for name, text in tag_texts():
        yield name, text, words.get(name, "T7")
    for count in (409, 4096):
        text = "".join(f"a$0 {fields(i, 20, count)} = T{i};\n" for i in range(count))
        yield f"{count} types of 20 fields", text, "T7"
        yield f"{count} types of 20 fields, white space", text, "T7" + " " * 100_000
    text = "b$_ {X:Type} {Y:Type} first:X second:Y = Both X Y;\n" + "".join(f"a$0 = T{i};\n" for i in range(4095))
    yield "4096 types, 409 nodes", text, pairs(204)
    yield "4096 types, 4095 nodes", text, pairs(2047)


def pairs(count):
    """A word that applies Both so often: a type of twice as many nodes and one."""
    if count == 0:
        return "T4000"
    left = (count - 1) // 2
    return f"(Both {pairs(left)} {pairs(count - 1 - left)})"


def over_64(i):
    return "".join(f"a{j}${j:07b} = T{i};\n" for j in range(65)) + f"_ x:T{i} = T{i + 1};\n"


def fields(i, count, types=4096):
    return " ".join(f"f{j}:T{min(i + j + 1, types - 1)}" for j in range(count))


def run(folder, text, words):
    path = os.path.join(folder, "schema")
    with open(path, "w", encoding="ascii") as out:
        out.write(text)
    before = resource.getrusage(resource.RUSAGE_CHILDREN)
    done = subprocess.run([PROGRAM, words[0], path, *words[1:]], stdout=subprocess.PIPE, check=False)
    after = resource.getrusage(resource.RUSAGE_CHILDREN)
    return after.ru_utime - before.ru_utime + after.ru_stime - before.ru_stime, done.stdout.decode().strip()


def main():
    with tempfile.TemporaryDirectory() as folder:
        for listed, words in ((texts(), ["read", "T", BAG]), (tag_texts(), ["check"])):
            for name, text in listed:
                spent, line = run(folder, text, words)
                print(f"{words[0]}: {name}, {len(text)} bytes: {spent:.2f} s, {line}")
        for name, text, word in plan_texts():
            checked, line = run(folder, text, ["check"])
            spent, shown = run(folder, text, ["read", word, BAG])
            print(f"read beyond check: {name}, {len(text)} bytes, a word of {len(word)}: {spent - checked:.2f} s, {line}, {shown[:60]}")


if __name__ == "__main__":
    main()
