"""What a script does without the program, for the benchmarks beside it: it hashes the cells of a tree, and reads messages of one kind.

The reader takes internal messages without anycast addresses whose initial state is in place and whose body is a reference, and prints
their text. It judges nothing: not the form of labels, and not what is left of a cell.
"""
import hashlib
import time


def hashing(root):
    """Returns the seconds that hashlib takes for the representations of the distinct cells below a root, and the root's hash."""
    hashes, depths, spent, todo = {}, {}, 0.0, [root]
    while todo:
        cell = todo[-1]
        bits, children = cell
        below = [child for child in children if id(child) not in hashes]
        if below:
            todo.extend(below)
            continue
        todo.pop()
        depths[id(cell)] = 1 + max(depths[id(child)] for child in children) if children else 0
        filled = bits + "1" + "0" * (7 - len(bits) % 8) if len(bits) % 8 else bits
        data = int("1" + filled, 2).to_bytes(len(filled) // 8 + 1, "big")[1:]
        message = bytes([len(children), len(bits) // 8 + len(filled) // 8]) + data
        message += b"".join(depths[id(child)].to_bytes(2, "big") for child in children)
        message += b"".join(hashes[id(child)] for child in children)
        begun = time.perf_counter()
        hashes[id(cell)] = hashlib.sha256(message).digest()
        spent += time.perf_counter() - begun
    return spent, hashes[id(root)].hex()


def root_of(data):
    """The root of the bytes of a bag without index and sum."""
    size, off = data[4], data[5]
    count = int.from_bytes(data[6:6 + size], "big")
    at, cells = 6 + 4 * size + off, []
    for _ in range(count):
        references, length = data[at], (data[at + 1] + 1) // 2
        bits = format(int.from_bytes(b"\1" + data[at + 2:at + 2 + length], "big"), "b")[1:]
        if data[at + 1] % 2:
            bits = bits.rstrip("0")[:-1]
        at += 2 + length
        cells.append((bits, [int.from_bytes(data[at + i * size:at + (i + 1) * size], "big") for i in range(references)]))
        at += references * size
    for i in reversed(range(count)):
        cells[i] = (cells[i][0], [cells[child] for child in cells[i][1]])
    return cells[0]


class Content:
    """What is left of a cell."""

    def __init__(self, cell):
        self.bits, self.children = cell
        self.at = self.taken = 0

    def take(self, count):
        self.at += count
        return self.bits[self.at - count:self.at]

    def number(self, count):
        return int(self.take(count) or "0", 2)

    def child(self):
        self.taken += 1
        return self.children[self.taken - 1]


def hexadecimal(bits):
    mark = "_" if len(bits) % 4 else ""
    if mark:
        bits += "1" + "0" * (3 - len(bits) % 4)
    return "x{" + "".join(format(int(bits[i:i + 4], 2), "X") for i in range(0, len(bits), 4)) + mark + "}"


def cell_text(cell):
    return "(" + ",".join([hexadecimal(cell[0])] + [cell_text(child) for child in cell[1]]) + ")"


def natural(count):
    return lambda content: str(content.number(count))


def workchain(content):
    number = content.number(8)
    return str(number - 256 if number > 127 else number)


def record(name, *fields):
    return lambda content: name + "{" + ",".join(f"{field}:{read(content)}" for field, read in fields) + "}"


def either(*choices):
    return lambda content: choices[content.number(1)](content)


def maybe(read):
    return either(record("nothing"), record("just", ("value", read)))


def reference(content):
    return "^" + cell_text(content.child())


def variable(bits):
    def read(content):
        length = content.number(bits)
        return f"var_uint{{len:{length},value:{content.number(length * 8)}}}"
    return read


def address(content):
    content.take(2)
    fields = ("anycast", maybe(None)), ("workchain_id", workchain), ("address", lambda rest: hexadecimal(rest.take(256)))
    return record("addr_std", *fields)(content)


def entries(cell, key, left, read):
    """The texts of a dictionary's entries in the order of keys."""
    content = Content(cell)
    if content.number(1) == 0:
        length = 0
        while content.number(1):
            length += 1
        key += content.take(length)
    elif content.number(1) == 0:
        length = content.number(left.bit_length())
        key += content.take(length)
    else:
        bit = content.take(1)
        length = content.number(left.bit_length())
        key += bit * length
    left -= length
    if left == 0:
        return [hexadecimal(key) + ":" + read(content)]
    first, second = content.child(), content.child()
    return entries(first, key + "0", left - 1, read) + entries(second, key + "1", left - 1, read)


def currencies(content):
    inside = entries(content.child(), "", 32, variable(5)) if content.number(1) else []
    return "<" + ",".join(inside) + ">"


def message_text(data):
    """The text of the message in the bytes of a bag."""
    flag = either(record("bool_false"), record("bool_true"))
    grams = record("nanograms", ("amount", variable(4)))
    value = record("currencies", ("grams", grams), ("other", record("extra_currencies", ("dict", currencies))))
    flags = [(name, flag) for name in ("ihr_disabled", "bounce", "bounced")]
    money = [("value", value), ("ihr_fee", grams), ("fwd_fee", grams)]
    times = [("created_lt", natural(64)), ("created_at", natural(32))]
    info = either(record("int_msg_info", *flags, ("src", address), ("dest", address), *money, *times))
    absent = [(name, maybe(None)) for name in ("split_depth", "special")]
    state = record("_1", *absent, *((name, maybe(reference)) for name in ("code", "data", "library")))
    init = maybe(either(record("left", ("value", state))))
    body = either(None, record("right", ("value", reference)))
    return record("message", ("info", info), ("init", init), ("body", body))(Content(root_of(data)))
