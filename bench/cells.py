"""Cells and bags for the benchmarks beside it. A cell is a text of binary digits and a list of cells."""


def bag(root):
    """The bytes of a bag with the cells in preorder; a cell that is one object stands once."""
    order, numbers, todo = [], {}, [root]
    while todo:
        cell = todo.pop()
        if id(cell) in numbers:
            continue
        numbers[id(cell)] = len(order)
        order.append(cell)
        todo.extend(reversed(cell[1]))
    size = width(len(order) - 1)
    data = b"".join(laid(cell, numbers, size) for cell in order)
    off = width(len(data))
    header = bytes.fromhex("b5ee9c72") + bytes([size, off]) + len(order).to_bytes(size, "big") + (1).to_bytes(size, "big")
    return header + bytes(size) + len(data).to_bytes(off, "big") + bytes(size) + data


def width(number):
    return max(1, (number.bit_length() + 7) // 8)


def laid(cell, numbers, size):
    bits, children = cell
    count = len(bits)
    if count % 8:
        bits += "1" + "0" * (7 - count % 8)
    data = int("1" + bits, 2).to_bytes(len(bits) // 8 + 1, "big")[1:]
    references = b"".join(numbers[id(child)].to_bytes(size, "big") for child in children)
    return bytes([len(children), count // 8 + (count + 7) // 8]) + data + references


def number(value, bits):
    return format(value, f"0{bits}b") if bits else ""


def label(bits, longest):
    """The required form of a label: the same bit, else its length in bits, else in ones."""
    count, k = len(bits), longest.bit_length()
    if count > 1 and len(set(bits)) == 1 and k < 2 * count - 1:
        return "11" + bits[0] + number(count, k)
    if k < count:
        return "10" + number(count, k) + bits
    return "0" + "1" * count + "0" + bits


def edge(entries, longest):
    """The cell of a dictionary of entries, keys with bits and references, in the order of keys of the same length."""
    first, last = entries[0][0], entries[-1][0]
    shared = 0
    while shared < longest and first[shared] == last[shared]:
        shared += 1
    bits = label(first[:shared], longest)
    if shared == longest:
        _, content, children = entries[0]
        return bits + content, children
    rest = longest - shared - 1
    below = [[(k[shared + 1:], c, r) for k, c, r in entries if k[shared] == side] for side in "01"]
    return bits, [edge(part, rest) for part in below]
