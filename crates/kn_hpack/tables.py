#!/usr/bin/env python3
"""Writes the constants of this crate from the tables of RFC 7541, appendices A and B.

src/tree.rt, src/static_text.rt: what the code reads.
specs/Codes.antt (the rows), specs/StaticTable.antt (the pairs): what the definitions say.
proofs/Marks.antt: the bits that lead to each node and symbol, which the lemmas compute over.

Run in the crate's folder; it prints the constant that is named: tree, text, rows, pairs, marks.
"""

import sys

ROWS = {
    5: "48-50 97 99 101 105 111 115 116",
    6: "32 37 45-47 51-57 61 65 95 98 100 102-104 108-110 112 114 117",
    7: "58 66-87 89 106 107 113 118-122",
    8: "38 42 44 59 88 90",
    10: "33 34 40 41 63",
    11: "39 43 124",
    12: "35 62",
    13: "0 36 64 91 93 126",
    14: "94 125",
    15: "60 96 123",
    19: "92 195 208",
    20: "128 130 131 162 184 194 224 226",
    21: "153 161 167 172 176 177 179 209 216 217 227 229 230",
    22: "129 132-134 136 146 154 156 160 163 164 169 170 173 178 181 185-187 189 190 196 198 228 232 233",
    23: "1 135 137-141 143 147 149-152 155 157 158 165 166 168 174 175 180 182 183 188 191 197 231 239",
    24: "9 142 144 145 148 159 171 206 215 225 236 237",
    25: "199 207 234 235",
    26: "192 193 200-202 205 210 213 218 219 238 240 242 243 255",
    27: "203 204 211 212 214 221-223 241 244-248 250-254",
    28: "2-8 11 12 14-21 23-31 127 220 249",
    30: "10 13 22 256",
}

PAIRS = [
    (":authority", ""), (":method", "GET"), (":method", "POST"), (":path", "/"), (":path", "/index.html"),
    (":scheme", "http"), (":scheme", "https"), (":status", "200"), (":status", "204"), (":status", "206"),
    (":status", "304"), (":status", "400"), (":status", "404"), (":status", "500"), ("accept-charset", ""),
    ("accept-encoding", "gzip, deflate"), ("accept-language", ""), ("accept-ranges", ""), ("accept", ""),
    ("access-control-allow-origin", ""), ("age", ""), ("allow", ""), ("authorization", ""), ("cache-control", ""),
    ("content-disposition", ""), ("content-encoding", ""), ("content-language", ""), ("content-length", ""),
    ("content-location", ""), ("content-range", ""), ("content-type", ""), ("cookie", ""), ("date", ""),
    ("etag", ""), ("expect", ""), ("expires", ""), ("from", ""), ("host", ""), ("if-match", ""),
    ("if-modified-since", ""), ("if-none-match", ""), ("if-range", ""), ("if-unmodified-since", ""),
    ("last-modified", ""), ("link", ""), ("location", ""), ("max-forwards", ""), ("proxy-authenticate", ""),
    ("proxy-authorization", ""), ("range", ""), ("referer", ""), ("refresh", ""), ("retry-after", ""),
    ("server", ""), ("set-cookie", ""), ("strict-transport-security", ""), ("transfer-encoding", ""),
    ("user-agent", ""), ("vary", ""), ("via", ""), ("www-authenticate", ""),
]


def numbers(row):
    out = []
    for part in row.split():
        low, _, high = part.partition("-")
        out += range(int(low), int(high or low) + 1)
    return out


def codes():
    value, before, out = 0, 0, {}
    for length, row in ROWS.items():
        value <<= length - before
        before = length
        for symbol in numbers(row):
            out[symbol] = (length, value)
            value += 1
    assert sorted(out) == list(range(257)) and value == 1 << 30
    return out


def nodes():
    """The inner nodes by their bits: the node after k one bits is node k, for k up to 7."""
    inner = set()
    for length, value in codes().values():
        for k in range(length):
            inner.add((k, value >> (length - k)))
    low = [(k, (1 << k) - 1) for k in range(8)]
    order = low + sorted(inner - set(low))
    assert len(order) == 256
    return order


def tree():
    order = nodes()
    at = {mark: node for node, mark in enumerate(order)}
    leaf = {mark: 256 + symbol for symbol, mark in codes().items()}
    both = {**at, **leaf}
    return [both[(k + 1, 2 * v + bit)] for k, v in order for bit in (0, 1)]


def marks():
    by_symbol = codes()
    return nodes() + [by_symbol[s] for s in range(257)]


def wrapped(items, width=150, indent="    ", joint=" "):
    lines, line = [], ""
    for item in items:
        if line and len(line) + len(joint) + len(item) > width:
            lines.append(indent + line)
            line = item
        else:
            line = line + joint + item if line else item
    return "\n".join(lines + [indent + line])


def print_tree():
    print(wrapped([f"{n}," for n in tree()], 96))


def print_text():
    text, ends = "", [0]
    for pair in PAIRS:
        for part in pair:
            text += part
            ends.append(len(text))
    print(f'static TEXT: [u8; {len(text)}] = *b"{text}";')
    print(f"static ENDS: [u16; {len(ends)}] = [")
    print(wrapped([f"{n}," for n in ends], 96) + "\n];")


def print_rows():
    for length, row in ROWS.items():
        items = " ∷ ".join(str(s) for s in numbers(row))
        print(f"    ({length}, {items} ∷ []) ∷")
    print("    []")


def print_pairs():
    for name, value in PAIRS:
        value = f'(codes "{value}")' if value else "[]"
        print(f'    pair (codes "{name}") {value} ∷')
    print("    []")


def print_marks():
    print(wrapped([f"({k}, {v}) ∷" for k, v in marks()] + ["[]"]))


globals()["print_" + sys.argv[1]]()
