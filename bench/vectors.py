#!/usr/bin/env python3
"""Writes the rows of cf_cases for hashes, numbers, SipHash, Golomb codes, basic filters, claims of their hashes and verdicts on them:
`vectors.py ROWS ANSWERS`.

Everything is computed here, apart from the programs, and first compared with what is published: FIPS 180-4's digest of "abc", the table of
SipHash-2-4's reference code, and BIP 158's vectors of testnet's blocks 0 and 2.
"""
import struct
import sys
from hashlib import sha256

MASK = (1 << 64) - 1
P, M = 19, 784931


def double(data):
    return sha256(sha256(data).digest()).digest()


def rotate(x, n):
    return ((x << n) | (x >> (64 - n))) & MASK


def siphash(key, data):
    k0, k1 = struct.unpack("<QQ", key)
    v = [k0 ^ 0x736F6D6570736575, k1 ^ 0x646F72616E646F6D, k0 ^ 0x6C7967656E657261, k1 ^ 0x7465646279746573]

    def mix():
        v[0] = (v[0] + v[1]) & MASK
        v[1] = rotate(v[1], 13) ^ v[0]
        v[0] = rotate(v[0], 32)
        v[2] = (v[2] + v[3]) & MASK
        v[3] = rotate(v[3], 16) ^ v[2]
        v[0] = (v[0] + v[3]) & MASK
        v[3] = rotate(v[3], 21) ^ v[0]
        v[2] = (v[2] + v[1]) & MASK
        v[1] = rotate(v[1], 17) ^ v[2]
        v[2] = rotate(v[2], 32)

    filled = data + bytes(7 - len(data) % 8) + bytes([len(data) % 256])
    for (word,) in struct.iter_unpack("<Q", filled):
        v[3] ^= word
        mix()
        mix()
        v[0] ^= word
    v[2] ^= 0xFF
    for _ in range(4):
        mix()
    return v[0] ^ v[1] ^ v[2] ^ v[3]


def compact(n):
    if n < 253:
        return bytes([n])
    if n < 1 << 16:
        return b"\xfd" + struct.pack("<H", n)
    if n < 1 << 32:
        return b"\xfe" + struct.pack("<I", n)
    return b"\xff" + struct.pack("<Q", n)


def golomb(values):
    bits, before = "", 0
    for v in values:
        d, before = v - before, v
        bits += "1" * (d >> P) + "0" + format(d & ((1 << P) - 1), f"0{P}b")
    bits += "0" * (-len(bits) % 8)
    return compact(len(values)) + bytes(int(bits[i : i + 8], 2) for i in range(0, len(bits), 8))


def basic_filter(block_hash, scripts):
    n = len(scripts)
    return golomb(sorted(siphash(block_hash[:16], s) * n * M >> 64 for s in scripts))


def header_after(code, before):
    return double(double(code) + before)


def digits(data):
    return data.hex() or "-"


def listed(scripts):
    return ",".join(digits(s) for s in scripts) or "none"


def block_paying(scripts):
    """A block of one transaction, whose outputs pay these scripts."""
    coinbase = b"\x01" + bytes(32) + b"\xff\xff\xff\xff" + b"\x02\x00\x00" + bytes(4)
    outputs = b"".join(struct.pack("<q", 1) + compact(len(s)) + s for s in scripts)
    tx = struct.pack("<i", 1) + coinbase + compact(len(scripts)) + outputs + bytes(4)
    head = struct.pack("<i", 1) + bytes(32) + double(tx) + struct.pack("<III", 1296688602, 0x207FFFFF, 2)
    return head + b"\x01" + tx


TESTNET_0 = bytes.fromhex(
    "0100000000000000000000000000000000000000000000000000000000000000000000003ba3edfd7a7b12b27ac72c3e67768f617fc81bc3888a51323a9fb8aa4b1e5e4adae5494dffff001d1aa4ae18"
    "0101000000010000000000000000000000000000000000000000000000000000000000000000ffffffff4d04ffff001d0104455468652054696d65732030332f4a616e2f32303039204368616e63656c"
    "6c6f72206f6e206272696e6b206f66207365636f6e64206261696c6f757420666f722062616e6b73ffffffff0100f2052a01000000434104678afdb0fe5548271967f1a67130b7105cd6a828e03909a6"
    "7962e0ea1f61deb649f6bc3f4cef38c4f35504e51ec112de5c384df7ba0b8d578a4c702b6bf11d5fac00000000"
)
TESTNET_2 = bytes.fromhex(
    "0100000006128e87be8b1b4dea47a7247d5528d2702c96826c7a648497e773b800000000e241352e3bec0a95a6217e10c3abb54adfa05abb12c126695595580fb92e222032e7494dffff001d00d23534"
    "0101000000010000000000000000000000000000000000000000000000000000000000000000ffffffff0e0432e7494d010e062f503253482fffffffff0100f2052a010000002321038a7f6ef1c8ca0c"
    "588aa53fa860128077c9e6c11e6830f4d7ee4e763a56b7718fac00000000"
)
PAID_0, PAID_2 = TESTNET_0[-71:-4], TESTNET_2[-39:-4]
# The first block of regtest has testnet's transaction.
REGTEST_0 = bytes.fromhex("01000000" + "00" * 32) + TESTNET_0[36:68] + bytes.fromhex("dae5494dffff7f2002000000") + TESTNET_0[80:]
BEFORE_2 = bytes.fromhex("d7bdac13a59d745b1add0d2ce852f1a0442e8945fc1bf3848d3cbffd88c24fe1")[::-1]
KEY = bytes(range(16))


def published():
    """What is computed here is what is published."""
    assert sha256(b"abc").hexdigest() == "ba7816bf8f01cfea414140de5dae2223b00361a396177a9cb410ff61f20015ad"
    table = {0: "310e0edd47db6f72", 8: "6224939a79f5f593", 15: "e545be4961ca29a1", 63: "724506eb4c328a95"}
    for length, wanted in table.items():
        assert struct.pack("<Q", siphash(KEY, bytes(range(length)))).hex() == wanted
    hash_0, hash_2 = double(TESTNET_0[:80]), double(TESTNET_2[:80])
    assert hash_0[::-1].hex() == "000000000933ea01ad0ee984209779baaec3ced90fa3f408719526f8d77f4943"
    assert hash_2[::-1].hex() == "000000006c02c8ea6e4ff69651f7fcde348fb9d557a06e6957b65552002a7820"
    assert double(REGTEST_0[:80])[::-1].hex() == "0f9188f13cb7b2c71f2a335e3a4fc328bf5beb436012afca590b1a11466e2206"
    code_0, code_2 = basic_filter(hash_0, [PAID_0]), basic_filter(hash_2, [PAID_2])
    assert code_0.hex() == "019dfca8" and code_2.hex() == "0174a170"
    assert header_after(code_0, bytes(32))[::-1].hex() == "21584579b7eb08997773e5aeff3a7f932700042d0ed2a6129012b7d7ae81b750"
    assert header_after(code_2, BEFORE_2)[::-1].hex() == "186afd11ef2b5e7e3504f2e8cbf8df28a1fd251fe53d60dff8b1467d1b386cf0"


def rows():
    """The rows and what they come to. A remark comes to nothing."""
    yield "# hash HEX: SHA-256 of the bytes, and SHA-256 of that, as people read it. The first is FIPS 180-4's.", None
    for data in (b"abc", b"", b"hello"):
        yield f"hash {digits(data)}", f"{sha256(data).hexdigest()} {double(data)[::-1].hex()}"
    shown = double(b"hello")[::-1].hex()
    yield "# unhash TEXT: the hash that a text shows, in wire order.", None
    for text in (shown, shown.upper()):
        yield f"unhash {text}", bytes.fromhex(text)[::-1].hex()
    for text in ("00", shown + "0", shown[:-1], "g" + shown[1:]):
        yield f"unhash {text}", "none"

    yield "# compact HEX: the number at the front of the bytes and its spelling as a CompactSize, or why there is none.", None
    for n in (0, 252, 253, 65_535, 65_536, 33_554_432):
        yield f"compact {compact(n).hex()}", f"{n} {compact(n).hex()}"
    yield "compact fd00010203", "256 fd0001"
    for bad, fault in (
        ("fdfc00", "NotShortest"),
        ("feffff0000", "NotShortest"),
        ("ffffffffff00000000", "NotShortest"),
        ("fe01000002", "TooLarge"),
        ("ff0000000001000000", "TooLarge"),
        ("fd00", "Short"),
        ("fe000001", "Short"),
        ("ff00000000010000", "Short"),
        ("-", "Short"),
    ):
        yield f"compact {bad}", fault
    yield "# fields HEX: numbers of 1, 2, 4 and 8 bytes and signed ones of 4 and 8, and the bytes after them; or the fault, and the bytes from there on.", None
    whole = struct.pack("<BHIQiq", 1, 0x203, 0x4050607, 0x8090A0B0C0D0E0F, -2, -3)
    yield f"fields {whole.hex()}09", f"Ok({struct.unpack('<BHIQiq', whole)}) 09"
    yield f"fields {whole[:14].hex()}", f"Err(Short) {whole[7:14].hex()}"

    yield "# siphash KEY HEX: SipHash-2-4 of the bytes, the low byte first. These are of the reference code's table.", None
    for length in (0, 8, 15, 63):
        data = bytes(range(length))
        yield f"siphash {KEY.hex()} {digits(data)}", struct.pack("<Q", siphash(KEY, data)).hex()

    yield "# golomb HEX: the values of a Golomb code and their code, or the first fault.", None
    lists = [[], [0], [0, 1], [784_930], [769_941], [0, 0], [7, 7, 7], [3 * M - 1] * 3, [100, 524_388, 2 * M - 1]]
    lists.append(sorted(pow(3, k, 300 * M) for k in range(300)))
    for values in lists:
        code = golomb(values).hex()
        yield f"golomb {code}", f"{values} {code}"
    for bad, fault in (
        ("019fd118", "Over"),
        ("01000001", "Padding"),
        ("0100000000", "Excess"),
        ("0000", "Excess"),
        ("010000", "Ends"),
        ("01ffffff", "Ends"),
        ("-", "Cut(Short)"),
        ("fdfc00", "Cut(NotShortest)"),
    ):
        yield f"golomb {bad}", fault
    yield "# meets HEX NUMBER: whether the number is among the values of a Golomb code, or the first fault.", None
    two = golomb([0, 1]).hex()
    for code, number, answer in (
        ("00", 0, "Ok(false)"),
        ("01000000", 0, "Ok(true)"),
        ("01000000", 1, "Ok(false)"),
        (two, 0, "Ok(true)"),
        (two, 1, "Ok(true)"),
        (two, 2, "Ok(false)"),
        ("01000001", 0, "Err(Padding)"),
        ("0100000000", 0, "Err(Excess)"),
    ):
        yield f"meets {code} {number}", answer

    yield "# items BLOCK SPENT LEFT: the items of a block whose inputs spend outputs of some scripts, without other scripts. Scripts are parted by commas.", None
    paid = [b"\x09\x01", b"\x51", b"\x6a\x01", b"\x09", b"\x51", b""]
    spent = [b"\x6a\x02", b"\x09\x01", b"", b"\x01"]
    left = [b"\x09\x01", b"\x51", b"\x02", b"\x09\x01"]
    block = block_paying(paid)
    found = sorted({s for s in paid if s and s[0] != 0x6A} | {s for s in spent if s})
    for leaving in ([], left):
        kept = "".join(" " + s.hex() for s in found if s not in leaving)
        yield f"items {block.hex()} {listed(spent)} {listed(leaving)}", f"items{kept}"

    yield "# filter BLOCK SPENT BEFORE: the filter of a block whose inputs spend outputs of some scripts, its hash, and its header after that one, in wire order.", None
    yield "# The first two are BIP 158's vectors of testnet's blocks 0 and 2. One without items is one byte, 0.", None
    four = [b"\x51", b"\x52", b"\x53\x54", b"\x55" * 30]
    cases = [
        (TESTNET_0, [PAID_0], [], bytes(32)),
        (TESTNET_2, [PAID_2], [], BEFORE_2),
        (block_paying([b"\x6a", b""]), [], [b""], bytes(32)),
        (block_paying(four), sorted(four), [], bytes(range(32))),
        (block, found, spent, bytes(range(32))),
    ]
    for data, members, prevouts, before in cases:
        code = basic_filter(double(data[:80]), members)
        yield f"filter {data.hex()} {listed(prevouts)} {before.hex()}", f"{code.hex()} {double(code).hex()} {header_after(code, before).hex()}"

    yield "# match HASH FILTER SCRIPTS: whether a filter under a block's hash has one of the scripts, or why it is no filter.", None
    name = double(block_paying(four)[:80])
    code = basic_filter(name, four)
    others = [b"\x60", b"\x61"]
    for script in four:
        yield f"match {name.hex()} {code.hex()} {listed([others[0], script, others[1]])}", "Ok(true)"
    values = {siphash(name[:16], s) * 4 * M >> 64 for s in four}
    assert not values & {siphash(name[:16], s) * 4 * M >> 64 for s in others}
    yield f"match {name.hex()} {code.hex()} {listed(others)}", "Ok(false)"
    yield f"match {name.hex()} {code.hex()} none", "Ok(false)"
    yield f"match {name.hex()} 00 51", "Ok(false)"
    name = double(TESTNET_0[:80])
    yield f"match {name.hex()} 019dfca8 {PAID_0.hex()}", "Ok(true)"
    yield f"match {name.hex()} 019dfca8 51", "Ok(false)"
    for bad, fault in (("01000001", "Padding"), ("0100000000", "Excess"), ("-", "Cut(Short)")):
        yield f"match {bytes(32).hex()} {bad} 51", f"Err({fault})"
    yield "# lacks BLOCK FILTER..: the items of a block's outputs, and of each filter whether it is none or lacks one of them.", None
    yield f"lacks {TESTNET_0.hex()} 019dfca8 00 01000001 -", f"items {PAID_0.hex()} holds lacks lacks lacks"
    yield f"lacks {block_paying([b'', bytes([0x6A])]).hex()} 00 01000001", "items holds lacks"
    name, own = double(block[:80]), sorted({s for s in paid if s and s[0] != 0x6A})
    sets = [found, own, [s for s in found if s != spent[0]], own + [b"\x61"]] + [[s for s in found if s != left_out] for left_out in own]
    coded = " ".join(basic_filter(name, members).hex() for members in sets)
    for members in sets[4:]:
        values = {siphash(name[:16], s) * len(members) * M >> 64 for s in members}
        assert not all(siphash(name[:16], s) * len(members) * M >> 64 in values for s in own)
    yield f"lacks {block.hex()} {coded}", f"items{''.join(' ' + s.hex() for s in own)} holds holds holds holds{' lacks' * len(own)}"
    yield "# Under another block's hash.", None
    yield f"lacks {block_paying(four).hex()} {basic_filter(name, four).hex()}", f"items{''.join(' ' + s.hex() for s in sorted(four))} lacks"
    yield from claim_rows()
    yield from verdict_rows()


def claim_rows():
    """What peers claim. A hash of one byte is that byte 32 times."""
    yield "# claims FIRST;STEP;..: what each step comes to, where FIRST is the filter header of the first block. A hash is 32 bytes in wire order, a byte that stands 32", None
    yield "# times, or the first block's hash (`genesis`) or filter header (`first`). `give PEER BLOCKS PREVIOUS HASHES`: the peer claims these hashes of blocks on the first", None
    yield "# one, and what it claimed before is forgotten; `forget PEER`; `at BLOCK`: what all claim; `of PEER BLOCK`: the filter hash and filter header that a peer claims.", None
    first = header_after(basic_filter(double(REGTEST_0[:80]), [PAID_0]), bytes(32))
    x, y, z = (bytes([b]) * 32 for b in (0xB1, 0xB2, 0xB3))
    after_x = double(x + first)
    after_y = double(y + after_x)
    yield "claims first;give 1 a1,a2,a3 first b1,b2;at a1;of 1 genesis", f"Count 3 2;Nobody;no hash header {first.hex()}"
    yield "claims first;give 1 a1,a2 first b1,b2,b3;at a1", "Count 2 3;Nobody"
    yield "claims first;give 1 a1,a2,a3 00 b1,b2", "Count 3 2"
    yield "claims first;give 1 a1 00 b1;of 1 a1", f"Previous {first.hex()} {bytes(32).hex()};no hash no header"
    taken = f"taken;hash {x.hex()} header {after_x.hex()};hash {y.hex()} header {after_y.hex()};no hash no header;no hash no header"
    yield "claims first;give 1 a1,a2 first b1,b2;of 1 a1;of 1 a2;of 1 a3;of 2 a1", taken
    yield "claims first;give 1 a1 first b1;give 2 a1 first b2;at a1;forget 2;at a1;forget 1;at a1", f"taken;taken;Differ;forgotten;One {x.hex()};forgotten;Nobody"
    one_of_three = f"taken;taken;taken;Differ;forgotten;Differ;forgotten;One {z.hex()}"
    yield "claims first;give 8 a1 first b1;give 2 a1 first b3;give 5 a1 first b3;at a1;forget 5;at a1;forget 8;at a1", one_of_three
    yield "claims first;give 1 a1 first b1;give 2 a1 first b1;at a1;at a2", f"taken;taken;One {x.hex()};Nobody"
    yield "# The filter header of testnet's block 2, as BIP 158's vectors have it, on that of block 1.", None
    name, code = double(TESTNET_2[:80]), basic_filter(double(TESTNET_2[:80]), [PAID_2])
    header = header_after(code, BEFORE_2)
    row = f"claims {BEFORE_2.hex()};give 1 {name.hex()} {BEFORE_2.hex()} {double(code).hex()};of 1 {name.hex()}"
    yield row, f"taken;hash {double(code).hex()} header {header.hex()}"


def verdict_rows():
    """What filters say of watched scripts."""
    yield "# verdicts SCRIPTS BLOCK:FILTER..: the verdicts on filters for blocks, where these scripts are watched. `none` is no script, or no filter.", None
    zeros = bytes(32).hex()
    yield f"verdicts 51 {zeros}:00 {zeros}:01000001", "[Miss, Hit]"
    yield f"verdicts 51 {zeros}:01000001 {zeros}:0100000000 {zeros}:- {zeros}:00", "[Hit, Hit, Hit, Miss]"
    yield "verdicts 51 none", "[]"
    yield f"verdicts none {zeros}:00 {zeros}:01000001", "[Miss, Hit]"
    yield "# The filter of testnet's block 0, of BIP 158's vectors, under its own hash and under another.", None
    name = double(TESTNET_0[:80])
    value = siphash(name[:16], PAID_0) * M >> 64
    blocks = (name, name[::-1])
    filters = " ".join(f"{block.hex()}:019dfca8" for block in blocks)
    for scripts in ([PAID_0], [b"\x51", PAID_0, b"\x52"], [b"\x51"]):
        verdicts = ("Hit" if any(siphash(block[:16], s) * M >> 64 == value for s in scripts) else "Miss" for block in blocks)
        yield f"verdicts {listed(scripts)} {filters}", f"[{', '.join(verdicts)}]"


def main():
    published()
    with open(sys.argv[1], "w") as asked, open(sys.argv[2], "w") as answers:
        for row, answer in rows():
            print(row, file=asked)
            print(row, file=answers)
            if answer is not None:
                print(answer, file=answers)


if __name__ == "__main__":
    main()
