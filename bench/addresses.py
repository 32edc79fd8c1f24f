#!/usr/bin/env python3
"""Reads addresses by the reference code of BIP 173 and BIP 350, and prints rows of the kind `address` and what each comes to.

    bench/addresses.py        the rows of ADDRESSES below, which are the lists of both standards and some made here

The checksum, the expansion of the prefix and the regrouping of bits are those of the standards' sections "Checksum" and "Segwit address
format". The names of the faults, and which one is told first, are this repository's.
"""

CHARSET = "qpzry9x8gf2tvdw0s3jn54khce6mua7l"
BECH32M = 0x2BC830A3


def bech32_polymod(values):
    generator = [0x3B6A57B2, 0x26508E6D, 0x1EA119FA, 0x3D4233DD, 0x2A1462B3]
    chk = 1
    for value in values:
        top = chk >> 25
        chk = (chk & 0x1FFFFFF) << 5 ^ value
        for i in range(5):
            chk ^= generator[i] if ((top >> i) & 1) else 0
    return chk


def bech32_hrp_expand(hrp):
    return [ord(x) >> 5 for x in hrp] + [0] + [ord(x) & 31 for x in hrp]


def create_checksum(hrp, data, const):
    polymod = bech32_polymod(bech32_hrp_expand(hrp) + data + [0] * 6) ^ const
    return [(polymod >> 5 * (5 - i)) & 31 for i in range(6)]


def convertbits(data, frombits, tobits, pad):
    acc = bits = 0
    ret = []
    maxv = (1 << tobits) - 1
    for value in data:
        acc = (acc << frombits) | value
        bits += frombits
        while bits >= tobits:
            bits -= tobits
            ret.append((acc >> bits) & maxv)
    if pad:
        if bits:
            ret.append((acc << (tobits - bits)) & maxv)
    elif bits >= frombits or ((acc << (tobits - bits)) & maxv):
        return None
    return ret


def constant(version):
    return 1 if version == 0 else BECH32M


def encode(hrp, version, program):
    data = [version] + convertbits(program, 8, 5, True)
    return hrp + "1" + "".join(CHARSET[d] for d in data + create_checksum(hrp, data, constant(version)))


def read(hrp, text):
    """The version and the program, or the name of the first fault."""
    if len(text) > 90:
        return "Long"
    if any(not 0x21 <= ord(c) <= 0x7E for c in text):
        return "Byte"
    if text.lower() != text and text.upper() != text:
        return "Mixed"
    text = text.lower()
    before, one, after = text.rpartition("1")
    if not one or before != hrp:
        return "Prefix"
    if any(c not in CHARSET for c in after):
        return "Digit"
    data = [CHARSET.index(c) for c in after]
    if len(data) < 7 or data[0] > 16:
        return "Version"
    if bech32_polymod(bech32_hrp_expand(hrp) + data) != constant(data[0]):
        return "Checksum"
    program = convertbits(data[1:-6], 5, 8, False)
    if program is None:
        return "Padding"
    if len(program) < 2 or len(program) > 40 or (data[0] == 0 and len(program) not in (20, 32)):
        return "Length"
    return data[0], program


ADDRESSES = """
# BIP 350 "Test vectors for v0-v16 native segregated witness addresses": valid.
bc BC1QW508D6QEJXTDG4Y5R3ZARVARY0C5XW7KV8F3T4
tb tb1qrp33g0q5c5txsp9arysrx4k6zdkfs4nce4xj0gdcccefvpysxf3q0sl5k7
bc bc1pw508d6qejxtdg4y5r3zarvary0c5xw7kw508d6qejxtdg4y5r3zarvary0c5xw7kt5nd6y
bc BC1SW50QGDZ25J
bc bc1zw508d6qejxtdg4y5r3zarvaryvaxxpcs
tb tb1qqqqqp399et2xygdj5xreqhjjvcmzhxw4aywxecjdzew6hylgvsesrxh6hy
tb tb1pqqqqp399et2xygdj5xreqhjjvcmzhxw4aywxecjdzew6hylgvsesf3hn0c
bc bc1p0xlxvlhemja6c4dqv22uapctqupfhlxm9h8z3k2e72q4k9hcz7vqzk5jj0
# The same list: invalid.
tb tc1p0xlxvlhemja6c4dqv22uapctqupfhlxm9h8z3k2e72q4k9hcz7vq5zuyut
bc bc1p0xlxvlhemja6c4dqv22uapctqupfhlxm9h8z3k2e72q4k9hcz7vqh2y7hd
tb tb1z0xlxvlhemja6c4dqv22uapctqupfhlxm9h8z3k2e72q4k9hcz7vqglt7rf
bc BC1S0XLXVLHEMJA6C4DQV22UAPCTQUPFHLXM9H8Z3K2E72Q4K9HCZ7VQ54WELL
bc bc1qw508d6qejxtdg4y5r3zarvary0c5xw7kemeawh
tb tb1q0xlxvlhemja6c4dqv22uapctqupfhlxm9h8z3k2e72q4k9hcz7vq24jc47
bc bc1p38j9r5y49hruaue7wxjce0updqjuyyx0kh56v8s25huc6995vvpql3jow4
bc BC130XLXVLHEMJA6C4DQV22UAPCTQUPFHLXM9H8Z3K2E72Q4K9HCZ7VQ7ZWS8R
bc bc1pw5dgrnzv
bc bc1p0xlxvlhemja6c4dqv22uapctqupfhlxm9h8z3k2e72q4k9hcz7v8n0nx0muaewav253zgeav
bc BC1QR508D6QEJXTDG4Y5R3ZARVARYV98GJ9P
tb tb1p0xlxvlhemja6c4dqv22uapctqupfhlxm9h8z3k2e72q4k9hcz7vq47Zagq
bc bc1p0xlxvlhemja6c4dqv22uapctqupfhlxm9h8z3k2e72q4k9hcz7v07qwwzcrf
tb tb1p0xlxvlhemja6c4dqv22uapctqupfhlxm9h8z3k2e72q4k9hcz7vpggkg4j
bc bc1gmk9yu
# BIP 173 "Test vectors": the valid ones of a version above 0 have another constant since BIP 350.
bc bc1pw508d6qejxtdg4y5r3zarvary0c5xw7kw508d6qejxtdg4y5r3zarvary0c5xw7k7grplx
bc BC1SW50QA3JX3S
bc bc1zw508d6qejxtdg4y5r3zarvaryvg6kdaj
# The same list: invalid.
tb tc1qw508d6qejxtdg4y5r3zarvary0c5xw7kg3g4ty
bc bc1qw508d6qejxtdg4y5r3zarvary0c5xw7kv8f3t5
bc BC13W508D6QEJXTDG4Y5R3ZARVARY0C5XW7KN40WF2
bc bc1rw5uspcuh
bc bc10w508d6qejxtdg4y5r3zarvary0c5xw7kw508d6qejxtdg4y5r3zarvary0c5xw7kw5rljs90
tb tb1qrp33g0q5c5txsp9arysrx4k6zdkfs4nce4xj0gdcccefvpysxf3q0sL5k7
bc bc1zw508d6qejxtdg4y5r3zarvaryvqyzf3du
tb tb1qrp33g0q5c5txsp9arysrx4k6zdkfs4nce4xj0gdcccefvpysxf3pjxtptv
# Of the test network of this repository, made here: the programs of the first list.
+bcrt 0 751e76e8199196d454941c45d1b3a323f1433bd6
+bcrt 0 1863143c14c5166804bd19203356da136c985678cd4d27a1b8c6329604903262
+bcrt 1 79be667ef9dcbbac55a06295ce870b07029bfcdb2dce28d959f2815b16f81798
+bcrt 16 751e
# A letter that is mistyped; an address of another network; another `1`; no `1`; too long; a byte that is no letter; no text.
bc BC1QW508D6QEJXTDG4Y5R3ZARVARY0C5XW7KV8F3T5
bcrt bc1qw508d6qejxtdg4y5r3zarvary0c5xw7kv8f3t4
bc bc1qw508d6qejxtdg4y5r3zarvary0c5xw7k1v8f3t4
bc bcqw508d6qejxtdg4y5r3zarvary0c5xw7kv8f3t4
bc bc1qw508d6qejxtdg4y5r3zarvary0c5xw7kv8f3t4qqqqqqqqqqqqqqqqqqqqqqqqqqqqqqqqqqqqqqqqqqqqqqqqqqq
bc bc1qw508d6qejxtdg4y5r3 arvary0c5xw7kv8f3t4
bc bc1qw508d6qejxtdg4y5r3zarvary0c5xw7kv8f3tb
bc\x20
""".strip("\n").replace("\\x20", " ")


def main():
    for line in ADDRESSES.split("\n"):
        if line.startswith("#"):
            print(line)
            continue
        if line.startswith("+"):
            hrp, version, digits = line[1:].split(" ")
            line = hrp + " " + encode(hrp, int(version), list(bytes.fromhex(digits)))
        hrp, text = line.split(" ", 1)
        print("address " + line)
        found = read(hrp, text)
        if isinstance(found, str):
            print(found)
        else:
            version, program = found
            script = bytes([0x50 + version if version else 0, len(program)] + program)
            print(script.hex() + " " + encode(hrp, version, program))


if __name__ == "__main__":
    main()
