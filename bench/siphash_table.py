"""Makes the answers of the rows `digest sip 1 2` of rows/basics_rows: SipHash with 1 and 2 rounds.

Written apart from the crate, after "SipHash: a fast short-input PRF", for these rows alone.
It first checks itself on the published vector for 2 and 4 rounds. Run: python3 bench/siphash_table.py
"""

WORD = 2**64


def rotated(x, by):
    return (x << by | x >> (64 - by)) % WORD


def sip_round(v):
    v[0] = (v[0] + v[1]) % WORD
    v[2] = (v[2] + v[3]) % WORD
    v[1] = rotated(v[1], 13) ^ v[0]
    v[3] = rotated(v[3], 16) ^ v[2]
    v[0] = rotated(v[0], 32)
    v[2] = (v[2] + v[1]) % WORD
    v[0] = (v[0] + v[3]) % WORD
    v[1] = rotated(v[1], 17) ^ v[2]
    v[3] = rotated(v[3], 21) ^ v[0]
    v[2] = rotated(v[2], 32)


def sip(c, d, key, message):
    k = [int.from_bytes(key[:8], "little"), int.from_bytes(key[8:], "little")]
    constants = b"somepseudorandomlygeneratedbytes"
    v = [int.from_bytes(constants[8 * i : 8 * i + 8], "big") ^ k[i % 2] for i in range(4)]
    whole = len(message) // 8 * 8
    blocks = [message[i : i + 8] for i in range(0, whole, 8)]
    blocks.append(message[whole:].ljust(7, b"\0") + bytes([len(message) % 256]))
    for block in blocks:
        word = int.from_bytes(block, "little")
        v[3] ^= word
        for _ in range(c):
            sip_round(v)
        v[0] ^= word
    v[2] ^= 0xFF
    for _ in range(d):
        sip_round(v)
    return v[0] ^ v[1] ^ v[2] ^ v[3]


key = bytes(range(16))
assert sip(2, 4, key, bytes(range(15))) == 0xA129CA6149BE45E5

for length in range(65):
    value = f"{sip(1, 2, key, bytes(range(length))):016x}"
    print("    0x" + "_".join(value[i : i + 4] for i in range(0, 16, 4)) + ",")
