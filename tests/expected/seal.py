"""What the program `seal` has to print for the letters on standard input, computed from the rules alone.

    python3 tests/expected/seal.py < crates/seal/stdin | diff - crates/seal/stdout
"""
import sys

PAD_BITS = "".join(f"{(7 * j + j // 64) % 256:08b}" for j in range(1024))


def keystream(key, variable_bits, n):
    line = int(variable_bits.ljust(4, "0"), 2)
    key_bits = f"{key:08b}"
    return [int(PAD_BITS[512 * line + i]) ^ int(key_bits[i % 8]) for i in range(n)]


def sealed(message, stream):
    bits = [int(b) for byte in message for b in f"{byte:08b}"]
    mixed = "".join(str(b ^ k) for b, k in zip(bits, stream))
    return bytes(int(mixed[i : i + 8], 2) for i in range(0, len(mixed), 8))


def answer(key, count, variable, message):
    def hexadecimal(text):
        return len(text) % 2 == 0 and all(c in "0123456789abcdef" for c in text)

    if not hexadecimal(key):
        return ["unreadable key"]
    digits = count[1:] if count.startswith("+") else count
    if not (digits.isascii() and digits.isdigit() and int(digits) < 2**64):
        return ["unreadable bit count"]
    if not hexadecimal(variable):
        return ["unreadable variable"]
    key, count, variable = bytes.fromhex(key), int(digits), bytes.fromhex(variable)
    text = message.encode()
    if len(key) != 1:
        return ["no 21 generator"]
    if count > 4:
        return ["no 22 generator"]
    if len(variable) != (count + 7) // 8:
        return ["no 23 generator"]
    if 8 * len(text) > 512:
        return ["no 25 generator"]
    bits = "".join(f"{b:08b}" for b in variable)[:count]
    stream = keystream(key[0], bits, 8 * len(text))
    return ["sealed " + sealed(text, stream).hex(), "clear " + message]


lines = sys.stdin.read().split("\n")
for i in range(0, len(lines) - 4, 4):
    print("\n".join(answer(*lines[i : i + 4])))
