from common import Model


def times(a, b):
    """The product of two bytes in GF(2^8) modulo x^8 + x^4 + x^3 + x + 1 (FIPS 197, 4.2)."""
    product = 0
    while b:
        if b & 1:
            product ^= a
        a = a << 1 ^ (0x11b if a & 0x80 else 0)
        b >>= 1
    return product


def substituted(a):
    """The inverse in GF(2^8), then the affine map of 5.1.1."""
    inverse = next((b for b in range(256) if times(a, b) == 1), 0)
    result = 0x63
    for turn in range(5):
        result ^= inverse << turn & 0xff | inverse >> 8 - turn
    return result


SBOX = [substituted(a) for a in range(256)]


def round_keys(key):
    """The words of all round keys (5.2)."""
    words = [key[i:i + 4] for i in range(0, 16, 4)]
    rcon = 1
    while len(words) < 44:
        word = list(words[-1])
        if len(words) % 4 == 0:
            word = [SBOX[b] for b in word[1:] + word[:1]]
            word[0] ^= rcon
            rcon = times(rcon, 2)
        words.append([a ^ b for a, b in zip(words[-4], word)])
    return words


def added(state, words):
    return [a ^ b for a, b in zip(state, sum(words, []))]


def mixed(column):
    return [times(2, column[i]) ^ times(3, column[(i + 1) % 4]) ^ column[(i + 2) % 4] ^ column[(i + 3) % 4] for i in range(4)]


def encrypted(key, plain):
    words = round_keys(key)
    state = added(plain, words[:4])
    for turn in range(1, 11):
        state = [SBOX[b] for b in state]
        state = [state[4 * ((c + r) % 4) + r] for c in range(4) for r in range(4)]
        if turn < 10:
            state = sum((mixed(state[i:i + 4]) for i in range(0, 16, 4)), [])
        state = added(state, words[4 * turn:4 * turn + 4])
    return state


class Design(Model):
    TREE = """
module aes
  in clk
  in start
  in key:128
  in plain:128
  out busy
  out cipher:128
"""
    EVENTS = [("clk", "posedge")]

    def begin(self):
        self.left, self.result = 0, 0

    def settle(self, v):
        v["busy"] = int(self.left > 0)
        v["cipher"] = 0 if self.left else self.result

    def fire(self, v, edges):
        if v["start"]:
            key, plain = (list(v[name].to_bytes(16, "big")) for name in ("key", "plain"))
            self.left, self.result = 10, int.from_bytes(bytes(encrypted(key, plain)), "big")
        elif self.left:
            self.left -= 1
        return {}
