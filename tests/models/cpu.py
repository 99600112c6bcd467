from common import Model

MASK = 0xffff


def signed(x, bits=16):
    return x - (1 << bits) if x >> (bits - 1) else x


class Design(Model):
    TREE = """
module cpu
  in clk
  in rst_n
  in run
  in load
  in load_at:6
  in load_word:16
  out pc:6
  out halted
  out stored
  out stored_at:16
  out stored_word:16
  word:16
  k:16
  of_d:16
  of_a:16
  of_b:16
  value:16
  address:16
  writes
  taken
  active
  module registers
    in clk
    in write
    in d:3
    in a:3
    in b:3
    in value:16
    out of_d:16
    out of_a:16
    out of_b:16
  module unit
    in op:4
    in a:16
    in b:16
    in k:16
    in long:16
    in loaded:16
    out value:16
    out writes
"""
    EVENTS = [("clk", "posedge"), ("rst_n", "negedge")]

    def begin(self):
        self.code, self.data, self.r = [0] * 64, [0] * 64, [0] * 8
        self.later = []

    def settle(self, v):
        word = self.code[v["pc"]]
        op, d, a, b = word >> 12, word >> 9 & 7, word >> 6 & 7, word >> 3 & 7
        k = signed(word & 63, 6) & MASK
        of_d, of_a, of_b = self.r[d], self.r[a], self.r[b]
        address = (of_a + k) & MASK
        loaded = self.data[address % 64]
        results = {0: of_a + of_b, 1: of_a - of_b, 2: of_a & of_b, 3: of_a | of_b, 4: of_a ^ of_b, 5: signed(of_a) < signed(of_b),
                   6: of_a + k, 7: loaded, 12: word & 511, 13: of_a << (k & 15), 14: of_a >> (k & 15)}
        v["word"], v["k"], v["of_d"], v["of_a"], v["of_b"], v["address"] = word, k, of_d, of_a, of_b, address
        v["value"], v["writes"] = results.get(op, 0), op in results
        v["active"] = v["run"] and not v["halted"]
        v["taken"] = op == 9 and of_d == of_a or op == 10 and of_d != of_a
        inside = {"clk": v["clk"], "write": v["active"] and v["writes"], "d": d, "a": a, "b": b, "value": v["value"],
                  "of_d": of_d, "of_a": of_a, "of_b": of_b}
        for name, value in inside.items():
            v["registers." + name] = value
        inside = {"op": op, "a": of_a, "b": of_b, "k": k, "long": word & 511, "loaded": loaded, "value": v["value"], "writes": v["writes"]}
        for name, value in inside.items():
            v["unit." + name] = value

    def fire(self, v, edges):
        clocked = ("clk", "posedge") in edges
        word = v["word"]
        op, d = word >> 12, word >> 9 & 7
        if clocked and v["load"]:
            self.later.append((self.code, v["load_at"], v["load_word"]))
        if clocked and v["registers.write"] and d:
            self.later.append((self.r, d, v["value"]))
        if not v["rst_n"]:
            return {"pc": 0, "halted": 0, "stored": 0}
        if not v["active"]:
            return {}
        new = {"stored": op == 8}
        if op == 8:
            self.later.append((self.data, v["address"] % 64, v["of_d"]))
            new["stored_at"], new["stored_word"] = v["address"], v["of_d"]
        if op == 15:
            new["halted"] = 1
        elif op == 11:
            new["pc"] = word
        else:
            new["pc"] = v["pc"] + (v["k"] if v["taken"] else 1)
        return new

    def after(self):
        for table, at, value in self.later:
            table[at] = value
        self.later = []
