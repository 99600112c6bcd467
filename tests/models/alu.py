from common import Model


def signed(x):
    return x - (1 << 32) if x >> 31 else x


class Design(Model):
    TREE = """
module alu
  in clk
  in keep
  in op:4
  in a:32
  in b:32
  out y:32
  out zero
  out negative
  out carry
  out kept:32
  out total:32
  wide:33
"""
    EVENTS = [("clk", "posedge")]

    def begin(self):
        self.sum = 0

    def settle(self, v):
        op, a, b = v["op"], v["a"], v["b"]
        wide = a - b if op == 1 else a + b
        by = b % 32
        if op < 2:
            y = wide
        elif op == 12:
            y = self.call("vs_popcount", [(a, 32)], bin(a).count("1"))
        elif op == 13:
            y = self.call("vs_rotl", [(a, 32), (b, 32)], ((a << by) | (a >> (32 - by))) & 0xffffffff)
        elif op == 14:
            y = self.call("vs_max", [(a, 32), (b, 32)], max(a, b))
        else:
            quotient = 0 if b == 0 else abs(signed(a)) // abs(signed(b)) * (1 if (signed(a) < 0) == (signed(b) < 0) else -1)
            y = {2: a & b, 3: a | b, 4: a ^ b, 5: a << by, 6: a >> by, 7: signed(a) >> by, 8: signed(a) < signed(b), 9: a < b,
                 10: a * b, 11: quotient}.get(op, 0)
        v["y"], v["wide"] = y, wide
        v["zero"], v["negative"] = v["y"] == 0, v["y"] >> 31
        v["carry"] = op < 2 and (v["wide"] >> 32)

    def fire(self, v, edges):
        if not v["keep"]:
            return {}
        self.sum += v["y"]
        self.call("vs_put", [(v["y"], 32)], None)
        return {"kept": v["y"], "total": self.call("vs_sum", [], self.sum & 0xffffffff)}
