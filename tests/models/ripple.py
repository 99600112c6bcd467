from common import Model

STAGE = """
  begin stage[{i}]
    module fa
      in a
      in b
      in cin
      out sum
      out cout
"""


class Design(Model):
    TREE = """
module ripple
  in a:16
  in b:16
  in subtract
  out sum:16
  out carry
  out overflow
  c:17
""" + "".join(STAGE.format(i=i) for i in range(16))

    def settle(self, v):
        a, b, s = v["a"], v["b"] ^ (0xffff if v["subtract"] else 0), v["subtract"]
        total = a + b + s
        carries = s
        for i in range(16):
            low = (1 << (i + 1)) - 1
            out = ((a & low) + (b & low) + s) >> (i + 1)
            fa = f"stage[{i}].fa."
            v[fa + "a"], v[fa + "b"], v[fa + "cin"] = a >> i, b >> i, carries >> i
            v[fa + "sum"], v[fa + "cout"] = total >> i, out
            carries |= out << (i + 1)
        v["sum"], v["carry"], v["c"] = total, total >> 16, carries
        as_signed = lambda x: x - 0x10000 if x & 0x8000 else x
        exact = as_signed(v["a"]) + (-as_signed(v["b"]) if s else as_signed(v["b"]))
        v["overflow"] = not -0x8000 <= exact <= 0x7fff
