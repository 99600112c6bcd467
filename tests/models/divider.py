from common import Model


class Design(Model):
    TREE = """
module divider
  in clk
  in rst_n
  out slow
  out turns:8
  out seen:8
  count:4
"""
    EVENTS = [("clk", "posedge"), ("rst_n", "negedge"), ("slow", "posedge")]

    def settle(self, v):
        pass

    def fire(self, v, edges):
        writes = {}
        reset = ("rst_n", "negedge") in edges
        if ("clk", "posedge") in edges or reset:
            if not v["rst_n"]:
                writes = {"count": 0, "slow": 0, "turns": 0}
            elif v["count"] == 2:
                writes = {"count": 0, "slow": 1 - v["slow"], "turns": v["turns"] + 1}
            else:
                writes = {"count": v["count"] + 1, "turns": v["turns"] + 1}
        if ("slow", "posedge") in edges or reset:
            writes["seen"] = v["turns"] if v["rst_n"] else 0
        return writes
