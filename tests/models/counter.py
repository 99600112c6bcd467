from common import Model


class Design(Model):
    TREE = """
module counter
  in clk
  in rst_n
  in load
  in en
  in d:8
  out q:8
  out last
"""
    EVENTS = [("clk", "posedge"), ("rst_n", "negedge")]

    def settle(self, v):
        v["last"] = v["q"] == 255

    def fire(self, v, edges):
        if not v["rst_n"]:
            return {"q": 0}
        if v["load"]:
            return {"q": v["d"]}
        if v["en"]:
            return {"q": (v["q"] + 1) % 256}
        return {}
