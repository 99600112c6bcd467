from common import Model


def fifo_tree(name, pointer):
    return f"""
  module {name}
    in clk
    in rst_n
    in push
    in pop
    in din:8
    out dout:8
    out full
    out empty
    out level:{pointer}
    wp:{pointer}
    rp:{pointer}
"""


class Design(Model):
    TREE = """
module top
  in clk
  in rst_n
  in push
  in pop
  in din:8
  out dout:8
  out full
  out empty
  out waiting:4
  out ready:4
  between:8
  no_word
  no_room
  move
""" + fifo_tree("first", 4) + fifo_tree("second", 3)
    EVENTS = [("clk", "posedge"), ("rst_n", "negedge")]
    DEPTHS = {"first": 8, "second": 4}

    def begin(self):
        self.cells = {name: [0] * depth for name, depth in self.DEPTHS.items()}
        self.writes = []

    def settle(self, v):
        # What comes out of each FIFO hangs on its pointers and words alone.
        for name, depth in self.DEPTHS.items():
            wp, rp = v[f"{name}.wp"], v[f"{name}.rp"]
            held = (wp - rp) % (2 * depth)
            v[f"{name}.level"], v[f"{name}.empty"], v[f"{name}.full"] = held, held == 0, held == depth
            v[f"{name}.dout"] = self.cells[name][rp % depth]
            v[f"{name}.clk"], v[f"{name}.rst_n"] = v["clk"], v["rst_n"]
        v["between"], v["no_word"], v["no_room"] = v["first.dout"], v["first.empty"], v["second.full"]
        v["move"] = not v["no_word"] and not v["no_room"]
        v["first.push"], v["first.pop"], v["first.din"] = v["push"], v["move"], v["din"]
        v["second.push"], v["second.pop"], v["second.din"] = v["move"], v["pop"], v["between"]
        v["dout"], v["full"], v["empty"] = v["second.dout"], v["first.full"], v["second.empty"]
        v["waiting"], v["ready"] = v["first.level"], v["second.level"]

    def fire(self, v, edges):
        new = {}
        for name, depth in self.DEPTHS.items():
            if not v["rst_n"]:
                new[f"{name}.wp"] = new[f"{name}.rp"] = 0
                continue
            if v[f"{name}.push"] and not v[f"{name}.full"]:
                self.writes.append((name, v[f"{name}.wp"] % depth, v[f"{name}.din"]))
                new[f"{name}.wp"] = v[f"{name}.wp"] + 1
            if v[f"{name}.pop"] and not v[f"{name}.empty"]:
                new[f"{name}.rp"] = v[f"{name}.rp"] + 1
        return new

    def after(self):
        for name, at, value in self.writes:
            self.cells[name][at] = value
        self.writes = []
