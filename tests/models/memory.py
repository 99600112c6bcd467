from common import Model


class Design(Model):
    TREE = """
module memory
  in clk
  in we
  in be:4
  in addr:4
  in wdata:32
  out rdata:32
"""
    EVENTS = [("clk", "posedge")]

    def begin(self):
        self.bytes = {}

    def settle(self, v):
        pass

    def fire(self, v, edges):
        read = sum(self.bytes.get((v["addr"], k), 0) << 8 * k for k in range(4))
        if v["we"]:
            for k in range(4):
                if v["be"] >> k & 1:
                    self.bytes[v["addr"], k] = v["wdata"] >> 8 * k & 255
        return {"rdata": read}
