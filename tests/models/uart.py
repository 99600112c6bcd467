from common import Model

DIV = 4


class Design(Model):
    TREE = """
module uart
  in clk
  in rst_n
  in send
  in data:8
  out tx
  out busy
  state:2
  ticks:2
  index:3
  rest:8
  last
"""
    EVENTS = [("clk", "posedge"), ("rst_n", "negedge")]

    def begin(self):
        # The clocks since the start bit began, or None; and the byte that is being sent.
        self.place, self.byte = None, 0
        self.rest = self.index = 0

    def settle(self, v):
        at, ticks = (None, 0) if self.place is None else divmod(self.place, DIV)
        line = [0] + [self.byte >> k & 1 for k in range(8)] + [1]
        if at is not None:
            self.rest, self.index = self.byte >> max(0, at - 1), max(0, at - 1) % 8
        v["tx"], v["busy"] = 1 if at is None else line[at], at is not None
        v["state"] = 0 if at is None else 1 if at == 0 else 3 if at == 9 else 2
        v["ticks"], v["last"], v["rest"], v["index"] = ticks, ticks == DIV - 1, self.rest, self.index

    def fire(self, v, edges):
        if not v["rst_n"]:
            self.place = None
        elif self.place is not None:
            self.place = self.place + 1 if self.place < 10 * DIV - 1 else None
            if self.place is None:
                self.rest, self.index = 0, 0
        elif v["send"]:
            self.place, self.byte = 0, v["data"]
        return {}
