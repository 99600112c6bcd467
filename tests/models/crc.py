import binascii

from common import Model


class Design(Model):
    TREE = """
module crc
  in clk
  in start
  in valid
  in data:8
  out value:32
  state:32
  next:32
"""
    EVENTS = [("clk", "posedge")]

    def begin(self):
        # Before the first start the register is 0 and not all ones, so the first values come from a step of the register alone.
        self.value = 0xffffffff

    def settle(self, v):
        v["state"] = self.value ^ 0xffffffff
        v["next"] = binascii.crc32(bytes([v["data"]]), self.value) ^ 0xffffffff
        v["value"] = self.value

    def fire(self, v, edges):
        if v["start"]:
            self.value = 0
        elif v["valid"]:
            self.value = binascii.crc32(bytes([v["data"]]), self.value)
        return {}
