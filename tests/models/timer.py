from common import Model


class Design(Model):
    TREE = """
module timer
  in clk
  in start
  in stop
  in load:8
  out running
  out left:8
  out done
  tick
  module steps
    in clk
    in run
    out tick
    count:2
"""
    EVENTS = [("clk", "posedge")]

    def settle(self, v):
        v["steps.clk"] = v["clk"]
        v["steps.run"] = v["running"]
        v["tick"] = v["steps.tick"] = v["running"] and v["steps.count"] == 3

    def fire(self, v, edges):
        writes = {"done": 0, "steps.count": v["steps.count"] + 1 if v["running"] and not v["tick"] else 0}
        if v["start"]:
            writes.update(left=v["load"], running=v["load"] != 0)
        elif v["stop"]:
            writes.update(running=0)
        elif v["tick"]:
            writes.update(left=v["left"] - 1, running=v["left"] != 1, done=v["left"] == 1)
        return writes
