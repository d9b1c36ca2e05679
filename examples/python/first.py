"""First counts: two instructions are retired, and a set counts them."""

import kistalub

with kistalub.Library("examples/lab.unit", stream="examples/c/first.stream"):
    with kistalub.EventSet("INST_RETIRED", "CYCLES") as events:
        events.start()
        kistalub.go(3)  # on a machine with counters, the work that is measured
        print(events.stop())
