"""Runs: events, failures and works over time, and the network in any millisecond of a report.

Knows what each event does, when runs end, and which walks are closed when. Offers `simulation.report_of` and its like, which run
the program on a plan and an event list; `failures` and the times at which they come; `moments` and `spans` of a report; and
`rehearsals`, works as `rehearse` prints them.
"""
