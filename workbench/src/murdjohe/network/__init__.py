"""The network of a plan that the program took: what it is, and what the program says of it.

Knows where lines lead, groups of parts that fail together, and who can be reached when parts are gone. Offers `plan_file.read`,
with which commands that read a plan begin, and `plan_file.judged`; `wiring`, `ways` and `reachability` for whoever counts;
`findings`, `orders` and `differences` as `lint`, `orders` and `diff` tell them.
"""
