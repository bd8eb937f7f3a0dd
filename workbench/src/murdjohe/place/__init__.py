"""Where clocks and filters go: candidate sites with their costs, and the cheapest of them that do.

Knows whom a clock at a site reaches after which failure, and which filters keep chains short. Offers `placements`, the sites
with the plan that comes of them and what the program says of it, and `placement_text`, which `place` prints.
"""
