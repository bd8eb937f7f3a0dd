"""Which priorities to take away or change, so that no ring and no clash is left.

Knows nominated lines that hop round in rings, and what it costs to lose one. Offers `repairs`, whose sets of lines come from
`first_sets`, `improvement`, `least_sets` and `greedy_sets`; and `agreement`, for priorities that may oscillate.
"""
