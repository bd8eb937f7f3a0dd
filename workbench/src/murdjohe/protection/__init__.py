"""Which plans lose nobody by a failure who needn't be lost.

Knows which failures a set of nominated ways covers. Offers `group_protection`, which `protect --groups` prints: plans by
`covering`, a search by steps, and by `exact_covering`, which HiGHS does; and `promise`, what is said beside any plan of `protect`.
"""
