"""Surveys: cases by the million, worked by `study` in parts, here or on a cluster.

Knows cases made from failures or read from tables, the parts that the program takes, and what is kept of their rows. Offers
`case_lists` and `case_files`, `workers` and `cluster` who work the parts, `tallies` of the worst cases, and `survey_report`,
which `survey` prints.
"""
