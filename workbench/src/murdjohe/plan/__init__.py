"""Plans as files: their text and tables, without the program.

Knows the rows of a plan with the defaults of the format, where each of them and each key stands in its file, and which tables
of people and of NetBox become a plan. Offers `model.Plan`, the plan as the field has it, `plan_lines.PlanLines`, its file,
`edits` that leave all other octets alone, `tables` and `export` between plans and tables, and `mistakes`, all of them at once.
"""
