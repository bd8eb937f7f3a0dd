"""What the program writes, and its forms as functions.

Knows the rows of each answer. Offers `api` with a function for each form, dataclasses of answers (`reports`, `inspections`,
`studies`), the fields of `rows`, and `answer_json`, an answer as JSON.
Nothing here knows what stands in a plan.
"""
