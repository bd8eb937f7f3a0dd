"""Pictures of plans, runs, surveys and placements, and the page of a run.

Knows where things stand and which colours levels have. Offers `sketch` and `plan_graph` for `draw`, `strips` for `timeline`,
`tiles` for the map of a survey, `site_picture` for `place`, and `pages`, which puts the page of `report` together from the files
in `page`.
"""
