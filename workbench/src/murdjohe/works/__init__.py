"""Work that is handed to those who configure equipment.

Knows orders for each element by templates, and in which order a plan becomes another one without passing through a plan that can
loop or oscillate, or that takes an element's last way to a clock. Offers `templates.rendered`, `steps.planned` and `step_text`.
"""
