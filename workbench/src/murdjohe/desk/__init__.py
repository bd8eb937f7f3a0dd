"""The desk: a plan on a page in the browser, changed by pointing, with the program's verdicts on each change.

Knows the edits of a plan as text, undone and redone, numbered, and kept in a draft. Offers `desks`, the model without a
browser, `verdicts`, which has states judged by a pool of programs, and `server`, which `desk` starts.
"""
