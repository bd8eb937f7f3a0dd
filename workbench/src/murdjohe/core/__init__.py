"""The proved program and how it is called, and what all packages above are made of.

Knows the words of each form, times with units, standard streams, the numbers of refusals, and files as octets; nothing of what
stands in a plan. Offers `program.run`, the one place that starts the program, `forms.FORMS`, `inputs.taken`, `refusals.of`,
`files` for whole files, `faults.Wrong` for what a command can't do, and `wording` for sentences.
Every start of the command reads much of it, so it imports little.
"""
