"""Sentences on what the program refused: on plans, on records with commas, on frames, and on any answer.

Knows what each number of a refusal means (docs/refusals.toml) and looks into the file for where it is and what would be right.
Offers `answers.sentence`, which finds the sentence on any answer; `plan`, `records`, `groups` and `frames` have those of a
kind of file each.
"""
