"""What is said on standard error beside an answer of the program that is no refusal.

Knows for each form what a planner should not pass over. Offers `form_remarks.remarks`, the sentences on any answer by a table of
the forms; those on plans are in `plan_remarks`, on ways and chains in `reach_remarks`, on runs in `run_remarks` and `run_times`,
on tables of cuts and cases in `losses`, and on priorities that may oscillate in `agreement`.
"""
