"""Wrong bodies that the contracts have to refuse: an edit of one crate each, by crate in the folders beside this file.

The merge gate tries those of `crates/CRATE/must-fail/`; `python3 -m bench.mutants` tries these and those.
"""
