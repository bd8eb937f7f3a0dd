"""What compares the program with independent models, and what measures it; README.md says what to run."""
