"""Comparisons of the program with the models and the readings, on random cases and on cases by hand."""
