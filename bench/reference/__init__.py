"""The rules of the networks once more, plain and slow: independent models that call no code of the program."""
