"""`python3 -m murdjohe` is the command too."""

from murdjohe.main import start

start()
