"""The command `murdjohe`: its options and help, and each command of the workbench's own in a module, as COMMAND.

Knows what words commands take and with what status they end. Offers `cli`, the command by click, which imports a command's module
when it is called, `form_run`, a form of the program as a command, and `topics`, what `murdjohe help TOPIC` says.
`options`, `failure_options` and `map_options` are what commands share.
"""
