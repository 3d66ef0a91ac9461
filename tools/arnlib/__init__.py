"""The parts of `arn`. main.py has its words and the table of its subcommands, of which each has a file of its name."""
