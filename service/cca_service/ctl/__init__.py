"""`ccactl`: what the operators of a service do. main.py has the table of its subcommands, and each of the other files some of
them."""
