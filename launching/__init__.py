"""How programs are found, built and run: the shell library that the launchers share, and its counterpart for Python programs."""
