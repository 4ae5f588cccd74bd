"""What the tools share. Python 3.10 or newer, standard library alone; nothing here is proved."""
