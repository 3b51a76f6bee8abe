"""What the sweeps share: runs of the programs, folders of files, cases by name, and readers of our formats that share
nothing with the program."""
