"""The files of this suite that are built when it runs, and their wanted answers."""
