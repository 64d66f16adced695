"""The command shrink, which makes a log small, in a module for each thing that it leaves out; and
the command without, which leaves out what it is told."""
