"""The tests around the programs; `python3 -m tests.run` runs them side by side."""
