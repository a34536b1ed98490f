"""The commands `python3 -m cohom ..`, one a file. Each has `add`, which tells its words, and `run`, which gives its status.

Statuses: 0 where all went well, 1 where the program refused something or a difference was found, 2 for bad input (words, files,
no program).
"""
