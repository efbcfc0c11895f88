"""What the tools beside `tcrest` share: jobs with their places, what the program writes, and the texts of tasks.

Python 3.11 and its standard library are all that is needed. Nothing here is proved.
"""

VERSION = "1"
