# SPDX-License-Identifier: MIT OR Apache-2.0
"""The limits of rrdi, and its words for types and functions. docs/file-format.md says what each limit is of."""
TYPES = ("GAUGE", "COUNTER", "DERIVE", "ABSOLUTE")
FUNCTIONS = ("AVERAGE", "MIN", "MAX", "LAST")
MOST_SOURCES, MOST_ARCHIVES, MOST_CELLS = 64, 128, 8_000_000
MOST_ROWS = MOST_STEPS = 1_000_000  # rows of an archive, and steps of a row
MOST_CHANGES = 100_000  # of a journal
LONGEST_STEP = 1_000_000  # seconds
LATEST = 9_999_999_999  # the latest time, and the longest heartbeat, in seconds
LONGEST_LINE = 65_536  # bytes of a line of a batch
OF_A_NAME = "1 to 19 characters of a-z A-Z 0-9 _"  # what the name of a data source has
NAME_OF_SOURCE = "[a-zA-Z0-9_]{1,19}"  # the same as a regular expression
