# SPDX-License-Identifier: MIT OR Apache-2.0
"""How rrdi-fix changes one old sample, and rrdi-feed puts late ones in: the samples of a journal, and a file that stays
locked."""
