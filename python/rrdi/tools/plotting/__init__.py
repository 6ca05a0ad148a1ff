# SPDX-License-Identifier: MIT OR Apache-2.0
"""The pictures of rrdi-plot: rows, labels, numbers, colors, and the commands of gnuplot."""
