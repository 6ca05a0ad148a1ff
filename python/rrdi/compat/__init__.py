# SPDX-License-Identifier: MIT OR Apache-2.0
"""Scripts and programs that were written for RRDtool."""
