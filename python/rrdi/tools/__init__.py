# SPDX-License-Identifier: MIT OR Apache-2.0
"""The tools of rrdi: each is a program with a module of its own."""
