# SPDX-License-Identifier: MIT OR Apache-2.0
"""Feeds many databases from lines of samples."""
