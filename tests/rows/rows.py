#!/usr/bin/env python3
"""Runs the built command on images made by docs/format.md: each line of output, each status, and what stays unchanged. With the
program test_doubles, each image and plan is read and checked by plain versions too.

usage: tests/rows/rows.py PTAB [DOUBLES]
"""
import os
import sys

sys.path.insert(0, os.path.join(os.path.dirname(os.path.abspath(__file__)), "..", "shared"))
import rows_copies
import rows_edit
import rows_free
import rows_gpt
import rows_help
import rows_human
import rows_json
import rows_kept
import rows_labels
import rows_mbr
import rows_place
import rows_plan
import rows_records
import rows_repair
import rows_set
import rows_set_disks
import rows_set_mbr
import rows_slices
import rows_switches
import rows_turns
import rows_words
from eight import run_all

PARTS = (rows_gpt, rows_copies, rows_mbr, rows_labels, rows_edit, rows_place, rows_free, rows_json, rows_human, rows_plan, rows_turns,
         rows_records, rows_slices, rows_switches, rows_words, rows_help, rows_repair, rows_kept, rows_set, rows_set_disks,
         rows_set_mbr)


def main():
    run_all("rows", [rows for part in PARTS for rows in part.ROWS], *sys.argv[1:3])


main()
