#!/usr/bin/env python3
"""Writes what crates/readers_run and crates/items_run read (stdin) and must write (stdout).

    python3 vectors/all.py            (from the repository's top folder)"""
import annotation_readers
import annotations
import class_items
import class_read
import head
import leb128
import oracle
import questions
import static_fields
import strings
import tables
import text
import values

if __name__ == '__main__':
    questions.write('readers_run', (file for script in (head, strings, tables, class_read, annotation_readers, static_fields, oracle) for file in script.files()))
    questions.write('items_run', (item for script in (leb128, text, tables, values, class_items, annotations) for item in script.items()))
