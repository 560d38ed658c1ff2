#!/usr/bin/env python3
"""Runs the benchmark from any folder; `measure.py` says what it measures."""
import pathlib, runpy, sys

# The rooms of this repository are packages beside this one.
sys.path[0] = str(pathlib.Path(__file__).resolve().parent.parent)
runpy.run_module("bench.measure", run_name="__main__")
