"""Reads Redcode as pMARS 0.9.2 does, makes its load file, and runs pMARS itself."""
