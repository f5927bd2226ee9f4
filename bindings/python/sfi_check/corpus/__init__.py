"""Judges any number of images, on all processors of this machine or on a cluster, and keeps the verdicts: `python3 -m
sfi_check.corpus`, the command sfi-corpus. `engine` runs work anywhere, `files` and `seeds` are the work, `store` keeps what came of it,
`report` shows it."""
