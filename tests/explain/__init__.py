"""A log in words: `./run explain [FILE]`. The lines of a log are those of tests/model/transcripts.py."""
