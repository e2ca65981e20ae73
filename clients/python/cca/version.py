"""The version. Made by clients/make_verbs.py from docs/CHANGES.md."""
VERSION = '1.2'
