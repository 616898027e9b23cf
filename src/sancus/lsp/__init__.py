"""A language server for deployments, schedules and properties: what `sancus` says of a file, said by an editor.

It speaks the Language Server Protocol, version 3.17, over two streams. The program judges; this finds places for its
words.
"""
