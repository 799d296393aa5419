"""Tests of what is in `nights`, without the program."""
