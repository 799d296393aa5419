"""Tests of what trials share."""
