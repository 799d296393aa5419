"""Tests of the gate itself: what can be tried without proving."""
