"""Tests of the program and of the repository; `tests/run` runs them."""
