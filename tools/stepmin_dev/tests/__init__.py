"""The suites of `tools/dev test`: a module for each."""
