"""The tools of the repository: a module for each command of `tools/dev`."""
