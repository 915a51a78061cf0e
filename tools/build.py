#!/usr/bin/env python3
import os, sys; os.execv(f"{os.path.dirname(os.path.abspath(__file__))}/dev", ["dev", "build", *sys.argv[1:]])
