#!/usr/bin/env python3
"""Times `ls_text` with long texts: opens, edits, pastes, and reads of lines and marks. The program is lines.rt.txt."""
import sys

import scratch

if __name__ == "__main__":
    sys.exit(scratch.run("lines.rt.txt", "ls_text ls_lists abnf_token anyhow"))
