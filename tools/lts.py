"""Says what stands for the helpers that read the text which an older checker made of a function. Not a command: `at`, `fill` and `paths`
use it."""
import sys


def instead(name, what):
    sys.exit(f"tools/{name} read what an older checker made of a function's code. Today's says it itself: {what}")
