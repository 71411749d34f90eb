"""The command `ozp`: python3 -m ozpinduru"""
import sys

from .command import main

if __name__ == "__main__":
    sys.exit(main())
