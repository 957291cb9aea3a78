"""The commands, as `python3 -m rectangle_pack sheet|cut|load|view|check|pack`."""
import sys

from .commands import main

if __name__ == "__main__":
    sys.exit(main())
