"""`python3 -m nullsim` says where the program is, what it reads, and where this package is."""

import os
import subprocess
import sys

import nullsim


def main() -> int:
    """Prints three lines: the exit status, 4 where the program is missing."""
    try:
        path = nullsim.program()
        said = subprocess.run([path, "--version"], capture_output=True, text=True, check=False).stdout.strip()
    except (nullsim.Lacking, OSError) as why:
        print(f"nullsim: {why}", file=sys.stderr)
        return nullsim.faults.LACKING
    print(f"program  {path}\nreads    {said}\npackage  {os.path.dirname(os.path.realpath(nullsim.__file__))}")
    return 0


if __name__ == "__main__":
    sys.exit(main())
