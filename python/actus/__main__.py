"""`python3 -m actus`: the commands of `actus.command`."""

import sys

from .command import main

if __name__ == "__main__":
    sys.exit(main())
