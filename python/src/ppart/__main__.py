"""`python3 -m ppart`: see command_line.py."""
import os
import sys

from ppart.command_line import NO_ANSWER, NO_FORM, SAYS_NO, main
from ppart.errors import Error, Usage

if __name__ == "__main__":
    try:
        sys.exit(main(sys.argv[1:]))
    except BrokenPipeError:  # who read the table has seen enough
        os.dup2(os.open(os.devnull, os.O_WRONLY), sys.stdout.fileno())
        sys.exit(SAYS_NO)
    except Error as error:
        print(f"ppart: {error}", file=sys.stderr)
        sys.exit(NO_FORM if isinstance(error, Usage) else NO_ANSWER)
