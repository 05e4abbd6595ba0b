"""How a script is called: printed where its words ask for that, or are too few."""
import sys


def shown(text, least):
    """Ends the script with its usage where that is asked for, or where it has fewer words than it needs."""
    if {"--help", "-h"} & set(sys.argv[1:]):
        print(text.strip())
        sys.exit()
    if len(sys.argv) <= least:
        sys.exit(text.strip())
