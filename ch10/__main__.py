"""`python3 -m ch10`, from the folder that has the package or where it is installed."""
import sys

from .command import main


def run() -> int:
    """The command `ch10` of an installed package: its exit status."""
    return main(sys.argv[1:])


if __name__ == '__main__':
    sys.exit(run())
