"""`python -m crnt_tools` is the command `crnt-tools`."""

from .cli import run

if __name__ == "__main__":
    run()
