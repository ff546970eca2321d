"""What the library says of each file: python3 -m realm FILE.."""

import sys

from . import Refused, check, evaluate


def main() -> None:
    for name in sys.argv[1:]:
        with open(name, "rb") as file:
            text = file.read()
        try:
            print(name, "need", check(text))
            sys.stdout.write(evaluate(text).decode())
        except Refused as refused:
            print(name, "refused", refused)


if __name__ == "__main__":
    main()
