"""A graph is run by threads, and its report is written; where it is refused, why. Usage: run.py THREADS FILE; the status is that of the program."""

import sys

import realm


def main() -> int:
    with open(sys.argv[2], "rb") as file:
        text = file.read()
    try:
        sys.stdout.buffer.write(realm.run(text, threads=int(sys.argv[1])))
    except realm.Refused as refused:
        print(refused.explanation or refused.reason, end="" if refused.explanation else "\n")
        return refused.status
    return 0


if __name__ == "__main__":
    sys.exit(main())
