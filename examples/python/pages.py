#!/usr/bin/env python3
"""usage: pages.py FILE OUT     writes the database that FILE shows with its logs, page by page, to OUT"""
import os
import sys

sys.path.insert(0, os.path.join(os.path.dirname(os.path.abspath(__file__)), "..", "..", "python"))
from sqrescue import Damaged, Error, View


def main(path, out):
    try:
        with View(path) as view, open(out, "xb") as copy:
            for page in view:
                copy.write(page)
            ends = [commit.frame for commit in view.commits()]
            print(f"{len(view)} pages of {view.page_size} bytes, commits at frames {ends}")
            print(view.check())
    except Damaged as fault:
        print(f"damaged: {fault}")
        return 1
    except (Error, OSError) as refusal:
        print(f"pages.py: {refusal}", file=sys.stderr)
        return 3
    return 0


if __name__ == "__main__":
    if len(sys.argv) != 3:
        sys.exit(__doc__)
    sys.exit(main(*sys.argv[1:]))
