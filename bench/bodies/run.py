"""Wrong bodies that the gate doesn't try: each has to be refused as those in `crates/*/must-fail` are.

    python3 bench/bodies/run.py CRATE..

`bench/bodies/CRATE/NAME.edit` changes a text of `crates/CRATE`. The bodies of each crate named are tried by `rt must-fail`, beside those that the gate
tries; for that time they lie in its `must-fail`. A line a body is printed. The status is 1 where one wasn't refused, or couldn't be tried.
"""
import argparse
import pathlib
import shutil
import subprocess
import sys

BODIES = pathlib.Path(__file__).resolve().parent
CRATES = BODIES.parents[1] / "crates"


def tried(crate):
    """Whether all wrong bodies of the crate were refused."""
    folder = CRATES / crate / "must-fail"
    is_new = not folder.exists()
    folder.mkdir(exist_ok=True)
    lent = []
    try:
        for body in sorted((BODIES / crate).glob("*.edit")):
            if (folder / body.name).exists():
                sys.exit(f"{crate}: {body.name} stands in must-fail too")
            lent.append(shutil.copy(body, folder))
        return subprocess.run(["rt", "must-fail", crate], cwd=CRATES.parent).returncode == 0
    finally:
        for body in lent:
            pathlib.Path(body).unlink()
        if is_new:
            folder.rmdir()


def main():
    said = argparse.ArgumentParser(description=__doc__, formatter_class=argparse.RawDescriptionHelpFormatter)
    said.add_argument("crate", nargs="+", choices=sorted(it.name for it in BODIES.iterdir() if it.is_dir()))
    # (a list, so that each crate is tried)
    return 0 if all([tried(crate) for crate in said.parse_args().crate]) else 1


if __name__ == "__main__":
    sys.exit(main())
