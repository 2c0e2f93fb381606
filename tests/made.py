#!/usr/bin/env python3
"""The pages that scripts make are up to date: each docs/make/*.py with --check, and each is made by one.

    tests/made.py
"""
import subprocess
import sys
from pathlib import Path

ROOT = Path(__file__).resolve().parent.parent
# Beside the scripts, what they share.
SHARED = {"page.py"}


def main():
    passed = failed = 0
    scripts = [script for script in sorted((ROOT / "docs" / "make").glob("*.py")) if script.name not in SHARED]
    for script in scripts:
        done = subprocess.run([sys.executable, "-B", script, "--check"], capture_output=True, text=True, check=False)
        if done.returncode == 0:
            passed += 1
        else:
            failed += 1
            print(f"{script.relative_to(ROOT)}:\n{done.stdout}{done.stderr}", end="")
    if not scripts:
        failed += 1
        print("no script is found in docs/make")
    print(f"{passed} passed, {failed} failed")
    return 1 if failed else 0


if __name__ == "__main__":
    sys.exit(main())
