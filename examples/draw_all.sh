#!/usr/bin/env bash
# Draws each example: NAME.svg is the picture of NAME.out, which is what the program prints of NAME.script.
# compare.py tells where a picture is not of its output.
set -euo pipefail
cd "$(dirname "$0")"
for out in *.out; do
    picture=$(python3 timeline.py < "$out")
    printf '%s\n' "$picture" > "${out%.out}.svg"
done
