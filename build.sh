#!/usr/bin/env bash
# Proves and builds the command, side by side what doesn't stand on each other, and prints where it stands. Where nothing has changed
# since, it only prints.
exec python3 "$(dirname "$0")/packaging/build.py" ptab
