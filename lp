#!/usr/bin/env bash
# Runs the program with the words given; where its sources changed, it is proved and built first. Status 70: the build failed, and nothing was run.
exec "$(dirname "$0")/tools/build" --run "$@"
