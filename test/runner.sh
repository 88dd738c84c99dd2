#!/bin/bash
# Prints the words to put in front of an x86-64 program so that it runs here as rt runs it: on x86-64 Linux none are needed, and the kit
# makes programs for no other machine.
#
#   $(test/runner.sh) crates/sheets/out/sheets <examples/two-teams.txt
set -eu
[ "$(uname -m)" = x86_64 ] && exit 0
echo "runner.sh: this machine is $(uname -m), and the program is for x86-64" >&2
exit 2
