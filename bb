#!/bin/bash
# Runs the blackboard shell, with standard input and arguments passed on: the built program, or else that of a
# release, or else the kit's interpreter (tools/launch.sh).
set -eu

root=$(dirname -- "$(readlink -f -- "${BASH_SOURCE[0]}")")
crate=bb
build=./build
write_failed=6
source "$root/tools/launch.sh"

run_built "$@"
run_released "$@"

# Words that choose nothing, as those that ask for help, are answered without the input, which may be a terminal.
for word in "$@"; do
    [[ $word =~ ^(run|check|compile|units|--|--(limit|floor)(=.*)?|[+-]?[0-9]+)$ ]] || exec </dev/null
done
take_input
interpret -- "$@"
answer
