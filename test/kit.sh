# shellcheck shell=bash
# Sourced by the scripts beside it.  Finds the Rattle kit through `rt` on PATH
# (which follows RATTLE_HOME), so that no path of a machine stands in the project.
# It sets kit_bin and kit_tools, both empty where there is no kit.

# shellcheck disable=SC2034
kit_bin='' kit_tools=''
if command -v rt >/dev/null 2>&1; then
    kit=$(dirname "$(rt doc)")
    kit_bin=$kit/bin
    kit_tools=$kit/toolchain
    # shellcheck disable=SC2034
    [ -d "$kit_tools" ] || kit_bin='' kit_tools=''
fi
