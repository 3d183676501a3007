# shellcheck shell=bash
# Sourced by an interactive bash. Its key ^A writes the line, as completed so far, to the file
# $RESULT, and ends the shell.
PS1=
bind 'set bell-style none'
# shellcheck disable=SC2016
bind -x '"\C-a": printf %s "$READLINE_LINE" > "$RESULT"; exit'
# shellcheck source=/dev/null
. "$COMPLETIONS/kumquatsieve.bash"
