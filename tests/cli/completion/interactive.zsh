# Sourced by an interactive zsh. Its key ^X completes the line, writes the completions to the file
# $RESULT, one a line, and ends the shell. Its key ^A writes the line as completed so far.
PS1=
unsetopt beep
fpath=($COMPLETIONS $fpath)
autoload -Uz compinit
compinit -u
typeset -ga completions

# Collects the completions. A call that only fills arrays adds none.
compadd() {
  local -a found
  if [[ " ${@[1,(i)(-|--)]} " != *' '-[OAD]' '* ]]; then
    builtin compadd -O found "$@"
    completions+=($found)
  fi
  builtin compadd "$@"
}

write_completions() {
  completions=()
  _main_complete
  print -rl -- $completions > $RESULT
  exit
}

write_line() {
  print -rn -- $BUFFER > $RESULT
  exit
}

zle -C write_completions complete-word write_completions
zle -N write_line
bindkey '^X' write_completions
bindkey '^A' write_line
