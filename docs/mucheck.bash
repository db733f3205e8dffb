# Completes the command lines of mucheck in bash: source this file, for example from ~/.bashrc. tests/completion compares it with the program's help.
# shellcheck shell=bash

# The commands.
_mucheck_commands() { echo check why table labels normal solve verify replay explain help version; }

# The options of a command.
_mucheck_options() {
  local lifting="--workers --shards --board"
  case ${1-} in
    check) echo "--plain --strict --stats --quiet --summary --states --limit --priorities $lifting --game --evidence --witness --help" ;;
    why) echo "--strict --limit --priorities $lifting --help" ;;
    table) echo "--plain --strict --stats --priorities $lifting --help" ;;
    normal) echo "--priorities --help" ;;
    solve) echo "--evidence --stats $lifting --help" ;;
    replay) echo "--workers --help" ;;
    labels | verify | explain | help | version) echo "--help" ;;
    *) echo "--help --version" ;;
  esac
}

# The values of an option, if they are words; `FILE` where it is a file, and `ANY` where it is a number.
_mucheck_values() {
  case $1 in
    --priorities) echo nested dependent ;;
    --board) echo auto locked packed ;;
    --states) echo yes no ;;
    --workers | --shards | --limit) echo ANY ;;
    --game | --evidence | --witness) echo FILE ;;
  esac
}

# Takes as answers the words, or the files, that begin as the word does.
_mucheck_take() {
  case $1 in
    ANY) COMPREPLY=() ;;
    FILE) mapfile -t COMPREPLY < <(compgen -f -- "$2") ;;
    *) mapfile -t COMPREPLY < <(compgen -W "$1" -- "$2") ;;
  esac
}

_mucheck() {
  local at=$COMP_CWORD word=${COMP_WORDS[COMP_CWORD]} before command values
  # `--board=auto` is three words.
  if [ "$word" = = ]; then
    word=""
  elif [ "$at" -gt 1 ] && [ "${COMP_WORDS[at - 1]}" = = ]; then
    at=$((at - 1))
  fi
  before=${COMP_WORDS[at - 1]}
  command=${COMP_WORDS[1]}
  if [ "$COMP_CWORD" -le 1 ]; then
    _mucheck_take "$(_mucheck_commands) $(_mucheck_options)" "$word"
    return
  fi
  values=$(_mucheck_values "$before")
  if [ -n "$values" ]; then
    _mucheck_take "$values" "$word"
  elif [[ $word == -* ]]; then
    _mucheck_take "$(_mucheck_options "$command")" "$word"
  elif [ "$command" = help ]; then
    _mucheck_take "$(_mucheck_commands)" "$word"
  elif [ "$command" = explain ] || [ "$command" = version ]; then
    COMPREPLY=()
  else
    _mucheck_take FILE "$word"
  fi
}

complete -o filenames -F _mucheck mucheck
