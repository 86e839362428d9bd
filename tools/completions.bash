# Bash completions for sqs_rehearse and its tools, made from what their --help prints.

# _sqs_rehearse_words COMMAND: its first words, its options, and which of them take files, folders, queues or others
_sqs_rehearse_words() {
  case $1 in
%WORDS%
  esac
}
# _sqs_rehearse_read: prints what stands for a queue in the scenarios, and in the first rows of the logs, that the words
# name
_sqs_rehearse_read() {
  local path
  for path in "${COMP_WORDS[@]:1}"; do
    if [[ -f $path && $path == *.toml ]]; then
      awk -F '"' '/^[[]/ { is_queue = /^[[][[]queue[]][]]/ } is_queue && /^name *=/ { print $2 }' < "$path"
    elif [[ -f $path ]]; then
      head -n 1000 < "$path" | awk -F , '$1 ~ /^[0-9]+$/ { print $2 }' | sort -u
    fi
  done 2> /dev/null
}
# _sqs_rehearse_offer_queues: offers the names of queues among them that begin as the word does. What was read of a file
# is not given to compgen -W, which would run a command in it.
_sqs_rehearse_offer_queues() {
  local name
  while IFS= read -r name; do
    if [[ $name =~ ^[A-Za-z0-9_-]{1,80}([.]fifo)?$ && $name == "$word"* ]]; then COMPREPLY+=("$name"); fi
  done < <(_sqs_rehearse_read)
}
# _sqs_rehearse_offer KIND..: offers what compgen has of a kind and begins as the word does
_sqs_rehearse_offer() {
  if [[ $1 == -[df] ]]; then compopt -o filenames 2> /dev/null; fi
  mapfile -t COMPREPLY < <(compgen "$@" -- "$word")
}
_sqs_rehearse() {
  local word=${COMP_WORDS[COMP_CWORD]} before=${COMP_WORDS[COMP_CWORD - 1]} command=${COMP_WORDS[0]##*/} first=1
  local words= options= files= folders= queues= others=
  if [[ $command == sqs_rehearse-* ]]; then command=${command#sqs_rehearse-}
  elif [[ $COMP_CWORD == 1 ]]; then command=
  else command=${COMP_WORDS[1]} first=2
  fi
  if [[ $word == = ]]; then word=
  elif [[ $before == = ]]; then before=${COMP_WORDS[COMP_CWORD - 2]}
  fi
  _sqs_rehearse_words "$command"
  COMPREPLY=()
  if [[ " $files " == *" ${before:-.} "* ]]; then _sqs_rehearse_offer -f
  elif [[ " $folders " == *" ${before:-.} "* ]]; then _sqs_rehearse_offer -d
  elif [[ " $queues " == *" ${before:-.} "* ]]; then _sqs_rehearse_offer_queues
  elif [[ " $others " == *" ${before:-.} "* ]]; then :
  elif [[ $word == -* ]]; then _sqs_rehearse_offer -W "$options"
  elif [[ -n $words && $COMP_CWORD == "$first" ]]; then _sqs_rehearse_offer -W "$words"
  else _sqs_rehearse_offer -f
  fi
}
complete -F _sqs_rehearse %NAMES%
