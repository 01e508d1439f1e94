# Completion of st80 for bash 4.4 or later: options, folders, commands, and names of classes, for which the program itself is asked.
#
#   source completions/st80.bash
#
# Behind a complete command nothing is offered, but files behind `<` and `>`. A folder with `=` or `:` in its name isn't completed.

_st80() {
  COMPREPLY=()
  local IFS=$' \t\n'
  local commands="run do recover classes browse source versions changes file-out file-out-class file-out-set merge senders implementors references undeclared unimplemented unsent condense snapshot make"
  local options="--budget --keep"
  local raw word quote letter current i program folder names wanted="" is_awaited="" is_plain=""
  local -a words=() plain=() offered=()

  # The words as the program gets them, without quotes; what `$` and backquotes would come to stays as it is typed.
  for ((i = 0; i <= COMP_CWORD; i++)); do
    raw=${COMP_WORDS[i]-} word="" quote=""
    if [[ $raw != *[\'\"\\]* ]]; then word=$raw raw=""; fi
    while [ -n "$raw" ]; do
      letter=${raw:0:1} raw=${raw:1}
      if [ "$letter" = "$quote" ]; then
        quote=""
      elif [[ -z $quote && $letter == [\'\"] ]]; then
        quote=$letter
      elif [[ $letter == \\ && $quote != \' && ($quote != \" || $raw == [\"\\\$\`]*) ]]; then
        word+=${raw:0:1} raw=${raw:1}
      else
        word+=$letter
      fi
    done
    words+=("$word")
  done
  current=${words[COMP_CWORD]}

  for ((i = 1; i <= COMP_CWORD; i++)); do
    # A redirection is the shell's, and st80 has no word behind it.
    if [[ ${COMP_WORDS[i]-} == [\<\>]* ]]; then
      if [ "$i" -eq "$COMP_CWORD" ]; then current=""; elif [ "$i" -lt $((COMP_CWORD - 1)) ]; then return 0; fi
      compopt -o filenames 2>/dev/null
      mapfile -t COMPREPLY < <(compgen -f -- "$current")
      return 0
    fi
    [ "$i" -lt "$COMP_CWORD" ] || break
    word=${words[i]}
    if [ -n "$is_awaited" ]; then
      # Bash makes three words of `--budget=5`.
      [ "$word" = "=" ] || is_awaited=""
    elif [[ -z $is_plain && $word == -?* ]]; then
      case $word in
        --) is_plain=1 ;;
        --budget | --keep)
          is_awaited=1
          options=${options/"$word"/}
          ;;
        --budget=* | --keep=*) options=${options/"${word%%=*}"/} ;;
        *) return 0 ;;
      esac
    else
      plain+=("$word")
    fi
  done
  [ -z "$is_awaited" ] || return 0

  # What the next word is to be, where one is wanting.
  case ${#plain[@]}:${plain[1]-} in
    0:*) wanted=folder ;;
    1:*) wanted=command ;;
    2:browse | 2:file-out-class | 2:source | 2:versions | 2:references) wanted=class ;;
    2:do | 2:senders | 2:implementors | 3:source | 3:versions) wanted=text ;;
    *) return 0 ;;
  esac

  if [[ -z $is_plain && $current == -* ]]; then
    read -ra offered <<<"$options"
  elif [ "$wanted" = folder ]; then
    compopt -o filenames 2>/dev/null
    mapfile -t COMPREPLY < <(compgen -d -- "$current")
  elif [ "$wanted" = command ]; then
    read -ra offered <<<"$commands"
  elif [ "$wanted" = class ]; then
    program=${words[0]} folder=${plain[0]}
    case $program in "~/"*) program=${HOME-}/${program#"~/"} ;; esac
    case $folder in "~/"*) folder=${HOME-}/${folder#"~/"} ;; esac
    [ -f "$folder/mark" ] && program=$(type -P -- "$program") && program=$(readlink -f -- "$program") || return 0
    # bin/st80 of the repository may take hours to prove the program anew: the one that is there is asked.
    if [ -d "${program%/*}/../crates/st80" ]; then program=${program%/*}/../crates/st80/out/st80; fi
    # The program waits while another one works in the folder; who types doesn't.
    names=$(timeout 2 "$program" -- "$folder" classes </dev/null 2>/dev/null) || return 0
    mapfile -t offered <<<"$names"
  fi
  for word in "${offered[@]}"; do
    if [[ -n $word && $word == "$current"* ]]; then COMPREPLY+=("$word"); fi
  done
  return 0
}
complete -F _st80 st80
