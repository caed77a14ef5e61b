# Completion of `sng` for bash: /usr/share/bash-completion/completions/sng. tests/completions.py holds it
# against the help of the program.

_sng() {
  local current=${COMP_WORDS[COMP_CWORD]} before=${COMP_WORDS[COMP_CWORD - 1]}
  local command=${COMP_WORDS[1]} options='' words='' files=''
  COMPREPLY=()
  if [ "$COMP_CWORD" -eq 1 ]; then
    command=''
  fi
  case $command in
    '') options='-h --help -V --version' words='play check book cover may policy serve status broker help' ;;
    play) options='-h --help' ;;
    check) options='--book -h --help' files=yes ;;
    book)
      options='--client --from --name --denied --kind --json --since --until --row --count --follow
        -h --help'
      files=yes
      ;;
    cover) options='-h --help' ;;
    may) options='--policy --source --at -h --help' words='publish receive subscribe' ;;
    policy) options='--print -h --help' files=yes ;;
    serve)
      options='--config --listen --broker --id --workers --tries --policy --no-watch --book
        --metrics --verbose --rows --log-time --flood-each --flood-all -h --help'
      ;;
    status) options='-h --help' ;;
    broker) options='--listen -h --help' ;;
    help) words='play check book cover may policy serve status broker help' ;;
  esac
  case $before in
    --config | --policy | --book) options='' words='' files=yes ;;
    --workers) options='' words='1 2 3 4 5 6 7 8' ;;
    --listen | --broker | --metrics | --id | --tries | --source | --at | --flood-each | --flood-all) return ;;
    --client | --from | --name | --kind | --since | --until | --row) return ;;
  esac
  case $current in
    -*) mapfile -t COMPREPLY < <(compgen -W "$options" -- "$current") ;;
    *)
      mapfile -t COMPREPLY < <(compgen -W "$words" -- "$current")
      if [ -n "$files" ]; then
        compopt -o filenames 2>/dev/null
        mapfile -t COMPREPLY < <(compgen -f -- "$current")
      elif [ -z "$words" ] && [ -z "$current" ]; then
        mapfile -t COMPREPLY < <(compgen -W "$options" -- "$current")
      fi
      ;;
  esac
}

complete -F _sng sng
