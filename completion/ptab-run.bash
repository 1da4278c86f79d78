# Completion of ptab-run for bash: options, image files and devices, and behind these what the tool's own completion has.

_ptab_run() {
  local current=${COMP_WORDS[COMP_CWORD]} before=${COMP_WORDS[COMP_CWORD - 1]} k device=0 extglob=0
  COMPREPLY=()
  # an equals sign is a word of its own here
  if [ "$current" = '=' ]; then current=''; elif [ "$before" = '=' ]; then before=${COMP_WORDS[COMP_CWORD - 2]}; fi
  for ((k = 1; k < COMP_CWORD; k++)); do
    case ${COMP_WORDS[k]} in
      --sector-size | --save | --data-limit)
        k=$((k + 1))
        if [ "${COMP_WORDS[k]}" = '=' ]; then k=$((k + 1)); fi
        ;;
      --device) device=1 ;;
      --) k=$((k + 1)); break ;;
      -*) ;;
      *) break ;;
    esac
  done
  # where IMAGE stands, or is to stand
  if [ "$k" -lt "$COMP_CWORD" ]; then
    if [ $((k + 1)) = "$COMP_CWORD" ]; then
      mapfile -t COMPREPLY < <(compgen -c -- "$current")
    elif declare -F _command_offset >/dev/null; then
      _command_offset $((k + 1))
    fi
    return
  fi
  case $before:$current in
    --sector-size:*) mapfile -t COMPREPLY < <(compgen -W '512 4096' -- "$current") ;;
    --data-limit:*) ;;
    --save:*) mapfile -t COMPREPLY < <(compgen -f -- "$current") ;;
    --:*) mapfile -t COMPREPLY < <(compgen -f -- "$current") ;;
    *:-*)
      mapfile -t COMPREPLY < <(compgen -W '--as-itself --plan --lossy --data --data-limit --by-table --sector-size --device --in-use
        --no-lock --quiet --save --help -h --version -V' -- "$current")
      return
      ;;
    *)
      if [ "$device" = 1 ]; then
        [ -n "$current" ] || current=/dev/
        mapfile -t COMPREPLY < <(compgen -f -- "$current")
      else
        shopt -q extglob && extglob=1
        shopt -s extglob
        mapfile -t COMPREPLY < <(compgen -f -X '!*.@(img|raw|bin|iso|dd|wic)' -- "$current"; compgen -d -- "$current")
        [ "$extglob" = 1 ] || shopt -u extglob
        if [ ${#COMPREPLY[@]} = 0 ]; then mapfile -t COMPREPLY < <(compgen -f -- "$current"); fi
      fi
      ;;
  esac
  compopt -o filenames 2>/dev/null
  return 0
}

complete -F _ptab_run ptab-run
