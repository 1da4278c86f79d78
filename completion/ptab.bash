# Completion of ptab for bash: commands, options, the beginnings of words, and image files.

# Image files and folders that begin with $1; where no file looks like an image, every file.
_ptab_images() {
  local -a found
  mapfile -t found < <(compgen -f -X '!*.@(img|raw|bin|iso|dd|wic)' -- "$1"; compgen -d -- "$1")
  if [ ${#found[@]} = 0 ]; then mapfile -t found < <(compgen -f -- "$1"); fi
  COMPREPLY=("${found[@]}")
  compopt -o filenames 2>/dev/null
}

# Those of the words $2.. that begin with $1.
_ptab_of() {
  local current=$1
  shift
  mapfile -t COMPREPLY < <(compgen -W "$*" -- "$current")
}

_ptab() {
  local current=${COMP_WORDS[COMP_CWORD]} before=${COMP_WORDS[COMP_CWORD - 1]} command='' k word
  local extglob=0
  local -a places=()
  COMPREPLY=()
  # a colon or an equals sign is a word of its own here
  case $current in
    :) return ;;
    =) current='' ;;
  esac
  if [ "$before" = '=' ] && [ "$COMP_CWORD" -gt 1 ]; then before=${COMP_WORDS[COMP_CWORD - 2]}; fi
  case $before in
    :) return ;;
    --sector-size) _ptab_of "$current" 512 4096; return ;;
    --fresh) return ;;
    --copy) _ptab_of "$current" primary backup; return ;;
    --after | --data)
      mapfile -t COMPREPLY < <(compgen -f -- "$current")
      compopt -o filenames 2>/dev/null
      return
      ;;
  esac
  for ((k = 1; k < COMP_CWORD; k++)); do
    word=${COMP_WORDS[k]}
    case $word in
      --sector-size | --fresh | --after | --copy | --data)
        k=$((k + 1))
        if [ "${COMP_WORDS[k]}" = '=' ]; then k=$((k + 1)); fi
        ;;
      -*) ;;
      *) if [ -z "$command" ]; then command=$word; else places+=("$word"); fi ;;
    esac
  done
  if [ -z "$command" ]; then
    case $current in
      -*) _ptab_of "$current" --help -h --version -V ;;
      *) _ptab_of "$current" show verify locate free types edit plan check apply repair adopt set help ;;
    esac
    return
  fi
  case $command:$current in
    help:*) [ ${#places[@]} = 0 ] && _ptab_of "$current" show verify locate free types edit plan check apply repair adopt set; return ;;
    edit:-*) _ptab_of "$current" --fresh --keep-primary --device --sector-size --in-use --no-lock --help -h; return ;;
    plan:-*) _ptab_of "$current" --fresh --keep-primary --device --sector-size --help -h; return ;;
    show:-*) _ptab_of "$current" --after --copy --json --human --device --sector-size --help -h; return ;;
    adopt:-*) _ptab_of "$current" --data --plan --by-table --other-device --device --sector-size --in-use --no-lock --help -h; return ;;
    set:-*) _ptab_of "$current" --plan --fresh --by-table --device --sector-size --in-use --no-lock --help -h; return ;;
    free:-*) _ptab_of "$current" --json --device --sector-size --help -h; return ;;
    repair:-*) _ptab_of "$current" --keep-primary --device --sector-size --in-use --no-lock --help -h; return ;;
    types:-*) _ptab_of "$current" --help -h; return ;;
    apply:-*) _ptab_of "$current" --device --sector-size --in-use --no-lock --help -h; return ;;
    *:-*) _ptab_of "$current" --device --sector-size --help -h; return ;;
  esac
  shopt -q extglob && extglob=1
  shopt -s extglob
  case $command:${#places[@]} in
    show:0 | verify:0 | locate:0 | free:0 | edit:0 | plan:0 | check:0 | apply:0 | repair:0 | adopt:0 | adopt:1 | set:0)
      _ptab_images "$current"
      ;;
    check:1 | apply:1 | set:1)
      mapfile -t COMPREPLY < <(compgen -f -- "$current")
      compopt -o filenames 2>/dev/null
      ;;
    edit:* | plan:*)
      _ptab_of "$current" a: o n: d: t: c: u: U: A: e g
      if [ ${#COMPREPLY[@]} = 1 ] && [[ ${COMPREPLY[0]} == *: ]]; then compopt -o nospace 2>/dev/null; fi
      ;;
  esac
  [ "$extglob" = 1 ] || shopt -u extglob
  return 0
}

complete -F _ptab ptab
