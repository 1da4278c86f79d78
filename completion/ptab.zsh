#compdef ptab
# Completion of ptab for zsh: commands, options, the beginnings of words, and image files.

# Image files and folders; where no file looks like an image, every file.
_ptab_image() {
  _files -g '*.(img|raw|bin|iso|dd|wic)'
}

_ptab_command() {
  local -a commands=(
    "show:Prints the image's partitions, a line each"
    'verify:Prints `yes` where the image is healthy, else what is wrong'
    'locate:Prints where on the disk sector K of a partition is'
    'free:Prints where a new partition may lie: blocks of free sectors'
    'types:Prints the partition types that have names'
    'edit:Edits the table by words, as one change: all of them or none'
    'plan:Prints the plan of what `edit` would write, and writes nothing'
    'check:Answers whether a plan may be applied to the image, and writes nothing'
    'apply:Applies a plan to the image, where `check` says yes'
    'repair:Makes the image healthy, and keeps its partitions as they are'
    'adopt:Gives the image the table of another one, as one change'
    'set:Gives the image the table that a text in JSON says, as one change'
  )
  if [[ $1 = with-help ]]; then commands+=('help:Print this message or the help of the given subcommand(s)'); fi
  _describe -t commands command commands
}

_ptab_word() {
  compadd -S '' -- a: n: d: t: c: u: U: A:
  compadd -- o e g
}

_ptab() {
  local curcontext=$curcontext state line
  local -a on_disk writing fresh keep json taking
  on_disk=(
    '(- *)'{-h,--help}'[Print help]'
    '--device[IMAGE is a block device]'
    '--sector-size=[512 (the default) or 4096; a device has its own]:bytes:(512 4096)'
  )
  writing=(
    '--in-use[Write a device also where it is in use]'
    "--no-lock[Take no lock: the caller holds the image's]"
  )
  fresh='--fresh=[Fresh GUIDs, 32 hexadecimal digits each]:hexadecimal digits:'
  keep='--keep-primary[Keep the primary copy of a GPT whole throughout]'
  json='--json[Print JSON in place of lines]'
  taking=(
    '--plan[Print the plan, and write nothing]'
    '--by-table[Zero the primary header meanwhile, as `edit` does]'
  )
  _arguments -C '(- *)'{-h,--help}'[Print help]' '(- *)'{-V,--version}'[Print version]' \
    '1:command: _ptab_command with-help' '*::argument:->behind' && return 0
  [[ $state = behind ]] || return 1
  curcontext=${curcontext%:*:*}:ptab-$words[1]:
  case $words[1] in
    show)
      _arguments $on_disk '--after=[A plan, as if it were applied]:plan:_files' \
        '--copy=[One copy of a GPT alone: primary or backup]:copy:(primary backup)' $json \
        '--human[Print a page for people in place of lines]' \
        '1:image:_ptab_image'
      ;;
    verify) _arguments $on_disk '1:image:_ptab_image' ;;
    locate) _arguments $on_disk '1:image:_ptab_image' '2:partition, as 3, 5 or 2.a:' '3:sector of the partition, from 0 on:' ;;
    free) _arguments $on_disk $json '1:image:_ptab_image' ;;
    types) _arguments '(- *)'{-h,--help}'[Print help]' ;;
    edit) _arguments $on_disk $writing $fresh $keep '1:image:_ptab_image' '*:word:_ptab_word' ;;
    plan) _arguments $on_disk $fresh $keep '1:image:_ptab_image' '*:word:_ptab_word' ;;
    check) _arguments $on_disk '1:image:_ptab_image' '2:plan:_files' ;;
    apply) _arguments $on_disk $writing '1:image:_ptab_image' '2:plan:_files' ;;
    repair) _arguments $on_disk $writing $keep '1:image:_ptab_image' ;;
    adopt)
      _arguments $on_disk $writing $taking '--data=[Sectors that come too, in lines of FIRST LAST]:runs of sectors:_files' \
        '--other-device[OTHER is a block device]' '1:image:_ptab_image' '2:other:_ptab_image'
      ;;
    set) _arguments $on_disk $writing $taking $fresh '1:image:_ptab_image' '2:table:_files' ;;
    help) _arguments '1:command:_ptab_command' ;;
    *) return 1 ;;
  esac
}

_ptab "$@"
