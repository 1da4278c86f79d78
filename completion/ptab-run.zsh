#compdef ptab-run
# Completion of ptab-run for zsh: options, image files and devices, and behind these what the tool's own completion has.

# Image files and folders, or devices; where no file looks like an image, every file.
_ptab_run_image() {
  if (($+opt_args[--device])); then
    _files -W /dev -P /dev/ || _files
  else
    _files -g '*.(img|raw|bin|iso|dd|wic)'
  fi
}

_arguments -S '(- *)'{-h,--help}'[Print help]' '(- *)'{-V,--version}'[Print version]' \
  '--as-itself[The copy stands where IMAGE is]' \
  '--plan[Print the plan of the writes, and write nothing]' \
  '--lossy[Go on where something is not taken over]' \
  '--data[Take over what was written to free sectors]' \
  '--data-limit=[Data of so many bytes at most, or K, M, G, T]:size:' \
  '--by-table[Zero the primary header meanwhile]' \
  '--sector-size=[512 (the default) or 4096; a device has its own]:bytes:(512 4096)' \
  '--device[IMAGE is a block device]' \
  '--in-use[Take a device also where it is in use]' \
  "--no-lock[Take no lock: the caller holds the image's]" \
  '--quiet[Say nothing of a run that ends well]' \
  '--save=[Write a backup of the table]:copy:_files' \
  '1:image:_ptab_run_image' '*::tool:_normal'
