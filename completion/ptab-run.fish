# Completion of ptab-run for fish: options, image files and devices, and behind these commands and files.

# Whether so many words that are no options, and no values of options, stand before the cursor.
function __ptab_run_at
    set -l count 0
    set -l is_value 0
    for word in (commandline -opc)[2..]
        if test $is_value = 1
            set is_value 0
        else if contains -- $word --sector-size --save --data-limit; and test $count = 0
            set is_value 1
        else if test $count -gt 0; or not string match -q -- '-*' $word
            set count (math $count + 1)
        end
    end
    test $count = $argv[1]; or test $argv[1] = more -a $count -gt 1
end

# Image files and folders, or devices; where no file looks like an image, every file.
function __ptab_run_images
    set -l files (__fish_complete_path (commandline -ct))
    set -l images (string match -r '^.*(?:\.(?:img|raw|bin|iso|dd|wic)|/)(?:\t.*)?$' -- $files)
    contains -- --device (commandline -opc); and set images $files /dev/
    test (count $images) = 0; and set images $files
    printf '%s\n' $images
end

complete -c ptab-run -f
complete -c ptab-run -n '__ptab_run_at 0' -s h -l help -d 'Print help'
complete -c ptab-run -n '__ptab_run_at 0' -s V -l version -d 'Print version'
complete -c ptab-run -n '__ptab_run_at 0' -l as-itself -d 'The copy stands where IMAGE is'
complete -c ptab-run -n '__ptab_run_at 0' -l plan -d 'Print the plan of the writes, and write nothing'
complete -c ptab-run -n '__ptab_run_at 0' -l lossy -d 'Go on where something is not taken over'
complete -c ptab-run -n '__ptab_run_at 0' -l data -d 'Take over what was written to free sectors'
complete -c ptab-run -n '__ptab_run_at 0' -l data-limit -x -d 'Data of so many bytes at most, or K, M, G, T'
complete -c ptab-run -n '__ptab_run_at 0' -l by-table -d 'Zero the primary header meanwhile'
complete -c ptab-run -n '__ptab_run_at 0' -l sector-size -xa '512 4096' -d '512 (the default) or 4096; a device has its own'
complete -c ptab-run -n '__ptab_run_at 0' -l device -d 'IMAGE is a block device'
complete -c ptab-run -n '__ptab_run_at 0' -l in-use -d 'Take a device also where it is in use'
complete -c ptab-run -n '__ptab_run_at 0' -l no-lock -d 'Take no lock: the caller holds the image\'s'
complete -c ptab-run -n '__ptab_run_at 0' -l quiet -d 'Say nothing of a run that ends well'
complete -c ptab-run -n '__ptab_run_at 0' -l save -rF -d 'Write a backup of the table'
complete -c ptab-run -n '__ptab_run_at 0' -a '(__ptab_run_images)'
complete -c ptab-run -n '__ptab_run_at 1' -a '(__fish_complete_command)'
complete -c ptab-run -n '__ptab_run_at more' -F
