# Completion of ptab for fish: commands, options, the beginnings of words, and image files.

# The command, and the words behind it that are no options and no values of options.
function __ptab_words
    set -l is_value 0
    for word in (commandline -opc)[2..]
        if test $is_value = 1
            set is_value 0
            continue
        end
        switch $word
            case --sector-size --fresh --after --copy --data
                set is_value 1
            case '-*'
            case '*'
                echo -- $word
        end
    end
end

# Whether the command is one of $argv[2..], with $argv[1] words behind it, or `any` number but none.
function __ptab_at
    set -l words (__ptab_words)
    set -l behind (math (count $words) - 1)
    contains -- "$words[1]" $argv[2..]; or return 1
    test $argv[1] = any -a $behind -gt 0; or test $argv[1] = $behind
end

# Whether no command stands there yet, or one of $argv.
function __ptab_in
    set -l words (__ptab_words)
    test (count $words) = 0 -a (count $argv) = 0; or contains -- "$words[1]" $argv
end

# Image files and folders; where no file looks like an image, every file.
function __ptab_images
    set -l files (__fish_complete_path (commandline -ct))
    set -l images (string match -r '^.*(?:\.(?:img|raw|bin|iso|dd|wic)|/)(?:\t.*)?$' -- $files)
    test (count $images) = 0; and set images $files
    printf '%s\n' $images
end

# those that work on an image
set -l commands show verify locate free edit plan check apply repair adopt set
set -l writing edit apply repair adopt set

complete -c ptab -f
complete -c ptab -n "__ptab_in; or __ptab_in types $commands" -s h -l help -d 'Print help'
complete -c ptab -n __ptab_in -s V -l version -d 'Print version'
complete -c ptab -n '__ptab_in; or __ptab_at 0 help' -a show -d 'Prints the image\'s partitions, a line each'
complete -c ptab -n '__ptab_in; or __ptab_at 0 help' -a verify -d 'Prints `yes` where the image is healthy, else what is wrong'
complete -c ptab -n '__ptab_in; or __ptab_at 0 help' -a locate -d 'Prints where on the disk sector K of a partition is'
complete -c ptab -n '__ptab_in; or __ptab_at 0 help' -a free -d 'Prints where a new partition may lie: blocks of free sectors'
complete -c ptab -n '__ptab_in; or __ptab_at 0 help' -a types -d 'Prints the partition types that have names'
complete -c ptab -n '__ptab_in; or __ptab_at 0 help' -a edit -d 'Edits the table by words, as one change: all of them or none'
complete -c ptab -n '__ptab_in; or __ptab_at 0 help' -a plan -d 'Prints the plan of what `edit` would write, and writes nothing'
complete -c ptab -n '__ptab_in; or __ptab_at 0 help' -a check -d 'Answers whether a plan may be applied to the image, and writes nothing'
complete -c ptab -n '__ptab_in; or __ptab_at 0 help' -a apply -d 'Applies a plan to the image, where `check` says yes'
complete -c ptab -n '__ptab_in; or __ptab_at 0 help' -a repair -d 'Makes the image healthy, and keeps its partitions as they are'
complete -c ptab -n '__ptab_in; or __ptab_at 0 help' -a adopt -d 'Gives the image the table of another one, as one change'
complete -c ptab -n '__ptab_in; or __ptab_at 0 help' -a set -d 'Gives the image the table that a text in JSON says, as one change'
complete -c ptab -n __ptab_in -a help -d 'Print this message or the help of the given subcommand(s)'

complete -c ptab -n '__ptab_in edit plan set' -l fresh -x -d 'Fresh GUIDs, 32 hexadecimal digits each'
complete -c ptab -n '__ptab_in edit plan repair' -l keep-primary -d 'Keep the primary copy of a GPT whole throughout'
complete -c ptab -n '__ptab_in show' -l after -rF -d 'A plan, as if it were applied'
complete -c ptab -n '__ptab_in show' -l copy -xa 'primary backup' -d 'One copy of a GPT alone: primary or backup'
complete -c ptab -n '__ptab_in show free' -l json -d 'Print JSON in place of lines'
complete -c ptab -n '__ptab_in show' -l human -d 'Print a page for people in place of lines'
complete -c ptab -n '__ptab_in adopt' -l data -rF -d 'Sectors that come too, in lines of FIRST LAST'
complete -c ptab -n '__ptab_in adopt set' -l plan -d 'Print the plan, and write nothing'
complete -c ptab -n '__ptab_in adopt set' -l by-table -d 'Zero the primary header meanwhile, as `edit` does'
complete -c ptab -n '__ptab_in adopt' -l other-device -d 'OTHER is a block device'
complete -c ptab -n "__ptab_in $commands" -l device -d 'IMAGE is a block device'
complete -c ptab -n "__ptab_in $commands" -l sector-size -xa '512 4096' -d '512 (the default) or 4096; a device has its own'
complete -c ptab -n "__ptab_in $writing" -l in-use -d 'Write a device also where it is in use'
complete -c ptab -n "__ptab_in $writing" -l no-lock -d 'Take no lock: the caller holds the image\'s'

complete -c ptab -n "__ptab_at 0 $commands; or __ptab_at 1 adopt" -a '(__ptab_images)'
complete -c ptab -n '__ptab_at 1 check apply set' -F
complete -c ptab -n '__ptab_at any edit plan' -a 'a: o n: d: t: c: u: U: A: e g'
