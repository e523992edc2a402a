# Completions of swsusp_image for fish, as its `--help` lists them.
set -l commands check show stream page core differ discard loader machine help
complete -c swsusp_image -f
complete -c swsusp_image -n __fish_use_subcommand -a check -d 'Tells what is wrong with the image of a swap area'
complete -c swsusp_image -n __fish_use_subcommand -a show -d 'Prints what an area and its image say, a fact a line'
complete -c swsusp_image -n __fish_use_subcommand -a stream -d 'Writes the image of a swap area as a stream of bytes'
complete -c swsusp_image -n __fish_use_subcommand -a page -d 'Writes the saved page of a page frame'
complete -c swsusp_image -n __fish_use_subcommand -a core -d 'Writes the image of a swap area as an ELF core file'
complete -c swsusp_image -n __fish_use_subcommand -a differ -d 'Tells where two images differ'
complete -c swsusp_image -n __fish_use_subcommand -a discard -d 'Takes the mark of an image back'
complete -c swsusp_image -n __fish_use_subcommand -a loader -d 'Makes the dump of a loader for the image of a swap area'
complete -c swsusp_image -n __fish_use_subcommand -a machine -d 'Makes the dump of the machine that the image of a swap area saved'
complete -c swsusp_image -n __fish_use_subcommand -a help -d 'Prints help'
complete -c swsusp_image -s h -l help -d 'Print help'
complete -c swsusp_image -n __fish_use_subcommand -s V -l version -d 'Print version'
complete -c swsusp_image -n '__fish_seen_subcommand_from check show stream page core differ discard loader machine' -F
complete -c swsusp_image -n '__fish_seen_subcommand_from check show stream page core differ discard loader machine' -l offset -x -d 'The block of the header'
complete -c swsusp_image -n '__fish_seen_subcommand_from check show' -l json -d 'Print one JSON object'
complete -c swsusp_image -n '__fish_seen_subcommand_from differ' -l first -d 'Tell the first difference alone'
complete -c swsusp_image -n '__fish_seen_subcommand_from help' -a "$commands[1..9]"
complete -c swsusp_image -n '__fish_seen_subcommand_from loader machine' -l zone -x -d 'A zone of page frames'
complete -c swsusp_image -n '__fish_seen_subcommand_from loader machine' -l extent -x -d 'An extent of the area'
complete -c swsusp_image -n '__fish_seen_subcommand_from machine' -l tables -x -d 'The first page frames of the tables in the image'
