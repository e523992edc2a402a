# Completions of swsusp_machine for fish, as its `--help` lists them.
set -l commands make draw loader core from-core show differ check help
complete -c swsusp_machine -f
complete -c swsusp_machine -n __fish_use_subcommand -a make -d 'Plays a script, and writes the memory of its machine as a dump'
complete -c swsusp_machine -n __fish_use_subcommand -a draw -d 'Plays a script, and writes a picture of what happens'
complete -c swsusp_machine -n __fish_use_subcommand -a loader -d 'Writes the dump of the machine when it has just booted'
complete -c swsusp_machine -n __fish_use_subcommand -a core -d 'Writes the memory of a dump as an ELF core file'
complete -c swsusp_machine -n __fish_use_subcommand -a from-core -d 'Writes the dump of a machine with the memory of an ELF core file'
complete -c swsusp_machine -n __fish_use_subcommand -a show -d 'Prints what a dump says of its machine'
complete -c swsusp_machine -n __fish_use_subcommand -a differ -d 'Tells where two dumps differ first'
complete -c swsusp_machine -n __fish_use_subcommand -a check -d 'Tells what a resume of an image would answer'
complete -c swsusp_machine -n __fish_use_subcommand -a help -d 'Prints help'
complete -c swsusp_machine -s h -l help -d 'Print help'
complete -c swsusp_machine -n __fish_use_subcommand -s V -l version -d 'Print version'
complete -c swsusp_machine -n '__fish_seen_subcommand_from from-core' -l slots -x -d 'How many swap slots the machine has'
complete -c swsusp_machine -n '__fish_seen_subcommand_from check' -l any-kernel -d 'Take an image of another kernel too'
complete -c swsusp_machine -n '__fish_seen_subcommand_from differ check' -F
complete -c swsusp_machine -n '__fish_seen_subcommand_from help' -a "$commands[1..8]"
