# Completes the words of pitc in fish. Put it into ~/.local/share/fish/vendor_completions.d.

# The paths of instances that begin with the current word, without their endings.
function __pitc_bases
    set -l word (commandline -ct)
    for path in $word*.pcpsp
        string replace -r '\.pcpsp$' '' -- $path
    end
end

complete -c pitc -n __fish_use_subcommand -f
complete -c pitc -n __fish_use_subcommand -a compile -d 'write the files of an instance'
complete -c pitc -n __fish_use_subcommand -a check -d 'read the files of an instance'
complete -c pitc -n __fish_use_subcommand -a help -d 'print help'
complete -c pitc -n __fish_use_subcommand -s V -l version -d 'print the version'
complete -c pitc -s h -l help -d 'print help'
complete -c pitc -n '__fish_seen_subcommand_from compile' -l plan -r -F -d 'the file of the plan'
complete -c pitc -n '__fish_seen_subcommand_from compile' -l out -r -F -d 'what the paths of the files begin with'
complete -c pitc -n '__fish_seen_subcommand_from compile' -l valuers -x -d 'how many threads value blocks, 1 to 64'
complete -c pitc -n '__fish_seen_subcommand_from compile' -l capacity -x -d 'how many blocks wait, 1 to 4096'
complete -c pitc -n '__fish_seen_subcommand_from check' -f -a '(__pitc_bases)'
complete -c pitc -n '__fish_seen_subcommand_from help' -f -a 'compile check help'
