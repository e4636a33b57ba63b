# Completes the words of pitc_thin in fish. Put it into ~/.local/share/fish/vendor_completions.d.

complete -c pitc_thin -s h -l help -d 'print help'
complete -c pitc_thin -s V -l version -d 'print the version'
complete -c pitc_thin -l plan -r -F -d 'the file of the plan'
complete -c pitc_thin -l out -r -F -d 'the file that is written'
complete -c pitc_thin -l valuers -x -d 'how many threads value blocks, 1 to 64'
complete -c pitc_thin -l capacity -x -d 'how many blocks wait, 1 to 4096'
