# Completion of stepmin for fish.
set -l commands check shrink verify plain presets help
complete -c stepmin -n "not __fish_seen_subcommand_from $commands" -f
complete -c stepmin -n "not __fish_seen_subcommand_from $commands" -a check -d "Report where a STEP file breaks its schema"
complete -c stepmin -n "not __fish_seen_subcommand_from $commands" -a shrink -d "Write a smaller file and its certificate"
complete -c stepmin -n "not __fish_seen_subcommand_from $commands" -a verify -d "Verify that OUT is FILE with equal instances merged"
complete -c stepmin -n "not __fish_seen_subcommand_from $commands" -a plain -d "Print the header and one instance a line"
complete -c stepmin -n "not __fish_seen_subcommand_from $commands" -a presets -d "List the presets of --merge"
complete -c stepmin -n "not __fish_seen_subcommand_from $commands" -a help -d "Print help"
complete -c stepmin -n "not __fish_seen_subcommand_from $commands" -s V -l version -d "Print the version"
complete -c stepmin -n "__fish_seen_subcommand_from help" -f -a "check shrink verify plain presets"
complete -c stepmin -n "__fish_seen_subcommand_from presets" -f
complete -c stepmin -s h -l help -d "Print help"
complete -c stepmin -n "__fish_seen_subcommand_from shrink verify" -l merge -x -a "@points @styles @geometry @all" -d "Entities whose instances may be merged, or presets, with commas between"
complete -c stepmin -n "__fish_seen_subcommand_from check shrink verify" -l schema-alias -x -d "Other names by which FILE may call the schema"
complete -c stepmin -n "__fish_seen_subcommand_from shrink verify" -l in-sets -d "Also merge an instance that stands alone in a SET or BAG"
complete -c stepmin -n "__fish_seen_subcommand_from shrink" -l strict -d "Refuse a schema of which a part isn't checked"
