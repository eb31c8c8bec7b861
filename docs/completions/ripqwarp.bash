_ripqwarp() {
    local current=${COMP_WORDS[COMP_CWORD]} previous=${COMP_WORDS[COMP_CWORD-1]}
    local command=${COMP_WORDS[1]} words=
    if [ "$COMP_CWORD" -lt 2 ]; then
        words='--help --version help serial warp journal import sweep size join plot generate'
    else
        case $command$previous in
        serial--format) words='text csv json' ;;
        serial--from) words='trace oracle-general' ;;
        serial--edge-by) words='row object' ;;
        serial--policy) words='off lru slru2 slru3 slru4 slru5 slru6 slru7 slru8' ;;
        warp--policy) words='off lru slru2 slru3 slru4 slru5 slru6 slru7 slru8' ;;
        journal--policy) words='off lru slru2 slru3 slru4 slru5 slru6 slru7 slru8' ;;
        import--from) words='csv oracle-general' ;;
        import--quotes) words='double none' ;;
        import--edge-by) words='row object' ;;
        sweep--format) words='text csv json' ;;
        sweep--from) words='trace oracle-general' ;;
        sweep--edge-by) words='row object' ;;
        size--caches) words='edges origins all' ;;
        size--format) words='text csv json' ;;
        size--policy) words='off lru slru2 slru3 slru4 slru5 slru6 slru7 slru8' ;;
        plot--of) words='hit_ratio byte_hit_ratio flash_writes backend_requests backend_bytes' ;;
        plot--caches) words='edges origins all' ;;
        plot--x) words='edge origin total' ;;
        generategenerate) words='man bash zsh fish' ;;
        *)
            case $current in
            -*) ;;
            *) COMPREPLY=($(compgen -f -- "$current")); return ;;
            esac
            case $command in
            serial) words='--help --quiet --stream --every --warm-up --format --from --ticks --edge-by --epoch --edges --origins --policy --sections --block --edge-blocks --edge-flash --origin-blocks --origin-flash --up --down --back --ticks-a-second --reclaim --options' ;;
            warp) words='--help --quiet --workers --turns --batch --window --ring --rounds --lazy --edges --origins --policy --sections --block --edge-blocks --edge-flash --origin-blocks --origin-flash --up --down --back --ticks-a-second --reclaim --options' ;;
            journal) words='--help --schedule --edges --origins --policy --sections --block --edge-blocks --edge-flash --origin-blocks --origin-flash --up --down --back --ticks-a-second --reclaim --options' ;;
            import) words='--help --from --delimiter --quotes --multiline --time --object --size --missing-size --edge --kind --edges --edge-by --ticks --spread --strict --max-left-out --stream --epoch --quiet --options' ;;
            sweep) words='--help --policy --sections --block --edge-blocks --edge-flash --origin-blocks --origin-flash --part --list --workers --quiet --stream --every --warm-up --format --from --ticks --edge-by --epoch --edges --origins --up --down --back --ticks-a-second --reclaim --options' ;;
            size) words='--help --target --caches --edge-blocks --edge-flash --origin-blocks --origin-flash --quiet --format --edges --origins --policy --sections --block --up --down --back --ticks-a-second --reclaim --options' ;;
            join) words='--help --of' ;;
            plot) words='--help --of --caches --x --ticks-a-second --name --options' ;;
            generate) words='--help' ;;
            esac ;;
        esac
    fi
    COMPREPLY=($(compgen -W "$words" -- "$current"))
}
complete -o filenames -F _ripqwarp ripqwarp
