# Completion of the words of ptu for bash: source examples/ptu.bash
_ptu() {
    # made by docs/make_references.py: commands
    local commands="count header events run trace pick demo"
    local files=" count:2 header:2 events:2 run:3 trace:3 pick:4 "
    local plans=" run:2 trace:2 pick:2 "
    # end
    local word=${COMP_WORDS[COMP_CWORD]} at=" ${COMP_WORDS[1]}:$COMP_CWORD " ending=
    COMPREPLY=()
    if [ "$COMP_CWORD" -eq 1 ]; then
        mapfile -t COMPREPLY < <(compgen -W "$commands" -- "$word")
        return
    fi
    [[ $plans != *"$at"* ]] || ending=toml
    [[ $files != *"$at"* ]] || ending=ptu
    [ -z "$ending" ] || mapfile -t COMPREPLY < <(compgen -f -X "!*.$ending" -- "$word"; compgen -d -- "$word")
}
complete -o filenames -F _ptu ptu ./ptu
