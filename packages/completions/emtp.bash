# completion of emtp for bash

# _emtp_files ENDING..: folders, and files with these endings; without one all files
_emtp_files() {
    local ending found
    for ending in "${@:-}"; do
        mapfile -t found < <(compgen -f ${ending:+-X "!*.$ending"} -- "$word")
        COMPREPLY+=("${found[@]}")
    done
    mapfile -t found < <(compgen -d -- "$word")
    COMPREPLY+=("${found[@]}")
}

# _emtp_words TEXT: those of its words that begin as the one that is written
_emtp_words() {
    mapfile -t COMPREPLY < <(compgen -W "$1" -- "$word")
}

_emtp() {
    local word=${COMP_WORDS[COMP_CWORD]} command=${COMP_WORDS[1]}
    COMPREPLY=()
    if ((COMP_CWORD == 1)); then
        _emtp_words 'run show judge audit batch phasor scan trial plot compare convert play study ruler converge lineconst
            atp trv arrester relay ct locate lsp --help --version --program'
        return
    fi
    case $command:$word in
        show:-*) _emtp_words '--count --kinds --why --fields' ;;
        judge:-*) _emtp_words '--samples --count' ;;
        scan:-*) _emtp_words "--at $("$1" scan --help 2>/dev/null | grep -oE -- '--[a-z-]+' | sort -u)" ;;
        --program:*) _emtp_words 'emtp emtp_show emtp_judge' ;;
        run:-* | audit:-* | batch:-* | phasor:-* | trial:* | --*) ;;
        *:-*) _emtp_words "$("$1" "$command" --help 2>/dev/null | grep -oE -- '--[a-z-]+' | sort -u)" ;;
        ruler:*) _emtp_words 'tolerance first second branch series wide line arrester reactor nonlinear point switch valve
            controlled source output block coefficients tacs-source control-source formula device table-point' ;;
        run:* | audit:*) if ((COMP_CWORD == 2)); then _emtp_files case; else _emtp_files cfg CFG dat DAT; fi ;;
        show:* | judge:* | phasor:* | scan:* | converge:*) _emtp_files case ;;
        batch:* | study:*) if ((COMP_CWORD == 2)); then _emtp_files case; else _emtp_files; fi ;;
        *) _emtp_files ;;
    esac
} && complete -o filenames -F _emtp emtp
