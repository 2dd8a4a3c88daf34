# Completion of bash for fapipol and fapibridge; their words are those that `--words` lists.
# shellcheck shell=bash

_fapipol() {
    local word=${COMP_WORDS[COMP_CWORD]} all=''
    case $COMP_CWORD:${COMP_WORDS[COMP_CWORD - 1]} in
        1:*) all=$("$1" --words 2>/dev/null | sed 's/ .*//' | uniq) ;;
        2:compile | 2:paths | 2:lint | 2:digests) all=--scene ;;
        2:export) all=--differences ;;
        2:run) all='--blind --tickets' ;;
        2:explain) all='--blind --cert --tickets' ;;
        2:import | 2:check) all=$(_fapipol_names json) ;;
        3:--scene | 4:--scene) all=$(_fapipol_names scene) ;;
        3:*) case ${COMP_WORDS[1]} in check | steps) all=--scene ;; esac ;;
    esac
    mapfile -t COMPREPLY < <(compgen -W "$all" -- "$word")
}

# The names of the documents of the folder with this ending.
_fapipol_names() {
    local file
    for file in policies/*."$1"; do
        file=${file#policies/}
        [ ! -f "policies/$file" ] || echo "${file%."$1"}"
    done
}

complete -F _fapipol fapipol ./fapipol fapibridge ./fapibridge
