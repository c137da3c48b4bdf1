# Completion of hq for bash.
_hq() {
    local word=${COMP_WORDS[COMP_CWORD]}
    if [[ ${COMP_WORDS[COMP_CWORD-1]} == --color ]]; then
        COMPREPLY=($(compgen -W 'auto always never' -- "$word"))
    elif [[ $word == -* ]]; then
        COMPREPLY=($(compgen -W '--html --inner --text --md --md=crate --attr --count --csv --article --any --document --tree --script --json --jsonl --warc --first --trim --null --with-filename --color --base --remove --sanitize --preset --policy --allow --deny --in-place --keep-charset --charset --explicit --context --scripting --max-depth --line-buffered --progress --verbose -t -m -a -c -d -s -j -1 -0 -H -b -r -i -v --help --version' -- "$word"))
    else
        COMPREPLY=($(compgen -f -- "$word"))
    fi
}
complete -o filenames -F _hq hq
