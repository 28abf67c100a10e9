# made by docs/make_manual.py: source this file in bash
_wfcheck() {
    local cur=${COMP_WORDS[COMP_CWORD]} prev=${COMP_WORDS[COMP_CWORD - 1]}
    local words
    COMPREPLY=()
    if [ "$COMP_CWORD" -eq 1 ]; then
        mapfile -t COMPREPLY < <(compgen -W "solve verify views points branches join cnf model proof trim explain lift executions obstruction preset help --help --version" -- "$cur")
        return
    fi
    case ${COMP_WORDS[1]}:$prev in
        solve:--rounds) return ;;
        solve:--workers) return ;;
        solve:--branch) return ;;
        verify:--task)
            compopt -o filenames 2> /dev/null
            mapfile -t COMPREPLY < <(compgen -f -- "$cur")
            return
            ;;
        verify:--rounds) return ;;
        verify:--branch) return ;;
        views:--rounds) return ;;
        points:--rounds) return ;;
        points:--task)
            compopt -o filenames 2> /dev/null
            mapfile -t COMPREPLY < <(compgen -f -- "$cur")
            return
            ;;
        branches:--rounds) return ;;
        join:--task)
            compopt -o filenames 2> /dev/null
            mapfile -t COMPREPLY < <(compgen -f -- "$cur")
            return
            ;;
        join:--rounds) return ;;
        cnf:--rounds) return ;;
        cnf:--branch) return ;;
        model:--task)
            compopt -o filenames 2> /dev/null
            mapfile -t COMPREPLY < <(compgen -f -- "$cur")
            return
            ;;
        model:--rounds) return ;;
        proof:--task)
            compopt -o filenames 2> /dev/null
            mapfile -t COMPREPLY < <(compgen -f -- "$cur")
            return
            ;;
        proof:--rounds) return ;;
        proof:--branch) return ;;
        trim:--task)
            compopt -o filenames 2> /dev/null
            mapfile -t COMPREPLY < <(compgen -f -- "$cur")
            return
            ;;
        explain:--task)
            compopt -o filenames 2> /dev/null
            mapfile -t COMPREPLY < <(compgen -f -- "$cur")
            return
            ;;
        lift:--task)
            compopt -o filenames 2> /dev/null
            mapfile -t COMPREPLY < <(compgen -f -- "$cur")
            return
            ;;
        lift:--rounds) return ;;
        executions:--rounds) return ;;
        obstruction:--modulus) return ;;
        obstruction:--covers) return ;;
        preset:--processes) return ;;
        preset:--k) return ;;
        preset:--values) return ;;
        preset:--names) return ;;
    esac
    case ${COMP_WORDS[1]} in
        solve) words="--rounds --workers --verdict --least --account --progress --branch --help" ;;
        verify) words="--task --rounds --branch --long --help" ;;
        views) words="--rounds --help" ;;
        points) words="--rounds --task --help" ;;
        branches) words="--rounds --help" ;;
        join) words="--task --rounds --help" ;;
        cnf) words="--rounds --branch --help" ;;
        model) words="--task --rounds --help" ;;
        proof) words="--task --rounds --branch --lrat --progress --help" ;;
        trim) words="--task --help" ;;
        explain) words="--task --help" ;;
        lift) words="--task --rounds --help" ;;
        executions) words="--rounds --help" ;;
        obstruction) words="--modulus --covers --progress --help" ;;
        preset) words="set-agreement renaming --processes --k --values --names --help" ;;
        help) words="solve verify views points branches join cnf model proof trim explain lift executions obstruction preset" ;;
        *) return ;;
    esac
    mapfile -t COMPREPLY < <(compgen -W "$words" -- "$cur")
}
complete -F _wfcheck wfcheck
