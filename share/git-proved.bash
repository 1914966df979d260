# Completes the commands and options of `git proved`. git's completion for bash
# calls this function.
_git_proved() {
    local word='' at
    # The command comes after the options, and after a value that is a word of its own.
    for ((at = __git_cmd_idx + 1; at < cword; at++)); do
        case ${words[at]} in
            -C | --git-dir | --work-tree) ((at++)) ;;
            -*) ;;
            *)
                word=${words[at]}
                break
                ;;
        esac
    done
    case $word,$cur in
        ,-*)
            __gitcomp "-C --git-dir= --work-tree= --authentic --authentic=whole --version -h \
                --help"
            ;;
        ,*)
            __gitcomp "merge-base describe rev-parse rev-list for-each-ref \
                batch"
            ;;
        merge-base,-*)
            __gitcomp "--all --octopus --independent --is-ancestor \
                --fork-point"
            ;;
        describe,-*)
            __gitcomp "--all --tags --long --abbrev= --exact-match \
                --candidates= --first-parent --always --match= --exclude= \
                --dirty --dirty="
            ;;
        rev-parse,-*)
            __gitcomp "--verify --quiet --short --short= \
                --symbolic-full-name --abbrev-ref --abbrev-ref= --symbolic \
                --default --revs-only --no-revs --flags --no-flags --not --sq \
                --git-dir --absolute-git-dir --git-common-dir --git-path \
                --show-toplevel --show-cdup --show-prefix --path-format= \
                --is-inside-work-tree --is-inside-git-dir \
                --is-bare-repository --is-shallow-repository \
                --show-object-format --show-object-format="
            ;;
        rev-list,-*)
            __gitcomp "--not --all --branches --branches= --tags --tags= \
                --remotes --remotes= --stdin --count --max-count= --skip= \
                --left-right --first-parent --parents --boundary --reverse \
                --topo-order --date-order --merges --no-merges \
                --since= --after= --until= --before= --max-age= --min-age= \
                --min-parents= --max-parents= --no-min-parents \
                --no-max-parents --left-only --right-only --timestamp \
                --abbrev-commit --no-abbrev-commit --abbrev --abbrev= \
                --no-abbrev --quiet --no-walk --no-walk= --do-walk --glob= \
                --exclude= --ancestry-path \
                --pretty= --format= --oneline --commit-header \
                --no-commit-header"
            ;;
        for-each-ref,-*)
            __gitcomp "--contains --contains= --no-contains --no-contains= \
                --merged --merged= --no-merged --no-merged= --count= --sort= \
                --points-at= --format= --shell --perl --python --tcl \
                --color --color="
            ;;
        batch,*) ;;
        *) __git_complete_refs ;;
    esac
}
_git_proved_or_git() { _git_proved; }
