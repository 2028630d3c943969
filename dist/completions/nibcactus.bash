# Completions of nibcactus for bash. tools/pages makes this file.
_nibcactus() {
    local word=${COMP_WORDS[COMP_CWORD]} before=${COMP_WORDS[COMP_CWORD - 1]} options='' plain=''
    if [ "$COMP_CWORD" = 1 ]; then
        mapfile -t COMPREPLY < <(compgen -W 'balance bal register reg incomestatement is balancesheet bs print accounts check strict close explain hours init add import export items replace serve feed follow talk sample --help --version' -- "$word")
        return
    fi
    # The value of an option stands behind `=`, which bash takes for a word, or is the next word.
    [ "$word" != = ] || word=
    [ "$before" != = ] || before=${COMP_WORDS[COMP_CWORD - 2]}
    case $before in
        --allow) mapfile -t COMPREPLY < <(compgen -W 'view add edit' -- "$word") && return ;;
    esac
    case ${COMP_WORDS[1]} in
        balance | bal) options='-l --flat -t --tree -A --average -T --row-total -N --no-total -S --sort-amount -B --cost -V --market -H --historical --cumulative --change --budget --auto -U --unmarked -P --pending -C --cleared -R --real -E --empty -D --daily -W --weekly -M --monthly -Q --quarterly -Y --yearly -b --begin= -e --end= -p --period= --depth= -X --exchange= --value= --forecast -f --store=' plain='' ;;
        register | reg) options='-B --cost -V --market -H --historical --auto -U --unmarked -P --pending -C --cleared -R --real -b --begin= -e --end= -p --period= --depth= -X --exchange= --value= --forecast -f --store=' plain='' ;;
        incomestatement | is) options='-l --flat -t --tree -A --average -T --row-total -N --no-total -S --sort-amount -B --cost -V --market --auto -U --unmarked -P --pending -C --cleared -R --real -E --empty -D --daily -W --weekly -M --monthly -Q --quarterly -Y --yearly -b --begin= -e --end= -p --period= --depth= -X --exchange= --value= --forecast -f --store=' plain='' ;;
        balancesheet | bs) options='-l --flat -t --tree -A --average -T --row-total -N --no-total -S --sort-amount -B --cost -V --market --auto -U --unmarked -P --pending -C --cleared -R --real -E --empty -D --daily -W --weekly -M --monthly -Q --quarterly -Y --yearly -b --begin= -e --end= -p --period= --depth= -X --exchange= --value= --forecast -f --store=' plain='' ;;
        print) options='-x --explicit --auto -U --unmarked -P --pending -C --cleared -R --real -b --begin= -e --end= -p --period= --forecast -f --store=' plain='' ;;
        accounts) options='--auto -U --unmarked -P --pending -C --cleared -R --real -b --begin= -e --end= -p --period= --depth= --forecast -f --store=' plain='' ;;
        check) options='-f --store=' plain='' ;;
        strict) options='-f --store=' plain='accounts commodities payees tags ordereddates' ;;
        close) options='-f --store= --on= --into= --close --open' plain='' ;;
        explain) options='-f --store= --rules=' plain='' ;;
        hours) options='--dot -f' plain='' ;;
        init) options='-f --limit=' plain='' ;;
        add) options='' plain='' ;;
        import) options='--rules= --name= --dry-run' plain='' ;;
        export) options='' plain='' ;;
        items) options='' plain='' ;;
        replace) options='-f --base=' plain='' ;;
        serve) options='--host= --port= --allow= --workers= --connections= --page' plain='' ;;
        feed) options='' plain='' ;;
        follow) options='--limit=' plain='' ;;
        talk) options='-f --store= --allow=' plain='' ;;
        sample) options='' plain='' ;;
    esac
    case $word in
        -*) mapfile -t COMPREPLY < <(compgen -W "$options" -- "$word") ;;
        *) mapfile -t COMPREPLY < <(compgen -W "$plain" -- "$word") ;;
    esac
    [[ ${COMPREPLY[0]} != *= ]] || compopt -o nospace
}
complete -o default -F _nibcactus nibcactus
