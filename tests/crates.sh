# Which crates stand on which, from crates.txt. To be sourced.

# above NAME..: these crates and all that stand on them.
above() {
    local all=" $* " grown=1 name below dep
    while [ -n "$grown" ]; do
        grown=
        while IFS=: read -r name below; do
            name=${name% staticlib}
            [[ $all == *" $name "* ]] && continue
            for dep in $below; do
                [[ $all != *" $dep "* ]] || { all+="$name " grown=1; break; }
            done
        done < <(grep -v '^#' crates.txt)
    done
    echo $all
}

# below NAME: this crate and all that it stands on, but for the kit's.
below() {
    local all=" $1 " grown=1 name deps dep
    while [ -n "$grown" ]; do
        grown=
        while IFS=: read -r name deps; do
            name=${name% staticlib}
            [[ $all == *" $name "* ]] || continue
            for dep in $deps; do
                [[ $all == *" $dep "* ]] || [ ! -d "crates/$dep" ] || all+="$dep " grown=1
            done
        done < <(grep -v '^#' crates.txt)
    done
    echo $all
}
