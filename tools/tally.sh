# Sourced by tools/check-all and tools/bindings. check runs a command of the project and prints a line: whether it passed, how long it
# took and the last line that it said; all that it said where it failed, or where `show` is all. tally prints the count and
# ends.
passed=0 failed=0
check() { # COMMAND WORDS
    local said began=$SECONDS
    if said=$("$top/$1" "${@:2}" 2>&1); then
        echo "passed: $* ($((SECONDS - began)) s): ${said##*$'\n'}"
        passed=$((passed + 1))
        [ "${show:-}" != all ] || sed 's/^/    /' <<< "$said"
    else
        echo "FAILED: $* ($((SECONDS - began)) s)"
        failed=$((failed + 1))
        sed 's/^/    /' <<< "$said"
    fi
}
check_bindings() { # RUST
    for machine in x86_64 aarch64; do
        check tools/outside-tests "$1" --for $machine
        check tools/examples --for $machine
    done
    check tools/header-tests
    check tools/cargo-test
}
tally() { # NAME
    echo "$1: $passed passed, $failed failed"
    [ $failed -eq 0 ]
    exit
}
