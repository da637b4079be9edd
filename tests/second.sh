#!/usr/bin/env bash
# Runs the second program's own tests, which have the examples and limits of document 01 written out.
cd "$(dirname "$0")/.." && . tests/common.bash
said=$(cargo test --quiet --release --offline --manifest-path second/Cargo.toml --target-dir target/second 2>&1) || {
    echo "$said"
    exit 1
}
passed=$(sed -n 's/^test result: ok\. \([0-9]*\) passed; 0 failed.*/\1/p' <<<"$said")
pass_if "the tests of the second program, some forty, ran: $said" [ "${passed:-0}" -ge 40 ]
done_testing
