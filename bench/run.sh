#!/usr/bin/env bash
# The proved keeper program beside a plain Rust program of the same rules, on the same million lines:
# their output has to be the same, and the ratio of their rates is printed.
set -euo pipefail
cd "$(dirname "$0")"
count=${1:-1000000}
work=$(mktemp -d)
trap 'rm -rf "$work"' EXIT

(cd ../crates/keeper_program && rt run < /dev/null > "$work/check.log" 2>&1) || { tail -5 "$work/check.log"; exit 1; }
cargo build --quiet --release --offline --manifest-path rust_keeper/Cargo.toml --target-dir "$work/rust"
proved=../crates/keeper_program/out/keeper_program
plain=$work/rust/release/rust_keeper
python3 make_lines.py "$count" 7 > "$work/lines"

"$proved" < "$work/lines" > "$work/proved.out"
"$plain" < "$work/lines" > "$work/plain.out"
cmp "$work/proved.out" "$work/plain.out"

python3 - "$proved" "$plain" "$work/lines" "$count" <<'EOF'
import subprocess
import sys
import time

proved, plain, lines, count = sys.argv[1:4] + [int(sys.argv[4])]


def seconds(program):
    with open(lines, "rb") as source:
        start = time.perf_counter()
        subprocess.run([program], stdin=source, stdout=subprocess.DEVNULL, check=True)
        return time.perf_counter() - start


# In turn, so that both meet the same machine; the best of each counts.
times = [(seconds(proved), seconds(plain)) for _ in range(7)]
best_proved = min(t[0] for t in times)
best_plain = min(t[1] for t in times)
print(f"proved: {count / best_proved:,.0f} lines a second")
print(f"plain:  {count / best_plain:,.0f} lines a second")
print(f"ratio:  {best_plain / best_proved:.2f}")
EOF
