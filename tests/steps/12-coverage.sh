#!/usr/bin/env bash
# each name in docs/COVERAGE.md is a definition, a function or a file that exists
set -euo pipefail
cd "$(dirname "$0")/../.."
. tests/steps/tools.sh
need awk comm grep sort
export LC_ALL=C
list=docs/COVERAGE.md

# File.name of each definition, record and constructor: what stands before its colon. In other crates than the model it is crate/File.name.
definitions() {
    awk '
        FNR == 1 { split(FILENAME, part, "/"); file = (part[2] == "model" ? "" : part[2] "/") part[4]; sub(/antt$/, "", file) }
        /^ ? ?[^ -]/ && match($0, / :( |$)/) {
            head = substr($0, 1, RSTART - 1)
            sub(/ \(.*/, "", head)
            n = head ~ /[(){}=]/ ? 0 : split(head, word, " ")
            for (k = 1; k <= n; k++) if (word[k] !~ /^(unfoldable|abbrev|pub|record|data)$/) print file word[k]
        }' crates/*/specs/*.antt crates/*/proofs/*.antt
}

# crate::name of each function, struct, enum and constant of the code, and crate::Enum::Variant.
code() {
    grep -oE '\b(fn|struct|enum|const) \w+' crates/*/src/*.rt | sed -E 's|^crates/([^/]+)/.* |\1::|'
    awk '
        FNR == 1 { split(FILENAME, part, "/"); enum = "" }
        /^}/ { enum = "" }
        enum != "" && match($0, /^    [A-Z][A-Za-z0-9]*/) { print part[2] "::" enum "::" substr($0, 5, RLENGTH - 4) }
        /^pub enum / { enum = $3 }' crates/*/src/*.rt
}

names=$(grep -o '`[^`]*`' "$list" | tr -d '`' | sort -u)
missing=0
while read -r name; do
    [ -f "$name" ] || { echo "$list names what is not there: $name" && missing=$((missing + 1)); }
done < <(comm -23 <(echo "$names") <({ definitions && code; } | sort -u))
while read -r row; do
    echo "$list has a row without a name: $row" && missing=$((missing + 1))
done < <(grep '^| ' "$list" | grep -v '`\|^| place |')
echo "$(grep -c '^| .*`' "$list") places, $(wc -l <<< "$names") names, $missing missing"
[ "$missing" -eq 0 ]
