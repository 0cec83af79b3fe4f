#!/usr/bin/env bash
# Renders the pictures of docs/ from the graphs of examples/, with Graphviz: docs/NAME.svg from NAME.graph and NAME.listing.
set -euo pipefail
top=$(cd "$(dirname "$0")/.." && pwd)
. "$top/tools/common.sh"
need python3 dot
for name in loop compiled; do
    PYTHONDONTWRITEBYTECODE=1 python3 "$top/tools/graph_picture.py" \
        --listing "$top/examples/$name.listing" "$top/examples/$name.graph" | dot -Tsvg -o "$top/docs/$name.svg"
    echo "docs/$name.svg"
done
