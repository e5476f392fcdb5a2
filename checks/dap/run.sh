#!/bin/sh
# Plays conversations of an editor with the debug adapter (`node xv.mjs --dap`), and compares what it answers with
# checks/dap/told.txt; `run.sh --write` writes that. It needs Node 18.17 alone. PATIENCE is how many seconds an answer may
# take, 60 without it. The status is 1 if something differs.
cd "$(dirname "$0")/../.." || exit 2
if [ "${1-}" = --write ]; then
    node checks/dap/conversation.mjs >checks/dap/told.txt
    exit
fi
said=$(mktemp) && trap 'rm -f "$said"' EXIT
node checks/dap/conversation.mjs >"$said" || echo "the conversation broke off" >>"$said"
if diff checks/dap/told.txt "$said"; then
    echo "debug adapter: $(grep -c '^==' "$said") conversations, as they are stored"
else
    exit 1
fi
