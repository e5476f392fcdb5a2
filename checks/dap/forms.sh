#!/bin/sh
# Whether each message of the debug adapter, in all conversations that checks/dap/run.sh plays, has the form that Go's library
# of the protocol knows. It needs Node, and golang-go and golang-github-google-go-dap-dev of Debian. The status is 1 if one
# hasn't.
set -eu
cd "$(dirname "$0")/../.."
command -v go >/dev/null ||
    { echo 'forms.sh: there is no go: apt-get install golang-go golang-github-google-go-dap-dev' >&2; exit 2; }
room=$(mktemp -d) && trap 'rm -rf "$room"' EXIT
HEARD=$room/heard node checks/dap/conversation.mjs >/dev/null
GO111MODULE=off GOPATH=/usr/share/gocode GOCACHE=$room/cache go run checks/dap/forms/main.go <"$room/heard"
