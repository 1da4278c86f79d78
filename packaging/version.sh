#!/bin/sh
# Prints the one version number, which the command prints too (ptab --version).
sed -n 's/^pub const VERSION: &str = "\(.*\)";$/\1/p' "$(dirname "$0")/../crates/pt_line/src/help.rt"
