# Prints what zsh completes behind a line, one a line.
#
# usage: zsh -f completions.zsh FOLDER LINE     FOLDER has the function _ptab, and the files that completing begins with
zmodload zsh/zpty
hits=$(mktemp)
begin=$(mktemp)
cat >$begin <<'END'
PROMPT=
fpath=($1 $fpath)
autoload -Uz compinit
compinit -u -D
bindkey '^I' complete-word
zstyle ':completion:*' insert-tab false
# what is added is written down with what stands before it in its word
compadd() {
  local -a found before hidden
  if [[ ${@[1,(i)(-|--)]} = *-(O|A|D)\ * ]]; then
    builtin compadd "$@"
    return
  fi
  zparseopts -E P:=before p:=hidden
  builtin compadd -A found "$@"
  ((${#found})) && print -rl -- "$IPREFIX${before[2]}${hidden[2]}"${^found} >>$2
  builtin compadd "$@"
}
comppostfuncs=(exit)
END
sed -i "s|\$1|${(q)1}|; s|\$2|${(q)hits}|" $begin
zpty inner zsh -f -i
zpty -w inner ". ${(q)begin}"
zpty -w -n inner "$2"$'\t'
while zpty -r inner line; do :; done
sort -u $hits
rm -f $hits $begin
