# Builds, checks and installs the program: make install PREFIX=/usr/local DESTDIR=
PREFIX ?= /usr/local
DESTDIR ?=
to = $(DESTDIR)$(PREFIX)
zsh ?= share/zsh/site-functions

all:
	tools/program

check:
	.ci/run

install:
	program=$$(tools/program) && install -D -m 755 "$$program" "$(to)/bin/nibcactus"
	install -D -m 644 dist/nibcactus.1 "$(to)/share/man/man1/nibcactus.1"
	install -D -m 644 dist/completions/nibcactus.bash "$(to)/share/bash-completion/completions/nibcactus"
	install -D -m 644 dist/completions/_nibcactus "$(to)/$(zsh)/_nibcactus"
	install -D -m 644 dist/completions/nibcactus.fish "$(to)/share/fish/vendor_completions.d/nibcactus.fish"

uninstall:
	rm -f "$(to)/bin/nibcactus" "$(to)/share/man/man1/nibcactus.1"
	rm -f "$(to)/share/bash-completion/completions/nibcactus" "$(to)/$(zsh)/_nibcactus"
	rm -f "$(to)/share/fish/vendor_completions.d/nibcactus.fish"

.PHONY: all check install uninstall
