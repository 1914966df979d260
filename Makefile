# What everybody tries first. Each target only calls a script of tools/ or bin/.
PREFIX = /usr/local

all: ## prove and build the programs and the C library
	tools/program revtool git-proved >/dev/null
	tools/library >/dev/null

revtool: ## prove and build revtool alone
	tools/program revtool >/dev/null

git-proved: ## prove and build git proved alone
	tools/program git-proved >/dev/null

try: ## answer two examples at once, without any proof
	tools/try

check: ## run the full check: all proofs, mutants and tests
	tools/test

install: ## build, then install below PREFIX (DESTDIR is put in front)
	DESTDIR='$(DESTDIR)' FROM='$(FROM)' tools/install '$(PREFIX)'

package: ## build, then put the link kit and packages that need no toolchain into dist/
	FROM='$(FROM)' tools/package

release: ## run the full check, and put the link kit into releases/
	tools/release

uninstall: ## remove what install has put below PREFIX
	DESTDIR='$(DESTDIR)' tools/install --uninstall '$(PREFIX)'

doc: ## make the reference of all crates from their sources, in dist/doc
	tools/doc

bench: ## measure the speed, beside git's
	tools/bench

clean: ## remove what was proved and built, the packages and the reference
	rm -rf crates/*/out dist

help: ## print the targets
	@sed -nE 's/^([a-z-]+): ## (.*)/make \1\t\2/p' Makefile | expand -t 17

.PHONY: all revtool git-proved try check install package release uninstall doc bench clean help
