# Installs below DESTDIR and PREFIX, and takes away again: the programs as they come with the tree, the Python package with its
# command wdp-office, manual pages, completion, documents and examples. debian/ makes a package of the same.
PREFIX = /usr/local
DESTDIR =
# where zsh looks for completion below PREFIX, and Python for packages; other folders for Debian's packages
ZSH = share/zsh/site-functions
PYTHON = lib/wdp/python

SHELL = /bin/sh
.SHELLFLAGS = -ec
.ONESHELL:
.SILENT:
.PHONY: help build test install uninstall
export PREFIX DESTDIR ZSH PYTHON

# all that is installed, below PREFIX
INSTALLED = bin/wdp bin/wdp-desk bin/wdp-office bin/wdp-solve lib/wdp share/doc/wdp share/man/man1/wdp.1 share/man/man1/wdp-desk.1 share/man/man1/wdp-solve.1 share/man/man1/wdp-office*.1 \
	share/bash-completion/completions/wdp share/bash-completion/completions/wdp-office "$$ZSH/_wdp" "$$ZSH/_wdp-office" "$$PYTHON/wdp"

help:
	echo 'make build'
	echo 'make test'
	echo 'make install PREFIX=/usr/local DESTDIR='
	echo 'make uninstall PREFIX=/usr/local DESTDIR='

build:
	./build

test:
	./test

# What may fail is made before anything is touched. What an older version left is taken away first.
install:
	umask 022
	made=$$(mktemp -d)
	trap 'rm -rf "$$made"' EXIT
	tools/prebuild --check > /dev/null || { echo 'make: prebuilt/ is of other sources, and nothing is installed; tools/prebuild renews it' >&2; exit 1; }
	mkdir "$$made/bin"
	for packed in prebuilt/*.gz
	do
		program=$$made/bin/$$(basename "$$packed" .gz)
		gzip -dc "$$packed" > "$$program"
		chmod 755 "$$program"
	done
	mkdir -p "$$DESTDIR$$PREFIX/"
	to=$$(cd -- "$$DESTDIR$$PREFIX/" && pwd)
	(cd "$$to" && rm -rf $(INSTALLED))
	install -D -t "$$to/bin" "$$made"/bin/*
	install -D -m 644 -t "$$to/share/doc/wdp/prebuilt" prebuilt/record
	mkdir -p "$$to/$$PYTHON" "$$to/share/doc/wdp"
	(cd python/src && tar -c --exclude=__pycache__ wdp) | tar -x --no-same-owner -C "$$to/$$PYTHON"
	tar -c --exclude='.git*' README.md CHANGELOG.md bench/README.md docs examples | tar -x --no-same-owner -C "$$to/share/doc/wdp"
	# (documents name the manual and, in their blocks, the commands as they are installed, and have no links to the sources)
	find "$$to/share/doc/wdp" -name '*.md' -exec sed -i -e '/^```/,/^```/s#\./wdp#wdp#g' -e 's#\(man \)*docs/\(wdp[-a-z]*\)\.1#man \2#g' \
		-e 's#\[\([^]]*\)\]([./]*crates/[^)]*)#\1#g' {} +
	ln -s "../$$PYTHON/wdp/__main__.py" "$$to/bin/wdp-office"
	install -D -m 644 -t "$$to/share/man/man1" docs/*.1 manuals/man/*
	install -D -m 644 -t "$$to/share/bash-completion/completions" manuals/bash/*
	install -D -m 644 -t "$$to/$$ZSH" manuals/zsh/*

# Folders that others use too stay.
uninstall:
	cd -- "$$DESTDIR$$PREFIX/"
	rm -rf $(INSTALLED)
