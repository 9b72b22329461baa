# make; make install PREFIX=$HOME/.local; make uninstall PREFIX=$HOME/.local (README.md, Install); make dist; make deb (docs/TOOLS.md, A release)
PREFIX = /usr/local
build:
	tools/build-program
install:
	./install $(PREFIX)
uninstall:
	./install --uninstall $(PREFIX)
dist:
	tools/make-release dist
deb:
	tools/make-release deb
.PHONY: build install uninstall dist deb
