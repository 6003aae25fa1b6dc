# Installs the program, its manual page, documents, examples and tools, and the syntax file for vim; the program is proved
# and built first where it is not.
PREFIX ?= /usr/local
DESTDIR ?=

root = $(DESTDIR)$(PREFIX)
vim = $(root)/share/vim/vimfiles
tools = recheck.py recheck_in.py rinv.py to_sage.py

install:
	./rinv laws < examples/systems/signs.rinv > /dev/null
	install -d $(root)/bin $(root)/share/man/man1 $(root)/share/doc/rinv/docs $(root)/share/rinv/tools
	install -d $(vim)/ftdetect $(vim)/syntax
	install -m 755 crates/rinv_app/out/rinv_app $(root)/bin/rinv
	install -m 644 man/rinv.1 $(root)/share/man/man1/rinv.1
	install -m 644 README.md $(root)/share/doc/rinv/
	install -m 644 docs/*.md $(root)/share/doc/rinv/docs/
	install -m 755 $(addprefix tools/,$(tools)) $(root)/share/rinv/tools/
	install -m 644 editors/vim/ftdetect/rinv.vim $(vim)/ftdetect/
	install -m 644 editors/vim/syntax/rinv.vim $(vim)/syntax/
	cp -R examples $(root)/share/rinv/

uninstall:
	rm -rf $(root)/bin/rinv $(root)/share/man/man1/rinv.1 $(root)/share/doc/rinv $(root)/share/rinv
	rm -f $(vim)/ftdetect/rinv.vim $(vim)/syntax/rinv.vim

.PHONY: install uninstall
