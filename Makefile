# make install PREFIX=/usr/local: the programs, which ./szl, ./szl-explain and ./szl-cut build and prove first where they have to, szl-rows,
# szl-proto, the manual pages, completions for bash and zsh, and the files of editors. DESTDIR stands before every name, as packages want it. PROGRAM,
# EXPLAIN and CUT may name programs that are built already.
PREFIX = /usr/local
DESTDIR =
built = crates/szl_cli/out/szl_cli
explains = crates/szl_explain_cli/out/szl_explain_cli
PROGRAM = $(built)
EXPLAIN = $(explains)
cuts = crates/szl_cut_cli/out/szl_cut_cli
CUT = $(cuts)

share = $(DESTDIR)$(PREFIX)/share
vim = $(share)/vim/vimfiles
put = install -D -m 644

all: $(built) $(explains) $(cuts)

$(built): always
	./szl check - </dev/null

$(explains): always
	./szl-explain - </dev/null >/dev/null

$(cuts): always
	./szl-cut - 1 </dev/null

install: $(PROGRAM) $(EXPLAIN) $(CUT)
	install -D -m 755 $(PROGRAM) $(DESTDIR)$(PREFIX)/bin/szl
	install -D -m 755 $(EXPLAIN) $(DESTDIR)$(PREFIX)/bin/szl-explain
	install -D -m 755 $(CUT) $(DESTDIR)$(PREFIX)/bin/szl-cut
	$(put) man/szl-cut.1 $(share)/man/man1/szl-cut.1
	install -D -m 755 bin/szl-rows $(DESTDIR)$(PREFIX)/bin/szl-rows
	install -D -m 755 bin/szl-proto $(DESTDIR)$(PREFIX)/bin/szl-proto
	$(put) man/szl.1 $(share)/man/man1/szl.1
	$(put) man/szl-explain.1 $(share)/man/man1/szl-explain.1
	$(put) man/szl-rows.1 $(share)/man/man1/szl-rows.1
	$(put) man/szl-proto.1 $(share)/man/man1/szl-proto.1
	$(put) completions/szl.bash $(share)/bash-completion/completions/szl
	ln -sf szl $(share)/bash-completion/completions/szl-rows
	ln -sf szl $(share)/bash-completion/completions/szl-explain
	ln -sf szl $(share)/bash-completion/completions/szl-cut
	ln -sf szl $(share)/bash-completion/completions/szl-proto
	$(put) completions/_szl $(share)/zsh/site-functions/_szl
	for it in compiler ftdetect ftplugin syntax; do $(put) editors/vim/$$it/szl.vim $(vim)/$$it/szl.vim || exit; done
	$(put) editors/szl.tmLanguage.json $(share)/szl/szl.tmLanguage.json

uninstall:
	rm -f $(DESTDIR)$(PREFIX)/bin/szl $(DESTDIR)$(PREFIX)/bin/szl-explain $(DESTDIR)$(PREFIX)/bin/szl-cut $(DESTDIR)$(PREFIX)/bin/szl-rows
	rm -f $(share)/man/man1/szl.1 $(share)/man/man1/szl-explain.1 $(share)/man/man1/szl-cut.1 $(share)/man/man1/szl-rows.1
	rm -f $(share)/bash-completion/completions/szl $(share)/bash-completion/completions/szl-rows
	rm -f $(share)/bash-completion/completions/szl-explain $(share)/zsh/site-functions/_szl
	rm -f $(DESTDIR)$(PREFIX)/bin/szl-proto $(share)/man/man1/szl-proto.1
	rm -f $(share)/bash-completion/completions/szl-cut $(share)/bash-completion/completions/szl-proto
	rm -f $(vim)/compiler/szl.vim $(vim)/ftdetect/szl.vim $(vim)/ftplugin/szl.vim $(vim)/syntax/szl.vim
	rm -rf $(share)/szl

.PHONY: all always install uninstall
