# make install: the program, the workbench, man pages, completions, editors' files and pages; docs/INSTALL.md.
#
#   make install                                  below /usr/local
#   make install PREFIX=/usr DESTDIR=/tmp/tree    as a package of Debian is made
#   make install PROGRAM=PATH                     with another program than the proved one of this repository, which may
#                                                 be unproved: a line on standard error then says so

PREFIX = /usr/local
DESTDIR =
PROGRAM =
PYTHON = /usr/bin/python3

bindir = $(PREFIX)/bin
datadir = $(PREFIX)/share
mandir = $(datadir)/man/man1
docdir = $(datadir)/doc/nooks
sharedir = $(datadir)/nooks
bashdir = $(datadir)/bash-completion/completions
# zsh has a separate folder for the completions of packages.
zshdir = $(datadir)/zsh/$(if $(filter /usr,$(PREFIX)),vendor-completions,site-functions)
vimdir = $(datadir)/vim/vimfiles

BUILT = crates/nooks_main/out/nooks_main
program = $(or $(PROGRAM),$(BUILT))
generate = $(PYTHON) -B packaging/generate --program $(program) --docs $(docdir)
data = install -m 644

.PHONY: help install uninstall check-program

help:
	@sed -n '/^#/!q; s/^# \{0,1\}//p' Makefile

# The proved program must be newer than its sources. One that is named must report that it is nooks, and may be unproved.
check-program:
	@if [ -n "$(PROGRAM)" ]; then \
	    [ -x "$(PROGRAM)" ] || { echo "make: $(PROGRAM) is no program" >&2; exit 1; }; \
	elif [ ! -x $(BUILT) ]; then \
	    echo "make: the proved program is not built yet: ./nooks --prove proves and builds it (docs/INSTALL.md)" >&2; \
	    echo "make: PROGRAM=PATH installs another: out/unproved/nooks, which ./nooks-unproved builds, or out/plain/nooks, which ./nooks-plain builds" >&2; exit 1; \
	elif [ -n "$$(find crates.txt crates/*/src crates/*/specs crates/*/proofs -newer $(BUILT) -print -quit)" ]; then \
	    echo "make: a source is newer than the proved program: ./nooks --prove proves and builds it anew" >&2; exit 1; \
	fi
	@version="$$($(generate) version)" || exit 1; case "$$version" in *unproved) \
	    [ -n "$(PROGRAM)" ] || { echo "make: $(BUILT) is not proved: it is nooks $$version" >&2; exit 1; }; \
	    echo "make: installing an unproved program: $(PROGRAM) is nooks $$version" >&2 ;; esac

install: check-program
	install -d $(addprefix $(DESTDIR),$(bindir) $(mandir) $(addprefix $(docdir)/docs/,guard maps pages survival) $(bashdir) $(zshdir) $(vimdir)/syntax \
	    $(vimdir)/ftdetect $(sharedir)/nooks_bench/schemas $(sharedir)/nooks_bench/page_files)
	install -m 755 $(program) $(DESTDIR)$(bindir)/nooks
	sed '1s|.*|#!$(PYTHON)|' workbench/nooks-bench > $(DESTDIR)$(sharedir)/nooks-bench
	chmod 755 $(DESTDIR)$(sharedir)/nooks-bench
	ln -sfn ../share/nooks/nooks-bench $(DESTDIR)$(bindir)/nooks-bench
	$(data) workbench/nooks_bench/*.py $(addprefix workbench/nooks_bench/,py.typed tables.json) $(DESTDIR)$(sharedir)/nooks_bench
	$(data) workbench/nooks_bench/schemas/*.json $(DESTDIR)$(sharedir)/nooks_bench/schemas
	$(data) workbench/nooks_bench/page_files/* $(DESTDIR)$(sharedir)/nooks_bench/page_files
	ln -sfn nooks_bench/schemas $(DESTDIR)$(sharedir)/schemas
	for page in nooks.1 nooks-bench.1; do \
	    $(generate) $$page > $(DESTDIR)$(mandir)/$$page && gzip -9nf $(DESTDIR)$(mandir)/$$page || exit 1; done
	for name in nooks nooks-bench; do \
	    $(generate) $$name.bash > $(DESTDIR)$(bashdir)/$$name && $(generate) _$$name > $(DESTDIR)$(zshdir)/_$$name || exit 1; done
	$(data) workbench/editors/vim/syntax/nooksasm.vim $(DESTDIR)$(vimdir)/syntax
	$(data) workbench/editors/vim/ftdetect/nooksasm.vim $(DESTDIR)$(vimdir)/ftdetect
	install -d $(DESTDIR)$(sharedir)/vscode/nooks-asm
	cp -RL workbench/editors/vscode/. $(DESTDIR)$(sharedir)/vscode/nooks-asm
	$(data) README.md $(DESTDIR)$(docdir)
	gzip -9nc CHANGELOG.md > $(DESTDIR)$(docdir)/changelog.gz
	$(data) docs/*.md $(DESTDIR)$(docdir)/docs
	$(data) docs/guard/* $(DESTDIR)$(docdir)/docs/guard
	$(data) docs/maps/* $(DESTDIR)$(docdir)/docs/maps
	$(data) docs/pages/* $(DESTDIR)$(docdir)/docs/pages
	$(data) docs/survival/*.svg $(DESTDIR)$(docdir)/docs/survival
	cp -R examples $(DESTDIR)$(docdir)
	chmod -R u+rwX,go+rX,go-w $(DESTDIR)$(docdir) $(DESTDIR)$(sharedir)
	chmod 644 $(DESTDIR)$(mandir)/nooks*.1.gz $(addprefix $(DESTDIR)$(bashdir)/,nooks nooks-bench) \
	    $(addprefix $(DESTDIR)$(zshdir)/,_nooks _nooks-bench)
	@# The installation of a package writes its bytecode, so its tree has none.
	[ -n "$(DESTDIR)" ] || $(PYTHON) -m compileall -q $(sharedir)/nooks_bench

uninstall:
	rm -f $(addprefix $(DESTDIR)$(bindir)/,nooks nooks-bench) $(addprefix $(DESTDIR)$(mandir)/,nooks.1.gz nooks-bench.1.gz) \
	    $(addprefix $(DESTDIR)$(bashdir)/,nooks nooks-bench) $(addprefix $(DESTDIR)$(zshdir)/,_nooks _nooks-bench) \
	    $(DESTDIR)$(vimdir)/syntax/nooksasm.vim $(DESTDIR)$(vimdir)/ftdetect/nooksasm.vim
	rm -rf $(DESTDIR)$(docdir) $(DESTDIR)$(sharedir)
