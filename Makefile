# make install, make uninstall: the proved programs with what runs and reads them, their manual pages and completions, below PREFIX (with
# DESTDIR before it), from the tree, where they have to be proved (./prove), or from an unpacked release.
# PROGRAM_PREFIX stands before the commands' names, for a machine that has other commands of these names.
PREFIX = /usr/local
DESTDIR =
PROGRAM_PREFIX =
NAMES = review rollout view doctor
TOOLS = window wire prepare collect sweep
PACKAGES = launching windowing showing preparing wiring sweeping
# The manual pages name the version.
versioned = sed '1s/ Diqenyu / "Diqenyu '"$$(cat VERSION)"'" /'

to = $(DESTDIR)$(PREFIX)
inside = $(to)/lib/diqenyu
pages = $(to)/share/doc/diqenyu
bash = $(to)/share/bash-completion/completions
zsh = $(to)/share/zsh/site-functions

.PHONY: all install uninstall

all:
	@echo 'make install or make uninstall, with PREFIX=$(PREFIX) DESTDIR=$(DESTDIR) PROGRAM_PREFIX=$(PROGRAM_PREFIX)'

install:
	@for name in $(NAMES); do \
	    [ -x programs/$$name ] || [ "$$(./launch --state $$name | head -n 1)" = proved ] || \
	    { echo "$$name isn't proved of today's sources: ./prove $$name proves and builds it" >&2; exit 70; }; \
	done
	install -d '$(inside)/programs' '$(to)/bin' '$(to)/share/man/man1' '$(to)/share/man/man7' '$(bash)' '$(zsh)' '$(pages)'
	install -m 755 launch $(NAMES) $(TOOLS) '$(inside)/'
	install -m 644 VERSION '$(inside)/'
	for name in $(NAMES); do \
	    if [ -x programs/$$name ]; then program=programs/$$name; else program=$$(./launch --state $$name | sed -n 2p); fi && \
	    install -m 755 "$$program" "$(inside)/programs/$$name" && \
	    install -m 644 "$$program.made" "$(inside)/programs/$$name.made" || exit 1; \
	done
	for package in $(PACKAGES); do \
	    find $$package ! -type d ! -name '*.pyc' | while read -r file; do \
	        install -D -m 644 "$$file" "$(inside)/$$file" || exit 1; \
	    done || exit 1; \
	done
	umask 022; for name in $(NAMES) $(TOOLS); do \
	    ln -sfn ../lib/diqenyu/$$name "$(to)/bin/$(PROGRAM_PREFIX)$$name" || exit 1; \
	    [ -e man/$$name.1 ] || continue; \
	    $(versioned) man/$$name.1 >"$(to)/share/man/man1/$(PROGRAM_PREFIX)$$name.1" && \
	    sed 's/^complete .*/complete -F _diqenyu $(PROGRAM_PREFIX)'$$name/ completions/diqenyu.bash >"$(bash)/$(PROGRAM_PREFIX)$$name" && \
	    sed '1s/.*/#compdef $(PROGRAM_PREFIX)'$$name'='$$name/ completions/_diqenyu >"$(zsh)/_$(PROGRAM_PREFIX)$$name" || exit 1; \
	done
	umask 022; $(versioned) man/diqenyu.7 >'$(to)/share/man/man7/diqenyu.7'
	install -m 644 README.md CHANGELOG.md docs/*.md docs/*.json '$(pages)/'
	install -d '$(pages)/img'
	install -m 644 docs/img/*.png '$(pages)/img/'
	if [ -e RELEASE ]; then install -m 644 RELEASE REPORT SOURCES PROGRAMS '$(pages)/'; fi
	cp -R examples '$(pages)/'

uninstall:
	for name in $(NAMES) $(TOOLS); do \
	    rm -f "$(to)/bin/$(PROGRAM_PREFIX)$$name" "$(to)/share/man/man1/$(PROGRAM_PREFIX)$$name.1" \
	        "$(bash)/$(PROGRAM_PREFIX)$$name" "$(zsh)/_$(PROGRAM_PREFIX)$$name"; \
	done
	rm -f '$(to)/share/man/man7/diqenyu.7'
	rm -rf '$(inside)' '$(pages)'
