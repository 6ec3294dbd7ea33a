# Builds, installs and checks. The program is proved where it is built: that takes the Rattle kit and some 15 minutes.
#     make install [PREFIX=/usr/local] [DESTDIR=]
PREFIX ?= /usr/local
to = $(DESTDIR)$(PREFIX)
tools = launch map record

all:
	$(MAKE) -C native
	./multiverse list examples/hello/hello >/dev/null

# all checks that .ci/run runs behind the gate
check: all
	@status=0; for check in $$(sed -n 's,^\(checks/[a-z]*\) .*,\1,p' .ci/run); do $$check || status=1; done; exit $$status

install: all
	install -d $(to)/bin $(to)/libexec/multiverse $(to)/share/multiverse/profiles $(to)/share/man/man1 \
	  $(to)/share/bash-completion/completions
	install multiverse $(to)/bin/multiverse
	install build/multiverse $(to)/libexec/multiverse/multiverse
	./multiverse --version | sed 's/.*proved with //' >$(to)/share/multiverse/kit
	chmod 644 $(to)/share/multiverse/kit
	for tool in $(tools); do install native/$$tool $(to)/bin/multiverse-$$tool || exit 1; done
	install native/profile $(to)/bin/multiverse-profile
	install -m 644 native/profiles/*.py $(to)/share/multiverse/profiles
	install -m 644 packaging/multiverse.1 $(to)/share/man/man1/multiverse.1
	for tool in $(tools) profile; do \
	  echo '.so man1/multiverse.1' >$(to)/share/man/man1/multiverse-$$tool.1 || exit 1; \
	  chmod 644 $(to)/share/man/man1/multiverse-$$tool.1; \
	done
	install -m 644 packaging/multiverse.bash $(to)/share/bash-completion/completions/multiverse
	for tool in $(tools) profile; do ln -sf multiverse $(to)/share/bash-completion/completions/multiverse-$$tool; done

uninstall:
	rm -rf $(to)/libexec/multiverse $(to)/share/multiverse
	for name in multiverse $(tools:%=multiverse-%) multiverse-profile; do \
	  rm -f $(to)/bin/$$name $(to)/share/man/man1/$$name.1 $(to)/share/bash-completion/completions/$$name; \
	done

clean:
	$(MAKE) -C native clean

.PHONY: all check install uninstall clean
