# For anyone who looks for a Makefile: each target is a command of README.md.
.PHONY: help run build library test ci stage install uninstall dist packages

PREFIX = /usr/local
# The folder of all that is installed, and that of the programs in C.
STAGE = out/stage
CLIENT = out/client
# The pages of docs/ that are installed, and those that aren't.
manuals = GUIDE COMMANDS SUBSYSTEM-FILE NVME-MODEL BUS DIFFERENCES QEMU EMBEDDING SUPPORT dev/BENCHES
left_out = (dev/)?(ARCHITECTURE|PROOFS)|SPEED
pages = $(STAGE)/share/doc/nvme-script
# Puts the version into a text, and whether a program or library is the proved one of these sources.
with_version = sed "s|@VERSION@|$$(cat VERSION)|"
is_current = tools/stamp is-current $(1) < /dev/null > /dev/null 2>&1

help:
	@echo 'make run ARGS="OPTION.." < SCRIPT   ./nvme-script: runs a script'
	@echo 'make build                          makes the proved programs, nvme-script and nvme-model'
	@echo 'make library                        makes the library nvme_controller, in out/library'
	@echo 'make test                           .ci/run --quick: the tests that need no proof'
	@echo 'make ci                             .ci/run: the gate, with every proof'
	@echo 'make install                        puts what was built, and its manual, under PREFIX, $(PREFIX)'
	@echo 'make uninstall                      takes it away'
	@echo 'make packages                       builds all programs and the library, and packs them, in out/dist'
	@echo 'make dist                           packs what was built'

run:
	@./nvme-script $(ARGS)

build:
	@./nvme-script --build
	@./nvme-model --build

library:
	@tools/library

test:
	@.ci/run --quick

ci:
	@.ci/run

install: stage
	@$(STAGE)/install "$(DESTDIR)$(PREFIX)"

uninstall:
	@tools/install --remove "$(DESTDIR)$(PREFIX)"

packages:
	@command -v dh_builddeb > /dev/null || { echo 'packages need debhelper: apt install debhelper' >&2; exit 72; }
	@$(MAKE) -s build
	@tools/build nvme_explain
	@tools/build nvme_trace
	@tools/build nvme_bench
	@tools/library
	@tools/dist

dist:
	@tools/dist

# The programs need nothing else from this repository, and find each other from any folder. What wasn't built is left
# out, except for nvme-script and nvme-model.
stage:
	@for program in nvme_script nvme_device; do \
	    $(call is_current,$$program) || { echo 'there are no proved programs: make build' >&2; exit 1; } \
	done
	@./nvme-model --compile $(CLIENT)
	rm -rf $(STAGE)
	install -D -m 755 tools/install $(STAGE)/install
	install -D -m 755 crates/nvme_device/out/nvme_device $(STAGE)/lib/nvme-model/nvme_device
	install -D -m 755 $(CLIENT)/bin/nvme-model $(STAGE)/bin/nvme-model
	@for part in library.so qemu vm_guest.static vm.py vm_guest.sh; do \
	    [ ! -e $(CLIENT)/lib/nvme-model/$$part ] || \
	        install -m 755 $(CLIENT)/lib/nvme-model/$$part $(STAGE)/lib/nvme-model || exit; \
	done
	@[ ! -e $(CLIENT)/lib/nvme-model/vm.py ] || install -m 644 client/vm_usage.txt $(STAGE)/lib/nvme-model
	install -m 755 crates/nvme_script/out/nvme_script $(STAGE)/lib/nvme-model
	@! $(call is_current,nvme_explain) || install -m 755 crates/nvme_explain/out/nvme_explain $(STAGE)/lib/nvme-model
	@for name in trace bench; do \
	    ! $(call is_current,nvme_$$name) || \
	        install -m 755 crates/nvme_$$name/out/nvme_$$name $(STAGE)/bin/nvme-$$name || exit; \
	done
	$(with_version) nvme-script > $(STAGE)/bin/nvme-script
	chmod 755 $(STAGE)/bin/nvme-script
	$(with_version) nvme-describe > $(STAGE)/bin/nvme-describe
	chmod 755 $(STAGE)/bin/nvme-describe
	for name in script trace model describe; do \
	    install -D -m 644 docs/completion.bash $(STAGE)/share/bash-completion/completions/nvme-$$name && \
	    install -D -m 644 docs/completion.fish $(STAGE)/share/fish/vendor_completions.d/nvme-$$name.fish || exit; \
	done
	install -D -m 644 docs/completion.zsh $(STAGE)/share/zsh/site-functions/_nvme-script
	install -d $(STAGE)/share/man/man1
	for program in $(STAGE)/bin/*; do \
	    page=$${program##*/}.1; $(with_version) docs/$$page > $(STAGE)/share/man/man1/$$page || exit; \
	done
	@$(MAKE) --no-print-directory stage-pages
	@if $(call is_current,nvme_controller) && [ -e out/library/libnvme_controller.a ]; then \
	    $(MAKE) --no-print-directory stage-library; \
	fi

# (a link to what isn't installed becomes its text, and each page says what its names of files mean here)
note = Here, `./nvme-script` is `nvme-script`, and so on, all built. Files of `crates`, `client`, \
    `library`, `tests` and `tools` are in the repository.
.PHONY: stage-pages
stage-pages:
	install -d $(pages)/examples $(pages)/dev
	install -m 644 examples/*.* $(pages)/examples
	install -m 644 packages/copyright docs/command.svg $(pages)
	for page in $(manuals:%=docs/%.md) CHANGELOG.md; do \
	    sed -E -e 's#\]\(\.\./(examples/|CHANGELOG)#](\1#g; s#\]\(docs/#](#g' \
	        -e 's#\[([^]]*)\]\(((\.\./)+([a-z]|README|CONTRIBUTING)|($(left_out))\.md)[^)]*\)#\1#g' -e '1s#$$#\n\n$(note)#' $$page > $(pages)/$${page#docs/} || exit; \
	done

.PHONY: stage-library
stage-library:
	install -d $(STAGE)/include $(STAGE)/lib/pkgconfig $(STAGE)/share/nvme_controller $(STAGE)/share/man/man3
	install -m 644 out/library/*.h $(STAGE)/include
	cp -P out/library/libnvme_controller.* $(STAGE)/lib
	chmod 644 $(STAGE)/lib/libnvme_controller.*
	install -m 644 out/library/*.py* $(STAGE)/share/nvme_controller
	$(with_version) library/nvme_controller.pc.in > $(STAGE)/lib/pkgconfig/nvme_controller.pc
	$(with_version) docs/nvme_controller.3 > $(STAGE)/share/man/man3/nvme_controller.3
	install -d $(pages)/examples/c
	install -m 644 examples/c/* $(pages)/examples/c
