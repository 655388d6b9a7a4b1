# Installs Tosculai, without a build: `make install`, and `make uninstall` for the way back.
#
#   PREFIX    where the programs are, as /usr/local; the units and man pages are below it, too
#   DESTDIR   a folder that stands for the root, for packagers
#
# /etc/default/tosculai is only installed where there is none, and never removed. The users aren't
# made: `systemd-sysusers` does it, from the file in PREFIX/lib/sysusers.d.
PREFIX = /usr/local
DESTDIR =

.PHONY: all install uninstall
all:
	@echo 'make install [PREFIX=/usr/local] [DESTDIR=]'

# MANIFEST has a line for each file: its mode, whether its text has the prefix, and its path.
install:
	@umask 022; while read -r mode text path; do \
	    case $$path in \
	    etc/*) to="$(DESTDIR)/$$path"; [ ! -e "$$to" ] || continue ;; \
	    *) to="$(DESTDIR)$(PREFIX)/$${path#usr/}" ;; \
	    esac; \
	    install -D -m "$$mode" "tree/$$path" "$$to" || exit; \
	    [ "$$text" = copied ] || sed 's|@PREFIX@|$(PREFIX)|g' "tree/$$path" > "$$to" || exit; \
	done < MANIFEST
	@echo 'Installed. Next: systemd-sysusers && systemctl daemon-reload &&'
	@echo '    systemctl enable --now contacts.service'

uninstall:
	@while read -r mode text path; do \
	    case $$path in etc/*) ;; *) rm -f "$(DESTDIR)$(PREFIX)/$${path#usr/}" ;; esac; \
	done < MANIFEST
