# The names that everybody types: each is one line, and the script that it calls says what it needs. See `make help`.
PREFIX = /usr/local
.PHONY: all first check install deb clean help
all: ; BUILD_ONLY=yes packaging/install.sh
first: ; bash tests/real/first
check: ; bash .ci/run
install: ; PREFIX='$(PREFIX)' packaging/install.sh
deb: ; packaging/build-deb.sh .
clean: ; rm -rf crates/*/out coefhird_*.deb
help: ; @sed -n 's/^## //p' Makefile
## make first            builds without proving, and runs a first job: two minutes
## make                  proves and builds the installed program: about an hour
## make check            the gate: checks all proofs and runs all tests, one to three hours
## make install PREFIX=  installs the proved program, in /usr/local unless PREFIX names a directory
## make deb              makes the Debian package
## make clean            removes what was built
