COUNT ?= 1000000
PREFIX ?= /usr/local

.PHONY: run lib install deb test soak bench help

run:
	@PROBLEM='$(PROBLEM)' tools/run

lib:
	@tools/lib

install:
	@PREFIX='$(PREFIX)' DESTDIR='$(DESTDIR)' tools/install

deb:
	@tools/deb

test:
	@tools/test

soak:
	@tools/soak $(COUNT)

bench:
	@tools/bench

help:
	@cat tools/help
