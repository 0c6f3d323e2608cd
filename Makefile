# What can be done here. `make` alone says it.

CC := gcc
CFLAGS := -std=c11 -O2 -Wall -Wextra -Werror

host := target/host
library := target/staticlib/libhandset.a
cardrun := target/bin/cardrun
headers := $(wildcard host/*.h)
crates := crates.txt $(shell find crates -path '*/out' -prune -o -type f \( -name '*.rt' -o -name '*.antt' \) -print)

.DEFAULT_GOAL := help
.PHONY: help run test host host-check readers-check listings-check examples-check speed clean
.DELETE_ON_ERROR:

help:
	@echo 'make run         prove, build and run the worked examples, the lives of cards and a sheet'
	@echo 'make test        the gate: prove everything from nothing, compare with plain C'
	@echo 'make host        prove the handset read and cardrun, and build the C programs into $(host)/'
	@echo 'make host-check  compare the proved reader and cardrun with plain C ones, and run all example sheets'
	@echo 'make speed       time the readers, and cardrun beside the plain C one'
	@echo 'make clean       remove target/'

run: target/bin/examples target/bin/cardlife $(cardrun)
	@echo
	@target/bin/examples
	@echo
	@target/bin/cardlife
	@echo
	@$(cardrun) <examples/first.sheet >target/first.listing
	@{ printf 'examples/first.sheet\tits listing\n'; paste examples/first.sheet target/first.listing; } | expand -t 36

test:
	.ci/run

host: $(host)/read_page $(host)/compare $(host)/speed
host: $(cardrun) $(host)/plain_cardrun $(host)/compare_listings $(host)/speed_listings

host-check: readers-check listings-check examples-check

readers-check: $(host)/compare
	$(host)/compare

listings-check: $(host)/compare_listings $(cardrun) $(host)/plain_cardrun
	$(host)/compare_listings $(cardrun) $(host)/plain_cardrun $(host)

examples-check: $(cardrun) $(host)/plain_cardrun
	examples/check $(cardrun) $(host)/plain_cardrun

speed: $(host)/speed $(host)/speed_listings $(cardrun) $(host)/plain_cardrun
	$(host)/speed
	$(host)/speed_listings $(cardrun) $(host)/plain_cardrun

clean:
	rm -rf target

# the static library of the crate handset_c, for C to link
$(library): $(crates)
	cd crates/handset_c && rt lib
	@mkdir -p $(@D)
	@cp crates/handset_c/out/libhandset_c.a $@

# a program, proved and linked; it is run once, on its own input, since that is what builds it
target/bin/%: $(crates)
	cd crates/$* && rt run >/dev/null <$(if $(wildcard crates/$*/stdin),stdin,/dev/null)
	@mkdir -p $(@D)
	@cp crates/$*/out/$* $@

$(host)/%.o: host/%.c $(headers)
	@mkdir -p $(host)
	$(CC) $(CFLAGS) -c $< -o $@

$(host)/read_page: $(host)/read_page.o $(library)
$(host)/compare: $(host)/compare.o $(host)/pages.o $(host)/plain_reader.o $(host)/plain_code.o $(library)
$(host)/speed: $(host)/speed.o $(host)/pages.o $(host)/plain_reader.o $(host)/plain_code.o $(library)

$(host)/read_page $(host)/compare $(host)/speed:
	$(CC) $(CFLAGS) $^ -o $@

$(host)/plain_cardrun: $(host)/plain_cardrun.o $(host)/plain_card.o $(host)/plain_code.o
$(host)/compare_listings: $(host)/compare_listings.o $(host)/programs.o $(host)/sheets.o $(host)/pages.o
$(host)/speed_listings: $(host)/speed_listings.o $(host)/programs.o $(host)/sheets.o $(host)/pages.o

$(host)/plain_cardrun $(host)/compare_listings $(host)/speed_listings:
	$(CC) $(CFLAGS) $^ -o $@
