# Certifies a folder of lines: NAME.toml with its scripts NAME.csv gives NAME.cert.
#
#     make -f tools/certify.mk PILOT=out/quick/pilot LINES=folder -j 4 -k
#
# A line whose two files did not change is not certified again. One that is not certified for every choice leaves its
# certificate as NAME.cert.open, has no NAME.cert then, names itself, and fails the run; `-k` goes on with the others. A folder
# that is not there or holds no line, a program that is not there, a line without scripts and a name with a space are told and
# fail the run.
PILOT ?= pilot
LINES ?= .

lines := $(addprefix $(LINES)/,$(shell ls '$(LINES)' 2>/dev/null | grep '\.toml$$' | grep -v ' '))
program := $(shell command -v '$(PILOT)' 2>/dev/null)
certificates := $(if $(program),$(lines:.toml=.cert))
space := $(shell ls '$(LINES)' 2>/dev/null | grep '.* .*\.toml$$')

all: $(certificates)
ifeq ($(wildcard $(LINES)/.),)
	@echo 'certify: there is no folder $(LINES)'; exit 1
else ifeq ($(program),)
	@echo 'certify: there is no program $(PILOT)'; exit 1
else ifneq ($(space),)
	@echo 'certify: a name with a space is passed over: $(space)'; exit 1
else ifeq ($(lines),)
	@echo 'certify: no line file NAME.toml in $(LINES)'; exit 1
endif

$(LINES)/%.cert: $(LINES)/%.toml $(LINES)/%.csv $(wildcard $(PILOT))
	@rm -f $@ $@.open; $(PILOT) certify $(LINES)/$*.toml $(LINES)/$*.csv > $@.open \
	    && mv $@.open $@ && echo '$*: every verdict is yes' \
	    || { status=$$?; echo "$*: status $$status, see $@.open"; exit 1; }

$(LINES)/%.csv:
	@echo 'certify: $*.toml has no scripts $*.csv'; exit 1

.PHONY: all
