"""A second reading of Git locations, in another language than the library's.

Its purpose: the answers that tests expect are computed here, so that no expected value is the library's own output. The library
searches for marks; this package tries every split of the bytes and checks which of them the grammar allows. It is slow and
plain on purpose, is written from docs/GRAMMAR.md and not from the code, and only needs Python 3.

Its modules, each of which uses only those above it:

  octets, hosts, grammar               bytes and escapes; addresses, hosts and ports; the location that a text spells
  writing, settled_class, git_class    the text of a location; whether it comes back; whether Git reads the same
  unambiguous                          the texts that no reader is known to read differently
  git_reads, web_defined               the readings of Git, of its credential code and of a reader of URIs, by their definitions
  web_plain                            the conditions on HTTP for which all read the same
  groups, dangers                      the hosts that groups of readers find; the dangers in a line
  records, fault_places                components and records; the place and the reason of an error in a text
  errors, line_answers                 the error of a refused text; the answers of `locations`
  laws, short_inputs                   laws that all this has to meet; the stored run of `locations`
  plain_paths                          paths of URLs and of home folders
  row_outcomes                         the outcomes of rows in `vectors/`
  shown_text                           how bytes are shown on a terminal
  explain_lines, explain, readers, hints, explain_tables, stored_run    the stored run of `explain`, and the tables of the documents
  hint_sentences, reason_examples      the words and an example of each hint, an example of each reason
  text_answers                         what `explain` prints of a line as text

`scripts/grammar` calls it.
"""
