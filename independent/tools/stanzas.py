#!/usr/bin/env python3
"""Writes the published descriptions, continuation lines joined.

usage: stanzas.py DRAFT.txt > tests/data/stanzas.txt
"""
import re
import sys

text = open(sys.argv[1], encoding="utf-8").read()
section = text[text.index("Descriptions of currently defined RRTYPEs"):]
body = section[section.index("<![CDATA[") + len("<![CDATA["):section.index("]]>")]
# "The \ indicating continuation lines are only for display".
body = re.sub(r"\\\n[ \t]+", "", body)
print(body.strip("\n"))
