"""Tries that show, what ./dine explain calls, and each tool of tools/ and bench/ prints its arguments for --help, with
status 0, and refuses an argument that it does not know with one line, with status 2."""
import os
import re

import pytest
from lib.files import HOME, paths, text_of
from lib.process import answer_of

pytestmark = pytest.mark.early
FOUND = [it for it in ("show", *paths("features/*"), *paths("tools/*"), *paths("bench/*"))
         if os.path.isfile(f"{HOME}/{it}")]


@pytest.mark.parametrize("tool", [it for it in FOUND if text_of(it).startswith("#!/usr/bin/env python3\n")])
def test_help_and_strange_argument(tool):
    name, tool = os.path.basename(tool).removesuffix(".py"), f"{HOME}/{tool}"
    helped, refused = answer_of(["--help"], tool), answer_of(["--no-such-word"], tool)
    assert (helped.status, helped.error, refused.status, refused.output) == (0, "", 2, "")
    assert re.match(rf"usage: {name} \[-h\].*\n\n[A-Z]", helped.output, re.S)
    assert re.fullmatch(rf"{name}: .+; usage: {name} .*\n", refused.error)
