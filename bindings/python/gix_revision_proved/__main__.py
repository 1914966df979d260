"""Runs git-proved: python -m gix_revision_proved COMMAND [WORD..]"""

import os
import sys

from ._repository import _program

os.execvp(_program(), ["git-proved", *sys.argv[1:]])
