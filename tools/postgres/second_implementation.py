"""Puts the second implementation on the path: its readers of schemas, files of tables and terms, and its plans, are used here."""
import sys
from pathlib import Path

TOP = Path(__file__).resolve().parent.parent.parent
sys.path.insert(0, str(TOP / "tools/second_implementation"))
