"""How long xsdata takes to read a message: `reading.py FOLDER MESSAGE`, where FOLDER has the package `made` of its generator. Medians of processor time."""
import sys
import time

from xsdata.formats.dataclass.parsers import XmlParser
from xsdata.formats.dataclass.parsers.handlers import LxmlEventHandler, XmlEventHandler

sys.path.insert(0, sys.argv[1])
from made import Document

RUNS = 5
with open(sys.argv[2], encoding="utf-8") as file:
    text = file.read()
for handler in (XmlEventHandler, LxmlEventHandler):
    parser = XmlParser(handler=handler)
    parser.from_string(text, Document)
    times = []
    for _ in range(RUNS):
        begun = time.process_time()
        parser.from_string(text, Document)
        times.append(time.process_time() - begun)
    print(f"xsdata by its {handler.__name__}: {sorted(times)[RUNS // 2] * 1e3:.0f} ms")
