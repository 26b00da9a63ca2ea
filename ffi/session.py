"""The first session of README.md by the library: Ann and Ben each write alone, then each takes what the other has."""
from textpeer import Editor, Refused

# The identifier and the actors that the keys of the session give.
TEXT = bytes.fromhex("ade0b876903df1a0e56a5d4028bd8653")
FIRST = bytes.fromhex("5af0404596b21f9f7b6e73d7963c8e20")
ANN = bytes.fromhex("26c81a258db38a393970066c1181c705")
BEN = bytes.fromhex("5592501d3c9183dc6b6c063c69f05a97")

with Editor(TEXT, FIRST) as first:
    print(first.identifier.hex())
    print(first.edit(0, 0, "Hello world").hex())
    saved = first.save()
with Editor.load(saved, ANN) as ann, Editor.load(saved, BEN) as ben:
    print(ann.edit(5, 0, ",").hex())
    print(ben.edit(6, 5, "Ann!", time=7, message="to Ann").hex())
    print("applied", ann.merge(ben))
    print("applied", ben.merge(ann))
    print(ann.text())
    print(ben.text())
    print(len(ann.heads()))
    print(ann.text_at([ann.change(0).hash]))
    try:
        ann.edit(99, 0, "x")
    except Refused as refused:
        print("textpeer:", type(refused).__name__)
