"""The page on which a change is decided, rendered from the document of `window` (docs/window-schema.json).

It reads that document and what stands beside it (`page.Beside`), and nothing else. It is tested, not proved.
"""
