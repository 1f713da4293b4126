"""Sheets as trees, for the tools that look at nodes: a text (bytes), a comment (Comment) or an element (name, attributes, children); a
sheet is a list of trees. For sheets that are made as fields at once, see sheets.py.
"""
from sheets import field


class Comment:
    def __init__(self, content):
        self.content = content

    def __repr__(self):
        return "Comment(%r)" % self.content


def el(name, *kids, attrs=()):
    return (name, list(attrs), list(kids))


def encode(sheet):
    """document 01, "The sheet" """
    out = bytearray()
    for node in sheet:
        if isinstance(node, bytes):
            out += field(4, node)
        elif isinstance(node, Comment):
            out += field(5, node.content)
        else:
            name, attrs, kids = node
            out += field(1, name.encode())
            for key, value in attrs:
                out += field(2, key) + field(3, value)
            out += encode(kids) + field(6, b"")
    return bytes(out)


def attribute(attrs, name):
    """A repeated attribute name keeps its first value."""
    for key, value in attrs:
        if key == name:
            return value
    return None
