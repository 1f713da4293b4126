"""cmark-gfm with its table extension, through the module cmark_list.py whose path is given."""
import contextlib
import importlib.util


def load(path):
    spec = importlib.util.spec_from_file_location("cmark_list", path)
    module = importlib.util.module_from_spec(spec)
    spec.loader.exec_module(module)
    return module


@contextlib.contextmanager
def document(module, text):
    """the root of the tree that cmark-gfm makes of the text"""
    c = module._c
    p = c.cmark_parser_new(0)
    c.cmark_parser_attach_syntax_extension(p, module._TABLE)
    c.cmark_parser_feed(p, text, len(text))
    d = c.cmark_parser_finish(p)
    try:
        yield d
    finally:
        c.cmark_node_free(d)
        c.cmark_parser_free(p)
