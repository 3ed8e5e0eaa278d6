"""The run of a source by tools/plain_run, for tools that make sources."""
import os
import re
from importlib.machinery import SourceFileLoader
from importlib.util import module_from_spec, spec_from_loader

PATH = os.path.join(os.path.dirname(os.path.dirname(os.path.realpath(__file__))), "plain_run")


def plain_run():
    loader = SourceFileLoader("plain_run", PATH)
    module = module_from_spec(spec_from_loader("plain_run", loader))
    loader.exec_module(module)
    return module


PLAIN = plain_run()


def plain_transcript(canonical, seed, steps):
    """The transcript of a source in canonical text, or None where a channel is started at two places, which the plain body doesn't take."""
    text = canonical.decode()
    channels = re.findall(r"^ *start (\w+)\(", text, re.MULTILINE)
    if len(set(channels)) < len(channels):
        return None
    return "".join(line + "\n" for line in PLAIN.transcript(text, seed, steps)).encode()
