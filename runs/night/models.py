"""The models of row text (tests/text/model.py) and of the tally (runs/tally/model.py), by names of their own."""
import importlib.util
import os

TOP = os.path.dirname(os.path.dirname(os.path.dirname(os.path.abspath(__file__))))


def model(name, folder):
    spec = importlib.util.spec_from_file_location(name, os.path.join(TOP, folder, "model.py"))
    module = importlib.util.module_from_spec(spec)
    spec.loader.exec_module(module)
    return module


row_text = model("row_text", "tests/text")
tally = model("tally", "runs/tally")
