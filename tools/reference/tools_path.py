"""Makes the modules of the folder above, `foxdec_graph` among them, known to those of this folder."""
import pathlib
import sys

sys.path.append(str(pathlib.Path(__file__).resolve().parent.parent))
