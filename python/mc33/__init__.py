"""The proved Marching Cubes 33 chooser: one cube at a prompt, or lists of millions.

    import mc33
    mc33.choose_signs([1, -1, 1, -1, -1, -1, -1, -1]).name    # '3_2', case and configuration by the signs
    rows = mc33.choose_list_signs(corners)                    # 8 corners and ROW answer bytes a cube
    mc33.columns(rows).code

`choose` and `choose_list` take case and configuration from the caller. The sign rule: a corner belongs to a cube's set
if its value is above 0; a zero of either sign does not. `family_of` has the case and configuration of a set.

Needs libmc33.so, which ./install.sh of the repository makes in target/staticlib, or puts where the system looks;
MC33_LIBRARY names another file. The first call that needs it loads it, and is an ImportError in words where it is
missing, of another major version or before this one.
"""
from .lists import choose_list, choose_list_signs
from .refusals import REFUSALS, Refused, refusal_text
from .release import VERSION as __version__
from .routines import FaceTrust, Family, Reading
from .routines import choose, choose_signs, family_of, read_edge, root, root_bits, test_face, trust_face, version
from .rows import Choice, Columns, choices, columns
from .tables import CONFIGURATIONS, EMPTY, MOST_READINGS, NO_TILING, ROW, TILINGS

__all__ = [
    "CONFIGURATIONS", "EMPTY", "MOST_READINGS", "NO_TILING", "REFUSALS", "ROW", "TILINGS", "Choice", "Columns",
    "FaceTrust", "Family", "Reading", "Refused", "choices", "choose", "choose_list", "choose_list_signs",
    "choose_signs", "columns", "family_of", "read_edge", "refusal_text", "root", "root_bits", "test_face", "trust_face",
    "version",
]
