"""The public calls of the libraries, each with its contract."""
import re

from public_items import passed, public_items
from rt_api import LAYERS, LIBRARIES

# The items of lower layers for upper ones: public by a type or a module that the library re-exports, and not for users.
OF_LAYERS = {
    "SchemeRef::of_known_scheme", "UrlRef::canonical_pieces", "UrlRef::form", "UrlRef::helper_pieces", "UrlRef::is_settled_as",
    "UrlRef::matching_spelling", "UrlRef::own_form", "UrlRef::own_pieces", "UrlRef::path_pieces", "UrlRef::pieces", "UrlRef::scp_pieces",
}


def calls(found):
    """The contracts of the calls among items, by the last two words of their paths; all laws are named as if in the module `laws`."""
    named = {}
    for path, text in found.items():
        if re.search(r"(?m)^ *pub fn ", text):
            owner, name = ["crate", *path.split("::")][-2:]
            named[f"{'laws' if name.startswith('law_') else owner}::{name}"] = text
    return named


def passed_calls():
    """The contracts of the calls that come with the re-exports of lower layers."""
    return calls({path + it.removeprefix(there): text for library in LIBRARIES for path, (below, there) in passed(library).items() if below in LAYERS
                  for it, text in public_items(below).items() if f"{it}::".startswith(f"{there}::")})


def contracts():
    """The contract of each public call of the libraries, by its name: their own, and the re-exported ones."""
    found = {name: it for name, it in passed_calls().items() if name not in OF_LAYERS}
    return {**found, **{name: it for library in LIBRARIES for name, it in calls(public_items(library)).items()}}
