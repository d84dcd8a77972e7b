"""The attributes of an object of a subclass of Art, for copies and pickles."""
import copyreg


def state_of(it):
    """What a pickle keeps of an object beside its pairs, as object.__reduce_ex__ does: None, a dict, or a pair."""
    if hasattr(it, "__getstate__"):
        return it.__getstate__()
    attributes = getattr(it, "__dict__", None) or None
    slots = {name: getattr(it, name) for name in copyreg._slotnames(type(it)) if hasattr(it, name)}
    return (attributes, slots) if slots else attributes


def copy_state(it, to):
    """Gives the attributes of an object to another one of its class."""
    state = state_of(it)
    if state is None:
        return
    if hasattr(to, "__setstate__"):
        to.__setstate__(state)
        return
    attributes, slots = state if isinstance(state, tuple) and len(state) == 2 else (state, None)
    if attributes:
        to.__dict__.update(attributes)
    for name, value in (slots or {}).items():
        setattr(to, name, value)
