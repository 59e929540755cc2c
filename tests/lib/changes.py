"""Changes to files, in the form of a must-fail edit: a line `file: PATH`, and for each change of that file the lines `old: TEXT`, which
stands there once, and `new: TEXT`, which takes its place. Later changes apply to what earlier ones made."""


def changes_of(lines):
    """The changes, each a file, an old text and a new one. Other lines tell no change."""
    changes, file, old = [], "", ""
    for line in lines:
        key, _, rest = line.partition(":")
        text = rest.removeprefix(" ")
        if key == "file":
            file = text
        elif key == "old":
            old = text
        elif key == "new":
            changes.append((file, old, text))
    return tuple(changes)


def changed(folder, changes):
    """The files of the folder that are changed: the text of each, and what it becomes."""
    before, after = {}, {}
    for file, old, new in changes:
        path = folder / file
        if path not in after:
            before[path] = after[path] = path.read_text()
        if after[path].count(old) != 1:
            raise ValueError(f"{folder.name}/{file} has {after[path].count(old)} times: {old}")
        after[path] = after[path].replace(old, new)
    return before, after
