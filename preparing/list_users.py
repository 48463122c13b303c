"""The lines that name an access list, a prefix list or a route map for something else than a packet that is forwarded: what a protocol
or a login does by it isn't in the model."""
MOVES = "it may move a protocol, and the model has no protocols"
LIST_CHANGES = "list %s changes, and what is done by it here isn't in the model"


def names_of(words):
    """The lists and route maps that a line names, each as its kind and its name."""
    if words[:1] == ["no"]:
        return []
    if words[:1] == ["distribute-list"] and len(words) > 1:
        if words[1] in ("prefix", "gateway", "route-map"):
            return [("route-map" if words[1] == "route-map" else "prefix-list", name) for name in words[2:3]]
        return [("access-list", words[1])]
    if words[:1] == ["access-class"]:
        return [("access-list", name) for name in words[1:2]]
    if words[:3] == ["match", "ip", "address"] or words[:3] == ["match", "ip", "next-hop"]:
        if words[3:4] == ["prefix-list"]:
            return [("prefix-list", name) for name in words[4:]]
        return [("access-list", name) for name in words[3:]]
    found = []
    for k, word in enumerate(words[:-1]):
        if k and word in ("route-map", "prefix-list", "distribute-list"):
            found.append((word if word != "distribute-list" else "access-list", words[k + 1]))
    return found


def users_of(blocks):
    """The lines that name lists and route maps so, each with what it names."""
    for block in blocks:
        words = block.words()
        if words[:1] in (["router"], ["route-map"], ["line"]):
            for line in block.inner():
                for kind, name in names_of(line.words()):
                    yield line, kind, name
