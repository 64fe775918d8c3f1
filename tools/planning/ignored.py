"""The keys of a catalogue that the program ignores, and that have a meaning for the launcher and for nandutable-controller --signals.

A path has the names of the objects from the top on, without the numbers of lists. What is below an ignored key is not read as a catalogue.
"""

IGNORED = frozenset({
    ("DeviceAccessPointItem", "Name"),
    ("DeviceAccessPointItem", "VirtualSubmoduleItem", "Name"),
    ("ModuleItem", "Name"),
    ("ModuleItem", "VirtualSubmoduleItem", "Name"),
    ("Project", "Signals"),
    ("ChannelDiagList",),
})
