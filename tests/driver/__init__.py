"""What the scripts next to this folder share, which make lists of calls on volumes by the programs as they are built:
hfs_tool by each compiler, and hfs_plain, the definitions as a program."""
