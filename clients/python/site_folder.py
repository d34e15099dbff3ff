"""site_folder.py PREFIX: prints the folder in which this Python finds packages that are installed below PREFIX.

Debian's own packages, below /usr, have one for all versions of Python. Below /usr/local it is the folder for what an administrator
installs, wherever this Python has it. Below any other PREFIX it is where Python looks if PYTHONPATH, or its own prefix, says so.
"""

import sys
import sysconfig


def site_folder(prefix: str) -> str:
    """Returns the folder."""
    if prefix == "/usr":
        return "/usr/lib/python3/dist-packages"
    if prefix == "/usr/local":
        return sysconfig.get_path("purelib")
    return sysconfig.get_path("purelib", "posix_prefix", vars={"base": prefix})


if __name__ == "__main__":
    print(site_folder(sys.argv[1]))
